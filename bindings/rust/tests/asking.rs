//! One slip, pairs and tray files through the exported calls, against the plain program.
mod lent;
mod owned;
mod tally;
mod told;

use kotsghane::{compose_tray, read_tray, Settings, Tray, FILE_ENDS, MAX_FILE, MAX_SLIP};
use lent::Lent;
use owned::ours;
use plain::by_hand::{sides_written, COMPOSE, FILED, TYPED_FILE};
use plain::made::damage::{damaged, DAMAGES};
use plain::made::files::{blotted, damaged_file, sided_file, tray_file, BLOTS};
use plain::made::sides::{any_sides, NO_SIDES};
use plain::made::stops::{many_stops, share_stops_alone};
use plain::made::typed::{has_other_forms, many_forms, spoil, typed_slips};
use plain::made::{valid, Chance};
use plain::{file, tray, ONE_LETTER};
use tally::Tally;
use told::{plainly, refused};

/// No overlap is too short.
const DEFAULT: Settings = Settings::least(1);

/// All slips and all pairs of a tray, with 0 and a number above the count; answers how many pairs there were.
fn try_tray(plain: &tray::Tray, tally: &mut Tally) -> usize {
    let ours = ours(plain);
    let numbers = 0..=plain.ends.len() + 1;
    for i in numbers.clone() {
        let told = ours.slip(i);
        assert_eq!(told.map_err(plainly), plain.slip(i));
        if let Ok(letters) = told {
            // That stretch of the tray itself: where it starts, and how long it is.
            let start = if i == 1 { 0 } else { usize::from(plain.ends[i - 2]) };
            assert!(std::ptr::eq(letters, &ours.letters()[start..start + letters.len()]));
        }
        for j in numbers.clone() {
            let told = ours.overlap(i, j, DEFAULT);
            tally.count(&told);
            assert_eq!(told.map_err(plainly), plain.pair(i, j, ONE_LETTER));
        }
    }
    numbers.count().pow(2)
}

#[test]
fn slips_and_pairs_agree() {
    let (mut chance, mut tally, mut pairs) = (Chance::new(41), Tally::default(), 0);
    for n in 0..8_000 {
        let tray = match n % 4 {
            0 => damaged(&mut chance, DAMAGES[n / 4 % DAMAGES.len()], 12),
            _ => tray::Tray::of(&valid(&mut chance, 12, MAX_SLIP)),
        };
        if tray.ends.len() <= 12 {
            pairs += try_tray(&tray, &mut tally);
        }
    }
    tally.assert_all_from(&[0, 2, 3, 5, 6, 10, 11], 1_000);
    assert!(pairs > 400_000, "pairs: {pairs}");
}

/// Pairs of slips that share stops alone among them.
#[test]
fn pairs_with_many_stops_agree() {
    let (mut chance, mut tally, mut met) = (Chance::new(45), Tally::default(), 0);
    for n in 0..4_000 {
        let tray = tray::Tray::of(&many_stops(&mut chance, 12, [12, MAX_SLIP][n % 2]));
        met += usize::from(share_stops_alone(&tray));
        try_tray(&tray, &mut tally);
    }
    tally.assert_all_from(&[0, 10, 11], 1_000);
    assert!(met > 1_000, "trays in which slips share stops alone: {met}");
}

#[test]
fn numbers_up_to_32_bits() {
    let tray = Tray::of(&["AVG", "CAESAVG"]);
    for number in [3, 255, 256, 65_537, u32::MAX] {
        let slip = number as usize;
        assert_eq!(refused(&tray.slip(slip)), (10, number));
        assert_eq!(refused(&tray.overlap(slip, 1, DEFAULT)), (10, number));
        assert_eq!(refused(&tray.overlap(2, slip, DEFAULT)), (10, number));
    }
}

/// Numbers that 32 bits do not hold are taken as the highest that they do; cut off, they would be those of slips.
#[test]
fn numbers_over_32_bits() {
    let tray = Tray::of(&["AVG", "CAESAVG"]);
    for more in [0, 1, 2, usize::MAX - (1 << 32)] {
        let number = (1 << 32) + more;
        assert_eq!(refused(&tray.slip(number)), (10, u32::MAX));
        assert_eq!(refused(&tray.overlap(number, 1, DEFAULT)), (10, u32::MAX));
        assert_eq!(refused(&tray.overlap(2, number, DEFAULT)), (10, u32::MAX));
        assert_eq!(refused(&tray.overlap(number, number, DEFAULT)), (10, u32::MAX));
        let settings = Settings::least(number);
        assert_eq!(refused(&tray.overlap(1, 2, settings)), (21, 0));
        assert_eq!(refused(&compose_tray(&tray, settings)), (21, 0));
    }
}

/// Just enough letters, ends and sides.
const EXACT: [usize; 3] = [MAX_FILE, FILE_ENDS, FILE_ENDS];

/// A file in buffers that hold anything and have these lengths.
fn try_file(chance: &mut Chance, made: &[u8], [letters, ends, sides]: [usize; 3], tally: &mut Tally) {
    let before = Lent::of(chance, letters, ends, sides);
    let mut after = before.clone();
    let told = read_tray(made, &mut after.letters, &mut after.ends, &mut after.sides);
    tally.count(&told);
    before.assert_after(told, &after, &file::read_tray(made, letters, ends, sides));
}

#[test]
fn tray_files_agree() {
    let (mut chance, mut tally) = (Chance::new(42), Tally::default());
    for n in 0..3_000 {
        let all = valid(&mut chance, [6, 40, 200][n % 3], MAX_SLIP);
        let made = match n % 4 {
            0 => tray_file(&all),
            _ => damaged_file(&mut chance, &all, BLOTS[n / 4 % BLOTS.len()]),
        };
        let letters = [MAX_FILE, MAX_FILE, MAX_FILE + 7, MAX_FILE - 1][chance.below(4)];
        let mut ends = || [FILE_ENDS, FILE_ENDS + 3, FILE_ENDS, FILE_ENDS - 1][chance.below(4)];
        let rooms = [letters, ends(), ends()];
        try_file(&mut chance, &made, rooms, &mut tally);
    }
    tally.assert_all_from(&[0, 15, 17, 18], 150);
    tally.assert_all_from(&[19], 40);
}

/// Files as readers type them: whole, with bytes that are no signs, and damaged.
#[test]
fn typed_files_agree() {
    let (mut chance, mut tally, mut met) = (Chance::new(46), Tally::default(), 0);
    for n in 0..3_000 {
        let signs = many_forms(&mut chance, [6, 40, 200][n % 3], MAX_SLIP);
        let mut all = typed_slips(&mut chance, &signs);
        met += usize::from(has_other_forms(&all.concat()));
        let made = match n % 4 {
            0 => damaged_file(&mut chance, &all, BLOTS[n / 4 % BLOTS.len()]),
            1 => {
                all.iter_mut().for_each(|slip| spoil(&mut chance, slip, 1));
                tray_file(&all)
            }
            _ => tray_file(&all),
        };
        try_file(&mut chance, &made, EXACT, &mut tally);
    }
    tally.assert_all_from(&[0, 17, 18, 19], 100);
    assert!(met > 2_500, "files with letters that are not on the die: {met}");
}

/// All bytes but LF stand in a slip, one after another, beside a sign on either hand.
#[test]
fn each_byte_is_filed() {
    let (mut chance, mut tally) = (Chance::new(47), Tally::default());
    let bytes = (0..=255).filter(|&byte| byte != b'\n');
    let all: Vec<[u8; 3]> = bytes.map(|byte| [b'u', byte, b'j']).collect();
    try_file(&mut chance, &tray_file(&all), EXACT, &mut tally);
    tally.assert_all_from(&[0], 1);
}

/// What was worked out by hand, and the tray check after reading.
#[test]
fn letters_are_filed_as_the_die_has_them() {
    for (typed, filed) in FILED {
        let tray = Tray::read(tray_file(&[*typed])).expect("a file of one line");
        assert_eq!(tray, Tray::of(&[*filed]), "{typed:?}");
        let expected = if filed.contains(&0) { (6, 1) } else { (0, 0) };
        assert_eq!(refused(&tray.slip(1)), expected, "{typed:?}");
        assert_eq!(refused(&tray.check()), expected, "{typed:?}");
    }
    let tray = Tray::read(TYPED_FILE).expect("a whole file");
    assert_eq!(tray, Tray::of(COMPOSE.slips));
    assert_eq!(compose_tray(&tray, DEFAULT).expect("a valid tray").text, COMPOSE.legend);
}

#[test]
fn long_files_agree() {
    let (mut chance, mut tally) = (Chance::new(43), Tally::default());
    let many: String = (1..=1_700).map(|n| format!("{n:4}   0 \n")).collect();
    for size in [16_380, 16_383, 16_384, 16_385, 17_000] {
        try_file(&mut chance, &many.as_bytes()[..size], EXACT, &mut tally);
    }
    tally.assert_all_from(&[16], 2);
}

/// The comfortable form has the same outcome.
#[test]
fn owned_trays_agree() {
    let mut chance = Chance::new(44);
    for n in 0..500 {
        let all = valid(&mut chance, 20, MAX_SLIP);
        let made = match n % 2 {
            0 => tray_file(&all),
            _ => damaged_file(&mut chance, &all, BLOTS[n / 2 % BLOTS.len()]),
        };
        let plain = file::read_tray(&made, MAX_FILE, FILE_ENDS, FILE_ENDS);
        let told = Tray::read(&made).map_err(plainly);
        assert_eq!(told, plain.map(|tray| Tray::from_parts(tray.letters, tray.ends)));
    }
}

/// Column 9 is a side or 17, whatever stands after it.
#[test]
fn files_with_sides_by_hand() {
    let (mut chance, mut tally) = (Chance::new(48), Tally::default());
    for case in sides_written::FILES {
        let (name, file) = (case.name, case.file.as_bytes());
        let expected = case.told.map(|slips| ours(&tray::Tray::sided(slips)));
        let told = Tray::read(file).map_err(|refusal| (refusal.number() as usize, refusal.detail()));
        assert_eq!(told, expected, "{name}");
        try_file(&mut chance, file, EXACT, &mut tally);
        for lent in [[MAX_FILE, FILE_ENDS, FILE_ENDS - 1], [MAX_FILE, FILE_ENDS, 0]] {
            let mut fifteen = Tally::default();
            try_file(&mut chance, file, lent, &mut fifteen);
            fifteen.assert_all_from(&[15], 1);
        }
    }
    for byte in 0..=u8::MAX {
        let told = Tray::read(sided_file(&[(b'O', "AVG"), (byte, "AVG")]));
        let expected = if b" OR".contains(&byte) { (0, 0) } else { (17, 2) };
        assert_eq!(refused(&told), expected, "{byte} in column 9");
    }
}

/// Files with sides: whole, with another byte in column 9, and damaged. The letters may be as readers type them.
#[test]
fn files_with_sides_agree() {
    let (mut chance, mut tally, mut met) = (Chance::new(49), Tally::default(), [0; 3]);
    for n in 0..4_000 {
        let signs = many_forms(&mut chance, [6, 40, 200][n % 3], MAX_SLIP);
        let sides = any_sides(&mut chance, &signs).sides;
        let letters = [typed_slips(&mut chance, &signs), signs.clone()];
        let mut all: Vec<(u8, &Vec<u8>)> = sides.into_iter().zip(&letters[n % 2]).collect();
        met.iter_mut()
            .zip(b" OR")
            .for_each(|(count, side)| *count += usize::from(all.iter().any(|x| x.0 == *side)));
        if n % 4 == 1 {
            let at = chance.below(all.len());
            all[at].0 = chance.one(NO_SIDES);
        }
        let made = match n % 4 {
            2 => blotted(&mut chance, &sided_file(&all), BLOTS[n / 4 % BLOTS.len()]),
            _ => sided_file(&all),
        };
        let lent = match n % 16 {
            3 => [MAX_FILE, FILE_ENDS, FILE_ENDS - 1],
            7 => [MAX_FILE + 1, FILE_ENDS + 2, FILE_ENDS + 3],
            _ => EXACT,
        };
        try_file(&mut chance, &made, lent, &mut tally);
        let plain = file::read_tray(&made, MAX_FILE, FILE_ENDS, FILE_ENDS);
        assert_eq!(Tray::read(&made).map_err(plainly), plain.map(|tray| ours(&tray)));
    }
    tally.assert_all_from(&[0, 17], 1_000);
    tally.assert_all_from(&[15], 200);
    tally.assert_all_from(&[18, 19], 50);
    assert!(met.iter().all(|&count| count > 1_500), "files with each side: {met:?}");
}
