//! Trays as callers build, judge and store them, against the plain program.
mod owned;
mod told;

use kotsghane::{Side, Tray, FILE_ENDS, MAX_FILE, MAX_SLIP};
use owned::ours;
use plain::made::damage::{damaged, stored, DAMAGES};
use plain::made::files::{sided_file, tray_file};
use plain::made::sides::{any_sides, spread_sides, SPREADS};
use plain::made::stops::many_stops;
use plain::made::typed::many_forms;
use plain::made::{slips, valid, Chance, Slips, SHAPES};
use plain::tray;
use told::{plainly, refused};

/// Slips of a valid tray, the n-th of many kinds. U and J are among the letters of many.
fn any_slips(chance: &mut Chance, n: usize) -> Slips {
    let most = [6, 40, 200][n % 3];
    match n / 3 % 4 {
        0 => valid(chance, most, MAX_SLIP),
        1 => many_stops(chance, most, MAX_SLIP),
        2 => many_forms(chance, most, MAX_SLIP),
        _ => {
            let signs = chance.signs(27);
            slips(SHAPES[n % 5], chance, 200, 10, 10, &signs)
        }
    }
}

/// From both ends, by number, and through all that an iterator gives.
#[test]
fn slips_of_a_tray() {
    let mut chance = Chance::new(92);
    for n in 0..3_000 {
        let all = any_slips(&mut chance, n);
        let tray = Tray::of(&all);
        assert_eq!((tray.len(), tray.is_empty()), (all.len(), false));
        assert!(tray.slips().eq(all.iter()));
        assert!(tray.slips().rev().eq(all.iter().rev()));
        assert!((&tray).into_iter().eq(tray.slips()));
        let mut left = tray.slips();
        let (at, last) = (chance.below(all.len()), all.len() - 1);
        assert_eq!(left.nth(at), Some(&all[at][..]));
        assert_eq!(left.len(), last - at);
        assert_eq!(left.next_back(), (at < last).then(|| &all[last][..]));
        assert_eq!(left.clone().count(), left.len());
        assert_eq!(tray.slip(at + 1), Ok(&all[at][..]));
    }
    let empty = Tray::default();
    assert_eq!((empty.len(), empty.is_empty(), empty.slips().next()), (0, true, None));
}

/// Nothing is judged: a slip whose ends do not rise, or lie past the letters, is empty, and all others are stretches.
#[test]
fn slips_of_any_tray() {
    let (mut chance, mut empty, mut whole) = (Chance::new(93), 0, 0);
    for n in 0..4_000 {
        let plain = damaged(&mut chance, DAMAGES[n % DAMAGES.len()], 30);
        let tray = ours(&plain);
        assert_eq!(tray.slips().len(), plain.ends.len());
        let mut start = 0;
        for (slip, &end) in tray.slips().zip(&plain.ends) {
            let end = usize::from(end);
            if start < end && end <= plain.letters.len() {
                assert_eq!(slip, &plain.letters[start..end]);
                whole += 1;
            } else {
                assert_eq!(slip, b"");
                empty += 1;
            }
            start = end;
        }
        assert!(tray
            .slips()
            .rev()
            .eq(tray.slips().collect::<Vec<_>>().into_iter().rev()));
    }
    assert!(empty > 5_000 && whole > 50_000, "{empty} empty, {whole} whole");
}

/// One by one, all at once, and some after others: the same tray. Slips that are too long or empty among them.
#[test]
fn trays_of_slips() {
    let mut chance = Chance::new(94);
    for n in 0..2_000 {
        let mut all = match n % 2 {
            0 => any_slips(&mut chance, n / 2),
            _ => stored(&mut chance, 60),
        };
        if n % 5 == 0 {
            all.push(vec![]);
        }
        let tray = Tray::of(&all);
        let mut pushed = Tray::default();
        all.iter().for_each(|slip| pushed.push(slip));
        assert_eq!(pushed, tray);
        assert_eq!(all.iter().collect::<Tray>(), tray);
        assert_eq!(all.iter().map(|slip| &slip[..]).collect::<Tray>(), tray);
        let (first, second) = all.split_at(chance.below(all.len()));
        let mut extended = Tray::of(first);
        extended.extend(second);
        assert_eq!(extended, tray);
        assert_eq!(refused(&tray.check()), fault(&all));
        if all.iter().all(|slip| slip.len() <= MAX_SLIP) {
            assert_eq!(tray, ours(&tray::Tray::of(&all)));
        }
    }
}

/// What the plain program refuses of a tray with all letters of these slips.
fn fault(all: &Slips) -> (u32, u32) {
    let fault = tray::Tray::of(all).fault();
    fault.map_or((0, 0), |refusal| (refusal.number as u32, refusal.detail as u32))
}

/// A slip more does not hide that ends and letters do not belong together.
#[test]
fn slips_after_a_wrong_end() {
    for (letters, ends) in [("ABC", &[1, 2][..]), ("ABC", &[1, 4]), ("A", &[]), ("", &[1])] {
        let mut tray = Tray::from_parts(letters.into(), ends.to_vec());
        assert_eq!(refused(&tray.check()), (5, 0), "{letters}");
        for slip in ["D", "EF", "GHI"] {
            tray.push(slip);
            assert_eq!(refused(&tray.check()), (5, 0), "{letters}, and {slip}");
        }
    }
}

/// Rows 1 to 6, and nothing else, of valid and damaged trays, of the empty one, and of letters without a slip.
#[test]
fn checks_agree() {
    let (mut chance, mut met) = (Chance::new(95), [0; 7]);
    for n in 0..8_000 {
        let plain = match n % 4 {
            0 => tray::Tray::of(&any_slips(&mut chance, n / 4)),
            _ => damaged(&mut chance, DAMAGES[n / 4 % DAMAGES.len()], [1, 12, 200][n % 3]),
        };
        let told = ours(&plain).check().map_err(plainly);
        assert_eq!(told.err(), plain.fault());
        met[told.err().map_or(0, |refusal| refusal.number)] += 1;
    }
    assert!(met.iter().all(|&count| count > 300), "{met:?}");
    assert_eq!(Tray::default().check(), Ok(()));
    let letters_alone = Tray::from_parts(b"A".to_vec(), vec![]);
    assert_eq!(refused(&letters_alone.check()), (5, 0));
}

/// The file is the plain program's, and reading it gives the same tray with V for U and I for J. Every file has room.
#[test]
fn files_of_trays() {
    let (mut chance, mut other, mut longest) = (Chance::new(96), 0, 0);
    for n in 0..4_000 {
        let all = any_slips(&mut chance, n);
        let tray = Tray::of(&all);
        let file = tray.to_file().expect("a valid tray");
        assert!(file == tray_file(&all), "{all:?}");
        assert!(file.len() <= MAX_FILE && tray.len() <= FILE_ENDS);
        let on_the_die = |&letter: &u8| match letter {
            b'U' => b'V',
            b'J' => b'I',
            same => same,
        };
        let letters: Vec<u8> = tray.letters().iter().map(on_the_die).collect();
        let expected = Tray::from_parts(letters, tray.ends().to_vec());
        assert_eq!(Tray::read(&file).as_ref(), Ok(&expected));
        assert_eq!(expected.to_file().and_then(Tray::read).as_ref(), Ok(&expected));
        other += usize::from(expected != tray);
        longest = longest.max(file.len());
    }
    assert!(other > 1_000, "trays with U or J: {other}");
    assert_eq!(longest, 4_000, "200 lines of ten letters");
    assert_eq!(Tray::default().to_file(), Ok(vec![]));
}

/// What is not accepted is not written.
#[test]
fn files_of_damaged_trays() {
    let (mut chance, mut met) = (Chance::new(97), [0; 7]);
    for n in 0..4_000 {
        let plain = damaged(&mut chance, DAMAGES[n % DAMAGES.len()], [12, 200][n % 2]);
        let told = ours(&plain).to_file().map_err(plainly);
        assert_eq!(told.as_ref().err(), plain.fault().as_ref());
        met[told.err().map_or(0, |refusal| refusal.number)] += 1;
    }
    assert!(met[1..].iter().all(|&count| count > 300), "{met:?}");
}

/// The side and the letters of each slip of a plain tray.
fn pairs(tray: &tray::Tray) -> Vec<(Side, &[u8])> {
    let slips = tray.sided_slips().into_iter();
    let side = |byte| Side::from_byte(byte).expect("a side");
    slips.map(|slip| (side(slip.side), slip.letters)).collect()
}

/// Slips with their sides: from pairs, one by one, from parts, and from what another tray gives. A blank side is the same as none.
#[test]
fn trays_of_sides() {
    let (mut chance, mut blank) = (Chance::new(98), 0);
    for n in 0..2_000 {
        let all = any_slips(&mut chance, n);
        let plain = any_sides(&mut chance, &all);
        let pairs = pairs(&plain);
        let tray = Tray::of_sides(pairs.iter().copied());
        assert_eq!(tray, ours(&plain));
        assert_eq!(
            (tray.letters(), tray.ends(), tray.sides()),
            (&plain.letters[..], &plain.ends[..], &plain.sides[..])
        );
        let mut pushed = Tray::default();
        for &(side, slip) in &pairs {
            match side {
                Side::Blank => pushed.push(slip),
                _ => pushed.push_side(side, slip),
            }
        }
        assert_eq!(pushed, tray);
        assert!(tray.sided_slips().eq(pairs.iter().copied()));
        assert_eq!(Tray::of_sides(tray.sided_slips()), tray);
        assert!(tray.slips().eq(all.iter()));
        for (number, &(side, _)) in (1..).zip(&pairs) {
            assert_eq!(tray.side(number), Some(side));
        }
        assert_eq!(
            [0, tray.len() + 1, usize::MAX].map(|number| tray.side(number)),
            [None; 3]
        );
        let same = Tray::of(&all);
        assert_eq!(tray == same, plain.sides.iter().all(|&side| side == b' '));
        blank += usize::from(tray == same);
    }
    assert!((50..1_000).contains(&blank), "all blank: {blank}");
}

/// Row 22 after rows 1 to 6, where there are more sides or fewer than slips. A slip more hides neither.
#[test]
fn checks_of_sides_agree() {
    let (mut chance, mut met) = (Chance::new(99), [0; 23]);
    for n in 0..6_000 {
        let most = [1, 12, 200][n % 3];
        let mut plain = match n % 4 {
            0 => damaged(&mut chance, DAMAGES[n / 4 % DAMAGES.len()], most),
            _ => tray::Tray::of(&valid(&mut chance, most, MAX_SLIP)),
        };
        let slips = plain.ends.len();
        let any = chance.below(slips + 9);
        let listed = chance.one(&[slips, slips, slips - 1, slips + 1, any]);
        plain.sides = spread_sides(&mut chance, SPREADS[n % SPREADS.len()], listed);
        let mut tray = ours(&plain);
        let told = tray.check().map_err(plainly);
        assert_eq!(told.err(), plain.sided_fault());
        assert_eq!(tray.to_file().map_err(plainly).err(), plain.sided_fault());
        assert_eq!(tray.slip(1).map_err(plainly).err(), plain.fault());
        met[told.err().map_or(0, |refusal| refusal.number)] += 1;
        tray.push_side(Side::Reverse, "A");
        assert_eq!(tray.sides().len() == tray.len(), listed == slips);
    }
    assert!(met[0] > 1_500 && met[22] > 1_500, "{met:?}");
    assert!(met[1..=6].iter().all(|&count| count > 50), "{met:?}");
}

/// Column 9 has the side, and is read as that again.
#[test]
fn files_of_trays_with_sides() {
    let (mut chance, mut met) = (Chance::new(100), [0; 3]);
    for n in 0..3_000 {
        let all = match n % 2 {
            0 => valid(&mut chance, [6, 40, 200][n % 3], MAX_SLIP),
            _ => slips(SHAPES[n % 5], &mut chance, 200, 10, 10, b"AVG.OR"),
        };
        let signs = |slip: &Vec<u8>| slip.iter().all(|letter| !b"UJ".contains(letter));
        let all: Slips = all.into_iter().filter(signs).collect();
        let plain = any_sides(&mut chance, &all);
        let slips: Vec<(u8, &[u8])> = plain.sided_slips().iter().map(|x| (x.side, x.letters)).collect();
        let (tray, file) = (ours(&plain), sided_file(&slips));
        assert_eq!(tray.to_file().as_ref(), Ok(&file));
        assert_eq!(Tray::read(&file).as_ref(), Ok(&tray));
        for (count, side) in met.iter_mut().zip(Side::ALL) {
            *count += usize::from(tray.sides().contains(&side.byte()));
        }
    }
    assert!(met.iter().all(|&count| count > 1_500), "trays with each side: {met:?}");
}
