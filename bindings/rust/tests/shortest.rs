//! The shortest legend: what was worked out by hand, made-up trays against the plain program, and what is claimed of it.
mod lending;
mod sought;
mod tally;
mod told;

use kotsghane::{compose_tray, shortest_legend, Settings, Tray, MAX_SLIP};
use plain::by_hand::shortest::{all_turned, longest, DIE_GROUPS};
use plain::compose::kept_slips;
use plain::made::damage::{damaged, DAMAGES};
use plain::made::groups::{die_group, just_kept, stretches, with_aside, FEW, FEW_AND_STOP};
use plain::made::stops::share_stops_alone;
use plain::made::{near, valid, Chance};
use plain::shortest::order_legend;
use plain::{refusal, tray, BLANK, ONE_LETTER};
use sought::{call, numbers, told_of, trial, Lent};
use tally::Tally;
use told::refused;

/// No overlap is too short.
const DEFAULT: Settings = Settings::least(1);

#[test]
fn die_groups() {
    let mut chance = Chance::new(61);
    for case in DIE_GROUPS {
        let (name, letters) = (case.name, case.legend.len());
        let made = shortest_legend(&Tray::of(case.slips), DEFAULT).expect(name);
        assert_eq!(
            (made.text.as_str(), &made.order[..]),
            (case.legend, case.order),
            "{name}"
        );
        assert_eq!(made.to_string(), case.legend, "{name}");
        let tray = tray::Tray::of(case.slips);
        for (cells, room) in [(32_000, letters), (32_100, letters + 9)] {
            let before = Lent::of(cells, room, &mut chance);
            let (told, after) = call(&tray, DEFAULT, &before);
            assert_eq!(numbers(&told), Ok(told_of(letters, case.order)), "{name}");
            assert_eq!(&after.legend[..letters], case.legend.as_bytes(), "{name}");
            assert_eq!(after.legend[letters..], before.legend[letters..], "{name}");
        }
        if letters > 0 {
            let before = Lent::of(32_000, letters - 1, &mut chance);
            let (told, after) = call(&tray, DEFAULT, &before);
            assert_eq!(refused(&told), (8, letters as u32), "{name}");
            assert_eq!(after.legend, before.legend, "{name}");
        }
    }
}

#[test]
fn the_longest_slips() {
    let case = longest();
    let made = shortest_legend(&Tray::of(&case.slips), DEFAULT).expect("ten slips");
    assert_eq!(made.text.as_bytes(), case.legend);
    assert_eq!(made.order, [10, 9, 8, 7, 6, 5, 4, 3, 2, 1]);
}

#[test]
fn turned_back() {
    let mut chance = Chance::new(62);
    for case in all_turned() {
        let name = case.name;
        let before = Lent::of(case.work, case.room, &mut chance);
        let (told, after) = call(&case.tray, DEFAULT, &before);
        assert_eq!(numbers(&told), Err(refusal(case.number, case.detail)), "{name}");
        assert_eq!(after.legend, before.legend, "{name}");
        assert!(after.work == before.work || case.number > 7, "{name}");
    }
}

/// One tray, first in ample buffers, then in buffers of about the length that the legend needs.
fn try_tray(chance: &mut Chance, tray: &tray::Tray, tally: &mut Tally) {
    let told = trial(tray, DEFAULT, &Lent::of(32_000, 2_000, chance));
    tally.count(&told);
    let cells = [32_000, 32_000, 32_007, 31_999][chance.below(4)];
    let room = near(chance, told.unwrap_or_default().legend);
    let told = trial(tray, DEFAULT, &Lent::of(cells, room, chance));
    tally.count(&told);
}

#[test]
fn small_groups_agree() {
    let (mut chance, mut tally, mut met) = (Chance::new(63), Tally::default(), 0);
    for n in 0..4_000 {
        let all = match n % 5 {
            0 => valid(&mut chance, 7, MAX_SLIP),
            1 | 2 => die_group(&mut chance, FEW_AND_STOP, 7),
            _ => die_group(&mut chance, FEW, 7),
        };
        let all = match n % 3 {
            0 => with_aside(&mut chance, all, [6, 100][n / 3 % 2]),
            _ => all,
        };
        let tray = tray::Tray::of(&all);
        met += usize::from(tray.fault().is_none() && share_stops_alone(&tray));
        try_tray(&mut chance, &tray, &mut tally);
    }
    tally.assert_all_from(&[0, 7, 8], 500);
    assert!(met > 500, "trays in which slips share stops alone: {met}");
}

/// Few have 9 or 10 kept slips, for which the plain program takes long.
#[test]
fn groups_of_8_to_12_kept_slips_agree() {
    let (mut chance, mut tally) = (Chance::new(64), Tally::default());
    for n in 0..300 {
        let kept = match n {
            0..10 => 9,
            10..18 => 10,
            _ => [8, 11, 12][n % 3],
        };
        let sets = [&FEW[..3], FEW_AND_STOP][n % 2];
        let mut all = just_kept(&mut chance, sets, kept);
        if n % 4 == 0 {
            all = with_aside(&mut chance, all, 150);
        }
        let told = trial(&tray::Tray::of(&all), DEFAULT, &Lent::of(32_000, 2_000, &mut chance));
        assert_eq!(refused(&told), if kept > 10 { (20, 0) } else { (0, 0) });
        tally.count(&told);
    }
    tally.assert_all_from(&[0, 20], 80);
}

#[test]
fn damaged_trays_agree() {
    let (mut chance, mut tally) = (Chance::new(65), Tally::default());
    for n in 0..3_000 {
        let tray = damaged(&mut chance, DAMAGES[n % DAMAGES.len()], 7);
        try_tray(&mut chance, &tray, &mut tally);
    }
    tally.assert_all_from(&[1, 2, 3, 4, 5, 6], 400);
}

/// Each buffer just long enough, then one short of it.
#[test]
fn each_buffer_one_short() {
    let mut chance = Chance::new(66);
    for n in 0..400 {
        let sets = [FEW, FEW_AND_STOP][n % 2];
        let tray = tray::Tray::of(&die_group(&mut chance, sets, 7));
        let (told, _) = call(&tray, DEFAULT, &Lent::of(32_000, 2_000, &mut chance));
        let whole = numbers(&told);
        let letters = told.expect("few kept slips").legend;
        let cases = [
            (32_000, letters, whole),
            (31_999, letters, Err(refusal(7, 0))),
            (32_000, letters - 1, Err(refusal(8, letters))),
            (31_999, letters - 1, Err(refusal(7, 0))),
        ];
        for (cells, room, wanted) in cases {
            let told = trial(&tray, DEFAULT, &Lent::of(cells, room, &mut chance));
            assert_eq!(numbers(&told), wanted, "{cells} cells, room for {room} letters");
        }
    }
}

/// The comfortable form has the same outcome as the lent buffers.
#[test]
fn owned_trays_agree() {
    let (mut chance, mut tally) = (Chance::new(67), Tally::default());
    for n in 0..1_500 {
        let tray = match n % 3 {
            0 => damaged(&mut chance, DAMAGES[n / 3 % DAMAGES.len()], 7),
            1 => tray::Tray::of(&valid(&mut chance, 40, MAX_SLIP)),
            _ => tray::Tray::of(&die_group(&mut chance, FEW, 10)),
        };
        let (told, after) = call(&tray, DEFAULT, &Lent::of(32_000, 2_000, &mut chance));
        tally.count(&told);
        match shortest_legend(&Tray::from_parts(tray.letters, tray.ends), DEFAULT) {
            Err(refusal) => assert_eq!(told, Err(refusal)),
            Ok(made) => {
                let told = told.expect("the comfortable form accepts it");
                assert_eq!(made.text.as_bytes(), &after.legend[..told.legend]);
                assert_eq!(made.order, told.order[..told.count]);
            }
        }
    }
    tally.assert_all_from(&[0, 20], 150);
}

/// The legend holds every slip and is no longer than the composed one. Where no kept slip begins with a stop, the text that the
/// slips were cut from, which holds them all, is not shorter.
#[test]
fn no_text_is_shorter() {
    let (mut chance, mut shorter, mut exact, mut with_stops, mut beaten) = (Chance::new(68), 0, 0, 0, 0);
    for n in 0..6_000 {
        let signs = [&b"ABC"[..], b"AB", b"..AB"][n % 3];
        let (text, all) = stretches(&mut chance, signs, [3, 6, 10][n / 3 % 3]);
        let tray = Tray::of(&all);
        let made = shortest_legend(&tray, DEFAULT).expect("at most ten slips");
        let letters = made.text.len();
        let held = |slip: &Vec<u8>| made.text.as_bytes().windows(slip.len()).any(|part| part == slip);
        assert!(all.iter().all(held));
        let composed = compose_tray(&tray, DEFAULT).expect("an accepted tray").text.len();
        assert!(letters <= composed);
        shorter += usize::from(letters < composed);
        let mut kept = made.order.iter().map(|&slip| &all[slip - 1]);
        if kept.any(|slip| slip[0] == b'.') {
            beaten += usize::from(letters > text.len());
        } else {
            assert!(letters <= text.len());
            exact += usize::from(letters == text.len());
            with_stops += usize::from(made.text.contains('.'));
        }
    }
    assert!(shorter > 50, "shorter than composed: {shorter}");
    assert!(exact > 500, "texts that are as short: {exact}");
    assert!(
        with_stops > 50,
        "stops, but at the beginning of no kept slip: {with_stops}"
    );
    assert!(
        beaten > 50,
        "texts that are shorter, their stops standing on each other: {beaten}"
    );
}

/// Orders beside this one: two slips changed, one slip moved, and some by chance.
fn others(chance: &mut Chance, order: &[usize]) -> Vec<Vec<usize>> {
    let mut all = Vec::new();
    for i in 0..order.len() {
        for j in 0..order.len() {
            let mut changed = order.to_vec();
            changed.swap(i, j);
            all.push(changed);
            let mut moved = order.to_vec();
            let slip = moved.remove(i);
            moved.insert(j, slip);
            all.push(moved);
        }
    }
    for _ in 0..50 {
        let mut any = order.to_vec();
        chance.shuffle(&mut any);
        all.push(any);
    }
    all
}

/// Of ten kept slips no other order is shorter, nor as short and smaller as a list; as far as these are tried.
#[test]
fn other_orders_of_ten_kept_slips() {
    let (mut chance, mut ties) = (Chance::new(69), 0);
    for n in 0..300 {
        let sets = [FEW, FEW_AND_STOP][n % 2];
        let tray = tray::Tray::of(&just_kept(&mut chance, sets, 10));
        let (told, after) = call(&tray, DEFAULT, &Lent::of(32_000, 2_000, &mut chance));
        let told = told.expect("ten kept slips");
        let order = told.order.to_vec();
        let mut ascending = order.clone();
        ascending.sort_unstable();
        assert_eq!(ascending, kept_slips(&tray, BLANK));
        let best = (told.legend, &order);
        assert_eq!(after.legend[..best.0], order_legend(&tray, ONE_LETTER, &order));
        for other in others(&mut chance, &order) {
            let letters = order_legend(&tray, ONE_LETTER, &other).len();
            assert!(best <= (letters, &other), "{other:?} has {letters} letters");
            ties += usize::from(letters == best.0 && other != order);
        }
    }
    assert!(ties > 1_000, "other orders that are as short: {ties}");
}

/// Eleven slips and ten of them, which share nothing.
#[test]
fn refused_by_20() {
    let slips: Vec<[u8; 1]> = (b'A'..=b'K').map(|letter| [letter]).collect();
    assert_eq!(refused(&shortest_legend(&Tray::of(&slips), DEFAULT)), (20, 0));
    let ten = shortest_legend(&Tray::of(&slips[1..]), DEFAULT);
    assert_eq!(ten.expect("ten slips").text, "BCDEFGHIJK");
}
