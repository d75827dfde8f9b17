//! Sides: the plain program is held to what the sentences say of them, over made-up trays.
use plain::cases::{self, Case};
use plain::compose::{compose, compose_tray, kept_slips, Composition, Rooms};
use plain::made::files::sided_file;
use plain::made::groups::{die_group, FEW};
use plain::made::sides::{any_sides, both_sided, echoed, mistaken, Echo, MISTAKES};
use plain::made::{campaigns, valid, Chance};
use plain::merge::{long_tray, merge_trays};
use plain::sheet::compose_sheet;
use plain::shortest::shortest_legend;
use plain::tray::{Slip, Tray};
use plain::{refusal, Settings, BLANK, MAX_SLIP, SIDES, USUAL};

const AMPLE: Rooms = Rooms {
    work: 32_000,
    legend: 2_000,
    joins: 200,
    places: 200,
};

fn of_side(side: u8) -> Settings {
    Settings { side, ..USUAL }
}

/// The n-th of many trays with sides.
fn tray(chance: &mut Chance, n: usize) -> Tray {
    let small = valid(chance, 12, 10);
    match n % 4 {
        0 => echoed(chance, Echo::Equal, &small, 6),
        1 => echoed(chance, Echo::Part, &small, 6),
        2 => any_sides(chance, &small),
        _ => {
            let all = valid(chance, 60, MAX_SLIP);
            any_sides(chance, &all)
        }
    }
}

/// The tray that holds one side only, all blank, and the numbers that its slips had.
fn cut(tray: &Tray, side: u8) -> (Tray, Vec<usize>) {
    let slips = tray.sided_slips();
    let numbers: Vec<usize> = (1..=slips.len()).filter(|&i| slips[i - 1].side == side).collect();
    let letters: Vec<&[u8]> = numbers.iter().map(|&i| slips[i - 1].letters).collect();
    (Tray::of(&letters), numbers)
}

/// Each side composes exactly as a tray that holds that side only, slip numbers being the original ones.
#[test]
fn each_side_as_a_tray_of_that_side_only() {
    let (mut chance, mut joined, mut aside, mut other) = (Chance::new(81), 0, 0, 0);
    for n in 0..4_000 {
        let tray = tray(&mut chance, n);
        let least = chance.one(&[1, 1, 2, 3]);
        for side in SIDES {
            let made = compose(&tray, Settings { least, side });
            let (alone, numbers) = cut(&tray, side);
            let mut expected = compose(&alone, Settings::blank(least));
            for join in &mut expected.joins {
                (join.left, join.right) = (numbers[join.left - 1], numbers[join.right - 1]);
            }
            for place in &mut expected.places {
                (place.slip, place.side) = (numbers[place.slip - 1], side);
            }
            assert_eq!(made, expected);
            let kept: Vec<usize> = kept_slips(&alone, BLANK).iter().map(|&i| numbers[i - 1]).collect();
            assert_eq!(kept_slips(&tray, side), kept);
            joined += usize::from(!made.joins.is_empty());
            aside += usize::from(made.kept() < made.places.len());
            other += usize::from(!numbers.is_empty() && numbers.len() < tray.ends.len());
        }
    }
    assert!(joined > 2_000, "sides with joins: {joined}");
    assert!(aside > 2_000, "sides with slips set aside: {aside}");
    assert!(other > 4_000, "sides beside others: {other}");
}

/// The same of the shortest legend.
#[test]
fn the_shortest_legend_of_each_side() {
    let (mut chance, mut laid, mut refused) = (Chance::new(82), 0, 0);
    for n in 0..2_000 {
        let all = die_group(&mut chance, FEW, [6, 12, 18][n % 3]);
        let tray = any_sides(&mut chance, &all);
        for side in SIDES {
            let (alone, numbers) = cut(&tray, side);
            if kept_slips(&alone, BLANK).len() > 7 {
                continue;
            }
            let told = shortest_legend(&tray, of_side(side), 32_000, 2_000);
            let expected = shortest_legend(&alone, USUAL, 32_000, 2_000).map(|mut made| {
                made.order.iter_mut().for_each(|i| *i = numbers[*i - 1]);
                made
            });
            assert_eq!(told, expected);
            laid += usize::from(told.is_ok_and(|made| made.order.len() > 1));
            refused += usize::from(kept_slips(&Tray::of(&all), BLANK).len() > 10);
        }
    }
    assert!(laid > 1_500, "shortest legends of several slips: {laid}");
    assert!(refused > 300, "which 20 would refuse but for their sides: {refused}");
}

/// Where all slips are of one side, composing that side is composing the tray, and all other sides are empty.
#[test]
fn one_side_alone() {
    let mut chance = Chance::new(83);
    for _ in 0..1_000 {
        let tray = Tray::of(&valid(&mut chance, 12, 12));
        let whole = compose(&tray, USUAL);
        for side in SIDES {
            let alone = Tray {
                sides: vec![side; tray.ends.len()],
                ..tray.clone()
            };
            let mut made = compose(&alone, of_side(side));
            made.places.iter_mut().for_each(|place| place.side = BLANK);
            assert_eq!(made, whole);
            for other in SIDES.into_iter().filter(|&other| other != side) {
                assert_eq!(compose(&alone, of_side(other)), Composition::default());
            }
        }
    }
}

/// The slips of the outcome, slip by slip, where equal slips are of equal side.
fn first_of_equals<'a>(ours: &[Slip<'a>], others: &[Slip<'a>]) -> Vec<Slip<'a>> {
    let equal = |a: &Slip, b: &Slip| a.side == b.side && a.letters == b.letters;
    let news = (0..others.len()).filter(|&k| {
        let is_first = others.iter().position(|other| equal(other, &others[k])) == Some(k);
        is_first && !ours.iter().any(|slip| equal(slip, &others[k]))
    });
    ours.iter().copied().chain(news.map(|k| others[k])).collect()
}

/// The outcome of two trays with sides, and the legends of each of its sides: those of the long tray, where it is accepted.
#[test]
fn two_trays_with_sides() {
    let (mut chance, mut accepted, mut other_side, mut legends) = (Chance::new(84), 0, 0, 0);
    for n in 0..4_000 {
        let both = campaigns::any_two(&mut chance, n);
        let [first, second] = both_sided(&mut chance, both);
        let Ok(outcome) = merge_trays(&first, &second, 2_000, 200, 200) else {
            continue;
        };
        accepted += 1;
        let expected = first_of_equals(&first.sided_slips(), &second.sided_slips());
        assert_eq!(outcome.sided_slips(), expected);
        let blank = |tray: &Tray| Tray::all_blank(tray.letters.clone(), tray.ends.clone());
        let all_blank = merge_trays(&blank(&first), &blank(&second), 2_000, 200, 200);
        other_side += usize::from(all_blank.is_ok_and(|tray| tray.ends != outcome.ends));
        let long = long_tray(&first, &second);
        if long.fault().is_some() {
            continue;
        }
        for side in SIDES {
            let settings = Settings {
                least: [1, 2, 5][n % 3],
                side,
            };
            let made = compose(&outcome, settings);
            assert_eq!(made.legend, compose(&long, settings).legend);
            legends += usize::from(!made.joins.is_empty());
        }
    }
    assert!(accepted > 2_000, "accepted: {accepted}");
    assert!(other_side > 500, "equal letters on two sides: {other_side}");
    assert!(legends > 1_000, "sides with joins: {legends}");
}

/// A list with a mistake is refused by 22, whatever is lent, and a tray that rows 1 to 6 refuse by those.
#[test]
fn mistaken_lists() {
    let (mut chance, mut refused) = (Chance::new(85), 0);
    for n in 0..2_000 {
        let tray = tray(&mut chance, n);
        let bad = mistaken(&mut chance, MISTAKES[n / 4 % MISTAKES.len()], tray.clone());
        if bad == tray {
            continue;
        }
        refused += 1;
        for side in SIDES {
            assert_eq!(compose_tray(&bad, of_side(side), AMPLE), Err(refusal(22, 0)));
        }
        assert_eq!(bad.pair(0, 0, 1), Err(refusal(22, 0)));
        assert_eq!(merge_trays(&bad, &tray, 2_000, 200, 200), Err(refusal(22, 0)));
    }
    assert!(refused > 1_800, "mistaken lists: {refused}");
}

/// The sheets of made-up files: as many as there are sides, each that of a file of that side only but for numbers and header.
#[test]
fn sheets_of_sides() {
    let (mut chance, mut counts) = (Chance::new(86), [0; 4]);
    for n in 0..1_500 {
        let tray = tray(&mut chance, n);
        let slips: Vec<(u8, &[u8])> = tray.sided_slips().iter().map(|x| (x.side, x.letters)).collect();
        let sheet = compose_sheet(&sided_file(&slips));
        let there = SIDES.into_iter().filter(|side| tray.sides.contains(side));
        let heads: Vec<&[u8]> = sheet
            .split(|&byte| byte == b'\n')
            .filter(|line| line.starts_with(b"TRAY "))
            .collect();
        let ends: Vec<Vec<u8>> = heads.iter().map(|head| head[27..].to_vec()).collect();
        let expected = there.map(|side| match side {
            BLANK => vec![],
            _ => vec![b' ', side],
        });
        assert_eq!(ends, expected.collect::<Vec<_>>());
        counts[heads.len()] += 1;
    }
    assert_eq!(counts[0], 0);
    assert!(counts[1..].iter().all(|&n| n > 100), "sheets: {counts:?}");
}

/// What the cases of `trials` meet: sides named, by what is refused, and slips that another side would set aside or join.
#[test]
fn many_cases() {
    let (mut named, mut rows, mut across) = ([0; 4], [0; 23], [0; 2]);
    for case in cases::all() {
        let Case::Compose(tray, settings, _) = case else {
            continue;
        };
        let told = compose_tray(&tray, settings, AMPLE);
        let all_blank = tray.sides == vec![BLANK; tray.ends.len()];
        if all_blank && settings.side == BLANK {
            continue;
        }
        let side = SIDES.iter().position(|&side| side == settings.side);
        named[side.unwrap_or(3)] += 1;
        rows[told.as_ref().map_or_else(|x| x.number, |_| 0)] += 1;
        let Ok(made) = told else { continue };
        let blank = Tray::all_blank(tray.letters.clone(), tray.ends.clone());
        let whole = compose(&blank, Settings::blank(settings.least));
        let stays = |slip: &usize| whole.places[slip - 1].kept;
        across[0] += usize::from(!kept_slips(&tray, settings.side).iter().all(stays));
        across[1] += usize::from(!made.joins.iter().all(|join| whole.joins.contains(join)));
    }
    assert!(
        named.iter().all(|&n| n > 50),
        "sides named, and none of the three: {named:?}"
    );
    assert!(named[1] > 500 && named[2] > 500, "{named:?}");
    assert!(rows[0] > 1_500 && rows[22] > 300, "composed and refused: {rows:?}");
    assert!([1, 2, 3, 4, 5, 6, 21].iter().all(|&row| rows[row] > 3), "{rows:?}");
    assert!(
        across[0] > 300,
        "kept, though they stand in a slip of another side: {across:?}"
    );
    assert!(
        across[1] > 100,
        "joined, though a slip of another side shares more: {across:?}"
    );
}

#[test]
fn cases_of_each_tag() {
    let all = cases::lines(&cases::all());
    for (tag, least) in [("c", 2_500), ("l", 800), ("a", 500), ("m", 1_000), ("T", 1_500)] {
        let lines = all.lines().filter(|line| line.split(' ').next() == Some(tag));
        assert!(lines.count() > least, "lines of {tag}");
    }
}
