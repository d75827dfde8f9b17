//! The least overlap: the plain program is held to what was worked out by hand, and to what the sentences say of it.
use plain::by_hand::least::{long, refused_first, DIE_GROUPS, JOINED, REFUSED, SHORT_ROOMS, WIDE};
use plain::by_hand::pairs::PAIRS;
use plain::by_hand::shortest::{all_turned, longest};
use plain::by_hand::COMPOSE;
use plain::cases::{self, Case};
use plain::compose::{compose, compose_tray, kept_slips, Composition, Rooms};
use plain::made::groups::{die_group, FEW, FEW_AND_STOP};
use plain::made::leasts::{any_least, many_lengths};
use plain::made::stops::many_stops;
use plain::made::{valid, Chance};
use plain::shortest::{order_legend, shortest_legend};
use plain::tray::{longest_shared, overlap, Tray};
use plain::{refusal, Settings, BLANK, MAX_LEAST, MAX_SLIP, ONE_LETTER, USUAL};

const AMPLE: Rooms = Rooms {
    work: 32_000,
    legend: 2_000,
    joins: 200,
    places: 200,
};

fn joins(made: &Composition) -> Vec<(usize, usize, usize)> {
    made.joins.iter().map(|x| (x.left, x.right, x.overlap)).collect()
}

#[test]
fn trays_by_hand() {
    for case in JOINED {
        let name = case.name;
        let made = compose_tray(&Tray::of(case.slips), Settings::blank(case.least), AMPLE).expect(name);
        assert_eq!(made.legend, case.legend.as_bytes(), "{name}");
        assert_eq!(joins(&made), case.joins, "{name}");
        assert_eq!(made.places.len(), case.places.len(), "{name}");
        for (i, (place, &at)) in made.places.iter().zip(case.places).enumerate() {
            let aside = case.aside.iter().find(|&&(slip, _)| slip == i + 1);
            let told = (place.place, place.kept, place.compared);
            assert_eq!(told, (at, aside.is_none(), aside.map_or(0, |x| x.1)), "{name}");
        }
        assert_eq!(made.kept_letters, made.saved() + case.legend.len(), "{name}");
    }
}

#[test]
fn die_groups_by_hand() {
    for (least, case) in DIE_GROUPS {
        let (name, tray, letters) = (case.name, Tray::of(case.slips), case.legend.len());
        let made = shortest_legend(&tray, Settings::blank(*least), 32_000, letters).expect(name);
        assert_eq!(made.order, case.order, "{name}");
        assert_eq!(made.legend, case.legend.as_bytes(), "{name}");
    }
}

#[test]
fn pairs_by_hand() {
    for case in PAIRS {
        let (left, right) = case.numbers;
        let told = Tray::of(case.slips).pair(left, right, case.least);
        let expected = case.told.map_err(|(number, detail)| refusal(number, detail));
        assert_eq!(told, expected, "{:?} {:?} at {}", case.slips, case.numbers, case.least);
    }
}

/// Slips that share all letters but one are joined with this many as the least overlap, and not with one more. The slips of a
/// pair may be equal, and then share all.
#[test]
fn long_slips() {
    let (case, ten) = (long(), longest());
    let (tray, n) = (Tray::of(&case.slips), case.letters);
    let made = compose(&tray, Settings::blank(n - 1));
    assert_eq!((joins(&made), made.legend), (vec![(1, 2, n - 1)], case.text));
    let made = compose(&tray, Settings::blank(n));
    assert_eq!((joins(&made), made.legend), (vec![], case.slips.concat()));
    assert_eq!((tray.pair(1, 2, n - 1), tray.pair(1, 2, n)), (Ok(n - 1), Ok(0)));
    let equal = Tray::of(&[&case.slips[0], &case.slips[0]]);
    assert_eq!(equal.pair(1, 2, n), Ok(n));
    let ten_slips = Tray::of(&ten.slips);
    let seek = |least| shortest_legend(&ten_slips, Settings::blank(least), 32_000, 2_000).expect("ten slips");
    let made = seek(n - 1);
    assert_eq!((made.order, made.legend), (ten.order, ten.legend));
    let made = seek(n);
    assert_eq!((made.order, made.legend), ((1..=10).collect(), ten.slips.concat()));
}

/// Row 21 is the first, whatever the tray and the rooms are.
#[test]
fn refused_by_21() {
    for case in refused_first() {
        let (name, tray) = (case.name, &case.tray);
        let expected = refusal(case.number, case.detail);
        let rooms = Rooms {
            work: case.work,
            legend: case.room,
            joins: 0,
            places: 0,
        };
        for least in REFUSED.into_iter().chain(WIDE) {
            let settings = Settings::blank(least);
            assert_eq!(compose_tray(tray, settings, rooms), Err(expected), "{name}");
            let told = shortest_legend(tray, settings, case.work, case.room);
            assert_eq!(told, Err(expected), "{name}");
            for (left, right) in [(1, 2), (0, 0), (1, 1), (1, 300)] {
                assert_eq!(tray.pair(left, right, least), Err(expected), "{name}");
            }
        }
    }
}

/// All other rows are as at 1 but for the letters needed.
#[test]
fn other_rows() {
    for case in all_turned().into_iter().filter(|case| case.number != 8) {
        for least in [2, 5, MAX_LEAST] {
            let told = shortest_legend(&case.tray, Settings::blank(least), case.work, case.room);
            assert_eq!(told, Err(refusal(case.number, case.detail)), "{}", case.name);
        }
    }
    let tray = Tray::of(COMPOSE.slips);
    for &(least, room, need) in SHORT_ROOMS {
        let rooms = Rooms { legend: room, ..AMPLE };
        let settings = Settings::blank(least);
        assert_eq!(compose_tray(&tray, settings, rooms), Err(refusal(8, need)), "{least}");
        let told = shortest_legend(&tray, settings, 32_000, room);
        assert_eq!(told, Err(refusal(8, need)), "{least}");
    }
}

/// The bound on savings, and that no text is shorter, are said of 1 alone: at 2 the text ABC holds AB and BC, and saves a
/// letter where nothing is saved.
#[test]
fn one_letter_is_needed() {
    let (tray, text) = (Tray::of(&["AB", "BC"]), b"ABC");
    let bound = |made: &Composition| text.len() + 2 * made.saved();
    let (one, two) = (compose(&tray, Settings::blank(1)), compose(&tray, Settings::blank(2)));
    assert!(tray
        .slips()
        .iter()
        .all(|slip| text.windows(2).any(|part| part == *slip)));
    assert_eq!((one.kept_letters, bound(&one)), (4, 5));
    assert_eq!((two.kept_letters, bound(&two)), (4, 3));
    let letters = |least| {
        shortest_legend(&tray, Settings::blank(least), 32_000, 2_000)
            .expect("two slips")
            .legend
            .len()
    };
    assert_eq!((letters(1), letters(2), text.len()), (3, 4, 3));
}

/// An overlap is the one of 1 where that is long enough, and none where it is not.
#[test]
fn overlaps() {
    let (mut chance, mut counted, mut short) = (Chance::new(53), 0, 0);
    for _ in 0..1_000 {
        let (all, least) = (many_lengths(&mut chance, 6, 12), any_least(&mut chance));
        for (a, b) in all.iter().zip(&all[1..]) {
            let whole = overlap(a, b, ONE_LETTER);
            let expected = if whole < least { 0 } else { whole };
            assert_eq!(overlap(a, b, least), expected);
            assert!(longest_shared(a, b).len() >= whole);
            counted += usize::from(expected > 0);
            short += usize::from(whole > expected);
        }
    }
    assert!(counted > 300 && short > 300, "{counted} counted, {short} too short");
}

/// A tray of one of several kinds.
fn tray(chance: &mut Chance, n: usize) -> Tray {
    Tray::of(&match n % 4 {
        0 => valid(chance, 20, MAX_SLIP),
        1 => many_stops(chance, 12, 12),
        2 => many_lengths(chance, 12, 10),
        _ => many_lengths(chance, 12, MAX_SLIP),
    })
}

/// Arcs are taken by longer overlap, so a least overlap takes the last ones away: the joins are those of 1 that have
/// enough letters, in the same order. What is kept is the same, and the legend is no shorter.
#[test]
fn joins_of_one_letter_that_are_long_enough() {
    let (mut chance, mut fewer, mut some) = (Chance::new(54), 0, 0);
    for n in 0..3_000 {
        let tray = tray(&mut chance, n);
        let at_one = compose(&tray, USUAL);
        let least = chance.one(&[2, 3, 5, 8, MAX_LEAST]);
        let made = compose(&tray, Settings::blank(least));
        let enough: Vec<_> = joins(&at_one).into_iter().filter(|x| x.2 >= least).collect();
        assert_eq!(joins(&made), enough);
        let kept = |made: &Composition| made.places.iter().map(|x| x.kept).collect::<Vec<bool>>();
        assert_eq!((kept(&made), made.kept_letters), (kept(&at_one), at_one.kept_letters));
        assert_eq!(made.kept_letters, made.saved() + made.legend.len());
        fewer += usize::from(enough.len() < at_one.joins.len());
        some += usize::from(!enough.is_empty() && enough.len() < at_one.joins.len());
    }
    assert!(fewer > 1_000, "trays with fewer joins: {fewer}");
    assert!(some > 300, "of which some are left: {some}");
}

/// The shortest legend is never longer than the composed one at the same least overlap, and a greater least overlap never
/// makes it shorter. The order may be another.
#[test]
fn shortest_legends() {
    let (mut chance, mut longer, mut turned) = (Chance::new(55), 0, 0);
    for n in 0..1_000 {
        let all = match n % 3 {
            0 => many_lengths(&mut chance, 6, 10),
            k => die_group(&mut chance, [FEW, FEW_AND_STOP][k - 1], 6),
        };
        let tray = Tray::of(&all);
        let seek = |least| shortest_legend(&tray, Settings::blank(least), 32_000, 2_000).expect("few kept slips");
        let mut before = seek(ONE_LETTER);
        for least in [2, 3, 5] {
            let made = seek(least);
            assert!(made.legend.len() <= compose(&tray, Settings::blank(least)).legend.len());
            assert!(made.legend.len() >= before.legend.len());
            assert_eq!(made.legend, order_legend(&tray, least, &made.order));
            let mut ascending = made.order.clone();
            ascending.sort_unstable();
            assert_eq!(ascending, kept_slips(&tray, BLANK));
            longer += usize::from(made.legend.len() > before.legend.len());
            turned += usize::from(made.order != before.order);
            before = made;
        }
    }
    assert!(longer > 300, "longer than with a smaller least overlap: {longer}");
    assert!(turned > 300, "in another order: {turned}");
}

/// What the cases of `trials` meet.
#[test]
fn many_cases() {
    let (mut refused, mut fewer, mut none, mut turned, mut pairs) = (0, 0, 0, 0, 0);
    for case in cases::all() {
        match case {
            Case::Compose(_, Settings { least, .. }, _)
            | Case::Shortest(_, Settings { least, .. }, ..)
            | Case::Ask(_, least, ..)
                if least == 0 || least > MAX_LEAST =>
            {
                refused += 1
            }
            Case::Compose(tray, settings, _) if settings.least > 1 && tray.sided_fault().is_none() => {
                let at_one = Settings { least: 1, ..settings };
                let (made, at_one) = (compose(&tray, settings), compose(&tray, at_one));
                fewer += usize::from(made.joins.len() < at_one.joins.len() && !made.joins.is_empty());
                none += usize::from(made.joins.is_empty() && !at_one.joins.is_empty());
            }
            Case::Shortest(tray, settings, work, _) if settings.least > 1 && work >= 32_000 => {
                let at_one = Settings { least: 1, ..settings };
                let order = |settings| shortest_legend(&tray, settings, 32_000, 2_000).map(|made| made.order);
                turned += usize::from(order(settings) != order(at_one));
            }
            Case::Ask(tray, least, left, right) if least > 1 => {
                pairs += usize::from(tray.pair(left, right, least) != tray.pair(left, right, 1));
            }
            _ => {}
        }
    }
    assert!(refused > 300, "refused by 21: {refused}");
    assert!(fewer > 150, "fewer joins, but some: {fewer}");
    assert!(none > 300, "no join, but some at 1: {none}");
    assert!(turned > 150, "another order than at 1: {turned}");
    assert!(pairs > 100, "pairs that share too few letters: {pairs}");
}
