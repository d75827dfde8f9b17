//! The shortest legend: the plain program is held to what was worked out by hand, and to what the sentences say of it.
use plain::by_hand::shortest::{all_turned, longest, DIE_GROUPS};
use plain::cases::{self, Case};
use plain::compose::{compose, kept_slips};
use plain::find::occurrences;
use plain::made::groups::{die_group, stretches, with_aside, FEW, FEW_AND_STOP};
use plain::made::stops::share_stops_alone;
use plain::made::Chance;
use plain::shortest::{order_legend, shortest_legend, Shortest};
use plain::tray::Tray;
use plain::{refusal, Settings, BLANK, USUAL};

#[test]
fn die_groups() {
    for case in DIE_GROUPS {
        let (name, tray, letters) = (case.name, Tray::of(case.slips), case.legend.len());
        let expected = Shortest {
            order: case.order.to_vec(),
            legend: case.legend.into(),
        };
        for room in [letters, 2_000] {
            let made = shortest_legend(&tray, USUAL, 32_000, room);
            assert_eq!(made, Ok(expected.clone()), "{name}");
        }
        if letters > 0 {
            let short = shortest_legend(&tray, USUAL, 32_000, letters - 1);
            assert_eq!(short, Err(refusal(8, letters)), "{name}");
        }
    }
}

#[test]
fn the_longest_slips() {
    let case = longest();
    let made = shortest_legend(&Tray::of(&case.slips), USUAL, 32_000, 2_000).expect("ten slips");
    assert_eq!((made.order, made.legend), (case.order, case.legend));
}

#[test]
fn turned_back() {
    for case in all_turned() {
        let told = shortest_legend(&case.tray, USUAL, case.work, case.room);
        assert_eq!(told, Err(refusal(case.number, case.detail)), "{}", case.name);
    }
}

/// All orders, each number first and then the others in each of their orders.
fn orders(numbers: &[usize]) -> Vec<Vec<usize>> {
    if numbers.is_empty() {
        return vec![vec![]];
    }
    let begun = |&first: &usize| {
        let others: Vec<usize> = numbers.iter().copied().filter(|&x| x != first).collect();
        let after = orders(&others).into_iter();
        after.map(move |rest| [vec![first], rest].concat())
    };
    numbers.iter().flat_map(begun).collect()
}

/// Every order of up to six kept slips laid, and the best by length and then as a list; with several least overlaps.
#[test]
fn all_orders_laid() {
    let (mut chance, mut ties, mut stops) = (Chance::new(51), 0, 0);
    for n in 0..1_500 {
        let least = [1, 1, 2, 3][n / 6 % 4];
        let mut all = die_group(&mut chance, [FEW, FEW_AND_STOP][n % 2], 6);
        if n % 3 == 0 {
            all = with_aside(&mut chance, all, 10);
        }
        let tray = Tray::of(&all);
        let laid = orders(&kept_slips(&tray, BLANK)).into_iter();
        let all: Vec<_> = laid
            .map(|order| (order_legend(&tray, least, &order).len(), order))
            .collect();
        let (letters, order) = all.iter().min().expect("there is an order");
        let made = shortest_legend(&tray, Settings::blank(least), 32_000, 2_000).expect("few kept slips");
        assert_eq!((made.legend.len(), &made.order), (*letters, order));
        ties += usize::from(all.iter().filter(|x| x.0 == *letters).count() > 1);
        stops += usize::from(share_stops_alone(&tray));
    }
    assert!(ties > 700, "trays with several shortest orders: {ties}");
    assert!(stops > 400, "trays in which slips share stops alone: {stops}");
}

/// The legend holds every slip and is no longer than the composed one. Where no kept slip begins with a stop, the text that the
/// slips were cut from, which holds them all, is not shorter.
#[test]
fn no_text_is_shorter() {
    let (mut chance, mut shorter, mut exact, mut with_stops, mut beaten) = (Chance::new(52), 0, 0, 0, 0);
    for n in 0..3_000 {
        let signs = [&b"ABC"[..], b"AB", b"..AB"][n % 3];
        let (text, all) = stretches(&mut chance, signs, [3, 5, 7][n / 3 % 3]);
        let tray = Tray::of(&all);
        let slips = tray.slips();
        let composed = compose(&tray, USUAL).legend.len();
        let made = shortest_legend(&tray, USUAL, 32_000, 2_000).expect("few kept slips");
        let found = occurrences(&slips, &made.legend);
        assert!((1..=slips.len()).all(|i| found.iter().any(|x| x.slip == i)));
        let letters = made.legend.len();
        assert!(letters <= composed);
        shorter += usize::from(letters < composed);
        if made.order.iter().any(|&i| slips[i - 1][0] == b'.') {
            beaten += usize::from(letters > text.len());
        } else {
            assert!(letters <= text.len());
            exact += usize::from(letters == text.len());
            with_stops += usize::from(made.legend.contains(&b'.'));
        }
    }
    assert!(shorter > 20, "shorter than composed: {shorter}");
    assert!(exact > 150, "texts that are as short: {exact}");
    assert!(
        with_stops > 50,
        "stops, but at the beginning of no kept slip: {with_stops}"
    );
    assert!(
        beaten > 20,
        "texts that are shorter, their stops standing on each other: {beaten}"
    );
}

/// What the cases of `trials` meet that take every overlap.
#[test]
fn many_cases() {
    let (mut few, mut many, mut aside, mut shorter, mut short_room) = (0, 0, 0, 0, 0);
    for case in cases::all() {
        let Case::Shortest(tray, USUAL, work, room) = case else {
            continue;
        };
        if tray.sided_fault().is_some() || work < 32_000 {
            continue;
        }
        let kept = kept_slips(&tray, BLANK);
        aside += usize::from(kept.len() < tray.slips().len());
        many += usize::from(kept.len() > 10);
        if kept.len() <= 7 {
            few += 1;
            let made = shortest_legend(&tray, USUAL, 32_000, 2_000).expect("few kept slips");
            let need = made.legend.len();
            shorter += usize::from(need < compose(&tray, USUAL).legend.len());
            short_room += usize::from(room + 1 == need);
        }
    }
    assert!(few > 2_000, "up to 7 kept slips: {few}");
    assert!(many > 100, "more than 10 kept slips: {many}");
    assert!(aside > 500, "slips set aside: {aside}");
    assert!(shorter > 200, "shorter than composed: {shorter}");
    assert!(short_room > 100, "room for one letter less: {short_room}");
}
