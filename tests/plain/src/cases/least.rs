//! Cases with a least overlap: those worked out by hand, what is refused, and made-up trays.
use super::shortest::{small, with_stops, FEW_KEPT};
use super::specimens::named;
use super::{lending, shortest, Case, JOINS, PLACES, WHOLE};
use crate::by_hand::least::{long, refused_first, DIE_GROUPS, JOINED, REFUSED, SHORT_ROOMS, WIDE};
use crate::by_hand::pairs::PAIRS;
use crate::by_hand::shortest::longest;
use crate::by_hand::COMPOSE;
use crate::made::damage::{damaged, DAMAGES};
use crate::made::leasts::{about_least, any_least, many_lengths, LEASTS};
use crate::made::stops::many_stops;
use crate::made::{valid, Chance};
use crate::tray::Tray;
use crate::{Settings, MAX_SLIP, PLACE_CELLS, WORK_CELLS};

/// A heading.
fn heading(text: &str) -> Case {
    Case::Heading(text.to_string())
}

/// What was worked out by hand, and what is refused.
pub fn specimens() -> Vec<Case> {
    let mut cases = vec![heading("A least overlap")];
    for case in JOINED {
        cases.extend(named(case.name, whole(case.least, Tray::of(case.slips))));
    }
    cases.push(heading("The shortest legend with a least overlap"));
    for (least, group) in DIE_GROUPS {
        let settings = Settings::blank(*least);
        let exact = Case::Shortest(Tray::of(group.slips), settings, WORK_CELLS, group.legend.len());
        cases.extend(named(group.name, exact));
    }
    cases.push(heading("Pairs with a least overlap"));
    for pair in PAIRS {
        let (left, right) = pair.numbers;
        cases.push(Case::Ask(Tray::of(pair.slips), pair.least, left, right));
    }
    cases.extend(long_slips());
    cases.extend(refused());
    cases
}

/// Long slips with one letter less than they have as the least overlap, and with as many.
fn long_slips() -> Vec<Case> {
    let mut cases = vec![heading("Long slips with a least overlap")];
    let (two, ten) = (long(), longest().slips);
    let equal = Tray::of(&[&two.slips[0], &two.slips[0]]);
    for least in [two.letters - 1, two.letters] {
        cases.push(whole(least, Tray::of(&two.slips)));
        cases.push(shortest::whole(&two.slips.to_vec(), least));
        cases.push(shortest::whole(&ten, least));
        cases.push(Case::Ask(Tray::of(&two.slips), least, 1, 2));
        cases.push(Case::Ask(equal.clone(), least, 1, 2));
    }
    cases
}

/// The compose tray without room for its legend, and least overlaps that may not be asked for.
fn refused() -> Vec<Case> {
    let sample = Tray::of(COMPOSE.slips);
    let mut cases = vec![heading("Letters needed with a least overlap")];
    for &(least, room, _) in SHORT_ROOMS {
        let settings = Settings::blank(least);
        let rooms = lending(WORK_CELLS, room, JOINS, PLACES);
        cases.push(Case::Compose(sample.clone(), settings, rooms));
        cases.push(Case::Shortest(sample.clone(), settings, WORK_CELLS, room));
    }
    for least in REFUSED {
        cases.push(heading(&format!("The least overlap {least}")));
        for case in refused_first() {
            let (tray, work, room) = (case.tray, case.work, case.room);
            let settings = Settings::blank(least);
            cases.extend(named(
                case.name,
                Case::Compose(tray.clone(), settings, lending(work, room, 0, 0)),
            ));
            cases.push(Case::Shortest(tray.clone(), settings, work, room));
            cases.push(Case::Ask(tray, least, 1, 1));
        }
        // Lists of records too.
        cases.push(whole(least, sample.clone()));
    }
    cases.push(heading("Least overlaps that would be 1 in 8 or 16 bits"));
    for least in WIDE {
        cases.push(whole(least, sample.clone()));
        cases.push(Case::Shortest(
            sample.clone(),
            Settings::blank(least),
            WORK_CELLS,
            2_000,
        ));
        cases.push(Case::Ask(sample.clone(), least, 1, 3));
    }
    cases
}

/// A tray with room for every outcome.
pub fn whole(least: usize, tray: Tray) -> Case {
    Case::Compose(tray, Settings::blank(least), WHOLE)
}

/// Small trays in which neighbours share few letters or many.
pub fn neighbours(chance: &mut Chance, n: usize) -> Case {
    let (most, longest) = [(8, 12), (6, MAX_SLIP)][n % 2];
    whole(any_least(chance), Tray::of(&many_lengths(chance, most, longest)))
}

/// Trays of any size.
pub fn any_size(chance: &mut Chance, n: usize) -> Case {
    let least = any_least(chance);
    let all = match n % 2 {
        0 => valid(chance, 200, MAX_SLIP),
        _ => many_lengths(chance, 200, MAX_SLIP),
    };
    whole(least, Tray::of(&all))
}

/// A damaged tray, in which rooms may be wrong too.
pub fn damaged_tray(chance: &mut Chance, n: usize) -> Case {
    let tray = damaged(chance, DAMAGES[n % DAMAGES.len()], 8);
    let short = lending(chance.one(&[WORK_CELLS, 31_999, 0]), 3, 5, PLACE_CELLS);
    let settings = Settings::blank(LEASTS[n / DAMAGES.len()]);
    Case::Compose(tray, settings, chance.one(&[WHOLE, short]))
}

/// A small die group with some least overlap, and room for every legend.
pub fn die_group(chance: &mut Chance, n: usize) -> Case {
    let least = any_least(chance);
    let all = match n % 3 {
        0 => small(chance),
        1 => with_stops(chance),
        _ => many_lengths(chance, FEW_KEPT, 10),
    };
    shortest::whole(&all, least)
}

/// Two slips of a small tray; in most cases the first two, which share about as many letters as are asked for.
pub fn pair(chance: &mut Chance, n: usize) -> Case {
    let least = any_least(chance);
    let all = match n % 4 {
        0 => many_lengths(chance, 4, MAX_SLIP),
        1 => many_stops(chance, 4, 8),
        _ => about_least(chance, least),
    };
    let any = (chance.below(all.len() + 2), chance.below(all.len() + 2));
    let (left, right) = chance.one(&[(1, 2), (1, 2), (1, 2), (2, 1), any]);
    Case::Ask(Tray::of(&all), least, left, right)
}
