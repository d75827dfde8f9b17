//! Cases of the shortest legend: the small die groups worked out by hand, what is refused, and made-up trays.
use super::specimens::named;
use super::Case;
use crate::by_hand::shortest::{all_turned, longest, DIE_GROUPS};
use crate::compose::kept_slips;
use crate::made::damage::{damaged, DAMAGES};
use crate::made::groups::{die_group, just_kept, with_aside, FEW, FEW_AND_STOP};
use crate::made::stops::many_stops;
use crate::made::{Chance, Slips};
use crate::shortest::{order_legend, shortest_order};
use crate::tray::Tray;
use crate::{Settings, BLANK, MAX_LETTERS, ONE_LETTER, USUAL, WORK_CELLS};

/// The plain program tries all orders of this many kept slips in a moment.
pub const FEW_KEPT: usize = 7;

/// A tray with room for every legend.
pub fn whole(all: &Slips, least: usize) -> Case {
    Case::Shortest(Tray::of(all), Settings::blank(least), WORK_CELLS, MAX_LETTERS)
}

/// The small die groups, each with just enough room; what is refused; the longest slips; the empty tray.
pub fn specimens() -> Vec<Case> {
    let mut cases = vec![Case::Heading("The shortest legend".to_string())];
    for group in DIE_GROUPS {
        let exact = Case::Shortest(Tray::of(group.slips), USUAL, WORK_CELLS, group.legend.len());
        cases.extend(named(group.name, exact));
    }
    for case in all_turned() {
        let turned = Case::Shortest(case.tray, USUAL, case.work, case.room);
        cases.extend(named(case.name, turned));
    }
    let wide = |all: Slips| whole(&all, ONE_LETTER);
    cases.extend(named("ten of the longest slips", wide(longest().slips)));
    cases.extend(named("the empty tray and room for every legend", wide(Slips::new())));
    cases
}

/// Few slips, without stops.
pub fn small(chance: &mut Chance) -> Slips {
    die_group(chance, FEW, FEW_KEPT)
}

/// Few slips, with stops at the beginnings and ends of many of them, or anywhere.
pub fn with_stops(chance: &mut Chance) -> Slips {
    match chance.below(3) {
        0 => many_stops(chance, FEW_KEPT, 8),
        _ => die_group(chance, FEW_AND_STOP, FEW_KEPT),
    }
}

/// Few slips, and some or many that are set aside.
pub fn many_aside(chance: &mut Chance) -> Slips {
    let all = small(chance);
    let more = chance.one(&[5, 15, 60]);
    with_aside(chance, all, more)
}

/// Room for the legend, for a letter less or more, or for none; some with a work area that is too short.
pub fn small_room(chance: &mut Chance, n: usize, least: usize) -> Case {
    let make = [small, with_stops, many_aside][n % 3];
    let tray = Tray::of(&make(chance));
    let order = shortest_order(&tray, least, &kept_slips(&tray, BLANK));
    let need = order_legend(&tray, least, &order).len();
    let room = chance.one(&[need - 1, need - 1, need, need, need + 1, 0]);
    let work = chance.one(&[WORK_CELLS, WORK_CELLS, WORK_CELLS, WORK_CELLS + 7, 31_999]);
    Case::Shortest(tray, Settings::blank(least), work, room)
}

/// 8 to 12 kept slips; few of them 9 or 10, for which the plain program takes long. Some have slips set aside, or stops, or
/// no room.
pub fn more_kept(chance: &mut Chance, n: usize, least: usize) -> Case {
    let kept = match n % 30 {
        0 => 9,
        1 => 10,
        k => [8, 11, 12][k % 3],
    };
    let sets = chance.one(&[&FEW[..3], FEW_AND_STOP]);
    let mut all = just_kept(chance, sets, kept);
    if chance.below(4) == 0 {
        all = with_aside(chance, all, 30);
    }
    let room = chance.one(&[MAX_LETTERS, MAX_LETTERS, 0]);
    Case::Shortest(Tray::of(&all), Settings::blank(least), WORK_CELLS, room)
}

/// A damaged tray, in which cells and room may be wrong too.
pub fn damaged_tray(chance: &mut Chance, n: usize, least: usize) -> Case {
    let tray = damaged(chance, DAMAGES[n % DAMAGES.len()], FEW_KEPT);
    let work = chance.one(&[WORK_CELLS, 31_999, 0]);
    Case::Shortest(tray, Settings::blank(least), work, chance.one(&[MAX_LETTERS, 0]))
}
