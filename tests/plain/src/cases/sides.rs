//! Cases of trays with sides: those worked out by hand, and what is refused.
use super::specimens::named;
use super::{lending, tray_room, Case, FILE_ROOM, MERGE_ROOM, WHOLE};
use crate::by_hand::sides::{composed, eleven_and_one, side_groups, SIDE_PAIRS};
use crate::by_hand::sides_refused::{lent, refused};
use crate::by_hand::sides_written::{all_merged, FILES};
use crate::tray::Tray;
use crate::{Settings, JOIN_CELLS, MAX_LETTERS, OBVERSE, ONE_LETTER, PLACE_CELLS, WORK_CELLS};

fn heading(text: &str) -> Case {
    Case::Heading(text.to_string())
}

/// What was worked out by hand.
pub fn specimens() -> Vec<Case> {
    [sides_composed(), rooms_of_sides(), lists_refused(), merged(), files()].concat()
}

/// Each side composed, its shortest legend, and pairs.
fn sides_composed() -> Vec<Case> {
    let mut cases = vec![heading("Sides composed")];
    for case in composed() {
        let settings = Settings {
            least: case.least,
            side: case.side,
        };
        let tray = Tray::sided(case.slips);
        cases.extend(named(case.name, Case::Compose(tray, settings, WHOLE)));
    }
    cases.push(heading("The shortest legend of a side"));
    for case in side_groups() {
        let exact = Case::Shortest(case.tray, case.settings, WORK_CELLS, case.legend.len());
        cases.extend(named(case.name, exact));
    }
    let eleven = Settings {
        least: ONE_LETTER,
        side: OBVERSE,
    };
    let many = Case::Shortest(eleven_and_one(), eleven, WORK_CELLS, MAX_LETTERS);
    cases.extend(named("eleven of O beside one of R", many));
    cases.push(heading("Pairs with sides"));
    for pair in SIDE_PAIRS {
        let (left, right) = pair.numbers;
        cases.push(Case::Ask(Tray::sided(pair.slips), pair.least, left, right));
    }
    cases
}

/// Just enough lent for a side, and less.
fn rooms_of_sides() -> Vec<Case> {
    let mut cases = vec![heading("What is lent for a side")];
    for case in lent() {
        let [work, legend, joins, places] = case.rooms;
        let settings = Settings {
            least: ONE_LETTER,
            side: case.side,
        };
        let rooms = lending(work, legend, JOIN_CELLS * joins, PLACE_CELLS * places);
        cases.extend(named(case.name, Case::Compose(case.tray.clone(), settings, rooms)));
        if places > 0 {
            // One number less than the records of places have.
            let short = lending(work, legend, JOIN_CELLS * joins, PLACE_CELLS * places - 1);
            cases.push(Case::Compose(case.tray, settings, short));
        }
    }
    cases
}

/// Row 22, and the rows before and after it.
fn lists_refused() -> Vec<Case> {
    let mut cases = vec![heading("Sides that are refused")];
    for case in refused() {
        let (tray, settings) = (case.tray, case.settings);
        let rooms = lending(case.work, 0, 0, 0);
        cases.extend(named(&case.name, Case::Compose(tray.clone(), settings, rooms)));
        cases.push(Case::Shortest(tray.clone(), settings, case.work, 0));
        cases.push(Case::Ask(tray.clone(), settings.least, 1, 1));
        cases.push(Case::Ask(tray, settings.least, 0, 3));
    }
    cases
}

/// Two trays with sides merged.
fn merged() -> Vec<Case> {
    let mut cases = vec![heading("Two trays with sides merged")];
    for case in all_merged() {
        let [letters, ends, sides] = case.lent;
        let room = tray_room(letters, ends, sides);
        cases.extend(named(&case.name, Case::Merge(case.first, case.second, room)));
    }
    // Blank slips, and a side more than is needed.
    let blank = Tray::of(&["AVG"]);
    let more = tray_room(MERGE_ROOM.letters, MERGE_ROOM.ends, MERGE_ROOM.sides + 1);
    cases.extend(named(
        "blank slips and 201 sides",
        Case::Merge(blank.clone(), blank, more),
    ));
    cases
}

/// Tray files with sides, and how many sides are lent.
fn files() -> Vec<Case> {
    let mut cases = vec![heading("Tray files with sides")];
    for case in FILES {
        cases.extend(named(case.name, Case::Read(case.file.into(), FILE_ROOM)));
    }
    for sides in [1_700, 1_699, 1_750, 0] {
        let room = tray_room(FILE_ROOM.letters, FILE_ROOM.ends, sides);
        let name = format!("{sides} sides lent");
        cases.extend(named(&name, Case::Read(FILES[0].file.into(), room)));
        cases.push(Case::Read(b"   1   3oAVG\n".to_vec(), room));
    }
    cases
}
