//! Sides: the plain program is held to what was worked out by hand.
use plain::by_hand::{sides, sides_refused, sides_written};
use plain::compose::{compose, compose_tray, Place, Rooms};
use plain::file::read_tray;
use plain::find::find_slips;
use plain::made::files::sided_file;
use plain::merge::{long_tray, merge_trays};
use plain::sheet::{compose_sheet, find_sheet};
use plain::shortest::shortest_legend;
use plain::tray::Tray;
use plain::{refusal, Settings, OBVERSE, USUAL};

const AMPLE: Rooms = Rooms {
    work: 32_000,
    legend: 2_000,
    joins: 200,
    places: 200,
};

fn of_side(side: u8) -> Settings {
    Settings { side, ..USUAL }
}

#[test]
fn trays_by_hand() {
    for case in sides::composed() {
        let name = format!("{}, side {}", case.name, case.side);
        let (least, side) = (case.least, case.side);
        let made = compose_tray(&Tray::sided(case.slips), Settings { least, side }, AMPLE).expect(&name);
        assert_eq!(made.legend, case.legend.as_bytes(), "{name}");
        let joins: Vec<_> = made.joins.iter().map(|x| (x.left, x.right, x.overlap)).collect();
        assert_eq!(joins, case.joins, "{name}");
        let mark = |kept| if kept { 'K' } else { 'S' };
        let place = |x: &Place| (x.slip, x.place, mark(x.kept), x.compared);
        let places: Vec<_> = made.places.iter().map(place).collect();
        assert_eq!(places, case.places, "{name}");
        assert!(made.places.iter().all(|x| x.side == side), "{name}");
        assert_eq!(made.kept_letters, made.saved() + case.legend.len(), "{name}");
    }
}

#[test]
fn die_groups_by_hand() {
    for case in sides::side_groups() {
        let (name, letters) = (case.name, case.legend.len());
        let made = shortest_legend(&case.tray, case.settings, 32_000, letters).expect(name);
        assert_eq!(made.order, case.order, "{name}");
        assert_eq!(made.legend, case.legend.as_bytes(), "{name}");
    }
    let of_eleven = shortest_legend(&sides::eleven_and_one(), of_side(OBVERSE), 32_000, 2_000);
    assert_eq!(of_eleven, Err(refusal(20, 0)));
}

#[test]
fn pairs_by_hand() {
    for case in sides::SIDE_PAIRS {
        let (slips, (left, right), least) = (case.slips, case.numbers, case.least);
        let told = Tray::sided(slips).pair(left, right, least);
        assert_eq!(told, Ok(case.letters), "{slips:?}, {left} and {right} at {least}");
    }
}

#[test]
fn rooms_by_hand() {
    for case in sides_refused::lent() {
        let [work, legend, joins, places] = case.rooms;
        let rooms = Rooms {
            work,
            legend,
            joins,
            places,
        };
        let told = compose_tray(&case.tray, of_side(case.side), rooms);
        let told = told.map_or_else(|x| (x.number, x.detail), |_| (0, 0));
        assert_eq!(told, case.told, "{}", case.name);
    }
}

#[test]
fn refused_by_hand() {
    for case in sides_refused::refused() {
        let (name, tray, settings) = (&case.name, &case.tray, case.settings);
        let expected = refusal(case.told.0, case.told.1);
        for rooms in [AMPLE, Rooms { legend: 0, ..AMPLE }] {
            let rooms = Rooms {
                work: case.work,
                ..rooms
            };
            assert_eq!(compose_tray(tray, settings, rooms), Err(expected), "{name}");
            let told = shortest_legend(tray, settings, rooms.work, rooms.legend);
            assert_eq!(told, Err(expected), "{name}");
        }
        for (left, right) in [(1, 2), (0, 0), (1, 1), (1, 300)] {
            let told = tray.pair(left, right, settings.least);
            assert_eq!(told == Err(expected), case.pair, "{name}");
        }
    }
}

/// One slip, and finding, take no sides.
#[test]
fn no_sides_are_asked_for() {
    for case in sides_refused::refused() {
        let tray = case.tray;
        let blank = Tray::all_blank(tray.letters.clone(), tray.ends.clone());
        assert_eq!(tray.slip(1), blank.slip(1), "{}", case.name);
        let find = |tray| find_slips(tray, b"ABC", 32_000, 9);
        assert_eq!(find(&tray), find(&blank), "{}", case.name);
    }
}

#[test]
fn merged_by_hand() {
    for case in sides_written::all_merged() {
        let [letters, ends, sides] = case.lent;
        let told = merge_trays(&case.first, &case.second, letters, ends, sides);
        let expected = case.told.map_err(|(number, detail)| refusal(number, detail));
        assert_eq!(told, expected, "{}", case.name);
    }
    let (first, second, legends) = sides_written::LEGENDS;
    let (first, second) = (Tray::sided(first), Tray::sided(second));
    let outcome = merge_trays(&first, &second, 2_000, 200, 200).expect("two accepted trays");
    for tray in [outcome, long_tray(&first, &second)] {
        for (side, legend) in legends {
            assert_eq!(compose(&tray, of_side(side)).legend, legend.as_bytes(), "side {side}");
        }
    }
}

#[test]
fn files_by_hand() {
    for case in sides_written::FILES {
        let (name, file) = (case.name, case.file.as_bytes());
        let expected = case.told.map(Tray::sided);
        let expected = expected.map_err(|(number, detail)| refusal(number, detail));
        assert_eq!(read_tray(file, 16_384, 1_700, 1_700), expected, "{name}");
        for lent in [[16_384, 1_700, 1_699], [16_383, 1_700, 1_700], [16_384, 1_699, 1_700]] {
            let told = read_tray(file, lent[0], lent[1], lent[2]);
            assert_eq!(told, Err(refusal(15, 0)), "{name}");
        }
    }
    for byte in 0..=255 {
        let told = read_tray(&sided_file(&[(byte, "AVG")]), 16_384, 1_700, 1_700);
        let expected = match byte {
            b' ' | b'O' | b'R' => Ok(Tray::sided(&[(byte, "AVG")])),
            _ => Err(refusal(17, 1)),
        };
        assert_eq!(told, expected, "{byte} in column 9");
    }
}

#[test]
fn sheets_by_hand() {
    for (file, sheet) in sides_written::SHEETS {
        let told = String::from_utf8(compose_sheet(file.as_bytes())).expect("signs and digits");
        assert_eq!(told, *sheet);
    }
    let (file, text, sheet) = sides_written::FOUND;
    assert_eq!(find_sheet(file.as_bytes(), text.as_bytes()), sheet.as_bytes());
}
