//! Sides: what was worked out by hand of trays composed, of shortest legends and pairs, and of what is refused.
mod buffers;
mod lending;
mod owned;
mod sought;
mod told;

use buffers::{trial, Buffers, AMPLE};
use kotsghane::{compose_tray, shortest_legend, Join, Place, Refusal, RefusalKind, Settings, Side};
use owned::ours;
use plain::by_hand::sides::{composed, eleven_and_one, side_groups, SIDE_PAIRS};
use plain::by_hand::sides_refused::{self, Refused};
use plain::compose::Rooms;
use plain::made::Chance;
use plain::tray;
use sought::Lent;
use told::{plainly, refused};

/// The side for which a byte stands.
fn side(byte: u8) -> Side {
    Side::from_byte(byte).expect("a side")
}

#[test]
fn trays_by_hand() {
    let mut chance = Chance::new(111);
    for case in composed() {
        let side = side(case.side);
        let (name, settings) = (case.name, Settings::least(case.least).with_side(side));
        let tray = tray::Tray::sided(case.slips);
        let made = compose_tray(&ours(&tray), settings).expect(name);
        assert_eq!(made.text, case.legend, "{name}, {side:?}");
        let joins: Vec<Join> = case
            .joins
            .iter()
            .map(|&(i, j, shared)| Join::new(i, j, shared))
            .collect();
        assert_eq!(made.joins, joins, "{name}, {side:?}");
        let place = |&(slip, at, mark, compared)| Place::new(slip, at, mark == 'K', compared, side);
        let places: Vec<Place> = case.places.iter().map(place).collect();
        assert_eq!(made.places, places, "{name}, {side:?}");
        assert!(made.places.iter().all(|place| place.side() == side), "{name}, {side:?}");
        let kept = case.places.iter().filter(|place| place.2 == 'K').count();
        assert_eq!(
            (made.kept, made.kept_letters),
            (kept, made.saved + made.text.len()),
            "{name}"
        );
        let (told, _) = trial(&tray, settings, &Buffers::of(AMPLE, &mut chance));
        assert_eq!(refused(&told), (0, 0), "{name}, {side:?}");
    }
}

#[test]
fn die_groups_by_hand() {
    let mut chance = Chance::new(112);
    for case in side_groups() {
        let side = side(case.settings.side);
        let (name, settings) = (case.name, Settings::least(case.settings.least).with_side(side));
        let made = shortest_legend(&ours(&case.tray), settings).expect(name);
        assert_eq!((made.text.as_str(), made.order), (case.legend, case.order), "{name}");
        let told = sought::trial(&case.tray, settings, &Lent::of(32_000, case.legend.len(), &mut chance));
        assert_eq!(refused(&told), (0, 0), "{name}");
    }
    let obverse = Settings::default().with_side(Side::Obverse);
    assert_eq!(refused(&shortest_legend(&ours(&eleven_and_one()), obverse)), (20, 0));
}

/// No side is named: whatever the settings have, the overlap is the same.
#[test]
fn pairs_by_hand() {
    for case in SIDE_PAIRS {
        let (slips, (left, right), least) = (case.slips, case.numbers, case.least);
        let tray = ours(&tray::Tray::sided(slips));
        for side in Side::ALL {
            let told = tray.overlap(left, right, Settings::least(least).with_side(side));
            assert_eq!(told, Ok(case.letters), "{slips:?}, {left} and {right} at {least}");
        }
    }
}

/// Just as much is lent as the side needs, or less.
#[test]
fn rooms_by_hand() {
    let mut chance = Chance::new(113);
    for case in sides_refused::lent() {
        let [work, legend, joins, places] = case.rooms;
        let rooms = Rooms {
            work,
            legend,
            joins,
            places,
        };
        let settings = Settings::default().with_side(side(case.side));
        let before = Buffers::of(rooms, &mut chance);
        let (told, after) = trial(&case.tray, settings, &before);
        let (number, detail) = refused(&told);
        assert_eq!((number as usize, detail as usize), case.told, "{}", case.name);
        assert!(number != 7 || after == before, "{}: a lent buffer differs", case.name);
    }
}

/// What the owned forms tell, which hold sides only, but any number of them.
fn assert_owned(case: &Refused, settings: Settings, refusal: Option<Refusal>) {
    let (tray, name) = (ours(&case.tray), &case.name);
    if case.work == 32_000 {
        assert_eq!(compose_tray(&tray, settings).err(), refusal, "{name}");
        assert_eq!(shortest_legend(&tray, settings).err(), refusal, "{name}");
    }
    for (left, right) in [(1, 2), (0, 0), (1, 1), (1, 300)] {
        assert_eq!(tray.overlap(left, right, settings).err(), refusal, "{name}");
    }
}

/// Rows before 22, 22 itself, and those after it; every lent buffer holds what it held. Settings cannot hold a side that is
/// none: what is told of such a side is tested in `sys`.
#[test]
fn refused_by_hand() {
    let (mut chance, mut met) = (Chance::new(114), [0; 3]);
    for case in sides_refused::refused() {
        let name = &case.name;
        let Some(side) = Side::from_byte(case.settings.side) else {
            met[0] += 1;
            continue;
        };
        let settings = Settings::least(case.settings.least).with_side(side);
        let rooms = Rooms {
            work: case.work,
            legend: chance.below(5),
            joins: chance.below(3),
            places: chance.below(3),
        };
        let before = Buffers::of(rooms, &mut chance);
        let (told, after) = trial(&case.tray, settings, &before);
        let expected = plain::refusal(case.told.0, case.told.1);
        assert_eq!(told.map_err(plainly).err(), Some(expected), "{name}");
        assert!(after == before, "{name}: a lent buffer differs");
        let before = Lent::of(rooms.work, rooms.legend, &mut chance);
        let (sought, after) = sought::call(&case.tray, settings, &before);
        assert_eq!(sought.err(), told.err(), "{name}");
        assert!(after == before, "{name}: a lent buffer differs");
        met[1] += 1;
        if case.tray.sides.iter().all(|&byte| Side::from_byte(byte).is_some()) {
            assert_owned(&case, settings, told.err());
            met[2] += 1;
        }
    }
    assert!(met[0] > 20 && met[1] > 40 && met[2] > 4, "{met:?}");
}

/// By default the blank side is named, and slips are blank; each byte is a side, or is refused.
#[test]
fn sides_and_bytes() {
    assert_eq!((Settings::default().side, Side::default()), (Side::Blank, Side::Blank));
    assert_eq!(Settings::least(5).side, Side::Blank);
    let settings = Settings::least(5).with_side(Side::Reverse);
    assert_eq!((settings.least, settings.side), (5, Side::Reverse));
    assert_eq!(Place::default().side(), Side::Blank);
    for byte in 0..=u8::MAX {
        let found = Side::ALL.into_iter().find(|side| side.byte() == byte);
        assert_eq!(Side::from_byte(byte), found);
        let told = Side::try_from(byte);
        assert_eq!(told.ok(), found);
        let refused = told.is_err_and(|refusal| refusal.kind() == RefusalKind::BadSide);
        assert_eq!(refused, found.is_none());
    }
    assert_eq!(Side::ALL.map(u8::from), *b" OR");
    assert_eq!(Side::ALL.map(|side| side.to_string()), [" ", "O", "R"]);
}
