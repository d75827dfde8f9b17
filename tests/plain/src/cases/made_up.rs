//! Made-up cases. Each kind has a seed of its own: later kinds are added at the end, and old ones stay as they are.
use super::makers::{full_tray, many_aside, small_list, small_rooms, typed_file, whole, with_stops};
use super::{least, lending, merging, shortest, sided, sided_trays, tray_room, Case, FILE_ROOM, WHOLE_LIST};
use crate::made::damage::{damaged, stored, DAMAGES};
use crate::made::files::{damaged_file, tray_file, BLOTS};
use crate::made::leasts::{any_least, LEASTS};
use crate::made::sides::Echo;
use crate::made::stops::many_stops;
use crate::made::texts::{damaged_text, text};
use crate::made::{valid, Chance};
use crate::tray::Tray;
use crate::{FILE_ENDS, MAX_FILE, MAX_SLIP, ONE_LETTER, PLACE_CELLS, USUAL, WORK_CELLS};

/// A kind of case: what it is, its seed, how many there are, and how the n-th is made.
struct Kind {
    name: &'static str,
    seed: u64,
    count: usize,
    make: fn(&mut Chance, usize) -> Case,
}

const fn kind(name: &'static str, seed: u64, count: usize, make: fn(&mut Chance, usize) -> Case) -> Kind {
    Kind {
        name,
        seed,
        count,
        make,
    }
}

const KINDS: &[Kind] = &[
    kind("Small trays", 101, 1_500, |chance, _| {
        whole(Tray::of(&valid(chance, 10, 20)))
    }),
    kind("Trays of any size", 102, 150, |chance, _| {
        whole(Tray::of(&valid(chance, 200, MAX_SLIP)))
    }),
    kind("Full trays", 103, 40, full_tray),
    kind("Damaged trays", 104, 1_000, |chance, n| {
        whole(damaged(chance, DAMAGES[n % DAMAGES.len()], 12))
    }),
    kind("Small rooms", 105, 1_000, |chance, _| small_rooms(chance, ONE_LETTER)),
    kind("Damaged trays in small rooms", 106, 200, |chance, n| {
        let tray = damaged(chance, DAMAGES[n % DAMAGES.len()], 10);
        let work = chance.one(&[31_999, 0, WORK_CELLS]);
        let rooms = lending(work, 3, 5, PLACE_CELLS);
        Case::Compose(tray, USUAL, rooms)
    }),
    kind("Short texts", 107, 1_200, |chance, _| {
        let all = valid(chance, 8, 12);
        let n = chance.below(80);
        Case::Find(Tray::of(&all), text(chance, &all, n), WORK_CELLS, WHOLE_LIST)
    }),
    kind("Texts and trays of any size", 108, 80, |chance, _| {
        let all = valid(chance, 200, MAX_SLIP);
        let n = chance.below(2_001);
        Case::Find(Tray::of(&all), text(chance, &all, n), WORK_CELLS, WHOLE_LIST)
    }),
    kind("Damaged texts", 109, 300, |chance, n| {
        let all = valid(chance, 6, 12);
        let made = damaged_text(chance, &all, n % 8 == 0, n % 4);
        Case::Find(Tray::of(&all), made, WORK_CELLS, WHOLE_LIST)
    }),
    kind("Damaged trays and a text", 110, 200, |chance, n| {
        let tray = damaged(chance, DAMAGES[n % DAMAGES.len()], 10);
        let letters = chance.below(40);
        Case::Find(
            tray,
            chance.word(b"ABC.a", letters),
            chance.one(&[WORK_CELLS, 31_999]),
            8,
        )
    }),
    kind("Small lists", 111, 600, small_list),
    kind("Tray files", 112, 150, |chance, _| {
        Case::Read(tray_file(&valid(chance, 15, 20)), FILE_ROOM)
    }),
    kind("Damaged tray files", 113, 900, |chance, n| {
        let all = valid(chance, 8, 12);
        let file = damaged_file(chance, &all, BLOTS[n % BLOTS.len()]);
        let room = chance.one(&[
            FILE_ROOM,
            tray_room(MAX_FILE + 9, FILE_ENDS + 9, FILE_ENDS + 9),
            tray_room(MAX_FILE, 1_699, FILE_ENDS),
        ]);
        Case::Read(file, room)
    }),
    kind("Trays with many stops", 114, 300, with_stops),
    kind("Tray files as readers type them", 115, 200, typed_file),
    kind(
        "Trays stored where a slip could have 8 letters more",
        116,
        200,
        |chance, n| whole(Tray::of(&stored(chance, [4, 12, 60][n % 3]))),
    ),
    kind("Trays with many slips set aside", 117, 300, many_aside),
    kind("Small die groups", 118, 1_400, |chance, _| {
        shortest::whole(&shortest::small(chance), ONE_LETTER)
    }),
    kind("Small die groups with stops", 119, 500, |chance, _| {
        shortest::whole(&shortest::with_stops(chance), ONE_LETTER)
    }),
    kind("Small die groups with slips set aside", 120, 300, |chance, _| {
        shortest::whole(&shortest::many_aside(chance), ONE_LETTER)
    }),
    kind("Small die groups with slips of any length", 121, 200, |chance, _| {
        shortest::whole(&valid(chance, 7, MAX_SLIP), ONE_LETTER)
    }),
    kind("Small die groups in small rooms", 122, 500, |chance, n| {
        shortest::small_room(chance, n, ONE_LETTER)
    }),
    kind("Die groups of 8 to 12 kept slips", 123, 240, |chance, n| {
        shortest::more_kept(chance, n, ONE_LETTER)
    }),
    kind("Damaged trays and the shortest legend", 124, 200, |chance, n| {
        shortest::damaged_tray(chance, n, ONE_LETTER)
    }),
    kind("Small trays with a least overlap", 125, 350, |chance, _| {
        least::whole(any_least(chance), Tray::of(&valid(chance, 10, 20)))
    }),
    kind("Neighbours that share few letters or many", 126, 550, least::neighbours),
    kind("Trays with many stops and a least overlap", 127, 250, |chance, _| {
        least::whole(any_least(chance), Tray::of(&many_stops(chance, 10, 12)))
    }),
    kind("Trays of any size with a least overlap", 128, 30, least::any_size),
    kind("Small rooms with a least overlap", 129, 200, |chance, _| {
        let least = any_least(chance);
        small_rooms(chance, least)
    }),
    kind("Damaged trays with a least overlap", 130, 60, least::damaged_tray),
    kind("Small die groups with a least overlap", 131, 400, least::die_group),
    kind(
        "Small die groups in small rooms with a least overlap",
        132,
        150,
        |chance, n| {
            let least = any_least(chance);
            shortest::small_room(chance, n, least)
        },
    ),
    kind(
        "Die groups of 8 to 12 kept slips with a least overlap",
        133,
        60,
        |chance, n| shortest::more_kept(chance, n, [2, 3, 5, 0][n / 3 % 4]),
    ),
    kind(
        "Damaged trays and the shortest legend with a least overlap",
        134,
        60,
        |chance, n| shortest::damaged_tray(chance, n, LEASTS[n / DAMAGES.len()]),
    ),
    kind("Pairs with a least overlap", 135, 600, least::pair),
    kind("Two trays", 136, 1_200, merging::small),
    kind(
        "Two trays with slips that nearly equal others",
        137,
        600,
        merging::nearly_equal,
    ),
    kind("Two trays with many stops", 138, 300, merging::with_stops),
    kind("Two trays of any size", 139, 60, merging::any_size),
    kind(
        "Two trays of about 200 slips or 2,000 letters together",
        140,
        200,
        merging::about_full,
    ),
    kind("Two trays, one or both damaged", 141, 450, merging::damaged_trays),
    kind(
        "Two trays and too little lent, or more than needed",
        142,
        300,
        merging::any_room,
    ),
    kind("One hoard in two campaigns", 143, 300, merging::one_hoard),
    kind("Small trays with sides by chance", 144, 1_000, sided::by_chance),
    kind("Small trays of one side alone", 145, 120, sided::one_alone),
    kind("Small trays with one slip of the reverse", 146, 150, sided::one_reverse),
    kind("Equal slips on two sides", 147, 300, |chance, n| {
        sided::on_two_sides(chance, n, Echo::Equal)
    }),
    kind("Slips inside slips of another side", 148, 400, |chance, n| {
        sided::on_two_sides(chance, n, Echo::Part)
    }),
    kind("Trays of any size with sides", 149, 24, sided::any_size),
    kind("Full trays with sides", 150, 12, sided::full_tray),
    kind("Small rooms for a side", 151, 300, sided::small_rooms),
    kind("Lists of sides with mistakes", 152, 320, |chance, n| {
        sided::refused(chance, n, sided::bad_list)
    }),
    kind("A side named that is none", 153, 104, |chance, n| {
        sided::refused(chance, n, sided::no_side)
    }),
    kind("Damaged trays with sides", 154, 120, |chance, n| {
        sided::refused(chance, n, sided::damaged_tray)
    }),
    kind(
        "Bytes that are no signs, and lists of sides with mistakes",
        155,
        80,
        |chance, n| sided::refused(chance, n, sided::bad_letters),
    ),
    kind("Small die groups with sides", 156, 600, sided::group),
    kind("Many kept slips, few of them of the side", 157, 120, sided::many_kept),
    kind(
        "Small die groups that are refused for their sides",
        158,
        200,
        sided::refused_group,
    ),
    kind("Pairs of slips with sides", 159, 400, sided_trays::pair),
    kind(
        "Pairs of slips that are refused for their sides",
        160,
        150,
        sided_trays::refused_pair,
    ),
    kind("Two trays with sides", 161, 800, sided_trays::merged),
    kind(
        "Two trays with sides of about 200 slips or 2,000 letters together",
        162,
        24,
        sided_trays::about_full,
    ),
    kind(
        "Two trays, one or both refused for their sides",
        163,
        240,
        sided_trays::refused_merge,
    ),
    kind(
        "Two trays and too few sides lent, or more than needed",
        164,
        150,
        sided_trays::any_room,
    ),
    kind(
        "Tray files with sides as readers type them",
        165,
        160,
        sided_trays::file,
    ),
    kind("Damaged tray files with sides", 166, 200, sided_trays::damaged_file),
];

pub fn all() -> Vec<Case> {
    let mut cases = Vec::new();
    for kind in KINDS {
        cases.push(Case::Heading(kind.name.to_string()));
        let mut chance = Chance::new(kind.seed);
        cases.extend((0..kind.count).map(|n| (kind.make)(&mut chance, n)));
    }
    cases
}
