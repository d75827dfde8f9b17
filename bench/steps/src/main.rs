//! `steps CALL FAMILY SLIPS TIMES`: makes the exported call `compose`, `find`, `merge`, `read` or `shortest` TIMES times on one
//! tray of a family, of SLIPS slips of ten letters, all blank. `run` beside it counts the instructions of one more call.
use kotsghane::{compose, find, merge_trays, read_tray, shortest, Found, Join, Place, Settings, TrayRef};
use kotsghane::{FILE_ENDS, MAX_FILE, WORK_CELLS};
use plain::made::files::tray_file;
use plain::made::{slips, Chance, Shape, Slips};
use plain::tray::Tray;
use plain::SIGNS;
use std::hint::black_box;

/// A quarter of the slips has ten letters, of which many share the first seven; the others are beginnings of these, of eight
/// or nine letters, and so set aside.
fn hoard(chance: &mut Chance, count: usize) -> Slips {
    let long = slips(Shape::Beginnings, chance, count / 4, 10, 10, &SIGNS[1..]);
    let mut all = long.clone();
    while all.len() < count {
        let letters = chance.between(8, 9);
        all.push(long[chance.below(long.len())][..letters].to_vec());
    }
    chance.shuffle(&mut all);
    all
}

fn family(name: &str, count: usize) -> Slips {
    let mut chance = Chance::new(1);
    if name == "hoard" {
        return hoard(&mut chance, count);
    }
    let (shape, signs) = match name {
        "random" => (Shape::Random, &SIGNS[1..]),
        "two-letters" => (Shape::Random, &b"AB"[..]),
        "windows" => (Shape::Windows, &SIGNS[1..]),
        "beginnings" => (Shape::Beginnings, &SIGNS[1..]),
        "chain" => (Shape::Chain, &SIGNS[1..]),
        "inside" => (Shape::Inside, &SIGNS[1..]),
        _ => panic!("no family {name}"),
    };
    let low = if name == "inside" { 3 } else { 10 };
    slips(shape, &mut chance, count, low, 10, signs)
}

/// The slips in another order: a tray to merge with the first, and a text of as many letters as it has.
fn shuffled(all: &Slips) -> Slips {
    let mut shuffled = all.clone();
    Chance::new(2).shuffle(&mut shuffled);
    shuffled
}

fn main() {
    let words: Vec<String> = std::env::args().collect();
    let number = |i: usize| words[i].parse::<usize>().expect("a number");
    let all = family(&words[2], number(3));
    let (tray, text, file) = (Tray::of(&all), shuffled(&all).concat(), tray_file(&all));
    let two = [all.clone(), shuffled(&all)].map(|all| kotsghane::Tray::of(&all));
    let (mut work, mut legend) = (vec![0; WORK_CELLS], vec![0; 2_000]);
    let (mut joins, mut places) = (vec![Join::default(); 200], vec![Place::default(); 200]);
    let mut found = vec![Found::default(); 8_000];
    let (mut letters_lent, mut ends_lent, mut sides_lent) = (vec![0; MAX_FILE], vec![0; FILE_ENDS], vec![0; FILE_ENDS]);
    let settings = Settings::default();
    for _ in 0..number(4) {
        let (letters, ends, sides) = (black_box(&tray.letters), black_box(&tray.ends), black_box(&tray.sides));
        let lent = TrayRef::new(letters, ends, sides);
        let refused = match words[1].as_str() {
            "compose" => compose(lent, settings, &mut work, &mut legend, &mut joins, &mut places).err(),
            "find" => find(letters, ends, black_box(&text), &mut work, &mut found).err(),
            "shortest" => shortest(lent, settings, &mut work, &mut legend).err(),
            "read" => read_tray(black_box(&file), &mut letters_lent, &mut ends_lent, &mut sides_lent).err(),
            "merge" => {
                let [first, second] = black_box(&two).each_ref().map(kotsghane::Tray::lend);
                merge_trays(first, second, &mut letters_lent, &mut ends_lent, &mut sides_lent).err()
            }
            call => panic!("no call {call}"),
        };
        assert_eq!(refused, None);
    }
    black_box((legend, joins, places, found, letters_lent, ends_lent, sides_lent));
}
