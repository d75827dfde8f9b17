//! How the n-th case of a made-up kind is made: composing, finding and reading.
use super::{lending, Case, Lending, FILE_ROOM, WHOLE, WHOLE_LIST};
use crate::compose::compose;
use crate::find::occurrences;
use crate::made::files::{damaged_file, tray_file, BLOTS};
use crate::made::stops::many_stops;
use crate::made::texts::text;
use crate::made::typed::{many_forms, spoil, typed_slips};
use crate::made::{near, slips, valid, Chance, Shape, SHAPES};
use crate::tray::Tray;
use crate::{Settings, FOUND_CELLS, JOIN_CELLS, MAX_SLIP, PLACE_CELLS, USUAL, WORK_CELLS};

/// A tray with room for every outcome.
pub fn whole(tray: Tray) -> Case {
    Case::Compose(tray, USUAL, WHOLE)
}

/// 200 slips of 10 letters.
pub fn full_tray(chance: &mut Chance, n: usize) -> Case {
    let few = [2, 3, 5, 26, 27][n / SHAPES.len() % 5];
    let signs = chance.signs(few);
    whole(Tray::of(&slips(SHAPES[n % SHAPES.len()], chance, 200, 10, 10, &signs)))
}

/// Long slips and parts of them, of few signs, so that many letters agree at places where the slip does not stand.
pub fn many_aside(chance: &mut Chance, n: usize) -> Case {
    let signs = chance.signs([1, 2, 2, 3][n % 4]);
    let (count, long) = ([6, 12, 60][n % 3], chance.between(4, MAX_SLIP));
    whole(Tray::of(&slips(Shape::Inside, chance, count, 1, long, &signs)))
}

/// Rooms of about what the outcome needs, some of them one short.
pub fn small_rooms(chance: &mut Chance, least: usize) -> Case {
    let all = valid(chance, 12, 15);
    let tray = Tray::of(&all);
    let settings = Settings::blank(least);
    let made = compose(&tray, settings);
    let work = chance.one(&[WORK_CELLS, WORK_CELLS, WORK_CELLS + 7, 31_999]);
    let mut room = |need: usize| near(chance, need);
    let rooms: Lending = lending(
        work,
        room(made.legend.len()),
        room(JOIN_CELLS * made.joins.len()),
        room(PLACE_CELLS * all.len()),
    );
    Case::Compose(tray, settings, rooms)
}

/// A list of about as many numbers as the occurrences need.
pub fn small_list(chance: &mut Chance, _: usize) -> Case {
    let all = valid(chance, 8, 10);
    let n = chance.below(60);
    let text = text(chance, &all, n);
    let tray = Tray::of(&all);
    let need = FOUND_CELLS * occurrences(&tray.slips(), &text).len();
    let work = chance.one(&[WORK_CELLS, WORK_CELLS, WORK_CELLS + 7, 31_999]);
    Case::Find(tray, text, work, near(chance, need))
}

/// Mostly small trays. They are composed, but for every fifth: finding takes a stop as a letter like the rest.
pub fn with_stops(chance: &mut Chance, n: usize) -> Case {
    let most = match n % 10 {
        0 => 60,
        _ => 10,
    };
    let all = many_stops(chance, most, 12);
    let tray = Tray::of(&all);
    if n % 5 < 4 {
        return whole(tray);
    }
    let letters = chance.below(60);
    Case::Find(tray, text(chance, &all, letters), WORK_CELLS, WHOLE_LIST)
}

/// Half of them are whole; a fourth have bytes that are no signs, and a fourth are damaged anywhere.
pub fn typed_file(chance: &mut Chance, n: usize) -> Case {
    let die = match n % 3 {
        0 => valid(chance, 15, 20),
        _ => many_forms(chance, 15, 20),
    };
    let mut all = typed_slips(chance, &die);
    let file = match n % 4 {
        0 => {
            let at = chance.below(all.len());
            let times = chance.between(1, 2);
            spoil(chance, &mut all[at], times);
            tray_file(&all)
        }
        1 => damaged_file(chance, &all, BLOTS[n / 4 % BLOTS.len()]),
        _ => tray_file(&all),
    };
    Case::Read(file, FILE_ROOM)
}
