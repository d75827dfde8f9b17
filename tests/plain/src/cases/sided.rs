//! How the n-th case of a made-up kind with sides is made: composing, and the shortest legend.
use super::shortest::FEW_KEPT;
use super::{lending, Case, WHOLE};
use crate::compose::{compose, kept_slips};
use crate::made::damage::{damaged, Damage, DAMAGES};
use crate::made::groups::{die_group, just_kept, FEW, FEW_AND_STOP};
use crate::made::leasts::{any_least, many_lengths};
use crate::made::sides::{
    any_sides, echoed, mistaken, spread, spread_sides, Echo, Mistake, Spread, MISTAKES, NO_SIDES, SPREADS,
};
use crate::made::stops::many_stops;
use crate::made::{near, slips, valid, Chance, Slips, SHAPES};
use crate::shortest::{order_legend, shortest_order};
use crate::tray::Tray;
use crate::{Settings, BLANK, JOIN_CELLS, MAX_LETTERS, MAX_SLIPS, OBVERSE, PLACE_CELLS, REVERSE, SIDES, WORK_CELLS};

/// Any side, and mostly a least overlap of 1.
fn any_settings(chance: &mut Chance) -> Settings {
    Settings {
        least: chance.one(&[1, 1, 1, 1, 2, 3]),
        side: chance.one(&SIDES),
    }
}

/// A side that the tray has, and mostly a least overlap of 1.
fn side_of(chance: &mut Chance, tray: &Tray) -> Settings {
    Settings {
        side: chance.one(&tray.sides),
        ..any_settings(chance)
    }
}

/// Few slips, many of which overlap or stand in others.
pub fn few(chance: &mut Chance, n: usize) -> Slips {
    match n % 4 {
        0 => valid(chance, 10, 12),
        1 => many_lengths(chance, 8, 6),
        2 => many_stops(chance, 8, 6),
        _ => die_group(chance, FEW, 10),
    }
}

/// Few slips with all three sides by chance.
pub fn by_chance(chance: &mut Chance, n: usize) -> Case {
    let all = few(chance, n);
    let tray = spread(chance, Spread::Thirds, &all);
    Case::Compose(tray, any_settings(chance), WHOLE)
}

/// Few slips with one side alone. Any side is named.
pub fn one_alone(chance: &mut Chance, n: usize) -> Case {
    let all = few(chance, n);
    let tray = spread(chance, Spread::Alone, &all);
    Case::Compose(tray, any_settings(chance), WHOLE)
}

/// Few slips, one of them of the reverse. A side that has slips is named.
pub fn one_reverse(chance: &mut Chance, n: usize) -> Case {
    let all = few(chance, n);
    let tray = spread(chance, Spread::OneReverse, &all);
    let settings = side_of(chance, &tray);
    Case::Compose(tray, settings, WHOLE)
}

/// Slips that come back on another side, equal or in part.
pub fn on_two_sides(chance: &mut Chance, n: usize, echo: Echo) -> Case {
    let all = few(chance, n);
    let tray = echoed(chance, echo, &all, 4);
    let settings = side_of(chance, &tray);
    Case::Compose(tray, settings, WHOLE)
}

/// Trays of any size.
pub fn any_size(chance: &mut Chance, _: usize) -> Case {
    let all = valid(chance, MAX_SLIPS, 16);
    let tray = any_sides(chance, &all);
    let settings = side_of(chance, &tray);
    Case::Compose(tray, settings, WHOLE)
}

/// 200 slips of 10 letters, whose sides lie in each way in turn.
pub fn full_tray(chance: &mut Chance, n: usize) -> Case {
    let few = [26, 5, 2, 3][n / SPREADS.len() % 4];
    let signs = chance.signs(few);
    let all = slips(SHAPES[n % SHAPES.len()], chance, MAX_SLIPS, 10, 10, &signs);
    let tray = spread(chance, SPREADS[n % SPREADS.len()], &all);
    let settings = side_of(chance, &tray);
    Case::Compose(tray, settings, WHOLE)
}

/// Rooms of about what the side needs, some of them one short.
pub fn small_rooms(chance: &mut Chance, n: usize) -> Case {
    let all = few(chance, n);
    let tray = any_sides(chance, &all);
    let settings = any_settings(chance);
    let made = compose(&tray, settings);
    let work = chance.one(&[WORK_CELLS, WORK_CELLS, WORK_CELLS + 7, 31_999]);
    let mut room = |need: usize| near(chance, need);
    let rooms = lending(
        work,
        room(made.legend.len()),
        room(JOIN_CELLS * made.joins.len()),
        room(PLACE_CELLS * made.places.len()),
    );
    Case::Compose(tray, settings, rooms)
}

/// A tray of which the list of sides has a mistake, in every third case with settings that are wrong too.
pub fn bad_list(chance: &mut Chance, n: usize) -> (Tray, Settings) {
    let all = valid(chance, 6, 8);
    let tray = any_sides(chance, &all);
    let bad = mistaken(chance, MISTAKES[n % MISTAKES.len()], tray);
    let settings = any_settings(chance);
    let (no_side, any_least) = (chance.one(NO_SIDES), any_least(chance));
    let wrong = Settings {
        least: any_least,
        side: no_side,
    };
    (bad, chance.one(&[settings, settings, wrong]))
}

/// Any tray, the empty one too, and a side named that is none.
pub fn no_side(chance: &mut Chance, n: usize) -> (Tray, Settings) {
    let all = match n % 4 {
        0 => Slips::new(),
        _ => valid(chance, 5, 8),
    };
    let tray = any_sides(chance, &all);
    let settings = Settings {
        least: any_least(chance),
        side: NO_SIDES[n / 4 % NO_SIDES.len()],
    };
    (tray, settings)
}

/// A damaged tray: rows 1 to 6 come before 22. Half of the lists have a mistake too.
pub fn damaged_tray(chance: &mut Chance, n: usize) -> (Tray, Settings) {
    let tray = damaged(chance, DAMAGES[n % DAMAGES.len()], 8);
    let sides = spread_sides(chance, Spread::Thirds, tray.ends.len());
    let tray = Tray { sides, ..tray };
    let tray = match n / DAMAGES.len() % 2 {
        0 => tray,
        _ => mistaken(chance, Mistake::NoSide, tray),
    };
    (tray, any_settings(chance))
}

/// A byte that is no sign, and a mistake in the list of sides: 6 comes before 22.
pub fn bad_letters(chance: &mut Chance, n: usize) -> (Tray, Settings) {
    let tray = damaged(chance, Damage::BadByte, 6);
    let sides = spread_sides(chance, Spread::Thirds, tray.ends.len());
    let tray = mistaken(chance, MISTAKES[n % MISTAKES.len()], Tray { sides, ..tray });
    (tray, any_settings(chance))
}

/// How a case that is refused is made.
pub type Bad = fn(&mut Chance, usize) -> (Tray, Settings);

/// Row 22 of the list, row 22 of the side named, and the rows before both.
const BAD: [Bad; 4] = [bad_list, no_side, damaged_tray, bad_letters];

/// Composing that is refused, with room for every outcome or with little.
pub fn refused(chance: &mut Chance, n: usize, make: Bad) -> Case {
    let (tray, settings) = make(chance, n);
    let short = lending(chance.one(&[WORK_CELLS, 31_999, 0]), 9, 9, 9);
    Case::Compose(tray, settings, chance.one(&[WHOLE, short]))
}

/// A shortest legend that is refused, in all ways in turn.
pub fn refused_group(chance: &mut Chance, n: usize) -> Case {
    let (tray, settings) = BAD[n % BAD.len()](chance, n / BAD.len());
    let work = chance.one(&[WORK_CELLS, 31_999, 0]);
    Case::Shortest(tray, settings, work, chance.one(&[MAX_LETTERS, 0]))
}

/// A small die group on three sides, with room for every legend, or for a letter less or more than the side needs.
pub fn group(chance: &mut Chance, n: usize) -> Case {
    let sets = [FEW, FEW_AND_STOP][n % 2];
    let all = die_group(chance, sets, [6, 9, 14][n / 2 % 3]);
    let tray = any_sides(chance, &all);
    // A side of which the plain program can try all orders. There is one: of three sides some have few slips, or none.
    let small = |side: &u8| kept_slips(&tray, *side).len() <= FEW_KEPT;
    let sides: Vec<u8> = SIDES.into_iter().filter(small).collect();
    let settings = Settings {
        side: chance.one(&sides),
        ..any_settings(chance)
    };
    let order = shortest_order(&tray, settings.least, &kept_slips(&tray, settings.side));
    let need = order_legend(&tray, settings.least, &order).len();
    let fewer = need.saturating_sub(1);
    let room = chance.one(&[MAX_LETTERS, MAX_LETTERS, MAX_LETTERS, need, need + 1, fewer]);
    let work = chance.one(&[WORK_CELLS, WORK_CELLS, WORK_CELLS, WORK_CELLS, 31_999]);
    Case::Shortest(tray, settings, work, room)
}

/// More than 10 different slips, of which few are of the side named; or, in every third case, all are, and 20 refuses them.
pub fn many_kept(chance: &mut Chance, n: usize) -> Case {
    let sets = chance.one(&[&FEW[..3], FEW_AND_STOP]);
    let all = just_kept(chance, sets, [11, 12, 14][n / 3 % 3]);
    let (side, other) = chance.one(&[(BLANK, OBVERSE), (OBVERSE, REVERSE), (REVERSE, BLANK)]);
    let most = [side, other, other][n % 3];
    let mut sides = vec![most; all.len()];
    for _ in 0..chance.between(1, FEW_KEPT) {
        sides[chance.below(all.len())] = side;
    }
    let tray = Tray {
        sides,
        ..Tray::of(&all)
    };
    let least = chance.one(&[1, 1, 2]);
    Case::Shortest(tray, Settings { least, side }, WORK_CELLS, MAX_LETTERS)
}
