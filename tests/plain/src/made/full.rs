//! Full trays, for timing: 200 slips and 2,000 letters.
use super::{slips, Chance, Shape, Slips, SIGNS};
use std::collections::HashSet;

/// 200 slips of 10 letters, no two equal.
pub fn different(chance: &mut Chance, shape: Shape, signs: &[u8]) -> Slips {
    let mut seen = HashSet::new();
    let mut all = slips(shape, chance, 4_000, 10, 10, signs);
    all.retain(|x| seen.insert(x.clone()));
    all.truncate(200);
    all
}

/// This many slips of 10 letters, no two equal, which have the first eight in common.
pub fn common_beginning(chance: &mut Chance, count: usize) -> Slips {
    let shared = chance.word(SIGNS, 8);
    let ends = SIGNS.iter().flat_map(|&a| SIGNS.iter().map(move |&b| [a, b]));
    let mut all: Slips = ends.map(|end| [&shared[..], &end].concat()).collect();
    chance.shuffle(&mut all);
    all.truncate(count);
    all
}

/// 200 slips of 4 to 16 letters, two by two of 20 together.
pub fn mixed_lengths(chance: &mut Chance, signs: &[u8]) -> Slips {
    let mut all = Slips::new();
    for _ in 0..100 {
        let n = chance.between(4, 16);
        all.push(chance.word(signs, n));
        all.push(chance.word(signs, 20 - n));
    }
    all
}

/// 40 slips of 30 letters, and 160 of 5 letters that stand in them.
pub fn many_inside(chance: &mut Chance) -> Slips {
    let mut all = slips(Shape::Random, chance, 40, 30, 30, &SIGNS[1..]);
    for _ in 0..160 {
        let (i, start) = (chance.below(40), chance.below(26));
        all.push(all[i][start..start + 5].to_vec());
    }
    chance.shuffle(&mut all);
    all
}
