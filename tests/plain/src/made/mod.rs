//! Made-up trays of many shapes, texts and files, from a small generator. Each kind of case has a seed of its own, so that
//! new kinds leave the old ones as they are.
use crate::{MAX_LETTERS, SIGNS};

pub mod campaigns;
pub mod damage;
pub mod files;
pub mod full;
pub mod groups;
pub mod leasts;
pub mod sides;
pub mod stops;
pub mod texts;
pub mod typed;

/// A generator of numbers (splitmix64): the same seed gives the same cases.
pub struct Chance(u64);

impl Chance {
    /// The generator with this seed.
    pub fn new(seed: u64) -> Chance {
        Chance(seed)
    }

    fn next(&mut self) -> u64 {
        self.0 = self.0.wrapping_add(0x9e37_79b9_7f4a_7c15);
        let mut z = self.0;
        z = (z ^ (z >> 30)).wrapping_mul(0xbf58_476d_1ce4_e5b9);
        z = (z ^ (z >> 27)).wrapping_mul(0x94d0_49bb_1331_11eb);
        z ^ (z >> 31)
    }

    /// A number under `n`.
    pub fn below(&mut self, n: usize) -> usize {
        (self.next() % n as u64) as usize
    }

    /// A number from `low` to `high`, both included.
    pub fn between(&mut self, low: usize, high: usize) -> usize {
        low + self.below(high - low + 1)
    }

    /// This many of the 27 signs.
    pub fn signs(&mut self, n: usize) -> Vec<u8> {
        let from = self.below(SIGNS.len());
        (0..n).map(|k| SIGNS[(from + k) % SIGNS.len()]).collect()
    }

    /// A word of `n` of these signs.
    pub fn word(&mut self, signs: &[u8], n: usize) -> Vec<u8> {
        (0..n).map(|_| signs[self.below(signs.len())]).collect()
    }

    /// One of these.
    pub fn one<T: Copy>(&mut self, of: &[T]) -> T {
        of[self.below(of.len())]
    }

    /// Puts these into another order.
    pub fn shuffle<T>(&mut self, xs: &mut [T]) {
        for i in (1..xs.len()).rev() {
            xs.swap(i, self.below(i + 1));
        }
    }
}

/// Slips of letters; slip 1 stands first.
pub type Slips = Vec<Vec<u8>>;

/// How the slips of a tray hang together.
#[derive(Clone, Copy, Debug, PartialEq, Eq)]
pub enum Shape {
    /// Letters by chance.
    Random,
    /// Stretches of one text.
    Windows,
    /// A few long beginnings, each shared by many slips.
    Beginnings,
    /// Stretches of one text at even steps, shuffled: one chain.
    Chain,
    /// Long slips, and many that stand in them or equal them.
    Inside,
}

/// All shapes.
pub const SHAPES: [Shape; 5] = [
    Shape::Random,
    Shape::Windows,
    Shape::Beginnings,
    Shape::Chain,
    Shape::Inside,
];

/// Slips of one shape, `count` of them with `low` to `high` letters, over the given signs.
pub fn slips(shape: Shape, chance: &mut Chance, count: usize, low: usize, high: usize, signs: &[u8]) -> Slips {
    match shape {
        Shape::Random => (0..count).map(|_| word(chance, low, high, signs)).collect(),
        Shape::Windows => windows(chance, count, low, high, signs),
        Shape::Beginnings => beginnings(chance, count, low, high, signs),
        Shape::Chain => chain(chance, count, high, signs),
        Shape::Inside => inside(chance, count, low, high, signs),
    }
}

fn word(chance: &mut Chance, low: usize, high: usize, signs: &[u8]) -> Vec<u8> {
    let n = chance.between(low, high);
    chance.word(signs, n)
}

fn windows(chance: &mut Chance, count: usize, low: usize, high: usize, signs: &[u8]) -> Slips {
    let text = chance.word(signs, 5 * count + high);
    let mut starts: Vec<usize> = (0..5 * count).collect();
    chance.shuffle(&mut starts);
    let mut part = |start: usize| text[start..start + chance.between(low, high)].to_vec();
    starts.into_iter().take(count).map(&mut part).collect()
}

fn beginnings(chance: &mut Chance, count: usize, low: usize, high: usize, signs: &[u8]) -> Slips {
    let shared: Slips = (0..4).map(|_| chance.word(signs, high)).collect();
    let mut made = |_| {
        let n = chance.between(low, high);
        let mut x = shared[chance.below(4)][..n * 7 / 10].to_vec();
        let rest = chance.word(signs, n - x.len());
        x.extend(rest);
        x
    };
    (0..count).map(&mut made).collect()
}

fn chain(chance: &mut Chance, count: usize, length: usize, signs: &[u8]) -> Slips {
    let step = length.div_ceil(2);
    let text = chance.word(signs, step * count + length);
    let mut all: Slips = (0..count).map(|i| text[i * step..i * step + length].to_vec()).collect();
    chance.shuffle(&mut all);
    all
}

fn inside(chance: &mut Chance, count: usize, low: usize, high: usize, signs: &[u8]) -> Slips {
    let long: Slips = (0..count.div_ceil(4)).map(|_| chance.word(signs, high)).collect();
    let mut all: Slips = long.clone();
    while all.len() < count {
        let whole = &long[chance.below(long.len())];
        let n = chance.between(low, high);
        let start = chance.below(high - n + 1);
        all.push(whole[start..start + n].to_vec());
    }
    chance.shuffle(&mut all);
    all
}

/// As many of the first slips as have no more letters together than a tray.
pub fn within_limit(mut all: Slips) -> Slips {
    let mut letters = 0;
    let fitting = all.iter().take_while(|x| {
        letters += x.len();
        letters <= MAX_LETTERS
    });
    let n = fitting.count();
    all.truncate(n);
    all
}

/// A valid tray of up to `most` slips of up to `longest` letters, of any shape.
pub fn valid(chance: &mut Chance, most: usize, longest: usize) -> Slips {
    let shape = chance.one(&SHAPES);
    let count = chance.between(1, most);
    let high = chance.between(1, longest);
    let low = chance.between(1, high);
    let many = chance.between(1, SIGNS.len());
    let few = chance.one(&[1, 2, 3, many]);
    let signs = chance.signs(few);
    within_limit(slips(shape, chance, count, low, high, &signs))
}

/// Room for `need`, one less, or some more.
pub fn near(chance: &mut Chance, need: usize) -> usize {
    match chance.below(4) {
        0 => need.saturating_sub(1),
        1 => need,
        2 => need + 1,
        _ => need + chance.below(50),
    }
}
