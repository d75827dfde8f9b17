//! Times the merge of two trays beside the plain program's, and beside composing the outcome.
use crate::{clock, Buffers, Family, CALLS, TRAYS};
use kotsghane::{merge_trays, Refusal, Tray, Written, MAX_LETTERS, MAX_SLIPS};
use plain::made::full::{common_beginning, different};
use plain::made::{Chance, Shape, Slips};
use plain::merge;
use plain::{tray, SIGNS};
use std::hint::black_box;

/// Which of 400 slips the two trays have.
struct Pair {
    name: &'static str,
    make: fn(Slips) -> [Slips; 2],
}

const PAIRS: [Pair; 5] = [
    Pair {
        name: "200, and the same 200",
        make: |all| [all[..200].to_vec(), all[..200].to_vec()],
    },
    Pair {
        name: "200, and the same 200 turned",
        make: |all| [all[..200].to_vec(), all[..200].iter().rev().cloned().collect()],
    },
    Pair {
        name: "200, and the last of them 200 times",
        make: |all| [all[..200].to_vec(), vec![all[199].clone(); 200]],
    },
    Pair {
        name: "100, and 100 others",
        make: |all| [all[..100].to_vec(), all[100..200].to_vec()],
    },
    Pair {
        name: "200, and 200 others: refused by 1",
        make: |all| [all[..200].to_vec(), all[200..].to_vec()],
    },
];

/// 400 different slips of ten letters.
const FAMILIES: [Family; 2] = [
    Family {
        name: "random, 26 letters",
        make: |chance| [0; 2].map(|_| different(chance, Shape::Random, &SIGNS[1..])).concat(),
    },
    Family {
        name: "the first 8 of 10 letters in common",
        make: |chance| common_beginning(chance, 400),
    },
];

/// Lent letters, ends and sides.
struct Lent {
    letters: Vec<u8>,
    ends: Vec<u16>,
    sides: Vec<u8>,
}

impl Lent {
    fn new() -> Lent {
        Lent {
            letters: vec![0; MAX_LETTERS],
            ends: vec![0; MAX_SLIPS],
            sides: vec![0; MAX_SLIPS],
        }
    }

    fn merge(&mut self, trays: &[Tray; 2]) -> Result<Written, Refusal> {
        let [first, second] = trays.each_ref().map(Tray::lend);
        merge_trays(first, second, &mut self.letters, &mut self.ends, &mut self.sides)
    }
}

/// Two trays, for both programs, and their outcome; and the least time of each call, in microseconds.
struct Merging {
    plain: [tray::Tray; 2],
    ours: [Tray; 2],
    outcome: Option<tray::Tray>,
    merge: f64,
    all_pairs: f64,
    composing: f64,
}

fn plain_merge([first, second]: &[tray::Tray; 2]) -> Option<tray::Tray> {
    merge::merge_trays(first, second, MAX_LETTERS, MAX_SLIPS, MAX_SLIPS).ok()
}

/// Merges the trays by both programs, and compares what they give.
fn compare(both: [Slips; 2]) -> Merging {
    let plain = both.map(|all| tray::Tray::of(&all));
    let ours = plain.clone().map(|x| Tray::from_parts(x.letters, x.ends));
    let (mut lent, outcome) = (Lent::new(), plain_merge(&plain));
    match (lent.merge(&ours), &outcome) {
        (Ok(written), Some(tray)) => {
            assert_eq!(lent.letters[..written.letters], tray.letters);
            assert_eq!(lent.ends[..written.slips], tray.ends);
            assert_eq!(lent.sides[..written.slips], tray.sides);
        }
        (told, None) => assert_eq!(told.map_err(|refusal| refusal.number()), Err(1)),
        (told, Some(_)) => panic!("the plain program merges them: {told:?}"),
    }
    Merging {
        plain,
        ours,
        outcome,
        merge: f64::MAX,
        all_pairs: f64::MAX,
        composing: f64::MAX,
    }
}

/// One round: each kind of call goes through all pairs in turn.
fn round(trays: &mut [Merging], lent: &mut Lent, buffers: &mut Buffers) {
    for both in trays.iter_mut() {
        lent.letters.fill(0);
        lent.ends.fill(0);
        lent.sides.fill(0);
        clock(&mut both.merge, || lent.merge(black_box(&both.ours)));
    }
    for both in trays.iter_mut() {
        clock(&mut both.all_pairs, || plain_merge(black_box(&both.plain)));
    }
    for both in trays.iter_mut() {
        let Some(outcome) = &both.outcome else { continue };
        buffers.reset();
        clock(&mut both.composing, || buffers.ours(black_box(outcome), 200));
    }
}

/// Merging two trays.
pub fn two_trays(buffers: &mut Buffers) {
    println!("Two trays of slips of ten letters merged; microseconds a call, the mean of {TRAYS} pairs");
    println!("| slips | first and second tray | merging | the plain program | composing the outcome |");
    println!("|---|---|---:|---:|---:|");
    for family in FAMILIES {
        for (seed, pair) in PAIRS.iter().enumerate() {
            let mut chance = Chance::new(seed as u64);
            let made = |_| compare((pair.make)((family.make)(&mut chance)));
            let mut trays: Vec<Merging> = (0..TRAYS).map(made).collect();
            let mut lent = Lent::new();
            for _ in 0..CALLS {
                round(&mut trays, &mut lent, buffers);
            }
            let mean = |time: fn(&Merging) -> f64| trays.iter().map(time).sum::<f64>() / TRAYS as f64;
            let (merge, all_pairs, composing) = (mean(|t| t.merge), mean(|t| t.all_pairs), mean(|t| t.composing));
            let composing = match trays[0].outcome {
                Some(_) => format!("{composing:.1}"),
                None => "-".to_string(),
            };
            let (family, pair) = (family.name, pair.name);
            println!("| {family} | {pair} | {merge:.1} | {all_pairs:.1} | {composing} |");
        }
    }
}
