//! Times the library and the plain program on the same trays and the same state of buffers: `cargo bench`.
//! First the outcomes are compared, places included. Then the shortest legend of small die groups is timed beside composing,
//! and the merge of two trays.
mod merging;

use kotsghane::{compose, shortest, Composed, Join, Place, Refusal, Settings, Shortest, Side, TrayRef, WORK_CELLS};
use plain::compose::{compose_tray, kept_slips, try_places, Rooms};
use plain::made::full::{different, many_inside, mixed_lengths};
use plain::made::{slips, Chance, Shape, Slips};
use plain::shortest::shortest_legend;
use plain::tray::Tray;
use plain::{BLANK, SIGNS, USUAL};
use std::hint::black_box;
use std::time::Instant;

/// How many trays of each family, and how many calls on each, of which the fastest counts.
const TRAYS: usize = 8;
const CALLS: usize = 100;

struct Family {
    name: &'static str,
    make: fn(&mut Chance) -> Slips,
}

const FAMILIES: [Family; 8] = [
    Family {
        name: "random, 26 letters",
        make: |chance| different(chance, Shape::Random, &SIGNS[1..]),
    },
    Family {
        name: "random, 2 letters",
        make: |chance| different(chance, Shape::Random, b"AB"),
    },
    Family {
        name: "windows of one text",
        make: |chance| slips(Shape::Windows, chance, 200, 10, 10, &SIGNS[1..]),
    },
    Family {
        name: "shared long beginnings",
        make: |chance| different(chance, Shape::Beginnings, &SIGNS[1..]),
    },
    Family {
        name: "a single chain",
        make: |chance| slips(Shape::Chain, chance, 200, 10, 10, &SIGNS[1..]),
    },
    Family {
        name: "lengths 4 to 16",
        make: |chance| mixed_lengths(chance, &SIGNS[1..]),
    },
    Family {
        name: "many inside others",
        make: many_inside,
    },
    Family {
        name: "many equal",
        make: |chance| slips(Shape::Inside, chance, 200, 10, 10, &SIGNS[1..]),
    },
];

/// The tray, all blank, as it is lent.
fn lend(tray: &Tray) -> TrayRef<'_> {
    TrayRef::new(&tray.letters, &tray.ends, &tray.sides)
}

/// What is lent besides the tray, in the same state before every call.
struct Buffers {
    work: Vec<u16>,
    legend: Vec<u8>,
    joins: Vec<Join>,
    places: Vec<Place>,
}

impl Buffers {
    fn new() -> Buffers {
        Buffers {
            work: vec![0; WORK_CELLS],
            legend: vec![0; 2_000],
            joins: vec![Join::default(); 200],
            places: vec![Place::default(); 200],
        }
    }

    fn reset(&mut self) {
        self.work.fill(0);
        self.legend.fill(0);
        self.joins.fill(Join::default());
        self.places.fill(Place::default());
    }

    fn ours(&mut self, tray: &Tray, places: usize) -> Result<Composed, Refusal> {
        let (tray, settings) = (lend(tray), Settings::default());
        let (legend, joins, places) = (&mut self.legend, &mut self.joins, &mut self.places[..places]);
        compose(tray, settings, &mut self.work, legend, joins, places)
    }

    fn shortest(&mut self, tray: &Tray) -> Result<Shortest, Refusal> {
        shortest(lend(tray), Settings::default(), &mut self.work, &mut self.legend)
    }
}

/// Rooms that are enough for every tray.
const AMPLE: Rooms = Rooms {
    work: WORK_CELLS,
    legend: 2_000,
    joins: 200,
    places: 200,
};

/// A tray with its outcome, and the least time of each kind of call on it, in microseconds.
struct Timed {
    tray: Tray,
    counts: Composed,
    outcome: Buffers,
    ours: f64,
    plain: f64,
    /// Ours, refused by 9 for want of places: all but the writing of legend, joins and places.
    unwritten: f64,
    /// The trial of places alone, by the plain program's loop.
    trial: f64,
}

/// Composes the tray by both programs, and compares what they give.
fn compare(slips: &[Vec<u8>]) -> Timed {
    let (tray, mut outcome) = (Tray::of(slips), Buffers::new());
    let counts = outcome.ours(&tray, 200).expect("a tray within the limits");
    assert_eq!((counts.slips, tray.letters.len()), (200, 2_000));
    let made = compose_tray(&tray, USUAL, AMPLE).expect("a tray within the limits");
    assert_eq!(outcome.legend[..counts.legend], made.legend);
    let joins = outcome.joins[..counts.joins].iter().copied();
    assert!(joins.eq(made.joins.iter().map(|x| Join::new(x.left, x.right, x.overlap))));
    let places = outcome.places.iter().copied();
    let wanted = |x: &plain::compose::Place| Place::new(x.slip, x.place, x.kept, x.compared, Side::Blank);
    assert!(places.eq(made.places.iter().map(wanted)));
    let refusal = Buffers::new().ours(&tray, 199).unwrap_err();
    assert_eq!((refusal.number(), refusal.detail()), (9, counts.joins));
    Timed {
        tray,
        counts,
        outcome,
        ours: f64::MAX,
        plain: f64::MAX,
        unwritten: f64::MAX,
        trial: f64::MAX,
    }
}

/// The time of one call, if it is less than `least`.
fn clock<T>(least: &mut f64, call: impl FnOnce() -> T) {
    let start = Instant::now();
    black_box(call());
    *least = least.min(start.elapsed().as_secs_f64() * 1e6);
}

/// The places of all slips set aside, summed.
fn trials(timed: &Timed) -> usize {
    let legend = &timed.outcome.legend[..timed.counts.legend];
    let slips = timed.tray.slips().into_iter().zip(&timed.outcome.places);
    let aside = slips.filter(|(_, place)| !place.is_kept());
    aside
        .filter_map(|(slip, _)| try_places(slip, legend))
        .map(|(place, _)| place)
        .sum()
}

/// One round: each kind of call goes through all trays in turn, so that no program meets the tray that it has just left.
fn round(trays: &mut [Timed], buffers: &mut Buffers) {
    for timed in trays.iter_mut() {
        buffers.reset();
        clock(&mut timed.ours, || buffers.ours(black_box(&timed.tray), 200));
    }
    for timed in trays.iter_mut() {
        clock(&mut timed.plain, || compose_tray(black_box(&timed.tray), USUAL, AMPLE));
    }
    for timed in trays.iter_mut() {
        buffers.reset();
        clock(&mut timed.unwritten, || buffers.ours(black_box(&timed.tray), 199));
    }
    for timed in trays.iter_mut() {
        let mut least = timed.trial;
        clock(&mut least, || trials(black_box(timed)));
        timed.trial = least;
    }
}

fn print_row(name: &str, trays: &[Timed]) {
    let mean = |time: fn(&Timed) -> f64| trays.iter().map(time).sum::<f64>() / TRAYS as f64;
    let aside: usize = trays.iter().map(|t| t.counts.slips - t.counts.kept).sum();
    let (ours, plain) = (mean(|t| t.ours), mean(|t| t.plain));
    let (unwritten, trial) = (mean(|t| t.unwritten), mean(|t| t.trial));
    let aside = aside / TRAYS;
    println!(
        "| {name} | {aside} | {ours:.1} | {plain:.0} | {:.1} | {unwritten:.1} | {trial:.1} |",
        plain / ours,
    );
}

/// Composing full trays.
fn full_trays(buffers: &mut Buffers) {
    println!("200 slips, 2,000 letters; microseconds a call, the mean of {TRAYS} trays");
    println!("| family | set aside | ours | all pairs | ratio | ours, refused by 9 | trial of places alone |");
    println!("|---|---:|---:|---:|---:|---:|---:|");
    for (seed, family) in FAMILIES.iter().enumerate() {
        let mut chance = Chance::new(seed as u64);
        let made = |_| compare(&(family.make)(&mut chance));
        let mut trays: Vec<Timed> = (0..TRAYS).map(made).collect();
        for _ in 0..CALLS {
            round(&mut trays, buffers);
        }
        print_row(family.name, &trays);
    }
}

/// Small die groups: how many slips of ten letters.
struct Group {
    name: &'static str,
    make: fn(&mut Chance, usize) -> Slips,
}

const GROUPS: [Group; 3] = [
    Group {
        name: "random, 26 letters",
        make: |chance, count| slips(Shape::Random, chance, count, 10, 10, &SIGNS[1..]),
    },
    Group {
        name: "random, 2 letters",
        make: |chance, count| slips(Shape::Random, chance, count, 10, 10, b"AB"),
    },
    Group {
        name: "a single chain",
        make: |chance, count| slips(Shape::Chain, chance, count, 10, 10, &SIGNS[1..]),
    },
];

/// A small die group, and the least time of each call on it, in microseconds.
struct Sought {
    tray: Tray,
    composing: f64,
    shortest: f64,
}

/// A group of which all slips are kept. Seeks its shortest legend by both programs, and compares what they give.
fn seek(chance: &mut Chance, group: &Group, count: usize) -> Sought {
    let mut made = || Tray::of(&(group.make)(chance, count));
    let mut tray = made();
    while kept_slips(&tray, BLANK).len() < count {
        tray = made();
    }
    let mut outcome = Buffers::new();
    let told = outcome.shortest(&tray).expect("few kept slips");
    let made = shortest_legend(&tray, USUAL, WORK_CELLS, 2_000).expect("few kept slips");
    assert_eq!(told.order[..told.count], made.order);
    assert_eq!(outcome.legend[..told.legend], made.legend);
    Sought {
        tray,
        composing: f64::MAX,
        shortest: f64::MAX,
    }
}

/// The shortest legend beside composing the same tray.
fn small_groups(buffers: &mut Buffers) {
    println!("Slips of ten letters, all kept; microseconds a call, the mean of {TRAYS} trays");
    println!("| family | kept | composing | shortest legend | ratio |");
    println!("|---|---:|---:|---:|---:|");
    for (seed, group) in GROUPS.iter().enumerate() {
        for count in [5, 10] {
            let mut chance = Chance::new(seed as u64);
            let mut trays: Vec<Sought> = (0..TRAYS).map(|_| seek(&mut chance, group, count)).collect();
            for _ in 0..CALLS {
                for sought in trays.iter_mut() {
                    buffers.reset();
                    clock(&mut sought.composing, || buffers.ours(black_box(&sought.tray), 200));
                }
                for sought in trays.iter_mut() {
                    buffers.reset();
                    clock(&mut sought.shortest, || buffers.shortest(black_box(&sought.tray)));
                }
            }
            let mean = |time: fn(&Sought) -> f64| trays.iter().map(time).sum::<f64>() / TRAYS as f64;
            let (composing, shortest) = (mean(|t| t.composing), mean(|t| t.shortest));
            let ratio = shortest / composing;
            println!(
                "| {} | {count} | {composing:.1} | {shortest:.1} | {ratio:.1} |",
                group.name
            );
        }
    }
}

fn main() {
    let mut buffers = Buffers::new();
    full_trays(&mut buffers);
    println!();
    small_groups(&mut buffers);
    println!();
    merging::two_trays(&mut buffers);
}
