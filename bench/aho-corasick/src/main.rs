//! Times finding and the overlapping search of the aho-corasick library on the same trays and texts.
//! First what both find is compared, on the timed inputs and on many made-up ones.
mod families;

use aho_corasick::{AhoCorasick, AhoCorasickBuilder};
use families::{Family, FAMILIES};
use kotsghane::{find, find_slips, Found, Refusal, Search, Tray, MAX_SLIP, WORK_CELLS};
use plain::made::texts::text;
use plain::made::{valid, Chance};
use plain::tray;
use std::cmp::Reverse;
use std::hint::black_box;
use std::time::Instant;

/// How many inputs of each family, and how many calls on each, of which the fastest counts.
const INPUTS: usize = 8;
const CALLS: usize = 200;

/// How many made-up trays and texts are compared besides.
const COMPARED: usize = 4_000;

/// The library's automaton over these slips, all else as the library has it.
fn built(slips: &[Vec<u8>], dfa: bool) -> AhoCorasick {
    AhoCorasickBuilder::new().dfa(dfa).build(slips)
}

/// The library's occurrences, in its order, over the first part of the list; answers how many.
fn theirs(automaton: &AhoCorasick, text: &[u8], found: &mut [Found]) -> usize {
    let mut count = 0;
    for (hit, record) in automaton.find_overlapping_iter(text).zip(found) {
        *record = Found::new(hit.end(), hit.pattern() + 1);
        count += 1;
    }
    count
}

/// Finds by both kinds of the library and compares with ours. The library promises no order at one end place, so its
/// list is sorted first.
fn compare(slips: &[Vec<u8>], text: &[u8]) -> Vec<Found> {
    let ours = find_slips(&Tray::of(slips), text).expect("a tray and a text within the limits");
    for dfa in [false, true] {
        let mut list = vec![Found::default(); ours.found.len() + 1];
        let count = theirs(&built(slips, dfa), text, &mut list);
        list.truncate(count);
        list.sort_by_key(|f| (f.end(), Reverse(slips[f.slip() - 1].len()), f.slip()));
        assert!(list == ours.found, "occurrences differ from those of the library");
    }
    ours.found
}

/// Compares on made-up trays of many shapes; answers how many occurrences there were.
fn compare_made_up() -> usize {
    let mut chance = Chance::new(77);
    let mut one = |n: usize| {
        let slips = valid(&mut chance, [8, 40, 200][n % 3], MAX_SLIP);
        let letters = chance.below([80, 400, 2_001][n % 3]);
        let text = text(&mut chance, &slips, letters);
        compare(&slips, &text).len()
    };
    (0..COMPARED).map(&mut one).sum()
}

struct Input {
    slips: Vec<Vec<u8>>,
    tray: tray::Tray,
    text: Vec<u8>,
    count: usize,
    nfa: AhoCorasick,
    dfa: AhoCorasick,
    /// The least time of each kind of call, in microseconds.
    least: [f64; KINDS.len()],
}

impl Input {
    fn of((slips, text): (Vec<Vec<u8>>, Vec<u8>)) -> Input {
        let tray = tray::Tray::of(&slips);
        assert_eq!((tray.ends.len(), tray.letters.len(), text.len()), (200, 2_000, 2_000));
        let count = compare(&slips, &text).len();
        let (nfa, dfa) = (built(&slips, false), built(&slips, true));
        Input {
            slips,
            tray,
            text,
            count,
            nfa,
            dfa,
            least: [f64::MAX; KINDS.len()],
        }
    }
}

/// What is lent, in the same state before every call: filled with 0.
struct Buffers {
    work: Vec<u16>,
    found: Vec<Found>,
}

impl Buffers {
    fn reset(&mut self) {
        self.work.fill(0);
        self.found.fill(Found::default());
    }

    fn ours(&mut self, input: &Input, text: &[u8]) -> Result<Search, Refusal> {
        find(&input.tray.letters, &input.tray.ends, text, &mut self.work, &mut self.found)
    }

    fn both(&mut self, input: &Input, dfa: bool) -> (AhoCorasick, usize) {
        let automaton = built(&input.slips, dfa);
        let count = theirs(&automaton, &input.text, &mut self.found);
        (automaton, count)
    }

    /// The time of the second of two searches: an automaton that is kept has been in use.
    fn search(&mut self, input: &Input, automaton: &AhoCorasick) -> f64 {
        black_box(theirs(automaton, &input.text, &mut self.found));
        self.reset();
        clock(|| theirs(automaton, &input.text, &mut self.found))
    }
}

/// A kind of call: its column, and the time of one call.
struct Kind {
    name: &'static str,
    time: fn(&mut Buffers, &Input) -> f64,
}

/// Ours with an empty text is checking and building alone; NFA and DFA are building and searching, and what was built is
/// freed after the clock has stopped, except in the one column that says so.
const KINDS: [Kind; 7] = [
    Kind {
        name: "ours",
        time: |buffers, input| clock(|| buffers.ours(input, &input.text)),
    },
    Kind {
        name: "ours, empty text",
        time: |buffers, input| clock(|| buffers.ours(input, b"")),
    },
    Kind {
        name: "NFA",
        time: |buffers, input| clock(|| buffers.both(input, false)),
    },
    Kind {
        name: "NFA, freed too",
        time: |buffers, input| clock(|| buffers.both(input, false).1),
    },
    Kind {
        name: "NFA, search alone",
        time: |buffers, input| buffers.search(input, &input.nfa),
    },
    Kind {
        name: "DFA",
        time: |buffers, input| clock(|| buffers.both(input, true)),
    },
    Kind {
        name: "DFA, search alone",
        time: |buffers, input| buffers.search(input, &input.dfa),
    },
];

/// The time of a call; what it gives is dropped after the clock has stopped.
fn clock<T>(call: impl FnOnce() -> T) -> f64 {
    let start = Instant::now();
    let given = black_box(call());
    let time = start.elapsed().as_secs_f64() * 1e6;
    drop(given);
    time
}

/// One round: each kind of call goes through all inputs in turn, so that none meets the input that it has just left.
fn round(inputs: &mut [Input], buffers: &mut Buffers) {
    for (k, kind) in KINDS.iter().enumerate() {
        for input in inputs.iter_mut() {
            buffers.reset();
            let time = (kind.time)(buffers, black_box(input));
            input.least[k] = input.least[k].min(time);
        }
    }
}

fn print_row(name: &str, inputs: &[Input]) {
    let found = inputs.iter().map(|i| i.count).sum::<usize>() / INPUTS;
    let mean = |k: usize| inputs.iter().map(|i| i.least[k]).sum::<f64>() / INPUTS as f64;
    let means: Vec<f64> = (0..KINDS.len()).map(mean).collect();
    let times: Vec<String> = means.iter().map(|time| format!("{time:.1}")).collect();
    println!(
        "| {name} | {found} | {} | {:.2} |",
        times.join(" | "),
        means[2] / means[0]
    );
}

fn time_family(seed: usize, family: &Family) {
    let mut chance = Chance::new(seed as u64);
    let mut inputs: Vec<Input> = (0..INPUTS).map(|_| Input::of((family.make)(&mut chance))).collect();
    let most = inputs.iter().map(|input| input.count).max().unwrap_or(0);
    let mut buffers = Buffers {
        work: vec![0; WORK_CELLS],
        found: vec![Found::default(); most + 1],
    };
    for _ in 0..CALLS {
        round(&mut inputs, &mut buffers);
    }
    print_row(family.name, &inputs);
}

fn main() {
    println!(
        "{COMPARED} made-up trays and texts, {} occurrences: equal",
        compare_made_up()
    );
    println!("200 slips, 2,000 letters, text of 2,000; microseconds a call, the mean of {INPUTS} inputs");
    println!(
        "| family | found | {} | NFA / ours |",
        KINDS.map(|kind| kind.name).join(" | ")
    );
    println!("|---{}|", "|---:".repeat(KINDS.len() + 2));
    for (seed, family) in FAMILIES.iter().enumerate() {
        time_family(seed, family);
    }
}
