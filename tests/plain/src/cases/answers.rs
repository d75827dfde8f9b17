//! What `trials` must print of a case, by the plain program.
use super::{Lending, TrayRoom, MARK_BYTE, MARK_CELL, MARK_NUMBER, WHOLE_LIST};
use crate::compose::{self, compose_tray, Composition, Place, Rooms};
use crate::file::read_tray;
use crate::find::{self, find_slips, Finding};
use crate::merge::merge_trays;
use crate::shortest::shortest_legend;
use crate::tray::Tray;
use crate::{Refusal, Settings, FOUND_CELLS, JOIN_CELLS, MAX_SHORTEST, PLACE_CELLS};

/// Small trays have all their slips and pairs asked for.
const SMALL: usize = 12;

/// A sum over numbers that tells their order too.
#[derive(Clone, Copy, Default)]
struct Sum(u64);

impl Sum {
    fn add(&mut self, x: usize) {
        self.0 = (self.0 * 65_599 + x as u64 + 1) % 4_294_967_291;
    }

    fn of(numbers: impl IntoIterator<Item = usize>) -> Sum {
        let mut sum = Sum::default();
        numbers.into_iter().for_each(|x| sum.add(x));
        sum
    }

    /// Of a lent list: the outcome over its first part, marks after it.
    fn over(outcome: &[usize], marks: &[usize], room: usize) -> u64 {
        let rest = marks.iter().cycle().skip(outcome.len() % marks.len());
        Sum::of(outcome.iter().chain(rest.take(room - outcome.len())).copied()).0
    }
}

/// Numbers, each after a blank.
fn line(numbers: &[usize]) -> String {
    numbers.iter().map(|n| format!(" {n}")).collect()
}

/// The sum of the work area where the call was turned back before place C: there it is unchanged.
fn work_sum(fault: Option<Refusal>, work: usize) -> String {
    match fault {
        Some(_) => format!(" {}", Sum::over(&[], &[MARK_CELL], work)),
        None => " -".to_string(),
    }
}

fn composed(outcome: &Result<Composition, Refusal>) -> String {
    match outcome {
        Err(refusal) => line(&[refusal.number, refusal.detail, 0, 0, 0, 0, 0, 0]),
        Ok(made) => {
            let counts = [made.kept_letters, made.saved(), made.legend.len(), made.joins.len()];
            line(&[0, 0, made.places.len(), made.kept()]) + &line(&counts)
        }
    }
}

fn bytes(letters: &[u8]) -> Vec<usize> {
    letters.iter().map(|&x| usize::from(x)).collect()
}

/// What the numbers of a lent record of places are before the call: no slip is kept.
const RECORD_MARKS: [usize; PLACE_CELLS] = [MARK_CELL, MARK_CELL, 0, MARK_CELL, MARK_BYTE];

/// The sums of legend, joins and places, where each lent number of places has such a mark before the call.
fn list_sums(made: &Composition, rooms: [usize; 3], marks: &[usize]) -> String {
    let joins: Vec<usize> = made.joins.iter().flat_map(|x| [x.left, x.right, x.overlap]).collect();
    let record = |x: &Place| [x.slip, x.place, usize::from(x.kept), x.compared, usize::from(x.side)];
    let places: Vec<usize> = made.places.iter().flat_map(record).collect();
    let legend = Sum::over(&bytes(&made.legend), &[MARK_BYTE], rooms[0]);
    let joins = Sum::over(&joins, &[MARK_CELL], rooms[1]);
    format!(" {legend} {joins} {}", Sum::over(&places, marks, rooms[2]))
}

/// Composing with lists of numbers; with lists of records too, where [`Lending::has_records`].
pub fn compose(tray: &Tray, settings: Settings, lent: &Lending) -> String {
    let [work, legend, joins, places] = lent.numbers;
    let rooms = Rooms {
        work,
        legend,
        joins: joins / JOIN_CELLS,
        places: places / PLACE_CELLS,
    };
    let outcome = compose_tray(tray, settings, rooms);
    let fault = work_sum(compose::fault_before_c(tray, settings, work), work);
    let answer = composed(&outcome);
    let made = outcome.unwrap_or_default();
    let text: String = made.legend.iter().copied().map(char::from).collect();
    let flat = list_sums(&made, [legend, joins, places], &[MARK_CELL]);
    let mut told = format!("C{answer} [{text}]{flat}{fault}");
    if lent.has_records() {
        let records = list_sums(&made, [legend, joins, places], &RECORD_MARKS);
        told += &format!(" R{answer}{records}{fault}");
    }
    if tray.ends.len() <= SMALL {
        told += &small(tray, settings.least);
    }
    told
}

/// The shortest legend: its letters, how many slips are laid, and ten numbers, those past the count 0.
pub fn shortest(tray: &Tray, settings: Settings, work: usize, room: usize) -> String {
    let fault = work_sum(compose::fault_before_c(tray, settings, work), work);
    let outcome = shortest_legend(tray, settings, work, room);
    let refused = match &outcome {
        Err(refusal) => [refusal.number, refusal.detail],
        Ok(_) => [0, 0],
    };
    let made = outcome.unwrap_or_default();
    let counts = [made.legend.len(), made.order.len()];
    let mut order = [0; MAX_SHORTEST];
    order[..made.order.len()].copy_from_slice(&made.order);
    let answer = line(&refused) + &line(&counts) + &line(&order);
    let text: String = made.legend.iter().copied().map(char::from).collect();
    let legend = Sum::over(&bytes(&made.legend), &[MARK_BYTE], room);
    format!("L{answer} [{text}] {legend}{fault}")
}

/// All slips and pairs, with the numbers 0 and one above the count.
fn small(tray: &Tray, least: usize) -> String {
    let numbers = 0..=tray.ends.len() + 1;
    let (mut pairs, mut slips) = (Sum::default(), Sum::default());
    for i in numbers.clone() {
        for j in numbers.clone() {
            pair(tray, least, i, j).into_iter().for_each(|x| pairs.add(x));
        }
        let (answer, letters) = slip(tray, i);
        answer.into_iter().chain([letters.len()]).for_each(|x| slips.add(x));
        bytes(letters).into_iter().for_each(|x| slips.add(x));
    }
    format!(" P {} {}", pairs.0, slips.0)
}

fn pair(tray: &Tray, least: usize, i: usize, j: usize) -> [usize; 3] {
    match tray.pair(i, j, least) {
        Ok(overlap) => [0, 0, overlap],
        Err(refusal) => [refusal.number, refusal.detail, 0],
    }
}

fn slip(tray: &Tray, i: usize) -> ([usize; 2], &[u8]) {
    match tray.slip(i) {
        Ok(letters) => ([0, 0], letters),
        Err(refusal) => ([refusal.number, refusal.detail], &[]),
    }
}

/// The tray check, one slip, one pair. The first two take no sides.
pub fn ask(tray: &Tray, least: usize, left: usize, right: usize) -> String {
    let fault = tray.fault().map_or([0, 0], |x| [x.number, x.detail]);
    let (answer, letters) = slip(tray, left);
    let text: String = letters.iter().copied().map(char::from).collect();
    let pair = pair(tray, least, left, right);
    let (check, slip, pair) = (line(&fault), line(&answer), line(&pair));
    format!("A{check};{slip} [{text}];{pair}")
}

/// Finding with a list of numbers; with lists of records too, where 2 or as many as `find` lists are lent.
pub fn find(tray: &Tray, text: &[u8], work: usize, list: usize) -> String {
    let fault = work_sum(find::fault_before_c(tray, text, work), work);
    let told = |records: usize, room: usize, marks: &[usize]| {
        let (answer, found) = match find_slips(tray, text, work, records) {
            Ok(Finding { found, moves }) => (line(&[0, 0, moves, found.len()]), found),
            Err(refusal) => (line(&[refusal.number, refusal.detail, 0, 0]), Vec::new()),
        };
        let numbers: Vec<usize> = found.iter().flat_map(|x| [x.end, x.slip]).collect();
        format!("{answer} {}{fault}", Sum::over(&numbers, marks, room))
    };
    let flat = told(list / FOUND_CELLS, list, &[MARK_NUMBER]);
    let records = match list {
        WHOLE_LIST => 2_000,
        4 => 2,
        _ => return format!("F{flat}"),
    };
    let marks = [MARK_NUMBER, MARK_CELL];
    format!("F{flat} R{}", told(records, FOUND_CELLS * records, &marks))
}

/// A tray written into what is lent: the answer, and the sums of letters, ends and sides.
fn written(outcome: Result<Tray, Refusal>, room: TrayRoom) -> String {
    let answer = match &outcome {
        Ok(tray) => [0, 0, tray.letters.len(), tray.ends.len()],
        Err(refusal) => [refusal.number, refusal.detail, 0, 0],
    };
    let tray = outcome.unwrap_or_default();
    let tray_ends: Vec<usize> = tray.ends.iter().map(|&x| usize::from(x)).collect();
    let letters = Sum::over(&bytes(&tray.letters), &[MARK_BYTE], room.letters);
    let ends = Sum::over(&tray_ends, &[MARK_CELL], room.ends);
    let sides = Sum::over(&bytes(&tray.sides), &[MARK_BYTE], room.sides);
    format!("{} {letters} {ends} {sides}", line(&answer))
}

/// Reading a tray file.
pub fn read(file: &[u8], room: TrayRoom) -> String {
    let outcome = read_tray(file, room.letters, room.ends, room.sides);
    format!("T{}", written(outcome, room))
}

/// Two trays merged.
pub fn merge(first: &Tray, second: &Tray, room: TrayRoom) -> String {
    let outcome = merge_trays(first, second, room.letters, room.ends, room.sides);
    format!("M{}", written(outcome, room))
}

/// The bytes that are accepted as the one letter of a tray.
pub fn signs() -> String {
    let one = |&byte: &u8| {
        let tray = Tray::of(&[[byte]]);
        tray.fault().is_none()
    };
    let accepted: String = (0..=255).filter(one).map(char::from).collect();
    format!("S [{accepted}]")
}
