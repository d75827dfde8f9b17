//! Lent buffers, and one trial: the library and the plain program on the same tray and the same state of buffers.
use crate::lending::{lend, named};
use crate::told::plainly;
use kotsghane::{compose, Composed, Join, Place, Refusal, Settings, Side};
use plain::compose::{compose_tray, fault_before_c, Composition, Rooms};
use plain::made::Chance;
use plain::tray::Tray;

/// What is lent besides the tray.
#[derive(Clone, Debug, PartialEq, Eq)]
pub struct Buffers {
    pub work: Vec<u16>,
    pub legend: Vec<u8>,
    pub joins: Vec<Join>,
    pub places: Vec<Place>,
}

/// Rooms that are enough for every tray.
pub const AMPLE: Rooms = Rooms {
    work: 32_000,
    legend: 2_000,
    joins: 200,
    places: 200,
};

impl Buffers {
    /// Buffers that hold anything.
    pub fn of(rooms: Rooms, chance: &mut Chance) -> Buffers {
        let mut number = || chance.below(65_536);
        let mut join = |_| Join::new(number(), number(), number());
        let joins = (0..rooms.joins).map(&mut join).collect();
        let mut place = |_| Place::new(number(), number(), number() % 2 == 0, number(), Side::ALL[number() % 3]);
        let places = (0..rooms.places).map(&mut place).collect();
        Buffers {
            work: (0..rooms.work).map(|_| number() as u16).collect(),
            legend: (0..rooms.legend).map(|_| number() as u8).collect(),
            joins,
            places,
        }
    }

    fn rooms(&self) -> Rooms {
        Rooms {
            work: self.work.len(),
            legend: self.legend.len(),
            joins: self.joins.len(),
            places: self.places.len(),
        }
    }

    /// The outcome over the first part of each buffer.
    fn write(&mut self, made: &Composition) {
        self.legend[..made.legend.len()].copy_from_slice(&made.legend);
        self.joins
            .iter_mut()
            .zip(&made.joins)
            .for_each(|(to, from)| *to = join(from));
        self.places
            .iter_mut()
            .zip(&made.places)
            .for_each(|(to, from)| *to = place(from));
    }
}

pub fn join(from: &plain::compose::Join) -> Join {
    Join::new(from.left, from.right, from.overlap)
}

pub fn place(from: &plain::compose::Place) -> Place {
    let side = Side::from_byte(from.side).expect("a side that was composed");
    Place::new(from.slip, from.place, from.kept, from.compared, side)
}

/// All counts.
fn counts(told: Composed) -> [usize; 6] {
    let letters = [told.kept_letters, told.saved, told.legend];
    [told.slips, told.kept, letters[0], letters[1], letters[2], told.joins]
}

/// The same of what the plain program composed.
fn plain_counts(made: &Composition) -> [usize; 6] {
    let letters = [made.kept_letters, made.saved(), made.legend.len()];
    let (slips, kept, joins) = (made.places.len(), made.kept(), made.joins.len());
    [slips, kept, letters[0], letters[1], letters[2], joins]
}

/// What is expected of a tray in these buffers: the counts or the refusal, and what they hold afterwards but for the work
/// area. A refusal leaves them as they were, and after the outcome each is unchanged.
fn expected(tray: &Tray, settings: Settings, before: &Buffers) -> (Result<[usize; 6], plain::Refusal>, Buffers) {
    let mut after = before.clone();
    let made = compose_tray(tray, named(settings), before.rooms());
    let told = made.map(|made| {
        after.write(&made);
        plain_counts(&made)
    });
    (told, after)
}

/// One trial in the given buffers: what is told, and what the buffers hold afterwards. Checks that both are what the plain
/// program says; the work area is unchanged where the call is refused before place C.
pub fn trial(tray: &Tray, settings: Settings, before: &Buffers) -> (Result<Composed, Refusal>, Buffers) {
    let mut ours = before.clone();
    let told = compose(
        lend(tray),
        settings,
        &mut ours.work,
        &mut ours.legend,
        &mut ours.joins,
        &mut ours.places,
    );
    let (wanted, after) = expected(tray, settings, before);
    assert_eq!(told.map(counts).map_err(plainly), wanted);
    assert_eq!(ours.legend, after.legend);
    assert_eq!(ours.joins, after.joins);
    assert_eq!(ours.places, after.places);
    assert_eq!(ours.work.len(), before.work.len());
    let before_c = fault_before_c(tray, named(settings), before.work.len()).is_some();
    assert!(ours.work == before.work || !before_c);
    (told, ours)
}
