//! What is lent for a shortest legend, and one trial: the library and the plain program on the same tray and the same state of
//! buffers.
use crate::lending::{lend, named};
use crate::told::plainly;
use kotsghane::{shortest, Refusal, Settings, Shortest, MAX_SHORTEST};
use plain::compose::fault_before_c;
use plain::made::Chance;
use plain::shortest::shortest_legend;
use plain::tray::Tray;

/// What is lent besides the tray.
#[derive(Clone, Debug, PartialEq, Eq)]
pub struct Lent {
    pub work: Vec<u16>,
    pub legend: Vec<u8>,
}

impl Lent {
    /// This many cells and letters, which hold anything.
    pub fn of(cells: usize, letters: usize, chance: &mut Chance) -> Lent {
        let mut number = |n: usize| chance.below(n);
        Lent {
            work: (0..cells).map(|_| number(1 << 16) as u16).collect(),
            legend: (0..letters).map(|_| number(1 << 8) as u8).collect(),
        }
    }
}

/// The letters of a legend, its kept slips counted, and their order, 0 past the count.
pub type Told = (usize, usize, [usize; MAX_SHORTEST]);

/// What is told of a legend of this many letters with this order.
pub fn told_of(letters: usize, order: &[usize]) -> Told {
    let mut numbers = [0; MAX_SHORTEST];
    numbers[..order.len()].copy_from_slice(order);
    (letters, order.len(), numbers)
}

/// The numbers of what was told, or the refusal as the plain program has it.
pub fn numbers(told: &Result<Shortest, Refusal>) -> Result<Told, plain::Refusal> {
    told.map(|told| (told.legend, told.count, told.order)).map_err(plainly)
}

/// What is expected: the numbers or the refusal, and the legend's buffer afterwards. A refusal leaves it as it was, and after
/// the outcome it is unchanged.
fn expected(tray: &Tray, settings: Settings, before: &Lent) -> (Result<Told, plain::Refusal>, Vec<u8>) {
    let mut after = before.legend.clone();
    let made = shortest_legend(tray, named(settings), before.work.len(), before.legend.len());
    let told = made.map(|made| {
        after[..made.legend.len()].copy_from_slice(&made.legend);
        told_of(made.legend.len(), &made.order)
    });
    (told, after)
}

/// The call in the given buffers: what is told, and what the buffers hold afterwards. Checks that the work area has as many
/// cells as before, and the same where the call is refused before place C.
pub fn call(tray: &Tray, settings: Settings, before: &Lent) -> (Result<Shortest, Refusal>, Lent) {
    let mut ours = before.clone();
    let told = shortest(lend(tray), settings, &mut ours.work, &mut ours.legend);
    assert_eq!(ours.work.len(), before.work.len());
    let before_c = fault_before_c(tray, named(settings), before.work.len()).is_some();
    assert!(ours.work == before.work || !before_c);
    (told, ours)
}

/// The same, compared with what the plain program says.
pub fn trial(tray: &Tray, settings: Settings, before: &Lent) -> Result<Shortest, Refusal> {
    let (told, ours) = call(tray, settings, before);
    let (wanted, after) = expected(tray, settings, before);
    assert_eq!(numbers(&told), wanted);
    assert_eq!(ours.legend, after);
    told
}
