//! What is lent for finding, and one trial: the library and the plain program on the same tray and text.
use crate::told::plainly;
use kotsghane::{find, Found, Refusal, Search};
use plain::find::{fault_before_c, find_slips};
use plain::made::Chance;
use plain::tray::Tray;

/// What is lent besides tray and text.
#[derive(Clone, Debug, PartialEq, Eq)]
pub struct Lent {
    pub work: Vec<u16>,
    pub found: Vec<Found>,
}

impl Lent {
    /// This many cells and records, which hold anything.
    pub fn of(cells: usize, records: usize, chance: &mut Chance) -> Lent {
        let mut number = |n: usize| chance.below(n);
        let mut record = |_| Found::new(number(1 << 32), number(1 << 32));
        let found = (0..records).map(&mut record).collect();
        let work = (0..cells).map(|_| number(1 << 16) as u16).collect();
        Lent { work, found }
    }
}

/// What is expected: moves and occurrences or the refusal, and the list afterwards. A refusal leaves it as it was, and after
/// the outcome it is unchanged.
fn expected(tray: &Tray, text: &[u8], before: &Lent) -> (Result<[usize; 2], plain::Refusal>, Vec<Found>) {
    let mut after = before.found.clone();
    let finding = find_slips(tray, text, before.work.len(), before.found.len());
    let told = finding.map(|finding| {
        let all = finding.found.iter().map(|x| Found::new(x.end, x.slip));
        after.iter_mut().zip(all).for_each(|(to, from)| *to = from);
        [finding.moves, finding.found.len()]
    });
    (told, after)
}

/// One trial: what is told, and what the buffers hold afterwards. Checks that both are what the plain program says; that the
/// work area is unchanged where the call is refused before place C; and that moves are at most twice the letters.
pub fn trial(tray: &Tray, text: &[u8], before: &Lent) -> (Result<Search, Refusal>, Lent) {
    let mut ours = before.clone();
    let told = find(&tray.letters, &tray.ends, text, &mut ours.work, &mut ours.found);
    let (wanted, after) = expected(tray, text, before);
    let counts = told.map(|search| [search.moves, search.count]);
    assert_eq!(counts.map_err(plainly), wanted);
    assert!(ours.found == after, "the lists differ");
    assert_eq!(ours.work.len(), before.work.len());
    let before_c = fault_before_c(tray, text, before.work.len()).is_some();
    assert!(ours.work == before.work || !before_c);
    assert!(told.unwrap_or_default().moves <= 2 * text.len());
    (told, ours)
}
