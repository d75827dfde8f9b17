//! The shortest legend of a small die group: every order of the kept slips of its side is tried.
use crate::compose::{fault_before_c, kept_slips};
use crate::tray::{Slip, Tray};
use crate::{refusal, row, unless, Refusal, Settings, MAX_SHORTEST};

/// A shortest legend.
#[derive(Clone, Debug, Default, PartialEq, Eq)]
pub struct Shortest {
    /// The kept slips in the order in which they are laid.
    pub order: Vec<usize>,
    /// The letters of the legend.
    pub legend: Vec<u8>,
}

/// The letters that a slip adds after these slips, laid as one chain: those beyond the overlap with the last of them, which
/// counts as empty if it has under `least` letters.
fn added<'a>(slips: &[Slip<'a>], least: usize, laid: &[usize], next: usize) -> &'a [u8] {
    let slip = slips[next - 1];
    let shared = laid.last().map_or(0, |&last| slips[last - 1].overlap(&slip, least));
    &slip.letters[shared..]
}

/// The legend of these kept slips of a side in this order, laid as one chain.
pub fn order_legend(tray: &Tray, least: usize, order: &[usize]) -> Vec<u8> {
    let slips = tray.sided_slips();
    let part = |(k, &i): (usize, &usize)| added(&slips, least, &order[..k], i);
    order.iter().enumerate().map(part).collect::<Vec<_>>().concat()
}

/// The slips of which orders are tried, and the best order so far with the letters of its legend.
struct Trial<'a> {
    slips: &'a [Slip<'a>],
    least: usize,
    kept: &'a [usize],
    best: Vec<usize>,
    letters: usize,
}

impl Trial<'_> {
    /// Tries every order of the kept slips that begins with those laid, which have this many letters. The lowest slip goes
    /// first, so that orders come as lists do, the smallest first; only a shorter legend is better than the best so far.
    fn orders(&mut self, laid: &mut Vec<usize>, letters: usize) {
        if laid.len() == self.kept.len() {
            self.best.clone_from(laid);
            self.letters = letters;
        }
        for &next in self.kept {
            if laid.contains(&next) {
                continue;
            }
            let longer = letters + added(self.slips, self.least, laid, next).len();
            // More slips never make it shorter.
            if longer < self.letters {
                laid.push(next);
                self.orders(laid, longer);
                laid.pop();
            }
        }
    }
}

/// The order of these kept slips whose legend is shortest; of several, the order that is smallest as a list of slip numbers.
pub fn shortest_order(tray: &Tray, least: usize, kept: &[usize]) -> Vec<usize> {
    let mut trial = Trial {
        slips: &tray.sided_slips(),
        least,
        kept,
        best: Vec::new(),
        letters: usize::MAX,
    };
    trial.orders(&mut Vec::new(), 0);
    trial.best
}

/// The shortest legend of one side of any tray with a least overlap, with this many cells and room for this many letters, or
/// the refusal.
pub fn shortest_legend(tray: &Tray, settings: Settings, work: usize, room: usize) -> Result<Shortest, Refusal> {
    unless(fault_before_c(tray, settings, work))?;
    let kept = kept_slips(tray, settings.side);
    unless(row(20, kept.len() > MAX_SHORTEST))?;
    let order = shortest_order(tray, settings.least, &kept);
    let legend = order_legend(tray, settings.least, &order);
    unless((legend.len() > room).then_some(refusal(8, legend.len())))?;
    Ok(Shortest { order, legend })
}
