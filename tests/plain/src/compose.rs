//! Composing: every pair of slips is compared. No side is taken out of the tray: all slips keep their numbers, those of
//! different sides neither overlap nor set each other aside, and what is told is of the side named.
use crate::tray::{least_fault, side_fault, Slip, Tray};
use crate::{refusal, row, unless, Refusal, Settings, WORK_CELLS};

/// Two slips joined, and how many letters they share.
#[derive(Clone, Copy, Debug, PartialEq, Eq)]
pub struct Join {
    /// The left slip.
    pub left: usize,
    /// The right slip.
    pub right: usize,
    /// The letters that they share.
    pub overlap: usize,
}

/// Where a slip stands in the legend of its side, from 1, whether it is kept, and what was compared to find the place.
#[derive(Clone, Copy, Debug, PartialEq, Eq)]
pub struct Place {
    /// The slip, by its number in the tray.
    pub slip: usize,
    /// The place of its first letter.
    pub place: usize,
    /// Kept, or set aside.
    pub kept: bool,
    /// The letters compared, 0 if kept.
    pub compared: usize,
    /// The side.
    pub side: u8,
}

/// One side of a tray composed.
#[derive(Clone, Debug, Default, PartialEq, Eq)]
pub struct Composition {
    /// For each slip of the side, in the order of their numbers, its place.
    pub places: Vec<Place>,
    /// The joins in the order made.
    pub joins: Vec<Join>,
    /// The letters of the legend.
    pub legend: Vec<u8>,
    /// The letters of the kept slips.
    pub kept_letters: usize,
}

impl Composition {
    /// The kept slips, counted.
    pub fn kept(&self) -> usize {
        self.places.iter().filter(|place| place.kept).count()
    }

    /// The letters saved by the joins.
    pub fn saved(&self) -> usize {
        self.joins.iter().map(|join| join.overlap).sum()
    }
}

/// How much is lent: cells, letters, and records of joins and of places.
#[derive(Clone, Copy, Debug, PartialEq, Eq)]
pub struct Rooms {
    /// Cells of the work area.
    pub work: usize,
    /// Letters of the legend's buffer.
    pub legend: usize,
    /// Records of joins.
    pub joins: usize,
    /// Records of places.
    pub places: usize,
}

/// Whether `x` stands in `text`.
pub(crate) fn stands_in(x: &[u8], text: &[u8]) -> bool {
    text.windows(x.len()).any(|part| part[0] == x[0] && part == x)
}

/// The lowest place, from 1, at which `x` stands in `text`, and the letters compared: at each place those that agree, from
/// the last one backwards, and the one that differs. The trial ends at the first match.
pub fn try_places(x: &[u8], text: &[u8]) -> Option<(usize, usize)> {
    let mut compared = 0;
    for (before, part) in text.windows(x.len()).enumerate() {
        let pairs = part.iter().rev().zip(x.iter().rev());
        let agree = pairs.take_while(|(a, b)| a == b).count();
        if agree == x.len() {
            return Some((before + 1, compared + agree));
        }
        compared += agree + 1;
    }
    None
}

/// Set aside: a slip whose letters stand in a longer slip of its side, or equal those of a lower-numbered slip of its side. `i`
/// counts from 0.
fn is_aside(slips: &[Slip], i: usize) -> bool {
    let x = slips[i];
    let longer = |y: &Slip| y.side == x.side && y.letters.len() > x.letters.len() && stands_in(x.letters, y.letters);
    slips.iter().any(longer) || slips[..i].contains(&x)
}

/// The kept slips of all sides, ascending: all that are not set aside.
fn all_kept(slips: &[Slip]) -> Vec<usize> {
    (1..=slips.len()).filter(|&i| !is_aside(slips, i - 1)).collect()
}

/// The kept slips of one side of an accepted tray, ascending, by their numbers in the tray.
pub fn kept_slips(tray: &Tray, side: u8) -> Vec<usize> {
    let slips = tray.sided_slips();
    let kept = all_kept(&slips).into_iter();
    kept.filter(|&i| slips[i - 1].side == side).collect()
}

/// The arcs between the kept slips, of at least this many letters: longer overlap first, then smaller overlap string, then
/// lower right slip, then lower left slip.
fn arcs(slips: &[Slip], kept: &[usize], least: usize) -> Vec<Join> {
    let mut all = Vec::with_capacity(kept.len() * kept.len());
    for &left in kept {
        for &right in kept {
            let overlap = match left == right {
                true => 0,
                false => slips[left - 1].overlap(&slips[right - 1], least),
            };
            if overlap > 0 {
                all.push(Join { left, right, overlap });
            }
        }
    }
    let string = |arc: &Join| &slips[arc.right - 1].letters[..arc.overlap];
    all.sort_unstable_by(|a, b| {
        let longer = b.overlap.cmp(&a.overlap);
        let smaller = longer.then_with(|| string(a).cmp(string(b)));
        smaller.then((a.right, a.left).cmp(&(b.right, b.left)))
    });
    all
}

/// For each slip its neighbours; entry 0 is no slip.
struct Neighbours {
    left: Vec<Option<usize>>,
    right: Vec<Option<usize>>,
}

impl Neighbours {
    /// This many slips without neighbours.
    fn none(slips: usize) -> Neighbours {
        Neighbours {
            left: vec![None; slips + 1],
            right: vec![None; slips + 1],
        }
    }

    /// The last slip of the chain that slip `i` begins.
    fn last(&self, mut i: usize) -> usize {
        while let Some(next) = self.right[i] {
            i = next;
        }
        i
    }

    /// Whether an arc becomes a join: unless a neighbour is there, or its left slip is the last of the chain that its right
    /// slip begins.
    fn take(&mut self, arc: &Join) -> bool {
        let free = self.right[arc.left].is_none() && self.left[arc.right].is_none();
        let joined = free && self.last(arc.right) != arc.left;
        if joined {
            self.right[arc.left] = Some(arc.right);
            self.left[arc.right] = Some(arc.left);
        }
        joined
    }

    /// The chains that these slips begin, laid in this order: the legend, and for each slip where it was laid, if it was; entry
    /// 0 is no slip. Each slip adds its letters beyond the overlap.
    fn lay(&self, slips: &[Slip], joins: &[Join], firsts: &[usize]) -> (Vec<u8>, Vec<Option<usize>>) {
        let mut shared = vec![0; slips.len() + 1];
        for join in joins {
            shared[join.right] = join.overlap;
        }
        let (mut legend, mut laid) = (Vec::new(), vec![None; slips.len() + 1]);
        for &first in firsts {
            let mut next = Some(first);
            while let Some(i) = next {
                laid[i] = Some(legend.len() - shared[i] + 1);
                legend.extend_from_slice(&slips[i - 1].letters[shared[i]..]);
                next = self.right[i];
            }
        }
        (legend, laid)
    }
}

/// The plain rule over the slips of an accepted tray, and the legend of the side named. Overlaps under the least overlap count
/// as empty; which slips are kept does not depend on it. The joins of all sides are made at once, and those of the side told.
pub fn compose(tray: &Tray, settings: Settings) -> Composition {
    let slips = tray.sided_slips();
    let of_side = |&i: &usize| slips[i - 1].side == settings.side;
    let mut kept = all_kept(&slips);
    let mut chains = Neighbours::none(slips.len());
    let mut joins = arcs(&slips, &kept, settings.least);
    joins.retain(|arc| chains.take(arc));
    joins.retain(|join| of_side(&join.left));
    kept.retain(of_side);
    // Chains by ascending number of their first slip.
    let firsts: Vec<usize> = kept.iter().copied().filter(|&i| chains.left[i].is_none()).collect();
    let (legend, laid) = chains.lay(&slips, &joins, &firsts);
    let aside = |i: usize| try_places(slips[i - 1].letters, &legend).expect("a slip set aside stands in the legend");
    let place = |slip: usize| {
        let (place, compared) = laid[slip].map_or_else(|| aside(slip), |place| (place, 0));
        Place {
            slip,
            place,
            kept: laid[slip].is_some(),
            compared,
            side: slips[slip - 1].side,
        }
    };
    Composition {
        places: (1..=slips.len()).filter(of_side).map(place).collect(),
        kept_letters: kept.iter().map(|&i| slips[i - 1].letters.len()).sum(),
        joins,
        legend,
    }
}

/// What turns composing back before place C: row 21 first, rows 1 to 6, then 22, of the list or of the side named, and 7.
pub fn fault_before_c(tray: &Tray, settings: Settings, work: usize) -> Option<Refusal> {
    let fault = least_fault(settings.least).or_else(|| tray.sided_fault());
    fault.or(side_fault(settings.side)).or(row(7, work < WORK_CELLS))
}

/// Composes one side of any tray with a least overlap in these rooms, or refuses it.
pub fn compose_tray(tray: &Tray, settings: Settings, rooms: Rooms) -> Result<Composition, Refusal> {
    unless(fault_before_c(tray, settings, rooms.work))?;
    let made = compose(tray, settings);
    let (letters, joins) = (made.legend.len(), made.joins.len());
    unless((letters > rooms.legend).then_some(refusal(8, letters)))?;
    let short = joins > rooms.joins || made.places.len() > rooms.places;
    unless(short.then_some(refusal(9, joins)))?;
    Ok(made)
}
