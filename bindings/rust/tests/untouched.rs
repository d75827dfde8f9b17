//! A refusal leaves every lent buffer as it was: each row, in each call that has it. Only the work area may differ, and only
//! after 8, 9, 14 and 20.
use kotsghane::{
    compose, find, merge_trays, read_tray, shortest, Found, Join, Place, Refusal, Settings, Side, Tray, TrayRef,
};
use plain::made::Chance;

/// No overlap is too short.
const DEFAULT: Settings = Settings::least(1);

/// Everything that any call takes.
#[derive(Clone, PartialEq, Eq)]
struct Lent {
    work: Vec<u16>,
    letters: Vec<u8>,
    ends: Vec<u16>,
    sides: Vec<u8>,
    joins: Vec<Join>,
    places: Vec<Place>,
    found: Vec<Found>,
}

impl Lent {
    /// Buffers that hold anything and are large enough for every tray.
    fn new() -> Lent {
        let mut chance = Chance::new(91);
        let mut number = || chance.below(65_536);
        let mut cells = |n: usize| -> Vec<u16> { (0..n).map(|_| number() as u16).collect() };
        let (work, ends) = (cells(32_000), cells(1_700));
        let [letters, sides] = [16_384, 1_700].map(|n| cells(n).iter().map(|&cell| cell as u8).collect());
        let mut place = |_| Place::new(number(), number(), true, number(), Side::ALL[number() % 3]);
        let places = (0..200).map(&mut place).collect();
        Lent {
            work,
            letters,
            ends,
            sides,
            joins: (0..200).map(|_| Join::new(number(), number(), number())).collect(),
            places,
            found: (0..8_000).map(|_| Found::new(number(), number())).collect(),
        }
    }

    /// Makes a call that must be refused with this number and detail, and checks that nothing has changed. After some numbers
    /// the work area is not compared.
    fn refuse<T>(&mut self, expected: (u32, usize), call: impl FnOnce(&mut Lent) -> Result<T, Refusal>) {
        let before = self.clone();
        let refusal = call(self).err().expect("a refusal");
        assert_eq!((refusal.number(), refusal.detail()), expected);
        if let (8 | 9 | 14 | 20, _) = expected {
            self.work.clone_from(&before.work);
        }
        assert!(*self == before, "a lent buffer differs after {expected:?}");
    }

    fn compose(&mut self, tray: TrayRef, settings: Settings, rooms: [usize; 4]) -> Result<(), Refusal> {
        let [work, legend, joins, places] = rooms;
        compose(
            tray,
            settings,
            &mut self.work[..work],
            &mut self.letters[..legend],
            &mut self.joins[..joins],
            &mut self.places[..places],
        )
        .map(|_| ())
    }

    fn shortest(&mut self, tray: TrayRef, settings: Settings, rooms: [usize; 2]) -> Result<(), Refusal> {
        let (work, legend) = (&mut self.work[..rooms[0]], &mut self.letters[..rooms[1]]);
        shortest(tray, settings, work, legend).map(|_| ())
    }

    fn find(&mut self, tray: TrayRef, text: &[u8], rooms: [usize; 2]) -> Result<(), Refusal> {
        let (work, found) = (&mut self.work[..rooms[0]], &mut self.found[..rooms[1]]);
        find(tray.letters, tray.ends, text, work, found).map(|_| ())
    }

    fn merge(&mut self, first: TrayRef, second: TrayRef, rooms: [usize; 3]) -> Result<(), Refusal> {
        let (letters, ends) = (&mut self.letters[..rooms[0]], &mut self.ends[..rooms[1]]);
        merge_trays(first, second, letters, ends, &mut self.sides[..rooms[2]]).map(|_| ())
    }

    fn read(&mut self, file: &[u8], rooms: [usize; 3]) -> Result<(), Refusal> {
        let (letters, ends) = (&mut self.letters[..rooms[0]], &mut self.ends[..rooms[1]]);
        read_tray(file, letters, ends, &mut self.sides[..rooms[2]]).map(|_| ())
    }
}

fn sample() -> Tray {
    Tray::of(&["IMPCAES", "AES", "CAESAVG", "VGPIVS", "SIMP"])
}

/// Trays that are refused by 1 to 6, with number and detail.
fn faulty() -> [(Tray, (u32, usize)); 6] {
    let slip = |letters: usize| "A".repeat(letters);
    [
        (Tray::of(&["A"; 201]), (1, 0)),
        (Tray::of(&["AB", "", "C"]), (2, 2)),
        (Tray::of(&["AB", "CD", &slip(33)]), (3, 3)),
        (Tray::of(&vec![slip(32); 63]), (4, 0)),
        (Tray::from_parts(b"ABC".to_vec(), vec![1, 2]), (5, 0)),
        (Tray::of(&["AB", "Cd"]), (6, 2)),
    ]
}

/// 1 to 6, in every call that takes a tray.
#[test]
fn faults_of_a_tray() {
    let (mut lent, sample) = (Lent::new(), sample());
    let sample = sample.lend();
    for (tray, fault) in faulty() {
        // With all sides blank, and with sides that are refused too, but later.
        for tray in [
            tray.lend(),
            TrayRef {
                sides: b"o",
                ..tray.lend()
            },
        ] {
            lent.refuse(fault, |lent| lent.compose(tray, DEFAULT, [32_000, 2_000, 200, 200]));
            lent.refuse(fault, |lent| lent.shortest(tray, DEFAULT, [32_000, 2_000]));
            lent.refuse(fault, |lent| lent.find(tray, b"IMPCAESAVG", [32_000, 8_000]));
            lent.refuse(fault, |lent| lent.merge(tray, sample, [2_000, 200, 200]));
            lent.refuse(fault, |lent| lent.merge(sample, tray, [2_000, 200, 200]));
        }
    }
}

/// 22, in every call that takes sides: it comes after the rows of the tray, and before those of the rooms, but for 15.
#[test]
fn faults_of_sides() {
    let (mut lent, sample) = (Lent::new(), sample());
    let sample = sample.lend();
    for sides in [
        &b""[..],
        b"    ",
        b"      ",
        b"OOOOo",
        b"\0OOOO",
        b"ORORP",
        b"RR\x1fRR",
        b"OO!OO",
    ] {
        let tray = TrayRef { sides, ..sample };
        for side in Side::ALL {
            let settings = DEFAULT.with_side(side);
            for cells in [32_000, 31_999, 0] {
                lent.refuse((22, 0), |lent| lent.compose(tray, settings, [cells, 15, 3, 5]));
                lent.refuse((22, 0), |lent| lent.compose(tray, settings, [cells, 0, 0, 0]));
                lent.refuse((22, 0), |lent| lent.shortest(tray, settings, [cells, 15]));
                lent.refuse((22, 0), |lent| lent.shortest(tray, settings, [cells, 0]));
            }
        }
        lent.refuse((21, 0), |lent| {
            lent.compose(tray, Settings::least(0), [32_000, 15, 3, 5])
        });
        lent.refuse((21, 0), |lent| lent.shortest(tray, Settings::least(33), [32_000, 15]));
        lent.refuse((22, 0), |lent| lent.merge(tray, sample, [2_000, 200, 200]));
        lent.refuse((22, 0), |lent| lent.merge(sample, tray, [2_000, 200, 200]));
        lent.refuse((22, 0), |lent| lent.merge(tray, tray, [2_000, 200, 200]));
        lent.refuse((15, 0), |lent| lent.merge(tray, tray, [2_000, 200, 199]));
    }
}

/// 21, 7, 8 and 9.
#[test]
fn rooms_of_a_legend() {
    let (mut lent, sample) = (Lent::new(), sample());
    let tray = sample.lend();
    for least in [0, 33, usize::MAX] {
        let settings = Settings::least(least);
        lent.refuse((21, 0), |lent| lent.compose(tray, settings, [32_000, 15, 3, 5]));
        lent.refuse((21, 0), |lent| lent.shortest(tray, settings, [32_000, 15]));
    }
    let obverse = TrayRef {
        sides: b"OOOOO",
        ..tray
    };
    for (tray, side) in [(tray, Side::Blank), (obverse, Side::Obverse)] {
        let settings = DEFAULT.with_side(side);
        lent.refuse((7, 0), |lent| lent.compose(tray, settings, [31_999, 15, 3, 5]));
        lent.refuse((7, 0), |lent| lent.shortest(tray, settings, [31_999, 15]));
        lent.refuse((8, 15), |lent| lent.compose(tray, settings, [32_000, 14, 3, 5]));
        lent.refuse((8, 15), |lent| lent.shortest(tray, settings, [32_000, 14]));
        lent.refuse((9, 3), |lent| lent.compose(tray, settings, [32_000, 15, 2, 5]));
        lent.refuse((9, 3), |lent| lent.compose(tray, settings, [32_000, 15, 3, 4]));
    }
}

/// 7, 8 and 9 of one side: nothing is asked of what is lent for the slips of the others.
#[test]
fn rooms_of_a_side() {
    let (mut lent, ends) = (Lent::new(), [2, 5, 8, 10]);
    let tray = TrayRef::new(b"ABABCAVGBA", &ends, b" ORO");
    let (obverse, reverse) = (DEFAULT.with_side(Side::Obverse), DEFAULT.with_side(Side::Reverse));
    lent.refuse((7, 0), |lent| lent.compose(tray, obverse, [31_999, 4, 1, 2]));
    lent.refuse((8, 4), |lent| lent.compose(tray, obverse, [32_000, 3, 1, 2]));
    lent.refuse((8, 4), |lent| lent.shortest(tray, obverse, [32_000, 3]));
    lent.refuse((9, 1), |lent| lent.compose(tray, obverse, [32_000, 4, 0, 2]));
    lent.refuse((9, 1), |lent| lent.compose(tray, obverse, [32_000, 4, 1, 1]));
    lent.refuse((9, 0), |lent| lent.compose(tray, reverse, [32_000, 3, 0, 0]));
    assert_eq!(lent.compose(tray, obverse, [32_000, 4, 1, 2]), Ok(()));
    assert_eq!(lent.compose(tray, reverse, [32_000, 3, 0, 1]), Ok(()));
    let blank = TrayRef { sides: b"    ", ..tray };
    lent.refuse((7, 0), |lent| lent.compose(blank, reverse, [31_999, 0, 0, 0]));
    assert_eq!(lent.compose(blank, reverse, [32_000, 0, 0, 0]), Ok(()));
    assert_eq!(lent.shortest(blank, reverse, [32_000, 0]), Ok(()));
}

/// 20.
#[test]
fn kept_slips() {
    let (mut lent, mut tray) = (Lent::new(), Tray::default());
    (b'A'..=b'K').for_each(|letter| tray.push([letter]));
    lent.refuse((20, 0), |lent| lent.shortest(tray.lend(), DEFAULT, [32_000, 2_000]));
    // Before 8, and of the side alone: the twelfth slip is of another one.
    tray.push_side(Side::Reverse, "L");
    lent.refuse((20, 0), |lent| lent.shortest(tray.lend(), DEFAULT, [32_000, 0]));
    let reverse = DEFAULT.with_side(Side::Reverse);
    assert_eq!(lent.shortest(tray.lend(), reverse, [32_000, 1]), Ok(()));
}

/// 12, 13, 7 and 14.
#[test]
fn texts() {
    let (mut lent, sample, text) = (Lent::new(), sample(), b"IMPCAESAVG");
    let tray = sample.lend();
    lent.refuse((12, 0), |lent| lent.find(tray, &[b'A'; 2_001], [32_000, 8_000]));
    lent.refuse((13, 4), |lent| lent.find(tray, b"IMP CAES", [32_000, 8_000]));
    lent.refuse((7, 0), |lent| lent.find(tray, text, [31_999, 3]));
    lent.refuse((14, 3), |lent| lent.find(tray, text, [32_000, 2]));
}

/// 15 to 19.
#[test]
fn files() {
    let (mut lent, file, exact) = (Lent::new(), b"   1   3 AVG\n", [16_384, 1_700, 1_700]);
    lent.refuse((15, 0), |lent| lent.read(file, [16_383, 1_700, 1_700]));
    lent.refuse((15, 0), |lent| lent.read(file, [16_384, 1_699, 1_700]));
    lent.refuse((15, 0), |lent| lent.read(file, [16_384, 1_700, 1_699]));
    lent.refuse((15, 0), |lent| lent.read(&[b'A'; 16_385], [16_384, 1_700, 1_699]));
    lent.refuse((16, 0), |lent| lent.read(&[b'A'; 16_385], exact));
    lent.refuse((17, 2), |lent| lent.read(b"   1   3 AVG\nAES\n", exact));
    lent.refuse((17, 2), |lent| lent.read(b"   1   3OAVG\n   2   3oAES\n", exact));
    lent.refuse((17, 1), |lent| lent.read(b"   2   4rAVG\n", exact));
    lent.refuse((18, 2), |lent| lent.read(b"   1   3RAVG\n   1   3 AES\n", exact));
    lent.refuse((19, 2), |lent| lent.read(b"   1   3 AVG\n   2   4OAES\n", exact));
}

/// 15, and 1 and 4 of the outcome.
#[test]
fn two_trays() {
    let (mut lent, exact) = (Lent::new(), [2_000, 200, 200]);
    let (many, full) = (Tray::of(&["A"; 200]), Tray::of(&[&"A".repeat(20); 100]));
    let one = TrayRef::new(b"B", &[1], b" ");
    lent.refuse((15, 0), |lent| lent.merge(one, one, [1_999, 200, 200]));
    lent.refuse((15, 0), |lent| lent.merge(one, one, [2_000, 199, 200]));
    lent.refuse((15, 0), |lent| lent.merge(one, one, [2_000, 200, 199]));
    lent.refuse((1, 0), |lent| lent.merge(many.lend(), one, exact));
    lent.refuse((4, 0), |lent| lent.merge(full.lend(), one, exact));
    // A slip that equals one of the first tray, but for its side.
    lent.refuse((1, 0), |lent| {
        lent.merge(many.lend(), TrayRef::new(b"A", &[1], b"R"), exact)
    });
    assert_eq!(lent.merge(many.lend(), TrayRef::new(b"A", &[1], b" "), exact), Ok(()));
}
