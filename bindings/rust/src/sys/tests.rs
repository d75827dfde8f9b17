//! Answers that no archive of this version gives, and sides that the rest of the crate cannot hold.
use super::{compose, pair, shortest, Answer};
use crate::{Join, Place, TrayRef, MAX_LEAST, WORK_CELLS};

fn answer(number: u32, counts: [u32; 2]) -> Answer<2> {
    let detail = 7 * u32::from(number > 0);
    Answer { number, detail, counts }
}

#[test]
fn counts_or_a_refusal() {
    assert_eq!(answer(0, [3, 4]).told(), Ok([3, 4]));
    let refusal = answer(22, [0, 0]).told().unwrap_err();
    assert_eq!((refusal.number(), refusal.detail()), (22, 7));
}

#[test]
#[should_panic(expected = "are of different versions: refusal 23")]
fn a_number_that_the_table_does_not_have() {
    let _ = answer(23, [0, 0]).told();
}

#[test]
#[should_panic(expected = "are of different versions: refusal 1")]
fn a_refusal_with_counts() {
    let _ = answer(1, [1, 0]).told();
}

/// What refuses a tray where a least overlap and a side are named, with this many cells lent: number and detail, 0 and 0 if
/// nothing does. Composing and the shortest legend agree, and a refusal leaves every lent buffer as it was.
fn refused(tray: TrayRef<'_>, named: (usize, u8), cells: usize) -> (u32, usize) {
    let (mut work, mut legend) = (vec![7; cells], [b'-'; 3]);
    let (join, place) = (Join::new(7, 8, 9), Place::new(6, 7, true, 8, crate::Side::Reverse));
    let (mut joins, mut places) = ([join; 1], [place; 1]);
    let composed = compose(tray, named, &mut work, &mut legend, &mut joins, &mut places).err();
    assert!(
        composed.is_none() || (work == vec![7; cells] && legend == *b"---" && joins == [join] && places == [place])
    );
    let (mut work, mut legend) = (vec![7; cells], [b'-'; 3]);
    let sought = shortest(tray, named, &mut work, &mut legend).err();
    assert!(sought.is_none() || (work == vec![7; cells] && legend == *b"---"));
    assert_eq!(composed, sought);
    composed.map_or((0, 0), |refusal| (refusal.number(), refusal.detail()))
}

/// A side named that is none of the three, which the settings of the crate cannot hold: 22, for the empty tray too, before 7
/// and after 21 and all rows of the tray.
#[test]
fn sides_named() {
    let (empty, one) = (TrayRef::default(), TrayRef::new(b"AVG", &[3], b"O"));
    let (small, short) = (TrayRef::new(b"AvG", &[3], b"O"), TrayRef::new(b"AVG", &[2], b"O"));
    for side in 0..=u8::MAX {
        let expected = if b" OR".contains(&side) { (0, 0) } else { (22, 0) };
        let after = |first: (u32, usize)| if expected == (0, 0) { first } else { expected };
        for tray in [empty, one] {
            assert_eq!(refused(tray, (1, side), WORK_CELLS), expected);
            assert_eq!(refused(tray, (MAX_LEAST, side), WORK_CELLS), expected);
            assert_eq!(refused(tray, (1, side), WORK_CELLS - 1), after((7, 0)));
            for least in [0, MAX_LEAST + 1] {
                assert_eq!(refused(tray, (least, side), WORK_CELLS - 1), (21, 0));
            }
        }
        assert_eq!(refused(small, (1, side), WORK_CELLS), (6, 1));
        assert_eq!(refused(short, (1, side), WORK_CELLS), (5, 0));
    }
}

/// Bytes that are no sides, in a tray of which a pair is asked: 22, after 21 and the rows of the tray, before 10 and 11.
#[test]
fn sides_of_a_pair() {
    let told = |letters: &[u8], sides: &[u8], (left, right), least| {
        let told = pair(TrayRef::new(letters, &[2, 4], sides), left, right, least);
        told.map_err(|refusal| (refusal.number(), refusal.detail()))
    };
    let pairs = [(1, 2), (2, 1), (0, 1), (1, 3), (2, 2), (usize::MAX, 0)];
    for byte in (0..=u8::MAX).filter(|byte| !b" OR".contains(byte)) {
        for sides in [[byte, b'O'], [b'O', byte], [byte, byte]] {
            for numbers in pairs {
                assert_eq!(told(b"ABBC", &sides, numbers, 1), Err((22, 0)));
                assert_eq!(told(b"ABBC", &sides, numbers, 0), Err((21, 0)));
                assert_eq!(told(b"ABbC", &sides, numbers, 1), Err((6, 2)));
            }
        }
    }
    for sides in [&b""[..], b"O", b"OOO"] {
        assert_eq!(told(b"ABBC", sides, (1, 2), 1), Err((22, 0)));
    }
    let numbers = pairs.map(|numbers| told(b"ABBC", b"RR", numbers, 1));
    let above = Err((10, u32::MAX as usize));
    assert_eq!(
        numbers,
        [Ok([1]), Ok([0]), Err((10, 0)), Err((10, 3)), Err((11, 2)), above]
    );
    assert_eq!(told(b"ABBC", b"OR", (1, 2), 1), Ok([0]));
}
