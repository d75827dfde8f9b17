//! Two trays merged: the plain program is held to what was worked out by hand, and to what the sentences say of it.
use plain::by_hand::{merging, COMPOSE};
use plain::cases::{self, Case};
use plain::compose::{compose, kept_slips};
use plain::made::campaigns::{any_two, Met};
use plain::made::{Chance, Slips};
use plain::merge::{long_tray, merge_trays};
use plain::tray::Tray;
use plain::{refusal, Settings, BLANK, MAX_LETTERS, MAX_SLIPS, USUAL};

fn merged(first: &Tray, second: &Tray) -> Result<Tray, plain::Refusal> {
    merge_trays(first, second, MAX_LETTERS, MAX_SLIPS, MAX_SLIPS)
}

#[test]
fn trays_by_hand() {
    for case in merging::all() {
        let [letters, ends] = case.lent;
        let told = merge_trays(&case.first, &case.second, letters, ends, 200);
        let expected = case.told.map_err(|(number, detail)| refusal(number, detail));
        assert_eq!(told, expected, "{}", case.name);
    }
}

/// Legends worked out by hand, of the outcome and of the long tray.
#[test]
fn legends_by_hand() {
    let cases: [(&[&str], &[&str], &str); 3] = [
        (&["AB", "BC"], &["BC", "CD", "AB"], "ABCD"),
        (&["AB", "AB"], &["XA", "AB"], "XAB"),
        (
            &["IMPCAES", "AES", "CAESAVG"],
            &["AES", "VGPIVS", "IMPCAES", "SIMP"],
            COMPOSE.legend,
        ),
    ];
    for (first, second, legend) in cases {
        let (first, second) = (Tray::of(first), Tray::of(second));
        let outcome = merged(&first, &second).expect("an accepted outcome");
        for tray in [outcome, long_tray(&first, &second)] {
            let text = compose(&tray, USUAL).legend;
            assert_eq!(text, legend.as_bytes());
        }
    }
}

/// The sentences once more, slip by slip: the first tray comes first; after it come those slips of the second, in their
/// order, that equal no slip of the first and none of the second before them.
#[test]
fn first_of_equals() {
    let (mut chance, mut met, mut many) = (Chance::new(70), Met::default(), [0, 0]);
    for n in 0..6_000 {
        let [first, second] = any_two(&mut chance, n);
        met.count(&first, &second);
        let (ours, others) = (first.slips(), second.slips());
        let news = (0..others.len()).filter(|&k| {
            let equal = |other: &&[u8]| *other == others[k];
            !ours.iter().any(equal) && others.iter().position(equal) == Some(k)
        });
        let slips: Vec<&[u8]> = ours.iter().copied().chain(news.map(|k| others[k])).collect();
        let letters: usize = slips.iter().map(|slip| slip.len()).sum();
        let told = merged(&first, &second);
        if slips.len() > MAX_SLIPS {
            assert_eq!(told, Err(refusal(1, 0)));
            many[0] += 1;
        } else if letters > MAX_LETTERS {
            assert_eq!(told, Err(refusal(4, 0)));
            many[1] += 1;
        } else {
            assert_eq!(told.expect("an accepted outcome").slips(), slips);
        }
    }
    met.assert_all_from(300);
    assert!(
        many.iter().all(|&n| n > 60),
        "too many slips, too many letters: {many:?}"
    );
}

/// Where the long tray is accepted, its legend is that of the outcome, with every least overlap; so are the kept slips.
#[test]
fn legend_of_the_long_tray() {
    let (mut chance, mut met) = (Chance::new(71), Met::default());
    let (mut accepted, mut shorter, mut joined) = (0, 0, [0; 3]);
    for n in 0..8_000 {
        let [first, second] = any_two(&mut chance, n);
        let (long, told) = (long_tray(&first, &second), merged(&first, &second));
        if long.fault().is_some() {
            shorter += usize::from(told.is_ok());
            continue;
        }
        let outcome = told.expect("no more slips and letters than the long tray has");
        met.count(&first, &second);
        accepted += 1;
        let kept = |tray: &Tray| -> Slips {
            let slips = tray.slips();
            kept_slips(tray, BLANK).iter().map(|&i| slips[i - 1].to_vec()).collect()
        };
        assert_eq!(kept(&outcome), kept(&long));
        for (least, count) in [1, 2, 5].into_iter().zip(&mut joined) {
            let settings = Settings::blank(least);
            let made = compose(&outcome, settings);
            assert_eq!(made.legend, compose(&long, settings).legend);
            *count += usize::from(!made.joins.is_empty());
        }
    }
    assert!(accepted > 5_000, "accepted long trays: {accepted}");
    assert!(shorter > 1_000, "accepted, though the long tray is not: {shorter}");
    met.assert_all_from(300);
    assert!(
        joined.iter().all(|&n| n > 1_000),
        "with joins at 1, 2 and 5: {joined:?}"
    );
}

/// What the cases of `trials` meet.
#[test]
fn many_cases() {
    let (mut met, mut count) = (Met::default(), 0);
    let (mut refused, mut outcomes, mut lent) = ([[0; 23]; 2], [0; 23], [0; 4]);
    for case in cases::all() {
        let Case::Merge(first, second, room) = case else {
            continue;
        };
        count += 1;
        let short = [room.letters < MAX_LETTERS, room.ends < MAX_SLIPS];
        if let [true, _] | [_, true] = short {
            lent[usize::from(short[0]) + 2 * usize::from(short[1])] += 1;
        } else if room.sides < MAX_SLIPS {
            lent[0] += 1;
        } else if let Some(fault) = first.sided_fault() {
            refused[0][fault.number] += 1;
        } else if let Some(fault) = second.sided_fault() {
            refused[1][fault.number] += 1;
        } else {
            met.count(&first, &second);
            outcomes[merged(&first, &second).err().map_or(0, |fault| fault.number)] += 1;
        }
    }
    assert!(count > 3_000, "{count}");
    met.assert_all_from(200);
    assert!(lent.iter().all(|&n| n > 30), "too little lent: {lent:?}");
    let all = |counts: &[usize; 23]| [1, 2, 3, 4, 5, 6, 22].iter().all(|&row| counts[row] > 10);
    assert!(refused.iter().all(all), "first and second trays refused: {refused:?}");
    assert!(
        outcomes[0] > 2_000 && outcomes[1] > 30 && outcomes[4] > 30,
        "{outcomes:?}"
    );
    assert_eq!(outcomes.iter().sum::<usize>(), outcomes[0] + outcomes[1] + outcomes[4]);
}
