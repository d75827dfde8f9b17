//! Finding in thousands of made-up trays and texts, valid and damaged, in buffers of many lengths, against the plain program.
mod searches;
mod tally;
mod told;

use kotsghane::{find_slips, Refusal, Search, Tray, MAX_SLIP};
use plain::made::damage::{damaged, DAMAGES};
use plain::made::texts::{damaged_text, text};
use plain::made::{near, slips, valid, Chance, SHAPES};
use plain::tray;
use searches::{trial, Lent};
use tally::Tally;
use told::refused;

/// The occurrences that there are, whether or not the list takes them; 0 after any other refusal.
fn occurrences(told: &Result<Search, Refusal>) -> usize {
    match refused(told) {
        (14, detail) => detail as usize,
        _ => told.unwrap_or_default().count,
    }
}

/// One tray and text, first without a list, then with one of about the length that the outcome needs.
fn try_search(chance: &mut Chance, tray: &tray::Tray, text: &[u8], tally: &mut Tally) {
    let none = Lent::of(32_000, 0, chance);
    let (told, _) = trial(tray, text, &none);
    tally.count(&told);
    let cells = [32_000, 32_000, 32_007, 31_999][chance.below(4)];
    let records = near(chance, occurrences(&told));
    let (told, _) = trial(tray, text, &Lent::of(cells, records, chance));
    tally.count(&told);
}

#[test]
fn short_texts_agree() {
    let (mut chance, mut tally) = (Chance::new(31), Tally::default());
    for _ in 0..6_000 {
        let all = valid(&mut chance, 8, MAX_SLIP);
        let n = chance.below(80);
        let text = text(&mut chance, &all, n);
        try_search(&mut chance, &tray::Tray::of(&all), &text, &mut tally);
    }
    tally.assert_all_from(&[0, 7, 14], 1_000);
}

#[test]
fn long_texts_agree() {
    let (mut chance, mut tally) = (Chance::new(32), Tally::default());
    for _ in 0..400 {
        let all = valid(&mut chance, 200, MAX_SLIP);
        let n = chance.below(2_001);
        let text = text(&mut chance, &all, n);
        try_search(&mut chance, &tray::Tray::of(&all), &text, &mut tally);
    }
    tally.assert_all_from(&[0, 7, 14], 50);
}

#[test]
fn full_trays_and_texts_agree() {
    let (mut chance, mut tally) = (Chance::new(33), Tally::default());
    for n in 0..100 {
        let signs = chance.signs([2, 3, 5, 26, 27][n / 5 % 5]);
        let all = slips(SHAPES[n % 5], &mut chance, 200, 10, 10, &signs);
        let text = text(&mut chance, &all, 2_000);
        let tray = tray::Tray::of(&all);
        assert_eq!((tray.letters.len(), tray.ends.len(), text.len()), (2_000, 200, 2_000));
        try_search(&mut chance, &tray, &text, &mut tally);
    }
    tally.assert_all_from(&[0, 14], 20);
}

#[test]
fn damaged_trays_agree() {
    let (mut chance, mut tally) = (Chance::new(34), Tally::default());
    for n in 0..4_000 {
        let tray = damaged(&mut chance, DAMAGES[n % DAMAGES.len()], 60);
        let n = [chance.below(60), chance.below(2_100)][chance.below(2)];
        let mut text = chance.word(b"ABC.", n);
        if n > 0 && chance.below(2) == 0 {
            text[chance.below(n)] = b'a';
        }
        try_search(&mut chance, &tray, &text, &mut tally);
    }
    tally.assert_all_from(&[1, 2, 3, 4, 5, 6], 300);
}

/// A text that is too long, has bad bytes, or both.
#[test]
fn damaged_texts_agree() {
    let (mut chance, mut tally) = (Chance::new(35), Tally::default());
    for n in 0..3_000 {
        let all = valid(&mut chance, 20, MAX_SLIP);
        let text = damaged_text(&mut chance, &all, n % 4 < 2, n % 4);
        try_search(&mut chance, &tray::Tray::of(&all), &text, &mut tally);
    }
    tally.assert_all_from(&[12, 13], 1_000);
}

/// The list just long enough, then one short of it; the work area one cell short.
#[test]
fn each_buffer_one_short() {
    let (mut chance, mut met) = (Chance::new(36), 0);
    for _ in 0..1_000 {
        let all = valid(&mut chance, 30, MAX_SLIP);
        let n = chance.below(200);
        let text = text(&mut chance, &all, n);
        let tray = tray::Tray::of(&all);
        let (told, _) = trial(&tray, &text, &Lent::of(32_000, 0, &mut chance));
        let count = occurrences(&told);
        let mut cases = vec![(32_000, count, 0, 0), (31_999, count, 7, 0)];
        if count > 0 {
            cases.push((32_000, count - 1, 14, count as u32));
            met += 1;
        }
        for (cells, records, number, detail) in cases {
            let before = Lent::of(cells, records, &mut chance);
            let (told, after) = trial(&tray, &text, &before);
            assert_eq!(refused(&told), (number, detail));
            assert!(number == 0 || after.found == before.found);
        }
    }
    assert!(met > 500, "texts with an occurrence: {met}");
}

/// The comfortable form has the same outcome as the lent buffers.
#[test]
fn owned_trays_agree() {
    let (mut chance, mut tally) = (Chance::new(37), Tally::default());
    for n in 0..2_000 {
        let all = valid(&mut chance, 40, MAX_SLIP);
        let letters = chance.below(300);
        let mut text = text(&mut chance, &all, letters);
        let tray = match n % 4 {
            0 => damaged(&mut chance, DAMAGES[n / 4 % DAMAGES.len()], 60),
            _ => tray::Tray::of(&all),
        };
        match n % 8 {
            1 => text.push(b' '),
            2 => text.resize(2_001, b'A'),
            _ => {}
        }
        let (told, _) = trial(&tray, &text, &Lent::of(32_000, 0, &mut chance));
        let before = Lent::of(32_000, occurrences(&told), &mut chance);
        let (told, after) = trial(&tray, &text, &before);
        tally.count(&told);
        let owned = find_slips(&Tray::from_parts(tray.letters, tray.ends), &text);
        let expected = told.map(|search| (after.found, search.moves));
        assert_eq!(owned.map(|finding| (finding.found, finding.moves)), expected);
    }
    tally.assert_all_from(&[0, 12, 13], 100);
}
