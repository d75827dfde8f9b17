//! The plain program is held to what was worked out by hand.
use plain::by_hand::{
    COMPOSE_FILE, COMPOSE_SHEET, FILED, FIND, FIND_SHEET, SEARCHES, SPECIMENS, TYPED_FILE, TYPED_TEXT,
};
use plain::cases::{edges, Case};
use plain::compose::compose;
use plain::file::read_tray;
use plain::find::{find_slips, longest_ending, occurrences, walk};
use plain::fold::{filed, fold};
use plain::made::files::tray_file;
use plain::made::texts::text;
use plain::made::{valid, Chance};
use plain::refusal;
use plain::sheet::{compose_sheet, find_sheet};
use plain::tray::{overlap, Tray};
use plain::{BLANK, MAX_SLIP, ONE_LETTER, USUAL};
use std::collections::BTreeSet;

#[test]
fn specimen_trays() {
    for case in SPECIMENS {
        let (name, tray) = (case.name, Tray::of(case.slips));
        let made = compose(&tray, USUAL);
        assert_eq!(made.legend, case.legend.as_bytes(), "{name}");
        let joins: Vec<_> = made.joins.iter().map(|x| (x.left, x.right, x.overlap)).collect();
        assert_eq!(joins, case.joins, "{name}");
        let mark = |kept| if kept { 'K' } else { 'S' };
        let places: Vec<_> = made
            .places
            .iter()
            .map(|x| (x.place, mark(x.kept), x.compared))
            .collect();
        assert_eq!(places, case.places, "{name}");
        let numbers: Vec<_> = made.places.iter().map(|x| (x.slip, x.side)).collect();
        let all_blank: Vec<_> = (1..=case.slips.len()).map(|slip| (slip, BLANK)).collect();
        assert_eq!(numbers, all_blank, "{name}");
        assert_eq!(made.kept_letters, made.saved() + case.legend.len(), "{name}");
    }
}

#[test]
fn specimen_texts() {
    for case in SEARCHES {
        let (name, tray, text) = (case.name, Tray::of(case.slips), case.text.as_bytes());
        let found: Vec<_> = occurrences(&tray.slips(), text)
            .iter()
            .map(|x| (x.end, x.slip))
            .collect();
        assert_eq!(found, case.found, "{name}");
        assert_eq!(walk(&tray.slips(), text).1, case.moves, "{name}");
    }
}

#[test]
fn sheets() {
    let file = COMPOSE_FILE.as_bytes();
    assert_eq!(tray_file(FIND.slips), file);
    assert_eq!(compose_sheet(file), COMPOSE_SHEET.as_bytes());
    for end in ["", "\n"] {
        let text = [FIND.text, end].concat();
        assert_eq!(find_sheet(file, text.as_bytes()), FIND_SHEET.as_bytes());
    }
    assert_eq!(compose_sheet(b""), b"TRAY   0   0    0    0    0\n\n");
    assert_eq!(compose_sheet(b"no tray\n"), b"REFUSED  17     1\n");
    assert_eq!(find_sheet(file, b"IMP\nCAES\n"), b"REFUSED  13     4\n");
}

#[test]
fn folded_letters() {
    for (typed, expected) in FILED {
        assert_eq!(filed(typed), *expected, "{typed:?}");
        let file = tray_file(&[b"AVG", *typed]);
        let tray = read_tray(&file, 16_384, 1_700, 1_700);
        assert_eq!(tray, Ok(Tray::of(&[b"AVG", *expected])), "{typed:?}");
    }
}

/// 26 capitals, 26 small letters and the stop are signs in a file. U and J are not on the die, and all other signs are.
#[test]
fn folded_bytes() {
    let signs: Vec<u8> = (0..=255).filter(|&byte| fold(byte) != 0).collect();
    assert_eq!(signs, b".ABCDEFGHIJKLMNOPQRSTUVWXYZabcdefghijklmnopqrstuvwxyz");
    let on_the_die: BTreeSet<u8> = signs.iter().map(|&byte| fold(byte)).collect();
    let on_the_die: Vec<u8> = on_the_die.into_iter().collect();
    assert_eq!(on_the_die, b".ABCDEFGHIKLMNOPQRSTVWXYZ");
    assert_eq!((signs.len(), on_the_die.len()), (53, 25));
    for byte in 0..=255 {
        assert_eq!(fold(fold(byte)), fold(byte), "{byte}");
    }
}

#[test]
fn sheets_of_typed_files() {
    let (file, text) = (TYPED_FILE.as_bytes(), TYPED_TEXT.as_bytes());
    assert_eq!(compose_sheet(file), COMPOSE_SHEET.as_bytes());
    for file in [file, COMPOSE_FILE.as_bytes()] {
        assert_eq!(find_sheet(file, text), FIND_SHEET.as_bytes());
        assert_eq!(find_sheet(file, &[text, b"\n"].concat()), FIND_SHEET.as_bytes());
    }
    let refused = |number: usize, detail: usize| format!("REFUSED{number:4}{detail:6}\n").into_bytes();
    // The layout is not folded: neither the columns nor the count of letters.
    assert_eq!(compose_sheet(b"   1   a AVG\n"), refused(17, 1));
    assert_eq!(compose_sheet(b"   1   3aAVG\n"), refused(17, 1));
    assert_eq!(compose_sheet(b"   1   3 avg\r\n"), refused(19, 1));
    assert_eq!(compose_sheet(b"   1   4 avg\r\n"), refused(6, 1));
    assert_eq!(compose_sheet(b"   1   3 avg\n   2   3 a9s\n"), refused(6, 2));
    assert_eq!(find_sheet(file, b"imp\ncaes\n"), refused(13, 4));
    assert_eq!(find_sheet(file, b"caes\r\n"), refused(13, 5));
    assert_eq!(find_sheet(file, b"u2j3"), refused(13, 2));
    assert_eq!(find_sheet(file, &[b'u'; 2_001]), refused(12, 0));
    assert_eq!(find_sheet(b"   1   1 7\n", b"7"), refused(6, 1));
}

/// Only files are folded: a tray or a text that is lent stays with the 27 signs.
#[test]
fn lent_letters_are_not_folded() {
    let small = Tray::of(&["AVG", "avg"]);
    assert_eq!(small.fault(), Some(refusal(6, 2)));
    let (tray, text) = (Tray::of(&["AVG", "AUG"]), b"AVGavg");
    assert_eq!(find_slips(&tray, text, 32_000, 9), Err(refusal(13, 4)));
    assert_eq!(tray.pair(1, 2, ONE_LETTER), Ok(0));
    assert_eq!(compose(&tray, USUAL).legend, b"AVGAUG");
}

/// The rows of the edge trays, and all bytes as signs.
#[test]
fn edge_trays() {
    let mut expected = edges::expected().into_iter();
    for row in edges::rows() {
        let told = match edges::asked(row) {
            None => row.to_string(),
            Some(asked) => {
                let answer = Case::Ask(asked.tray, ONE_LETTER, asked.left, asked.right).answer();
                answer.replacen('A', &format!("{}:", asked.name), 1)
            }
        };
        assert_eq!(Some(told.as_str()), expected.next());
    }
    let signs = Case::Signs.answer();
    let accepted = signs.trim_start_matches("S [").trim_end_matches(']');
    assert_eq!(Some(accepted), expected.next());
    assert_eq!(None, expected.next());
}

#[test]
fn overlaps() {
    let cases: [(&[u8], &[u8], usize); 12] = [
        (b"AVG", b"AVG", 3),
        (b"IMPCAES", b"CAESAVG", 4),
        (b"CAESAVG", b"VGPIVS", 2),
        (b"AB", b"BA", 1),
        (b"CD", b"AB", 0),
        (b"ANNA", b"ANA", 1),
        (b"A.", b".B", 0),
        (b"X.A", b".AB", 2),
        (b"..", b"..", 0),
        (b"A.", b".", 0),
        (b"A..", b"..A", 0),
        (b"A..B", b"..B", 3),
    ];
    for (a, b, n) in cases {
        assert_eq!(overlap(a, b, ONE_LETTER), n);
    }
}

/// The state by its steps is the longest ending of the text so far that begins a slip.
#[test]
fn both_sentences_of_the_state() {
    let mut chance = Chance::new(38);
    for _ in 0..1_000 {
        let all = valid(&mut chance, 6, MAX_SLIP);
        let n = chance.below(60);
        let text = text(&mut chance, &all, n);
        let slips: Vec<&[u8]> = all.iter().map(Vec::as_slice).collect();
        let (state, moves) = walk(&slips, &text);
        assert_eq!(state, longest_ending(&slips, &text));
        assert!((text.len()..=2 * text.len()).contains(&moves));
    }
}
