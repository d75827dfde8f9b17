//! The limits, and how many numbers a record has, stand in other places too, for other readers. There they are the same
//! numbers.

/// A limit: its name in the definitions, its name in the C header, and its number here and in the plain program.
struct Limit {
    defined: &'static str,
    header: &'static str,
    ours: usize,
    plain: usize,
}

/// The limit that both crates give this name.
macro_rules! limit {
    ($defined:literal, $header:literal, $name:ident) => {
        Limit {
            defined: $defined,
            header: $header,
            ours: kotsghane::$name,
            plain: plain::$name,
        }
    };
}

const LIMITS: [Limit; 9] = [
    limit!("max_slips", "MAX_SLIPS", MAX_SLIPS),
    limit!("max_slip", "MAX_SLIP", MAX_SLIP),
    limit!("max_letters", "MAX_LETTERS", MAX_LETTERS),
    limit!("max_text", "MAX_TEXT", MAX_TEXT),
    limit!("work_need", "WORK", WORK_CELLS),
    limit!("max_file", "MAX_FILE", MAX_FILE),
    limit!("ends_need", "FILE_ENDS", FILE_ENDS),
    limit!("max_shortest", "MAX_SHORTEST", MAX_SHORTEST),
    limit!("max_least", "MAX_LEAST", MAX_LEAST),
];

/// How many numbers the records of composing have.
const RECORDS: [Limit; 2] = [
    limit!("join_cells", "JOIN", JOIN_CELLS),
    limit!("record_cells", "PLACE", PLACE_CELLS),
];

/// How many numbers an occurrence has; the definitions have no name for it.
const OCCURRENCE: Limit = limit!("", "OCCURRENCE", FOUND_CELLS);

/// A file of the repository.
fn file(path: &str) -> String {
    let whole = format!("{}/../../{path}", env!("CARGO_MANIFEST_DIR"));
    std::fs::read_to_string(whole).expect("a file of the repository")
}

/// This text stands in that file of the repository, and no digit follows it.
fn assert_stands(path: &str, text: &str) {
    let file = file(path);
    let rest = file.split_once(text).map(|(_, rest)| rest);
    let whole = rest.is_some_and(|rest| !rest.starts_with(|c: char| c.is_ascii_digit()));
    assert!(whole, "{path} does not have: {}", text.trim());
}

/// The definition of this limit stands in that file.
fn assert_defined(path: &str, limit: &Limit) {
    assert_stands(path, &format!("\n{} = {}\n", limit.defined, limit.ours));
}

#[test]
fn the_plain_program_has_them() {
    for limit in LIMITS.iter().chain(&RECORDS).chain([&OCCURRENCE]) {
        assert_eq!(limit.plain, limit.ours, "{}", limit.header);
    }
}

#[test]
fn the_definitions_have_them() {
    for limit in &LIMITS {
        assert_defined("crates/trays/specs/Limits.antt", limit);
    }
    for record in &RECORDS {
        assert_defined("crates/answers/specs/Composing.antt", record);
    }
}

#[test]
fn the_c_header_has_them() {
    for limit in LIMITS.iter().chain(&RECORDS).chain([&OCCURRENCE]) {
        let line = format!(" KOTSGHANE_{} = {}", limit.header, limit.ours);
        assert_stands("bindings/c/kotsghane.h", &line);
    }
}

/// The three sides are the same bytes everywhere, and have the same names.
#[test]
fn the_sides_are_the_same() {
    let sides = [
        (kotsghane::Side::Blank, plain::BLANK, "blank_side", "BLANK"),
        (kotsghane::Side::Obverse, plain::OBVERSE, "obverse", "OBVERSE"),
        (kotsghane::Side::Reverse, plain::REVERSE, "reverse", "REVERSE"),
    ];
    assert_eq!(sides.map(|(side, ..)| side), kotsghane::Side::ALL);
    assert_eq!(sides.map(|(side, ..)| side.byte()), [32, 79, 82]);
    assert_eq!(plain::SIDES, [32, 79, 82]);
    for (side, plain, defined, header) in sides {
        assert_eq!(side.byte(), plain, "{side:?}");
        assert_stands("crates/trays/specs/Sides.antt", &format!("\n{defined} = {plain}\n"));
        assert_stands("bindings/c/kotsghane.h", &format!(" KOTSGHANE_{header} = {plain}"));
    }
}

/// The sentences have the number as a literal here too, so that no constant can take them along.
#[test]
fn the_rules_have_the_longest_slip() {
    assert_eq!(kotsghane::MAX_SLIP, 32);
    assert_stands("docs/RULES.md", "A slip has 1 to 32 letters");
    assert_stands("docs/REFUSALS.md", "| 3 | a slip over 32 letters |");
}

#[test]
fn the_rules_have_the_most_kept_slips() {
    assert_eq!(kotsghane::MAX_SHORTEST, 10);
    let row = "more than 10 kept slips";
    assert_stands("docs/RULES.md", row);
    assert_stands("docs/REFUSALS.md", row);
}

#[test]
fn the_rules_have_the_least_overlap() {
    assert_eq!(kotsghane::MAX_LEAST, 32);
    let row = "| 21 | the least overlap is 0 or more than 32 |";
    assert_stands("docs/RULES.md", "a least overlap from 1 to 32");
    assert_stands("docs/RULES.md", row);
    assert_stands("docs/REFUSALS.md", row);
}

/// The name in capitals, with underscores between the words.
fn in_capitals(name: &str) -> String {
    let parts = name.chars().flat_map(|c| {
        c.is_uppercase()
            .then_some('_')
            .into_iter()
            .chain([c.to_ascii_uppercase()])
    });
    parts.collect()
}

#[test]
fn the_c_header_has_the_kinds_of_refusals() {
    for kind in kotsghane::RefusalKind::ALL {
        let name = in_capitals(&format!("{kind:?}"));
        assert_stands(
            "bindings/c/kotsghane.h",
            &format!(" KOTSGHANE_REFUSED{name} = {}", kind.number()),
        );
    }
}
