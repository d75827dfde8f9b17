//! The files of the program `trials` are what generator and plain program make today. `tests/write-trials` writes them anew.
use plain::cases;

/// The file of the program, compared line by line, so that a difference is short.
fn assert_file(name: &str, made: &str) {
    let path = format!("{}/../../crates/trials/{name}", env!("CARGO_MANIFEST_DIR"));
    let file = std::fs::read_to_string(&path).expect("the program trials has this file");
    let differs = file.lines().zip(made.lines()).position(|(a, b)| a != b);
    if let Some(n) = differs {
        let (there, wanted) = (file.lines().nth(n), made.lines().nth(n));
        panic!("{name}, line {}: {there:?}, and made is {wanted:?}", n + 1);
    }
    assert_eq!(file.len(), made.len(), "{name} has another length than what is made");
}

#[test]
fn the_cases_are_those_made() {
    assert_file("stdin", &cases::lines(&cases::all()));
}

#[test]
fn the_answers_are_those_of_the_plain_program() {
    assert_file("stdout", &cases::answers(&cases::all()));
}
