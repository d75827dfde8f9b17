//! Writes the cases of the program `trials` (`plain cases`), or what it must answer (`plain answers`).
use plain::cases;

fn main() {
    let all = cases::all();
    match std::env::args().nth(1).as_deref() {
        Some("cases") => print!("{}", cases::lines(&all)),
        Some("answers") => print!("{}", cases::answers(&all)),
        _ => eprintln!("usage: plain cases | plain answers"),
    }
}
