//! The built programs `compose` and `find` on made-up and damaged files, against the plain program's sheets.
use kotsghane::MAX_SLIP;
use plain::by_hand::sides_written::{FOUND, SHEETS};
use plain::made::damage::stored;
use plain::made::files::{blotted, damaged_file, sided_file, tray_file, BLOTS};
use plain::made::sides::{any_sides, echoed, Echo, NO_SIDES};
use plain::made::texts::{damaged_text, text};
use plain::made::typed::{has_other_forms, many_forms, spoil, typed, typed_slips, BAD_IN_FILES};
use plain::made::{valid, Chance};
use plain::sheet::{compose_sheet, find_sheet};
use std::fs;
use std::io::Write;
use std::path::{Path, PathBuf};
use std::process::{Command, Stdio};

/// How often the two kinds of sheets were seen, and how often a whole one of a file that is not typed as the die has it.
#[derive(Default)]
struct Sheets {
    whole: usize,
    refused: usize,
    folded: usize,
}

impl Sheets {
    fn count(&mut self, sheet: &[u8], files: &[&[u8]]) {
        match sheet.starts_with(b"REFUSED") {
            true => self.refused += 1,
            false => {
                self.whole += 1;
                self.folded += usize::from(files.iter().any(|file| has_other_forms(file)));
            }
        }
    }

    fn assert_from(&self, whole: usize, refused: usize, folded: usize) {
        let met = [self.whole, self.refused, self.folded];
        assert!(met[0] > whole && met[1] > refused && met[2] > folded, "{met:?}");
    }
}

fn program(name: &str) -> Command {
    let path = Path::new(env!("CARGO_MANIFEST_DIR"))
        .join("../../crates")
        .join(name)
        .join("out")
        .join(name);
    assert!(
        path.exists(),
        "crates/{name}/out/{name} is missing: run `rt run` in crates/{name}"
    );
    Command::new(path)
}

fn composed(file: &[u8]) -> Vec<u8> {
    let (input, output) = (Stdio::piped(), Stdio::piped());
    let mut child = program("compose")
        .stdin(input)
        .stdout(output)
        .spawn()
        .expect("compose runs");
    // A program that has read enough may close its input before all is written.
    let _ = child.stdin.take().expect("its input").write_all(file);
    child.wait_with_output().expect("compose ends").stdout
}

/// A folder of this test's own.
fn folder(name: &str) -> PathBuf {
    let path = std::env::temp_dir().join(format!("kotsghane-{name}-{}", std::process::id()));
    fs::create_dir_all(&path).expect("a folder");
    path
}

fn found(folder: &Path, file: &[u8], text: &[u8]) -> Vec<u8> {
    fs::write(folder.join("TRAY.TXT"), file).expect("a tray file");
    fs::write(folder.join("TEXT.TXT"), text).expect("a text file");
    program("find").current_dir(folder).output().expect("find runs").stdout
}

/// A tray file: whole, damaged, of a tray that is turned back, or with bytes that are no signs; two of five of each kind as
/// readers type them.
fn file(chance: &mut Chance, n: usize) -> Vec<u8> {
    let most = [12, 60, 200][n / 4 % 3];
    let mut all = match n % 5 {
        0 | 1 => {
            let signs = many_forms(chance, most, MAX_SLIP);
            typed_slips(chance, &signs)
        }
        _ => valid(chance, most, MAX_SLIP),
    };
    let (i, k) = (chance.below(all.len()), chance.below(2));
    match n % 4 {
        0 => return tray_file(&all),
        1 => all[i].extend(chance.word(b"AB.", MAX_SLIP * k)),
        2 => all[i][0] = chance.one(BAD_IN_FILES),
        _ => return damaged_file(chance, &all, BLOTS[n / 4 % BLOTS.len()]),
    }
    tray_file(&all)
}

#[test]
fn compose_prints_the_sheet() {
    let (mut chance, mut sheets) = (Chance::new(201), Sheets::default());
    for n in 0..1_000 {
        let file = file(&mut chance, n);
        let sheet = compose_sheet(&file);
        assert!(
            composed(&file) == sheet,
            "the sheet of {:?}",
            String::from_utf8_lossy(&file)
        );
        sheets.count(&sheet, &[&file]);
    }
    sheets.assert_from(300, 300, 200);
}

/// Files stored where a slip could have more letters, as the die has them or as readers type them: those with a slip over
/// the limit give 3 with the lowest, and the others are composed.
#[test]
fn compose_reads_stored_files() {
    let (mut chance, mut sheets) = (Chance::new(203), Sheets::default());
    for n in 0..400 {
        let mut all = stored(&mut chance, [4, 12, 200][n % 3]);
        if n % 2 == 0 {
            all = typed_slips(&mut chance, &all);
        }
        let (file, too_long) = (tray_file(&all), all.iter().position(|slip| slip.len() > MAX_SLIP));
        let sheet = composed(&file);
        match too_long {
            Some(i) => assert_eq!(sheet, format!("REFUSED   3{:6}\n", i + 1).as_bytes()),
            None => assert!(sheet == compose_sheet(&file), "the sheet of {all:?}"),
        }
        sheets.count(&sheet, &[&file]);
    }
    sheets.assert_from(150, 150, 50);
}

#[test]
fn compose_reads_long_files() {
    let line = |n: usize| format!("{n:4}   0 \n");
    let many: String = (1..=1_700).map(line).collect();
    for size in [16_380, 16_383, 16_384, 16_385, 17_000] {
        let file = &many.as_bytes()[..size];
        assert!(composed(file) == compose_sheet(file), "{size} bytes");
    }
}

/// A tray file with sides: whole, with slips that come back on another side, or with another byte in column 9, with a slip of
/// too many letters or a byte that is no sign, or damaged; half of them as readers type them.
fn sided(chance: &mut Chance, n: usize) -> Vec<u8> {
    let all = many_forms(chance, [6, 12, 60, 200][n % 4], MAX_SLIP);
    let small = valid(chance, 12, 10);
    let tray = match n % 8 {
        0 => echoed(chance, Echo::Equal, &small, 6),
        1 => echoed(chance, Echo::Part, &small, 6),
        _ => any_sides(chance, &all),
    };
    let letters: Vec<Vec<u8>> = tray.slips().iter().map(|slip| slip.to_vec()).collect();
    let letters = if n % 2 == 0 {
        typed_slips(chance, &letters)
    } else {
        letters
    };
    let mut slips: Vec<(u8, Vec<u8>)> = tray.sides.iter().copied().zip(letters).collect();
    let at = chance.below(slips.len());
    match n % 8 {
        5 => slips[at].0 = chance.one(NO_SIDES),
        6 if n % 16 == 6 => slips[at].1 = chance.word(b"AB", MAX_SLIP + 1),
        6 => spoil(chance, &mut slips[at].1, 1),
        7 => return blotted(chance, &sided_file(&slips), BLOTS[n / 8 % BLOTS.len()]),
        _ => {}
    }
    sided_file(&slips)
}

/// A sheet for each side that has slips, or one line.
#[test]
fn compose_prints_a_sheet_for_each_side() {
    for (file, sheet) in SHEETS {
        assert_eq!(String::from_utf8_lossy(&composed(file.as_bytes())), *sheet);
    }
    let (mut chance, mut sheets, mut heads) = (Chance::new(204), Sheets::default(), [0; 4]);
    for n in 0..1_000 {
        let file = sided(&mut chance, n);
        let (sheet, printed) = (compose_sheet(&file), composed(&file));
        assert!(printed == sheet, "the sheets of {:?}", String::from_utf8_lossy(&file));
        sheets.count(&sheet, &[&file]);
        let lines = printed.split(|&byte| byte == b'\n');
        heads[lines.filter(|line| line.starts_with(b"TRAY ")).count()] += 1;
    }
    sheets.assert_from(600, 200, 300);
    assert!(
        heads.iter().all(|&count| count > 50),
        "files by how many sheets: {heads:?}"
    );
}

/// `find` reads files with sides, and looks for all slips: what it prints is what it prints of the same slips without sides.
#[test]
fn find_takes_no_sides() {
    let (mut chance, mut sheets, folder) = (Chance::new(205), Sheets::default(), folder("sides"));
    let (file, text, sheet) = FOUND;
    assert_eq!(found(&folder, file.as_bytes(), text.as_bytes()), sheet.as_bytes());
    for n in 0..500 {
        let file = sided(&mut chance, n);
        let all = valid(&mut chance, 20, 20);
        let text = text_for(&mut chance, n, &all, n % 2 == 0);
        let sheet = find_sheet(&file, &text);
        assert!(
            found(&folder, &file, &text) == sheet,
            "the sheet of {:?}",
            String::from_utf8_lossy(&file)
        );
        sheets.count(&sheet, &[&file, &text]);
        let slips = any_sides(&mut chance, &all);
        let slips: Vec<(u8, &[u8])> = slips.sided_slips().iter().map(|x| (x.side, x.letters)).collect();
        assert_eq!(
            found(&folder, &sided_file(&slips), &text),
            found(&folder, &tray_file(&all), &text)
        );
    }
    fs::remove_dir_all(folder).expect("the folder goes");
    sheets.assert_from(150, 150, 100);
}

/// The n-th text for these slips: every fourth has a length near the limit or bytes that are no signs.
fn text_for(chance: &mut Chance, n: usize, all: &[Vec<u8>], as_typed: bool) -> Vec<u8> {
    let letters = [chance.below(100), chance.below(2_001)][n / 8 % 2];
    let mut made = match n % 8 {
        0 | 1 => damaged_text(chance, all, n % 16 < 8, 0),
        _ => text(chance, all, letters),
    };
    if as_typed {
        made = typed(chance, &made);
    }
    if n % 8 < 2 {
        spoil(chance, &mut made, n % 3);
    }
    let ends: [&[u8]; 4] = [b"", b"\n", b"\n\n", b"\r\n"];
    made.extend_from_slice(ends[[0, 1, 1, n % 4][n / 2 % 4]]);
    made
}

#[test]
fn find_prints_the_sheet() {
    let (mut chance, mut sheets, folder) = (Chance::new(202), Sheets::default(), folder("find"));
    for n in 0..1_000 {
        // Whether readers type the tray, and the text.
        let (tray_typed, text_typed) = match n % 7 {
            0 => (true, false),
            1 => (false, true),
            2 => (true, true),
            _ => (false, false),
        };
        let all = match tray_typed || text_typed {
            true => many_forms(&mut chance, 20, 20),
            false => valid(&mut chance, 20, 20),
        };
        let text = text_for(&mut chance, n, &all, text_typed);
        let file = match n % 5 {
            0 => file(&mut chance, n / 5),
            _ if tray_typed => tray_file(&typed_slips(&mut chance, &all)),
            _ => tray_file(&all),
        };
        let sheet = find_sheet(&file, &text);
        let told = String::from_utf8_lossy(&file);
        assert!(found(&folder, &file, &text) == sheet, "the sheet of {told:?}");
        sheets.count(&sheet, &[&file, &text]);
    }
    fs::remove_dir_all(folder).expect("the folder goes");
    sheets.assert_from(300, 200, 200);
}
