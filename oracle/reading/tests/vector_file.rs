//! The stored cases: a changed answer is found, and a damaged file is told
//! from a whole one without falling over.

use std::path::{Path, PathBuf};
use std::process::Command;

use reading::Rng;
use reading::replay::replay;
use reading::vectors::{Case, Verdict, read_cases};

fn stored_path() -> PathBuf {
    Path::new(env!("CARGO_MANIFEST_DIR")).join("../../vectors/vectors.txt")
}

fn stored() -> Vec<u8> {
    std::fs::read(stored_path()).expect("the stored cases are there")
}

fn text_of(lines: &[String]) -> Vec<u8> {
    lines
        .iter()
        .flat_map(|line| format!("{line}\n").into_bytes())
        .collect()
}

#[test]
fn what_is_written_is_read() {
    let cases = read_cases(&stored()).expect("whole");
    for case in &cases {
        assert_eq!(read_cases(&text_of(&case.lines())), Ok(vec![case.clone()]));
    }
    let refusals = |case: &&Case| matches!(case.verdict, Verdict::Refused(_));
    assert!(cases.iter().filter(refusals).count() >= 60);
    assert!(cases.len() >= 200);
}

/// Every answer line of every case, with one number made one larger, differs
/// from what the reading gives.
#[test]
fn a_changed_answer_is_found() {
    let mut rng = Rng::new(30);
    for case in read_cases(&stored()).expect("whole") {
        assert_eq!(replay(&case), Ok(()));
        let lines = case.lines();
        for (place, line) in lines.iter().enumerate() {
            let mut words: Vec<String> = line.split(' ').map(str::to_string).collect();
            // Of the counts, ops and terms are not the reading's to know.
            let known = if words[0] == "c" { 4 } else { words.len() - 1 };
            if !"xnlmpcshegd".contains(&words[0]) || known == 0 {
                continue;
            }
            let word = &mut words[1 + rng.below(known)];
            *word = (word.parse::<u64>().expect("a number") + 1).to_string();
            let mut changed = lines.clone();
            changed[place] = words.join(" ");
            let changed = read_cases(&text_of(&changed)).expect("numbers still");
            assert!(replay(&changed[0]).is_err(), "{line} as {words:?}");
        }
    }
}

#[test]
fn a_missing_tick_line_is_found() {
    for case in read_cases(&stored()).expect("whole") {
        let lines = case.lines();
        for place in 0..lines.len().min(14) {
            let mut fewer = lines.clone();
            fewer.remove(place);
            if lines[place].starts_with('a') {
                continue;
            }
            assert!(read_cases(&text_of(&fewer)).is_err(), "{}", lines[place]);
        }
    }
}

#[test]
fn damaged_files_are_told() {
    let mut rng = Rng::new(31);
    let whole = stored();
    let start = &whole[..whole.len().min(60_000)];
    for _ in 0..3_000 {
        let mut text = start[..rng.below(start.len())].to_vec();
        for _ in 0..rng.below(4) {
            let place = rng.below(text.len().max(1));
            if let Some(byte) = text.get_mut(place) {
                *byte = rng.number().to_le_bytes()[0];
            }
        }
        if let Ok(cases) = read_cases(&text) {
            cases.iter().for_each(|case| drop(replay(case)));
        }
    }
    let line_of = |text: &[u8]| read_cases(text).map_err(|bad| bad.line);
    assert_eq!(line_of(b""), Err(1));
    assert_eq!(line_of(b"# nothing\n"), Err(2));
    assert_eq!(line_of(b"b 02 00 01 00\n"), Err(2));
    assert_eq!(line_of(b"b\nx 1 0 0"), Err(2));
    assert_eq!(line_of(b"b\nx 1 0\n"), Err(2));
    assert_eq!(line_of(b"b\nx 1  0 0\n"), Err(2));
    assert_eq!(line_of(b"b\nx 1 0 0 \n"), Err(2));
    assert_eq!(line_of(b"b\nx 01 0 0\n"), Err(2));
    assert_eq!(line_of(b"b\nx 1 0 99999999999999999999\n"), Err(2));
    assert_eq!(line_of(b"b 2\nx 1 0 0\n"), Err(1));
    assert_eq!(line_of(b"b\nx 1 0 0\n\n"), Err(3));
    assert_eq!(line_of(b"x 1 0 0\n"), Err(1));
    let long = [b"b".as_slice(), &b" 00".repeat(400), b"\n"].concat();
    assert_eq!(line_of(&long), Err(1));
    assert!(line_of(b"b\nx 1 0 0\n").is_ok());
}

fn exit_code(program: &str, arguments: &[&str]) -> Option<i32> {
    let output = Command::new(program).args(arguments).output();
    output.expect("the program runs").status.code()
}

/// The programs' exit codes: 0, 1 for a refusal or a difference, 2 for what
/// cannot be read.
#[test]
fn the_programs_never_fall_over() {
    let read = env!("CARGO_BIN_EXE_read");
    assert_eq!(exit_code(read, &["02", "00", "01", "00"]), Some(0));
    assert_eq!(exit_code(read, &["02 00 0B 00"]), Some(1));
    assert_eq!(exit_code(read, &[""]), Some(1));
    assert_eq!(exit_code(read, &["2"]), Some(2));
    assert_eq!(exit_code(read, &["zz"]), Some(2));

    let replay = env!("CARGO_BIN_EXE_replay");
    let file = |name: &str, text: &[u8]| {
        let path = Path::new(env!("CARGO_TARGET_TMPDIR")).join(name);
        std::fs::write(&path, text).expect("written");
        exit_code(replay, &[&path.to_string_lossy()])
    };
    assert_eq!(
        exit_code(replay, &[&stored_path().to_string_lossy()]),
        Some(0)
    );
    assert_eq!(exit_code(replay, &[]), Some(2));
    assert_eq!(exit_code(replay, &["no such file"]), Some(2));
    assert_eq!(file("damaged.txt", b"b 00\nx 1\n"), Some(2));
    assert_eq!(file("binary.txt", &[0xFF; 40]), Some(2));
    assert_eq!(file("changed.txt", b"b\nx 1 1 0\n"), Some(1));
    assert_eq!(file("taken.txt", b"b 02 00 01 00\nx 1 1 0\n"), Some(1));
    let strange = b"b 02 00 01 00\nn 1 0\nl 0\nm\np 0\nc 1 0 1 4 0 5\n\
        f 0 0\nk\nr 0\ns 0\nh 0\ne 0\ng 0\nd\n";
    assert_eq!(file("strange.txt", strange), Some(1));
}
