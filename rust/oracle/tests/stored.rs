//! The stored answers of crates/vectors are what std and the crate say today.
use oracle::vectors::{files, inputs, LONGEST, ROOM};
use std::collections::BTreeSet;
use std::fs;

fn stored(name: &str) -> String {
    let path = format!("{}/../../crates/vectors/{name}", env!("CARGO_MANIFEST_DIR"));
    fs::read_to_string(&path).unwrap_or_else(|error| panic!("{path}: {error}"))
}

#[test]
fn stored_answers_are_the_oracles() {
    let (stdin, stdout) = files();
    let stored_in = stored("stdin");
    let differs = stored_in
        .lines()
        .zip(stdin.lines())
        .position(|(stored, due)| stored != due);
    assert!(
        stored_in == stdin,
        "crates/vectors/stdin is not the list (line {differs:?}): make it again by the bin vectors"
    );
    let stored_out = stored("stdout");
    let differs = stored_out
        .lines()
        .zip(stdout.lines())
        .position(|(stored, due)| stored != due);
    assert!(
        stored_out == stdout,
        "crates/vectors/stdout has other answers than the crate (line {differs:?})"
    );
    println!(
        "stored answers: {} inputs, {} answer lines compared",
        stdin.lines().count(),
        stdout.lines().count()
    );
}

#[test]
fn the_list_has_each_kind_and_each_answer() {
    let (stdin, stdout) = files();
    println!(
        "stored answers: {} bytes, inputs have {} of {ROOM}",
        stdin.len() + stdout.len(),
        stdin.len()
    );
    assert!(stdin.len() < ROOM, "the program has no room for the inputs");
    assert!(stdin.len() + stdout.len() < 100_000);
    for (kind, bytes) in inputs() {
        assert!(b"utpndlcrwom".contains(&kind) && bytes.len() <= LONGEST);
    }
    for kind in ["u", "t", "p", "n", "d", "l", "c", "r", "w", "o", "m"] {
        let due = if matches!(kind, "o" | "m") { 12 } else { 40 };
        assert!(
            stdin.lines().filter(|line| line.starts_with(kind)).count() >= due,
            "few of kind {kind}"
        );
    }
    for answer in [
        "t 0",
        "t 1",
        "p 0 ",
        "p 8 0",
        "p 9 0",
        "n 0 ",
        "n 8 0",
        "n 9 0",
        "d 0 ",
        "d 8 0",
        "d 9 0",
        "c 0 0 0 0 0 0",
        "c 1 0 ",
        "c 2 0 ",
        "c 3 3 ",
        "c 3 4 ",
        "c 3 5 ",
        "l 0 0",
        "l 0 1",
        "w 0 0 1 0 0 0 0 40 22 0 0 0 40 0 0 0 0 40",
    ] {
        assert!(
            stdout.lines().any(|line| line.starts_with(answer)),
            "no answer {answer}"
        );
    }
}

/// The numbers of each answer of a kind.
fn answers(kind: &str) -> Vec<Vec<u64>> {
    let (_, stdout) = files();
    let answers = stdout
        .lines()
        .filter_map(|line| line.strip_prefix(kind)?.strip_prefix(' '));
    answers
        .map(|answer| answer.split(' ').map(|number| number.parse().unwrap()).collect())
        .collect()
}

#[test]
fn the_texts_have_each_refusal() {
    let mut numbers = BTreeSet::new();
    let mut pairs = BTreeSet::new();
    for answer in answers("r") {
        assert_eq!(answer.len(), 18);
        assert!(answer[0] == 0 || answer[5..].iter().all(|count| *count == 0));
        assert_eq!(answer[0] == 0, answer[7] > 0, "an accepted text has its version line");
        assert_eq!(answer[3] > 0, matches!(answer[0], 7 | 8), "7 and 8 have a place, and no other");
        numbers.insert(answer[0]);
        if (8..=11).contains(&answer[0]) {
            pairs.insert((answer[0], answer[2]));
        }
    }
    // a text that is too long and an area that is too short have no place in the list, and 19 never occurs
    assert_eq!(numbers, (3..=21).filter(|number| *number != 19).chain([0]).collect());
    assert_eq!(pairs, generate::sessions::PAIRS.into_iter().collect());
}

#[test]
fn each_refusal_is_met_before_writing_too() {
    let numbers: BTreeSet<u64> = answers("w").iter().map(|answer| answer[3]).collect();
    // 0 is the length's
    assert_eq!(numbers, (3..=21).filter(|number| *number != 19).chain([0]).collect());
}

/// Accepted texts with none, one and more of each kind of lines.
#[test]
fn the_texts_have_lines_of_each_kind() {
    let of_w = answers("w").into_iter().map(|answer| (answer[3], answer[..3].to_vec()));
    let of_r = answers("r").into_iter().map(|answer| (answer[0], answer[5..8].to_vec()));
    for counts in [of_w.collect::<Vec<_>>(), of_r.collect()] {
        assert!(counts.iter().all(|(number, lines)| *number == 0 || *lines == [0; 3]));
        let most = |at: usize| counts.iter().map(|(_, lines)| lines[at]).max();
        println!("stored answers: at most {:?} empty, {:?} ignored, {:?} kept lines", most(0), most(1), most(2));
        assert!(most(1) >= Some(5) && most(2) > Some(20));
    }
    let empty = |number: u64| answers("w").iter().any(|answer| answer[3] == 0 && answer[0] == number);
    assert!(empty(0) && empty(2));
}
