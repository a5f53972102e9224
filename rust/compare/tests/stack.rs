//! Every function answers in a thread with the smallest stack that the system gives, whatever it is given, and takes at most
//! 16 KB of it. On x86-64 the stack is no longer than that. The list of starts has a longer stack: there the call by itself
//! takes at most 16 KB, the list that it returns aside.
#[path = "../../sdp/tests/c/mod.rs"]
mod c;
#[path = "../../sdp/tests/page/mod.rs"]
mod page;
use generate::hostile;
use std::collections::{BTreeMap, BTreeSet};

/// Bytes of stack that a call may take, with what a thread needs; for the list of starts without that.
const SMALL: usize = 16_384;

/// The functions that the archive exports, by its source.
fn exported() -> BTreeSet<String> {
    let source = page::file("crates/sdp_c/src/lib.rt");
    let behind = source.split("extern \"C\" fn ").skip(1);
    behind.map(|rest| rest.split('(').next().unwrap().to_string()).collect()
}

#[test]
fn every_function_answers_on_a_small_stack() {
    let program = c::compiled("rust/compare/tests/c/stack.c", "stack");
    let texts = hostile::texts();
    let mut most: BTreeMap<String, (usize, &str)> = BTreeMap::new();
    for hostile in &texts {
        let name = &hostile.name;
        let run = c::run(&program, &[], &hostile.text);
        let said = String::from_utf8(run.stdout).unwrap();
        let last = said.lines().last().unwrap_or("");
        assert!(run.status.success(), "{name}: {last}needs more than 16 KB of stack, or fails: {}", run.status);
        let mut answers = BTreeMap::new();
        let calls = || said.lines().map(|line| line.split(' ').collect::<Vec<_>>());
        let size = |words: &[&str]| words[2].parse::<usize>().unwrap();
        let thread = calls().map(|words| size(&words)).min().unwrap(); // of a function that takes next to nothing
        for words in calls() {
            let answer = words[1].parse::<u64>().unwrap();
            let used = size(&words) - if words[0] == "sdp_starts" { thread } else { 0 };
            assert!(used <= SMALL, "{name}: {} takes {used} bytes of stack", words[0]);
            answers.entry(words[0]).or_insert(answer);
            let most = most.entry(words[0].into()).or_default();
            if used > most.0 {
                *most = (used, name);
            }
        }
        assert_eq!(answers.keys().map(|name| name.to_string()).collect::<BTreeSet<_>>(), exported(), "{name}");
        // these go as deep as they should
        match &name[..] {
            "full" => {
                assert_eq!((answers["sdp_read"], answers["sdp_letter_order"]), (0, 1));
                assert_eq!((answers["sdp_length"], answers["sdp_fill"]), (0, 0));
            }
            "starts" => assert_eq!((answers["sdp_read"], answers["sdp_starts"]), (0, 1_256)), // 1,000 and their count
            "starts-without-end" => assert_eq!((answers["sdp_read"], answers["sdp_starts"]), (0, 29)),
            "first-t" | "times-and-repeats" | "times-and-zones" => assert_eq!(answers["sdp_letter_order"], 1),
            "over-the-limit" => assert_eq!((answers["sdp_read"], answers["sdp_letter_order"]), (1, 0)),
            _ => (),
        }
    }
    println!("stack: {} texts; the most that was used of {SMALL} bytes", texts.len());
    println!("(with what a thread needs, but not for sdp_starts):");
    for (function, (used, text)) in most {
        println!("{function} {used} ({text})");
    }
}
