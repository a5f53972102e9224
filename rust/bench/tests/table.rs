//! The tables and the check of the direction, on costs made by hand.
use bench::cost::{costs, counts, geometric_mean, rows};
use bench::order;
use bench::sides::Work;
use bench::starts::{self, Case};
use bench::table::{direction, growth, short, texts};
use bench::two;

const GOOD: &str = "\
nothing 0 none none 3
known 0 none none 20005
a 10 read ours 13
a 10 write ours 403
a 10 both ours 413
b 20 read ours 53
b 20 write ours 53
b 20 both ours 103
c 30 read ours 503
a 10 read crate 23
a 10 write crate 203
a 10 both crate 1003
b 20 read crate 103
b 20 write crate 203
b 20 both crate 303
c 30 read crate 103
a 10 length ours 83
a 10 exact ours 153
b 20 length ours 23
b 20 exact ours 103
";

#[test]
fn ratios_and_means() {
    let counts = counts(GOOD).unwrap();
    let reading = rows(&counts, Work::Read).unwrap();
    let seen: Vec<(&str, f64, f64, bool)> =
        reading.iter().map(|row| (row.name.as_str(), row.ours, row.theirs, row.accepted)).collect();
    assert_eq!(seen, [("a", 10.0, 20.0, true), ("b", 50.0, 100.0, true), ("c", 500.0, 100.0, false)]);
    let mean = geometric_mean(reading.iter()).unwrap();
    assert!((mean - 1.25f64.cbrt()).abs() < 1e-12, "{mean}");
    assert_eq!(geometric_mean([].iter()), None);
    // of writing the ratios are 2 and 1/4
    let mean = geometric_mean(rows(&counts, Work::Write).unwrap().iter()).unwrap();
    assert!((mean - 0.5f64.sqrt()).abs() < 1e-12, "{mean}");
}

#[test]
fn what_is_printed() {
    let counts = counts(GOOD).unwrap();
    let timed = costs(&GOOD.lines().skip(2).collect::<Vec<_>>().join("\n")).unwrap();
    for table in [texts(&counts, None).unwrap(), texts(&counts, Some(&timed)).unwrap()] {
        assert!(table.contains("geometric mean, accepted"), "{table}");
        assert!(table.contains("2 texts; ratio not below 1: 1"), "{table}");
        assert!(table.contains("geometric mean, refused"), "{table}");
        assert!(table.lines().all(|line| line.len() <= 100), "{table}");
    }
    let line = "writing              geometric mean 0.707 over 2 accepted texts, highest 2.000 (a)";
    assert!(short(&counts).unwrap().lines().any(|found| found == line), "{}", short(&counts).unwrap());
    let accepted: String = GOOD.lines().filter(|line| !line.starts_with("c ")).map(|line| format!("{line}\n")).collect();
    let grown = growth(&bench::cost::counts(&accepted).unwrap()).unwrap();
    assert!(grown.contains("     10         1.00       2.00"), "{grown}");
    assert!(grown.lines().all(|line| line.len() <= 100), "{grown}");
}

/// Each of the two works beside one filling and beside the crate, by instructions and then by time.
#[test]
fn the_two_calls() {
    let counted = counts(GOOD).unwrap();
    let slower = GOOD.replace("exact ours 153", "exact ours 806");
    let timed = costs(&slower.lines().skip(2).collect::<Vec<_>>().join("\n")).unwrap();
    let head = "writing in two calls beside               ratios of      mean  highest\n";
    let by_instructions = "\
        the length alone     one fill with room   instructions  0.283    0.400 (b)\n\
        the length alone     the crate's writing  instructions  0.200    0.400 (a)\n\
        length, then fill    one fill with room   instructions  0.866    2.000 (b)\n\
        length, then fill    the crate's writing  instructions  0.612    0.750 (a)\n";
    assert_eq!(two::table(&counted, None).unwrap(), head.to_string() + by_instructions);
    let both = two::table(&counted, Some(&timed)).unwrap();
    let by_time = both.strip_prefix(&(head.to_string() + by_instructions)[..]).unwrap();
    assert_eq!(by_time.lines().count(), 4, "{by_time}");
    assert!(by_time.ends_with(" time          1.419    3.970 (a)\n"), "{by_time}");
    assert!(texts(&counted, Some(&timed)).unwrap().ends_with(&format!("\n{both}\n")));
    assert!(short(&counted).unwrap().ends_with(&format!("\n{head}{by_instructions}")));
    // what was refused has none of them, and what was written has each once
    for (from, to, why) in [
        ("b 20 length ours 23\n", "", "no length"),
        ("a 10 exact ours 153\n", "", "no filling"),
        ("b 20 exact ours 103\n", "b 20 exact ours 103\nb 20 exact ours 104\n", "two of them"),
    ] {
        let bad = counts(&GOOD.replace(from, to)).unwrap();
        assert!(texts(&bad, None).is_err() && short(&bad).is_err(), "{why}");
        assert_eq!(direction(&bad).is_err(), !from.contains("length"), "{why}");
    }
}

#[test]
fn the_direction() {
    let of = |lines: &str| direction(&counts(lines).unwrap()).unwrap();
    // writing a costs twice as much; c is refused, and may cost more
    assert_eq!(of(GOOD), ["writing: the geometric mean is 0.707", "writing, a: the ratio is 2.000"]);
    let good = GOOD.replace("a 10 write ours 403", "a 10 write ours 203").replace("b 20 write ours 53", "b 20 write ours 28");
    assert_eq!(of(&good), ["writing, a: the ratio is 1.000"]);
    let good = GOOD.replace("a 10 write ours 403", "a 10 write ours 103");
    assert_eq!(of(&good), [String::new(); 0]);
    let slow_read = good.replace("a 10 read ours 13", "a 10 read ours 23");
    assert_eq!(of(&slow_read), ["reading: the geometric mean is 0.707", "reading, a: the ratio is 1.000"]);
    let slow_both = good.replace("b 20 both ours 103", "b 20 both ours 603");
    assert_eq!(of(&slow_both), ["reading and writing: the geometric mean is 0.906", "reading and writing, b: the ratio is 2.000"]);
    let slow_two = good.replace("a 10 exact ours 153", "a 10 exact ours 203");
    assert_eq!(of(&slow_two), ["length, then fill, a: the ratio is 1.000"]);
    let slow_two = good.replace("b 20 exact ours 103", "b 20 exact ours 253");
    assert_eq!(of(&slow_two), ["length, then fill, b: the ratio is 1.250"]);
    let slow_mean = good.replace("b 20 write ours 53", "b 20 write ours 123");
    assert_eq!(of(&slow_mean), ["writing: the geometric mean is 0.548"]);
    let none: String = GOOD.lines().take(2).map(|line| format!("{line}\n")).collect();
    assert!(direction(&counts(&none).unwrap()).is_err());
}

#[test]
fn bad_counts() {
    for (from, to, why) in [
        ("20005", "19002", "a loop that was counted short"),
        ("20005", "40005", "a loop that was counted twice"),
        ("nothing 0", "something 0", "no count of nothing"),
        ("known 0 none none 20005\n", "", "no loop"),
        ("a 10 read ours 13", "a 10 read ours 3", "no instructions"),
        ("a 10 read ours 13", "a 10 read ours", "no count"),
        ("a 10 read ours 13", "a 10 read ours 1 3", "two counts"),
        ("a 10 read ours 13", "a 10 read ours -13", "a negative count"),
        ("a 10 read ours 13", "a ten read ours 13", "no length"),
    ] {
        assert!(counts(&GOOD.replace(from, to)).is_err(), "{why}");
    }
    assert!(counts("").is_err());
    for (from, to, why) in [
        ("a 10 read crate 23\n", "", "one side only"),
        ("a 10 read ours 13\n", "", "the other side only"),
        ("a 10 read crate 23\n", "a 10 read crate 23\na 10 read crate 24\n", "one side twice"),
    ] {
        assert!(rows(&counts(&GOOD.replace(from, to)).unwrap(), Work::Read).is_err(), "{why}");
    }
}

const LISTS: &str = "\
nothing 0 none none 3
known 0 none none 20005
few 10 read ours 103
few 10 starts ours 203
full-256 4000 read ours 100003
full-256 4000 starts ours 4000003
zones-1 20 read ours 13
zones-1 20 starts ours 2003
";

fn case(name: &str, due: Result<usize, u64>, parts: usize) -> Case {
    Case { name: name.into(), text: b"v=0".to_vec(), window: 0..1, due, parts }
}

#[test]
fn the_lists() {
    let counts = counts(LISTS).unwrap();
    let timed = costs(&LISTS.lines().skip(2).collect::<Vec<_>>().join("\n")).unwrap();
    let cases = [case("few", Ok(7), 8), case("full-256", Err(29), 20_000)];
    let table = starts::table(&cases, &counts, &timed).unwrap();
    let rows: Vec<Vec<&str>> = table.lines().skip(1).map(|line| line.split_whitespace().collect()).collect();
    assert_eq!(rows[0], ["few", "3", "7", "8", "100", "200", "2.00", "25.0", "103", "203", "1.97"]);
    assert_eq!(rows[1][2..8], ["(29)", "20000", "100000", "4000000", "40.00", "200.0"]);
    assert!(table.lines().all(|line| line.len() <= 100), "{table}");
    let grown = starts::growth(&[case("zones-1", Ok(1), 100)], &counts).unwrap();
    assert_eq!(grown.lines().nth(2), Some("      1                         20.00"), "{grown}");
    assert_eq!(grown.lines().count(), 11, "{grown}");
    for (from, to, why) in [
        ("few 10 read ours 103\n", "", "no reading"),
        ("few 10 starts ours 203\n", "", "no list"),
        ("few 10 starts ours 203\n", "few 10 starts ours 203\nfew 10 starts ours 204\n", "two lists"),
    ] {
        let bad = bench::cost::counts(&LISTS.replace(from, to)).unwrap();
        assert!(starts::table(&cases, &bad, &timed).is_err(), "{why}");
    }
    assert!(starts::table(&cases, &counts, &timed[2..]).is_err(), "no time");
    assert!(starts::growth(&[case("zones-2", Ok(1), 100)], &counts).is_err(), "a case that was not counted");
}

#[test]
fn the_most_of_a_list() {
    let counts = counts(LISTS).unwrap();
    let (said, wrong) = starts::held(&case("full-256", Ok(256), 20_000), &counts).unwrap();
    assert_eq!(said, "the list of starts   200.00 instructions for each of 20000 parts\n");
    assert_eq!(wrong, [String::new(); 0]);
    let (_, wrong) = starts::held(&case("full-256", Ok(256), 19_999), &counts).unwrap();
    assert_eq!(wrong, ["the list of starts: 200.01 instructions for each part, and 200 are the most"]);
    assert!(starts::held(&case("full-257", Ok(256), 1), &counts).is_err());
}

const ORDERS: &str = "\
nothing 0 none none 3
known 0 none none 20005
a 10 read ours 103
a 10 order ours 203
b 20 read ours 103
b 20 order ours 53
c 30 read ours 43
c 30 order ours 13
";

#[test]
fn the_orders() {
    let case = |name: &str, in_order| order::Case { name: name.into(), text: Vec::new(), in_order };
    let cases = [case("a", true), case("b", true), case("c", false)];
    let table = order::table(&cases, &counts(ORDERS).unwrap()).unwrap();
    let rows: Vec<String> = table.lines().map(|line| line.split_whitespace().collect::<Vec<_>>().join(" ")).collect();
    let due = [
        "the letter order order reading ratio",
        "in order, least: b 50 100 0.500",
        "in order, most: a 200 100 2.000",
        "in order, geometric mean of 2 texts 1.000",
        "out of order, least: c 10 40 0.250",
        "out of order, most: c 10 40 0.250",
        "out of order, geometric mean of 1 texts 0.250",
    ];
    assert_eq!(rows, due);
    assert!(table.lines().all(|line| line.len() <= 100), "{table}");
    for (from, to, why) in [
        ("a 10 read ours 103\n", "", "no reading"),
        ("c 30 order ours 13\n", "", "no order"),
        ("b 20 order ours 53\n", "b 20 order ours 53\nb 20 order ours 54\n", "two orders"),
    ] {
        assert!(order::table(&cases, &counts(&ORDERS.replace(from, to)).unwrap()).is_err(), "{why}");
    }
    assert!(order::table(&cases[..2], &counts(ORDERS).unwrap()).is_err(), "no text out of order");
}

#[test]
fn the_orders_for_each_byte() {
    let mut lines: Vec<String> = ORDERS.lines().take(2).map(String::from).collect();
    for (each, name) in [(1, "times"), (2, "zones"), (3, "attributes"), (4, "medias")] {
        let sizes = (8..=15).map(|power| 1 << power);
        lines.extend(sizes.map(|size: usize| format!("{name}-{size} {size} order ours {}", each * size + 3)));
    }
    let grown = order::growth(&counts(&lines.join("\n")).unwrap()).unwrap();
    let rows: Vec<Vec<&str>> = grown.lines().skip(2).map(|line| line.split_whitespace().collect()).collect();
    assert_eq!((rows.len(), &rows[0][..]), (8, &["256", "1.00", "2.00", "3.00", "4.00"][..]), "{grown}");
    assert_eq!(rows[7], ["32768", "1.00", "2.00", "3.00", "4.00"], "{grown}");
    assert!(order::growth(&counts(&lines[..lines.len() - 1].join("\n")).unwrap()).is_err(), "a text is missing");
}
