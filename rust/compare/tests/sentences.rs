//! docs/REFUSALS.md and the words of the crate `sdp` have the numbers of document 01, and of the requests of document 02
//! that have landed: of the refusals with what each gives, of the fields and of the tables, none less and none more.
#[path = "../../sdp/tests/page/mod.rs"]
mod pages;
use generate::sessions::{fields_of, PAIRS};
use pages::{file, table};
use sdp::words::{Field, FIELDS, SENTENCES, TABLES};
use std::collections::{BTreeMap, BTreeSet};

fn paper() -> String {
    file("../shared/docs/01-scope.md")
}

/// The paragraph of document 01 under a heading that starts with this word.
fn paragraph(heading: &str, start: &str) -> String {
    let paper = paper();
    let under = paper.lines().skip_while(|line| *line != format!("## {heading}")).skip(1);
    let mut found = under.take_while(|line| !line.starts_with('#')).filter(|line| line.starts_with(start));
    let line = found.next().unwrap_or_else(|| panic!("document 01 has a paragraph {start:?} under {heading:?}"));
    assert_eq!(found.next(), None);
    line.to_string()
}

/// The requests that have landed and bring refusals of their own.
const LANDED: [&str; 1] = ["P3"];

/// The paragraph of a request in document 02.
fn request(name: &str) -> String {
    let paper = file("../shared/docs/02-change-requests.md");
    paper.lines().find(|line| line.starts_with(&format!("**{name}."))).expect("a request").to_string()
}

/// The numbers that a request brings, with their words, by its sentence `Refusals, in order: 2, 1, 23 as for writing; 28
/// adjustment times fall; ..`.
fn brought(name: &str) -> Vec<(u64, String)> {
    let paragraph = request(name);
    let (_, list) = paragraph.split_once("Refusals, in order: ").expect("its refusals");
    let items = list.split('.').next().unwrap().split([';', ',']).filter_map(|item| item.trim().split_once(' '));
    let numbered = items.filter_map(|(number, words)| Some((number.parse().ok()?, words.to_string())));
    numbered.filter(|(number, _)| *number > 23).collect()
}

/// The page's rows by their number.
fn rows(heading: &str) -> BTreeMap<u64, Vec<String>> {
    let rows = table("docs/REFUSALS.md", heading);
    let count = rows.len();
    let by_number: BTreeMap<u64, _> = rows.into_iter().map(|row| (row[0].parse().expect("a number"), row)).collect();
    assert_eq!(by_number.len(), count, "each number has one row under {heading}");
    by_number
}

/// What a cell says is given besides the number.
fn given(cell: &str) -> BTreeSet<&'static str> {
    ["line", "field", "place", "length"].into_iter().filter(|word| cell.contains(word)).collect()
}

#[test]
fn refusals() {
    let paper = paper();
    let under = paper.lines().skip_while(|line| *line != "## Refusal numbers");
    let lines = under.skip_while(|line| !line.starts_with('|')).take_while(|line| line.starts_with('|')).skip(2);
    let mut due = BTreeMap::new();
    for line in lines {
        let cells: Vec<&str> = line.trim_matches('|').split('|').map(str::trim).collect();
        for item in cells[0].split(", ") {
            // `12 o` is the number with the letter of its line
            let mut words = item.split(' ');
            let number: u64 = words.next().unwrap().parse().expect("a number");
            let before = due.insert(number, (words.next().map(String::from), given(cells[2])));
            assert_eq!(before, None, "{number} stands once");
        }
    }
    // P2: "Refusal 8 now returns that place besides line and field."
    assert!(request("P2").contains(" Refusal 8 now returns that place besides line and field. "));
    let of_8 = &mut due.get_mut(&8).expect("document 01 has 8").1;
    assert_eq!(*of_8, given("line and field"));
    of_8.extend(given("place"));
    let page = rows("Refusals");
    for (number, words) in LANDED.into_iter().flat_map(brought) {
        assert_eq!(due.insert(number, (None, BTreeSet::new())), None, "{number} stands once");
        let said = words.split(' ').all(|word| page[&number][3].contains(word));
        assert!(said, "{number}: document 02 says {words:?}, the page {:?}", page[&number][3]);
    }
    assert_eq!(page.keys().collect::<Vec<_>>(), due.keys().collect::<Vec<_>>());
    assert_eq!(due.keys().copied().collect::<Vec<_>>(), SENTENCES.map(|(number, _)| number));
    for (number, (letter, gives)) in &due {
        let row = &page[number];
        assert_eq!(given(&row[2]), *gives, "what refusal {number} gives");
        if let Some(letter) = letter {
            assert!(row[3].contains(&format!(" second {letter} line")), "{}", row[3]);
        }
    }
    println!("sentences: {} refusals", due.len());
}

/// What P4 took away keeps its number and its sentence, since an answer may have been kept; the page says so.
#[test]
fn retired() {
    let request = request("P4");
    assert!(request.ends_with("Refusals: 19 never occurs any more; fields 25 and 26 stay reserved."), "{request}");
    let when = &rows("Refusals")[&19][1];
    assert!(when.starts_with("never"), "docs/REFUSALS.md has 19 for: {when}");
    for field in [25, 26] {
        let line = &rows("Fields")[&field][1];
        assert!(line.contains("reserved"), "docs/REFUSALS.md has the field {field} of the line: {line}");
        assert!(PAIRS.iter().all(|pair| pair.1 != field));
    }
}

/// P9 brings no number, and a reason for one; the page says so.
#[test]
fn lines_above_the_limit() {
    assert!(request("P9").ends_with(" Refusals: 23 also for a line above 32,768."), "{}", request("P9"));
    let when = &rows("Refusals")[&23][1];
    assert!(when.contains("line") && when.ends_with(" above 32,768"), "docs/REFUSALS.md has 23 for: {when}");
}

/// `1-6 o in order, 7 o trailing; 8-10 c, ..`: each number with the words behind it.
#[test]
fn fields() {
    let paragraph = paragraph("Refusal numbers", "Fields: ");
    let list = paragraph.trim_start_matches("Fields: ").trim_end_matches('.');
    let mut due: BTreeMap<u64, Vec<String>> = BTreeMap::new();
    for item in list.split([';', ',']).map(str::trim) {
        let (numbers, words) = item.split_once(' ').expect("a number and words");
        let (first, last) = numbers.split_once('-').unwrap_or((numbers, numbers));
        for number in first.parse().unwrap()..=last.parse().unwrap() {
            let words = words.split(' ').map(String::from).collect();
            assert_eq!(due.insert(number, words), None, "field {number} stands once");
        }
    }
    let page = rows("Fields");
    assert_eq!(page.keys().collect::<Vec<_>>(), due.keys().collect::<Vec<_>>());
    assert_eq!(due.len(), FIELDS.len());
    for (number, words) in &due {
        let [_, line, name, _] = &page[number][..] else { panic!("a field has four cells") };
        for word in words {
            let fits = match &word[..] {
                "trailing" => name.starts_with("what follows "),
                "in" | "order" => true,
                "num-ports" => name == "the number of ports",
                "fmt" => name.ends_with("formats"),
                letter if letter.len() == 1 => line.split(' ').next() == Some(letter),
                word => name.contains(word) || line.contains(word),
            };
            assert!(fits, "field {number}: document 01 says {words:?}, the page {line:?} and {name:?}");
        }
    }
    println!("sentences: {} fields", due.len());
}

#[test]
fn tables() {
    let paragraph = paragraph("Tables", "1 emails");
    let list = paragraph.split('.').next().unwrap();
    let due: Vec<(u64, String)> = list
        .split(';')
        .map(|item| {
            let words: Vec<&str> = item.split_whitespace().collect();
            (words[0].parse().unwrap(), words[words.len() - 1].to_string())
        })
        .collect();
    let page: Vec<(u64, String)> = rows("Tables").into_iter().map(|(number, row)| (number, row[2].clone())).collect();
    assert_eq!(page, due);
    assert_eq!(due.len(), TABLES.len());
}

/// Of the pairs of a number and a field that there are, the page says what is so.
#[test]
fn pairs() {
    let with = |number: u64| fields_of(number).into_iter().map(|field| field as usize).collect::<BTreeSet<_>>();
    let named = |test: fn(&Field) -> bool| {
        let numbers = (1..=FIELDS.len()).filter(|number| test(&FIELDS[number - 1]));
        numbers.collect::<BTreeSet<_>>()
    };
    assert_eq!(named(|field| !field.form.is_empty()), with(9), "9 has a form for each of its fields, and no other");
    assert_eq!(named(|field| field.name.starts_with("what follows ")), with(11));
    assert_eq!(with(11).into_iter().collect::<Vec<_>>(), [7, 11, 14, 17]);
    let of_29: Vec<u64> = PAIRS.iter().filter(|pair| pair.1 == 29).map(|pair| pair.0).collect();
    assert_eq!(of_29, [8]);
}
