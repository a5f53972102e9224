//! The declarations for C (c/sdp.h) and for Rust (src/ffi.rs) are those of the archive's source.
mod c;
mod page;
use page::{fields, file, path, table};
use sdp::{ffi, Area, LONGEST, MOST_STARTS, ROOM};
use std::collections::{BTreeMap, BTreeSet};
use std::process::Command;

/// A function's name, the types and names of its parameters, and its answer, as the source has them.
struct Function {
    name: String,
    parameters: Vec<(String, String)>,
    answer: String,
}

fn one_space(text: &str) -> String {
    text.split_whitespace().collect::<Vec<_>>().join(" ")
}

/// `name: type, name: type` as pairs.
fn named(list: &str) -> Vec<(String, String)> {
    let items = list.split(',').map(str::trim).filter(|item| !item.is_empty());
    let pair = |item: &str| {
        let (name, kind) = item.split_once(':').unwrap_or_else(|| panic!("{item:?} has a type"));
        (name.trim().trim_start_matches("pub ").to_string(), kind.trim().to_string())
    };
    items.map(pair).collect()
}

/// What stands behind each `start`, up to the first of `ends`.
fn found<'a>(text: &'a str, start: &str, ends: &[char]) -> Vec<&'a str> {
    text.split(start).skip(1).map(|rest| rest.split(ends).next().unwrap()).collect()
}

/// `name(name: type, ..) -> type`, with or without the arrow.
fn function(signature: &str) -> Function {
    let (name, rest) = signature.split_once('(').unwrap();
    let (parameters, answer) = rest.rsplit_once(')').unwrap();
    Function {
        name: name.trim().to_string(),
        parameters: named(parameters),
        answer: answer.trim().trim_start_matches("->").trim().to_string(),
    }
}

/// All that the archive exports.
fn exported() -> Vec<Function> {
    let source = file("crates/sdp_c/src/lib.rt");
    // a contract follows the signature on a line of its own
    let signatures = source.split("pub extern \"C\" fn ").skip(1).map(|rest| {
        let end = rest.find("\n    ensures").or(rest.find("\n{")).expect("a contract or a body");
        function(&one_space(&rest[..end]))
    });
    let all: Vec<Function> = signatures.collect();
    assert_eq!(source.matches("extern \"C\"").count(), all.len(), "every export is found");
    assert!(!all.is_empty());
    all
}

/// `ffi::fill_spare` lends memory that was not set. So in the crates that are lent an output a byte of it stands only where
/// it is stored, and nothing else is asked of it than its length. The output is the field `bytes` of `Out`: `sdp_put` alone
/// names it, and hands it on as `out` to functions of its own, but where `fill` makes an `Out` of what it is lent, and asks for
/// its length before, and where a line of `sdp_row` makes an `Out` of its `own` of the one that it is lent.
#[test]
fn no_output_is_read() {
    let (mut stores, mut made, mut parts) = (0, 0, [0; 3]);
    for name in ["sdp_put", "sdp_row", "sdp_table_row", "sdp_tables", "sdp_write"] {
        let mut opened = String::new();
        for line in file(&format!("crates/{name}/src/lib.rt")).lines().map(str::trim) {
            if ["//", "ghost ", "ensures ", "requires ", "use "].iter().any(|start| line.starts_with(start)) {
                continue;
            }
            let stored = usize::from(line.starts_with("out[") && line.contains("] = "));
            let handed = line.matches("_at(self.bytes, self.at, ").count()
                + ["n", "s.len()"].iter().filter(|n| line.starts_with(&format!("copy(&mut self.bytes[at..at + {n}], "))).count();
            let field = usize::from(line == "pub bytes: &'a mut [u8],");
            let lent = usize::from(line == "let mut out = Out { bytes: out, at: 0 };");
            let lengths = line.matches("self.bytes.len()").count();
            let owned = ["let mut own = Out {", "bytes: out.bytes,", "out.at = own.at;"].map(|part| usize::from(line == part));
            let others = line.matches("bytes").count() - handed - field - lent - lengths - 2 * owned[1];
            let methods = ["byte", "two", "all", "text", "number", "time", "offset"];
            let called =
                |lent: &str| methods.iter().map(|method| line.matches(&format!("{lent}.{method}(")).count()).sum::<usize>();
            let read = ["out.at", "out.len()"].iter().map(|asked| line.matches(asked).count()).sum::<usize>();
            let asked = line.matches("out.").count() - called("out") - read - owned[1];
            let known = called("own") + line.matches("(&mut own, ").count() + owned[0] + owned[2];
            let words = line.split(|c: char| !c.is_alphanumeric() && c != '_').filter(|word| *word == "own").count();
            assert!(words == known && (name == "sdp_row" || words + owned[1] == 0), "{name}: {line}");
            let places = line.matches("out[").count() - stored;
            assert_eq!((others, asked, places), (0, 0, 0), "{name}: {line}");
            assert!(!line.contains("&out") && (name == "sdp_put" || stored + handed + field == 0), "{name}: {line}");
            if name == "sdp_put" {
                // a call that the formatter breaks hands `out` on where it opens
                let line = format!("{opened}{line}");
                opened = if line.ends_with('(') { line } else { assert_outs(&line) };
            }
            stores += stored;
            made += lent;
            parts = [0, 1, 2].map(|k| parts[k] + owned[k]);
        }
    }
    assert_eq!((stores, made), (1 + 4 + 8 + 1, 1), "one byte, four digits, eight bytes, a byte of a short string; in fill");
    assert_eq!(parts, [3; 3], "lines of one string, c and m lines: made of the lent one, whose place is set at the end");
}

/// In `sdp_put` every word `out` is a parameter that can be stored to, its length, a store, or what one of the functions with
/// such a parameter is lent.
fn assert_outs(line: &str) -> String {
    let words = line.split(|c: char| !c.is_alphanumeric() && c != '_').filter(|word| *word == "out").count();
    let lent = "byte_at two_at kept_at clean_at put4 four_at short_at number_at store8 copy_each copy_eights copy";
    let calls: usize = lent.split(' ').map(|name| line.matches(&format!("{name}(out,")).count()).sum();
    let known = calls
        + line.matches("(out: &mut [u8], ").count()
        + line.matches("out.len()").count()
        + usize::from(line.starts_with("out[") && line.contains("] = "));
    assert_eq!(words, known, "sdp_put: {line}");
    String::new()
}

/// The fields of a struct that crosses to C, by the source: u64, arrays of it, or another such struct.
fn source_fields(name: &str) -> Vec<(String, String)> {
    let head = format!("\npub struct {name} {{");
    let mut all = Vec::new();
    for crate_name in ["sdp_answers", "sdp_counts", "sdp_lines", "sdp_order", "sdp_read", "sdp_starts"] {
        let source = file(&format!("crates/{crate_name}/src/lib.rt"));
        for (at, _) in source.match_indices(&head) {
            let mut attributes = source[..at].lines().rev().take_while(|line| line.starts_with("#["));
            if attributes.any(|line| line == "#[repr(C)]") {
                all.push(named(source[at + head.len()..].split('}').next().unwrap()));
            }
        }
    }
    assert_eq!(all.len(), 1, "the source has one struct {name}");
    all.remove(0)
}

/// The struct's name outside of the source: the letter order's answer has another one there.
fn outside(name: &str) -> &str {
    if name == "Verdict" {
        "Order"
    } else {
        name
    }
}

/// The structs that functions answer with, and those that stand in these.
fn structs() -> BTreeSet<String> {
    let mut due: Vec<String> = exported().into_iter().map(|function| function.answer).collect();
    let mut all = BTreeSet::new();
    while let Some(kind) = due.pop() {
        if kind.starts_with(char::is_uppercase) {
            due.extend(source_fields(&kind).into_iter().map(|(_, kind)| kind));
            all.insert(kind);
        }
    }
    all
}

/// The header without its comments and without the preprocessor's lines.
fn header() -> String {
    let text = file("c/sdp.h");
    let mut plain = String::new();
    let mut rest = &text[..];
    while let Some((before, after)) = rest.split_once("/*") {
        plain += before;
        rest = after.split_once("*/").expect("a comment ends").1;
    }
    plain += rest;
    plain.lines().filter(|line| !line.starts_with('#')).map(|line| format!("{line}\n")).collect()
}

/// A field of a struct in C: an array has its length behind its name.
fn field_in_c(name: &str, kind: &str) -> String {
    match kind.strip_prefix('[').and_then(|kind| kind.strip_suffix(']')).and_then(|kind| kind.split_once("; ")) {
        Some((kind, len)) => format!("{}{name}[{len}]", in_c(kind)),
        None => in_c(kind) + name,
    }
}

fn in_c(kind: &str) -> String {
    match kind {
        "usize" => "size_t ".into(),
        "u64" => "uint64_t ".into(),
        "bool" => "bool ".into(),
        _ => format!("struct sdp_{} ", outside(kind).to_lowercase()),
    }
}

#[test]
fn c_has_the_source_s_functions() {
    let prototype = |function: Function| {
        let mut parameters = Vec::new();
        for (name, kind) in &function.parameters {
            match &kind[..] {
                "&[u8]" => parameters.extend([format!("const uint8_t *{name}"), format!("size_t {name}_len")]),
                "&mut [u8]" => parameters.extend([format!("uint8_t *{name}"), format!("size_t {name}_len")]),
                _ => parameters.push(in_c(kind) + name),
            }
        }
        let parameters = if parameters.is_empty() { "void".into() } else { parameters.join(", ") };
        format!("{}{}({parameters})", in_c(&function.answer), function.name)
    };
    let due: BTreeSet<String> = exported().into_iter().map(prototype).collect();
    let header = header();
    let statements = header.split([';', '{', '}']).map(one_space).filter(|statement| statement.contains('('));
    let declared: Vec<String> = statements.collect();
    assert_eq!(declared.len(), due.len(), "{declared:#?}");
    assert_eq!(declared.into_iter().collect::<BTreeSet<_>>(), due);
    println!("header: {} functions", due.len());
}

#[test]
fn c_has_the_source_s_structs() {
    let header = header();
    let heads = header.lines().filter(|line| line.starts_with("struct sdp_") && line.ends_with('{')).count();
    assert_eq!(heads, structs().len(), "the header has no other structs");
    assert!(structs().contains("Counts"), "one that stands in another is found");
    for name in structs() {
        let bodies = found(&header, &format!("{}{{", in_c(&name)), &['}']);
        assert_eq!(bodies.len(), 1, "the header has one struct for {name}");
        let body = bodies[0].replace("SDP_MOST_STARTS", &MOST_STARTS.to_string());
        let fields: Vec<String> = body.split(';').map(one_space).filter(|field| !field.is_empty()).collect();
        let due: Vec<String> = source_fields(&name).iter().map(|(field, kind)| field_in_c(field, kind)).collect();
        assert_eq!(fields, due, "{name}");
    }
}

#[test]
fn rust_has_the_source_s_functions_and_structs() {
    let text = file("rust/sdp/src/ffi.rs");
    let block = text.split("extern \"C\" {").nth(1).expect("one block of declarations");
    let block = block.split("    }\n").next().unwrap();
    let types = |function: Function| {
        let kinds = function.parameters.into_iter().map(|(_, kind)| kind).collect::<Vec<_>>();
        (function.name, (kinds, outside(&function.answer).to_string()))
    };
    let declared = found(block, "pub fn ", &[';']).into_iter().map(|text| types(function(&one_space(text))));
    let declared: BTreeMap<_, _> = declared.collect();
    let due: BTreeMap<_, _> = exported()
        .into_iter()
        .map(|mut function| {
            let pair = |kind: String| match &kind[..] {
                "&[u8]" => vec!["*const u8".to_string(), "usize".into()],
                "&mut [u8]" => vec!["*mut u8".to_string(), "usize".into()],
                _ => vec![kind],
            };
            let kinds = function.parameters.drain(..).flat_map(|(_, kind)| pair(kind));
            function.parameters = kinds.map(|kind| (String::new(), kind)).collect();
            types(function)
        })
        .collect();
    assert_eq!(declared, due);
    let plain: String = text.lines().filter(|line| !line.trim_start().starts_with("///")).collect();
    for name in structs() {
        let bodies = found(&plain, &format!("pub struct {} {{", outside(&name)), &['}']);
        assert_eq!(bodies.len(), 1, "ffi.rs has one struct for {name}");
        let body = bodies[0].replace("MOST_STARTS", &MOST_STARTS.to_string());
        assert_eq!(named(&body), source_fields(&name), "{name}");
    }
}

/// The header's constants: `NAME = number`.
fn constants() -> BTreeMap<String, usize> {
    let header = header();
    let all = header.split([',', '{', '}']).filter_map(|item| item.split_once(" = "));
    all.map(|(name, value)| (name.trim().to_string(), value.trim().parse().expect("a number"))).collect()
}

#[test]
fn the_constants() {
    let mut constants = constants();
    let mut take = |name: &str| constants.remove(name).unwrap_or_else(|| panic!("sdp.h has a constant {name}"));
    assert_eq!((take("SDP_AREA_SIZE"), ffi::area_size()), (Area::SIZE, Area::SIZE));
    assert_eq!(take("SDP_LONGEST"), LONGEST);
    assert_eq!(take("SDP_ROOM"), ROOM);
    assert_eq!(take("SDP_MOST_STARTS"), MOST_STARTS);
    let parts = table("docs/AREA.md", "The parts");
    for row in parts.iter().take(16) {
        let name = constant(&row[0]);
        assert_eq!(take(&name).to_string(), row[1], "{name}");
        if row[3] != "-" {
            assert_eq!(take(&format!("{name}_ROW")).to_string(), row[4], "{name}_ROW");
        }
        // its fields follow each other without a gap, up to its end or the row's
        let mut end = 0;
        for cells in fields("docs/AREA.md", &row[0]) {
            let field = format!("{name}_{}", &constant(&cells[2])[4..]);
            assert_eq!((take(&field), cells[0].clone()), (end, end.to_string()), "{field}");
            end += cells[1].parse::<usize>().expect("a number of bytes");
        }
        assert_eq!(end.to_string(), if row[3] == "-" { &row[2] } else { &row[4] }.clone(), "{name}");
    }
    // the lines: a cell for each field and a column for each table, one behind the other from the session's end to the area's
    let mut end = take("SDP_EARLIER_AREA_SIZE");
    assert_eq!(end, Area::EARLIER);
    for row in table("docs/AREA.md", "Lines") {
        let name = constant(&row[0]) + if row[2] == "1" { "_LINE" } else { "_LINES" };
        assert_eq!((take(&name), row[1].clone()), (end, end.to_string()), "{name}");
        assert_eq!(row[4], format!("`{name}`"));
        end += 2 * row[2].parse::<usize>().expect("a number of cells");
    }
    assert_eq!(end, Area::SIZE);
    // the refusals, each by its name
    assert_eq!(take("SDP_DONE"), 0);
    for row in table("docs/REFUSALS.md", "Refusals") {
        assert_eq!(take(row[4].trim_matches('`')).to_string(), row[0], "{}", row[4]);
    }
    assert_eq!(constants, BTreeMap::new(), "these stand on no page");
}

/// The header's name for what a page calls so.
fn constant(words: &str) -> String {
    format!("SDP_{}", words.to_uppercase().replace([' ', '-'], "_"))
}

/// The room that is enough is that of the theorem `room`.
#[test]
fn the_theorem_s_room() {
    let definitions = file("crates/sdp_bound/specs/Bound.antt");
    assert!(definitions.lines().any(|line| line == format!("room_of_any = {ROOM}")), "{definitions}");
    let laws = file("crates/sdp_bound/proofs/RoomLaws.antt");
    let theorem = laws.lines().find(|line| line.starts_with("pub room : ")).expect("the theorem room");
    assert!(theorem.ends_with("(read_text t a).answer.number ≡ 0 → Enough room_of_any t a"), "{theorem}");
}

/// Every function through the header, from C, answers what it answers through ffi.rs.
#[test]
fn all_functions_from_c() {
    let program = c::compiled("rust/sdp/tests/c/calls.c", "calls");
    let mut area = [0; Area::SIZE];
    let starting = ["v=0\nt=100 0\nr=50 9 0 7\nz=120 -10\nt=300 0\n", "v=0\nz=9 0 8 0\n", "v=0\nt=1 0\nr=1 0\n"];
    let texts = ["v=0\ns=Desk 4\nz=60 -1h\n", "v=1\n", "+60", "65536", "2d", "IN", "a b", "", "t=\r", "\n"];
    let passed_over = "\r\nv=0\n\nx=y\nk=z\nq=\ns=x\nm=a 1 p f\ni=";
    let texts = texts.into_iter().chain(starting).chain([passed_over]).map(str::as_bytes);
    let (mut refused, mut counted) = (BTreeSet::new(), BTreeSet::new());
    for text in texts.chain([&b"\xff"[..], b"v=0\r\na=x:\xc3"]) {
        let mut due = format!("{} {}\n", ffi::utf8_end(text), u64::from(ffi::is_token(text)));
        for numeral in [ffi::number16(text), ffi::number64(text), ffi::typed_time(text)] {
            due += &format!("{} {}\n", numeral.number, numeral.value);
        }
        let cut = ffi::cut(text, 0, 7);
        let parts = [cut.kind, cut.number, cut.line, cut.letter, cut.place, cut.len, cut.next_place, cut.next_line];
        due += &format!("{}\n", parts.map(|part| part.to_string()).join(" "));
        let answer = |answer: ffi::Answer| {
            let parts = [answer.number, answer.line, answer.field, answer.place, answer.len];
            format!("{}\n", parts.map(|part| part.to_string()).join(" "))
        };
        let ffi::Told { answer: read, counts: ffi::Counts { empty, ignored, kept } } = ffi::read(text, &mut area);
        due += &answer(read);
        due += &format!("{empty} {ignored} {kept}\n");
        counted.insert([empty, ignored, kept]);
        let length = ffi::length(text, &area);
        due += &answer(length);
        due += &answer(ffi::fill(text, &area, &mut [0; 20]));
        let filled = ffi::fill(text, &area, &mut vec![0; length.len as usize]);
        assert_eq!((length.number, filled), (0, length), "an area that was read, or zero, is written");
        due += &answer(filled);
        let starts = ffi::starts(text, &area, 100, 1_000);
        refused.insert(starts.number);
        let rows = starts.at.iter().zip(&starts.time).zip(&starts.repeat);
        let rows: Vec<String> = rows.map(|((at, time), repeat)| format!("{at} {time} {repeat}")).collect();
        due += &format!("{} {} {}\n", starts.number, starts.count, rows.join(" "));
        let order = ffi::letter_order(text);
        due += &format!("{} {}\n{}\n", order.number, order.yes, ffi::area_size());
        let output = c::run(&program, &[], text);
        assert!(output.status.success());
        assert_eq!(String::from_utf8(output.stdout).unwrap(), due, "{}", text.escape_ascii());
    }
    assert_eq!(refused.into_iter().collect::<Vec<_>>(), [0, 28, 29]);
    assert!(counted.contains(&[2, 3, 4]) && counted.contains(&[0; 3]), "{counted:?}");
}

/// The headers are good C++ too, by the machine's own compiler where it has one.
#[test]
fn the_headers_in_cpp() {
    let compile = |file: &str| {
        let mut command = Command::new("g++");
        command.args(["-std=c++11", "-fsyntax-only", "-Wall", "-Wextra", "-Werror", "-pedantic"]);
        command.args(["-I", &path("c"), "-x", "c++", &path(file)]).output()
    };
    match compile("rust/sdp/tests/c/calls.c") {
        Err(error) if error.kind() == std::io::ErrorKind::NotFound => println!("header: no g++, so C++ was NOT tried"),
        output => {
            let output = output.unwrap();
            assert!(output.status.success(), "{}", String::from_utf8_lossy(&output.stderr));
            println!("header: C++ takes it too");
        }
    }
}
