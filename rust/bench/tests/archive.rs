//! What docs/SPEED.md says of the archive. It uses no heap: it calls nothing of the C library but what sets or copies
//! memory.
use bench::order;
use bench::stack::CALLS;
use bench::starts::{cases, doubling, worst};
use object::read::archive::ArchiveFile;
use object::read::elf::ElfFile64;
use object::{LittleEndian, Object, ObjectSymbol};
use std::collections::BTreeSet;
use std::path::Path;

/// What a compiler may call by itself. None of these allocates. For x86-64 two are enough, and a program that has no others links.
const ALLOWED: &[&str] =
    if cfg!(target_arch = "x86_64") { &["memcpy", "memset"] } else { &["bcmp", "memcmp", "memcpy", "memmove", "memset"] };

#[test]
fn size_of_the_area() {
    assert_eq!(compare::area_size(), 16_938);
}

#[test]
fn no_heap() {
    let usual = if cfg!(target_arch = "x86_64") { "staticlib" } else { "arm" };
    let usual = format!("{}/../../target/{usual}", env!("CARGO_MANIFEST_DIR"));
    let folder = option_env!("RATTLE_STATICLIB").unwrap_or(&usual);
    let archive = std::fs::read(format!("{folder}/libsdp.a")).unwrap();
    let (mut defined, mut wanted) = (BTreeSet::new(), BTreeSet::new());
    for member in ArchiveFile::parse(&*archive).expect("an archive").members() {
        let member = member.unwrap().data(&*archive).unwrap();
        let object = ElfFile64::<LittleEndian>::parse(member).expect("an ELF object of 64 bits, lower byte first");
        // the first symbol is none, by ELF's rules
        for symbol in object.symbols().skip(1) {
            let name = symbol.name().unwrap().to_string();
            if symbol.is_undefined() {
                wanted.insert(name);
            } else if symbol.is_global() {
                defined.insert(name);
            }
        }
    }
    let measured: BTreeSet<String> = CALLS.iter().map(|(name, _)| name.to_string()).collect();
    assert_eq!(measured, defined, "the functions whose stack is measured are those of the archive");
    let outside: Vec<&String> = wanted.difference(&defined).collect();
    println!("the archive wants from outside: {outside:?}");
    for name in outside {
        assert!(ALLOWED.contains(&name.as_str()), "the archive calls {name}");
    }
}

/// The worst list has full tables: with one row more in any of them its text is refused. `cases` and `doubling` look
/// themselves whether each list has as many starts as it says.
#[test]
fn the_worst_list_is_full() {
    let worst = worst().unwrap();
    // 256 offsets, and 63 repeats that have none and count for one; 64 zones, and what is before them
    assert_eq!(worst.parts, (256 + 63) * 65);
    let text = String::from_utf8(worst.text).unwrap();
    let number = |text: &str| {
        let answer = compare::account::read(text.as_bytes(), &mut vec![0; compare::area_size()]);
        (answer.number, answer.field)
    };
    let repeat = text.lines().find(|line| line.starts_with("r=")).unwrap();
    let zones = text.lines().find(|line| line.starts_with("z=")).unwrap();
    assert_eq!(number(&text), (0, 0));
    assert_eq!(number(&text.replace("z=", "r=1 1\nz=")), (21, 6));
    assert_eq!(number(&text.replace(repeat, &format!("{repeat} 1"))), (21, 7));
    assert_eq!(number(&text.replace(zones, &format!("{zones} 9999999999 0"))), (21, 8));
    let texts = Path::new(env!("CARGO_MANIFEST_DIR")).join("../../texts");
    assert!(cases(&texts).unwrap().iter().all(|case| case.parts <= worst.parts));
    assert_eq!(doubling().unwrap().len(), 7 + 9 + 7);
}

/// The texts of the letter order double up to the limit; `doubling` looks itself whether they are in order. Of the
/// folder's texts none is left out.
#[test]
fn the_orders_reach_the_limit() {
    let doubling = order::doubling().unwrap();
    let sizes: Vec<usize> = doubling.iter().map(|case| case.text.len()).collect();
    assert_eq!(sizes, [256, 512, 1_024, 2_048, 4_096, 8_192, 16_384, 32_768].repeat(4));
    let over = [&doubling.last().unwrap().text[..], b"\n"].concat();
    assert_eq!(compare::letter_order(&over).number, 1);
    let texts = Path::new(env!("CARGO_MANIFEST_DIR")).join("../../texts");
    let files = ["published", "kinds"].map(|part| std::fs::read_dir(texts.join(part)).unwrap().count());
    assert_eq!(order::folder(&texts).unwrap().len() * 2, files[0] + files[1], "each text has its expected output");
}
