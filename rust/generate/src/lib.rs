//! Inputs for the comparisons: exhaustive ones over an alphabet, and random ones that a printed seed gives again.
pub mod fields;
pub mod hostile;
pub mod hours;
pub mod random;
pub mod sessions;
mod shrink;
pub mod texts;

pub use random::Random;
pub use shrink::shrink;

/// Calls `each` with every string over `alphabet` of up to `longest` letters, and says how many those were.
pub fn every_string(alphabet: &[u8], longest: usize, mut each: impl FnMut(&[u8])) -> u64 {
    fn grow(alphabet: &[u8], left: usize, string: &mut Vec<u8>, each: &mut dyn FnMut(&[u8])) -> u64 {
        each(string);
        let mut count = 1;
        if left > 0 {
            for &letter in alphabet {
                string.push(letter);
                count += grow(alphabet, left - 1, string, each);
                string.pop();
            }
        }
        count
    }
    grow(alphabet, longest, &mut Vec::new(), &mut each)
}

#[cfg(test)]
mod tests {
    use super::*;
    use sessions::LONGEST;

    #[test]
    fn every_string_gives_each_once() {
        let mut seen = std::collections::BTreeSet::new();
        let count = every_string(b"xyz", 3, |s| assert!(seen.insert(s.to_vec())));
        assert_eq!((count, seen.len()), (1 + 3 + 9 + 27, 40));
    }

    #[test]
    fn a_seed_gives_the_same_again() {
        let texts = |seed| {
            let mut random = Random::new(seed, "texts");
            (0..50).map(|_| texts::text(&mut random)).collect::<Vec<_>>()
        };
        assert_eq!(texts(7), texts(7));
        assert_ne!(texts(7), texts(8));
        assert_eq!(sessions::nth(7, 3), sessions::nth(7, 3));
        assert_ne!(sessions::nth(7, 3), sessions::nth(7, 4));
        assert_ne!(sessions::nth(7, 3), sessions::nth(8, 3));
    }

    #[test]
    fn shrinking_leaves_what_is_needed() {
        let mut random = Random::of_test("shrink");
        let (mut tried, mut shrunk) = (0, 0);
        for _ in 0..200 {
            let text = sessions::text(&mut random);
            // an `m` somewhere before a `:`, whatever stands between
            let needed = |text: &[u8]| {
                let at = text.iter().position(|byte| *byte == b'm');
                at.map_or(false, |at| text[at..].contains(&b':'))
            };
            if needed(&text) {
                assert_eq!(shrink(&text, needed), b"m:");
                shrunk += 1;
            }
            assert_eq!(shrink(&text, |_| true), b"");
            assert_eq!(shrink(&text, |part| part == text), text);
            tried += 1;
        }
        println!("shrink: {tried} texts, {shrunk} to two bytes");
        assert!(shrunk * 10 > tried);
    }

    #[test]
    fn lengthened_to_the_byte() {
        let mut random = Random::of_test("lengthened");
        for due in [LONGEST - 1, LONGEST, LONGEST + 1] {
            for _ in 0..20 {
                let text = texts::text(&mut random);
                assert_eq!(sessions::lengthened(&mut random, text, due).len(), due);
            }
        }
    }
}
