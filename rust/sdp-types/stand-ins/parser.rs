// The published parser.rs as it is, and a way to its private functions.
include!("published_parser.rs");

/// Calls of the parser's private functions, for comparisons one by one.
pub mod probe {
    use super::*;
    use std::iter::once;

    /// `parse_str_u64` of one field: the rule of all 64-bit numbers.
    pub fn number(field: &[u8]) -> Result<u64, ParserError> {
        parse_str_u64(&mut once(field), 0, "")
    }

    pub fn typed_time(field: &[u8]) -> Result<u64, ParserError> {
        parse_typed_time(field, 0, "")
    }

    pub fn is_token(field: &[u8]) -> bool {
        super::is_token(field)
    }

    /// What `LineParser` gives for a text, made as `Session::parse` makes it: number, key and value of each line up
    /// to the first refusal, and that refusal.
    #[allow(clippy::type_complexity)]
    pub fn lines(text: &[u8]) -> (Vec<(usize, u8, &[u8])>, Option<ParserError>) {
        let mut lines = LineParser(text.lines().enumerate().map(|(i, bytes)| (i + 1, bytes))).peekable();
        let mut seen = Vec::new();
        loop {
            match peek_key(&mut lines) {
                Err(refusal) => return (seen, Some(refusal)),
                Ok(None) => return (seen, None),
                Ok(Some(key)) => match lines.next() {
                    Ok(Some(line)) => {
                        assert_eq!(line.key, key);
                        seen.push((line.n, line.key, line.value));
                    }
                    _ => unreachable!("a line that was peeked is there"),
                },
            }
        }
    }
}
