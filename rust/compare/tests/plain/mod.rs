//! A plain reader in Rust, after documents 01 and 02, with one slip in it if wanted: with it the comparison itself is tested.
//! Nothing is compared with this reader.
#![allow(dead_code)] // each test file takes what it needs
pub mod starts;
pub mod writer;
use compare::area::{
    Attribute, Bandwidth, Connection, Key, Media, MediaConnection, Offset, Origin, Part, Repeat, Seen, Span, Time, Zone,
    COLUMNS, PARTS, SESSION, SIZE,
};
use compare::judge::two;
use compare::made::{line_at, put_two};
use compare::{Answer, Counts, Told};

/// What each slip does wrong. The comparison must find every one.
pub const SLIPS: [&str; 113] = [
    "a text of 32,769 bytes is read",
    "a text of 32,768 bytes is refused",
    "a text that is too long clears the area",
    "a CR at the end of the text belongs to the ending",
    "NUL passes",
    "no = is 5",
    "empty lines are not counted",
    "ignored lines are not tested",
    "ignored lines must be UTF-8",
    "an unknown line may stand before the version",
    "version 00 passes",
    "a second version line is judged",
    "7 has no place",
    "a refused session stays in the area",
    "absent cells are left as found",
    "unused rows are left as found",
    "bytes beyond the area are cleared",
    "a missing name has a place",
    "username - is kept",
    "a missing origin is present",
    "two spaces are two borders",
    "a tab separates",
    "a run of spaces in an m line is one",
    "+ is refused",
    "zeros before a number are refused",
    "numbers wrap at 64 bits",
    "port 65536 passes",
    "an empty num-ports passes",
    "bad UTF-8 in a port is field 28",
    "UTF-8 before the token test",
    "extra fields are not judged",
    "a unit alone is no UTF-8",
    "a week is a unit",
    "the sign of a zone is dropped",
    "-2^63 is refused",
    "a missing zone offset ends the list",
    "an empty z admits a second",
    "the second origin is read first",
    "a repeat without time is read first",
    "a repeat belongs to the first time",
    "offsets belong to the latest time",
    "bandwidths are cut at the first colon",
    "an empty attribute value is absent",
    "attributes are cut at the last colon",
    "a media's attributes belong to the session",
    "a title may stand once in all medias",
    "a media's repeat is read",
    "fmt ends at a space",
    "21 before a bad value",
    "of two full tables the higher",
    "tables are full one record early",
    "the session's connection is in the table",
    "an equal string elsewhere",
    "a k line is judged",
    "a k line of a media is judged",
    "a second k line is refused",
    "a key is kept",
    "a media's key is kept",
    "a k line of bad form is ignored",
    "a k line may stand before the version",
    "k lines are not counted",
    "8 has no place",
    "9 has a place",
    "8 has a length",
    "a bad byte is counted from 1",
    "a bad byte is counted from its line",
    "a bad byte is counted from its value",
    "a bad byte's field is taken for the value's start",
    "a bad byte is told by its field's start",
    "of a character cut off the end is told",
    "the last of two bad bytes is told",
    "CRs above a bad byte are not counted",
    "k lines above a bad byte are not counted",
    "empty lines are counted as ignored",
    "CR LF alone is in no count",
    "empty lines above the version are in no count",
    "what is behind the last LF is an empty line",
    "the version line is in no count",
    "a later version line is kept",
    "a k line is counted as kept",
    "an unknown letter is in no count",
    "a letter without use after m is kept",
    "an m line is ignored",
    "the first m line is ignored",
    "a z line without pairs is ignored",
    "a last line without LF is in no count",
    "a refusal has counts",
    "a text that is too long has counts",
    "lines count from 0",
    "a record has the line behind it",
    "empty lines are in no line",
    "empty lines above the version are in no line",
    "ignored lines are in no line",
    "k lines are in no line",
    "the version is in no line",
    "all rows have the line of the latest",
    "the lines of offsets are missing",
    "only the first offset has a line",
    "offsets have the line of their time",
    "offsets have the number of their repeat",
    "the lines of zones are missing",
    "only the first zone has a line",
    "the lines of medias' bandwidths are missing",
    "a media's connection has the session's cell",
    "a title has the line of its media",
    "titles have the cells of their own number",
    "a title's line is that of the session's description",
    "a missing name has the version's line",
    "a missing origin has a line",
    "a k line leaves a line",
    "a media's k line leaves a line",
    "unused lines are left as found",
    "a refused text's lines stay",
];

pub struct Plain {
    pub slip: &'static str,
}

fn refusal(number: u64, line: u64, field: u64) -> Answer {
    Answer {
        number,
        line,
        field,
        ..Answer::default()
    }
}

/// A field's refusal: its number, and for 8 where in the text the bad byte stands.
type Read<T> = Result<T, (u64, usize)>;

fn wrong(line: u64, field: u64) -> impl Fn((u64, usize)) -> Answer {
    move |(number, place)| Answer {
        place: place as u64,
        ..refusal(number, line, field)
    }
}

impl Plain {
    fn slips(&self, slip: &str) -> bool {
        assert!(SLIPS.contains(&slip));
        self.slip == slip
    }

    pub fn read(&self, text: &[u8], area: &mut [u8]) -> Told {
        let none = Counts::default();
        if area.len() < SIZE {
            return Told { answer: refusal(2, 0, 0), counts: none };
        }
        let longest = 32_768 + usize::from(self.slips("a text of 32,769 bytes is read"))
            - usize::from(self.slips("a text of 32,768 bytes is refused"));
        if text.len() > longest {
            if self.slips("a text that is too long clears the area") {
                area[..SIZE].fill(0);
            }
            let lines = text.split(|byte| *byte == b'\n').count() as u64;
            let counted = self.slips("a text that is too long has counts");
            let counts = if counted { Counts { ignored: lines, ..none } } else { none };
            return Told { answer: refusal(1, 0, 0), counts };
        }
        let mut reader = Reader {
            plain: self,
            text,
            seen: Seen::default(),
            named: false,
            zoned: false,
            titled: false,
            keys: 0,
            counts: none,
            lines: vec![0; SIZE],
        };
        let mut answer = reader.all().err().unwrap_or_default();
        if answer.number == 8 {
            answer.place = reader.counted(answer.place as usize) as u64;
            answer.len = u64::from(self.slips("8 has a length"));
        }
        let mut bytes = encode(&reader.seen);
        bytes[SESSION..].copy_from_slice(&reader.lines[SESSION..]);
        if answer.number != 0 && !self.slips("a refused session stays in the area") {
            let end = if self.slips("a refused text's lines stay") { SESSION } else { SIZE };
            bytes[..end].fill(0);
        }
        if answer.number == 0 && self.slips("unused lines are left as found") {
            let left = (SESSION..SIZE).step_by(2).filter(|cell| reader.lines[*cell..cell + 2] == [0, 0]);
            left.for_each(|cell| bytes[cell..cell + 2].copy_from_slice(&area[cell..cell + 2]));
        }
        if answer.number == 0 && self.slips("unused rows are left as found") {
            for part in PARTS.iter().filter(|part| part.rows > 0) {
                let count = usize::from(bytes[part.at]) + 256 * usize::from(bytes[part.at + 1]);
                let from = part.at + 2 + count * part.width;
                bytes[from..part.at + part.bytes()].copy_from_slice(&area[from..part.at + part.bytes()]);
            }
        }
        if answer.number == 0 && self.slips("absent cells are left as found") && reader.seen.uri.is_none() {
            bytes[44..48].copy_from_slice(&area[44..48]);
        }
        area[..SIZE].copy_from_slice(&bytes);
        if self.slips("bytes beyond the area are cleared") {
            area[SIZE..].fill(0);
        }
        let counted = answer.number == 0 || self.slips("a refusal has counts");
        Told { answer, counts: if counted { reader.counts } else { none } }
    }
}

struct Reader<'a> {
    plain: &'a Plain,
    text: &'a [u8],
    seen: Seen<Span>,
    named: bool,
    zoned: bool,
    titled: bool,
    /// k lines since the latest m line.
    keys: usize,
    counts: Counts,
    /// An area of which only the lines count.
    lines: Vec<u8>,
}

impl<'a> Reader<'a> {
    fn slips(&self, slip: &str) -> bool {
        self.plain.slips(slip)
    }

    fn bytes(&self, span: Span) -> &'a [u8] {
        &self.text[span.place..span.end()]
    }

    fn all(&mut self) -> Result<(), Answer> {
        let (mut at, mut line, mut version) = (0, 0, false);
        while at < self.text.len() {
            line += 1;
            let lf = self.text[at..].iter().position(|byte| *byte == b'\n').map(|lf| at + lf);
            let mut end = lf.unwrap_or(self.text.len());
            let next = lf.map_or(self.text.len(), |lf| lf + 1);
            let ending = lf.is_some() || self.slips("a CR at the end of the text belongs to the ending");
            if ending && end > at && self.text[end - 1] == b'\r' {
                end -= 1;
            }
            let whole = &self.text[at..end];
            let value = Span {
                place: at + 2,
                len: whole.len().saturating_sub(2),
            };
            at = next;
            let last = lf.is_none();
            if whole.is_empty() {
                line -= u64::from(self.slips("empty lines are not counted"));
                self.count_empty(value.place - 2..next, version);
                continue;
            }
            let unknown = version && !b"vosiuepcbtrzkam".contains(&whole[0]);
            let is_k = whole[0] == b'k';
            if unknown && self.slips("ignored lines are not tested")
                || version && is_k && self.slips("a k line of bad form is ignored")
            {
                self.count(whole[0], value);
                continue;
            }
            let nul = if self.slips("NUL passes") { b'\r' } else { 0 };
            if whole.contains(&nul) || whole.contains(&b'\r') {
                return Err(refusal(3, line, 0));
            }
            match whole.iter().position(|byte| *byte == b'=') {
                None => return Err(refusal(if self.slips("no = is 5") { 5 } else { 4 }, line, 0)),
                Some(1) => {}
                Some(_) => return Err(refusal(5, line, 0)),
            }
            let letter = whole[0];
            if !version {
                if letter != b'v' {
                    if self.slips("an unknown line may stand before the version") && letter == b'x'
                        || self.slips("a k line may stand before the version") && is_k
                    {
                        continue;
                    }
                    return Err(refusal(6, 0, 0));
                }
                self.version(line, value)?;
                version = true;
                if self.slips("a missing name has the version's line") {
                    self.put_line("name", 0, line as usize);
                }
                self.counts.kept += u64::from(!self.slips("the version line is in no count"));
            } else {
                if letter == b'v' && self.slips("a second version line is judged") {
                    self.version(line, value)?;
                }
                if unknown && self.slips("ignored lines must be UTF-8") && std::str::from_utf8(whole).is_err() {
                    return Err(refusal(8, line, 0));
                }
                let before = self.seen.counts();
                self.line(line, letter, value)?;
                self.full(line)?;
                self.note(line as usize, letter, before);
                line -= u64::from(is_k && self.slips("k lines are not counted"));
                if !(last && self.slips("a last line without LF is in no count")) {
                    self.count(letter, value);
                }
            }
        }
        if self.slips("what is behind the last LF is an empty line") && self.text.ends_with(b"\n") {
            self.counts.empty += 1;
        }
        if !version {
            return Err(refusal(6, 0, 0));
        }
        if !self.named && self.slips("a missing name has a place") {
            self.seen.name.place = self.text.len();
        }
        if self.seen.origin.is_none() && self.slips("a missing origin is present") {
            let none = Span::default();
            self.seen.origin = Some(Origin {
                username: None,
                sess_id: none,
                sess_version: 0,
                nettype: none,
                addrtype: none,
                unicast_address: none,
            });
        }
        if self.slips("an equal string elsewhere") {
            if let Some(first) = self.seen.emails.first().copied() {
                let bytes = self.bytes(first);
                for email in &mut self.seen.emails[1..] {
                    if self.text[email.place..email.end()] == *bytes {
                        *email = first;
                    }
                }
            }
        }
        Ok(())
    }

    fn put_line(&mut self, column: &str, cell: usize, line: usize) {
        put_two(&mut self.lines, line_at(column, cell), line);
    }

    /// The line of what a line gave. Before it the tables had these counts.
    fn note(&mut self, line: usize, letter: u8, before: [usize; 10]) {
        let number = self.numbered(line);
        let after = self.seen.counts();
        for (table, column) in COLUMNS[6..16].iter().enumerate() {
            let first = match self.slips("all rows have the line of the latest") && before[table] < after[table] {
                true => 0,
                false => before[table],
            };
            for row in first..after[table] {
                let latest_time = two(&self.lines, line_at("times", after[4].max(1) - 1));
                let line = match (column.name, self.plain.slip) {
                    ("offsets", "the lines of offsets are missing") => 0,
                    ("offsets", "only the first offset has a line") if row > before[table] => 0,
                    ("offsets", "offsets have the line of their time") => latest_time,
                    ("offsets", "offsets have the number of their repeat") => after[5],
                    ("zones", "the lines of zones are missing") => 0,
                    ("zones", "only the first zone has a line") if row > 0 => 0,
                    ("bandwidths", "the lines of medias' bandwidths are missing") if after[9] > 0 => 0,
                    _ => number,
                };
                self.put_line(column.name, row, line);
            }
        }
        let medias = before[9];
        match (medias > 0, letter) {
            (false, b'o') => self.put_line("origin", 0, number),
            (false, b's') => self.put_line("name", 0, number),
            (false, b'i') => self.put_line("description", 0, number),
            (false, b'u') => self.put_line("uri", 0, number),
            (false, b'c') => self.put_line("connection", 0, number),
            (true, b'c') if self.slips("a media's connection has the session's cell") => self.put_line("connection", 0, number),
            (true, b'i') => {
                let own = self.seen.medias.iter().filter(|media| media.title.is_some()).count();
                let cell = if self.slips("titles have the cells of their own number") { own } else { medias } - 1;
                let of_media = two(&self.lines, line_at("medias", medias - 1));
                let (column, line) = match self.plain.slip {
                    "a title has the line of its media" => ("media titles", of_media),
                    "a title's line is that of the session's description" => ("description", number),
                    _ => ("media titles", number),
                };
                self.put_line(column, if column == "description" { 0 } else { cell }, line);
            }
            (false, b'k') if self.slips("a k line leaves a line") => self.put_line("key", 0, number),
            (true, b'k') if self.slips("a media's k line leaves a line") => self.put_line("media keys", medias - 1, number),
            _ => {}
        }
        if self.slips("a missing origin has a line") && self.seen.origin.is_none() {
            self.put_line("origin", 0, number);
        }
    }

    /// The number of a line; slips count it in other ways.
    fn numbered(&self, line: usize) -> usize {
        let Counts { empty, ignored, .. } = self.counts;
        let above = self.text.split(|byte| *byte == b'\n').take_while(|line| matches!(line, [] | [b'\r'])).count();
        let keys = self.text.split(|byte| *byte == b'\n').take(line).filter(|line| line.starts_with(b"k=")).count();
        match self.plain.slip {
            "lines count from 0" => line - 1,
            "a record has the line behind it" => line + 1,
            "empty lines are in no line" => line - empty as usize,
            "empty lines above the version are in no line" => line - above,
            "ignored lines are in no line" => line - ignored as usize,
            "k lines are in no line" => line - keys,
            "the version is in no line" => line - 1 - above,
            _ => line,
        }
    }

    fn count_empty(&mut self, bytes: std::ops::Range<usize>, version: bool) {
        let none = self.slips("CR LF alone is in no count") && bytes.len() == 2
            || self.slips("empty lines above the version are in no count") && !version;
        match self.slips("empty lines are counted as ignored") {
            _ if none => {}
            true => self.counts.ignored += 1,
            false => self.counts.empty += 1,
        }
    }

    /// A line behind the version's, after it was read.
    fn count(&mut self, letter: u8, value: Span) {
        let in_media = !self.seen.medias.is_empty();
        let known = b"vosiuepcbtrzkam".contains(&letter);
        let kept = match letter {
            b'v' => self.slips("a later version line is kept"),
            b'k' => self.slips("a k line is counted as kept"),
            b'm' => {
                let first = self.seen.medias.len() == 1;
                !(self.slips("an m line is ignored") || first && self.slips("the first m line is ignored"))
            }
            b'z' if !in_media && self.words(value).is_empty() => !self.slips("a z line without pairs is ignored"),
            b'i' | b'c' | b'b' | b'a' => true,
            _ if in_media => known && self.slips("a letter without use after m is kept"),
            _ => known,
        };
        match kept {
            true => self.counts.kept += 1,
            false if !known && self.slips("an unknown letter is in no count") => {}
            false => self.counts.ignored += 1,
        }
    }

    /// The place of a bad byte; slips count it in other ways.
    fn counted(&self, place: usize) -> usize {
        let lines = || self.text[..place].split_inclusive(|byte| *byte == b'\n');
        // what stands before it in its line, behind the `=`
        let in_value = lines().last().map_or(0, |line| line.len().saturating_sub(2));
        let in_field = self.text[..place].iter().rev().take_while(|byte| !b" :=".contains(byte)).count();
        match self.plain.slip {
            "8 has no place" => 0,
            "a bad byte is counted from 1" => place + 1,
            "a bad byte is counted from its line" => in_value + 2,
            "a bad byte is counted from its value" => in_value,
            "a bad byte's field is taken for the value's start" => place - in_value + in_field.min(in_value),
            "CRs above a bad byte are not counted" => place - lines().filter(|line| line.ends_with(b"\r\n")).count(),
            "k lines above a bad byte are not counted" => {
                lines().filter(|line| !line.starts_with(b"k=")).map(<[u8]>::len).sum()
            }
            _ => place,
        }
    }

    fn version(&self, line: u64, value: Span) -> Result<(), Answer> {
        if self.bytes(value) == b"0" || self.bytes(value) == b"00" && self.slips("version 00 passes") {
            return Ok(());
        }
        let mut answer = refusal(7, line, 0);
        if !self.slips("7 has no place") {
            (answer.place, answer.len) = (value.place as u64, value.len as u64);
        }
        Err(answer)
    }

    /// Of the tables that are full after this line the lowest.
    fn full(&self, line: u64) -> Result<(), Answer> {
        let mut counts = self.seen.counts();
        if self.slips("the session's connection is in the table") {
            counts[2] += usize::from(self.seen.connection.is_some());
        }
        let early = usize::from(self.slips("tables are full one record early"));
        let mut over = (0..10).filter(|at| counts[*at] + early > PARTS[6 + at].rows);
        let table = if self.slips("of two full tables the higher") { over.last() } else { over.next() };
        table.map_or(Ok(()), |at| Err(refusal(21, line, at as u64 + 1)))
    }

    fn text(&self, span: Span) -> Read<Span> {
        let Err(error) = std::str::from_utf8(self.bytes(span)) else {
            return Ok(span);
        };
        let mut place = span.place + error.valid_up_to();
        if self.slips("a bad byte is told by its field's start") {
            place = span.place;
        }
        if self.slips("of a character cut off the end is told") && error.error_len().is_none() {
            place = span.end();
        }
        if self.slips("the last of two bad bytes is told") {
            let tail = span.end() - self.bytes(span).iter().rev().take_while(|byte| byte.is_ascii()).count();
            place = place.max(tail - 1);
        }
        Err((8, place))
    }

    /// 9 has no place.
    fn bad_form(&self, span: Span) -> (u64, usize) {
        (9, if self.slips("9 has a place") { span.place } else { 0 })
    }

    fn number(&self, span: Span, bits: u32) -> Read<u64> {
        self.text(span)?;
        let bytes = self.bytes(span);
        let digits = bytes.strip_prefix(b"+").unwrap_or(bytes);
        if digits.is_empty() || !digits.iter().all(u8::is_ascii_digit) {
            return Err(self.bad_form(span));
        }
        if digits.len() < bytes.len() && self.slips("+ is refused")
            || digits.len() > 1 && digits[0] == b'0' && self.slips("zeros before a number are refused")
        {
            return Err(self.bad_form(span));
        }
        let mut value: u128 = 0;
        for digit in digits {
            value = (value * 10 + u128::from(digit - b'0')).min(1 << 100);
        }
        if value >> bits != 0 && bits == 64 && value < 1 << 65 && self.slips("numbers wrap at 64 bits") {
            return Ok(value as u64);
        }
        if bits == 16 && value == 65_536 && self.slips("port 65536 passes") {
            return Ok(0);
        }
        if value >> bits != 0 {
            return Err(self.bad_form(span));
        }
        Ok(value as u64)
    }

    fn typed(&self, span: Span) -> Read<u64> {
        let factor = match self.bytes(span).last() {
            None => return Err(self.bad_form(span)),
            Some(b'd') => 86_400,
            Some(b'h') => 3_600,
            Some(b'm') => 60,
            Some(b's') => 1,
            Some(b'w') if self.slips("a week is a unit") => 604_800,
            Some(_) => return self.number(span, 64),
        };
        if self.slips("a unit alone is no UTF-8") && self.bytes(span)[..span.len - 1] == *b"" {
            return Err((8, span.place));
        }
        let number = self.number(
            Span {
                len: span.len - 1,
                ..span
            },
            64,
        )?;
        number.checked_mul(factor).ok_or(self.bad_form(span))
    }

    fn zone(&self, span: Span) -> Read<i64> {
        let minus = self.bytes(span).first() == Some(&b'-');
        let cut = usize::from(minus);
        let value = self.typed(Span {
            place: span.place + cut,
            len: span.len - cut,
        })?;
        if minus && value == 1 << 63 && self.slips("-2^63 is refused") {
            return Err(self.bad_form(span));
        }
        if minus && value <= 1 << 63 {
            let sign = if self.slips("the sign of a zone is dropped") && value < 1 << 63 { 1 } else { -1 };
            return Ok((value as i64).wrapping_mul(sign));
        }
        i64::try_from(value).map_err(|_| self.bad_form(span))
    }

    fn token(&self, span: Span) -> Read<Span> {
        if self.slips("UTF-8 before the token test") {
            self.text(span)?;
        }
        let good = |byte: &u8| byte.is_ascii_alphanumeric() || b"!#$%&'*+-.^_`{|}~".contains(byte);
        if span.len == 0 || !self.bytes(span).iter().all(good) {
            return Err(self.bad_form(span));
        }
        Ok(span)
    }

    /// Between runs of spaces.
    fn words(&self, value: Span) -> Vec<Span> {
        let border = |byte: &u8| *byte == b' ' || *byte == b'\t' && self.slips("a tab separates");
        let mut place = value.place;
        let mut words = Vec::new();
        for word in self.bytes(value).split(border) {
            if !word.is_empty() || self.slips("two spaces are two borders") {
                words.push(Span { place, len: word.len() });
            }
            place += word.len() + 1;
        }
        words
    }

    fn pieces(&self, value: Span, most: usize, border: u8) -> Vec<Span> {
        let mut place = value.place;
        let pieces = self.bytes(value).splitn(most, |byte| *byte == border);
        pieces
            .map(|piece| {
                let span = Span {
                    place,
                    len: piece.len(),
                };
                place += piece.len() + 1;
                span
            })
            .collect()
    }

    fn line(&mut self, line: u64, letter: u8, value: Span) -> Result<(), Answer> {
        let in_media = !self.seen.medias.is_empty();
        let second = |number| Err(refusal(number, line, 0));
        if self.slips("21 before a bad value") && b"epbatm".contains(&letter) {
            let at = match letter {
                b'e' => 0,
                b'p' => 1,
                b'b' => 3,
                b't' => 4,
                b'a' => 8,
                _ => 9,
            };
            let used = !in_media || b"bam".contains(&letter);
            if used && self.seen.counts()[at] == PARTS[6 + at].rows {
                return Err(refusal(21, line, at as u64 + 1));
            }
        }
        let owner = match self.seen.medias.len() as u64 {
            _ if letter == b'a' && self.slips("a media's attributes belong to the session") => {
                self.seen.attributes.last().map_or(0, |row| row.owner.min(0))
            }
            owner => owner,
        };
        // a refusal of a field
        let at = |field: u64| wrong(line, field);
        let missing = |field: u64| refusal(10, line, field);
        match (in_media, letter) {
            (false, b'o') => {
                if self.seen.origin.is_some() && !self.slips("the second origin is read first") {
                    return second(12);
                }
                let words = self.words(value);
                let word = |i: usize| words.get(i).copied().ok_or(missing(i as u64 + 1));
                let username = self.text(word(0)?).map_err(at(1))?;
                let origin = Origin {
                    username: Some(username)
                        .filter(|span| self.bytes(*span) != b"-" || self.slips("username - is kept")),
                    sess_id: self.text(word(1)?).map_err(at(2))?,
                    sess_version: self.number(word(2)?, 64).map_err(at(3))?,
                    nettype: self.token(word(3)?).map_err(at(4))?,
                    addrtype: self.token(word(4)?).map_err(at(5))?,
                    unicast_address: self.text(word(5)?).map_err(at(6))?,
                };
                self.trailing(words.len() > 6, line, 7)?;
                if self.seen.origin.is_some() {
                    return second(12);
                }
                self.seen.origin = Some(origin);
            }
            (false, b's') => {
                if self.named {
                    return second(13);
                }
                self.seen.name = self.text(value).map_err(at(34))?;
                self.named = true;
            }
            (false, b'i') => {
                if self.seen.description.is_some() {
                    return second(14);
                }
                self.seen.description = Some(self.text(value).map_err(at(35))?);
            }
            (false, b'u') => {
                if self.seen.uri.is_some() {
                    return second(15);
                }
                self.seen.uri = Some(self.text(value).map_err(at(36))?);
            }
            (false, b'e') => self.seen.emails.push(self.text(value).map_err(at(37))?),
            (false, b'p') => self.seen.phones.push(self.text(value).map_err(at(38))?),
            (_, b'c') => {
                if !in_media && self.seen.connection.is_some() {
                    return second(16);
                }
                let words = self.words(value);
                let word = |i: usize| words.get(i).copied().ok_or(missing(i as u64 + 8));
                let connection = Connection {
                    nettype: self.token(word(0)?).map_err(at(8))?,
                    addrtype: self.token(word(1)?).map_err(at(9))?,
                    address: self.text(word(2)?).map_err(at(10))?,
                };
                self.trailing(words.len() > 3, line, 11)?;
                if in_media {
                    self.seen.connections.push(MediaConnection { owner, connection });
                } else {
                    self.seen.connection = Some(connection);
                }
            }
            (_, b'b') => {
                let most = if self.slips("bandwidths are cut at the first colon") { 2 } else { usize::MAX };
                let pieces = self.pieces(value, most, b':');
                let bwtype = self.text(pieces[0]).map_err(at(12))?;
                let number = *pieces.get(1).ok_or(missing(13))?;
                let value = self.number(number, 64).map_err(at(13))?;
                self.trailing(pieces.len() > 2, line, 14)?;
                self.seen.bandwidths.push(Bandwidth { owner, bwtype, value });
            }
            (false, b't') => {
                let words = self.words(value);
                let word = |i: usize| words.get(i).copied().ok_or(missing(i as u64 + 15));
                let start = self.number(word(0)?, 64).map_err(at(15))?;
                let stop = self.number(word(1)?, 64).map_err(at(16))?;
                self.trailing(words.len() > 2, line, 17)?;
                self.seen.times.push(Time { start, stop });
            }
            (true, b'r') if !self.slips("a media's repeat is read") => {}
            (_, b'r') => {
                let timeless = self.seen.times.is_empty();
                if timeless && !self.slips("a repeat without time is read first") {
                    return second(20);
                }
                let words = self.words(value);
                let word = |i: usize| words.get(i).copied().ok_or(missing(i as u64 + 18));
                let interval = self.typed(word(0)?).map_err(at(18))?;
                let duration = self.typed(word(1)?).map_err(at(19))?;
                let offsets = words[2..]
                    .iter()
                    .map(|word| self.typed(*word).map_err(at(20)))
                    .collect::<Result<Vec<u64>, Answer>>()?;
                if timeless {
                    return second(20);
                }
                let latest = if self.slips("a repeat belongs to the first time") { 1 } else { self.seen.times.len() };
                self.seen.repeats.push(Repeat {
                    owner: latest as u64,
                    interval,
                    duration,
                });
                let owner = if self.slips("offsets belong to the latest time") {
                    self.seen.times.len() as u64
                } else {
                    self.seen.repeats.len() as u64
                };
                self.seen
                    .offsets
                    .extend(offsets.into_iter().map(|value| Offset { owner, value }));
            }
            (false, b'z') => {
                if self.zoned {
                    return second(17);
                }
                let words = self.words(value);
                for pair in words.chunks(2) {
                    let adjustment = self.number(pair[0], 64).map_err(at(21))?;
                    let Some(offset) = pair.get(1) else {
                        if self.slips("a missing zone offset ends the list") {
                            break;
                        }
                        return Err(missing(22));
                    };
                    let offset = self.zone(*offset).map_err(at(22))?;
                    self.seen.zones.push(Zone { adjustment, offset });
                }
                self.zoned = !words.is_empty() || !self.slips("an empty z admits a second");
            }
            // no use: what is done here are slips
            (_, b'k') => {
                if self.keys > 0 && self.slips("a second k line is refused") {
                    return second(19);
                }
                self.keys += 1;
                let read = self.halves(value, line, 25);
                if self.slips(if in_media { "a k line of a media is judged" } else { "a k line is judged" }) {
                    read?;
                }
                let key = read.ok().map(|(method, text)| Key { method, text });
                match self.seen.medias.last_mut() {
                    Some(media) if self.plain.slips("a media's key is kept") => media.key = key,
                    None if self.plain.slips("a key is kept") => self.seen.key = key,
                    _ => {}
                }
            }
            (_, b'a') => {
                let (name, value) = self.halves(value, line, 23)?;
                let empty = |span: &Span| span.len == 0 && self.slips("an empty attribute value is absent");
                let value = value.filter(|span| !empty(span));
                self.seen.attributes.push(Attribute { owner, name, value });
            }
            (true, b'i') => {
                if self.titled {
                    return second(18);
                }
                let title = Some(self.text(value).map_err(at(33))?);
                self.seen.medias.last_mut().unwrap().title = title;
                self.titled = true;
            }
            (_, b'm') => self.media(line, value)?,
            _ => {}
        }
        Ok(())
    }

    fn trailing(&self, more: bool, line: u64, field: u64) -> Result<(), Answer> {
        if more && !self.slips("extra fields are not judged") {
            return Err(refusal(11, line, field));
        }
        Ok(())
    }

    fn halves(&self, value: Span, line: u64, field: u64) -> Result<(Span, Option<Span>), Answer> {
        let mut pieces = self.pieces(value, 2, b':');
        if field == 23 && pieces.len() == 2 && self.slips("attributes are cut at the last colon") {
            let colon = self.bytes(value).iter().rposition(|byte| *byte == b':').unwrap();
            let cut = value.place + colon;
            pieces[0].len = colon;
            pieces[1] = Span {
                place: cut + 1,
                len: value.end() - cut - 1,
            };
        }
        let first = self.text(pieces[0]).map_err(wrong(line, field))?;
        let second = pieces.get(1).map(|span| self.text(*span)).transpose();
        Ok((first, second.map_err(wrong(line, field + 1))?))
    }

    fn media(&mut self, line: u64, value: Span) -> Result<(), Answer> {
        let at = |field: u64| wrong(line, field);
        let mut pieces = self.pieces(value, 4, b' ');
        if self.slips("a run of spaces in an m line is one") {
            pieces = self.words(value);
        }
        let piece = |i: usize, field| pieces.get(i).copied().ok_or(refusal(10, line, field));
        let media = self.text(piece(0, 27)?).map_err(at(27))?;
        let field = if self.slips("bad UTF-8 in a port is field 28") { 28 } else { 29 };
        let both = self.text(piece(1, 28)?).map_err(at(field))?;
        let ports = self.pieces(both, 2, b'/');
        let port = self.number(ports[0], 16).map_err(at(28))?;
        let num_ports = match ports.get(1) {
            None => None,
            Some(span) if span.len == 0 && self.slips("an empty num-ports passes") => None,
            Some(span) => Some(self.number(*span, 16).map_err(at(30))?),
        };
        let proto = self.text(piece(2, 31)?).map_err(at(31))?;
        let mut fmt = self.text(piece(3, 32)?).map_err(at(32))?;
        if self.slips("fmt ends at a space") {
            let space = self.bytes(fmt).iter().position(|byte| *byte == b' ');
            fmt.len = space.unwrap_or(fmt.len);
        }
        self.seen.medias.push(Media {
            media,
            port,
            num_ports,
            proto,
            fmt,
            title: None,
            key: None,
        });
        self.titled &= self.slips("a title may stand once in all medias");
        self.keys = 0;
        Ok(())
    }
}

// ---- the area

/// Puts numbers one after the other, by the widths of a part's fields.
struct Put<'a> {
    bytes: &'a mut [u8],
    at: usize,
}

impl Put<'_> {
    fn two(&mut self, number: usize) {
        self.bytes[self.at..self.at + 2].copy_from_slice(&(number as u16).to_le_bytes());
        self.at += 2;
    }

    fn eight(&mut self, number: u64) {
        self.bytes[self.at..self.at + 8].copy_from_slice(&number.to_le_bytes());
        self.at += 8;
    }

    fn span(&mut self, span: Span) {
        self.two(span.place);
        self.two(span.len);
    }

    fn maybe(&mut self, span: Option<Span>) {
        self.two(usize::from(span.is_some()));
        self.span(span.unwrap_or_default());
    }

    fn connection(&mut self, connection: &Connection<Span>) {
        self.span(connection.nettype);
        self.span(connection.addrtype);
        self.span(connection.address);
    }

    fn key(&mut self, key: &Option<Key<Span>>) {
        self.two(usize::from(key.is_some()));
        self.span(key.as_ref().map_or(Span::default(), |key| key.method));
        self.maybe(key.as_ref().and_then(|key| key.text));
    }
}

struct Area(Vec<u8>);

impl Area {
    fn put(&mut self, place: usize) -> Put<'_> {
        Put {
            bytes: &mut self.0[place..],
            at: 0,
        }
    }

    /// The beginning of a part: a field, or a table's count.
    fn single(&mut self, name: &str) -> Put<'_> {
        self.put(part(name).at)
    }

    fn row(&mut self, name: &str, number: usize, fill: &dyn Fn(&mut Put)) {
        let part = part(name);
        if number < part.rows {
            fill(&mut self.put(part.at + 2 + number * part.width));
        }
    }
}

fn part(name: &str) -> &'static Part {
    PARTS.iter().find(|part| part.name == name).unwrap()
}

/// The area of a session. Records beyond a table's size are left out.
pub fn encode(seen: &Seen<Span>) -> Vec<u8> {
    let mut area = Area(vec![0; SIZE]);
    if let Some(origin) = &seen.origin {
        let mut put = area.single("origin");
        put.two(1);
        put.maybe(origin.username);
        put.span(origin.sess_id);
        put.eight(origin.sess_version);
        put.span(origin.nettype);
        put.span(origin.addrtype);
        put.span(origin.unicast_address);
    }
    area.single("name").span(seen.name);
    area.single("description").maybe(seen.description);
    area.single("uri").maybe(seen.uri);
    if let Some(connection) = &seen.connection {
        let mut put = area.single("connection");
        put.two(1);
        put.connection(connection);
    }
    area.single("key").key(&seen.key);
    for (count, part) in seen.counts().into_iter().zip(&PARTS[6..]) {
        area.single(part.name).two(count.min(part.rows));
    }
    for (i, email) in seen.emails.iter().enumerate() {
        area.row("emails", i, &|put| put.span(*email));
    }
    for (i, phone) in seen.phones.iter().enumerate() {
        area.row("phones", i, &|put| put.span(*phone));
    }
    for (i, read) in seen.connections.iter().enumerate() {
        area.row("media connections", i, &|put| {
            put.two(read.owner as usize);
            put.connection(&read.connection);
        });
    }
    for (i, read) in seen.bandwidths.iter().enumerate() {
        area.row("bandwidths", i, &|put| {
            put.two(read.owner as usize);
            put.span(read.bwtype);
            put.eight(read.value);
        });
    }
    for (i, read) in seen.times.iter().enumerate() {
        area.row("times", i, &|put| {
            put.eight(read.start);
            put.eight(read.stop);
        });
    }
    for (i, read) in seen.repeats.iter().enumerate() {
        area.row("repeats", i, &|put| {
            put.two(read.owner as usize);
            put.eight(read.interval);
            put.eight(read.duration);
        });
    }
    for (i, read) in seen.offsets.iter().enumerate() {
        area.row("offsets", i, &|put| {
            put.two(read.owner as usize);
            put.eight(read.value);
        });
    }
    for (i, read) in seen.zones.iter().enumerate() {
        area.row("zones", i, &|put| {
            put.eight(read.adjustment);
            put.eight(read.offset as u64);
        });
    }
    for (i, read) in seen.attributes.iter().enumerate() {
        area.row("attributes", i, &|put| {
            put.two(read.owner as usize);
            put.span(read.name);
            put.maybe(read.value);
        });
    }
    for (i, read) in seen.medias.iter().enumerate() {
        area.row("medias", i, &|put| {
            put.span(read.media);
            put.two(read.port as usize);
            put.two(usize::from(read.num_ports.is_some()));
            put.two(read.num_ports.unwrap_or(0) as usize);
            put.span(read.proto);
            put.span(read.fmt);
            put.maybe(read.title);
            put.key(&read.key);
        });
    }
    area.0
}
