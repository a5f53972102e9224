//! A plain writer in Rust, after documents 01 and 02, with one slip in it if wanted. Nothing is compared with this writer.
use compare::area::{COLUMNS, SIZE};
use compare::judge::part;
use compare::made::{at, line_at};
use compare::Answer;

/// What each slip does wrong. The comparison must find every one.
pub const SLIPS: [&str; 98] = [
    "every session is refused",
    "nothing is refused for its output",
    "an exact output is too short",
    "22 has the output's length and one more",
    "22 has a length that is always enough",
    "a short output gets a beginning",
    "a bad session leaves a byte",
    "a zero byte stands behind the text",
    "the rest of the output is cleared",
    "the length is one less",
    "LF alone ends a line",
    "no time, no t line",
    "no zone, an empty z line",
    "an empty username is written as nothing",
    "a username is judged after the dropping",
    "a missing origin is left out",
    "an empty name is a dash",
    "NUL is kept",
    "CR is kept",
    "LF is kept",
    "tabs are dropped",
    "0 is 0d",
    "no days",
    "no hours",
    "no minutes",
    "s for seconds",
    "the sign of a zone is dropped",
    "a zone is written as an unsigned number",
    "-2^63 loses one",
    "zones have no unit",
    "an empty attribute value is absent",
    "no ports are absent",
    "a port has eight bits",
    "all repeats belong to the first time",
    "offsets belong to the repeat of their number",
    "a media's bandwidths before its connections",
    "a key is written",
    "a media's key is written",
    "an empty k line for a key",
    "phones before emails",
    "a count may be one over",
    "a full table is refused",
    "only the lower byte of a count is judged",
    "empty strings may stand anywhere",
    "a string may reach one byte over",
    "a string may not reach the end",
    "place and length wrap at 16 bits",
    "UTF-8 is not judged",
    "the name is not judged",
    "owners may fall",
    "owners may fall by one",
    "an owner may be one over",
    "connections may belong to the session",
    "offsets are held to the times",
    "a mark may be 2",
    "only the lower byte of a mark is judged",
    "absent strings are judged",
    "rows past the count are judged",
    "a session with a key is refused",
    "a media with a key is refused",
    "the session's key is not judged",
    "a media's key is not judged",
    "a key's text is not judged",
    "lines are not judged",
    "a line may be 32,769",
    "a line of 32,768 is refused",
    "only the upper byte of a line is judged",
    "a line beyond the text is refused",
    "lines of absent fields are judged",
    "lines past the count are judged",
    "the line of a table's last row is not judged",
    "the name's line is not judged",
    "the line of an empty name is not judged",
    "the key's line is not judged",
    "the lines of offsets are not judged",
    "the lines of zones are not judged",
    "the lines of titles are not judged",
    "the lines of medias' keys are not judged",
    "a title's line is judged by the media's key",
    "the lines of the session's fields are not judged",
    "a length is one more",
    "a length is one less",
    "a length is always enough",
    "a length counts what is dropped",
    "a length counts the keys",
    "a length is answered with 22",
    "a bad session has a length",
    "a refusal of the length has one",
    "a length: 1 before 2",
    "a length: 23 before 1",
    "a length: no 1",
    "a length: no 2",
    "filling: 1 before 2",
    "filling: 23 before 1",
    "filling: 22 before 23",
    "filling: no 1",
    "filling: 1 leaves a byte",
    "filling: 2 leaves a byte",
];

pub struct PlainWriter {
    pub slip: &'static str,
}

fn answer(number: u64, len: usize) -> Answer {
    Answer {
        number,
        len: len as u64,
        ..Answer::default()
    }
}

impl PlainWriter {
    fn slips(&self, slip: &str) -> bool {
        assert!(SLIPS.contains(&slip));
        self.slip == slip
    }

    /// Whether the session can be written, and what is written then. Of an area that is too short the rest is zero.
    fn session(&self, text: &[u8], area: &[u8]) -> (bool, Vec<u8>) {
        let mut whole = area.to_vec();
        whole.resize(SIZE.max(area.len()), 0);
        let mut pen = Pen {
            plain: self,
            text,
            area: &whole,
            out: Vec::new(),
        };
        let good = pen.good() && !self.slips("every session is refused");
        pen.session();
        (good, pen.out)
    }

    /// What one of the two calls, `length` or `filling`, refuses before it looks at an output; or what is written.
    fn judged(&self, call: &str, text: &[u8], area: &[u8]) -> Result<Vec<u8>, u64> {
        let slips = |what: &str| self.slip.strip_prefix(call).map_or(false, |rest| rest == what);
        let (good, written) = self.session(text, area);
        let (short, long) = (area.len() < SIZE && !slips(": no 2"), text.len() > 32_768 && !slips(": no 1"));
        if short && long {
            return Err(if slips(": 1 before 2") { 1 } else { 2 });
        }
        if long && !good && slips(": 23 before 1") {
            return Err(23);
        }
        match (short, long, good) {
            (true, ..) => Err(2),
            (_, true, _) => Err(1),
            (.., false) => Err(23),
            _ => Ok(written),
        }
    }

    pub fn length(&self, text: &[u8], area: &[u8]) -> Answer {
        // as long as a writer with another slip would write it
        let by = |slip| PlainWriter { slip }.session(text, area).1.len();
        match (self.judged("a length", text, area), self.slip) {
            (Err(23), "a bad session has a length") => answer(0, by("")),
            (Err(number), "a refusal of the length has one") => answer(number, by("")),
            (Err(number), _) => answer(number, 0),
            (Ok(written), "a length is one more") => answer(0, written.len() + 1),
            (Ok(written), "a length is one less") => answer(0, written.len() - 1),
            (Ok(written), "a length is always enough") => answer(0, written.len() + 100),
            (Ok(_), "a length counts what is dropped") => answer(0, by("CR is kept")),
            (Ok(_), "a length counts the keys") => answer(0, by("a media's key is written")),
            (Ok(written), "a length is answered with 22") => answer(22, written.len()),
            (Ok(written), _) => answer(0, written.len()),
        }
    }

    pub fn fill(&self, text: &[u8], area: &[u8], out: &mut [u8]) -> Answer {
        let room = out.len();
        let written = match self.judged("filling", text, area) {
            Ok(written) => written,
            Err(number) => {
                let left = match number {
                    1 => self.slips("filling: 1 leaves a byte"),
                    2 => self.slips("filling: 2 leaves a byte"),
                    _ => self.slips("a bad session leaves a byte"),
                };
                if left && room > 0 {
                    out[0] = b'v';
                }
                let needed = self.session(text, area).1.len();
                let too_short = number == 23 && room < needed && self.slips("filling: 22 before 23");
                return if too_short { answer(22, needed) } else { answer(number, 0) };
            }
        };
        if room < written.len() && self.slips("nothing is refused for its output") {
            out.copy_from_slice(&written[..room]);
            return answer(0, room);
        }
        if room < written.len() || room == written.len() && self.slips("an exact output is too short") {
            if self.slips("a short output gets a beginning") {
                out.copy_from_slice(&written[..room]);
            }
            return match self.slip {
                "22 has the output's length and one more" => answer(22, room + 1),
                "22 has a length that is always enough" => answer(22, written.len() + 100),
                _ => answer(22, written.len()),
            };
        }
        let (first, rest) = out.split_at_mut(written.len());
        first.copy_from_slice(&written);
        match rest.first_mut() {
            Some(byte) if self.slips("a zero byte stands behind the text") => *byte = 0,
            Some(_) if self.slips("the rest of the output is cleared") => rest.fill(0),
            _ => {}
        }
        answer(0, written.len() - usize::from(self.slips("the length is one less")))
    }
}

struct Pen<'a> {
    plain: &'a PlainWriter,
    text: &'a [u8],
    area: &'a [u8],
    out: Vec<u8>,
}

impl<'a> Pen<'a> {
    fn slips(&self, slip: &str) -> bool {
        self.plain.slips(slip)
    }

    // ---- cells

    fn two(&self, at: usize) -> usize {
        usize::from(u16::from_le_bytes([self.area[at], self.area[at + 1]]))
    }

    fn eight(&self, at: usize) -> u64 {
        u64::from_le_bytes(self.area[at..at + 8].try_into().unwrap())
    }

    /// A slip may let a place outside the text pass: then nothing stands there.
    fn bytes(&self, at: usize) -> &'a [u8] {
        let place = self.two(at);
        self.text.get(place..place + self.two(at + 2)).unwrap_or(b"")
    }

    fn rows(&self, name: &str) -> usize {
        self.two(part(name).at).min(part(name).rows)
    }

    fn present(&self, at: usize) -> bool {
        self.two(at) == 1 || self.two(at) == 2 && self.slips("a mark may be 2")
    }

    // ---- judging

    fn good(&self) -> bool {
        self.counts() && self.owners() && self.singles() && self.tables() && self.lines()
    }

    fn line(&self, at: usize) -> bool {
        let line = self.two(at);
        match self.plain.slip {
            "lines are not judged" => true,
            "a line may be 32,769" => line <= 32_769,
            "a line of 32,768 is refused" => line < 32_768,
            "only the upper byte of a line is judged" => line / 256 <= 128,
            "a line beyond the text is refused" => line <= self.text.len(),
            _ => line <= 32_768,
        }
    }

    /// Of counted rows, of present fields, and of the name.
    fn lines(&self) -> bool {
        let absent = self.slips("lines of absent fields are judged");
        let marked = |mark: usize| self.present(mark) || absent;
        COLUMNS.iter().all(|column| {
            let unjudged = match column.name {
                "name" if self.slips("the name's line is not judged") => true,
                "name" => self.slips("the line of an empty name is not judged") && self.two(part("name").at + 2) == 0,
                "key" => self.slips("the key's line is not judged"),
                "offsets" => self.slips("the lines of offsets are not judged"),
                "zones" => self.slips("the lines of zones are not judged"),
                "media titles" => self.slips("the lines of titles are not judged"),
                "media keys" => self.slips("the lines of medias' keys are not judged"),
                _ => false,
            };
            if unjudged || column.cells == 1 && self.slips("the lines of the session's fields are not judged") {
                return true;
            }
            let of_media = |row: usize| part("medias").at + 2 + row * part("medias").width;
            let title = if self.slips("a title's line is judged by the media's key") { 24 } else { 18 };
            let table = column.name.strip_prefix("media ").filter(|rest| *rest != "connections").map_or(column.name, |_| "medias");
            let rows = match column.cells {
                1 => 1,
                cells => {
                    let more = usize::from(self.slips("lines past the count are judged"));
                    let less = usize::from(self.slips("the line of a table's last row is not judged"));
                    (self.rows(table) + more).min(cells).saturating_sub(less)
                }
            };
            (0..rows).all(|row| {
                let there = match column.name {
                    "name" => true,
                    "media titles" => marked(of_media(row) + title),
                    "media keys" => marked(of_media(row) + 24),
                    name if column.cells == 1 => marked(part(name).at),
                    _ => true,
                };
                !there || self.line(line_at(column.name, row))
            })
        })
    }

    fn counts(&self) -> bool {
        compare::area::PARTS.iter().filter(|part| part.rows > 0).all(|part| {
            let count = self.two(part.at);
            match self.plain.slip {
                "a count may be one over" => count <= part.rows + 1,
                "a full table is refused" => count < part.rows,
                "only the lower byte of a count is judged" => count % 256 <= part.rows,
                _ => count <= part.rows,
            }
        })
    }

    fn owners(&self) -> bool {
        let medias = self.two(part("medias").at);
        let lowest = usize::from(!self.slips("connections may belong to the session"));
        let repeats = if self.slips("offsets are held to the times") { "times" } else { "repeats" };
        [
            ("media connections", lowest, medias),
            ("bandwidths", 0, medias),
            ("repeats", 1, self.two(part("times").at)),
            ("offsets", 1, self.two(part(repeats).at)),
            ("attributes", 0, medias),
        ]
        .iter()
        .all(|(name, lowest, most)| {
            let mut before = *lowest;
            (0..self.rows(name)).all(|row| {
                let owner = self.two(at(name, row, "owner"));
                let falls = match self.plain.slip {
                    "owners may fall" => owner < *lowest,
                    "owners may fall by one" => owner < *lowest || owner + 1 < before,
                    _ => owner < before,
                };
                before = owner;
                !falls && owner <= most + usize::from(self.slips("an owner may be one over"))
            })
        })
    }

    fn string(&self, at: usize) -> bool {
        let (place, len) = (self.two(at), self.two(at + 2));
        let end = match self.plain.slip {
            "place and length wrap at 16 bits" => (place + len) % 65_536,
            "a string may reach one byte over" => (place + len).saturating_sub(1),
            "a string may not reach the end" if len > 0 => place + len + 1,
            "empty strings may stand anywhere" if len == 0 => 0,
            _ => place + len,
        };
        let bytes = self.text.get(place..place + len).unwrap_or(b"");
        end <= self.text.len() && (self.slips("UTF-8 is not judged") || std::str::from_utf8(bytes).is_ok())
    }

    fn mark(&self, at: usize) -> bool {
        match self.plain.slip {
            "a mark may be 2" => self.two(at) <= 2,
            "only the lower byte of a mark is judged" => self.area[at] <= 1,
            _ => self.two(at) <= 1,
        }
    }

    fn maybe(&self, at: usize) -> bool {
        let judged = self.present(at) || self.slips("absent strings are judged");
        self.mark(at) && (!judged || self.string(at + 2))
    }

    /// Judged, and not written.
    fn key(&self, at: usize, refused: &str, unjudged: &str) -> bool {
        if self.present(at) && self.slips(refused) {
            return false;
        }
        let text = self.slips("a key's text is not judged") || self.maybe(at + 6);
        self.slips(unjudged) || self.mark(at) && (!self.present(at) || self.string(at + 2) && text)
    }

    fn strings(&self, at: usize, count: usize) -> bool {
        (0..count).all(|number| self.string(at + 4 * number))
    }

    fn singles(&self) -> bool {
        let (origin, connection) = (part("origin").at, part("connection").at);
        let name = self.slips("the name is not judged") || self.string(part("name").at);
        let rest = self.maybe(origin + 2) && self.string(origin + 8) && self.strings(origin + 20, 3);
        name && self.mark(origin)
            && (!self.present(origin) || rest)
            && self.maybe(part("description").at)
            && self.maybe(part("uri").at)
            && self.mark(connection)
            && (!self.present(connection) || self.strings(connection + 2, 3))
            && self.key(part("key").at, "a session with a key is refused", "the session's key is not judged")
    }

    fn tables(&self) -> bool {
        let each = |name: &str, good: &dyn Fn(usize) -> bool| {
            let more = usize::from(self.slips("rows past the count are judged"));
            let rows = (self.rows(name) + more).min(part(name).rows);
            (0..rows).all(|row| good(part(name).at + 2 + row * part(name).width))
        };
        each("emails", &|row| self.string(row))
            && each("phones", &|row| self.string(row))
            && each("media connections", &|row| self.strings(row + 2, 3))
            && each("bandwidths", &|row| self.string(row + 2))
            && each("attributes", &|row| self.string(row + 2) && self.maybe(row + 6))
            && each("medias", &|row| {
                let key = self.key(row + 24, "a media with a key is refused", "a media's key is not judged");
                self.mark(row + 6) && self.string(row) && self.strings(row + 10, 2) && self.maybe(row + 18) && key
            })
    }

    // ---- writing

    fn put(&mut self, text: &str) {
        self.out.extend(text.bytes());
    }

    fn free(&mut self, at: usize) {
        let (nul, cr, lf) = (self.slips("NUL is kept"), self.slips("CR is kept"), self.slips("LF is kept"));
        let tab = !self.slips("tabs are dropped");
        self.out.extend(self.bytes(at).iter().filter(|byte| match byte {
            0 => nul,
            b'\r' => cr,
            b'\n' => lf,
            b'\t' => tab,
            _ => true,
        }));
    }

    fn end(&mut self) {
        self.put(if self.slips("LF alone ends a line") { "\n" } else { "\r\n" });
    }

    fn string_line(&mut self, letter: &str, at: usize) {
        self.put(letter);
        self.free(at);
        self.end();
    }

    fn time(&mut self, seconds: u64) {
        let units = [("no days", "d", 86_400), ("no hours", "h", 3_600), ("no minutes", "m", 60)];
        let unit = units.iter().find(|(slip, _, factor)| seconds % factor == 0 && !self.slips(slip));
        let written = match unit {
            _ if seconds == 0 => if self.slips("0 is 0d") { "0d" } else { "0" }.to_string(),
            Some((_, unit, factor)) => format!("{}{unit}", seconds / factor),
            None if self.slips("s for seconds") => format!("{seconds}s"),
            None => seconds.to_string(),
        };
        self.put(&written);
    }

    fn connection(&mut self, at: usize) {
        self.put("c=");
        self.free(at);
        self.put(" ");
        self.free(at + 4);
        self.put(" ");
        self.free(at + 8);
        self.end();
    }

    /// By a slip alone: a key is never written.
    fn key_line(&mut self, slip: &str, at: usize) {
        let written = self.slips(slip);
        if !self.present(at) || !written && !self.slips("an empty k line for a key") {
            return;
        }
        self.put("k=");
        if written {
            self.free(at + 2);
            if self.present(at + 6) {
                self.put(":");
                self.free(at + 8);
            }
        }
        self.end();
    }

    fn bandwidths(&mut self, owner: usize) {
        for row in 0..self.rows("bandwidths") {
            if self.two(at("bandwidths", row, "owner")) == owner {
                self.put("b=");
                self.free(at("bandwidths", row, "type"));
                let value = self.eight(at("bandwidths", row, "value"));
                self.put(&format!(":{value}"));
                self.end();
            }
        }
    }

    fn attributes(&mut self, owner: usize) {
        for row in 0..self.rows("attributes") {
            let value = at("attributes", row, "value");
            if self.two(at("attributes", row, "owner")) != owner {
                continue;
            }
            self.put("a=");
            self.free(at("attributes", row, "name"));
            let empty = self.two(value + 2) == 0;
            if self.present(value - 2) && !(empty && self.slips("an empty attribute value is absent")) {
                self.put(":");
                self.free(value);
            }
            self.end();
        }
    }

    fn origin(&mut self) {
        let at = part("origin").at;
        if !self.present(at) {
            if !self.slips("a missing origin is left out") {
                self.put("o=- 0 0 IN IP4 0.0.0.0");
                self.end();
            }
            return;
        }
        self.put("o=");
        let user = self.bytes(at + 4);
        let nothing = match self.plain.slip {
            "an empty username is written as nothing" => false,
            "a username is judged after the dropping" => user.iter().all(|byte| matches!(byte, 0 | b'\r' | b'\n')),
            _ => user.is_empty(),
        };
        if !self.present(at + 2) || nothing {
            self.put("-");
        } else {
            self.free(at + 4);
        }
        self.put(" ");
        self.free(at + 8);
        let version = self.eight(at + 12);
        self.put(&format!(" {version} "));
        self.free(at + 20);
        self.put(" ");
        self.free(at + 24);
        self.put(" ");
        self.free(at + 28);
        self.end();
    }

    fn times(&mut self) {
        for time in 0..self.rows("times") {
            let (start, stop) = (self.eight(at("times", time, "start")), self.eight(at("times", time, "stop")));
            self.put(&format!("t={start} {stop}"));
            self.end();
            for repeat in 0..self.rows("repeats") {
                let owner = self.two(at("repeats", repeat, "owner"));
                if owner != time + 1 && !(self.slips("all repeats belong to the first time") && time == 0) {
                    continue;
                }
                self.put("r=");
                self.time(self.eight(at("repeats", repeat, "interval")));
                self.put(" ");
                self.time(self.eight(at("repeats", repeat, "duration")));
                for offset in 0..self.rows("offsets") {
                    let owner = match self.plain.slip {
                        "offsets belong to the repeat of their number" => offset + 1,
                        _ => self.two(at("offsets", offset, "owner")),
                    };
                    if owner == repeat + 1 {
                        self.put(" ");
                        self.time(self.eight(at("offsets", offset, "value")));
                    }
                }
                self.end();
            }
        }
        if self.rows("times") == 0 && !self.slips("no time, no t line") {
            self.put("t=0 0");
            self.end();
        }
    }

    fn zones(&mut self) {
        if self.rows("zones") == 0 && !self.slips("no zone, an empty z line") {
            return;
        }
        self.put("z=");
        for row in 0..self.rows("zones") {
            let adjustment = self.eight(at("zones", row, "adjustment"));
            let bits = self.eight(at("zones", row, "offset"));
            self.put(&format!("{}{adjustment} ", if row > 0 { " " } else { "" }));
            let (negative, mut magnitude) = ((bits as i64) < 0, (bits as i64).unsigned_abs());
            if self.slips("a zone is written as an unsigned number") {
                self.time(bits);
                continue;
            }
            if negative && !self.slips("the sign of a zone is dropped") {
                self.put("-");
            }
            if magnitude == 1 << 63 && self.slips("-2^63 loses one") {
                magnitude -= 1;
            }
            if self.slips("zones have no unit") {
                self.put(&magnitude.to_string());
            } else {
                self.time(magnitude);
            }
        }
        self.end();
    }

    fn media(&mut self, media: usize) {
        let row = part("medias").at + 2 + media * part("medias").width;
        self.put("m=");
        self.free(row);
        let port = self.two(row + 4) % if self.slips("a port has eight bits") { 256 } else { 65_536 };
        self.put(&format!(" {port}"));
        let ports = self.two(row + 8);
        if self.present(row + 6) && !(ports == 0 && self.slips("no ports are absent")) {
            self.put(&format!("/{ports}"));
        }
        self.put(" ");
        self.free(row + 10);
        self.put(" ");
        self.free(row + 14);
        self.end();
        if self.present(row + 18) {
            self.string_line("i=", row + 20);
        }
        let swapped = self.slips("a media's bandwidths before its connections");
        if swapped {
            self.bandwidths(media + 1);
        }
        for connection in 0..self.rows("media connections") {
            if self.two(at("media connections", connection, "owner")) == media + 1 {
                self.connection(at("media connections", connection, "nettype"));
            }
        }
        if !swapped {
            self.bandwidths(media + 1);
        }
        self.key_line("a media's key is written", row + 24);
        self.attributes(media + 1);
    }

    fn session(&mut self) {
        self.put("v=0");
        self.end();
        self.origin();
        self.put("s=");
        if self.slips("an empty name is a dash") && self.bytes(part("name").at).is_empty() {
            self.put("-");
        }
        self.free(part("name").at);
        self.end();
        for (name, letter) in [("description", "i="), ("uri", "u=")] {
            if self.present(part(name).at) {
                self.string_line(letter, part(name).at + 2);
            }
        }
        let mut people = [("emails", "e=", "email"), ("phones", "p=", "phone")];
        if self.slips("phones before emails") {
            people.reverse();
        }
        for (name, letter, field) in people {
            for row in 0..self.rows(name) {
                self.string_line(letter, at(name, row, field));
            }
        }
        if self.present(part("connection").at) {
            self.connection(part("connection").at + 2);
        }
        self.bandwidths(0);
        self.times();
        self.zones();
        self.key_line("a key is written", part("key").at);
        self.attributes(0);
        for media in 0..self.rows("medias") {
            self.media(media);
        }
    }
}
