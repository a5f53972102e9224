//! The record area, read with docs/AREA.md in hand: bytes into a session whose strings are places in the text, and that
//! into one whose strings are bytes. Whatever breaks the page's rules is an error. A test holds `PARTS` and `COLUMNS` to the
//! page.

/// Bytes of the area: the session, and behind it the lines.
pub const SIZE: usize = 16_938;

/// Bytes of the session: all that an area was before records had lines.
pub const SESSION: usize = 14_558;

/// No line is above this.
pub const LAST_LINE: usize = 32_768;

/// A part of the area: what a session has at most once, or a table.
#[derive(Debug)]
pub struct Part {
    pub name: &'static str,
    pub at: usize,
    /// The most rows, which a count of two bytes precedes; 0 where there is no table.
    pub rows: usize,
    /// Bytes of a row, or of the part that is no table.
    pub width: usize,
    /// Offset, bytes and name of each field in a row.
    pub fields: &'static [(usize, usize, &'static str)],
}

impl Part {
    pub const fn bytes(&self) -> usize {
        if self.rows == 0 {
            self.width
        } else {
            2 + self.rows * self.width
        }
    }
}

/// All parts in their order; the last ten are document 01's tables 1 to 10.
pub static PARTS: [Part; 16] = [
    Part {
        name: "origin",
        at: 0,
        rows: 0,
        width: 32,
        fields: &[
            (0, 2, "mark"),
            (2, 2, "username mark"),
            (4, 4, "username"),
            (8, 4, "sess-id"),
            (12, 8, "sess-version"),
            (20, 4, "nettype"),
            (24, 4, "addrtype"),
            (28, 4, "unicast-address"),
        ],
    },
    Part {
        name: "name",
        at: 32,
        rows: 0,
        width: 4,
        fields: &[(0, 4, "name")],
    },
    Part {
        name: "description",
        at: 36,
        rows: 0,
        width: 6,
        fields: &[(0, 2, "mark"), (2, 4, "description")],
    },
    Part {
        name: "uri",
        at: 42,
        rows: 0,
        width: 6,
        fields: &[(0, 2, "mark"), (2, 4, "uri")],
    },
    Part {
        name: "connection",
        at: 48,
        rows: 0,
        width: 14,
        fields: &[(0, 2, "mark"), (2, 4, "nettype"), (6, 4, "addrtype"), (10, 4, "address")],
    },
    Part {
        name: "key",
        at: 62,
        rows: 0,
        width: 12,
        fields: &[(0, 2, "mark"), (2, 4, "method"), (6, 2, "text mark"), (8, 4, "text")],
    },
    Part {
        name: "emails",
        at: 74,
        rows: 16,
        width: 4,
        fields: &[(0, 4, "email")],
    },
    Part {
        name: "phones",
        at: 140,
        rows: 16,
        width: 4,
        fields: &[(0, 4, "phone")],
    },
    Part {
        name: "media connections",
        at: 206,
        rows: 64,
        width: 14,
        fields: &[(0, 2, "owner"), (2, 4, "nettype"), (6, 4, "addrtype"), (10, 4, "address")],
    },
    Part {
        name: "bandwidths",
        at: 1_104,
        rows: 64,
        width: 14,
        fields: &[(0, 2, "owner"), (2, 4, "type"), (6, 8, "value")],
    },
    Part {
        name: "times",
        at: 2_002,
        rows: 32,
        width: 16,
        fields: &[(0, 8, "start"), (8, 8, "stop")],
    },
    Part {
        name: "repeats",
        at: 2_516,
        rows: 64,
        width: 18,
        fields: &[(0, 2, "owner"), (2, 8, "interval"), (10, 8, "duration")],
    },
    Part {
        name: "offsets",
        at: 3_670,
        rows: 256,
        width: 10,
        fields: &[(0, 2, "owner"), (2, 8, "value")],
    },
    Part {
        name: "zones",
        at: 6_232,
        rows: 64,
        width: 16,
        fields: &[(0, 8, "adjustment"), (8, 8, "offset")],
    },
    Part {
        name: "attributes",
        at: 7_258,
        rows: 512,
        width: 12,
        fields: &[(0, 2, "owner"), (2, 4, "name"), (6, 2, "value mark"), (8, 4, "value")],
    },
    Part {
        name: "medias",
        at: 13_404,
        rows: 32,
        width: 36,
        fields: &[
            (0, 4, "media"),
            (4, 2, "port"),
            (6, 2, "num-ports mark"),
            (8, 2, "num-ports"),
            (10, 4, "proto"),
            (14, 4, "fmt"),
            (18, 2, "title mark"),
            (20, 4, "title"),
            (24, 2, "key mark"),
            (26, 4, "key method"),
            (30, 2, "key text mark"),
            (32, 4, "key text"),
        ],
    },
];

/// The lines of what a part holds, or of what each media may have: a cell of two bytes for each.
#[derive(Debug)]
pub struct Column {
    pub name: &'static str,
    pub at: usize,
    pub cells: usize,
}

const fn column(name: &'static str, at: usize, cells: usize) -> Column {
    Column { name, at, cells }
}

/// All columns in their order: those of the parts, and then two more of the medias.
pub static COLUMNS: [Column; 18] = [
    column("origin", 14_558, 1),
    column("name", 14_560, 1),
    column("description", 14_562, 1),
    column("uri", 14_564, 1),
    column("connection", 14_566, 1),
    column("key", 14_568, 1),
    column("emails", 14_570, 16),
    column("phones", 14_602, 16),
    column("media connections", 14_634, 64),
    column("bandwidths", 14_762, 64),
    column("times", 14_890, 32),
    column("repeats", 14_954, 64),
    column("offsets", 15_082, 256),
    column("zones", 15_594, 64),
    column("attributes", 15_722, 512),
    column("medias", 16_746, 32),
    column("media titles", 16_810, 32),
    column("media keys", 16_874, 32),
];

/// The line in each cell of a column.
pub fn lines(area: &[u8], column: &Column) -> Vec<usize> {
    let cells = area[column.at..column.at + 2 * column.cells].chunks_exact(2);
    cells.map(|cell| usize::from(u16::from_le_bytes([cell[0], cell[1]]))).collect()
}

/// A string as the area has it.
#[derive(Debug, Clone, Copy, PartialEq, Eq, Default)]
pub struct Span {
    pub place: usize,
    pub len: usize,
}

impl Span {
    pub fn end(self) -> usize {
        self.place + self.len
    }
}

#[derive(Debug, Clone, PartialEq, Eq)]
pub struct Origin<S> {
    pub username: Option<S>,
    pub sess_id: S,
    pub sess_version: u64,
    pub nettype: S,
    pub addrtype: S,
    pub unicast_address: S,
}

#[derive(Debug, Clone, PartialEq, Eq)]
pub struct Connection<S> {
    pub nettype: S,
    pub addrtype: S,
    pub address: S,
}

#[derive(Debug, Clone, PartialEq, Eq)]
pub struct Key<S> {
    pub method: S,
    pub text: Option<S>,
}

#[derive(Debug, Clone, PartialEq, Eq)]
pub struct MediaConnection<S> {
    pub owner: u64,
    pub connection: Connection<S>,
}

#[derive(Debug, Clone, PartialEq, Eq)]
pub struct Bandwidth<S> {
    pub owner: u64,
    pub bwtype: S,
    pub value: u64,
}

#[derive(Debug, Clone, PartialEq, Eq)]
pub struct Time {
    pub start: u64,
    pub stop: u64,
}

#[derive(Debug, Clone, PartialEq, Eq)]
pub struct Repeat {
    pub owner: u64,
    pub interval: u64,
    pub duration: u64,
}

#[derive(Debug, Clone, PartialEq, Eq)]
pub struct Offset {
    pub owner: u64,
    pub value: u64,
}

#[derive(Debug, Clone, PartialEq, Eq)]
pub struct Zone {
    pub adjustment: u64,
    pub offset: i64,
}

#[derive(Debug, Clone, PartialEq, Eq)]
pub struct Attribute<S> {
    pub owner: u64,
    pub name: S,
    pub value: Option<S>,
}

#[derive(Debug, Clone, PartialEq, Eq)]
pub struct Media<S> {
    pub media: S,
    pub port: u64,
    pub num_ports: Option<u64>,
    pub proto: S,
    pub fmt: S,
    pub title: Option<S>,
    pub key: Option<Key<S>>,
}

/// All that an area holds, over any kind of strings: spans, or the bytes themselves.
#[derive(Debug, Clone, PartialEq, Eq, Default)]
pub struct Seen<S> {
    pub origin: Option<Origin<S>>,
    pub name: S,
    pub description: Option<S>,
    pub uri: Option<S>,
    pub connection: Option<Connection<S>>,
    pub key: Option<Key<S>>,
    pub emails: Vec<S>,
    pub phones: Vec<S>,
    pub connections: Vec<MediaConnection<S>>,
    pub bandwidths: Vec<Bandwidth<S>>,
    pub times: Vec<Time>,
    pub repeats: Vec<Repeat>,
    pub offsets: Vec<Offset>,
    pub zones: Vec<Zone>,
    pub attributes: Vec<Attribute<S>>,
    pub medias: Vec<Media<S>>,
}

impl<S> Seen<S> {
    /// Of the ten tables, in their order.
    pub fn counts(&self) -> [usize; 10] {
        [
            self.emails.len(),
            self.phones.len(),
            self.connections.len(),
            self.bandwidths.len(),
            self.times.len(),
            self.repeats.len(),
            self.offsets.len(),
            self.zones.len(),
            self.attributes.len(),
            self.medias.len(),
        ]
    }

    /// Whether something is there that a cell of a column has the line of, for the first cells; nothing is for the others.
    fn there(&self, column: &str) -> Vec<bool> {
        match column {
            "origin" => vec![self.origin.is_some()],
            "name" => vec![true],
            "description" => vec![self.description.is_some()],
            "uri" => vec![self.uri.is_some()],
            "connection" => vec![self.connection.is_some()],
            "key" => vec![self.key.is_some()],
            "media titles" => self.medias.iter().map(|media| media.title.is_some()).collect(),
            "media keys" => self.medias.iter().map(|media| media.key.is_some()).collect(),
            table => {
                let number = PARTS[6..].iter().position(|part| part.name == table).expect("a table");
                vec![true; self.counts()[number]]
            }
        }
    }
}

/// Zero bytes only. A sum instead of a search, because it is run over whole areas and compiles to wide steps.
pub fn all_zero(bytes: &[u8]) -> bool {
    bytes.iter().fold(0, |any, byte| any | byte) == 0
}

/// Takes a row's fields one after another, each by its name, so that the decoder can't leave the table of fields.
struct Row<'a> {
    part: &'static Part,
    bytes: &'a [u8],
    next: usize,
}

impl<'a> Row<'a> {
    fn field(&mut self, name: &str) -> &'a [u8] {
        let (at, width, due) = self.part.fields[self.next];
        assert_eq!(due, name, "the decoder takes the fields in their order");
        self.next += 1;
        &self.bytes[at..at + width]
    }

    /// The lower byte first.
    fn number(&mut self, name: &str) -> u64 {
        self.field(name)
            .iter()
            .rev()
            .fold(0, |number, byte| number << 8 | u64::from(*byte))
    }

    fn string(&mut self, name: &str) -> Span {
        let both = self.number(name) as usize;
        Span {
            place: both & 0xffff,
            len: both >> 16,
        }
    }

    fn mark(&mut self, name: &str) -> Result<bool, String> {
        match self.number(name) {
            0 => Ok(false),
            1 => Ok(true),
            other => Err(format!("{}: the {name} is {other}", self.part.name)),
        }
    }

    /// What a mark says is there; else the `cells` fields after the mark must be zero.
    fn marked<T>(
        &mut self,
        mark: &str,
        cells: usize,
        take: impl FnOnce(&mut Self) -> Result<T, String>,
    ) -> Result<Option<T>, String> {
        if self.mark(mark)? {
            return take(self).map(Some);
        }
        for _ in 0..cells {
            let (at, width, name) = self.part.fields[self.next];
            if !all_zero(&self.bytes[at..at + width]) {
                return Err(format!("{}: {name} is absent and not zero", self.part.name));
            }
            self.next += 1;
        }
        Ok(None)
    }

    fn maybe_string(&mut self, mark: &str, name: &str) -> Result<Option<Span>, String> {
        self.marked(mark, 1, |row| Ok(row.string(name)))
    }

    fn connection(&mut self) -> Connection<Span> {
        Connection {
            nettype: self.string("nettype"),
            addrtype: self.string("addrtype"),
            address: self.string("address"),
        }
    }

    fn end(&self) {
        assert_eq!(self.next, self.part.fields.len(), "the decoder takes every field");
    }
}

fn part(name: &str) -> &'static Part {
    PARTS.iter().find(|part| part.name == name).expect("a part of the area")
}

/// A part that is no table.
fn single<T>(
    area: &[u8],
    name: &str,
    take: impl FnOnce(&mut Row) -> Result<T, String>,
) -> Result<T, String> {
    let part = part(name);
    let bytes = &area[part.at..part.at + part.width];
    let mut row = Row { part, bytes, next: 0 };
    let taken = take(&mut row)?;
    row.end();
    Ok(taken)
}

fn table<T>(
    area: &[u8],
    name: &str,
    mut take: impl FnMut(&mut Row) -> Result<T, String>,
) -> Result<Vec<T>, String> {
    let part = part(name);
    let bytes = &area[part.at..part.at + part.bytes()];
    let count = usize::from(u16::from_le_bytes([bytes[0], bytes[1]]));
    if count > part.rows {
        return Err(format!("{name}: {count} rows, and {} fit", part.rows));
    }
    let (rows, unused) = bytes[2..].split_at(count * part.width);
    if !all_zero(unused) {
        return Err(format!("{name}: the cells past row {count} are not all zero"));
    }
    rows.chunks_exact(part.width)
        .map(|bytes| {
            let mut row = Row { part, bytes, next: 0 };
            let taken = take(&mut row)?;
            row.end();
            Ok(taken)
        })
        .collect()
}

/// "Owners never fall", and each is a row of the table it names, or 0 for the session where that is allowed.
fn owners(of: &str, owners: impl Iterator<Item = u64>, lowest: u64, count: usize) -> Result<(), String> {
    let mut before = lowest;
    for (at, owner) in owners.enumerate() {
        if owner < before {
            return Err(format!("{of}: row {} has owner {owner}, after {before}", at + 1));
        }
        if owner > count as u64 {
            return Err(format!("{of}: row {} has owner {owner} of {count}", at + 1));
        }
        before = owner;
    }
    Ok(())
}

/// The session that the first `SIZE` bytes hold, by the rules for an area after acceptance. Its lines are judged, and are no
/// part of it: `lines` has them.
pub fn decode(area: &[u8]) -> Result<Seen<Span>, String> {
    if area.len() < SIZE {
        return Err(format!("an area has {SIZE} bytes, not {}", area.len()));
    }
    let seen = Seen {
        origin: single(area, "origin", |row| {
            row.marked("mark", 7, |row| {
                Ok(Origin {
                    username: row.maybe_string("username mark", "username")?,
                    sess_id: row.string("sess-id"),
                    sess_version: row.number("sess-version"),
                    nettype: row.string("nettype"),
                    addrtype: row.string("addrtype"),
                    unicast_address: row.string("unicast-address"),
                })
            })
        })?,
        name: single(area, "name", |row| Ok(row.string("name")))?,
        description: single(area, "description", |row| row.maybe_string("mark", "description"))?,
        uri: single(area, "uri", |row| row.maybe_string("mark", "uri"))?,
        connection: single(area, "connection", |row| row.marked("mark", 3, |row| Ok(row.connection())))?,
        key: single(area, "key", |row| {
            row.marked("mark", 3, |row| {
                Ok(Key {
                    method: row.string("method"),
                    text: row.maybe_string("text mark", "text")?,
                })
            })
        })?,
        emails: table(area, "emails", |row| Ok(row.string("email")))?,
        phones: table(area, "phones", |row| Ok(row.string("phone")))?,
        connections: table(area, "media connections", |row| {
            Ok(MediaConnection {
                owner: row.number("owner"),
                connection: row.connection(),
            })
        })?,
        bandwidths: table(area, "bandwidths", |row| {
            Ok(Bandwidth {
                owner: row.number("owner"),
                bwtype: row.string("type"),
                value: row.number("value"),
            })
        })?,
        times: table(area, "times", |row| {
            Ok(Time {
                start: row.number("start"),
                stop: row.number("stop"),
            })
        })?,
        repeats: table(area, "repeats", |row| {
            Ok(Repeat {
                owner: row.number("owner"),
                interval: row.number("interval"),
                duration: row.number("duration"),
            })
        })?,
        offsets: table(area, "offsets", |row| {
            Ok(Offset {
                owner: row.number("owner"),
                value: row.number("value"),
            })
        })?,
        zones: table(area, "zones", |row| {
            Ok(Zone {
                adjustment: row.number("adjustment"),
                offset: row.number("offset") as i64,
            })
        })?,
        attributes: table(area, "attributes", |row| {
            Ok(Attribute {
                owner: row.number("owner"),
                name: row.string("name"),
                value: row.maybe_string("value mark", "value")?,
            })
        })?,
        medias: table(area, "medias", |row| {
            Ok(Media {
                media: row.string("media"),
                port: row.number("port"),
                num_ports: row.marked("num-ports mark", 1, |row| Ok(row.number("num-ports")))?,
                proto: row.string("proto"),
                fmt: row.string("fmt"),
                title: row.maybe_string("title mark", "title")?,
                key: row.marked("key mark", 3, |row| {
                    Ok(Key {
                        method: row.string("key method"),
                        text: row.maybe_string("key text mark", "key text")?,
                    })
                })?,
            })
        })?,
    };
    let (times, repeats, medias) = (seen.times.len(), seen.repeats.len(), seen.medias.len());
    owners("media connections", seen.connections.iter().map(|row| row.owner), 1, medias)?;
    owners("bandwidths", seen.bandwidths.iter().map(|row| row.owner), 0, medias)?;
    owners("repeats", seen.repeats.iter().map(|row| row.owner), 1, times)?;
    owners("offsets", seen.offsets.iter().map(|row| row.owner), 1, repeats)?;
    owners("attributes", seen.attributes.iter().map(|row| row.owner), 0, medias)?;
    for column in &COLUMNS {
        let there = seen.there(column.name);
        for (cell, line) in lines(area, column).into_iter().enumerate() {
            let there = there.get(cell).copied().unwrap_or(false);
            if line > if there { LAST_LINE } else { 0 } {
                let what = if there { "above 32768" } else { "of nothing" };
                return Err(format!("{}: line {line} in cell {} is {what}", column.name, cell + 1));
            }
        }
    }
    Ok(seen)
}

impl Seen<Span> {
    /// The same with each string's bytes; a place outside the text is an error.
    pub fn strings(&self, text: &[u8]) -> Result<Seen<Vec<u8>>, String> {
        let bytes = |span: &Span| match text.get(span.place..span.end()) {
            Some(bytes) => Ok(bytes.to_vec()),
            None => Err(format!("{span:?} is outside a text of {} bytes", text.len())),
        };
        let maybe = |span: &Option<Span>| span.as_ref().map(bytes).transpose();
        let key = |key: &Option<Key<Span>>| match key {
            None => Ok(None),
            Some(key) => Ok::<_, String>(Some(Key {
                method: bytes(&key.method)?,
                text: maybe(&key.text)?,
            })),
        };
        let connection = |connection: &Connection<Span>| {
            Ok::<_, String>(Connection {
                nettype: bytes(&connection.nettype)?,
                addrtype: bytes(&connection.addrtype)?,
                address: bytes(&connection.address)?,
            })
        };
        let origin = |origin: &Origin<Span>| {
            Ok::<_, String>(Origin {
                username: maybe(&origin.username)?,
                sess_id: bytes(&origin.sess_id)?,
                sess_version: origin.sess_version,
                nettype: bytes(&origin.nettype)?,
                addrtype: bytes(&origin.addrtype)?,
                unicast_address: bytes(&origin.unicast_address)?,
            })
        };
        let media = |media: &Media<Span>| {
            Ok::<_, String>(Media {
                media: bytes(&media.media)?,
                port: media.port,
                num_ports: media.num_ports,
                proto: bytes(&media.proto)?,
                fmt: bytes(&media.fmt)?,
                title: maybe(&media.title)?,
                key: key(&media.key)?,
            })
        };
        Ok(Seen {
            origin: self.origin.as_ref().map(origin).transpose()?,
            name: bytes(&self.name)?,
            description: maybe(&self.description)?,
            uri: maybe(&self.uri)?,
            connection: self.connection.as_ref().map(connection).transpose()?,
            key: key(&self.key)?,
            emails: self.emails.iter().map(bytes).collect::<Result<_, _>>()?,
            phones: self.phones.iter().map(bytes).collect::<Result<_, _>>()?,
            connections: self
                .connections
                .iter()
                .map(|row| {
                    Ok(MediaConnection {
                        owner: row.owner,
                        connection: connection(&row.connection)?,
                    })
                })
                .collect::<Result<_, String>>()?,
            bandwidths: self
                .bandwidths
                .iter()
                .map(|row| {
                    Ok(Bandwidth {
                        owner: row.owner,
                        bwtype: bytes(&row.bwtype)?,
                        value: row.value,
                    })
                })
                .collect::<Result<_, String>>()?,
            times: self.times.clone(),
            repeats: self.repeats.clone(),
            offsets: self.offsets.clone(),
            zones: self.zones.clone(),
            attributes: self
                .attributes
                .iter()
                .map(|row| {
                    Ok(Attribute {
                        owner: row.owner,
                        name: bytes(&row.name)?,
                        value: maybe(&row.value)?,
                    })
                })
                .collect::<Result<_, String>>()?,
            medias: self.medias.iter().map(media).collect::<Result<_, _>>()?,
        })
    }
}
