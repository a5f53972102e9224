//! The view: a session read out of the area as it is walked. The places are those of docs/AREA.md.
use crate::{ffi, Area, Counts, Error, Starts};
use std::ops::Range;
use std::{fmt, io};

/// Where a table stands, the bytes of a row, and where the column of its rows' lines stands. Two bytes before the first row
/// have the count.
#[derive(Clone, Copy)]
struct Table {
    at: usize,
    width: usize,
    lines: usize,
}

const ORIGIN: usize = 0;
const NAME: usize = 32;
const DESCRIPTION: usize = 36;
const URI: usize = 42;
const CONNECTION: usize = 48;
const KEY: usize = 62;
const EMAILS: Table = Table { at: 74, width: 4, lines: 14_570 };
const PHONES: Table = Table { at: 140, width: 4, lines: 14_602 };
const CONNECTIONS: Table = Table { at: 206, width: 14, lines: 14_634 };
const BANDWIDTHS: Table = Table { at: 1_104, width: 14, lines: 14_762 };
const TIMES: Table = Table { at: 2_002, width: 16, lines: 14_890 };
const REPEATS: Table = Table { at: 2_516, width: 18, lines: 14_954 };
const OFFSETS: Table = Table { at: 3_670, width: 10, lines: 15_082 };
const ZONES: Table = Table { at: 6_232, width: 16, lines: 15_594 };
const ATTRIBUTES: Table = Table { at: 7_258, width: 12, lines: 15_722 };
const MEDIAS: Table = Table { at: 13_404, width: 36, lines: 16_746 };

// the lines of the fields, and the columns of those that each media may have
const ORIGIN_LINE: usize = 14_558;
const NAME_LINE: usize = 14_560;
const DESCRIPTION_LINE: usize = 14_562;
const URI_LINE: usize = 14_564;
const CONNECTION_LINE: usize = 14_566;
const KEY_LINE: usize = 14_568;
const TITLE_LINES: usize = 16_810;
const KEY_LINES: usize = 16_874;

/// The owner that is the session itself.
const SESSION: usize = 0;
/// Where a row's own cells begin in a table that has owners.
const OWNED: usize = 2;

/// Cells of the area from some place on, and the text that their strings stand in.
#[derive(Clone, Copy)]
struct Cells<'a> {
    text: &'a [u8],
    bytes: &'a [u8],
}

impl<'a> Cells<'a> {
    fn from(self, at: usize) -> Self {
        Cells { text: self.text, bytes: &self.bytes[at..] }
    }

    fn two(self, at: usize) -> u16 {
        u16::from_le_bytes([self.bytes[at], self.bytes[at + 1]])
    }

    fn eight(self, at: usize) -> u64 {
        (0..8).rev().fold(0, |number, byte| number << 8 | u64::from(self.bytes[at + byte]))
    }

    /// The place in the text, then the length.
    fn string(self, at: usize) -> &'a str {
        let (place, len) = (usize::from(self.two(at)), usize::from(self.two(at + 2)));
        let bytes = self.text.get(place..place + len).expect("strings of a good area stand in the text");
        std::str::from_utf8(bytes).expect("strings of a good area are UTF-8")
    }

    /// What a mark says is there: the cells behind it, taken.
    fn marked<T>(self, at: usize, take: impl FnOnce(Self) -> T) -> Option<T> {
        (self.two(at) == 1).then(|| take(self.from(at + 2)))
    }

    fn marked_string(self, at: usize) -> Option<&'a str> {
        self.marked(at, |cells| cells.string(0))
    }

    fn origin(self, line: u64) -> Origin<'a> {
        Origin {
            line,
            username: self.marked_string(0),
            sess_id: self.string(6),
            sess_version: self.eight(10),
            nettype: self.string(18),
            addrtype: self.string(22),
            unicast_address: self.string(26),
        }
    }

    fn connection(self, line: u64) -> Connection<'a> {
        Connection { line, nettype: self.string(0), addrtype: self.string(4), connection_address: self.string(8) }
    }

    fn key(self, line: u64) -> Key<'a> {
        Key { line, method: self.string(0), encryption_key: self.marked_string(4) }
    }
}

/// The line that each record carries.
macro_rules! line {
    () => {
        /// The line of the text that it was read from, counted from 1 as a refusal counts it ([`Error::line`]). 0 where that
        /// isn't known: of what was built by hand, and of an area that an earlier release left. Equality leaves it out, and
        /// `{:?}` too.
        pub fn line(&self) -> u64 {
            self.line
        }
    };
}

/// Originator of the session: the o line.
#[derive(Clone, Copy)]
pub struct Origin<'a> {
    line: u64,
    /// User's login on the originating host; `None` for `-`.
    pub username: Option<&'a str>,
    /// Session id. RFC 8866 wants digits; this is not checked, as in the crate.
    pub sess_id: &'a str,
    /// Session version number.
    pub sess_version: u64,
    /// Type of network, as it was written: the crate folds `in` to `IN`.
    pub nettype: &'a str,
    /// Type of the address, as it was written: the crate folds `ip4` to `IP4`.
    pub addrtype: &'a str,
    /// Address where the session was created.
    pub unicast_address: &'a str,
}

impl<'a> Origin<'a> {
    /// An originator built by hand, without a username and without a line.
    pub const fn new(
        sess_id: &'a str,
        sess_version: u64,
        nettype: &'a str,
        addrtype: &'a str,
        unicast_address: &'a str,
    ) -> Self {
        Origin { line: 0, username: None, sess_id, sess_version, nettype, addrtype, unicast_address }
    }

    line!();
}

/// What a missing o line stands for.
const PLACEHOLDER: Origin<'static> = Origin::new("0", 0, "IN", "IP4", "0.0.0.0");

/// A contact of the session: the e-mail address of an e line, or the phone number of a p line. It is used as a `&str`.
#[derive(Clone, Copy)]
pub struct Contact<'a> {
    line: u64,
    /// What stands in the line.
    pub contact: &'a str,
}

impl<'a> Contact<'a> {
    /// A contact built by hand: it has no line.
    pub const fn new(contact: &'a str) -> Self {
        Contact { line: 0, contact }
    }

    line!();
}

impl std::ops::Deref for Contact<'_> {
    type Target = str;

    fn deref(&self) -> &str {
        self.contact
    }
}

impl AsRef<str> for Contact<'_> {
    fn as_ref(&self) -> &str {
        self.contact
    }
}

impl<'a> From<Contact<'a>> for &'a str {
    fn from(contact: Contact<'a>) -> Self {
        contact.contact
    }
}

impl From<Contact<'_>> for String {
    fn from(contact: Contact<'_>) -> Self {
        contact.contact.into()
    }
}

/// Connection data of the session or of a media: a c line.
#[derive(Clone, Copy)]
pub struct Connection<'a> {
    line: u64,
    /// Type of network, as it was written.
    pub nettype: &'a str,
    /// Type of the address, as it was written.
    pub addrtype: &'a str,
    /// Connection address.
    pub connection_address: &'a str,
}

impl<'a> Connection<'a> {
    /// Connection data built by hand: it has no line.
    pub const fn new(nettype: &'a str, addrtype: &'a str, connection_address: &'a str) -> Self {
        Connection { line: 0, nettype, addrtype, connection_address }
    }

    line!();
}

/// Bandwidth of the session or of a media: a b line.
#[derive(Clone, Copy)]
pub struct Bandwidth<'a> {
    line: u64,
    /// Bandwidth type, such as `CT` or `AS`.
    pub bwtype: &'a str,
    /// Bandwidth.
    pub bandwidth: u64,
}

impl<'a> Bandwidth<'a> {
    /// A bandwidth built by hand: it has no line.
    pub const fn new(bwtype: &'a str, bandwidth: u64) -> Self {
        Bandwidth { line: 0, bwtype, bandwidth }
    }

    line!();
}

/// When the session is active: a t line with its r lines.
#[derive(Clone, Copy)]
pub struct Time<'a> {
    session: Session<'a>,
    number: usize,
    line: u64,
    /// Start time, in seconds since 1900.
    pub start_time: u64,
    /// Stop time, in seconds since 1900; 0 for no end.
    pub stop_time: u64,
}

impl<'a> Time<'a> {
    /// The r lines behind this t line.
    pub fn repeats(&self) -> Rows<'a, Repeat<'a>> {
        self.session.owned(REPEATS, self.number, Repeat::row)
    }

    line!();
}

/// When a time repeats: an r line. All in seconds.
#[derive(Clone, Copy)]
pub struct Repeat<'a> {
    session: Session<'a>,
    number: usize,
    line: u64,
    /// From one start to the next.
    pub repeat_interval: u64,
    /// How long it lasts each time.
    pub active_duration: u64,
}

impl<'a> Repeat<'a> {
    fn row(session: Session<'a>, number: usize) -> Self {
        let (cells, line) = (session.row(REPEATS, number).from(OWNED), session.line_of(REPEATS, number));
        Repeat { session, number, line, repeat_interval: cells.eight(0), active_duration: cells.eight(8) }
    }

    /// The offsets from the start time. Those of one r line carry its line.
    pub fn offsets(&self) -> Rows<'a, Offset> {
        self.session.owned(OFFSETS, self.number, |session, number| {
            let cells = session.row(OFFSETS, number).from(OWNED);
            Offset { line: session.line_of(OFFSETS, number), offset: cells.eight(0) }
        })
    }

    line!();
}

/// An offset of an r line: how long after the start time it begins, too.
#[derive(Clone, Copy)]
pub struct Offset {
    line: u64,
    /// In seconds.
    pub offset: u64,
}

impl Offset {
    /// An offset built by hand: it has no line.
    pub const fn new(offset: u64) -> Self {
        Offset { line: 0, offset }
    }

    line!();
}

impl From<Offset> for u64 {
    fn from(offset: Offset) -> Self {
        offset.offset
    }
}

/// `Debug`, `Display` and equality by what it holds: for records of one field, which are used as that.
macro_rules! by_content {
    ($type:ty: $field:ident, $content:ty) => {
        impl fmt::Debug for $type {
            fn fmt(&self, f: &mut fmt::Formatter<'_>) -> fmt::Result {
                fmt::Debug::fmt(&self.$field, f)
            }
        }

        impl fmt::Display for $type {
            fn fmt(&self, f: &mut fmt::Formatter<'_>) -> fmt::Result {
                fmt::Display::fmt(&self.$field, f)
            }
        }

        impl PartialEq for $type {
            fn eq(&self, other: &Self) -> bool {
                self.$field == other.$field
            }
        }

        impl Eq for $type {}

        impl PartialEq<$content> for $type {
            fn eq(&self, other: &$content) -> bool {
                self.$field == *other
            }
        }
    };
}

by_content!(Contact<'_>: contact, &str);
by_content!(Offset: offset, u64);

/// A pair of the z line: from when on the clock is shifted, and by how much.
#[derive(Clone, Copy)]
pub struct TimeZone {
    line: u64,
    /// When the shift begins, in seconds since 1900.
    pub adjustment_time: u64,
    /// The shift in seconds, with its sign: -3600 is minus one hour.
    pub offset: i64,
}

impl TimeZone {
    /// A pair built by hand: it has no line.
    pub const fn new(adjustment_time: u64, offset: i64) -> Self {
        TimeZone { line: 0, adjustment_time, offset }
    }

    line!();
}

/// Encryption key of the session or of a media, from a k line. RFC 8866 calls these obsolete: a line that is read today
/// gives no key, and none is written. Only an area that was kept from an earlier release has one.
#[derive(Clone, Copy)]
pub struct Key<'a> {
    line: u64,
    /// Key method.
    pub method: &'a str,
    /// The key itself; `None` where the line has no colon.
    pub encryption_key: Option<&'a str>,
}

impl<'a> Key<'a> {
    /// A key built by hand: it has no line.
    pub const fn new(method: &'a str, encryption_key: Option<&'a str>) -> Self {
        Key { line: 0, method, encryption_key }
    }

    line!();
}

/// Attribute of the session or of a media: an a line.
#[derive(Clone, Copy)]
pub struct Attribute<'a> {
    line: u64,
    /// Attribute name.
    pub attribute: &'a str,
    /// Attribute value: `None` for `a=x`, empty for `a=x:`.
    pub value: Option<&'a str>,
}

impl<'a> Attribute<'a> {
    /// An attribute built by hand: it has no line.
    pub const fn new(attribute: &'a str, value: Option<&'a str>) -> Self {
        Attribute { line: 0, attribute, value }
    }

    line!();
}

/// A media: an m line and the lines behind it.
#[derive(Clone, Copy)]
pub struct Media<'a> {
    session: Session<'a>,
    number: usize,
    line: u64,
    /// Media type, such as `audio`.
    pub media: &'a str,
    /// Port that the media is sent to.
    pub port: u16,
    /// Number of ports from `port` on.
    pub num_ports: Option<u16>,
    /// Transport protocol.
    pub proto: &'a str,
    /// Media formats, all of them as they stand in the line.
    pub fmt: &'a str,
    /// Title of the media: its i line.
    pub media_title: Option<&'a str>,
    /// Encryption key of the media: `None` in every session that is read today, whatever k lines its text has. Only an area
    /// that was kept from an earlier release has one, and it is never written.
    pub key: Option<Key<'a>>,
}

/// What the crate has of attributes by their name, for the session and for a media.
macro_rules! attributes_by_name {
    () => {
        /// Whether there is an attribute of this name. Case doesn't count.
        pub fn has_attribute(&self, name: &str) -> bool {
            self.get_first_attribute_value(name).is_some()
        }

        /// The value of the first attribute of this name. The outer `Option` says whether there is such an attribute,
        /// the inner one whether it has a value.
        pub fn get_first_attribute_value(&self, name: &str) -> Option<Option<&'a str>> {
            self.get_attribute_values(name).next()
        }

        /// The values of all attributes of this name. Case doesn't count.
        pub fn get_attribute_values<'n>(&self, name: &'n str) -> impl Iterator<Item = Option<&'a str>> + 'n
        where
            'a: 'n,
        {
            let named = self.attributes().filter(move |row| row.attribute.eq_ignore_ascii_case(name));
            named.map(|row| row.value)
        }
    };
}

impl<'a> Media<'a> {
    /// The media's c lines.
    pub fn connections(&self) -> Rows<'a, Connection<'a>> {
        self.session.owned(CONNECTIONS, self.number, |session, number| {
            session.row(CONNECTIONS, number).from(OWNED).connection(session.line_of(CONNECTIONS, number))
        })
    }

    /// The line that the title was read from: that of the media's i line. 0 where there is none, or where it isn't known.
    pub fn line_of_media_title(&self) -> u64 {
        self.media_title.map_or(0, |_| self.session.line_in(TITLE_LINES, self.number))
    }

    line!();

    /// The media's b lines.
    pub fn bandwidths(&self) -> Rows<'a, Bandwidth<'a>> {
        self.session.bandwidths_of(self.number)
    }

    /// The media's a lines.
    pub fn attributes(&self) -> Rows<'a, Attribute<'a>> {
        self.session.attributes_of(self.number)
    }

    attributes_by_name!();
}

/// A session that was read, as a view: it borrows the text and the area, and reads a part when it is asked for. It is
/// two references and a few numbers, so it is copied freely.
///
/// `{:?}` prints all of it. By [`Display`](fmt::Display) it is its written form.
#[derive(Clone, Copy)]
pub struct Session<'a> {
    text: &'a [u8],
    area: &'a Area,
    counts: Option<Counts>,
}

impl<'a> Session<'a> {
    /// Only for an area that this text was read into, with its counts, or that was judged with it.
    #[inline]
    pub(crate) fn new(text: &'a [u8], area: &'a Area, counts: Option<Counts>) -> Self {
        Session { text, area, counts }
    }

    fn cells(self, at: usize) -> Cells<'a> {
        Cells { text: self.text, bytes: &self.area.as_bytes()[at..] }
    }

    /// Row `number` of a table, from 1.
    fn row(self, table: Table, number: usize) -> Cells<'a> {
        self.cells(table.at + 2 + (number - 1) * table.width)
    }

    fn count(self, table: Table) -> usize {
        usize::from(self.cells(table.at).two(0))
    }

    /// The line in cell `number` of a column, from 1. That of a field is a column of one.
    fn line_in(self, column: usize, number: usize) -> u64 {
        u64::from(self.cells(column + (number - 1) * 2).two(0))
    }

    fn line_of(self, table: Table, number: usize) -> u64 {
        self.line_in(table.lines, number)
    }

    fn all<T>(self, table: Table, row: fn(Session<'a>, usize) -> T) -> Rows<'a, T> {
        Rows { session: self, left: 1..self.count(table) + 1, row }
    }

    /// The rows that belong to this owner. They stand together, because owners never fall from row to row.
    fn owned<T>(self, table: Table, owner: usize, row: fn(Session<'a>, usize) -> T) -> Rows<'a, T> {
        let first = self.first_from(table, owner);
        Rows { session: self, left: first..self.first_from(table, owner + 1), row }
    }

    /// The first row with this owner or a higher one, or the number behind the last row: by halves.
    fn first_from(self, table: Table, owner: usize) -> usize {
        let (mut low, mut high) = (1, self.count(table) + 1);
        while low < high {
            let middle = (low + high) / 2;
            if usize::from(self.row(table, middle).two(0)) < owner {
                low = middle + 1;
            } else {
                high = middle;
            }
        }
        low
    }

    fn bandwidths_of(self, owner: usize) -> Rows<'a, Bandwidth<'a>> {
        self.owned(BANDWIDTHS, owner, |session, number| {
            let (cells, line) = (session.row(BANDWIDTHS, number).from(OWNED), session.line_of(BANDWIDTHS, number));
            Bandwidth { line, bwtype: cells.string(0), bandwidth: cells.eight(4) }
        })
    }

    fn attributes_of(self, owner: usize) -> Rows<'a, Attribute<'a>> {
        self.owned(ATTRIBUTES, owner, |session, number| {
            let (cells, line) = (session.row(ATTRIBUTES, number).from(OWNED), session.line_of(ATTRIBUTES, number));
            Attribute { line, attribute: cells.string(0), value: cells.marked_string(4) }
        })
    }

    /// The originator. Where the text has no o line this is the placeholder `- 0 0 IN IP4 0.0.0.0`, as in the crate, with the
    /// line 0.
    pub fn origin(&self) -> Origin<'a> {
        self.origin_line().unwrap_or(PLACEHOLDER)
    }

    /// The originator, or `None` where the text has no o line.
    pub fn origin_line(&self) -> Option<Origin<'a>> {
        self.cells(ORIGIN).marked(0, |cells| cells.origin(self.line_in(ORIGIN_LINE, 1)))
    }

    /// Name of the session; empty where the text has no s line.
    pub fn session_name(&self) -> &'a str {
        self.cells(NAME).string(0)
    }

    /// The line that the name was read from: that of the s line. 0 where the text has none, or where it isn't known.
    pub fn line_of_session_name(&self) -> u64 {
        self.line_in(NAME_LINE, 1)
    }

    /// Description of the session: its i line.
    pub fn session_description(&self) -> Option<&'a str> {
        self.cells(DESCRIPTION).marked_string(0)
    }

    /// The line that the description was read from. 0 where there is none, or where it isn't known.
    pub fn line_of_session_description(&self) -> u64 {
        self.session_description().map_or(0, |_| self.line_in(DESCRIPTION_LINE, 1))
    }

    /// URI of more information: the u line.
    pub fn uri(&self) -> Option<&'a str> {
        self.cells(URI).marked_string(0)
    }

    /// The line that the URI was read from. 0 where there is none, or where it isn't known.
    pub fn line_of_uri(&self) -> u64 {
        self.uri().map_or(0, |_| self.line_in(URI_LINE, 1))
    }

    /// E-mail contacts: the e lines.
    pub fn emails(&self) -> Rows<'a, Contact<'a>> {
        self.all(EMAILS, |session, number| session.contact(EMAILS, number))
    }

    /// Phone contacts: the p lines.
    pub fn phones(&self) -> Rows<'a, Contact<'a>> {
        self.all(PHONES, |session, number| session.contact(PHONES, number))
    }

    fn contact(self, table: Table, number: usize) -> Contact<'a> {
        Contact { line: self.line_of(table, number), contact: self.row(table, number).string(0) }
    }

    /// Connection data of the session: its c line.
    pub fn connection(&self) -> Option<Connection<'a>> {
        self.cells(CONNECTION).marked(0, |cells| cells.connection(self.line_in(CONNECTION_LINE, 1)))
    }

    /// Bandwidths of the session: its b lines.
    pub fn bandwidths(&self) -> Rows<'a, Bandwidth<'a>> {
        self.bandwidths_of(SESSION)
    }

    /// When the session is active: the t lines, each with its r lines. There may be none; `0 0` is then written.
    pub fn times(&self) -> Rows<'a, Time<'a>> {
        self.all(TIMES, |session, number| {
            let (cells, line) = (session.row(TIMES, number), session.line_of(TIMES, number));
            Time { session, number, line, start_time: cells.eight(0), stop_time: cells.eight(8) }
        })
    }

    /// The t line of this number, from 1: that of a [`Start`](crate::Start).
    pub fn time(&self, number: usize) -> Option<Time<'a>> {
        self.times().nth(number.checked_sub(1)?)
    }

    /// The r line of this number, from 1: that of a [`Start`](crate::Start). They are numbered through all times.
    pub fn repeat(&self, number: usize) -> Option<Repeat<'a>> {
        self.all(REPEATS, Repeat::row).nth(number.checked_sub(1)?)
    }

    /// The pairs of the z line. All carry its line.
    pub fn time_zones(&self) -> Rows<'a, TimeZone> {
        self.all(ZONES, |session, number| {
            let (cells, line) = (session.row(ZONES, number), session.line_of(ZONES, number));
            // the cell has two's complement, so the cast keeps the sign
            TimeZone { line, adjustment_time: cells.eight(0), offset: cells.eight(8) as i64 }
        })
    }

    /// Encryption key of the session: `None` in every session that is read today, whatever k lines its text has. Only an
    /// area that was kept from an earlier release has one, and it is never written.
    pub fn key(&self) -> Option<Key<'a>> {
        self.cells(KEY).marked(0, |cells| cells.key(self.line_in(KEY_LINE, 1)))
    }

    /// Attributes of the session: its a lines.
    pub fn attributes(&self) -> Rows<'a, Attribute<'a>> {
        self.attributes_of(SESSION)
    }

    /// The medias: the m lines, each with the lines behind it.
    pub fn medias(&self) -> Rows<'a, Media<'a>> {
        self.all(MEDIAS, |session, number| {
            let cells = session.row(MEDIAS, number);
            Media {
                session,
                number,
                line: session.line_of(MEDIAS, number),
                media: cells.string(0),
                port: cells.two(4),
                num_ports: cells.marked(6, |cells| cells.two(0)),
                proto: cells.string(10),
                fmt: cells.string(14),
                media_title: cells.marked_string(18),
                key: cells.marked(24, |cells| cells.key(session.line_in(KEY_LINES, number))),
            }
        })
    }

    attributes_by_name!();

    /// How many lines of the text were empty, ignored and kept when it was read; together they are all its lines. `None`
    /// of a session that was [`kept`](crate::kept): then no text was read.
    ///
    /// They tell of the text and are no part of the session, so equality leaves them out, and `{:?}` too.
    ///
    /// ```
    /// let text = b"v=0\r\n\r\ns=Desk 4\r\nk=prompt\r\nx=new\r\n";
    /// let mut area = sdp::Area::new();
    /// let session = sdp::read(text, &mut area)?;
    /// let counts = session.counts().expect("it was read");
    /// assert_eq!((counts.kept, counts.ignored, counts.empty), (2, 2, 1));
    /// assert_eq!(counts.lines(), 5);
    /// assert_eq!(session, sdp::SessionBuf::parse("v=0\ns=Desk 4\n")?.session());
    /// # Ok::<(), sdp::Error>(())
    /// ```
    pub fn counts(&self) -> Option<Counts> {
        self.counts
    }

    /// How many bytes the session is written with: so many [`write`](Session::write) needs, and fills. It is asked before
    /// there is memory for them.
    ///
    /// ```
    /// let kept = sdp::SessionBuf::parse("v=0\ns=Desk 4\n")?;
    /// let len = kept.session().written_len()?;
    /// let mut out = vec![0; len]; // memory of just that size
    /// assert_eq!(kept.session().write(&mut out)?.len(), len);
    /// assert_eq!(kept.session().write(&mut out[1..]).unwrap_err().number(), 22);
    /// # Ok::<(), sdp::Error>(())
    /// ```
    ///
    /// # Errors
    ///
    /// None of a session that was read or [`kept`](crate::kept): what could be refused here was refused there.
    #[inline]
    pub fn written_len(&self) -> Result<usize, Error> {
        let answer = Error::check(ffi::length(self.text, self.area.as_bytes()))?;
        Ok(answer.len as usize)
    }

    /// Writes the session into the slice, as the crate's `Session::write` does without its keys, and gives the written part
    /// of it.
    ///
    /// [`ROOM`](crate::ROOM) bytes are enough for all that was read; an area made by hand may need more.
    /// [`written_len`](Session::written_len) says how many are needed. What stands behind the written part stays as it was;
    /// after an error all of it.
    ///
    /// # Errors
    ///
    /// Refusal 22 where the slice is too short; [`Error::len`] says how many bytes it needs.
    #[inline]
    pub fn write<'o>(&self, out: &'o mut [u8]) -> Result<&'o [u8], Error> {
        let answer = Error::check(ffi::fill(self.text, self.area.as_bytes(), out))?;
        Ok(&out[..answer.len as usize])
    }

    /// Writes the session to whatever takes bytes, called as the crate's `Session::write` is. The writer gets them all at
    /// once, from a vector as long as they are: a file or a socket needs no buffer in front of it.
    ///
    /// ```
    /// let kept = sdp::SessionBuf::parse("v=0\ns=Desk 4\n")?;
    /// let mut output = Vec::new();
    /// kept.session().write_to(&mut output)?;
    /// assert!(output.ends_with(b"\r\ns=Desk 4\r\nt=0 0\r\n"));
    /// # Ok::<(), std::io::Error>(())
    /// ```
    ///
    /// # Errors
    ///
    /// Those of the writer, as they are. A refusal, which no session that was read or [`kept`](crate::kept) meets, would be
    /// one with an [`Error`] in it.
    pub fn write_to<W: io::Write + ?Sized>(&self, to: &mut W) -> io::Result<()> {
        to.write_all(&self.filled()?)
    }

    /// When the session starts: every start from the window's start on and before its end, in rising order. All are
    /// seconds since 1900. sdp-types has nothing of the kind.
    ///
    /// A time without repeats starts once, at its start time. A repeat starts at the start time + k times its interval +
    /// an offset, for each of its offsets (0 where it has none) and for k from 0 on; only for k = 0 where the interval is
    /// 0. A start at or after a stop time that isn't 0 is left out. Then the offset of the latest zone whose adjustment
    /// time is not after it is added to a repeat's start, with its sign; of zones with the same adjustment time the last
    /// counts. A start time of 0 is no instant and lists nothing. A window that ends before it starts is empty.
    ///
    /// ```
    /// let kept = sdp::SessionBuf::parse("v=0\nt=1000 0\nr=100 10 0 30\nz=1100 -5\nt=1097 0\n")?;
    /// let session = kept.session();
    /// let starts = session.starts(1_000..1_130)?;
    /// let found: Vec<_> = starts.iter().map(|start| (start.at, start.time, start.repeat)).collect();
    /// assert_eq!(found, [(1_000, 1, Some(1)), (1_030, 1, Some(1)), (1_095, 1, Some(1)), (1_097, 2, None), (1_125, 1, Some(1))]);
    /// let lasts = starts.get(0).and_then(|start| session.repeat(start.repeat?)).map(|repeat| repeat.active_duration);
    /// assert_eq!(lasts, Some(10));
    /// # Ok::<(), sdp::Error>(())
    /// ```
    ///
    /// # Errors
    ///
    /// Refusal 28 where the adjustment times of the z line fall, and 29 where the window has more than
    /// [`MOST_STARTS`](crate::MOST_STARTS) starts: then take a shorter one.
    #[inline]
    pub fn starts(&self, window: Range<u64>) -> Result<Starts, Error> {
        Starts::check(ffi::starts(self.text, self.area.as_bytes(), window.start, window.end))
    }

    /// The written form in a vector of its own, which has no more capacity than it needs.
    pub fn to_vec(&self) -> Vec<u8> {
        self.filled().expect("a good session is written, and has room")
    }

    /// The length, then memory, then the text.
    fn filled(&self) -> Result<Vec<u8>, Error> {
        let mut out = Vec::with_capacity(self.written_len()?);
        Error::check(ffi::fill_spare(self.text, self.area.as_bytes(), &mut out))?;
        Ok(out)
    }
}

/// The written form, each line ended by CR LF.
impl fmt::Display for Session<'_> {
    fn fmt(&self, f: &mut fmt::Formatter<'_>) -> fmt::Result {
        f.write_str(std::str::from_utf8(&self.to_vec()).expect("what is written is UTF-8"))
    }
}

/// Some rows of a session: an iterator that knows how many are left. Cloned, it can be walked again.
pub struct Rows<'a, T> {
    session: Session<'a>,
    left: Range<usize>,
    row: fn(Session<'a>, usize) -> T,
}

impl<T> Rows<'_, T> {
    /// Whether no row is left.
    pub fn is_empty(&self) -> bool {
        self.left.is_empty()
    }
}

impl<T> Clone for Rows<'_, T> {
    fn clone(&self) -> Self {
        Rows { left: self.left.clone(), ..*self }
    }
}

impl<T> Iterator for Rows<'_, T> {
    type Item = T;

    fn next(&mut self) -> Option<T> {
        self.left.next().map(|number| (self.row)(self.session, number))
    }

    fn nth(&mut self, skip: usize) -> Option<T> {
        self.left.nth(skip).map(|number| (self.row)(self.session, number))
    }

    fn size_hint(&self) -> (usize, Option<usize>) {
        self.left.size_hint()
    }
}

impl<T> DoubleEndedIterator for Rows<'_, T> {
    fn next_back(&mut self) -> Option<T> {
        self.left.next_back().map(|number| (self.row)(self.session, number))
    }
}

impl<T> ExactSizeIterator for Rows<'_, T> {}

impl<T> std::iter::FusedIterator for Rows<'_, T> {}

impl<T: fmt::Debug> fmt::Debug for Rows<'_, T> {
    fn fmt(&self, f: &mut fmt::Formatter<'_>) -> fmt::Result {
        f.debug_list().entries(self.clone()).finish()
    }
}

impl<T: PartialEq> PartialEq for Rows<'_, T> {
    fn eq(&self, other: &Self) -> bool {
        self.clone().eq(other.clone())
    }
}

impl<T: Eq> Eq for Rows<'_, T> {}

/// `Debug` by the parts, in their order, and equality by the same parts: so two sessions are equal when they say the
/// same, wherever their strings stand, whatever lines they were read from and whatever else is in their texts.
macro_rules! by_parts {
    ($type:ident $(<$life:lifetime>)?: $($field:ident)* $(, $part:ident())*) => {
        impl fmt::Debug for $type $(<$life>)? {
            fn fmt(&self, f: &mut fmt::Formatter<'_>) -> fmt::Result {
                f.debug_struct(stringify!($type))
                    $(.field(stringify!($field), &self.$field))*
                    $(.field(stringify!($part), &self.$part()))*
                    .finish()
            }
        }

        impl PartialEq for $type $(<$life>)? {
            fn eq(&self, other: &Self) -> bool {
                $(self.$field == other.$field &&)* $(self.$part() == other.$part() &&)* true
            }
        }

        impl Eq for $type $(<$life>)? {}
    };
}

by_parts!(Origin<'_>: username sess_id sess_version nettype addrtype unicast_address);
by_parts!(Connection<'_>: nettype addrtype connection_address);
by_parts!(Bandwidth<'_>: bwtype bandwidth);
by_parts!(Time<'_>: start_time stop_time, repeats());
by_parts!(Repeat<'_>: repeat_interval active_duration, offsets());
by_parts!(TimeZone: adjustment_time offset);
by_parts!(Key<'_>: method encryption_key);
by_parts!(Attribute<'_>: attribute value);
by_parts!(Media<'_>: media port num_ports proto fmt media_title key, connections(), bandwidths(), attributes());
by_parts!(Session<'_>: , origin(), session_name(), session_description(), uri(), emails(), phones(), connection(),
    bandwidths(), times(), time_zones(), key(), attributes(), medias());

/// A session that owns its text and its area, to be kept. It is on the heap.
///
/// ```
/// let kept = sdp::SessionBuf::parse("v=0\ns=Desk 4\n")?;
/// assert_eq!(kept.session().session_name(), "Desk 4");
/// # Ok::<(), sdp::Error>(())
/// ```
#[derive(Clone)]
pub struct SessionBuf {
    text: Vec<u8>,
    area: Box<Area>,
    counts: Counts,
}

impl SessionBuf {
    /// Reads a text and keeps it.
    ///
    /// # Errors
    ///
    /// As for [`read`](crate::read).
    pub fn parse(text: impl Into<Vec<u8>>) -> Result<Self, Error> {
        let (text, mut area) = (text.into(), Box::new(Area::new()));
        let counts = area.read(&text)?;
        Ok(SessionBuf { text, area, counts })
    }

    /// The session, for as long as this is borrowed.
    pub fn session(&self) -> Session<'_> {
        Session::new(&self.text, &self.area, Some(self.counts))
    }

    /// The text that was read.
    pub fn text(&self) -> &[u8] {
        &self.text
    }
}

impl fmt::Debug for SessionBuf {
    fn fmt(&self, f: &mut fmt::Formatter<'_>) -> fmt::Result {
        fmt::Debug::fmt(&self.session(), f)
    }
}

impl PartialEq for SessionBuf {
    fn eq(&self, other: &Self) -> bool {
        self.session() == other.session()
    }
}

impl Eq for SessionBuf {}
