//! SDP's seconds as dates, dates as SDP's seconds, and lengths of time. The crate `time` knows the calendar.
use time::format_description::FormatItem;
use time::macros::{datetime, format_description};
use time::{Date, OffsetDateTime, PrimitiveDateTime};

/// Where SDP begins to count. It goes on after 2036, where NTP's 32 bits end.
const FIRST: OffsetDateTime = datetime!(1900-01-01 0:00 UTC);
pub const DAY: u64 = 86_400;

const DATE: &[FormatItem<'_>] = format_description!("[year]-[month]-[day]");
const MINUTE: &[FormatItem<'_>] = format_description!("[year]-[month]-[day]T[hour]:[minute]");
const SECOND: &[FormatItem<'_>] = format_description!("[year]-[month]-[day]T[hour]:[minute]:[second]");

fn date(seconds: u64) -> Option<OffsetDateTime> {
    let since_1970 = i64::try_from(seconds).ok()?.checked_add(FIRST.unix_timestamp())?;
    OffsetDateTime::from_unix_timestamp(since_1970).ok()
}

/// Whether there is a date for it: up to the year 9999.
pub fn is_dated(seconds: u64) -> bool {
    date(seconds).is_some()
}

/// Weekday, date and time in UTC, or the bare number where there is no date.
pub fn shown(seconds: u64) -> String {
    let Some(date) = date(seconds) else {
        return seconds.to_string();
    };
    let (hour, minute, second) = date.to_hms();
    format!("{:.3} {} {hour:02}:{minute:02}:{second:02}", date.weekday().to_string(), date.date())
}

/// The seconds of a date in UTC, with a time or without: `2026-12-01`, `2026-12-01T20:00`, `2026-12-01 20:00:30`.
pub fn seconds(word: &str) -> Result<u64, String> {
    let word = word.replacen(' ', "T", 1);
    let with_time = |format: &'static [FormatItem<'_>]| PrimitiveDateTime::parse(&word, format);
    let date = Date::parse(&word, DATE).map(Date::midnight);
    let date = date.or_else(|_| with_time(MINUTE)).or_else(|_| with_time(SECOND));
    let date = date.map_err(|_| "is no date such as 2026-12-01 or 2026-12-01T20:00")?;
    let since = u64::try_from((date.assume_utc() - FIRST).whole_seconds());
    since.map_err(|_| "is before 1900, where SDP begins to count".into())
}

/// The seconds since 1900 of a clock that counts from 1970.
pub fn of_clock(since_1970: u64) -> u64 {
    FIRST.unix_timestamp().unsigned_abs() + since_1970
}

/// A length of time in words, such as `7 days` or `1 h 30 min`; in seconds where that would be long.
pub fn span(seconds: u64) -> String {
    const LONGEST: usize = 20;
    let days = seconds / DAY;
    let parts = [
        (days, if days == 1 { "day" } else { "days" }),
        (seconds / 3_600 % 24, "h"),
        (seconds / 60 % 60, "min"),
        (seconds % 60, "s"),
    ];
    let parts = parts.iter().filter(|(many, _)| *many > 0).map(|(many, unit)| format!("{many} {unit}"));
    match parts.collect::<Vec<_>>().join(" ") {
        words if !words.is_empty() && words.len() <= LONGEST => words,
        _ => format!("{seconds} s"),
    }
}
