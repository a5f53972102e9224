// Prints what a session description announces, each with the line that it was read from, when it starts in the week that
// begins with its first time, how many of its lines were kept, ignored and empty, and then its written form. The text comes
// from a file or from standard input. The exit status is 0, or 1 for a text that is refused, or 2 where something can't be
// read or written.
//
//     cargo run --release --example announce -- FILE
use sdp::{Area, Session};
use std::io::{self, Read, Write};
use std::process::ExitCode;
use std::{env, fs};

const WEEK: u64 = 7 * 86_400;

// Nothing where there is none.
fn line(number: u64) -> String {
    if number > 0 { format!(" (line {number})") } else { String::new() }
}

fn print_starts(session: Session, out: &mut impl Write) -> io::Result<()> {
    let from = session.times().next().map_or(0, |time| time.start_time);
    let starts = match session.starts(from..from.saturating_add(WEEK)) {
        Ok(starts) => starts,
        Err(refusal) => return writeln!(out, "starts: {refusal}"),
    };
    for start in &starts {
        let time = session.time(start.time).map_or(0, |time| time.line());
        write!(out, "starts: {} by time {}{}", start.at, start.time, line(time))?;
        if let Some(number) = start.repeat {
            let repeat = session.repeat(number).map_or(0, |repeat| repeat.line());
            write!(out, ", repeat {number}{}", line(repeat))?;
        }
        writeln!(out)?;
    }
    Ok(())
}

fn print(session: Session, out: &mut impl Write) -> io::Result<()> {
    writeln!(out, "name: {}{}", session.session_name(), line(session.line_of_session_name()))?;
    for time in session.times() {
        writeln!(out, "time: {} to {}{}", time.start_time, time.stop_time, line(time.line()))?;
        for repeat in time.repeats() {
            write!(out, "  every {} s for {} s, from", repeat.repeat_interval, repeat.active_duration)?;
            for offset in repeat.offsets() {
                write!(out, " {offset}")?;
            }
            writeln!(out, "{}", line(repeat.line()))?;
        }
    }
    for zone in session.time_zones() {
        writeln!(out, "zone: {} s from {} on{}", zone.offset, zone.adjustment_time, line(zone.line()))?;
    }
    print_starts(session, out)?;
    for media in session.medias() {
        writeln!(out, "media: {} to port {}{}", media.media, media.port, line(media.line()))?;
        if let Some(title) = media.media_title {
            writeln!(out, "  title: {title}{}", line(media.line_of_media_title()))?;
        }
        for attribute in media.attributes() {
            let of_it = line(attribute.line());
            match attribute.value {
                Some(value) => writeln!(out, "  {}:{value}{of_it}", attribute.attribute)?,
                None => writeln!(out, "  {}{of_it}", attribute.attribute)?,
            }
        }
    }
    // how much of the text was passed over
    if let Some(counts) = session.counts() {
        writeln!(out, "lines: {} kept, {} ignored, {} empty", counts.kept, counts.ignored, counts.empty)?;
    }
    session.write_to(out)?;
    out.flush()
}

fn main() -> ExitCode {
    let mut text = Vec::new();
    let read = match env::args_os().nth(1) {
        Some(file) => fs::read(file).map(|bytes| text = bytes),
        None => io::stdin().read_to_end(&mut text).map(|_| ()),
    };
    if let Err(error) = read {
        eprintln!("announce: {error}");
        return ExitCode::from(2);
    }
    let mut area = Area::new();
    let session = match sdp::read(&text, &mut area) {
        Ok(session) => session,
        Err(refusal) => {
            eprintln!("announce: {refusal}");
            return ExitCode::from(1);
        }
    };
    if let Err(error) = print(session, &mut io::BufWriter::new(io::stdout())) {
        eprintln!("announce: {error}");
        return ExitCode::from(2);
    }
    ExitCode::SUCCESS
}
