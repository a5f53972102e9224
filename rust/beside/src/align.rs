//! Which line of an accepted text became which line of its canonical form. Each record carries the line that it was read
//! from, and each line of the canonical form is one record, so the archive says this, and no likeness.

/// The lines of a text without their ends. A line ends at LF, and one CR just before belongs to that end.
pub fn lines(text: &[u8]) -> Vec<&[u8]> {
    fn without_end(line: &[u8]) -> &[u8] {
        match line {
            [start @ .., b'\r', b'\n'] | [start @ .., b'\n'] => start,
            last => last,
        }
    }
    text.split_inclusive(|byte| *byte == b'\n').map(without_end).collect()
}

/// Why a line was dropped.
#[derive(Debug, Clone, Copy, PartialEq, Eq)]
pub enum Dropped {
    Empty,
    /// A letter that has no use before the first m line.
    InSession,
    /// Nor from it on.
    InMedia,
    /// A k line, which has no use any more.
    Key,
    /// A v line after the first.
    LaterVersion,
    /// A line with a use of which nothing is left to write: z without a pair.
    Nothing,
}

/// A row of the page. Lines are counted from 0.
#[derive(Debug, Clone, Copy, PartialEq, Eq)]
pub enum Row {
    Same { left: usize, right: usize },
    Changed { left: usize, right: usize },
    Dropped { left: usize, why: Dropped },
    Added { right: usize },
    /// A line whose letter comes earlier or later in the canonical form: it has a row in each column.
    MovedFrom { left: usize, right: usize },
    MovedTo { left: usize, right: usize },
}

/// Why a line that no record was read from is not in the canonical form.
fn dropped(line: &[u8], in_media: bool) -> Dropped {
    match line.first() {
        None => Dropped::Empty,
        Some(b'v') => Dropped::LaterVersion,
        Some(b'k') => Dropped::Key,
        Some(b'z') if !in_media => Dropped::Nothing,
        Some(_) if in_media => Dropped::InMedia,
        Some(_) => Dropped::InSession,
    }
}

/// The most pairs whose right lines rise: these stand still, the others were moved.
fn still(pairs: &[(usize, usize)]) -> Vec<bool> {
    // ends[n] is the pair with the lowest right line that ends a rising run of n + 1 pairs
    let mut ends: Vec<usize> = Vec::new();
    let mut before: Vec<Option<usize>> = Vec::new();
    for (at, (_, right)) in pairs.iter().enumerate() {
        let length = ends.partition_point(|end| pairs[*end].1 < *right);
        before.push(length.checked_sub(1).map(|shorter| ends[shorter]));
        match ends.get_mut(length) {
            Some(end) => *end = at,
            None => ends.push(at),
        }
    }
    let mut still = vec![false; pairs.len()];
    let mut next = ends.last().copied();
    while let Some(at) = next {
        still[at] = true;
        next = before[at];
    }
    still
}

/// The rows for the lines of an accepted text and those of its canonical form. Each line has one row. `from` has for each line
/// of the canonical form the one that it was read from, counted from 1, and 0 for what the text doesn't have.
pub fn align(left: &[&[u8]], right: &[&[u8]], from: &[u64]) -> Vec<Row> {
    let mut right_of: Vec<Option<usize>> = vec![None; left.len()];
    for (at, line) in from.iter().enumerate().take(right.len()) {
        let place = usize::try_from(*line).ok().and_then(|line| line.checked_sub(1));
        if let Some(of_line) = place.and_then(|place| right_of.get_mut(place)) {
            of_line.get_or_insert(at);
        }
    }
    let medias = left.iter().position(|line| line.first() == Some(&b'm')).unwrap_or(left.len());
    let pairs: Vec<(usize, usize)> = right_of.iter().enumerate().filter_map(|(l, r)| Some((l, (*r)?))).collect();
    let mut left_of = vec![None; right.len()];
    for (pair, still) in pairs.iter().zip(still(&pairs)) {
        left_of[pair.1] = Some((pair.0, still));
    }
    let moved_to = |at: usize| match left_of[at] {
        None => Row::Added { right: at },
        Some((left, _)) => Row::MovedTo { left, right: at },
    };
    let (mut rows, mut written) = (Vec::new(), 0);
    for (at, line) in left.iter().enumerate() {
        let row = match right_of[at] {
            None => Row::Dropped { left: at, why: dropped(line, at > medias) },
            Some(to) if left_of[to] == Some((at, true)) => {
                rows.extend((written..to).map(moved_to));
                written = to + 1;
                if left[at] == right[to] {
                    Row::Same { left: at, right: to }
                } else {
                    Row::Changed { left: at, right: to }
                }
            }
            Some(to) => Row::MovedFrom { left: at, right: to },
        };
        rows.push(row);
    }
    rows.extend((written..right.len()).map(moved_to));
    rows
}
