//! What calls cost, as the counting and the timing print it: a line for each call, `name bytes work side cost`.
use crate::marks::KNOWN;
use crate::sides::Work;

#[derive(Clone, Debug, PartialEq)]
pub struct Cost {
    pub name: String,
    pub bytes: usize,
    pub work: String,
    pub side: String,
    pub cost: f64,
}

pub fn costs(lines: &str) -> Result<Vec<Cost>, String> {
    lines
        .lines()
        .map(|line| {
            let bad = || format!("no line of a cost: {line:?}");
            let words: Vec<&str> = line.split(' ').collect();
            let [name, bytes, work, side, cost] = words[..] else {
                return Err(bad());
            };
            Ok(Cost {
                name: name.into(),
                bytes: bytes.parse().map_err(|_| bad())?,
                work: work.into(),
                side: side.into(),
                cost: cost.parse().ok().filter(|cost: &f64| cost.is_finite() && *cost > 0.0).ok_or_else(bad)?,
            })
        })
        .collect()
}

/// Counts of instructions: the first is of nothing, and is taken off the others; the second is known beforehand.
pub fn counts(lines: &str) -> Result<Vec<Cost>, String> {
    let all = costs(lines)?;
    let [nothing, known, calls @ ..] = &all[..] else {
        return Err("there are no counts".into());
    };
    if nothing.name != "nothing" || known.name != "known" {
        return Err("the counts don't begin with nothing and known".into());
    }
    let found = known.cost - nothing.cost;
    if !(f64::from(KNOWN)..f64::from(KNOWN) + 20.0).contains(&found) {
        return Err(format!("the counter is wrong: {found} instructions for a loop that has {KNOWN}"));
    }
    let mut calls = calls.to_vec();
    for call in &mut calls {
        call.cost -= nothing.cost;
        if call.cost <= 0.0 {
            return Err(format!("{}: no instructions counted", call.name));
        }
    }
    Ok(calls)
}

/// What one work of a text costs, where only ours is called.
pub fn one(costs: &[Cost], name: &str, work: &str) -> Result<f64, String> {
    let mut all = costs.iter().filter(|cost| cost.name == name && cost.work == work);
    match (all.next(), all.next()) {
        (Some(one), None) => Ok(one.cost),
        _ => Err(format!("{name}: not one cost of {work}")),
    }
}

/// Ours and the crate's for one text and one work.
#[derive(Debug)]
pub struct Row {
    pub name: String,
    pub bytes: usize,
    pub accepted: bool,
    pub ours: f64,
    pub theirs: f64,
}

impl Row {
    pub fn ratio(&self) -> f64 {
        self.ours / self.theirs
    }
}

/// The rows of one work, in the order of the costs. Each text must have both sides, once.
pub fn rows(costs: &[Cost], work: Work) -> Result<Vec<Row>, String> {
    let of = |name: &str, side: &str| {
        let mut all = costs.iter().filter(|c| c.work == work.name() && c.name == name && c.side == side);
        match (all.next(), all.next()) {
            (Some(one), None) => Ok(one.cost),
            _ => Err(format!("{name}: not one cost of {} by {side}", work.name())),
        }
    };
    let mut rows: Vec<Row> = Vec::new();
    for cost in costs.iter().filter(|cost| cost.work == work.name()) {
        if rows.iter().any(|row| row.name == cost.name) {
            continue;
        }
        rows.push(Row {
            name: cost.name.clone(),
            bytes: cost.bytes,
            // what was refused isn't written
            accepted: costs.iter().any(|c| c.name == cost.name && c.work == Work::Write.name()),
            ours: of(&cost.name, "ours")?,
            theirs: of(&cost.name, "crate")?,
        });
    }
    Ok(rows)
}

pub fn geometric_mean<'a>(rows: impl Iterator<Item = &'a Row>) -> Option<f64> {
    mean(rows.map(Row::ratio))
}

/// The geometric one.
pub fn mean(ratios: impl Iterator<Item = f64>) -> Option<f64> {
    let (mut sum, mut count) = (0.0, 0);
    for ratio in ratios {
        sum += ratio.ln();
        count += 1;
    }
    (count > 0).then(|| (sum / f64::from(count)).exp())
}
