// Heads in the lines of views and listings.

/// Two heads of a cell, in units of 10^-9, and its place.
#[derive(Clone, Copy)]
pub struct Heads<'a> {
    pub place: &'a str,
    pub low: i64,
    pub high: i64,
}

/// A head, from its text with 9 decimals.
pub fn head_of(word: &str) -> Option<i64> {
    let (whole, part) = word.split_once('.')?;
    let part = part.parse::<i64>().ok()?;
    let units = whole.parse::<i64>().ok()?.checked_mul(1_000_000_000)?;
    if whole.starts_with('-') {
        units.checked_sub(part)
    } else {
        units.checked_add(part)
    }
}

/// The heads of a line, if it is a line HEAD.
pub fn heads_of(line: &str) -> Option<Heads<'_>> {
    let (front, upper) = line.strip_prefix("HEAD ")?.rsplit_once(' ')?;
    let (place, lower) = front.rsplit_once(' ')?;
    let (low, high) = (head_of(lower)?, head_of(upper)?);
    Some(Heads { place, low, high })
}

// Whether these lines have heads of the same cell within these.
fn has_within(lines: &str, outer: Heads<'_>) -> bool {
    for inner in lines.lines().filter_map(heads_of) {
        if inner.place == outer.place {
            return outer.low <= inner.low && inner.high <= outer.high;
        }
    }
    false
}

/// How many cells of the first lines have heads that are not around those of the second.
pub fn not_around(outer: &str, inner: &str) -> u32 {
    let mut count: u32 = 0;
    for heads in outer.lines().filter_map(heads_of) {
        count = count.saturating_add(u32::from(!has_within(inner, heads)));
    }
    count
}

/// The lines of a step in a listing.
pub fn step_of<'a>(listing: &'a str, time: &str) -> Option<&'a str> {
    for step in listing.split("STEP ") {
        if let Some((at, lines)) = step.split_once('\n') {
            if at == time {
                return Some(lines);
            }
        }
    }
    None
}
