// Runs whose heads are viewed while they settle.
use crate::views::{not_around, step_of};
use test_lines::Page;

/// The views of a step: how many there are, with how many heads; how many of these are not around those that the
/// listing has at that step, and in how many a view is wider than the one before.
#[derive(Clone, Copy)]
struct StepViews<'a> {
    time: &'a str,
    last: &'a str,
    views: u32,
    heads: usize,
    outside: u32,
    wider: u32,
}

impl<'a> StepViews<'a> {
    fn new(time: &'a str) -> StepViews<'a> {
        StepViews {
            time,
            last: "",
            views: 0,
            heads: 0,
            outside: 0,
            wider: 0,
        }
    }

    // Adds a view, of these lines.
    fn add(&mut self, lines: &'a str, listing: &str) {
        if let Some(step) = step_of(listing, self.time) {
            self.outside = self.outside.saturating_add(not_around(lines, step));
        }
        self.wider = self.wider.saturating_add(not_around(self.last, lines));
        self.views = self.views.saturating_add(1);
        self.heads = self.heads.saturating_add(lines.lines().count());
        self.last = lines;
    }
}

// How many phases there are depends on the machine, but not by how many views they are exceeded.
fn push_views(page: &mut Page, each_phase: u64, listing: &str, seen: StepViews<'_>) {
    if seen.views == 0 {
        return;
    }
    let more = u64::from(seen.views).checked_rem(each_phase).unwrap_or(0);
    let each = seen.heads.checked_div(seen.views as usize).unwrap_or(0);
    page.text("views of ");
    page.text(seen.time);
    page.text(": whole phases and");
    page.word(format_args!("{more}, {each} heads each,"));
    page.word(format_args!("{} wider than before,", seen.wider));
    if step_of(listing, seen.time).is_none() {
        return page.line(" none listed");
    }
    page.line(format_args!(" {} not around those listed", seen.outside));
}

/// For each step of the views that a run showed, in their order: whether they are whole phases, how many heads each has, and
/// whether they only come nearer to the heads of the listing.
pub fn push_shown(page: &mut Page, each_phase: u64, shown: &str, listing: &str) {
    let mut seen = StepViews::new("");
    for view in shown.split("WATCH ") {
        if let Some((time, lines)) = view.split_once('\n') {
            if time != seen.time {
                push_views(page, each_phase, listing, seen);
                seen = StepViews::new(time);
            }
            seen.add(lines, listing);
        }
    }
    push_views(page, each_phase, listing, seen);
}
