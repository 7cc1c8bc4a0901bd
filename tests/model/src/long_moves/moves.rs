//! The moves that are played: what sends them, and how far they go on each axis.

/// What sends a move.
#[derive(Clone, Copy, Debug, PartialEq, Eq)]
pub enum Way {
    /// A resume.
    Resume,
    /// A button while paused, whose packets wait in the queue.
    PausedButton,
    /// A button while not paused, after motion that stayed below the thresholds.
    Button,
    /// Motion that reaches a threshold.
    Motion,
}

impl Way {
    pub const ALL: [Way; 4] = [Way::Resume, Way::PausedButton, Way::Button, Way::Motion];

    /// How far a move goes on an axis, either way: "held motion is -254 to 254, and
    /// beyond that, to 2,032 either way, only while paused". Motion that reaches a
    /// threshold adds at most 64 to what was held. These are copies of our own: what
    /// a program has to keep to is not taken from the model.
    pub fn limit(self) -> i32 {
        match self {
            Way::Resume | Way::PausedButton => 2032,
            Way::Button => 254,
            Way::Motion => 254 + 64,
        }
    }

    /// "A button [...] sends all held motion with the new levels, at least one
    /// packet".
    pub fn is_button(self) -> bool {
        matches!(self, Way::PausedButton | Way::Button)
    }

    /// What sends, in words.
    pub fn words(self) -> &'static str {
        match self {
            Way::Resume => "a resume",
            Way::PausedButton => "a button while paused",
            Way::Button => "a button",
            Way::Motion => "motion",
        }
    }
}

/// Every total on each axis, with the other axis at 0 and at both limits; and every
/// pair of totals at which a packet more may be needed.
pub fn totals(way: Way) -> Vec<[i32; 2]> {
    let limit = way.limit();
    let mut totals = Vec::new();
    for total in -limit..=limit {
        for other in [0, limit, -limit] {
            totals.extend([[total, other], [other, total]]);
        }
    }
    let edges = edges(limit);
    let pairs = edges
        .iter()
        .flat_map(|&x| edges.iter().map(move |&y| [x, y]));
    totals.extend(pairs);
    totals
}

/// The totals that just fit into some packets of -128 to 127 and those that just do
/// not; and 0, the steps next to it and the limits.
fn edges(limit: i32) -> Vec<i32> {
    let fitting = (1..=16).flat_map(|count| [127 * count, -128 * count]);
    let edges = fitting.flat_map(|total: i32| [total, total + total.signum()]);
    let mut edges: Vec<i32> = edges.chain([-limit, -1, 0, 1, limit]).collect();
    edges.retain(|total| total.abs() <= limit);
    edges.sort();
    edges.dedup();
    edges
}
