//! What a wrong variant does against request A6.

use super::{Occasion, Rules};
use crate::mouse::{packets_for, split};

#[derive(Clone, Copy, Debug, PartialEq, Eq)]
pub enum SplitFault {
    /// Divisions are rounded toward zero.
    TowardZero,
    /// Each packet carries what the next one should, and the last what the first
    /// should.
    NextOnes,
    /// All packets carry the same, and the last also the rest.
    RestInLast,
    /// Document 01's rule before the request: "each takes as much as -128 to 127
    /// allows of what is left, per axis."
    FullFirst,
    /// As many packets as -127 to 127 would need.
    WithoutMinus128,
    /// Document 01's rule before the request, on this occasion alone.
    FullFirstAt(Occasion),
    /// Divisions are rounded up.
    RoundedUp,
    /// Each axis is split over as many packets as it needs alone, and is done in the
    /// first ones.
    EachAxisAlone,
}

/// The variants 61 to 70.
pub(super) fn wrong_with_splitting(number: u32) -> Option<SplitFault> {
    Some(match number {
        61 => SplitFault::TowardZero,
        62 => SplitFault::NextOnes,
        63 => SplitFault::RestInLast,
        64 => SplitFault::FullFirst,
        65 => SplitFault::WithoutMinus128,
        66 => SplitFault::FullFirstAt(Occasion::Button),
        67 => SplitFault::FullFirstAt(Occasion::Resume),
        68 => SplitFault::RoundedUp,
        69 => SplitFault::FullFirstAt(Occasion::Motion),
        70 => SplitFault::EachAxisAlone,
        _ => return None,
    })
}

/// The parts of a move, a pair for each packet.
type Parts = Vec<[i32; 2]>;

impl Rules {
    /// The parts that packets carry of a move.
    pub fn parts(&self, occasion: Occasion, totals: [i32; 2]) -> Parts {
        match self.split_fault {
            None => split(totals),
            Some(fault) => fault.parts(occasion, totals),
        }
    }
}

impl SplitFault {
    fn parts(self, occasion: Occasion, totals: [i32; 2]) -> Parts {
        match self {
            SplitFault::TowardZero => steps(totals, packets_for(totals), |sum, n| sum / n),
            SplitFault::NextOnes => {
                let mut parts = split(totals);
                parts.rotate_left(1);
                parts
            }
            SplitFault::RestInLast => rest_in_last(totals),
            SplitFault::FullFirst => full_first(totals),
            SplitFault::WithoutMinus128 => {
                let [x, y] = totals.map(|total| (total.abs() + 126) / 127);
                steps(totals, x.max(y).max(1), i32::div_euclid)
            }
            SplitFault::FullFirstAt(wrong) if wrong == occasion => full_first(totals),
            SplitFault::FullFirstAt(_) => split(totals),
            SplitFault::RoundedUp => {
                let up = |sum: i32, n| -(-sum).div_euclid(n);
                steps(totals, packets_for(totals), up)
            }
            SplitFault::EachAxisAlone => each_axis_alone(totals),
        }
    }
}

/// Each packet takes a move from one quotient to the next.
fn steps(totals: [i32; 2], count: i32, divided: impl Fn(i32, i32) -> i32) -> Parts {
    let part = |total, k| divided(total * (k + 1), count) - divided(total * k, count);
    (0..count)
        .map(|k| totals.map(|total| part(total, k)))
        .collect()
}

fn rest_in_last(totals: [i32; 2]) -> Parts {
    let count = packets_for(totals);
    let each = |total: i32| total.div_euclid(count);
    let mut parts = vec![totals.map(each); count as usize];
    if let Some(last) = parts.last_mut() {
        *last = totals.map(|total| each(total) + total.rem_euclid(count));
    }
    parts
}

fn full_first(mut left: [i32; 2]) -> Parts {
    let mut parts = Vec::new();
    while parts.is_empty() || left != [0, 0] {
        let part = left.map(|left| left.clamp(-128, 127));
        left = [left[0] - part[0], left[1] - part[1]];
        parts.push(part);
    }
    parts
}

fn each_axis_alone([x, y]: [i32; 2]) -> Parts {
    let (xs, ys) = (split([x, 0]), split([0, y]));
    let part = |parts: &Parts, k: usize, axis| parts.get(k).map_or(0, |part: &[i32; 2]| part[axis]);
    (0..xs.len().max(ys.len()))
        .map(|k| [part(&xs, k, 0), part(&ys, k, 1)])
        .collect()
}
