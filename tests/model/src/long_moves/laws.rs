//! What the packets of a move must be: so many, together all of it, any two about
//! as much, and in the order of request A6. The first three leave only the order
//! open.
//!
//! It is written without the model's controller and its splitting, and where it can
//! be, as what must hold of the packets and not as how to make them.

use super::session::Move;

/// "X, Y in two's complement."
pub type Packet = [i8; 2];

const AXES: [&str; 2] = ["X", "Y"];

/// The X and Y of each packet that was written, or the law that is broken.
pub fn judge(a_move: &Move, bytes: &[u8]) -> Result<Vec<Packet>, String> {
    let packets = cut(a_move.levels, bytes)?;
    let count = fewest(a_move);
    if packets.len() as i64 != count {
        return Err(format!("{count} packets are the fewest"));
    }
    for (axis, name) in AXES.iter().enumerate() {
        let parts: Vec<i64> = packets.iter().map(|packet| packet[axis].into()).collect();
        let total = i64::from(a_move.totals[axis]);
        if parts.iter().sum::<i64>() != total {
            return Err(format!("the packets do not sum to {name}"));
        }
        if most_apart(&parts) > 1 {
            return Err(format!("two parts of {name} differ by more than 1"));
        }
        let wanted = (0..count).map(|k| part(total, k, count));
        if !parts.iter().copied().eq(wanted) {
            return Err(format!("the parts of {name} stand in another order"));
        }
    }
    Ok(packets)
}

/// The greatest part less the least.
fn most_apart(parts: &[i64]) -> i64 {
    let (greatest, least) = (parts.iter().max(), parts.iter().min());
    greatest
        .zip(least)
        .map_or(0, |(greatest, least)| greatest - least)
}

/// The bytes that a move should give.
pub fn wanted(a_move: &Move) -> Vec<u8> {
    let count = fewest(a_move);
    let [x, y] = a_move.totals.map(i64::from);
    let packet = |k| {
        [
            0xF8 + a_move.levels,
            part(x, k, count) as u8,
            part(y, k, count) as u8,
        ]
    };
    (0..count).flat_map(packet).collect()
}

/// "One packet is 0xF8 + 2·left + right, X, Y"
fn cut(levels: u8, bytes: &[u8]) -> Result<Vec<Packet>, String> {
    let packets = bytes.chunks(3).map(|packet| match *packet {
        [first, x, y] if first == 0xF8 + levels => Ok([x as i8, y as i8]),
        _ => Err(format!("no packets of {:02X}, X and Y", 0xF8 + levels)),
    });
    packets.collect()
}

/// "The fewest packets are sent". A button sends at least one.
fn fewest(a_move: &Move) -> i64 {
    let least = i64::from(a_move.way.is_button());
    let mut counts = (least..).filter(|&count| fits(a_move.totals, count));
    counts.next().expect("some number is enough")
}

/// Whether so many packets of -128 to 127 can carry a move on both axes.
pub fn fits(totals: [i32; 2], count: i64) -> bool {
    let within = |total: i32| (-128 * count..=127 * count).contains(&total.into());
    totals.into_iter().all(within)
}

/// "the k-th, from 0, carries t·(k+1)/n less t·k/n, each division rounded down":
/// what all up to it have carried, less what those before it have.
fn part(total: i64, k: i64, count: i64) -> i64 {
    rounded_down(total * (k + 1), count) - rounded_down(total * k, count)
}

/// A division drops what is behind the point; where that brought a negative number
/// up, it goes one down.
fn rounded_down(number: i64, by: i64) -> i64 {
    let toward_zero = number / by;
    match toward_zero * by > number {
        true => toward_zero - 1,
        false => toward_zero,
    }
}

#[cfg(test)]
mod tests {
    use super::super::moves::Way;
    use super::*;

    /// Rounded down is the whole number that is not above, while the next one is.
    #[test]
    fn rounding_down() {
        for number in -500..=500 {
            for by in 1..=16 {
                let whole = rounded_down(number, by);
                assert!(whole * by <= number && number < (whole + 1) * by);
            }
        }
    }

    fn judged(way: Way, totals: [i32; 2], bytes: &[u8]) -> Result<Vec<Packet>, String> {
        let (levels, lines) = (0, [0, 0]);
        let a_move = Move {
            way,
            totals,
            levels,
            lines,
        };
        judge(&a_move, bytes)
    }

    /// Reading 91, and what is wrong there in each way.
    #[test]
    fn every_law_is_looked_at() {
        let wrong = |bytes: &[u8]| judged(Way::Resume, [192, -3], bytes).unwrap_err();
        let right = [0xF8, 0x60, 0xFE, 0xF8, 0x60, 0xFF];
        assert_eq!(
            judged(Way::Resume, [192, -3], &right),
            Ok(vec![[96, -2], [96, -1]])
        );
        assert!(wrong(&right[..5]).contains("no packets of F8"));
        assert!(wrong(&[0xFA, 0x60, 0xFE, 0xF8, 0x60, 0xFF]).contains("no packets of F8"));
        assert!(wrong(&right[..3]).contains("fewest"));
        assert!(wrong(&[right, [0xF8, 0, 0, 0xF8, 0, 0]].concat()).contains("fewest"));
        assert!(wrong(&[0xF8, 0x60, 0xFE, 0xF8, 0x60, 0xFE]).contains("sum to Y"));
        assert!(wrong(&[0xF8, 0x7F, 0xFD, 0xF8, 0x41, 0x00]).contains("parts of X differ"));
        assert!(wrong(&[0xF8, 0x60, 0xFD, 0xF8, 0x60, 0x00]).contains("parts of Y differ"));
        assert!(wrong(&[0xF8, 0x60, 0xFF, 0xF8, 0x60, 0xFE]).contains("another order"));
        // 128 is no X.
        assert!(wrong(&[0xF8, 0x80, 0xFE, 0xF8, 0x40, 0xFF]).contains("sum to X"));
    }

    /// Also two that are no neighbours: 99, 100 and 101 are no even parts of 300.
    #[test]
    fn any_two_parts_are_about_as_much() {
        let rising = [0xF8, 0x63, 0, 0xF8, 0x64, 0, 0xF8, 0x65, 0];
        let report = judged(Way::Resume, [300, 0], &rising).unwrap_err();
        assert_eq!(report, "two parts of X differ by more than 1");
        let even = [0xF8, 0x64, 0, 0xF8, 0x64, 0, 0xF8, 0x64, 0];
        assert!(judged(Way::Resume, [300, 0], &even).is_ok());
    }

    /// No motion: a resume sends nothing, and a button one packet.
    #[test]
    fn no_motion() {
        assert_eq!(judged(Way::Resume, [0, 0], &[]), Ok(vec![]));
        assert!(judged(Way::Resume, [0, 0], &[0xF8, 0, 0]).is_err());
        assert_eq!(judged(Way::Button, [0, 0], &[0xF8, 0, 0]), Ok(vec![[0, 0]]));
        assert!(judged(Way::Button, [0, 0], &[]).is_err());
    }
}
