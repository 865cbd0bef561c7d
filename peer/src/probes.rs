//! Probes: an order file with a budget, and a room for the view file of the state that its replay leaves.
//!
//! A probe is the budget (4 bytes), the room (2 bytes), both little-endian, and the order file. It prints the
//! run's line, the line `views` with the view writer's number and bytes, and the buffer of that room, whose
//! bytes were dots before.

use crate::files::four;
use crate::make_orders::make_orders;
use crate::orders::{replay, run_line};
use crate::random::Random;
use crate::views::{write_into, write_views};

/// A probe has at most this many bytes.
pub const MOST_PROBE: usize = 65_536;

/// What the probe program prints; nothing for a probe without its first six bytes.
pub fn probe_program(probe: &[u8]) -> Vec<u8> {
    if probe.len() < 6 {
        return vec![];
    }
    let room = u16::from_le_bytes([probe[4], probe[5]]);
    let run = replay(&probe[6..], four(probe) as usize);
    let mut buffer = vec![b'.'; room as usize];
    let (number, bytes) = write_into(&run.machine, &mut buffer);
    let mut text = run_line(&run).into_bytes();
    text.extend(format!("views {number} {bytes}\n").into_bytes());
    text.extend(buffer);
    text
}

/// The random probe of a seed: the seed's order file. The budget is by turns one that is spent at once, in the
/// middle, with the last order but one, with the last, or never; the room is by turns none, too short by much
/// or by one byte, exact, or more than enough.
pub fn make_probe(seed: u64) -> Vec<u8> {
    let mut random = Random::new(seed);
    let mut file = make_orders(seed);
    file.truncate(MOST_PROBE - 100);
    let orders = replay(&file, u32::MAX as usize).taken;
    let budget = match seed % 8 {
        0 => 0,
        1 => 1,
        2 => orders.saturating_sub(1),
        3 => orders,
        4 => orders + 1,
        5 => orders / 2,
        6 => random.below(orders + 1),
        _ => u32::MAX as usize,
    };
    let length = write_views(&replay(&file, budget).machine).len();
    let room = match seed / 8 % 7 {
        0 => 0,
        1 => 2,
        2 => random.below(length),
        3 => length - 1,
        4 => length,
        5 => length + 1,
        _ => length + random.below(1_000),
    };
    let mut probe = (budget as u32).to_le_bytes().to_vec();
    probe.extend((room as u16).to_le_bytes());
    probe.extend(file);
    probe
}

#[cfg(test)]
mod tests {
    use super::*;
    use std::collections::BTreeSet;

    #[test]
    fn the_printed_run() {
        let mut probe = vec![11, 0, 0, 0, 31, 0];
        probe.extend(b"MN\x02EN\x01\x07\0\0\0EN\x02\x09\0\0\0");
        for p in [1, 1, 1, 2, 2, 2, 1, 1, 1, 2] {
            probe.extend([b'S', b'T', p]);
        }
        let views = b"MN\x02VW\x01\x01\0\0\0\x07\0\0\0VW\x02\x03\0\0\0\x07\0\0\0\x09\0\0\0";
        let mut expected = b"run 13 44 11 9 0\nviews 0 29\n".to_vec();
        expected.extend(views);
        expected.extend(b"..");
        assert_eq!(probe_program(&probe), expected);
        // a room that is one byte too short
        probe[4] = 28;
        let expected = format!("run 13 44 11 9 0\nviews 17 0\n{}", ".".repeat(28));
        assert_eq!(probe_program(&probe), expected.into_bytes());
    }

    /// 216 seeds in a row have 11, 24, 13, also 13 before a cut record, and 17, and both files that are read whole and
    /// views that are written.
    #[test]
    fn coverage() {
        let mut numbers = BTreeSet::new();
        for seed in 0..216 {
            let probe = make_probe(seed);
            assert!(probe.len() < MOST_PROBE);
            let text = String::from_utf8_lossy(&probe_program(&probe)).into_owned();
            for line in text.lines().take(2) {
                let number: u32 = line.split(' ').nth(1).unwrap().parse().unwrap();
                numbers.insert((line.split(' ').next().unwrap().to_string(), number));
            }
            // The fault of the record that a spent budget comes before.
            let budget = four(&probe) as usize;
            let next = replay(&probe[6..], budget + 1);
            if replay(&probe[6..], budget).number == 13 && next.taken == budget {
                numbers.insert(("before".to_string(), next.number));
            }
        }
        for number in [0, 8, 9, 10, 11, 13, 24] {
            assert!(
                numbers.contains(&("run".to_string(), number)),
                "run {number}"
            );
        }
        assert!(numbers.contains(&("before".to_string(), 24)));
        for number in [0, 17] {
            assert!(
                numbers.contains(&("views".to_string(), number)),
                "views {number}"
            );
        }
    }
}
