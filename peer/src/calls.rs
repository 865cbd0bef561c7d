//! Scripts of machine calls, and what they answer.
//!
//! A line has six bytes and a line end: a letter, a space, a number of two digits, a space and a digit.
//!
//!     n NN .     a new machine of NN processes
//!     e NN V     enter, with the value V
//!     s NN .     step
//!     x NN .     step, in a slot
//!     c NN .     crash
//!     f NN .     finish alone
//!     l NN .     look
//!     k .. .     the state of P8
//!
//! The first machine has one process. Each line is printed again, with two spaces and the number answered after
//! it; after a look's number come the stage, level, accesses and the pairs of the view.

use crate::machine::{Machine, Process, Stand, View};
use crate::orders::pairs;
use crate::random::Random;

/// A script has at most this many bytes.
pub const MOST_SCRIPT: usize = 4_096;

/// P8: n = 2, both at level 1, both written there, process 1 has read register 1 and found it filled.
pub fn p8() -> Machine {
    let mut machine = Machine::fresh(2);
    for x in 1..=2 {
        machine.rows[x][1] = Some(7);
        machine.rows[x][2] = Some(9);
    }
    machine.processes[1] = Process::Running(Stand {
        value: 7,
        level: 1,
        accesses: 2,
        found: View::from([(1, 7)]),
    });
    machine.processes[2] = Process::Running(Stand {
        value: 9,
        level: 1,
        accesses: 1,
        found: View::new(),
    });
    machine
}

/// The answer of one line.
fn obey(machine: &mut Machine, letter: u8, p: usize, value: u32) -> String {
    let number = match letter {
        b'n' => {
            let (number, new) = Machine::new(p);
            *machine = new;
            number
        }
        b'e' => machine.enter(p, value),
        b's' | b'x' => machine.step(p),
        b'c' => machine.crash(p),
        b'f' => machine.finish_alone(p),
        b'l' => {
            let (number, look) = machine.look(p);
            let mut text = format!("{number} {} {} {}", look.stage, look.level, look.accesses);
            for pair in look.view.iter().flat_map(pairs) {
                text += &format!(" {pair}");
            }
            return text;
        }
        _ => {
            *machine = p8();
            0
        }
    };
    number.to_string()
}

/// What the trial program prints for a script.
pub fn trial_program(script: &[u8]) -> String {
    let digit = |b: u8| if b.is_ascii_digit() { b - b'0' } else { 0 };
    let mut machine = Machine::fresh(1);
    let mut text = String::new();
    for line in script.chunks_exact(7) {
        let p = 10 * digit(line[2]) + digit(line[3]);
        let answer = obey(&mut machine, line[0], p as usize, digit(line[5]) as u32);
        text += &String::from_utf8_lossy(&line[..6]);
        text += &format!("  {answer}\n");
    }
    text
}

/// The random script of a seed: machines one after the other, each with any calls and then a look at each
/// process.
pub fn make_calls(seed: u64) -> Vec<u8> {
    let mut generator = Random::new(seed);
    let random = &mut generator;
    let mut lines: Vec<(u8, usize, usize)> = Vec::new();
    while lines.len() < MOST_SCRIPT / 7 {
        let n = match random.below(8) {
            0 => {
                lines.push((b'k', 0, 0));
                2
            }
            1 => {
                let n = random.pick(&[0, 33, 99, 32, 31, 17]);
                lines.push((b'n', n, 0));
                if n > 32 {
                    1
                } else {
                    n.max(1)
                }
            }
            _ => {
                let n = random.from_to(1, 5);
                lines.push((b'n', n, 0));
                n
            }
        };
        // Values tell who wrote them, or are all 0.
        let zeros = random.one_in(4);
        for _ in 0..random.below(40 + 2 * n * (n + 1)) {
            let p = if random.one_in(12) {
                random.pick(&[0, n + 1, 33, 99])
            } else {
                random.from_to(1, n)
            };
            let value = if zeros { 0 } else { random.below(10) };
            lines.push(match random.below(20) {
                0..=3 => (b'e', p, value),
                4 => (b'c', p, 0),
                5 => (b'f', p, 0),
                6 | 7 => (b'l', p, 0),
                8..=10 => (b'x', p, 0),
                _ => (b's', p, 0),
            });
        }
        lines.extend((0..=n + 1).map(|p| (b'l', p, 0)));
    }
    lines.truncate(MOST_SCRIPT / 7);
    let text: String = lines
        .iter()
        .map(|&(letter, p, value)| format!("{} {p:02} {value}\n", letter as char))
        .collect();
    text.into_bytes()
}

#[cfg(test)]
mod tests {
    use super::*;
    use std::collections::BTreeMap;

    #[test]
    fn a_script() {
        let script = b"e 01 0\ns 01 0\nl 01 0\nx 01 0\nl 01 0\nl 02 0\nk 00 0\ns 01 0\nn 33 0\n";
        let answers = "e 01 0  0\ns 01 0  0\nl 01 0  0 running 1 1\nx 01 0  0\n\
            l 01 0  0 finished 1 2 1:0\nl 02 0  2 absent 0 0\nk 00 0  0\ns 01 0  7\nn 33 0  8\n";
        assert_eq!(trial_program(script), answers);
    }

    /// 20 seeds in a row have each call with each number that it can give, 1 aside, which no script reaches.
    #[test]
    fn coverage() {
        let mut answers: BTreeMap<(u8, u32), usize> = BTreeMap::new();
        for seed in 0..20 {
            let script = make_calls(seed);
            assert!(script.len() <= MOST_SCRIPT && script.len() % 7 == 0);
            let text = trial_program(&script);
            assert_eq!(text.lines().count(), script.len() / 7);
            for line in text.lines() {
                let number = line[8..].split(' ').next().unwrap().parse().unwrap();
                *answers.entry((line.as_bytes()[0], number)).or_default() += 1;
            }
        }
        println!("answers by call and number: {answers:?}");
        let every: Vec<(u8, Vec<u32>)> = vec![
            (b'c', vec![0, 2, 4, 5, 6]),
            (b'e', vec![0, 2, 3]),
            (b'f', vec![0, 2, 4, 5, 6, 7]),
            (b'k', vec![0]),
            (b'l', vec![0, 2]),
            (b'n', vec![0, 8]),
            (b's', vec![0, 2, 4, 5, 6, 7]),
            (b'x', vec![0, 2, 4, 5, 6, 7]),
        ];
        for (letter, numbers) in every {
            let came: Vec<u32> = answers
                .keys()
                .filter(|key| key.0 == letter)
                .map(|key| key.1)
                .collect();
            assert_eq!(came, numbers, "{}", letter as char);
        }
    }
}
