//! Order files: writing them, replaying them over a fresh machine, and what the replay program prints.

use crate::files::{four, read_header, refusal_place, HEADER, MOST_BYTES};
use crate::machine::{Machine, View};

/// The replay program's budget of orders.
pub const BUDGET: usize = 65_535;

#[derive(Clone, Copy, Debug, PartialEq, Eq)]
pub enum Order {
    Enter(u8, u32),
    Step(u8),
    Crash(u8),
}

impl Order {
    /// The record of the order.
    pub fn bytes(self) -> Vec<u8> {
        match self {
            Order::Enter(p, value) => {
                let mut record = vec![b'E', b'N', p];
                record.extend(value.to_le_bytes());
                record
            }
            Order::Step(p) => vec![b'S', b'T', p],
            Order::Crash(p) => vec![b'C', b'R', p],
        }
    }

    /// Gives the order to a machine; the number answered.
    pub fn give(self, machine: &mut Machine) -> u32 {
        match self {
            Order::Enter(p, value) => machine.enter(p as usize, value),
            Order::Step(p) => machine.step(p as usize),
            Order::Crash(p) => machine.crash(p as usize),
        }
    }
}

/// The order file with this n and these orders.
pub fn order_file(n: u8, orders: &[Order]) -> Vec<u8> {
    let mut file = vec![b'M', b'N', n];
    for order in orders {
        file.extend(order.bytes());
    }
    file
}

/// The order whose record stands at `at`, which is before the end of the file, or the number that refuses it.
pub fn read_order(file: &[u8], at: usize) -> Result<Order, u32> {
    let left = &file[at..];
    if left.len() == 1 {
        return Err(11);
    }
    let mark = &left[0..2];
    if mark == b"MN" {
        return Err(12);
    }
    if mark == b"EN" {
        if left.len() < 7 {
            return Err(24);
        }
        return Ok(Order::Enter(left[2], four(&left[3..7])));
    }
    if mark == b"ST" || mark == b"CR" {
        if left.len() < 3 {
            return Err(24);
        }
        return Ok(if mark == b"ST" {
            Order::Step(left[2])
        } else {
            Order::Crash(left[2])
        });
    }
    Err(10)
}

/// What a replay returns.
#[derive(Clone, Debug, PartialEq, Eq)]
pub struct Run {
    pub number: u32,
    pub place: usize,
    pub taken: usize,
    pub accesses: usize,
    pub refused: usize,
    pub machine: Machine,
}

/// Replays an order file over a fresh machine, taking at most `budget` orders.
pub fn replay(file: &[u8], budget: usize) -> Run {
    let n = match read_header(file) {
        Ok(n) => n,
        Err(number) => {
            return Run {
                number,
                place: refusal_place(file, 0, number),
                taken: 0,
                accesses: 0,
                refused: 0,
                machine: Machine::fresh(1),
            };
        }
    };
    let (_, machine) = Machine::new(n);
    let mut run = Run {
        number: 0,
        place: HEADER,
        taken: 0,
        accesses: 0,
        refused: 0,
        machine,
    };
    while run.place < file.len() {
        if run.taken == budget {
            run.number = 13;
            return run;
        }
        let order = match read_order(file, run.place) {
            Ok(order) => order,
            Err(number) => {
                run.number = number;
                run.place = refusal_place(file, run.place, number);
                return run;
            }
        };
        let answer = order.give(&mut run.machine);
        run.taken += 1;
        if answer != 0 {
            run.refused += 1;
        } else if let Order::Step(_) = order {
            run.accesses += 1;
        }
        run.place += order.bytes().len();
    }
    run
}

/// Line 1 of the replay program.
pub fn run_line(run: &Run) -> String {
    format!(
        "run {} {} {} {} {}\n",
        run.number, run.place, run.taken, run.accesses, run.refused
    )
}

/// What the replay program prints for a file.
pub fn replay_program(file: &[u8]) -> String {
    if file.len() > MOST_BYTES {
        return "too long\n".to_string();
    }
    let run = replay(file, BUDGET);
    let mut text = run_line(&run);
    for p in 1..=run.machine.n {
        let (_, look) = run.machine.look(p);
        let view = match &look.view {
            Some(view) => pairs(view).join(","),
            None => "-".to_string(),
        };
        text += &format!(
            "p {} {} {} {} {}\n",
            p, look.stage, look.level, look.accesses, view
        );
    }
    text += &format!("participants {}\n", run.machine.participants());
    text
}

/// process:value pairs, ascending.
pub fn pairs(view: &View) -> Vec<String> {
    view.iter()
        .map(|(p, value)| format!("{p}:{value}"))
        .collect()
}
