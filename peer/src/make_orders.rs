//! Random order files. The seed decides all: n is 1 + seed mod 32, the style is seed mod 27.
//! So 32 seeds in a row have all sizes, 27 all styles, and 864 each style with each size. The faulty
//! styles take their kinds by turns, seed / 27: 216 seeds in a row have them all.

use crate::files::MOST_BYTES;
use crate::machine::{Machine, Process};
use crate::orders::{order_file, Order};
use crate::random::Random;

const STYLES: u64 = 27;

/// Who moves next.
#[derive(Clone, Copy)]
enum Schedule {
    /// One process after the other, each to its end.
    Alone,
    /// One step each, in turn.
    Lockstep,
    /// Blocks of processes one after the other, each block in lockstep to its end.
    Blocks,
    /// Any process, one step.
    Steps,
    /// Any process, some steps.
    Bursts,
    /// Any process, one step; it enters when first drawn.
    Late,
    /// Like Steps, but some processes are drawn more often than others.
    Uneven,
    /// Any process of those at the highest level, one step.
    Levels,
}

const SCHEDULES: [Schedule; 8] = [
    Schedule::Alone,
    Schedule::Lockstep,
    Schedule::Blocks,
    Schedule::Steps,
    Schedule::Bursts,
    Schedule::Late,
    Schedule::Uneven,
    Schedule::Levels,
];

/// What a run is to be like.
#[derive(Clone, Copy)]
struct Plan {
    schedule: Schedule,
    /// All processes take part.
    all: bool,
    crashes: bool,
    refusals: bool,
    /// Only the values 0 and 2^32-1.
    limits: bool,
}

/// A run in the making.
struct Maker<'a> {
    random: &'a mut Random,
    machine: Machine,
    orders: Vec<Order>,
    /// After how many accesses a process is to crash.
    crash_after: Vec<Option<usize>>,
    /// One refused order in so many orders; 0 is none.
    refused_in: usize,
    limits: bool,
}

impl Maker<'_> {
    fn give(&mut self, order: Order) {
        order.give(&mut self.machine);
        self.orders.push(order);
    }

    fn running(&self, p: usize) -> bool {
        matches!(self.machine.processes[p], Process::Running(_))
    }

    fn enter(&mut self, p: usize) {
        self.maybe_refused();
        let value = if self.limits {
            self.random.limit_value()
        } else {
            self.random.value()
        };
        self.give(Order::Enter(p as u8, value));
    }

    /// Moves a running process: a step, or its crash.
    fn go(&mut self, p: usize) {
        self.maybe_refused();
        let accesses = self.machine.processes[p].accesses(self.machine.n);
        if self.crash_after[p] == Some(accesses) {
            self.give(Order::Crash(p as u8));
        } else {
            self.give(Order::Step(p as u8));
        }
    }

    fn maybe_refused(&mut self) {
        if self.refused_in > 0 && self.random.one_in(self.refused_in) {
            self.refused();
        }
    }

    /// One order that the machine refuses.
    fn refused(&mut self) {
        let n = self.machine.n;
        let of_stage = |machine: &Machine, stage: &str| -> Vec<usize> {
            (1..=n)
                .filter(|&p| machine.processes[p].stage() == stage)
                .collect()
        };
        let absent = of_stage(&self.machine, "absent");
        let finished = of_stage(&self.machine, "finished");
        let crashed = of_stage(&self.machine, "crashed");
        let entered: Vec<usize> = (1..=n).filter(|p| !absent.contains(p)).collect();
        let value = self.random.value();
        let order = match self.random.below(6) {
            0 if !absent.is_empty() => self.step_or_crash(&absent),
            1 if !entered.is_empty() => Order::Enter(self.random.pick(&entered) as u8, value),
            2 if !finished.is_empty() => self.step_or_crash(&finished),
            3 if !crashed.is_empty() => self.step_or_crash(&crashed),
            k => {
                let p = if k == 4 { 0 } else { self.above() };
                match self.random.below(3) {
                    0 => Order::Enter(p, value),
                    1 => Order::Step(p),
                    _ => Order::Crash(p),
                }
            }
        };
        self.give(order);
    }

    fn step_or_crash(&mut self, list: &[usize]) -> Order {
        let p = self.random.pick(list) as u8;
        if self.random.one_in(3) {
            Order::Crash(p)
        } else {
            Order::Step(p)
        }
    }

    /// A process number above n.
    fn above(&mut self) -> u8 {
        let n = self.machine.n;
        let any = self.random.from_to(n + 1, 255);
        self.random.pick(&[n + 1, 33, 255, any]) as u8
    }

    fn lockstep(&mut self, list: &[usize]) {
        while list.iter().any(|&p| self.running(p)) {
            for &p in list {
                if self.running(p) {
                    self.go(p);
                }
            }
        }
    }

    fn run(&mut self, schedule: Schedule, list: &[usize]) {
        // All enter first, or each when its turn comes.
        let at_once = match schedule {
            Schedule::Alone | Schedule::Blocks => self.random.one_in(2),
            Schedule::Late => false,
            _ => true,
        };
        if at_once {
            for &p in list {
                self.enter(p);
            }
        }
        match schedule {
            Schedule::Alone => {
                for &p in list {
                    if !at_once {
                        self.enter(p);
                    }
                    self.lockstep(&[p]);
                }
            }
            Schedule::Lockstep => self.lockstep(list),
            Schedule::Blocks => {
                for block in self.random.blocks(list) {
                    if !at_once {
                        for &p in &block {
                            self.enter(p);
                        }
                    }
                    self.lockstep(&block);
                }
            }
            Schedule::Steps
            | Schedule::Bursts
            | Schedule::Late
            | Schedule::Uneven
            | Schedule::Levels => self.interleave(schedule, list),
        }
    }

    fn interleave(&mut self, schedule: Schedule, list: &[usize]) {
        let longest = 2 * (self.machine.n + 1);
        let often: Vec<usize> = list.iter().map(|_| self.random.pick(&[1, 4, 16])).collect();
        loop {
            let mut drawn = Vec::new();
            for (k, &p) in list.iter().enumerate() {
                let waiting = self.machine.processes[p] == Process::Absent;
                if self.running(p) || waiting {
                    let times = if let Schedule::Uneven = schedule {
                        often[k]
                    } else {
                        1
                    };
                    drawn.extend(vec![p; times]);
                }
            }
            if let Schedule::Levels = schedule {
                let level = |p: usize| self.machine.processes[p].level();
                let highest = drawn.iter().map(|&p| level(p)).max();
                drawn.retain(|&p| Some(level(p)) == highest);
            }
            if drawn.is_empty() {
                return;
            }
            let p = self.random.pick(&drawn);
            if !self.running(p) {
                self.enter(p);
                continue;
            }
            let steps = if let Schedule::Bursts = schedule {
                self.random.from_to(1, longest)
            } else {
                1
            };
            for _ in 0..steps {
                if self.running(p) {
                    self.go(p);
                }
            }
        }
    }
}

/// The orders of a run as planned, to the end or, once in four, to a random order.
fn run(random: &mut Random, n: usize, plan: Plan) -> Vec<Order> {
    let mut crash_after = vec![None; n + 1];
    if plan.crashes {
        for p in 1..=n {
            if random.one_in(3) {
                // In the first two levels or anywhere.
                let last = random.pick(&[n, 2 * n + 1, n * (n + 1) - 1]);
                crash_after[p] = Some(random.below(last + 1));
            }
        }
    }
    let refused_in = if plan.refusals {
        random.pick(&[3, 10, 50])
    } else {
        0
    };
    let list = random.processes(n, plan.all);
    let mut maker = Maker {
        random,
        machine: Machine::fresh(n),
        orders: vec![],
        crash_after,
        refused_in,
        limits: plan.limits,
    };
    maker.run(plan.schedule, &list);
    if plan.refusals {
        for _ in 0..maker.random.below(6) {
            maker.refused();
        }
    }
    let mut orders = maker.orders;
    if random.one_in(4) {
        let length = random.below(orders.len() + 1);
        orders.truncate(length);
    }
    orders
}

fn plain(schedule: Schedule, all: bool) -> Plan {
    Plan {
        schedule,
        all,
        crashes: false,
        refusals: false,
        limits: false,
    }
}

fn any_plan(random: &mut Random) -> Plan {
    Plan {
        schedule: random.pick(&SCHEDULES),
        all: random.one_in(2),
        crashes: random.one_in(2),
        refusals: random.one_in(2),
        limits: random.one_in(4),
    }
}

/// The orders of any run, for a machine of n.
pub fn any_run(random: &mut Random, n: usize) -> Vec<Order> {
    let plan = any_plan(random);
    run(random, n, plan)
}

/// The order file, cut after a whole order if it would be too long.
fn fitting(n: usize, orders: &[Order], most: usize) -> Vec<u8> {
    let mut file = order_file(n as u8, &[]);
    for order in orders {
        let record = order.bytes();
        if file.len() + record.len() > most {
            break;
        }
        file.extend(record);
    }
    file
}

/// The random order file of a seed.
pub fn make_orders(seed: u64) -> Vec<u8> {
    let mut generator = Random::new(seed);
    let random = &mut generator;
    let n = 1 + (seed % 32) as usize;
    let turn = (seed / STYLES % 120) as usize;
    let any = any_plan(random);
    let plan = match seed % STYLES {
        0 => plain(Schedule::Alone, true),
        1 => plain(Schedule::Alone, false),
        2 => plain(Schedule::Lockstep, true),
        3 => plain(Schedule::Lockstep, false),
        4 => plain(Schedule::Blocks, true),
        5 => plain(Schedule::Blocks, false),
        6 => plain(Schedule::Steps, any.all),
        7 => plain(Schedule::Bursts, any.all),
        8 => plain(Schedule::Late, any.all),
        9 => plain(Schedule::Uneven, any.all),
        10 => plain(Schedule::Levels, any.all),
        11 => Plan {
            crashes: true,
            ..plain(Schedule::Alone, any.all)
        },
        12 => Plan {
            crashes: true,
            ..plain(Schedule::Lockstep, any.all)
        },
        13 => Plan {
            crashes: true,
            ..plain(Schedule::Blocks, any.all)
        },
        14 => Plan {
            crashes: true,
            ..plain(Schedule::Bursts, any.all)
        },
        15 => Plan {
            crashes: false,
            refusals: true,
            ..any
        },
        16 => Plan {
            crashes: true,
            refusals: true,
            ..any
        },
        17 => Plan {
            limits: true,
            ..any
        },
        18 => return random.tiny(n, turn),
        19 => return size_limit(random, n, turn),
        20 => return bad_first(random, n, turn),
        21 => return bad_later(random, n, turn),
        22 => return any_records(random, n),
        _ => any,
    };
    let orders = run(random, n, plan);
    let mut file = fitting(n, &orders, MOST_BYTES);
    match seed % STYLES {
        23 => random.change(&mut file),
        24 => random.remove(&mut file),
        25 => random.insert(&mut file),
        26 => random.cut(&mut file),
        _ => {}
    }
    file
}

/// A file of 65,534, 65,535 or 65,536 bytes, of whole records or cut off in one.
fn size_limit(random: &mut Random, n: usize, turn: usize) -> Vec<u8> {
    let size = 65_534 + turn % 3;
    let orders = any_run(random, n);
    let mut file = fitting(n, &orders, size - 14);
    // A record of 7 bytes leaves one over when the rest is counted in threes.
    let whole = turn / 3 % 2 == 0;
    if whole {
        for _ in 0..(size - file.len()) % 3 {
            let order = Order::Enter(random.below(n + 2) as u8, random.value());
            file.extend(order.bytes());
        }
    }
    while file.len() < size {
        let p = random.below(n + 2) as u8;
        let order = if random.one_in(100) {
            Order::Crash(p)
        } else {
            Order::Step(p)
        };
        file.extend(order.bytes());
    }
    file.truncate(size);
    file
}

/// A refused header before good orders.
fn bad_first(random: &mut Random, n: usize, turn: usize) -> Vec<u8> {
    let orders = any_run(random, n);
    let good = fitting(n, &orders, 2_000);
    let mut file = random.bad_header(turn);
    file.extend(&good[3..]);
    file
}

/// A record that is refused, by turns, after good orders. A cut one ends the file, another may have orders after it.
fn bad_later(random: &mut Random, n: usize, turn: usize) -> Vec<u8> {
    let orders = any_run(random, n);
    let k = random.below(orders.len() + 1);
    let mut file = fitting(n, &orders[..k], 60_000);
    let n = n as u8;
    let more = random.one_in(2);
    let view = [b'V', b'W', 1, 1, 0, 0, 0, 7, 0, 0, 0];
    let kind = turn % 8;
    match kind {
        0 => file.extend([b'M', b'N', n]),
        1 => file.extend(b"MN"),
        // Cut after the mark.
        2 => file.extend(random.pick(&[b"EN", b"ST", b"CR"])),
        3 => file.extend([random.byte(), random.byte()]),
        4 => file.extend(random.pick(&[&view[..], b"VW", b"NE", b"en"])),
        // Cut in the body.
        5 => {
            let record = Order::Enter(1, random.value()).bytes();
            let length = random.from_to(3, 6);
            file.extend(&record[..length]);
        }
        // Cut in the mark.
        6 => file.extend([random.pick(b"MESCV")]),
        _ => file.extend([0, 0, 0]),
    }
    if more && ![2, 5, 6].contains(&kind) {
        for order in orders[k..].iter().take(100) {
            file.extend(order.bytes());
        }
    }
    file
}

/// Orders drawn one by one, whatever the machine says to them.
fn any_records(random: &mut Random, n: usize) -> Vec<u8> {
    let mut orders = Vec::new();
    for _ in 0..random.below(3_000) {
        let p = if random.one_in(50) {
            random.byte()
        } else {
            random.below(n + 2) as u8
        };
        let order = match random.below(4 * n) {
            0 => Order::Crash(p),
            1 | 2 | 3 => Order::Enter(p, random.value()),
            _ => Order::Step(p),
        };
        orders.push(order);
    }
    order_file(n as u8, &orders)
}

#[cfg(test)]
mod tests {
    use super::*;
    use crate::files::HEADER;
    use crate::orders::{read_order, replay, Run, BUDGET};
    use crate::views::{check, read_views, views_of, write_views};
    use std::collections::{BTreeMap, BTreeSet};

    #[test]
    fn one_seed_one_file() {
        for seed in 0..100 {
            assert_eq!(make_orders(seed), make_orders(seed));
        }
    }

    /// The orders that a replay takes, each with the machine's answer.
    fn retake(file: &[u8], run: &Run) -> Vec<(Order, u32)> {
        let mut machine = Machine::fresh(run.machine.n);
        let mut orders = Vec::new();
        let mut at = HEADER;
        for _ in 0..run.taken {
            let order = read_order(file, at).unwrap();
            orders.push((order, order.give(&mut machine)));
            at += order.bytes().len();
        }
        assert_eq!(machine, run.machine);
        let refused = orders.iter().filter(|(_, answer)| *answer != 0);
        assert_eq!(refused.count(), run.refused);
        orders
    }

    /// The third demand of document 00.
    fn laws(orders: &[(Order, u32)], machine: &Machine) {
        let n = machine.n;
        assert!(machine.well_shaped());
        for x in 1..=n {
            // Levels fall from n, so who has reached x stands at x or below.
            let reached = (1..=n).filter(|&p| (1..=x).contains(&machine.processes[p].level()));
            assert!(reached.count() <= x);
        }
        let mut steps = vec![0; n + 1];
        for (order, answer) in orders {
            if let (Order::Step(p), 0) = (order, answer) {
                steps[*p as usize] += 1;
            }
        }
        for p in 1..=n {
            let (_, look) = machine.look(p);
            assert_eq!(look.accesses, steps[p]);
            if let Some(view) = &look.view {
                assert_eq!(steps[p], (n + 1) * (n - view.len() + 1));
            }
            if steps[p] >= n * (n + 1) {
                assert_eq!(look.stage, "finished");
            }
        }
        assert_eq!(check(&views_of(machine)), (0, 0, 0));
        let reading = read_views(&write_views(machine));
        assert_eq!((reading.number, reading.n), (0, n));
        assert_eq!(reading.views, views_of(machine));
    }

    /// The histogram is printed by `cargo test coverage -- --nocapture`.
    #[test]
    fn laws_and_coverage() {
        let mut files: BTreeMap<u32, usize> = BTreeMap::new();
        let mut answers: BTreeMap<u32, usize> = BTreeMap::new();
        let mut sizes: BTreeSet<usize> = BTreeSet::new();
        let mut lengths: BTreeSet<usize> = BTreeSet::new();
        let mut stages: BTreeMap<&str, usize> = BTreeMap::new();
        // (n, level) of finished processes.
        let mut ends: BTreeSet<(usize, usize)> = BTreeSet::new();
        // The cut records of each 216 seeds: their number, whether a header, and how much is left, up to 3 bytes.
        let mut cuts = vec![BTreeSet::new(); 4];
        let mut too_long = 0;
        for seed in 0..864 {
            let file = make_orders(seed);
            lengths.insert(file.len());
            if file.len() > MOST_BYTES {
                too_long += 1;
                continue;
            }
            let run = replay(&file, BUDGET);
            let orders = retake(&file, &run);
            let machine = run.machine;
            laws(&orders, &machine);
            *files.entry(run.number).or_default() += 1;
            if [11, 24].contains(&run.number) {
                let whole = orders.iter().map(|(order, _)| order.bytes().len());
                let header = file.len() < HEADER;
                let mark = if header {
                    0
                } else {
                    HEADER + whole.sum::<usize>()
                };
                let left = file.len() - mark;
                assert_eq!(run.place, if left == 1 { mark } else { file.len() });
                cuts[seed as usize / 216].insert((run.number, header, left.min(3)));
            }
            for (_, answer) in orders {
                *answers.entry(answer).or_default() += 1;
            }
            sizes.insert(machine.n);
            for process in &machine.processes[1..] {
                *stages.entry(process.stage()).or_default() += 1;
                if process.stage() == "finished" {
                    ends.insert((machine.n, process.level()));
                }
            }
        }
        println!("order files by number: {files:?}, too long: {too_long}");
        println!("orders by answer: {answers:?}");
        println!("processes by stage: {stages:?}");
        println!(
            "sizes: {}, (n, level) of the finished: {} of 528",
            sizes.len(),
            ends.len()
        );
        assert_eq!(
            files.keys().copied().collect::<Vec<_>>(),
            [0, 8, 9, 10, 11, 12, 24]
        );
        let every_cut = BTreeSet::from([
            (11, false, 1),
            (11, true, 1),
            (24, false, 2),
            (24, false, 3),
            (24, true, 2),
        ]);
        assert_eq!(cuts, vec![every_cut; 4]);
        assert_eq!(
            answers.keys().copied().collect::<Vec<_>>(),
            [0, 2, 3, 4, 5, 6]
        );
        assert_eq!(sizes.len(), 32);
        assert_eq!(stages.len(), 4);
        assert!(too_long > 0);
        for length in [0, 1, 2, 3, 65_534, 65_535, 65_536] {
            assert!(lengths.contains(&length), "{length}");
        }
    }
}
