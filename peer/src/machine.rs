//! The machine: n rows of n registers, n processes, one register access a step.
//!
//! The algorithm is Fig. 8.16 of document 000; the rules and the numbers answered are document 01's.
//! Rows, registers, levels and processes are numbered from 1; index 0 of each list is not used.

use std::collections::BTreeMap;

/// A set of (process, value) pairs.
pub type View = BTreeMap<usize, u32>;

/// Where a process stands that has entered and not finished.
#[derive(Clone, Debug, PartialEq, Eq)]
pub struct Stand {
    pub value: u32,
    pub level: usize,
    /// Accesses made at this level, 0 to n.
    pub accesses: usize,
    /// Registers found filled at this level, with what was found.
    pub found: View,
}

/// Rule 2.
#[derive(Clone, Debug, PartialEq, Eq)]
pub enum Process {
    Absent,
    Running(Stand),
    Crashed(Stand),
    Finished {
        value: u32,
        level: usize,
        view: View,
    },
}

impl Process {
    pub fn stage(&self) -> &'static str {
        match self {
            Process::Absent => "absent",
            Process::Running(_) => "running",
            Process::Crashed(_) => "crashed",
            Process::Finished { .. } => "finished",
        }
    }

    /// The level; 0 if absent.
    pub fn level(&self) -> usize {
        match self {
            Process::Absent => 0,
            Process::Running(stand) | Process::Crashed(stand) => stand.level,
            Process::Finished { level, .. } => *level,
        }
    }

    /// Rule 7, in a machine of n.
    pub fn accesses(&self, n: usize) -> usize {
        match self {
            Process::Absent => 0,
            Process::Running(stand) | Process::Crashed(stand) => {
                (n + 1) * (n - stand.level) + stand.accesses
            }
            Process::Finished { level, .. } => (n + 1) * (n - level) + n + 1,
        }
    }
}

#[derive(Clone, Debug, PartialEq, Eq)]
pub struct Machine {
    pub n: usize,
    /// rows[x][i]: row x, register i.
    pub rows: Vec<Vec<Option<u32>>>,
    /// processes[i]: process i.
    pub processes: Vec<Process>,
}

/// What a look at a process gives.
#[derive(Clone, Debug, PartialEq, Eq)]
pub struct Look {
    pub stage: &'static str,
    pub level: usize,
    pub accesses: usize,
    pub view: Option<View>,
}

impl Machine {
    /// A machine of n absent processes and empty registers; n is 1 to 32.
    pub fn fresh(n: usize) -> Machine {
        Machine {
            n,
            rows: vec![vec![None; n + 1]; n + 1],
            processes: vec![Process::Absent; n + 1],
        }
    }

    /// A new machine: the number and the machine. Refused with 8 only.
    pub fn new(n: usize) -> (u32, Machine) {
        if n < 1 || n > 32 {
            (8, Machine::fresh(1))
        } else {
            (0, Machine::fresh(n))
        }
    }

    /// Rule 3.
    pub fn enter(&mut self, p: usize, value: u32) -> u32 {
        if !self.well_shaped() {
            return 1;
        }
        if p == 0 || p > self.n {
            return 2;
        }
        if self.processes[p] != Process::Absent {
            return 3;
        }
        self.processes[p] = Process::Running(Stand {
            value,
            level: self.n,
            accesses: 0,
            found: View::new(),
        });
        0
    }

    /// Rules 4 and 5: one access of process p.
    pub fn step(&mut self, p: usize) -> u32 {
        let stand = match self.running(p) {
            Ok(stand) => stand,
            Err(number) => return number,
        };
        let level = stand.level;
        let mut next = stand.clone();
        next.accesses = stand.accesses + 1;

        // The first access writes (line 3 of the figure).
        if stand.accesses == 0 {
            self.rows[level][p] = Some(stand.value);
            self.processes[p] = Process::Running(next);
            return 0;
        }

        // The access after j accesses reads register j (line 4).
        let j = stand.accesses;
        if let Some(value) = self.rows[level][j] {
            next.found.insert(j, value);
        }
        if j < self.n {
            self.processes[p] = Process::Running(next);
            return 0;
        }

        // That was the last read (lines 5 to 9).
        if next.found.len() == level {
            self.processes[p] = Process::Finished {
                value: stand.value,
                level,
                view: next.found,
            };
            return 0;
        }
        if level == 1 {
            return 7;
        }
        self.processes[p] = Process::Running(Stand {
            value: stand.value,
            level: level - 1,
            accesses: 0,
            found: View::new(),
        });
        0
    }

    /// Rule 6.
    pub fn crash(&mut self, p: usize) -> u32 {
        match self.running(p) {
            Ok(stand) => {
                self.processes[p] = Process::Crashed(stand);
                0
            }
            Err(number) => number,
        }
    }

    /// Rule 8: steps of process p until it finishes. No order asks for it; scripts of calls do.
    pub fn finish_alone(&mut self, p: usize) -> u32 {
        let at_entry = self.clone();
        loop {
            let number = self.step(p);
            if number != 0 {
                *self = at_entry;
                return number;
            }
            if let Process::Finished { .. } = self.processes[p] {
                return 0;
            }
        }
    }

    /// The stand of a running process, or the number that refuses step, finish alone and crash.
    fn running(&self, p: usize) -> Result<Stand, u32> {
        if !self.well_shaped() {
            return Err(1);
        }
        if p == 0 || p > self.n {
            return Err(2);
        }
        match &self.processes[p] {
            Process::Absent => Err(4),
            Process::Crashed(_) => Err(5),
            Process::Finished { .. } => Err(6),
            Process::Running(stand) => Ok(stand.clone()),
        }
    }

    /// A look at process p: the number and what is seen.
    pub fn look(&self, p: usize) -> (u32, Look) {
        let nothing = Look {
            stage: "absent",
            level: 0,
            accesses: 0,
            view: None,
        };
        if !self.well_shaped() {
            return (1, nothing);
        }
        if p == 0 || p > self.n {
            return (2, nothing);
        }
        let process = &self.processes[p];
        let view = match process {
            Process::Finished { view, .. } => Some(view.clone()),
            _ => None,
        };
        (
            0,
            Look {
                stage: process.stage(),
                level: process.level(),
                accesses: process.accesses(self.n),
                view,
            },
        )
    }

    /// How many processes have entered.
    pub fn participants(&self) -> usize {
        (1..=self.n)
            .filter(|&p| self.processes[p] != Process::Absent)
            .count()
    }

    /// Document 01's "well shaped". The lists have no place for anything above n.
    pub fn well_shaped(&self) -> bool {
        let n = self.n;
        if n < 1 || n > 32 || self.rows.len() != n + 1 || self.processes.len() != n + 1 {
            return false;
        }
        // Index 0 of each list stays unused.
        if self
            .rows
            .iter()
            .any(|row| row.len() != n + 1 || row[0].is_some())
        {
            return false;
        }
        if self.rows[0].iter().any(|register| register.is_some())
            || self.processes[0] != Process::Absent
        {
            return false;
        }
        (1..=n).all(|i| self.process_well_shaped(i))
    }

    fn process_well_shaped(&self, i: usize) -> bool {
        let n = self.n;
        // What i has put in its registers: its value, the lowest row it has written and those above.
        let (value, lowest) = match &self.processes[i] {
            Process::Absent => (0, n + 1),
            Process::Running(s) | Process::Crashed(s) => {
                if s.level < 1 || s.level > n || s.accesses > n {
                    return false;
                }
                // Registers 1 to accesses-1 have been read.
                if s.found
                    .iter()
                    .any(|(&j, &v)| j < 1 || j >= s.accesses || self.rows[s.level][j] != Some(v))
                {
                    return false;
                }
                (
                    s.value,
                    if s.accesses == 0 {
                        s.level + 1
                    } else {
                        s.level
                    },
                )
            }
            Process::Finished { value, level, view } => {
                if *level < 1 || *level > n || view.len() != *level {
                    return false;
                }
                if view
                    .iter()
                    .any(|(&j, &v)| j < 1 || j > n || self.rows[*level][j] != Some(v))
                {
                    return false;
                }
                (*value, *level)
            }
        };
        (1..=n).all(|x| self.rows[x][i] == if x >= lowest { Some(value) } else { None })
    }
}
