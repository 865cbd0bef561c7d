//! View files: the writer, the reader, the checker, and what the verdict program prints.

use crate::files::{four, read_header, refusal_place, HEADER, MOST_BYTES};
use crate::machine::{Machine, Process, View};
use std::collections::BTreeMap;

/// The views of a file or a machine, by process.
pub type Views = BTreeMap<usize, View>;

/// The record of one view. It names processes 1 to 32.
pub fn view_record(p: u8, view: &View) -> Vec<u8> {
    let mut set: u32 = 0;
    for &i in view.keys() {
        set |= 1 << (i - 1);
    }
    let mut record = vec![b'V', b'W', p];
    record.extend(set.to_le_bytes());
    for value in view.values() {
        record.extend(value.to_le_bytes());
    }
    record
}

/// The processes that a set names, ascending.
pub fn named(set: u32) -> Vec<usize> {
    (1..=32).filter(|i| set & (1 << (i - 1)) != 0).collect()
}

/// The views of the finished processes.
pub fn views_of(machine: &Machine) -> Views {
    let mut views = Views::new();
    for p in 1..=machine.n {
        if let Process::Finished { view, .. } = &machine.processes[p] {
            views.insert(p, view.clone());
        }
    }
    views
}

/// The view file of a machine.
pub fn write_views(machine: &Machine) -> Vec<u8> {
    let mut file = vec![b'M', b'N', machine.n as u8];
    for (p, view) in views_of(machine) {
        file.extend(view_record(p as u8, &view));
    }
    file
}

/// The view writer on a lent buffer: the number and the bytes written.
pub fn write_into(machine: &Machine, buffer: &mut [u8]) -> (u32, usize) {
    if !machine.well_shaped() {
        return (1, 0);
    }
    let file = write_views(machine);
    if buffer.len() < file.len() {
        return (17, 0);
    }
    buffer[..file.len()].copy_from_slice(&file);
    (0, file.len())
}

/// What the reader answers.
#[derive(Clone, Debug, PartialEq, Eq)]
pub struct Reading {
    pub number: u32,
    pub place: usize,
    pub n: usize,
    pub views: Views,
}

/// Reads a view file.
pub fn read_views(file: &[u8]) -> Reading {
    let refused = |number, mark| Reading {
        number,
        place: refusal_place(file, mark, number),
        n: 0,
        views: Views::new(),
    };
    let n = match read_header(file) {
        Ok(n) => n,
        Err(number) => return refused(number, 0),
    };
    let mut views = Views::new();
    let mut place = HEADER;
    while place < file.len() {
        match read_view(&file[place..], n, &views) {
            Ok((p, view, length)) => {
                views.insert(p, view);
                place += length;
            }
            Err(number) => return refused(number, place),
        }
    }
    Reading {
        number: 0,
        place,
        n,
        views,
    }
}

/// The process, view and length of the first record in `left`, or the number that refuses it.
fn read_view(left: &[u8], n: usize, before: &Views) -> Result<(usize, View, usize), u32> {
    if left.len() == 1 {
        return Err(11);
    }
    if &left[0..2] == b"MN" {
        return Err(12);
    }
    if &left[0..2] != b"VW" {
        return Err(10);
    }
    if left.len() < 2 + 5 {
        return Err(24);
    }
    let p = left[2] as usize;
    let names = named(four(&left[3..7]));
    if p == 0 || p > n {
        return Err(14);
    }
    if before.contains_key(&p) {
        return Err(15);
    }
    if names.iter().any(|&i| i > n) {
        return Err(16);
    }
    let length = 7 + 4 * names.len();
    if left.len() < length {
        return Err(24);
    }
    let mut view = View::new();
    for (k, &i) in names.iter().enumerate() {
        view.insert(i, four(&left[7 + 4 * k..]));
    }
    Ok((p, view, length))
}

/// The checker: number, i and j of the first break, or 0, 0, 0.
pub fn check(views: &Views) -> (u32, usize, usize) {
    for (&i, view) in views {
        if !view.contains_key(&i) {
            return (20, i, 0);
        }
    }
    for (&i, a) in views {
        for (&j, b) in views {
            if i < j {
                let number = check_pair(i, a, j, b);
                if number != 0 {
                    return (number, i, j);
                }
            }
        }
    }
    (0, 0, 0)
}

fn check_pair(i: usize, a: &View, j: usize, b: &View) -> u32 {
    // A process that both views name has one value.
    if a.iter()
        .any(|(k, value)| b.contains_key(k) && b[k] != *value)
    {
        return 23;
    }
    let a_in_b = a.keys().all(|k| b.contains_key(k));
    let b_in_a = b.keys().all(|k| a.contains_key(k));
    if !a_in_b && !b_in_a {
        return 21;
    }
    if a.contains_key(&j) && b.contains_key(&i) && a != b {
        return 22;
    }
    0
}

/// What the verdict program prints for a file.
pub fn verdict_program(file: &[u8]) -> String {
    if file.len() > MOST_BYTES {
        return "too long\n".to_string();
    }
    let reading = read_views(file);
    let (number, i, j) = if reading.number != 0 {
        (reading.number, 0, 0)
    } else {
        check(&reading.views)
    };
    format!("verdict {} {} {} {}\n", number, reading.place, i, j)
}
