//! Random view files. The seed decides all: n is 1 + seed mod 32, the style is seed mod 29.
//! So 32 seeds in a row have all sizes, 29 all styles, and 928 each style with each size. Some of the
//! faulty styles take their kinds by turns, seed / 29: 203 seeds in a row have them all.

use crate::machine::{Machine, View};
use crate::make_orders::any_run;
use crate::random::Random;
use crate::views::{view_record, views_of};

const STYLES: u64 = 29;

/// The records of a view file in their order.
type Records = Vec<(u8, View)>;

fn view_file(n: usize, records: &Records) -> Vec<u8> {
    let mut file = vec![b'M', b'N', n as u8];
    for (p, view) in records {
        file.extend(view_record(*p, view));
    }
    file
}

/// The views that a run leaves.
fn outcome(random: &mut Random, n: usize) -> Records {
    let mut machine = Machine::fresh(n);
    for order in any_run(random, n) {
        order.give(&mut machine);
    }
    views_of(&machine)
        .into_iter()
        .map(|(p, view)| (p as u8, view))
        .collect()
}

/// One value for each process; index 0 is not used.
fn values(random: &mut Random, n: usize) -> Vec<u32> {
    let limits = random.one_in(4);
    (0..=n)
        .map(|_| {
            if limits {
                random.limit_value()
            } else {
                random.value()
            }
        })
        .collect()
}

fn view(list: &[usize], values: &[u32]) -> View {
    list.iter().map(|&p| (p, values[p])).collect()
}

/// Views of blocks one after the other: each block sees itself and those before. Some views may be missing.
fn by_blocks(random: &mut Random, n: usize, all: bool) -> Records {
    let values = values(random, n);
    let list = random.processes(n, all);
    let missing = !all && random.one_in(2);
    let mut seen = Vec::new();
    let mut records = Records::new();
    for block in random.blocks(&list) {
        seen.extend(&block);
        for &p in &block {
            if !(missing && random.one_in(3)) {
                records.push((p as u8, view(&seen, &values)));
            }
        }
    }
    records.sort_by_key(|record| record.0);
    records
}

/// Any valid views, at least one.
fn valid(random: &mut Random, n: usize) -> Records {
    let records = if random.one_in(2) {
        outcome(random, n)
    } else {
        by_blocks(random, n, false)
    };
    if records.is_empty() {
        by_blocks(random, n, true)
    } else {
        records
    }
}

/// Views of random sets, mostly with their own process; the values agree or are drawn from two.
fn any_views(random: &mut Random, n: usize, agree: bool) -> Records {
    let values = values(random, n);
    let one_in = random.from_to(1, 4);
    let other_value_in = random.pick(&[2, 10, 50]);
    let mut records = Records::new();
    for p in random.processes(n, false) {
        let mut list: Vec<usize> = (1..=n).filter(|_| random.one_in(one_in)).collect();
        if !random.one_in(100) {
            list.push(p);
        }
        let mut view = view(&list, &values);
        if !agree {
            for value in view.values_mut() {
                *value = if random.one_in(other_value_in) { 1 } else { 0 };
            }
        }
        records.push((p as u8, view));
    }
    records
}

/// 20: some view lacks its own process.
fn break_self(random: &mut Random, records: &mut Records) {
    let k = random.below(records.len());
    let (p, view) = &mut records[k];
    view.remove(&(*p as usize));
}

/// Draws two processes and takes their records out, or all; gives the values that stood in the file.
fn two(random: &mut Random, n: usize, records: &mut Records) -> (usize, usize, Vec<u32>) {
    let mut values = values(random, n);
    for (_, view) in records.iter() {
        for (&p, &value) in view {
            values[p] = value;
        }
    }
    let pair = random.processes(n, true);
    let (i, j) = (pair[0], pair[1]);
    if random.one_in(2) {
        records.clear();
    }
    records.retain(|record| record.0 as usize != i && record.0 as usize != j);
    (i, j, values)
}

/// 21: two views, neither inside the other. n is at least 2.
fn break_containment(random: &mut Random, n: usize, records: &mut Records) {
    let (i, j, values) = two(random, n, records);
    for (own, other) in [(i, j), (j, i)] {
        let mut list = vec![own];
        list.extend((1..=n).filter(|&p| p != other && random.one_in(2)));
        records.push((own as u8, view(&list, &values)));
    }
    records.sort_by_key(|record| record.0);
}

/// 22: two processes see each other, one sees more. n is at least 3.
fn break_simultaneity(random: &mut Random, n: usize, records: &mut Records) {
    let (i, j, values) = two(random, n, records);
    let others: Vec<usize> = (1..=n).filter(|&p| p != i && p != j).collect();
    let more = random.pick(&others);
    let mut list = vec![i, j];
    list.extend(others.iter().filter(|&&p| p != more && random.one_in(2)));
    records.push((i as u8, view(&list, &values)));
    list.push(more);
    records.push((j as u8, view(&list, &values)));
    records.sort_by_key(|record| record.0);
}

/// 23: one view gives one process another value; it shows if another view names that process.
fn break_value(random: &mut Random, records: &mut Records) {
    let k = random.below(records.len());
    let named: Vec<usize> = records[k].1.keys().copied().collect();
    if named.is_empty() {
        return;
    }
    let p = random.pick(&named);
    let old = records[k].1[&p];
    let new = match random.below(3) {
        0 => old ^ 1,
        1 => old ^ (1 << random.below(32)),
        _ => !old,
    };
    records[k].1.insert(p, new);
}

/// One of the four breaks, as far as n allows it.
fn break_any(random: &mut Random, n: usize, records: &mut Records) {
    match random.below(4) {
        0 => break_self(random, records),
        1 if n >= 2 => break_containment(random, n, records),
        2 if n >= 3 => break_simultaneity(random, n, records),
        _ => break_value(random, records),
    }
}

/// A process number that is 0 or above n.
fn bad_process(random: &mut Random, n: usize) -> u8 {
    let any = random.from_to(n + 1, 255);
    random.pick(&[0, n + 1, 33, 255, any]) as u8
}

/// The view with a process above n named too, if there is one.
fn bad_view(random: &mut Random, n: usize, view: &View) -> View {
    let mut view = view.clone();
    if n < 32 {
        let p = random.pick(&[n + 1, 32]);
        view.insert(p, random.value());
    }
    view
}

/// The random view file of a seed.
pub fn make_views(seed: u64) -> Vec<u8> {
    let mut generator = Random::new(seed);
    let random = &mut generator;
    let n = 1 + (seed % 32) as usize;
    let style = seed % STYLES;
    let turn = (seed / STYLES % 420) as usize;
    let mut records = match style {
        0 => outcome(random, n),
        1 => by_blocks(random, n, true),
        2 => by_blocks(random, n, false),
        3 => Records::new(),
        4 | 5 => any_views(random, n, style == 4),
        6 => return random.tiny(n, turn),
        _ => valid(random, n),
    };
    // Styles 7 to 13 break properties.
    let breaks = random.from_to(2, 5);
    match style {
        7 => break_self(random, &mut records),
        8 => (0..breaks).for_each(|_| break_self(random, &mut records)),
        9 if n >= 2 => break_containment(random, n, &mut records),
        10 if n >= 3 => break_simultaneity(random, n, &mut records),
        11 => break_value(random, &mut records),
        12 => (0..breaks).for_each(|_| break_any(random, n, &mut records)),
        13 => {
            let k = random.below(records.len());
            records[k].1.clear();
        }
        _ => {}
    }
    // The views may stand in any order.
    if random.one_in(3) {
        random.shuffle(&mut records);
    }
    // Styles 14 to 16 have a record that is refused, with records before and after it.
    if (14..=16).contains(&style) {
        let k = random.below(records.len());
        let mut bad = records[k].clone();
        let mut first = 0;
        match style {
            14 => bad.0 = bad_process(random, n),
            15 => {
                // A second view, after the first, equal to it or not.
                first = k + 1;
                if random.one_in(2) {
                    bad.1.clear();
                }
            }
            _ => {
                bad.1 = bad_view(random, n, &bad.1);
                records.remove(k);
            }
        }
        let at = random.from_to(first, records.len());
        records.insert(at, bad);
    }
    let mut file = view_file(n, &records);
    match style {
        17 => file = two_faults(random, n, &records, turn),
        // The last record is cut, by turns in the mark, after it, in the fixed bytes or in the values.
        18 => {
            let last = records
                .last()
                .map_or(0, |(p, view)| view_record(*p, view).len());
            let left = match turn % 4 {
                0 => 1,
                1 => 2,
                2 => random.from_to(3, 6),
                _ => random.from_to(7, last - 1),
            };
            file.truncate(file.len() - last + left);
        }
        19 => {
            let mut bad = random.bad_header(turn);
            bad.extend(&file[3..]);
            file = bad;
        }
        20 | 21 => foreign(random, n, &records, style == 21, &mut file),
        22 => random.change(&mut file),
        23 => {
            random.change(&mut file);
            random.change(&mut file);
        }
        24 => random.remove(&mut file),
        25 => random.insert(&mut file),
        26 => random.cut(&mut file),
        27 => size_limit(random, turn, &mut file),
        _ => {}
    }
    file
}

/// A last record with two faults, by turns, to tell which is judged first.
fn two_faults(random: &mut Random, n: usize, records: &Records, turn: usize) -> Vec<u8> {
    let mut records = records.clone();
    let k = random.below(records.len());
    let (mut p, mut view) = records[k].clone();
    let kind = turn % 7;
    // 14, or 15 while the first view stands.
    if [0, 1, 2].contains(&kind) {
        p = bad_process(random, n);
    }
    // 16
    if [0, 3, 5].contains(&kind) {
        view = bad_view(random, n, &view);
    }
    if kind == 5 {
        records.remove(k);
    }
    // 24, in the fixed bytes or in the values.
    let record = view_record(p, &view);
    let length = match kind {
        0 | 3 => record.len(),
        1 | 6 => random.from_to(3, 6),
        _ => random.from_to(7, record.len() - 1),
    };
    let mut file = view_file(n, &records);
    file.extend(&record[..length]);
    file
}

/// A record that no view file has, between the others: the header again, or another mark.
fn foreign(random: &mut Random, n: usize, records: &Records, header: bool, file: &mut Vec<u8>) {
    let k = random.below(records.len() + 1);
    *file = view_file(n, &records[..k].to_vec());
    if header {
        file.extend([b'M', b'N', n as u8]);
        if random.one_in(3) {
            file.pop();
        }
    } else {
        match random.below(4) {
            0 => file.extend([b'E', b'N', 1, 7, 0, 0, 0]),
            1 => file.extend([random.pick(b"SC"), random.pick(b"TR"), 1]),
            2 => file.extend(random.pick(&[b"EN", b"WV", b"vw", b"VV", b"\0\0"])),
            _ => file.extend([random.byte(), random.byte()]),
        }
    }
    if random.one_in(2) {
        file.extend(&view_file(n, &records[k..].to_vec())[3..]);
    }
}

/// Bytes after the views, up to 65,534, 65,535 or 65,536 bytes.
fn size_limit(random: &mut Random, turn: usize, file: &mut Vec<u8>) {
    let size = 65_534 + turn % 3;
    let filling = random.pick(&[b'V', b'M', 0]);
    file.resize(size, filling);
}

#[cfg(test)]
mod tests {
    use super::*;
    use crate::files::{four, HEADER, MOST_BYTES};
    use crate::views::{check, read_views};
    use std::collections::{BTreeMap, BTreeSet};

    #[test]
    fn one_seed_one_file() {
        for seed in 0..200 {
            assert_eq!(make_views(seed), make_views(seed));
        }
    }

    /// The histogram is printed by `cargo test coverage -- --nocapture`.
    #[test]
    fn coverage() {
        let mut verdicts: BTreeMap<u32, usize> = BTreeMap::new();
        let mut sizes: BTreeSet<usize> = BTreeSet::new();
        let mut too_long = 0;
        for seed in 0..928 {
            let file = make_views(seed);
            if file.len() > MOST_BYTES {
                too_long += 1;
                continue;
            }
            let reading = read_views(&file);
            let number = if reading.number != 0 {
                reading.number
            } else {
                check(&reading.views).0
            };
            *verdicts.entry(number).or_default() += 1;
            sizes.insert(reading.n);
        }
        println!("view files by number: {verdicts:?}, too long: {too_long}");
        let all = [0, 8, 9, 10, 11, 12, 14, 15, 16, 20, 21, 22, 23, 24];
        assert_eq!(verdicts.keys().copied().collect::<Vec<_>>(), all);
        assert_eq!(sizes.len(), 33);
        assert!(too_long > 0);
    }

    /// How much is left of a cut record; the records before it are whole.
    fn left_of_last(file: &[u8]) -> usize {
        if file.len() < HEADER {
            return file.len();
        }
        let mut left = &file[HEADER..];
        while left.len() >= 7 {
            let length = 7 + 4 * four(&left[3..]).count_ones() as usize;
            if left.len() < length {
                break;
            }
            left = &left[length..];
        }
        left.len()
    }

    /// 216 seeds in a row have a cut in each part of the header and of a view.
    #[test]
    fn cuts() {
        for first in [0, 216, 432, 648] {
            // The number, whether it is the header that is cut, and where the missing bytes begin.
            let mut cuts = BTreeSet::new();
            for seed in first..first + 216 {
                let file = make_views(seed);
                let reading = read_views(&file);
                if file.len() <= MOST_BYTES && [11, 24].contains(&reading.number) {
                    let left = left_of_last(&file);
                    let place = if left == 1 {
                        file.len() - 1
                    } else {
                        file.len()
                    };
                    assert_eq!(reading.place, place, "seed {seed}");
                    let part = match left {
                        1 => "in the mark",
                        2 => "after the mark",
                        3..=6 => "in the fixed bytes",
                        _ => "in the values",
                    };
                    cuts.insert((reading.number, file.len() < HEADER, part));
                }
            }
            let every_cut = BTreeSet::from([
                (11, false, "in the mark"),
                (11, true, "in the mark"),
                (24, false, "after the mark"),
                (24, false, "in the fixed bytes"),
                (24, false, "in the values"),
                (24, true, "after the mark"),
            ]);
            assert_eq!(cuts, every_cut);
        }
    }

    /// Each style gives the number that it is for, wherever n allows it.
    #[test]
    fn styles() {
        for seed in 0..928 {
            let n = 1 + seed % 32;
            let reading = read_views(&make_views(seed));
            let number = if reading.number != 0 {
                reading.number
            } else {
                check(&reading.views).0
            };
            let expected = match seed % STYLES {
                0..=3 | 28 => Some(0),
                7 | 8 | 13 => Some(20),
                14 => Some(14),
                15 => Some(15),
                16 if n < 32 => Some(16),
                17 => match seed / STYLES % 7 {
                    0 | 2 => Some(14),
                    1 | 6 => Some(24),
                    3 | 4 => Some(15),
                    _ if n < 32 => Some(16),
                    _ => Some(24),
                },
                18 if seed / STYLES % 4 == 0 => Some(11),
                18 => Some(24),
                20 if number != 12 => Some(10),
                21 => Some(12),
                _ => None,
            };
            if let Some(expected) = expected {
                assert_eq!(number, expected, "seed {seed}");
            }
        }
    }
}
