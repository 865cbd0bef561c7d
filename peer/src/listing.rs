//! Readable listings of order files and view files, one record a line.
//!
//!     machine N              MN, n
//!     enter P VALUE          EN, process, value
//!     step P                 ST, process
//!     step P times K         the same record K times, K from 1 to 65535
//!     crash P                CR, process
//!     view P: 1:7 2:9        VW, process, set, values; `view P:` is the empty set
//!     bytes 77 78 3          these bytes, for what is no whole record
//!
//! Numbers are decimal. `#` starts a comment, and empty lines are skipped. N and P are any byte, a view names
//! processes 1 to 32, and lines may stand in any order, so that faulty files can be written too. A listing
//! made from any file assembles to that file again.

use crate::files::four;
use crate::machine::View;
use crate::orders::Order;
use crate::views::{named, view_record};

/// The file of a listing, or the number and the fault of its first bad line.
pub fn assemble(text: &str) -> Result<Vec<u8>, (usize, String)> {
    let mut file = Vec::new();
    for (k, line) in text.lines().enumerate() {
        let line = line.split('#').next().unwrap_or("");
        match line_bytes(line) {
            Ok(bytes) => file.extend(bytes),
            Err(fault) => return Err((k + 1, fault)),
        }
    }
    Ok(file)
}

fn line_bytes(line: &str) -> Result<Vec<u8>, String> {
    let words: Vec<&str> = line.split_whitespace().collect();
    match words.as_slice() {
        [] => Ok(vec![]),
        ["machine", n] => Ok(vec![b'M', b'N', byte(n)?]),
        ["enter", p, value] => Ok(Order::Enter(byte(p)?, number(value, u32::MAX)?).bytes()),
        ["step", p] => Ok(Order::Step(byte(p)?).bytes()),
        ["step", p, "times", count] => {
            let record = Order::Step(byte(p)?).bytes();
            match number(count, 65_535)? {
                0 => Err("a count of 0".to_string()),
                count => Ok(record.repeat(count as usize)),
            }
        }
        ["crash", p] => Ok(Order::Crash(byte(p)?).bytes()),
        ["view", p, pairs @ ..] => {
            let p = p
                .strip_suffix(':')
                .ok_or("no `:` after the view's process")?;
            let mut view = View::new();
            for pair in pairs {
                let (i, value) = pair
                    .split_once(':')
                    .ok_or(format!("`{pair}` is no process:value"))?;
                let i = number(i, 32)? as usize;
                if i == 0 {
                    return Err("a view cannot name process 0".to_string());
                }
                if view.insert(i, number(value, u32::MAX)?).is_some() {
                    return Err(format!("process {i} named twice"));
                }
            }
            Ok(view_record(byte(p)?, &view))
        }
        ["bytes", list @ ..] => list.iter().map(|b| byte(b)).collect(),
        [word, ..] => Err(format!(
            "not a record: `{word}` with {} more words",
            words.len() - 1
        )),
    }
}

fn byte(word: &str) -> Result<u8, String> {
    Ok(number(word, 255)? as u8)
}

/// A decimal number of digits alone, at most `most`.
fn number(word: &str, most: u32) -> Result<u32, String> {
    let digits = !word.is_empty() && word.bytes().all(|b| b.is_ascii_digit());
    match word.parse::<u32>() {
        Ok(value) if digits && value <= most => Ok(value),
        _ => Err(format!("`{word}` is no number from 0 to {most}")),
    }
}

/// The listing of a file of either kind, faulty or not.
pub fn list(file: &[u8]) -> String {
    let mut lines = Vec::new();
    let mut at = 0;
    while at < file.len() {
        let left = &file[at..];
        match record(left) {
            Some((line, length)) => {
                // Equal steps that follow one another make one line.
                let mut count = 1;
                if line.starts_with("step") {
                    while count < 65_535 && left[count * length..].starts_with(&left[..length]) {
                        count += 1;
                    }
                }
                lines.push(if count > 1 {
                    format!("{line} times {count}")
                } else {
                    line
                });
                at += count * length;
            }
            None => {
                // Where the next record begins cannot be known.
                for part in left.chunks(16) {
                    let bytes: Vec<String> = part.iter().map(|b| b.to_string()).collect();
                    lines.push(format!("bytes {}", bytes.join(" ")));
                }
                at = file.len();
            }
        }
    }
    lines.iter().map(|line| format!("{line}\n")).collect()
}

/// The line and the length of the whole record that `left` begins with.
fn record(left: &[u8]) -> Option<(String, usize)> {
    if left.len() < 3 {
        return None;
    }
    let p = left[2];
    match &left[0..2] {
        b"MN" => Some((format!("machine {p}"), 3)),
        b"ST" => Some((format!("step {p}"), 3)),
        b"CR" => Some((format!("crash {p}"), 3)),
        b"EN" if left.len() >= 7 => Some((format!("enter {p} {}", four(&left[3..7])), 7)),
        b"VW" if left.len() >= 7 => {
            let names = named(four(&left[3..7]));
            let length = 7 + 4 * names.len();
            if left.len() < length {
                return None;
            }
            let mut line = format!("view {p}:");
            for (k, i) in names.iter().enumerate() {
                line += &format!(" {i}:{}", four(&left[7 + 4 * k..]));
            }
            Some((line, length))
        }
        _ => None,
    }
}

#[cfg(test)]
mod tests {
    use super::*;
    use crate::make_orders::make_orders;
    use crate::make_views::make_views;

    #[test]
    fn every_record() {
        let text =
            "machine 2 # two\n\n  enter 1 4294967295\nstep 1\nstep 2 times 3\ncrash 2\n# end\n";
        let file = assemble(text).unwrap();
        assert_eq!(
            file,
            b"MN\x02EN\x01\xff\xff\xff\xffST\x01ST\x02ST\x02ST\x02CR\x02"
        );
        assert_eq!(
            list(&file),
            "machine 2\nenter 1 4294967295\nstep 1\nstep 2 times 3\ncrash 2\n"
        );

        let text = "machine 32\nview 1: 1:7 32:9\nview 2:\nbytes 0 255\n";
        let file = assemble(text).unwrap();
        assert_eq!(
            file,
            b"MN\x20VW\x01\x01\0\0\x80\x07\0\0\0\x09\0\0\0VW\x02\0\0\0\0\x00\xff"
        );
        assert_eq!(list(&file), text);
    }

    #[test]
    fn a_view_is_written_ascending() {
        assert_eq!(assemble("view 3: 3:5 1:4"), assemble("view 3: 1:4 3:5"));
    }

    #[test]
    fn bad_lines() {
        let bad = [
            "machine",
            "machine 256",
            "machine 1 2",
            "machine -1",
            "machine +1",
            "enter 1",
            "enter 1 4294967296",
            "step",
            "step 1 2",
            "step 1 times",
            "step 1 times 0",
            "step 1 times 65536",
            "crash x",
            "view",
            "view 1",
            "view 1 1:7",
            "view 1: 7",
            "view 1: 0:7",
            "view 1: 33:7",
            "view 1: 1:7 1:7",
            "view 1: 1:",
            "bytes 256",
            "walk 1",
            "Step 1",
        ];
        for line in bad {
            let text = format!("machine 4\n# a comment\n{line}\nbad too\n");
            match assemble(&text) {
                Err((3, _)) => {}
                other => panic!("{line}: {other:?}"),
            }
        }
    }

    #[test]
    fn long_runs_of_one_step() {
        let file = b"ST\x01".repeat(70_000);
        assert_eq!(list(&file), "step 1 times 65535\nstep 1 times 4465\n");
        assert_eq!(assemble(&list(&file)).unwrap(), file);
    }

    #[test]
    fn round_trips() {
        for seed in 0..500 {
            for file in [make_orders(seed), make_views(seed)] {
                let text = list(&file);
                let again = assemble(&text).unwrap();
                assert!(again == file, "seed {seed}");
                assert!(list(&again) == text, "seed {seed}");
            }
        }
    }
}
