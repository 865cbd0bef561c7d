//! An independent program for the one-shot immediate snapshot of document 01, to compare others with.
//!
//!     peer replay            order file in, the replay program's print out
//!     peer verdict           view file in, the verdict program's print out
//!     peer views             order file in, view file of the state after its replay out
//!     peer probe             probe in (probes.rs), what it prints out
//!     peer trial             script of calls in (calls.rs), what they answer out
//!     peer make KIND SEED    a random file out; KIND is `orders`, `views`, `probes` or `calls`, SEED a decimal number
//!     peer assemble          listing in, file out
//!     peer list              file in, listing out
//!
//! Exit status: 0 done; 1 a bad line, an input too long for `views`, `probe` or `trial`, or a failed read or write;
//! 2 a command that is none of these. With 1 and 2 nothing is written on standard output.

mod calls;
mod files;
mod listing;
mod machine;
mod make_orders;
mod make_views;
mod orders;
mod probes;
mod random;
mod views;

#[cfg(test)]
mod examples;

use std::io::{Read, Write};
use std::process::ExitCode;

fn main() -> ExitCode {
    let arguments: Vec<String> = std::env::args().skip(1).collect();
    let words: Vec<&str> = arguments.iter().map(|word| word.as_str()).collect();
    let output = match words.as_slice() {
        ["replay"] => input().map(|file| orders::replay_program(&file).into_bytes()),
        ["verdict"] => input().map(|file| views::verdict_program(&file).into_bytes()),
        ["views"] => input().and_then(views_program),
        ["probe"] => input()
            .and_then(|probe| within(probe, probes::MOST_PROBE))
            .map(|probe| probes::probe_program(&probe)),
        ["trial"] => input()
            .and_then(|script| within(script, calls::MOST_SCRIPT))
            .map(|script| calls::trial_program(&script).into_bytes()),
        ["assemble"] => input().and_then(|text| assemble_program(&text)),
        ["list"] => input().map(|file| listing::list(&file).into_bytes()),
        ["make", kind, seed] => match (*kind, seed.parse::<u64>()) {
            ("orders", Ok(seed)) => Ok(make_orders::make_orders(seed)),
            ("views", Ok(seed)) => Ok(make_views::make_views(seed)),
            ("probes", Ok(seed)) => Ok(probes::make_probe(seed)),
            ("calls", Ok(seed)) => Ok(calls::make_calls(seed)),
            _ => return usage(),
        },
        _ => return usage(),
    };
    match output.and_then(|bytes| print(&bytes)) {
        Ok(()) => ExitCode::SUCCESS,
        Err(fault) => {
            eprintln!("{fault}");
            ExitCode::from(1)
        }
    }
}

fn usage() -> ExitCode {
    eprintln!(
        "usage: peer replay | verdict | views | probe | trial | make KIND SEED | assemble | list"
    );
    eprintln!("KIND is orders, views, probes or calls");
    ExitCode::from(2)
}

fn input() -> Result<Vec<u8>, String> {
    let mut bytes = Vec::new();
    std::io::stdin()
        .read_to_end(&mut bytes)
        .map_err(|fault| fault.to_string())?;
    Ok(bytes)
}

fn print(bytes: &[u8]) -> Result<(), String> {
    let mut out = std::io::stdout();
    out.write_all(bytes)
        .and_then(|()| out.flush())
        .map_err(|fault| fault.to_string())
}

/// The bytes, if there are no more than `most`.
fn within(bytes: Vec<u8>, most: usize) -> Result<Vec<u8>, String> {
    if bytes.len() > most {
        return Err("too long".to_string());
    }
    Ok(bytes)
}

fn views_program(file: Vec<u8>) -> Result<Vec<u8>, String> {
    let file = within(file, files::MOST_BYTES)?;
    let run = orders::replay(&file, orders::BUDGET);
    Ok(views::write_views(&run.machine))
}

fn assemble_program(text: &[u8]) -> Result<Vec<u8>, String> {
    listing::assemble(&String::from_utf8_lossy(text))
        .map_err(|(line, fault)| format!("line {line}: {fault}"))
}
