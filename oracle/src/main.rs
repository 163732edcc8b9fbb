//! The oracle: the published Rust source behind document 01's refusals. `oracle list FOLDER` writes its part of the
//! replay list into a folder, and `oracle powf` counts the floats on which `powf` with 0.5 is not the square root.
//! `oracle relief` answers the stream on standard input as document 01's program does.
mod answer;
mod counts;
mod incisions;
mod list;
mod maps;
mod numbers;
mod passes;
#[cfg(test)]
mod plates;
mod random;
mod routes;
mod rules;
mod slides;
mod source;
mod standins;
mod streams;
mod terrain;

use std::io::{Read, Write};
use std::path::Path;
use std::process::ExitCode;

/// One seed for all parts of the list.
const SEED: u64 = 7_616_167;

fn list() -> list::List {
    list::of(SEED, &[maps::list, numbers::list, passes::list, routes::list, streams::list])
}

fn write_list(folder: &str) -> Result<(), String> {
    let l = list();
    l.put(Path::new(folder), false).map_err(|e| format!("cannot write in {folder}: {e}"))?;
    print!("{}", l.summary());
    Ok(())
}

fn answer_stream() -> Result<(), String> {
    let mut input = Vec::new();
    std::io::stdin().read_to_end(&mut input).map_err(|e| format!("cannot read the stream: {e}"))?;
    let printed = rules::streams::relief(&input).bytes;
    std::io::stdout().write_all(&printed).map_err(|e| format!("cannot write the answer: {e}"))
}

fn count_powf() {
    let (known_late, constant) = standins::powf_differences();
    println!("{known_late} differ where the exponent is known at run time only, {constant} with the constant 0.5");
}

fn main() -> ExitCode {
    let args: Vec<String> = std::env::args().skip(1).collect();
    let words: Vec<&str> = args.iter().map(String::as_str).collect();
    let done = match words.as_slice() {
        ["list", folder] => write_list(folder),
        ["relief"] => answer_stream(),
        ["powf"] => {
            count_powf();
            Ok(())
        }
        _ => Err("usage: oracle list FOLDER | oracle relief | oracle powf".to_string()),
    };
    if let Err(why) = done {
        eprintln!("{why}");
        return ExitCode::FAILURE;
    }
    ExitCode::SUCCESS
}
