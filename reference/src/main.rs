//! A plain second implementation of what the published source does not know (document 02), and its part of the replay
//! list: `reference list FOLDER` writes it behind what the files stdin and stdout of the folder hold.
#[path = "../../oracle/src/answer.rs"]
mod answer;
#[path = "../../oracle/src/counts.rs"]
mod counts;
mod inputs;
#[path = "../../oracle/src/list.rs"]
#[allow(dead_code)]
mod list;
#[path = "../../oracle/src/random.rs"]
#[allow(dead_code)]
mod random;
mod rules;
mod slides;
mod talus;
#[path = "../../oracle/src/terrain.rs"]
#[allow(dead_code)]
mod terrain;
#[cfg(test)]
mod tests;

use std::path::Path;
use std::process::ExitCode;

const SEED: u64 = 7_616_167;

fn write_list(folder: &str) -> Result<(), String> {
    let l = list::of(SEED, &[slides::list]);
    l.put(Path::new(folder), true).map_err(|e| format!("cannot write in {folder}: {e}"))?;
    print!("{}", l.summary());
    Ok(())
}

fn main() -> ExitCode {
    let args: Vec<String> = std::env::args().skip(1).collect();
    let words: Vec<&str> = args.iter().map(String::as_str).collect();
    let done = match words.as_slice() {
        ["list", folder] => write_list(folder),
        _ => Err("usage: reference list FOLDER".to_string()),
    };
    if let Err(why) = done {
        eprintln!("{why}");
        return ExitCode::FAILURE;
    }
    ExitCode::SUCCESS
}
