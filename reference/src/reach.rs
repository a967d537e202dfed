//! Shows what the streams reach.
//!
//!   reach [count [first]]   runs that many seeds and prints the counts
//!   reach show SEED         prints a case and the lines it gives
//!   reach save SEED DIR     writes shares.txt, events.bin and expected.txt

use reference::streams::{answer, stream, Reach};
use std::io::{self, Write};
use std::process::ExitCode;
use std::time::Instant;

fn main() -> ExitCode {
    let arguments: Vec<String> = std::env::args().skip(1).collect();
    let words: Vec<&str> = arguments.iter().map(String::as_str).collect();
    let done = match words[..] {
        ["show", seed] => seed.parse().ok().map(show),
        ["save", seed, folder] => seed.parse().ok().map(|seed| save(seed, folder)),
        [] => Some(count(20_000, 0)),
        [many] => many.parse().ok().map(|many| count(many, 0)),
        [many, first] => many
            .parse()
            .ok()
            .zip(first.parse().ok())
            .map(|(m, f)| count(m, f)),
        _ => None,
    };
    match done {
        Some(Ok(())) => ExitCode::SUCCESS,
        Some(Err(_)) => ExitCode::FAILURE,
        None => {
            println!("reach [count [first]] | reach show SEED | reach save SEED DIR");
            ExitCode::FAILURE
        }
    }
}

fn count(many: u64, first: u64) -> io::Result<()> {
    let begin = Instant::now();
    let mut reach = Reach::default();
    let mut events = 0;
    let mut longest = 0;
    for seed in first..first.saturating_add(many) {
        let case = stream(seed);
        let lines = answer(&case);
        reach.count(&case, &lines);
        events += case.events.len();
        longest = longest.max(case.events.len());
    }
    let time = begin.elapsed();
    let mut out = io::stdout().lock();
    write!(out, "{reach}")?;
    writeln!(out, "bytes of events {events}, longest stream {longest}")?;
    writeln!(
        out,
        "complete: {}, {:.2} s",
        reach.complete(),
        time.as_secs_f64()
    )
}

fn show(seed: u64) -> io::Result<()> {
    let case = stream(seed);
    let lines = answer(&case);
    let mut out = io::stdout().lock();
    write!(out, "{case}lines\n{}", String::from_utf8_lossy(&lines))
}

fn save(seed: u64, folder: &str) -> io::Result<()> {
    let case = stream(seed);
    std::fs::create_dir_all(folder)?;
    std::fs::write(format!("{folder}/shares.txt"), &case.sheet)?;
    std::fs::write(format!("{folder}/events.bin"), &case.events)?;
    std::fs::write(format!("{folder}/expected.txt"), answer(&case))
}
