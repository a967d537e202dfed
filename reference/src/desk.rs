//! The desk program: the sheet from shares.txt, events from standard input,
//! one line for each on standard output.

use reference::{refusal, Line, Scheduler, RECORD};
use std::fs::File;
use std::io::{self, ErrorKind, Read, Write};
use std::process::ExitCode;

/// Whole records read at a time, at most.
const CHUNK: usize = 4096 * RECORD;
/// Longest right sheet, and one byte to know a longer one by.
const SHEET: u64 = 21 * RECORD as u64 + 1;

fn main() -> ExitCode {
    match work(&mut io::stdin().lock(), &mut io::stdout().lock()) {
        Ok(()) => ExitCode::SUCCESS,
        // Nobody reads the lines any more.
        Err(_) => ExitCode::FAILURE,
    }
}

fn work(input: &mut impl Read, output: &mut impl Write) -> io::Result<()> {
    let mut scheduler = match Scheduler::start(&sheet()) {
        Ok(scheduler) => scheduler,
        Err(number) => {
            output.write_all(&text(Line::refused(number)))?;
            return output.flush();
        }
    };
    let mut events = vec![0; CHUNK];
    let mut lines = vec![0; CHUNK];
    let mut held = 0;
    loop {
        held += match input.read(&mut events[held..]) {
            Ok(0) => break,
            Ok(count) => count,
            Err(error) if error.kind() == ErrorKind::Interrupted => continue,
            // An input that fails has ended.
            Err(_) => break,
        };
        let whole = held - held % RECORD;
        let written = scheduler.run(&events[..whole], &mut lines);
        output.write_all(&lines[..written])?;
        output.flush()?;
        events.copy_within(whole..held, 0);
        held -= whole;
    }
    if held > 0 {
        output.write_all(&text(Line::refused(refusal::EVENT_LENGTH)))?;
        output.flush()?;
    }
    Ok(())
}

/// The bytes of shares.txt; none if it can't be read. More than the longest
/// sheet isn't read, one byte too many is refused already.
fn sheet() -> Vec<u8> {
    let mut bytes = Vec::new();
    match File::open("shares.txt").and_then(|file| file.take(SHEET).read_to_end(&mut bytes)) {
        Ok(_) => bytes,
        Err(_) => Vec::new(),
    }
}

fn text(line: Line) -> [u8; RECORD] {
    let mut out = [0; RECORD];
    line.write(&mut out);
    out
}
