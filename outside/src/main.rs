//! Compares the library's reader and writer with those in `reader.rs`, on a million frames, and times both readers. It ends with
//! status 1 where they disagree on any.

mod compare;
mod draws;
mod frames;
mod proved;
mod reader;
#[cfg(test)]
mod tests;
mod times;
mod types;

use frames::{Frames, Kind, Sort};
use std::process::ExitCode;

/// How many frames are read, and how many are written.
const READ: usize = 1_000_000;
const WRITTEN: usize = 200_000;

fn print_sorts(frames: &Frames) {
    println!("Frames read:");
    for sort in Sort::ALL {
        let count = frames.cases.iter().filter(|case| case.sort == sort).count();
        println!("{count:>9}  {}", sort.words());
    }
    for kind in Kind::ALL {
        let count = frames.cases.iter().filter(|case| case.kind == kind).count();
        println!("{count:>9}  read as {}", kind.words());
    }
    println!("{:>9}  in all", frames.cases.len());
}

fn main() -> ExitCode {
    let frames = frames::drawn(READ);
    print_sorts(&frames);
    println!("What both readers answered:");
    let read = compare::reading(&frames);
    read.print();
    println!("What both writers answered, into areas of 0 to 40 bytes, and what was read back:");
    let written = compare::writing(WRITTEN);
    written.print();
    println!(
        "Times, each the median of {} runs over frames laid out beforehand in one buffer:",
        times::RUNS
    );
    let mut same = times::print(&frames, "all");
    for kind in Kind::ALL {
        for sort in [Sort::Laden, Sort::Bare] {
            let what = format!("{}, {}", kind.words(), sort.words());
            same &= times::print(&frames.only(kind, sort), &what);
        }
    }
    if read.differ + written.differ > 0 || !same {
        return ExitCode::FAILURE;
    }
    println!("Both agree on all.");
    ExitCode::SUCCESS
}
