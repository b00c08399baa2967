//! Tries a listing program and a sheet program on many region files, most of
//! them damaged, and compares what they print, byte by byte, with the listing
//! and the sheet. The sheets are read back too.
//!
//!     damaged LIST_VISITS PRINT_SHEET [SEED] [COUNT]

#![forbid(unsafe_code)]

mod both;
mod program;
mod report;

use std::process::ExitCode;
use std::sync::atomic::{AtomicBool, AtomicU64, Ordering};
use std::{env, fs, io, thread};

use reference::trial::{files, shrink};

use both::{Outcome, Programs};
use report::Tally;

const USAGE: &str = "usage: damaged LIST_VISITS PRINT_SHEET [SEED] [COUNT]";
const DEFAULT_SEED: u64 = 20_470;
const DEFAULT_COUNT: u64 = 20_000;
const WORKERS: usize = 2;

/// Where the failing file is left, from the current directory.
const FOLDER: &str = "target";
const FAILING: &str = "target/damaged.bin";

/// What the workers share. The numbers are handed out in order and each is
/// tried to its end, so the smallest failing number is always found.
struct Trial {
    programs: Programs,
    seed: u64,
    count: u64,
    next: AtomicU64,
    stop: AtomicBool,
}

fn main() -> ExitCode {
    let trial = match from_arguments() {
        Ok(trial) => trial,
        Err(problem) => return failure(&problem),
    };
    println!("seed {}", trial.seed);
    match trial.run() {
        Ok((_, Some(number))) => match trial.explain(number) {
            Ok(text) => failure(&text),
            Err(problem) => failure(&format!("file {number} differs; {problem}")),
        },
        Ok((tally, None)) => {
            println!("{tally}");
            if tally.is_whole() {
                ExitCode::SUCCESS
            } else {
                failure("not every outcome was seen")
            }
        }
        Err(problem) => failure(&problem.to_string()),
    }
}

fn failure(text: &str) -> ExitCode {
    println!("{text}");
    ExitCode::FAILURE
}

fn from_arguments() -> Result<Trial, String> {
    let mut arguments = env::args().skip(1);
    let list_visits = arguments.next().ok_or(USAGE)?;
    let print_sheet = arguments.next().ok_or(USAGE)?;
    let mut number = |default| match arguments.next() {
        Some(text) => text.parse().map_err(|_| format!("{USAGE}; not a number: {text}")),
        None => Ok(default),
    };
    let (seed, count) = (number(DEFAULT_SEED)?, number(DEFAULT_COUNT)?);
    if arguments.next().is_some() {
        return Err(USAGE.to_string());
    }
    let (next, stop) = (AtomicU64::new(0), AtomicBool::new(false));
    Ok(Trial { programs: Programs { list_visits, print_sheet }, seed, count, next, stop })
}

impl Trial {
    /// The outcomes, and the number of the first file that differs.
    fn run(&self) -> io::Result<(Tally, Option<u64>)> {
        let answers = thread::scope(|scope| {
            let workers: Vec<_> = (0..WORKERS).map(|_| scope.spawn(|| self.work())).collect();
            let joined = workers.into_iter().map(|worker| worker.join().expect("no panic"));
            joined.collect::<Vec<_>>()
        });
        let (mut tally, mut first) = (Tally::default(), None);
        for answer in answers {
            let (part, differing) = answer?;
            tally.merge(part);
            first = [first, differing].into_iter().flatten().min();
        }
        Ok((tally, first))
    }

    /// One worker: files until there are no more or one differs.
    fn work(&self) -> io::Result<(Tally, Option<u64>)> {
        let mut tally = Tally::default();
        while !self.stop.load(Ordering::SeqCst) {
            let number = self.next.fetch_add(1, Ordering::SeqCst);
            if number >= self.count {
                break;
            }
            let file = files::make(self.seed, number);
            let outcome = self.programs.try_on(&file);
            if let Ok(Outcome::Same(bytes)) = outcome {
                tally.add(&file, bytes);
            } else {
                self.stop.store(true, Ordering::SeqCst);
                return outcome.map(|_| (tally, Some(number)));
            }
        }
        Ok((tally, None))
    }

    /// Leaves a small failing file behind and says what differs in it.
    fn explain(&self, number: u64) -> io::Result<String> {
        let file = files::make(self.seed, number);
        let length = file.len();
        let fails =
            |smaller: &[u8]| matches!(self.programs.try_on(smaller), Ok(Outcome::Differs(_)));
        let file = shrink::shrunk(file, fails);
        fs::create_dir_all(FOLDER)?;
        fs::write(FAILING, &file)?;
        let text = match self.programs.try_on(&file)? {
            Outcome::Differs(text) => text,
            // It differed before, and now it does not.
            Outcome::Same(_) => "the output is the same".to_string(),
        };
        Ok(format!(
            "file {number} of {length} bytes differs; cut to {} bytes: {FAILING}\n{text}",
            file.len()
        ))
    }
}
