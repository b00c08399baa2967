//! Holds the bindings of the proved library against rust/reference on many inputs. Where the two
//! differ it looks for a small input that still does, prints it as the body of a test, and exits
//! with 1.
//!
//!     agree [SEED]

#![forbid(unsafe_code)]

mod blocks;
mod case;
mod checks;
mod counts;
mod files;
mod fills;
mod limits;
mod openings;
mod overviews;
mod pairs;
mod pieces;
mod points;
mod positions;
mod queries;
mod same;
mod scrambles;
mod seeds;
mod simpler;
mod standard_words;
mod tally;
mod text;
mod units;
mod walks;
mod word_counts;

use std::env;
use std::process::ExitCode;

use case::compare;

const USAGE: &str = "usage: agree [SEED]";
const DEFAULT_SEED: u64 = 20_471;

fn main() -> ExitCode {
    let seed = match seed() {
        Ok(seed) => seed,
        Err(problem) => {
            println!("{problem}");
            return ExitCode::FAILURE;
        }
    };
    println!("seed {seed}");
    match all(seed) {
        Ok(()) => ExitCode::SUCCESS,
        Err(difference) => {
            println!("{difference}");
            ExitCode::FAILURE
        }
    }
}

fn seed() -> Result<u64, String> {
    let mut arguments = env::args().skip(1);
    let seed = match arguments.next() {
        Some(text) => text.parse().map_err(|_| format!("{USAGE}; not a number: {text}"))?,
        None => DEFAULT_SEED,
    };
    if arguments.next().is_some() {
        return Err(USAGE.to_string());
    }
    Ok(seed)
}

/// Every kind of case in turn, up to the first difference.
fn all(seed: u64) -> Result<(), String> {
    compare::<standard_words::StandardWord>(seed)?;
    compare::<checks::Check>(seed)?;
    compare::<seeds::Seed>(seed)?;
    compare::<points::PointOf>(seed)?;
    compare::<fills::Fill>(seed)?;
    compare::<openings::Opening>(seed)?;
    compare::<walks::Steps>(seed)?;
    compare::<queries::Query>(seed)?;
    compare::<overviews::Overview>(seed)?;
    compare::<counts::Count>(seed)?;
    compare::<blocks::Block>(seed)?;
    compare::<word_counts::WordCount>(seed)?;
    compare::<units::Unit>(seed)?;
    compare::<positions::PositionIn>(seed)?;
    compare::<files::RegionFile>(seed)?;
    compare::<pieces::Pieces>(seed)
}
