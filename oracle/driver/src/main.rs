//! Compares the linked library with the crate's real source: made histories of calls, or all small batches, with questions
//! about the states; or questions about made screens alone.
//!
//!     driver --batches 1000000 --seed 1
//!     driver --exhaustive
//!     driver --questions 2000 --seed 1
mod ask;
mod damage;
mod exhaustive;
mod histories;
mod library;
mod memory;
mod questions;
mod reasons;
mod rules;
mod tally;
mod text;

use std::time::Instant;
use tally::Tally;

fn main() {
    // the crate's panics are answers; those of the driver and of `calls` are not
    std::panic::set_hook(Box::new(|p| {
        let file = p.location().map_or("", |l| l.file());
        if ["calls", "driver", "consumer"].iter().any(|name| file.starts_with(name)) {
            eprintln!("{p}");
        }
    }));
    let options = options().unwrap_or_else(|| {
        eprintln!("usage: driver [--batches N] [--seed N] | driver --exhaustive [--every N] | driver --questions N [--seed N]");
        std::process::exit(2);
    });
    let begun = Instant::now();
    let mut tally = Tally::new(options.seed);
    if options.questions > 0 {
        tally.asked.screens(options.questions);
        let good = tally.asked.report();
        println!("\n{} seconds", begun.elapsed().as_secs());
        std::process::exit(!good as i32);
    }
    let due: &[u8] = if options.exhaustive {
        exhaustive::run(&mut tally, options.every);
        &[]
    } else {
        histories::run(&mut tally, options.batches, options.seed);
        &[0, 1, 2, 3, 4, 5, 6, 7, 8, 9, 10, 11, 12, 13, 14, 15, 16, 17, 18, 19, 20, 21]
    };
    let good = tally.report(due);
    println!("\n{} seconds", begun.elapsed().as_secs());
    std::process::exit(!good as i32);
}

struct Options {
    batches: u64,
    seed: u64,
    exhaustive: bool,
    /// The screens that are asked about, without any call.
    questions: u64,
    /// Of the small batches, how many are passed over for one that is run.
    every: usize,
}

/// The options, or none where they cannot be read.
fn options() -> Option<Options> {
    let mut o = Options { batches: 1_000_000, seed: 1, exhaustive: false, questions: 0, every: 1 };
    let mut args = std::env::args().skip(1);
    while let Some(name) = args.next() {
        match name.as_str() {
            "--exhaustive" => o.exhaustive = true,
            "--batches" => o.batches = args.next()?.parse().ok()?,
            "--questions" => o.questions = args.next()?.parse().ok().filter(|n| *n > 0)?,
            "--seed" => o.seed = args.next()?.parse().ok()?,
            "--every" => o.every = args.next()?.parse().ok().filter(|n| *n > 0)?,
            _ => return None,
        }
    }
    Some(o)
}
