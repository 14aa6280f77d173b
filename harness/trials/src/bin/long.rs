//! The long run: `cargo run --release -p trials --bin long -- ROUNDS SEED`.
//!
//! Exits with 1 at the first difference and prints its input as numbers.

use seeds::Rng;
use std::process::ExitCode;
use std::time::Instant;
use trials::tally::Tally;
use trials::trial::{round, LONG};

fn main() -> ExitCode {
    let numbers: Vec<u64> = std::env::args()
        .skip(1)
        .filter_map(|a| a.parse().ok())
        .collect();
    let [rounds, seed] = numbers[..] else {
        eprintln!("two numbers are asked for: rounds and seed");
        return ExitCode::from(2);
    };
    let begun = Instant::now();
    let mut tally = Tally::default();
    for i in 0..rounds {
        // Each round has a seed of its own, so that one can be run again alone.
        let mut rng = Rng::new(seed.wrapping_add(i));
        if let Err(difference) = round(&LONG, &mut rng, &mut tally) {
            println!(
                "difference in the round of seed {}:\n{difference}",
                seed.wrapping_add(i)
            );
            return ExitCode::from(1);
        }
    }
    println!("{tally}");
    println!(
        "{rounds} rounds from seed {seed}, no difference, {:.0} s",
        begun.elapsed().as_secs_f64()
    );
    ExitCode::SUCCESS
}
