//! The machine in plain Rust, to tell what the proved one costs, and what its workers could gain at most.

mod ancestor;
mod creature;
mod crew;
mod draws;
mod free_list;
mod genotypes;
mod job;
mod jobs;
mod machine;
mod setup;
mod world;

use setup::Setup;
use std::fs::read_to_string;
use std::io::{self, Read, Write};
use std::thread::yield_now;
use world::World;

/// The processor time of this process, in nanoseconds. The system brings its count up to date when a thread yields.
fn processor_time() -> io::Result<u64> {
    yield_now();
    let counts = read_to_string("/proc/self/schedstat")?;
    let first = counts.split(' ').next().and_then(|count| count.parse().ok());
    Ok(first.expect("a count"))
}

/// Runs the world of a soup file up to a quantum, and tells the seconds of the processor that the quanta after an
/// earlier one took. It writes the world's bytes.
fn run(quanta: u64, after: u64) -> io::Result<()> {
    let mut file = String::new();
    io::stdin().read_to_string(&mut file)?;
    let mut world = World::start(Setup::read(&file));
    for _ in 0..after {
        world.quantum();
    }
    let start = processor_time()?;
    for _ in after..quanta {
        world.quantum();
    }
    eprintln!("{:.6}", (processor_time()? - start) as f64 / 1e9);
    io::stdout().write_all(&world.bytes())
}

fn compare() {
    println!("jobs");
    jobs::compare(80, 25, 60_000);
    jobs::compare(80, 25, 1_048_576);
    jobs::compare(80, 250, 60_000);
    jobs::compare(1000, 1000, 60_000);
    jobs::compare(4000, 1000, 1_048_576);
    println!("workers");
    crew::compare(80, 250, 60_000, 20_000);
    crew::compare(1000, 1000, 60_000, 10_000);
    crew::compare(4000, 1000, 1_048_576, 10_000);
    crew::compare(4000, 4000, 1_048_576, 2_500);
}

/// `plain` compares jobs and workers. `plain QUANTA [AFTER] < soup.toml > world` runs a soup file.
fn main() -> io::Result<()> {
    let mut numbers = std::env::args()
        .skip(1)
        .map(|word| word.parse().expect("a number of quanta"));
    match numbers.next() {
        Some(quanta) => run(quanta, numbers.next().unwrap_or(0)),
        None => {
            compare();
            Ok(())
        }
    }
}
