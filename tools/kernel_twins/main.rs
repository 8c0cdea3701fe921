//! Reads trials from standard input, a seed and a number of turns a line, and for each has a plain kernel part
//! and a kernel over real numbers serve the same calls, which look random; it prints where the two differ.
#![tactic(auto)]

mod asking;
mod calls;
mod fault;
mod random;
mod same;
mod turns;
mod twins;

use crate::fault::Fault;
use crate::random::Random;
use crate::turns::Tally;
use crate::twins::Twins;
use host_tables::Hosts;
use std::alloc::Global;
use std::io;
use sys_abi::Transfer;

/// How far the twins came, and what parted them.
#[derive(Clone, Copy)]
struct Outcome {
    turns: u32,
    parted: Option<Fault>,
}

/// A trial: where its random numbers begin, and how many turns it takes at most.
#[derive(Clone, Copy)]
struct Trial {
    seed: u64,
    turns: u32,
}

fn trial_of(line: &str) -> Option<Trial> {
    let (seed, turns) = line.split_once(' ')?;
    Some(Trial {
        seed: seed.parse::<u64>().ok()?,
        turns: turns.parse::<u32>().ok()?,
    })
}

fn run(alloc: Global, trial: Trial, tally: &mut Tally) -> Result<Outcome, Fault> {
    let mut random = Random::new(trial.seed);
    let nodes = 1 + random.below(4);
    let hosts = Hosts {
        nodes,
        shift: random.below(16),
        pid_base: random.of(&[1, 100, 1_000_000_000]),
        port_base: random.of(&[0, 1_000, 57_344]),
    };
    let mut twins = Twins::new(alloc, hosts, 1 + random.below(5))?;
    let mut transfer = Transfer::new(alloc)?;
    twins.add_file(alloc, b"a", b"some bytes of a file")?;
    twins.compare_all(&mut transfer)?;
    for turn in 0..trial.turns {
        match twins.turn(alloc, &mut random, &mut transfer, tally) {
            Ok(true) => {}
            Ok(false) => return Ok(Outcome {
                turns: turn,
                parted: None,
            }),
            Err(Fault::Memory) => return Err(Fault::Memory),
            Err(fault) => return Ok(Outcome {
                turns: turn,
                parted: Some(fault),
            }),
        }
    }
    Ok(Outcome {
        turns: trial.turns,
        parted: None,
    })
}

fn main(rt: HostRuntime) -> io::Result<()> {
    let alloc = rt.alloc();
    let mut tally = Tally {
        served: 0,
        failed: 0,
        waited: 0,
        moved: 0,
        wanted: 0,
    };
    for line in rt.lines(alloc) {
        let line = line?;
        let Some(trial) = trial_of(line.as_str()) else {
            continue;
        };
        match run(alloc, trial, &mut tally) {
            Ok(outcome) => match outcome.parted {
                None => println!(rt; "{}: alike for {} turns", trial.seed, outcome.turns)?,
                Some(fault) => println!(rt;
                    "{}: PARTED at {}: {:?}",
                    trial.seed, outcome.turns, fault
                )?,
            },
            Err(_) => return Err(io::ErrorKind::OutOfMemory.into()),
        }
    }
    println!(rt; "{:?}", tally)
}
