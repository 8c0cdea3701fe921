//! Loads a program and runs so many quanta of 4,096 instructions of its one thread, and nothing besides: no trace, no kernel.
//! Prints how many instructions it ran.
#![tactic(auto)]

use elf32::read_elf;
use guest_proc::{Guest, Ran};
use std::alloc::Global;
use std::fs::File;
use std::io::Read;
use std::{env, io};
use sys_abi::{Tid, VPid};

const NUMBER: u32 = 40_000;

const QUANTUM: u32 = 4096;

fn main(rt: HostRuntime) -> io::Result<()> {
    let alloc = rt.alloc();
    let mut words = env::args(&rt)?.skip(1);
    let (Some(path), Some(quanta)) = (words.next(), words.next()) else {
        return println!(rt; "a program and a number");
    };
    let mut bytes = Vec::new(alloc);
    File::open(&rt, path.as_str())?.take(1 << 24).read_to_end(&mut bytes)?;
    let Ok(program) = read_elf(alloc, bytes.as_slice()) else {
        return println!(rt; "no program");
    };
    let guest = Guest::load(alloc, VPid(NUMBER), &program, b"guest\0")?;
    let mut guest = Box::new(alloc, guest)?;
    let quanta: u32 = quanta.parse().unwrap_or(0);
    println!(rt; "{}", run(&mut guest, quanta))
}

/// Runs so many quanta, or as many as run whole.
fn run(guest: &mut Guest, quanta: u32) -> u64 {
    let mut count: u64 = 0;
    for _ in 0..quanta {
        if !guest.has_thread(Tid(NUMBER)) {
            return count;
        }
        let (done, ran) = guest.run(Tid(NUMBER), QUANTUM);
        count = count.saturating_add(done as u64);
        if !matches!(ran, Ran::Whole) {
            return count;
        }
    }
    count
}
