//! Has a kernel serve so many calls, makes so many checkpoints of one by stages, or so many plain copies. The words are the kernel
//! (`plain`, or `real` for the one over real numbers), `full` or `empty` for checkpoints with such channels, or `copy`; the task; how
//! many times; and how many processes there are, and how many pairs of stream ends each of them has. Prints how many calls were
//! served, or how many directions have bytes.
#![tactic(auto)]
ghost use Rattle.bench_kernels.specs.Owning.{MayMake};

use anyhow::Result;
use bench_kernels::cut::{Reach, cut};
use bench_kernels::{PlainBench, RealBench, Serves, requests};
use call_table::Request;
use std::alloc::Global;
use std::env;
use sys_abi::{ConnId, Dir, Reply, VPid};

/// The number of the first process.
const FIRST: VPid = VPid(40_000);

/// The bytes that a direction holds.
const PIECE: usize = 65_536;

/// What there is beside what a task makes.
#[derive(Clone, Copy)]
struct Crowd {
    processes: u32,
    pairs: u32,
}

/// A channel of the first process: the descriptors at which it is written and read, and its direction.
#[derive(Clone, Copy)]
struct Way {
    writes: u32,
    reads: u32,
    dir: Dir,
}

fn main(rt: HostRuntime) -> Result<()> {
    let alloc = rt.alloc();
    let mut words = env::args(&rt)?.skip(1);
    let kernel = words.next();
    let task = words.next();
    let times = number(words.next());
    let processes = number(words.next());
    let pairs = number(words.next());
    if let (Some(kernel), Some(task)) = (kernel, task) {
        let crowd = Crowd { processes, pairs };
        let count = match kernel.as_str() {
            "plain" => counted(alloc, PlainBench::new(alloc)?, task.as_str(), times, crowd)?,
            "real" => counted(alloc, RealBench::new(alloc)?, task.as_str(), times, crowd)?,
            "full" => cuts(alloc, true, task.as_str(), times, crowd)?,
            "empty" => cuts(alloc, false, task.as_str(), times, crowd)?,
            _ => copies(alloc, times, crowd)?,
        };
        println!(rt; "{count}")?;
    }
    Ok(())
}

fn number(word: Option<String>) -> u32 {
    match word {
        Some(word) => word.as_str().parse::<u32>().unwrap_or(0),
        None => 0,
    }
}

fn counted<S: Serves + Drop>(alloc: Global, kernel: S, task: &str, times: u32, crowd: Crowd) -> Result<u32> {
    let mut kernel = kernel;
    gather(alloc, &mut kernel, crowd)?;
    match task {
        "looks" => looks(alloc, &mut kernel, times),
        "flags" => flags(alloc, &mut kernel, times),
        "pipe1" => pipe(alloc, &mut kernel, times, crowd, 1),
        "pipe4096" => pipe(alloc, &mut kernel, times, crowd, 4096),
        "stream4096" => stream(alloc, &mut kernel, times, crowd, 4096),
        "stream65536" => stream(alloc, &mut kernel, times, crowd, 65_536),
        "forks" => forks(alloc, &mut kernel, times),
        _ => Ok(0),
    }
}

/// Makes the processes and their pairs.
fn gather<S: Serves>(alloc: Global, kernel: &mut S, crowd: Crowd) -> Result<()> {
    for _ in 1..crowd.processes {
        ask(alloc, kernel, FIRST, &requests::fork(), &[])?;
    }
    for place in 0..crowd.processes {
        for _ in 0..crowd.pairs {
            ask(alloc, kernel, VPid(FIRST.0 + place % 128), &requests::pair(), &[])?;
        }
    }
    Ok(())
}

/// Fills each pair both ways.
fn fill<S: Serves>(alloc: Global, kernel: &mut S, crowd: Crowd) -> Result<u32> {
    let piece = [7; PIECE];
    let mut count = 0;
    for place in 0..crowd.processes {
        for end in 0..crowd.pairs % 128 * 2 {
            let write = requests::write(3 + end, PIECE as u32);
            count = ask(alloc, kernel, VPid(FIRST.0 + place % 128), &write, &piece)?.wrapping_add(count);
        }
    }
    Ok(count)
}

/// One where the call answers a value.
fn ask<S: Serves>(alloc: Global, kernel: &mut S, p: VPid, request: &Request, given: &[u8]) -> Result<u32>
    requires { MayMake request.now }
{
    match kernel.call(alloc, p, request, given)? {
        Some(Reply::Value(_)) => Ok(1),
        _ => Ok(0),
    }
}

fn looks<S: Serves>(alloc: Global, kernel: &mut S, times: u32) -> Result<u32> {
    let mut count = 0;
    for _ in 0..times {
        count = ask(alloc, kernel, FIRST, &requests::look(), &[])?.wrapping_add(count);
    }
    Ok(count)
}

/// Asks for the flags of a descriptor (F_GETFL).
fn flags<S: Serves>(alloc: Global, kernel: &mut S, times: u32) -> Result<u32> {
    let request = requests::flags_of(1);
    let mut count = 0;
    for _ in 0..times {
        count = ask(alloc, kernel, FIRST, &request, &[])?.wrapping_add(count);
    }
    Ok(count)
}

fn pipe<S: Serves>(alloc: Global, kernel: &mut S, times: u32, crowd: Crowd, bytes: u32) -> Result<u32> {
    ask(alloc, kernel, FIRST, &requests::pipe(), &[])?;
    let fd = 3 + 2 * (crowd.pairs % 128);
    let way = Way {
        writes: fd + 1,
        reads: fd,
        dir: first_way(crowd),
    };
    transfers(alloc, kernel, times, way, bytes)
}

fn stream<S: Serves>(alloc: Global, kernel: &mut S, times: u32, crowd: Crowd, bytes: u32) -> Result<u32> {
    ask(alloc, kernel, FIRST, &requests::pair(), &[])?;
    let fd = 3 + 2 * (crowd.pairs % 128);
    let way = Way {
        writes: fd,
        reads: fd + 1,
        dir: first_way(crowd),
    };
    transfers(alloc, kernel, times, way, bytes)
}

/// The direction in which side 0 of the task's own channel sends: a process numbers what it makes, three for a channel.
fn first_way(crowd: Crowd) -> Dir {
    Dir {
        conn: ConnId {
            pid: FIRST,
            num: 1 + 3 * (crowd.pairs % 128),
        },
        side: 0,
    }
}

/// Bytes are written, arrive and are read.
fn transfers<S: Serves>(alloc: Global, kernel: &mut S, times: u32, way: Way, bytes: u32) -> Result<u32> {
    let all = [7; PIECE];
    let piece = &all[..(bytes as usize).min(PIECE)];
    let write = requests::write(way.writes, bytes);
    let read = requests::read(way.reads, bytes);
    let mut count = 0;
    for _ in 0..times {
        ask(alloc, kernel, FIRST, &write, piece)?;
        kernel.arrive(way.dir, bytes);
        count = ask(alloc, kernel, FIRST, &read, &[])?.wrapping_add(count);
    }
    Ok(count)
}

/// A fork, the child's end, and the wait for it.
fn forks<S: Serves>(alloc: Global, kernel: &mut S, times: u32) -> Result<u32> {
    let mut count = 0;
    for _ in 0..times {
        if let Some(Reply::Value(child)) = kernel.call(alloc, FIRST, &requests::fork(), &[])? {
            ask(alloc, kernel, VPid(child), &requests::end(), &[])?;
            count = ask(alloc, kernel, FIRST, &requests::wait(), &[])?.wrapping_add(count);
        }
    }
    Ok(count)
}

/// Checkpoints of a kernel whose pairs are full both ways, or empty, with the kernel part for the images or without it.
fn cuts(alloc: Global, is_full: bool, task: &str, times: u32, crowd: Crowd) -> Result<u32> {
    let mut kernel = RealBench::new(alloc)?;
    gather(alloc, &mut kernel, crowd)?;
    let mut count = 0;
    if is_full {
        count = fill(alloc, &mut kernel, crowd)?;
    }
    let mut wrapped = kernel.into_kernel();
    let reach = match task {
        "votes" => Reach::Votes,
        "bytes" => Reach::Bytes,
        _ => Reach::Images,
    };
    for _ in 0..times {
        let (after, is_made) = cut(alloc, wrapped, reach);
        wrapped = after;
        if !is_made {
            count = u32::MAX;
        }
    }
    Ok(count)
}

/// The bytes of as many directions, copied five times.
fn copies(alloc: Global, times: u32, crowd: Crowd) -> Result<u32> {
    let mut from = Vec::new(alloc);
    let mut to = Vec::new(alloc);
    let directions = crowd.processes % 256 * (crowd.pairs % 256) * 2;
    for _ in 0..directions {
        from.push(vec![in alloc; 7_u8; PIECE]?)?;
        to.push(vec![in alloc; 0_u8; PIECE]?)?;
    }
    for _ in 0..times {
        for _ in 0..5 {
            copy_all(from.as_slice(), to.as_mut_slice());
        }
    }
    Ok(directions)
}

fn copy_all(from: &[Vec<u8>], to: &mut [Vec<u8>]) {
    for (bytes, place) in from.iter().zip(to.iter_mut()) {
        place.clear();
        let _ = place.extend_from_slice(bytes.as_slice());
    }
}
