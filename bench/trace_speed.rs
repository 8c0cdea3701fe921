//! Makes a trace and does the task that its word names, ten times over: nothing, write the bytes of the trace's file, copy
//! those bytes plainly, or read them back. Each task but the first writes the bytes once more, so that there are some.
#![tactic(auto)]

use std::alloc::{AllocError, Global};
use std::{env, io};
use sys_abi::{ConnId, Dir, Record, Tid, VPid};
use trace_log::{Trace, TraceFault};

const RECORDS: u32 = 4_000_000;

const TIMES: u32 = 10;

fn main(rt: HostRuntime) -> io::Result<()> {
    let alloc = rt.alloc();
    let mut trace = Trace::new(alloc);
    trace.reserve(RECORDS)?;
    fill(&mut trace);
    let bytes = trace.to_bytes(alloc)?;
    let mut length = 0;
    for word in env::args(&rt)?.skip(1) {
        for _ in 0..TIMES {
            length = match word.as_str() {
                "write" => trace.to_bytes(alloc)?.len(),
                "copy" => copy(alloc, bytes.as_slice())?.len(),
                "read" => count_of(&Trace::from_bytes(alloc, bytes.as_slice())),
                _ => 0,
            };
        }
    }
    println!(rt; "{length}")
}

/// Records of the kinds that a run has most of, as far as there is room.
fn fill(trace: &mut Trace) {
    let p = VPid(40000);
    let t = Tid(40000);
    let dir = Dir {
        conn: ConnId { pid: p, num: 1 },
        side: 0,
    };
    for turn in 0..RECORDS {
        if trace.room() == 0 {
            return;
        }
        trace.append(match turn % 4 {
            0 => Record::Arrive { dir, n: turn },
            1 => Record::User { p, t, n: 4096 },
            2 => Record::User { p, t, n: turn },
            _ => Record::Call { p, t },
        });
    }
}

fn copy(alloc: Global, bytes: &[u8]) -> Result<Vec<u8>, AllocError> {
    let mut copied = Vec::with_capacity(alloc, bytes.len())?;
    copied.extend_from_slice(bytes)?;
    Ok(copied)
}

fn count_of(read: &Result<Trace, TraceFault>) -> usize {
    match read {
        Ok(trace) => trace.as_slice().len(),
        Err(_) => 0,
    }
}
