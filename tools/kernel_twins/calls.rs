//! Calls of guests that look random, most of them near those that do something.

use crate::random::Random;
use call_table::Request;
use plain_machine::PlainKernel;
use std::alloc::{AllocError, Global};
use sys_abi::VPid;
use sys_abi::flags::AT_FDCWD;

/// A call, with the bytes that it reads of its process's memory.
#[derive(Drop)]
pub struct Asked {
    pub request: Request,
    pub given: Vec<u8>,
}

const OPEN_FLAGS: [u32; 10] = [0, 0x41, 0x42, 0xC2, 0x242, 0x441, 0x842, 2, 3, 0x8_0042];

const CLONE_FLAGS: [u32; 6] = [17, 0x0110_0011, 0x0012_0011, 0x5_0F00, 0x017D_0F00, 7];

fn descriptor(random: &mut Random) -> u32 {
    match random.below(30) {
        0 => random.of(&[255, 256, 0xFFFF_FFFF, 100]),
        1..=6 => random.below(3),
        _ => 3 + random.below(9),
    }
}

fn count(random: &mut Random) -> u32 {
    match random.below(12) {
        0 => 0,
        1 => 8,
        2 => 7,
        3 if random.once_in(5) => 65_536,
        4 if random.once_in(5) => 70_000,
        5 if random.once_in(4) => 3_000 + random.below(60_000),
        6 if random.once_in(4) => 0xFFFF_FFFF,
        _ => random.below(40),
    }
}

/// A number of a process or a thread, most of the time.
fn number(kernel: &PlainKernel, random: &mut Random) -> u32 {
    match random.below(10) {
        0 => random.of(&[0, 1, 0xFFFF_FFFF, 0x8000_0000, 0x7FFF_FFFF]),
        _ => {
            let span = kernel.next_id - plain_machine::FIRST_PID + 2;
            kernel.next_id + 1 - random.below(if span > 12 { 12 } else { span })
        }
    }
}

fn name(alloc: Global, random: &mut Random) -> Result<Vec<u8>, AllocError> {
    let mut bytes = Vec::new(alloc);
    match random.below(16) {
        0 => bytes.push(0)?,
        1 => bytes.resize(300, 97)?,
        _ => {
            bytes.push(97 + random.below(4) as u8)?;
            bytes.push(0)?;
        }
    }
    Ok(bytes)
}

fn data(alloc: Global, random: &mut Random, length: u32) -> Result<Vec<u8>, AllocError> {
    let mut bytes = Vec::new(alloc);
    let mut value = random.below(256);
    if random.once_in(20) {
        bytes.resize(length as usize, 255)?;
        return Ok(bytes);
    }
    for _ in 0..length {
        value = (value * 5 + 3) % 256;
        bytes.push(value as u8)?;
    }
    Ok(bytes)
}

fn address(alloc: Global, random: &mut Random) -> Result<Vec<u8>, AllocError> {
    let port = random.of(&[0, 80, 80, 80, 81, 40_000]);
    let host = random.of(&[0, 1, 1, 2, 3, 3, 17, 99]);
    let mut bytes = Vec::new(alloc);
    bytes.push(if random.once_in(20) { 1 } else { 2 })?;
    bytes.push(0)?;
    bytes.push((port / 256) as u8)?;
    bytes.push((port % 256) as u8)?;
    bytes.push(if host == 99 || host == 0 { 0 } else { 10 })?;
    bytes.push(0)?;
    bytes.push(0)?;
    bytes.push(host as u8)?;
    bytes.resize(16, 0)?;
    Ok(bytes)
}

fn word(alloc: Global) -> Result<Vec<u8>, AllocError> {
    let mut bytes = Vec::new(alloc);
    bytes.push(16)?;
    bytes.resize(4, 0)?;
    Ok(bytes)
}

fn bare(alloc: Global, request: Request) -> Result<Asked, AllocError> {
    Ok(Asked {
        request,
        given: Vec::new(alloc),
    })
}

/// A call of the process.
pub fn ask(
    alloc: Global,
    kernel: &PlainKernel,
    p: VPid,
    random: &mut Random,
) -> Result<Asked, AllocError> {
    match random.below(100) {
        0..=19 => ask_transfer(alloc, random),
        20..=39 => ask_descriptors(alloc, kernel, random),
        40..=54 => ask_making(alloc, random),
        55..=79 => ask_sockets(alloc, random),
        80..=89 => ask_files(alloc, random),
        _ => ask_processes(alloc, kernel, p, random),
    }
}

fn ask_transfer(alloc: Global, random: &mut Random) -> Result<Asked, AllocError> {
    let fd = descriptor(random);
    let count = count(random);
    if random.once_in(2) {
        let length = if count > 65_536 { 65_536 } else { count };
        return Ok(Asked {
            request: Request::Write {
                fd,
                buffer: 0,
                count,
            },
            given: data(alloc, random, length)?,
        });
    }
    bare(
        alloc,
        Request::Read {
            fd,
            buffer: 0,
            count,
        },
    )
}

fn ask_descriptors(
    alloc: Global,
    kernel: &PlainKernel,
    random: &mut Random,
) -> Result<Asked, AllocError> {
    let fd = descriptor(random);
    let request = match random.below(9) {
        0 | 1 => Request::Dup { fd },
        2 => Request::Dup3 {
            fd,
            to: descriptor(random),
            flags: random.of(&[0, 0, 0x8_0000, 1]),
        },
        3 | 4 => {
            let command = random.of(&[0, 1, 2, 3, 4, 8, 9, 1030, 5]);
            let argument = match command {
                8 => number(kernel, random),
                _ => random.of(&[0, 1, 5, 0x800, 0xC00, 256, 0xFFFF_FFFF]),
            };
            Request::Fcntl {
                fd,
                command,
                argument,
            }
        }
        _ => Request::Close { fd },
    };
    bare(alloc, request)
}

fn ask_making(alloc: Global, random: &mut Random) -> Result<Asked, AllocError> {
    let flags = random.of(&[0, 0, 0x800, 0x8_0000, 0x8_0800, 1]);
    let request = match random.below(5) {
        0 => Request::Eventfd2 {
            value: random.of(&[0, 1, 7, 0xFFFF_FFFF]),
            flags,
        },
        1 | 2 => Request::Pipe2 { fds: 0, flags },
        _ => Request::Socketpair {
            domain: random.of(&[1, 1, 1, 1, 1, 2, 3]),
            socket_type: flags + random.of(&[1, 2, 1, 2, 3]),
            protocol: random.of(&[0, 0, 0, 0, 1]),
            fds: 0,
        },
    };
    bare(alloc, request)
}

fn ask_sockets(alloc: Global, random: &mut Random) -> Result<Asked, AllocError> {
    let fd = descriptor(random);
    let flags = random.of(&[0, 0, 0, 0x800, 0x8_0000]);
    match random.below(20) {
        0..=4 => bare(
            alloc,
            Request::Socket {
                domain: random.of(&[2, 2, 2, 2, 2, 1]),
                socket_type: flags + random.of(&[1, 1, 1, 1, 2]),
                protocol: random.of(&[0, 6, 0, 1]),
            },
        ),
        5..=7 => Ok(Asked {
            request: Request::Bind {
                fd,
                address: 0,
                length: random.of(&[16, 16, 16, 28, 8]),
            },
            given: address(alloc, random)?,
        }),
        8..=10 => bare(
            alloc,
            Request::Listen {
                fd,
                backlog: random.of(&[0, 1, 2, 5, 200, 0xFFFF_FFFF]),
            },
        ),
        11..=13 => bare(
            alloc,
            Request::Accept {
                fd,
                address: 0,
                length: 0,
            },
        ),
        14..=16 => Ok(Asked {
            request: Request::Connect {
                fd,
                address: 0,
                length: random.of(&[16, 16, 16, 16, 8]),
            },
            given: address(alloc, random)?,
        }),
        17 => Ok(Asked {
            request: match random.below(2) {
                0 => Request::Getsockname {
                    fd,
                    address: 4,
                    length: 4,
                },
                _ => Request::Getpeername {
                    fd,
                    address: 4,
                    length: 4,
                },
            },
            given: word(alloc)?,
        }),
        18 => bare(
            alloc,
            Request::Setsockopt {
                fd,
                level: 1,
                name: 2,
                value: 3,
                length: 4,
            },
        ),
        _ => bare(
            alloc,
            Request::Shutdown {
                fd,
                how: random.of(&[0, 1, 2, 3]),
            },
        ),
    }
}

fn ask_files(alloc: Global, random: &mut Random) -> Result<Asked, AllocError> {
    let directory = if random.once_in(20) { 5 } else { AT_FDCWD };
    match random.below(6) {
        0..=2 => Ok(Asked {
            request: Request::Openat {
                directory,
                path: 0,
                flags: random.of(&OPEN_FLAGS),
                mode: 0,
            },
            given: name(alloc, random)?,
        }),
        3 => Ok(Asked {
            request: Request::Unlinkat {
                directory,
                path: 0,
                flags: random.of(&[0, 0, 0, 1]),
            },
            given: name(alloc, random)?,
        }),
        _ => bare(
            alloc,
            Request::Lseek {
                fd: descriptor(random),
                offset: random.of(&[
                    0,
                    1,
                    5,
                    100,
                    0x7FFF_FFFF,
                    0xFFFF_FFFF,
                    0xFFFF_FFF0,
                    0x7FFF_FFF0,
                ]),
                whence: random.of(&[0, 1, 2, 3]),
            },
        ),
    }
}

fn ask_processes(
    alloc: Global,
    kernel: &PlainKernel,
    p: VPid,
    random: &mut Random,
) -> Result<Asked, AllocError> {
    let request = match random.below(24) {
        0..=6 => Request::Clone {
            flags: random.of(&CLONE_FLAGS),
            stack: 0,
            parent_tid: 0,
            tls: 0,
            child_tid: 0,
        },
        7 => Request::Exit {
            code: random.below(300),
        },
        8 if random.once_in(2) => Request::ExitGroup {
            code: random.below(300),
        },
        9..=11 => Request::Kill {
            pid: number(kernel, random),
            signal: random.of(&[0, 10, 12, 31, 32, 19]),
        },
        12..=13 => Request::Tgkill {
            pid: if random.once_in(2) {
                p.0
            } else {
                number(kernel, random)
            },
            tid: number(kernel, random),
            signal: random.of(&[0, 10, 12, 31, 32]),
        },
        14 => Request::Getpid,
        15 | 16 => Request::Getppid,
        17 => Request::Unknown(random.below(500)),
        _ => Request::Wait4 {
            pid: if random.once_in(3) {
                number(kernel, random)
            } else {
                0xFFFF_FFFF
            },
            status: 0,
            options: random.of(&[0, 1, 1, 2]),
            usage: if random.once_in(20) { 1 } else { 0 },
        },
    };
    bare(alloc, request)
}
