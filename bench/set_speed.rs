//! Makes the shared image of 128 processes with 256 descriptors each, 256 channels that are full both ways, and 64 MiB of
//! files, and does the task that its word names, ten times over: nothing, write the bytes of the image, copy those bytes
//! plainly, or read them back. Prints how many bytes were written or copied, or how many descriptions were read.
#![tactic(auto)]

use image_codec::write_shared;
use image_format::ReadFault;
use shared_items::Shared;
use shared_reader::read_shared;
use std::alloc::{AllocError, Global};
use std::{env, io};

const FIRST_PID: u32 = 40000;
const PROCESSES: u32 = 128;
const DESCRIPTORS: u32 = 256;

/// Of each process: it holds both ends of them.
const CHANNELS: u32 = 2;

const FILES: u32 = 1024;

/// The bytes of a file, and of a direction.
const PIECE: usize = 65_536;

const TIMES: u32 = 10;

#[tactic(auto, using(shared_items::proofs::SharedLaws::text_of))]
fn main(rt: HostRuntime) -> io::Result<()> {
    let alloc = rt.alloc();
    let bytes = image_bytes(alloc)?;
    let Ok(shared) = read_shared(alloc, bytes.as_slice()) else {
        return println!(rt; "no image");
    };
    let mut count = 0;
    for word in env::args(&rt)?.skip(1) {
        for _ in 0..TIMES {
            count = match word.as_str() {
                "write" => write_shared(alloc, &shared)?.len(),
                "copy" => copy(alloc, bytes.as_slice())?.len(),
                "read" => description_count(&read_shared(alloc, bytes.as_slice())),
                _ => 0,
            };
        }
    }
    println!(rt; "{count}")
}

/// The image's bytes, as docs/FORMATS.md lays them out.
fn image_bytes(alloc: Global) -> Result<Vec<u8>, AllocError> {
    let mut bytes = Vec::new(alloc);
    bytes.extend_from_slice(b"DMTSHR01")?;
    put_words(&mut bytes, &[FIRST_PID + PROCESSES, FILES + 1])?;
    put_files(&mut bytes)?;
    put_channels(&mut bytes)?;
    put_words(&mut bytes, &[PROCESSES * DESCRIPTORS])?;
    for process in 0..PROCESSES {
        put_descriptions(&mut bytes, FIRST_PID + process)?;
    }
    put_words(&mut bytes, &[PROCESSES])?;
    for process in 0..PROCESSES {
        put_process(&mut bytes, FIRST_PID + process)?;
    }
    Ok(bytes)
}

/// Each file has its number as its name, in two bytes that are not 0.
fn put_files(bytes: &mut Vec<u8>) -> Result<(), AllocError> {
    put_words(bytes, &[FILES])?;
    for file in 0..FILES {
        put_words(bytes, &[file + 1])?;
        bytes.extend_from_slice(&[2, 0, 1 + (file / 128) as u8, 1 + (file % 128) as u8])?;
        put_words(bytes, &[PIECE as u32])?;
        put_piece(bytes, (file % 251) as u8)?;
    }
    Ok(())
}

/// Pairs, of which each direction is full.
fn put_channels(bytes: &mut Vec<u8>) -> Result<(), AllocError> {
    put_words(bytes, &[PROCESSES * CHANNELS])?;
    for process in 0..PROCESSES {
        for channel in 0..CHANNELS {
            put_words(bytes, &[FIRST_PID + process, channel + 1])?;
            bytes.push(0)?;
            for side in 0..2_u8 {
                bytes.push(0)?;
                put_words(bytes, &[PIECE as u32])?;
                put_piece(bytes, side + 1)?;
                put_words(bytes, &[0xFFFF_FFFF, 0])?;
            }
        }
    }
    Ok(())
}

fn put_piece(bytes: &mut Vec<u8>, byte: u8) -> Result<(), AllocError> {
    for _ in 0..PIECE / 64 {
        bytes.extend_from_slice(&[byte; 64])?;
    }
    Ok(())
}

/// The ends of the process's channels, and files.
fn put_descriptions(bytes: &mut Vec<u8>, pid: u32) -> Result<(), AllocError> {
    for number in 0..DESCRIPTORS {
        put_words(bytes, &[pid, number])?;
        let is_end = number < CHANNELS * 2;
        bytes.push(if is_end { 2 } else { 1 })?;
        put_words(bytes, &[2, 0])?;
        if is_end {
            put_words(bytes, &[pid, number / 2 + 1])?;
            bytes.push((number % 2) as u8)?;
        } else {
            put_words(bytes, &[number, 0])?;
        }
    }
    Ok(())
}

/// A process that lives, with one thread, and a descriptor for each of its descriptions.
fn put_process(bytes: &mut Vec<u8>, pid: u32) -> Result<(), AllocError> {
    put_words(bytes, &[pid, 1, 0, DESCRIPTORS])?;
    bytes.push(0)?;
    put_words(bytes, &[0, 0, 1, pid, 0, DESCRIPTORS])?;
    for number in 0..DESCRIPTORS {
        put_words(bytes, &[number, pid, number])?;
        bytes.push(0)?;
    }
    Ok(())
}

fn put_words(bytes: &mut Vec<u8>, words: &[u32]) -> Result<(), AllocError> {
    for word in words {
        bytes.extend_from_slice(&word.to_le_bytes())?;
    }
    Ok(())
}

fn copy(alloc: Global, bytes: &[u8]) -> Result<Vec<u8>, AllocError> {
    let mut copied = Vec::with_capacity(alloc, bytes.len())?;
    copied.extend_from_slice(bytes)?;
    Ok(copied)
}

fn description_count(read: &Result<Shared, ReadFault>) -> usize {
    match read {
        Ok(shared) => shared.descriptions.len(),
        Err(_) => 0,
    }
}
