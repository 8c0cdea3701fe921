//! Makes the image of a process of 2,048 pages and does the task that its word names, fifty times over: nothing, write the
//! bytes of the image, copy those bytes plainly, or read them back. Prints how many bytes were written or copied, or how
//! many pages were read.
#![tactic(auto)]

use image_codec::{
    ProcImage, ProcessEntry, ReadFault, Shared, ThreadEntry, read_process, write_process,
};
use plain_machine::Life;
use std::alloc::{AllocError, Global};
use std::{env, io};
use sys_abi::VPid;
use sys_abi::page::PAGE_SIZE;
use views::list_of::ListOf;

/// The process, and its one thread.
const NUMBER: u32 = 40000;

/// The pages between the break's start and the break, beside the one to which a signal handler returns.
const HEAP_PAGES: u32 = 2047;

const FIRST_PAGE: u32 = 0x11;

const RETURN_PAGE: u32 = 0x80000;

const RETURN_CODE: [u8; 8] = [0x93, 0x08, 0xB0, 0x08, 0x73, 0x00, 0x00, 0x00];

/// The process's image is the first one of its set.
const FILE: u32 = 2;

const TIMES: u32 = 50;

fn main(rt: HostRuntime) -> io::Result<()> {
    let alloc = rt.alloc();
    let shared = shared_image(alloc)?;
    let bytes = image_bytes(alloc)?;
    let Ok(process) = read_process(alloc, FILE, bytes.as_slice(), &shared) else {
        return println!(rt; "no image");
    };
    let mut count = 0;
    for word in env::args(&rt)?.skip(1) {
        for _ in 0..TIMES {
            count = match word.as_str() {
                "write" => write_process(alloc, &process)?.len(),
                "copy" => copy(alloc, bytes.as_slice())?.len(),
                "read" => page_count(&read_process(alloc, FILE, bytes.as_slice(), &shared)),
                _ => 0,
            };
        }
    }
    println!(rt; "{count}")
}

/// What the set says of the process beside its image.
fn shared_image(alloc: Global) -> Result<Shared, AllocError> {
    let mut threads = ListOf::new(alloc);
    threads.push(ThreadEntry {
        tid: NUMBER,
        pending: 0,
    })?;
    let mut processes = ListOf::new(alloc);
    processes.push(ProcessEntry {
        pid: VPid(NUMBER),
        parent: 1,
        host: 0,
        made: 1,
        life: Life::Live,
        pending: 0,
        threads,
        descriptors: ListOf::new(alloc),
    })?;
    Ok(Shared {
        next_id: NUMBER + 1,
        next_file: 1,
        files: ListOf::new(alloc),
        channels: ListOf::new(alloc),
        descriptions: ListOf::new(alloc),
        processes,
    })
}

/// The image's bytes, as docs/FORMATS.md lays them out: the pages, no action, no waiter, and one thread.
fn image_bytes(alloc: Global) -> Result<Vec<u8>, AllocError> {
    let mut bytes = Vec::new(alloc);
    bytes.extend_from_slice(b"DMTPRC01")?;
    let start = FIRST_PAGE * 4096;
    put_words(
        &mut bytes,
        &[NUMBER, start, start + HEAP_PAGES * 4096, HEAP_PAGES + 1],
    )?;
    for page in FIRST_PAGE..FIRST_PAGE + HEAP_PAGES {
        let content = [(page % 251) as u8; PAGE_SIZE];
        put_page(&mut bytes, page, 6, &content)?;
    }
    let mut content = [0; PAGE_SIZE];
    content[..RETURN_CODE.len()].copy_from_slice(&RETURN_CODE);
    put_page(&mut bytes, RETURN_PAGE, 5, &content)?;
    put_words(&mut bytes, &[0; 31 * 3])?;
    put_words(&mut bytes, &[0, 1, NUMBER])?;
    put_words(&mut bytes, &[0; 31 + 4])?;
    Ok(bytes)
}

fn put_page(
    bytes: &mut Vec<u8>,
    number: u32,
    rights: u8,
    content: &[u8; PAGE_SIZE],
) -> Result<(), AllocError> {
    put_words(bytes, &[number])?;
    bytes.push(rights)?;
    bytes.extend_from_slice(content)
}

fn put_words(bytes: &mut Vec<u8>, words: &[u32]) -> Result<(), AllocError> {
    for word in words {
        bytes.extend_from_slice(&word.to_le_bytes())?;
    }
    Ok(())
}

fn copy(alloc: Global, bytes: &[u8]) -> Result<Vec<u8>, AllocError> {
    let mut copied = Vec::with_capacity(alloc, bytes.len())?;
    copied.extend_from_slice(bytes)?;
    Ok(copied)
}

fn page_count(read: &Result<ProcImage, ReadFault>) -> usize {
    match read {
        Ok(process) => process.pages.len(),
        Err(_) => 0,
    }
}
