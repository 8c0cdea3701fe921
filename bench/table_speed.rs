//! Makes a table of the kernel with so many entries and asks it so many times: the words are the task, the number of entries
//! and the number of calls. Prints how many of the calls gave what stands in the table, or how many bytes the last one moved.
//! Without these words it does nothing.
#![tactic(auto)]

use anyhow::Result;
use conn_table::{Conn, ConnTable};
use fd_book::{Book, Desc, Object};
use proc_book::{ProcFault, Procs};
use std::alloc::Global;
use std::env;
use sys_abi::flags::O_CREAT;
use sys_abi::{ConnId, DescId, Fd, RealAddr, RealPid, Signal, Transfer, VPid, VirtAddr};
use vfs_files::{FileFault, Files};
use virt_ids::Ids;

const DESCRIPTORS: u32 = 256;

const SIGNAL: Signal = Signal(10);

/// How many bytes a call moves at most.
const PIECE: usize = 65_536;

fn main(rt: HostRuntime) -> Result<()> {
    let mut words = env::args(&rt)?.skip(1);
    let task = words.next();
    let size = number(words.next());
    let calls = number(words.next());
    if let (Some(task), Some(size), Some(calls)) = (task, size, calls) {
        let count = count_of(rt.alloc(), task.as_str(), size, calls)?;
        println!(rt; "{count}")?;
    }
    Ok(())
}

fn count_of(alloc: Global, task: &str, size: u32, calls: u32) -> Result<usize> {
    match task {
        "get" | "desc" | "fork" | "end" => of_book(book_of(alloc, size)?, task, size, calls),
        "pending" | "next_process" | "wait" => {
            Ok(of_processes(procs_of(alloc, size)?, task, size, calls))
        }
        "thread" => Ok(asked_threads(&threads_of(alloc, size)?, size, calls)),
        "real_pid" => Ok(asked_real(&ids_of(alloc, size)?, size, calls)),
        "virt_pid" => Ok(asked_virtual(&ids_of(alloc, size)?, size, calls)),
        "conn" | "next_conn" | "port_used" => {
            Ok(of_conns(&conns_of(alloc, size)?, task, size, calls))
        }
        _ => of_bytes(alloc, task, size, calls),
    }
}

fn of_book(book: Book, task: &str, size: u32, calls: u32) -> Result<usize> {
    match task {
        "get" => Ok(asked_descriptors(&book, size, calls)),
        "desc" => Ok(asked_descriptions(&book, size, calls)),
        "fork" => forks(book, calls),
        _ => ends(book, calls),
    }
}

fn of_processes(procs: Procs, task: &str, size: u32, calls: u32) -> usize {
    match task {
        "pending" => asked_processes(&procs, size, calls),
        "next_process" => asked_next(&procs, size, calls),
        _ => waits(procs, calls),
    }
}

fn of_conns(table: &ConnTable, task: &str, size: u32, calls: u32) -> usize {
    match task {
        "conn" => asked_conns(table, size, calls),
        "next_conn" => asked_next_conns(table, size, calls),
        _ => asked_ports(table, calls),
    }
}

fn of_bytes(alloc: Global, task: &str, size: u32, calls: u32) -> Result<usize> {
    match task {
        "write" => written(alloc, size, calls),
        "read" => read(alloc, size, calls),
        "copy" => copied(alloc, size, calls),
        "copy_pieces" => copied_by_pieces(alloc, size, calls),
        _ => Ok(0),
    }
}

fn number(word: Option<String>) -> Option<u32> {
    word?.as_str().parse::<u32>().ok()
}

/// The entry that a call asks for, all over the table.
fn entry(call: u32, size: u32) -> u32 {
    call.wrapping_mul(0x9E37_79B1) % size.max(1)
}

/// The descriptors, 256 of each process.
fn slot_at(entry: u32) -> (RealPid, Fd) {
    let pid = 1000 + entry / DESCRIPTORS;
    (RealPid { node: 0, pid }, Fd(entry % DESCRIPTORS))
}

fn description_at(entry: u32) -> DescId {
    DescId {
        pid: VPid(40000),
        num: entry,
    }
}

/// Each descriptor with a description of its own.
fn book_of(alloc: Global, size: u32) -> Result<Book> {
    let console = Desc {
        object: Object::Console,
        flags: 2,
        owner: None,
    };
    let mut book = Book::new(alloc);
    for number in 0..size {
        let (p, fd) = slot_at(number);
        if fd.0 < DESCRIPTORS && book.get(p, fd).is_none() {
            book.place_at(p, fd, description_at(number), console, false)?;
        }
    }
    Ok(book)
}

fn asked_descriptors(book: &Book, size: u32, calls: u32) -> usize {
    (0..calls)
        .filter(|call| {
            let (p, fd) = slot_at(entry(*call, size));
            book.get(p, fd).is_some()
        })
        .count()
}

fn asked_descriptions(book: &Book, size: u32, calls: u32) -> usize {
    (0..calls)
        .filter(|call| book.desc(description_at(entry(*call, size))).is_some())
        .count()
}

fn child_at(call: u32) -> RealPid {
    RealPid { node: 1, pid: call }
}

/// Forks of the first process. Answers how many children have its last descriptor.
fn forks(mut book: Book, calls: u32) -> Result<usize> {
    let (parent, first) = slot_at(0);
    for call in 0..calls {
        let child = child_at(call);
        if book.next_fd(child, None).is_none() {
            book.fork_table(parent, child)?;
        }
    }
    let count = (0..calls)
        .filter(|call| book.get(child_at(*call), first).is_some())
        .count();
    Ok(count)
}

/// The same, where each child's descriptors are closed in turn.
fn ends(mut book: Book, calls: u32) -> Result<usize> {
    let (parent, first) = slot_at(0);
    for call in 0..calls {
        let child = child_at(call);
        if book.next_fd(child, None).is_none() {
            book.fork_table(parent, child)?;
        }
        for _fd in 0..DESCRIPTORS + 1 {
            if book.end_table(child).is_none() {
                break;
            }
        }
    }
    let count = (0..calls)
        .filter(|call| book.get(child_at(*call), first).is_none())
        .count();
    Ok(count)
}

fn process_at(entry: u32) -> RealPid {
    RealPid {
        node: 0,
        pid: entry.saturating_add(1),
    }
}

/// A process and its children, with a signal pending for each one's thread.
fn procs_of(alloc: Global, size: u32) -> Result<Procs> {
    let mut procs = Procs::new(alloc, 1, 1)?;
    let mut parent = None;
    for _process in 0..size {
        if procs.has_real(0) {
            let p = procs.start(0, parent)?;
            procs.raise(p, Some(p.pid), SIGNAL)?;
            parent = Some(process_at(0));
        }
    }
    Ok(procs)
}

/// One process of so many threads, with a signal pending for each.
fn threads_of(alloc: Global, size: u32) -> Result<Procs> {
    let mut procs = procs_of(alloc, 1)?;
    let p = process_at(0);
    for _thread in 1..size {
        if procs.has_real(p.node) && procs.is_live(p) {
            let t = procs.add_thread(p)?;
            procs.raise(p, Some(t), SIGNAL)?;
        }
    }
    Ok(procs)
}

fn asked_processes(procs: &Procs, size: u32, calls: u32) -> usize {
    (0..calls)
        .filter(|call| {
            let p = process_at(entry(*call, size));
            procs.pending(p, p.pid) != 0
        })
        .count()
}

fn asked_threads(procs: &Procs, size: u32, calls: u32) -> usize {
    let p = process_at(0);
    (0..calls)
        .filter(|call| procs.pending(p, process_at(entry(*call, size)).pid) != 0)
        .count()
}

fn asked_next(procs: &Procs, size: u32, calls: u32) -> usize {
    (0..calls)
        .filter(|call| {
            let above = RealPid {
                node: 0,
                pid: entry(*call, size),
            };
            procs.next_process(Some(above)).is_some()
        })
        .count()
}

/// Waits for a child of the first process, of which none has ended.
fn waits(mut procs: Procs, calls: u32) -> usize {
    (0..calls)
        .filter(|_| procs.wait(process_at(0), None) == Err(ProcFault::NotReady))
        .count()
}

fn real_at(entry: u32) -> RealPid {
    RealPid {
        node: entry % 16,
        pid: entry / 16,
    }
}

fn ids_of(alloc: Global, size: u32) -> Result<Ids> {
    let mut ids = Ids::new(alloc);
    for number in 0..size {
        ids.add_pid(number, real_at(number))?;
    }
    Ok(ids)
}

fn asked_real(ids: &Ids, size: u32, calls: u32) -> usize {
    (0..calls)
        .filter(|call| ids.real_pid(entry(*call, size)).is_ok())
        .count()
}

fn asked_virtual(ids: &Ids, size: u32, calls: u32) -> usize {
    (0..calls)
        .filter(|call| ids.virt_pid(real_at(entry(*call, size))).is_ok())
        .count()
}

fn conn_at(entry: u32) -> ConnId {
    ConnId {
        pid: VPid(40000),
        num: entry,
    }
}

fn conns_of(alloc: Global, size: u32) -> Result<ConnTable> {
    let mut table = ConnTable::new(alloc);
    for number in 0..size {
        let client = VirtAddr {
            host: 0,
            port: number,
        };
        let server = VirtAddr { host: 1, port: 80 };
        table.add(Conn {
            id: conn_at(number),
            kind: 1,
            addr: [Some(client), Some(server)],
            open_ends: [true, true],
        })?;
    }
    Ok(table)
}

fn asked_conns(table: &ConnTable, size: u32, calls: u32) -> usize {
    (0..calls)
        .filter(|call| table.get(conn_at(entry(*call, size))).is_some())
        .count()
}

/// Asks for the channel above each, of which the last one has none.
fn asked_next_conns(table: &ConnTable, size: u32, calls: u32) -> usize {
    (0..calls)
        .filter(|call| {
            let id = conn_at(entry(*call, size));
            table.next_conn(Some(id)) != Some(id)
        })
        .count()
}

/// Asks for an address that no channel has.
fn asked_ports(table: &ConnTable, calls: u32) -> usize {
    (0..calls)
        .filter(|call| {
            !table.port_used(VirtAddr {
                host: 2,
                port: *call,
            })
        })
        .count()
}

fn file_of(files: &mut Files) -> Result<u32, FileFault> {
    files.open_file(b"file", O_CREAT)
}

/// Writes so many pieces at the file's end.
fn write_pieces(files: &mut Files, file: u32, piece: &[u8], size: u32) -> Result<(), FileFault> {
    for _piece in 0..size {
        let Some(end) = files.len(file) else {
            return Err(FileFault::NoEntry);
        };
        files.write_at(file, end, piece)?;
    }
    Ok(())
}

/// Writes a file of so many pieces, each time anew.
fn written(alloc: Global, size: u32, calls: u32) -> Result<usize> {
    let mut files = Files::new(alloc);
    let file = file_of(&mut files)?;
    let piece = [7; PIECE];
    for _call in 0..calls {
        files.truncate(file);
        write_pieces(&mut files, file, &piece, size)?;
    }
    Ok(length(&files, file))
}

/// Reads a file of so many pieces, piece by piece.
fn read(alloc: Global, size: u32, calls: u32) -> Result<usize> {
    let mut files = Files::new(alloc);
    let file = file_of(&mut files)?;
    write_pieces(&mut files, file, &[7; PIECE], size)?;
    let mut transfer = Transfer::new(alloc)?;
    for _call in 0..calls {
        let end = files.len(file).unwrap_or(0);
        for at in (0..end).step_by(PIECE) {
            files.read_at(file, at, PIECE as u32, &mut transfer);
        }
    }
    Ok(transfer.as_slice().len())
}

fn length(files: &Files, file: u32) -> usize {
    match files.bytes(file) {
        Some(bytes) => bytes.len(),
        None => 0,
    }
}

/// As many bytes, which no file holds.
fn plain_bytes(alloc: Global, size: u32) -> Result<Vec<u8>> {
    Ok(vec![in alloc; 7; size as usize * PIECE]?)
}

fn copied(alloc: Global, size: u32, calls: u32) -> Result<usize> {
    let bytes = plain_bytes(alloc, size)?;
    let mut count = 0;
    for _call in 0..calls {
        count = Vec::from_slice(alloc, bytes.as_slice())?.len();
    }
    Ok(count)
}

fn copied_by_pieces(alloc: Global, size: u32, calls: u32) -> Result<usize> {
    let bytes = plain_bytes(alloc, size)?;
    let mut buffer = Vec::with_capacity(alloc, PIECE)?;
    for _call in 0..calls {
        for piece in bytes.as_slice().chunks(PIECE) {
            buffer.clear();
            buffer.extend_from_slice(piece)?;
        }
    }
    Ok(buffer.len())
}
