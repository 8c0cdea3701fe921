//! The same processor and memory in stock Rust, with no proof, as a careful programmer writes them: the measure of `speed.sh`. Loads
//! a program for RV32IM (ELF, static), runs so many instructions of it and prints how many it ran: a call or a trap ends the
//! run. Each word is fetched from its page, which must be there with the right to execute, so that code may write itself; loads
//! and stores ask for their rights, may be unaligned, and may meet two pages.
//! Usage: plain_interpreter PROGRAM INSTRUCTIONS

use std::{env, fs};

const PAGE: usize = 4096;
const READ: u32 = 4;
const WRITE: u32 = 2;
const EXECUTE: u32 = 1;

/// What ends a run: a call, or a signal (`man 7 signal`).
enum Stop {
    Call,
    Trap(u32),
}

const ILLEGAL: Stop = Stop::Trap(4);
const BREAKPOINT: Stop = Stop::Trap(5);
const MISALIGNED: Stop = Stop::Trap(7);
const FAULT: Stop = Stop::Trap(11);

struct Frame {
    rights: u32,
    bytes: Box<[u8; PAGE]>,
}

/// Pages by their numbers: for each number the place of its frame, or none.
struct Memory {
    places: Vec<Option<u16>>,
    frames: Vec<Frame>,
}

impl Memory {
    fn new() -> Memory {
        Memory { places: vec![None; 1 << 20], frames: Vec::new() }
    }

    fn map(&mut self, page: usize, rights: u32) -> &mut Frame {
        let place = *self.places[page].get_or_insert(self.frames.len() as u16);
        if place as usize == self.frames.len() {
            self.frames.push(Frame { rights: 0, bytes: Box::new([0; PAGE]) });
        }
        let frame = &mut self.frames[place as usize];
        frame.rights |= rights;
        frame
    }

    fn place(&self, right: u32, address: u32) -> Result<usize, Stop> {
        match self.places[address as usize / PAGE] {
            Some(place) if self.frames[place as usize].rights & right != 0 => Ok(place as usize),
            _ => Err(FAULT),
        }
    }

    #[inline(always)]
    fn read<const N: usize>(&self, right: u32, address: u32) -> Result<[u8; N], Stop> {
        let offset = address as usize % PAGE;
        if offset + N > PAGE {
            return self.read_across(right, address);
        }
        let frame = &self.frames[self.place(right, address)?];
        Ok(std::array::from_fn(|at| frame.bytes[offset + at]))
    }

    #[cold]
    fn read_across<const N: usize>(&self, right: u32, address: u32) -> Result<[u8; N], Stop> {
        let mut bytes = [0; N];
        for (at, byte) in bytes.iter_mut().enumerate() {
            let address = address.checked_add(at as u32).ok_or(FAULT)?;
            *byte = self.frames[self.place(right, address)?].bytes[address as usize % PAGE];
        }
        Ok(bytes)
    }

    #[inline(always)]
    fn write<const N: usize>(&mut self, address: u32, bytes: [u8; N]) -> Result<(), Stop> {
        let offset = address as usize % PAGE;
        if offset + N > PAGE {
            return self.write_across(address, bytes);
        }
        let place = self.place(WRITE, address)?;
        self.frames[place].bytes[offset..offset + N].copy_from_slice(&bytes);
        Ok(())
    }

    #[cold]
    fn write_across<const N: usize>(&mut self, address: u32, bytes: [u8; N]) -> Result<(), Stop> {
        self.place(WRITE, address)?;
        self.place(WRITE, address.checked_add(N as u32 - 1).ok_or(FAULT)?)?;
        for (at, byte) in bytes.into_iter().enumerate() {
            let address = address + at as u32;
            let place = self.place(WRITE, address)?;
            self.frames[place].bytes[address as usize % PAGE] = byte;
        }
        Ok(())
    }
}

struct Hart {
    x: [u32; 32],
    pc: u32,
}

impl Hart {
    fn set(&mut self, rd: usize, value: u32) {
        if rd != 0 {
            self.x[rd] = value;
        }
    }

    fn jump(&mut self, rd: usize, target: u32) -> Result<(), Stop> {
        if target % 4 != 0 {
            return Err(MISALIGNED);
        }
        self.set(rd, self.pc.wrapping_add(4));
        self.pc = target;
        Ok(())
    }

    /// One instruction.
    #[inline(always)]
    fn step(&mut self, memory: &mut Memory) -> Result<(), Stop> {
        let word = u32::from_le_bytes(memory.read(EXECUTE, self.pc)?);
        let (rd, funct3, funct7) = ((word >> 7 & 31) as usize, word >> 12 & 7, word >> 25);
        let (a, b) = (self.x[(word >> 15 & 31) as usize], self.x[(word >> 20 & 31) as usize]);
        let signed = word as i32;
        let immediate = (signed >> 20) as u32;
        match word & 0x7F {
            0x37 => self.set(rd, word & 0xFFFF_F000),
            0x17 => self.set(rd, self.pc.wrapping_add(word & 0xFFFF_F000)),
            0x6F => {
                let high = (signed >> 31 << 20) as u32 | word & 0xF_F000;
                return self.jump(rd, self.pc.wrapping_add(high | word >> 9 & 0x800 | word >> 20 & 0x7FE));
            }
            0x67 if funct3 == 0 => return self.jump(rd, a.wrapping_add(immediate) & !1),
            0x63 => {
                let taken = match funct3 {
                    0 => a == b,
                    1 => a != b,
                    4 => (a as i32) < b as i32,
                    5 => a as i32 >= b as i32,
                    6 => a < b,
                    7 => a >= b,
                    _ => return Err(ILLEGAL),
                };
                if taken {
                    let high = (signed >> 31 << 12) as u32 | word << 4 & 0x800;
                    let target = self.pc.wrapping_add(high | word >> 20 & 0x7E0 | word >> 7 & 0x1E);
                    if target % 4 != 0 {
                        return Err(MISALIGNED);
                    }
                    self.pc = target;
                    return Ok(());
                }
            }
            0x03 => {
                let address = a.wrapping_add(immediate);
                let value = match funct3 {
                    0 => i8::from_le_bytes(memory.read(READ, address)?) as u32,
                    1 => i16::from_le_bytes(memory.read(READ, address)?) as u32,
                    2 => u32::from_le_bytes(memory.read(READ, address)?),
                    4 => u8::from_le_bytes(memory.read(READ, address)?) as u32,
                    5 => u16::from_le_bytes(memory.read(READ, address)?) as u32,
                    _ => return Err(ILLEGAL),
                };
                self.set(rd, value);
            }
            0x23 => {
                let address = a.wrapping_add((signed >> 25 << 5) as u32 | word >> 7 & 31);
                match funct3 {
                    0 => memory.write(address, (b as u8).to_le_bytes())?,
                    1 => memory.write(address, (b as u16).to_le_bytes())?,
                    2 => memory.write(address, b.to_le_bytes())?,
                    _ => return Err(ILLEGAL),
                }
            }
            0x13 => {
                let amount = immediate & 31;
                let value = match (funct3, funct7) {
                    (0, _) => a.wrapping_add(immediate),
                    (1, 0) => a << amount,
                    (2, _) => ((a as i32) < immediate as i32) as u32,
                    (3, _) => (a < immediate) as u32,
                    (4, _) => a ^ immediate,
                    (5, 0) => a >> amount,
                    (5, 0x20) => (a as i32 >> amount) as u32,
                    (6, _) => a | immediate,
                    (7, _) => a & immediate,
                    _ => return Err(ILLEGAL),
                };
                self.set(rd, value);
            }
            0x33 => {
                let value = match (funct7, funct3) {
                    (0, 0) => a.wrapping_add(b),
                    (0, 1) => a << (b & 31),
                    (0, 2) => ((a as i32) < b as i32) as u32,
                    (0, 3) => (a < b) as u32,
                    (0, 4) => a ^ b,
                    (0, 5) => a >> (b & 31),
                    (0, 6) => a | b,
                    (0, 7) => a & b,
                    (0x20, 0) => a.wrapping_sub(b),
                    (0x20, 5) => (a as i32 >> (b & 31)) as u32,
                    (1, 0) => a.wrapping_mul(b),
                    (1, 1) => (a as i32 as i64 * b as i32 as i64 >> 32) as u32,
                    (1, 2) => (a as i32 as i64 * b as i64 >> 32) as u32,
                    (1, 3) => (a as u64 * b as u64 >> 32) as u32,
                    (1, 4) if b == 0 => u32::MAX,
                    (1, 4) => (a as i32).wrapping_div(b as i32) as u32,
                    (1, 5) => a.checked_div(b).unwrap_or(u32::MAX),
                    (1, 6) if b == 0 => a,
                    (1, 6) => (a as i32).wrapping_rem(b as i32) as u32,
                    (1, 7) => a.checked_rem(b).unwrap_or(a),
                    _ => return Err(ILLEGAL),
                };
                self.set(rd, value);
            }
            0x0F if funct3 == 0 => {}
            0x73 if word == 0x73 => return Err(Stop::Call),
            0x73 if word == 0x10_0073 => return Err(BREAKPOINT),
            _ => return Err(ILLEGAL),
        }
        self.pc = self.pc.wrapping_add(4);
        Ok(())
    }
}

/// The program's segments in memory, 64 pages of stack, and the registers at its start.
fn load(file: &[u8], memory: &mut Memory) -> Hart {
    let half = |at: usize| u16::from_le_bytes([file[at], file[at + 1]]) as usize;
    let word = |at: usize| half(at) | half(at + 2) << 16;
    for number in 0..half(44) {
        let header = word(28) + number * half(42);
        if word(header) != 1 {
            continue;
        }
        let (offset, start, in_file, in_memory) =
            (word(header + 4), word(header + 8), word(header + 16), word(header + 20));
        for at in 0..in_memory {
            let frame = memory.map((start + at) / PAGE, word(header + 24) as u32);
            if at < in_file {
                frame.bytes[(start + at) % PAGE] = file[offset + at];
            }
        }
    }
    for page in 0x7FFC0..0x80000 {
        memory.map(page, READ | WRITE);
    }
    let mut hart = Hart { x: [0; 32], pc: word(24) as u32 };
    hart.x[2] = 0x7FFF_FF00;
    hart
}

fn main() {
    let words: Vec<String> = env::args().collect();
    let file = fs::read(&words[1]).expect("a program");
    let count: u64 = words[2].parse().expect("a number");
    let mut memory = Memory::new();
    let mut hart = load(&file, &mut memory);
    for done in 0..count {
        match hart.step(&mut memory) {
            Ok(()) => {}
            Err(Stop::Call) => return println!("{done} and then a call"),
            Err(Stop::Trap(signal)) => return println!("{done} and then signal {signal}"),
        }
    }
    println!("{count}");
}
