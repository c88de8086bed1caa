//! A plain interpreter of RV32IMA Linux programs, to measure superpin beside it. No proof covers it.
//!
//! `interpreter run --by serial --budget N FILE` runs a static executable for at most N steps, as superpin does at these
//! words, and writes the number of its steps to the standard error. Of the calls it has write and exit.
//! `interpreter make FILE` writes the guest program that is measured.

mod arithmetic;
mod fields;
mod guest;

use arithmetic::{compute, compute_immediate, is_taken, swap_by};
use fields::{branch_offset, jump_offset};
use std::io::{Write, stderr, stdout};
use std::process::ExitCode;
use std::{env, fs};

// The flags of program headers.
const EXECUTE: u32 = 1;
const WRITE: u32 = 2;
const READ: u32 = 4;

/// How a run ends: by a call with a status, or by a fault with the number of its signal.
enum End {
    Exit(u32),
    Signal(u32),
}

const ILLEGAL: End = End::Signal(4);
const BREAK: End = End::Signal(5);
const MISALIGNED: End = End::Signal(7);
const ACCESS: End = End::Signal(11);
const UNKNOWN_CALL: End = End::Signal(31);

/// Whole pages from `start` on, with the flags that say what may be done there.
struct Area {
    start: u32,
    flags: u32,
    bytes: Vec<u8>,
}

struct Machine {
    pc: u32,
    registers: [u32; 32],
    reservation: Option<u32>,
    areas: Vec<Area>,
}

impl Machine {
    /// The machine at the first instruction of an executable. It panics where the file is malformed.
    fn load(file: &[u8]) -> Machine {
        let half = |at: usize| u16::from_le_bytes([file[at], file[at + 1]]) as usize;
        let word = |at: usize| u32::from_le_bytes(file[at..at + 4].try_into().unwrap());
        assert!(file.starts_with(b"\x7fELF\x01\x01") && half(16) == 2 && half(18) == 243);
        let mut areas = Vec::new();
        for header in (0..half(44)).map(|k| word(28) as usize + 32 * k) {
            if word(header) == 1 {
                let [from, at, _, file_size, size, flags] =
                    [1, 2, 3, 4, 5, 6].map(|n| word(header + 4 * n));
                let before = at as usize % 4096;
                let mut bytes = vec![0; (before + size as usize).next_multiple_of(4096)];
                bytes[before..before + file_size as usize]
                    .copy_from_slice(&file[from as usize..from as usize + file_size as usize]);
                areas.push(Area {
                    start: at / 4096 * 4096,
                    flags,
                    bytes,
                });
            }
        }
        areas.push(Area {
            start: 0x7fef_f000,
            flags: READ | WRITE,
            bytes: vec![0; 0x10_0000],
        });
        let mut registers = [0; 32];
        registers[2] = 0x7fff_e000;
        Machine {
            pc: word(24),
            registers,
            reservation: None,
            areas,
        }
    }

    /// The `len` bytes from `at` on, which must be in one area with this flag.
    fn bytes(&self, flag: u32, at: u32, len: usize) -> Result<&[u8], End> {
        for area in &self.areas {
            let from = at.wrapping_sub(area.start) as usize;
            if let Some(bytes) = area.bytes.get(from..from + len) {
                return if area.flags & flag != 0 {
                    Ok(bytes)
                } else {
                    Err(ACCESS)
                };
            }
        }
        Err(ACCESS)
    }

    fn read<const N: usize>(&self, flag: u32, at: u32) -> Result<[u8; N], End> {
        Ok(self.bytes(flag, at, N)?.try_into().unwrap())
    }

    fn write<const N: usize>(&mut self, at: u32, bytes: [u8; N]) -> Result<(), End> {
        for area in &mut self.areas {
            let from = at.wrapping_sub(area.start) as usize;
            if let Some(place) = area.bytes.get_mut(from..from + N) {
                if area.flags & WRITE != 0 {
                    place.copy_from_slice(&bytes);
                    return Ok(());
                }
                return Err(ACCESS);
            }
        }
        Err(ACCESS)
    }

    fn load_number(&self, f3: u32, at: u32) -> Result<u32, End> {
        Ok(match f3 {
            0 => i8::from_le_bytes(self.read(READ, at)?) as u32,
            1 => i16::from_le_bytes(self.read(READ, at)?) as u32,
            2 => u32::from_le_bytes(self.read(READ, at)?),
            4 => u8::from_le_bytes(self.read(READ, at)?) as u32,
            5 => u16::from_le_bytes(self.read(READ, at)?) as u32,
            _ => return Err(ILLEGAL),
        })
    }

    fn store_number(&mut self, f3: u32, at: u32, value: u32) -> Result<(), End> {
        match f3 {
            0 => self.write(at, (value as u8).to_le_bytes()),
            1 => self.write(at, (value as u16).to_le_bytes()),
            2 => self.write(at, value.to_le_bytes()),
            _ => Err(ILLEGAL),
        }
    }

    /// The word at an address that an atomic reserves.
    fn reserve(&mut self, at: u32) -> Result<u32, End> {
        let old = u32::from_le_bytes(self.read(READ, aligned(at)?)?);
        self.reservation = Some(at);
        Ok(old)
    }

    /// Stores at an address, where it is the reserved one, and says by 0 that it did, by 1 that it did not.
    fn store_conditionally(&mut self, at: u32, value: u32) -> Result<u32, End> {
        let is_reserved = self.reservation == Some(at);
        self.swap(at, value, |old, b| if is_reserved { b } else { old })?;
        self.reservation = None;
        Ok(!is_reserved as u32)
    }

    /// The word at an address, at which then stands what the operation makes of it and `b`.
    fn swap(&mut self, at: u32, b: u32, operation: impl Fn(u32, u32) -> u32) -> Result<u32, End> {
        let old = u32::from_le_bytes(self.read(READ, aligned(at)?)?);
        self.write(at, operation(old, b).to_le_bytes())?;
        Ok(old)
    }

    /// Carries out the instruction at pc.
    fn step(&mut self) -> Result<(), End> {
        let word = u32::from_le_bytes(self.read(EXECUTE, self.pc)?);
        if word % 4 != 3 {
            return Err(ILLEGAL);
        }
        let rd = (word >> 7 & 31) as usize;
        let f3 = word >> 12 & 7;
        let a = self.registers[(word >> 15 & 31) as usize];
        let rs2 = (word >> 20 & 31) as usize;
        let immediate = (word as i32 >> 20) as u32;
        let following = self.pc.wrapping_add(4);
        // By the opcode without its two low bits: what goes to rd. Where nothing does, or the next pc is another, it returns.
        let value = match word >> 2 & 31 {
            0b01101 => word & 0xffff_f000,
            0b00101 => self.pc.wrapping_add(word & 0xffff_f000),
            0b00000 => self.load_number(f3, a.wrapping_add(immediate))?,
            0b00100 => compute_immediate(word >> 25, f3, a, immediate)?,
            0b01100 => compute(word >> 25, f3, a, self.registers[rs2])?,
            0b01011 if f3 == 2 => match word >> 27 {
                0b00010 if rs2 == 0 => self.reserve(a)?,
                0b00011 => self.store_conditionally(a, self.registers[rs2])?,
                code => self.swap(a, self.registers[rs2], swap_by(code)?)?,
            },
            0b11011 => {
                self.pc = aligned(self.pc.wrapping_add(jump_offset(word)))?;
                self.put(rd, following);
                return Ok(());
            }
            0b11001 if f3 == 0 => {
                self.pc = aligned(a.wrapping_add(immediate) & !1)?;
                self.put(rd, following);
                return Ok(());
            }
            0b11000 => {
                self.pc = match is_taken(f3, a, self.registers[rs2])? {
                    true => aligned(self.pc.wrapping_add(branch_offset(word)))?,
                    false => following,
                };
                return Ok(());
            }
            0b01000 => {
                let at = a.wrapping_add(immediate & !31 | rd as u32);
                self.store_number(f3, at, self.registers[rs2])?;
                self.pc = following;
                return Ok(());
            }
            0b00011 if f3 == 0 => {
                self.pc = following;
                return Ok(());
            }
            0b11100 if word == 0x00000073 => {
                self.registers[10] = self.call()?;
                self.reservation = None;
                self.pc = following;
                return Ok(());
            }
            0b11100 if word == 0x00100073 => return Err(BREAK),
            _ => return Err(ILLEGAL),
        };
        self.put(rd, value);
        self.pc = following;
        Ok(())
    }

    fn put(&mut self, rd: usize, value: u32) {
        if rd != 0 {
            self.registers[rd] = value;
        }
    }

    /// The result of the call that the registers ask for.
    fn call(&self) -> Result<u32, End> {
        let [port, at, len] = [10, 11, 12].map(|n| self.registers[n]);
        match self.registers[17] {
            93 => Err(End::Exit(port)),
            64 if port != 1 && port != 2 => Ok(-9i32 as u32),
            64 => match self.bytes(READ, at, len as usize) {
                Ok(bytes) if port == 1 => {
                    Ok(stdout().write_all(bytes).map_or(-5i32 as u32, |()| len))
                }
                Ok(bytes) => Ok(stderr().write_all(bytes).map_or(-5i32 as u32, |()| len)),
                Err(_) => Ok(-14i32 as u32),
            },
            _ => Err(UNKNOWN_CALL),
        }
    }
}

fn aligned(at: u32) -> Result<u32, End> {
    if at % 4 == 0 { Ok(at) } else { Err(MISALIGNED) }
}

/// Runs an executable for at most `budget` steps, and answers as superpin does.
fn run(file: &[u8], budget: u64) -> u8 {
    let mut machine = Machine::load(file);
    for steps in 0..budget {
        match machine.step() {
            Ok(()) => {}
            Err(End::Exit(status)) => {
                eprintln!("icount {}\nend exit {}", steps + 1, status % 256);
                return status as u8;
            }
            Err(End::Signal(kind)) => {
                eprintln!("icount {steps}\nend signal {kind} at {:#010x}", machine.pc);
                return 128 + kind as u8;
            }
        }
    }
    eprintln!("interpreter: budget {budget} spent");
    125
}

fn main() -> ExitCode {
    let words: Vec<String> = env::args().skip(1).collect();
    let words: Vec<&str> = words.iter().map(String::as_str).collect();
    match words[..] {
        ["make", name] => fs::write(name, guest::executable()).expect("the file was not written"),
        ["run", "--by", "serial", "--budget", budget, name] => {
            let file = fs::read(name).expect("the file was not read");
            return ExitCode::from(run(&file, budget.parse().expect("the budget is no number")));
        }
        _ => panic!("call it as: run --by serial --budget N FILE, or: make FILE"),
    }
    ExitCode::SUCCESS
}
