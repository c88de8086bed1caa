//! A fast interpreter of RV32IMA Linux programs, as the yardstick for superpin's steps: code is decoded once, an access
//! looks up one entry of a table of pages, and the run is one loop with its pc in a local. No proof covers it.
//!
//! `fast run --by serial --budget N FILE` takes the words, makes the steps and prints the count as the plain interpreter does.
//! Of the calls it has write, exit and brk, and it answers -38 to the others, which is enough for programs that compute.

mod decoded;
mod fields;
mod memory;

use decoded::{Kind, Word};
use memory::Memory;
use std::process::ExitCode;
use std::{env, fs};

const ILLEGAL: u32 = 4;
const BREAK: u32 = 5;
const MISALIGNED: u32 = 7;
const ACCESS: u32 = 11;

/// Why a stretch of steps ended.
enum Stop {
    Call,
    Signal(u32),
    Spent,
}

struct Machine {
    pc: u32,
    // Register 32 takes what is written to x0. There are so many that each number of 8 bits has one.
    registers: [u32; 256],
    reservation: Option<u32>,
    memory: Memory,
    code_start: u32,
    code: Vec<Word>,
    heap_break: u32,
}

impl Machine {
    fn load(file: &[u8]) -> Machine {
        let (memory, heap_break, [code_start, code_end]) = Memory::of(file);
        let mut code: Vec<Word> = (code_start..code_end)
            .step_by(4)
            .map(|at| Word::of(memory.load(at).map_or(0, u32::from_le_bytes)))
            .collect();
        code.push(Word::of(0));
        let mut registers = [0; 256];
        registers[2] = 0x7fff_e000;
        let pc = u32::from_le_bytes(file[24..28].try_into().unwrap());
        Machine {
            pc,
            registers,
            reservation: None,
            memory,
            code_start,
            code,
            heap_break,
        }
    }

    /// Makes steps until a call, a fault or so many steps, and says how many it made.
    fn run(&mut self, budget: u64) -> (u64, Stop) {
        let mut pc = self.pc;
        let mut steps = 0;
        let x = &mut self.registers;
        let stop = loop {
            if steps == budget {
                break Stop::Spent;
            }
            let Some(i) = self
                .code
                .get((pc.wrapping_sub(self.code_start) >> 2) as usize)
            else {
                break Stop::Signal(ACCESS);
            };
            let (a, b) = (x[i.rs1 as usize], x[i.rs2 as usize]);
            let (signed_a, signed_b) = (a as i32, b as i32);
            let immediate = i.immediate;
            let at = a.wrapping_add(immediate);
            // A jump goes there; the taken branches too.
            let target = pc.wrapping_add(immediate);
            macro_rules! put {
                ($value:expr) => {
                    x[i.rd as usize] = $value
                };
            }
            macro_rules! load {
                ($number:ty, $wide:ty) => {
                    match self.memory.load::<{ size_of::<$number>() }>(at) {
                        Some(bytes) => put!(<$number>::from_le_bytes(bytes) as $wide as u32),
                        None => break Stop::Signal(ACCESS),
                    }
                };
            }
            macro_rules! store {
                ($number:ty) => {
                    if !self.memory.store(at, (b as $number).to_le_bytes()) {
                        break Stop::Signal(ACCESS);
                    }
                };
            }
            // The word goes to rd, and what is made of it to its place.
            macro_rules! swap {
                ($made:expr) => {{
                    if at % 4 != 0 {
                        break Stop::Signal(MISALIGNED);
                    }
                    let Some(old) = self.memory.load(at).map(u32::from_le_bytes) else {
                        break Stop::Signal(ACCESS);
                    };
                    let made: u32 = $made(old);
                    if !self.memory.store(at, made.to_le_bytes()) {
                        break Stop::Signal(ACCESS);
                    }
                    put!(old);
                }};
            }
            macro_rules! branch {
                ($taken:expr) => {
                    if $taken {
                        if target % 4 != 0 {
                            break Stop::Signal(MISALIGNED);
                        }
                        pc = target;
                        steps += 1;
                        continue;
                    }
                };
            }
            macro_rules! jump {
                ($to:expr) => {{
                    let to = $to;
                    if to % 4 != 0 {
                        break Stop::Signal(MISALIGNED);
                    }
                    put!(pc.wrapping_add(4));
                    pc = to;
                    steps += 1;
                    continue;
                }};
            }
            match i.kind {
                Kind::Put => put!(immediate),
                Kind::Auipc => put!(target),
                Kind::Jal => jump!(target),
                Kind::Jalr => jump!(at & !1),
                Kind::Beq => branch!(a == b),
                Kind::Bne => branch!(a != b),
                Kind::Blt => branch!(signed_a < signed_b),
                Kind::Bge => branch!(signed_a >= signed_b),
                Kind::Bltu => branch!(a < b),
                Kind::Bgeu => branch!(a >= b),
                Kind::Lb => load!(i8, i32),
                Kind::Lh => load!(i16, i32),
                Kind::Lw => load!(u32, u32),
                Kind::Lbu => load!(u8, u32),
                Kind::Lhu => load!(u16, u32),
                Kind::Sb => store!(u8),
                Kind::Sh => store!(u16),
                Kind::Sw => store!(u32),
                Kind::Addi => put!(at),
                Kind::Slti => put!((signed_a < immediate as i32) as u32),
                Kind::Sltiu => put!((a < immediate) as u32),
                Kind::Xori => put!(a ^ immediate),
                Kind::Ori => put!(a | immediate),
                Kind::Andi => put!(a & immediate),
                Kind::Slli => put!(a << (immediate & 31)),
                Kind::Srli => put!(a >> (immediate & 31)),
                Kind::Srai => put!((signed_a >> (immediate & 31)) as u32),
                Kind::Add => put!(a.wrapping_add(b)),
                Kind::Sub => put!(a.wrapping_sub(b)),
                Kind::Sll => put!(a << (b & 31)),
                Kind::Slt => put!((signed_a < signed_b) as u32),
                Kind::Sltu => put!((a < b) as u32),
                Kind::Xor => put!(a ^ b),
                Kind::Srl => put!(a >> (b & 31)),
                Kind::Sra => put!((signed_a >> (b & 31)) as u32),
                Kind::Or => put!(a | b),
                Kind::And => put!(a & b),
                Kind::Mul => put!(a.wrapping_mul(b)),
                Kind::Mulh => put!((signed_a as i64 * signed_b as i64 >> 32) as u32),
                Kind::Mulhsu => put!((signed_a as i64 * b as i64 >> 32) as u32),
                Kind::Mulhu => put!((a as u64 * b as u64 >> 32) as u32),
                Kind::Div if b == 0 => put!(u32::MAX),
                Kind::Div => put!(signed_a.wrapping_div(signed_b) as u32),
                Kind::Divu => put!(a.checked_div(b).unwrap_or(u32::MAX)),
                Kind::Rem if b == 0 => put!(a),
                Kind::Rem => put!(signed_a.wrapping_rem(signed_b) as u32),
                Kind::Remu => put!(a.checked_rem(b).unwrap_or(a)),
                Kind::LrW if at % 4 != 0 => break Stop::Signal(MISALIGNED),
                Kind::LrW => {
                    load!(u32, u32);
                    self.reservation = Some(at);
                }
                Kind::ScW => {
                    let is_reserved = self.reservation == Some(at);
                    swap!(|old| if is_reserved { b } else { old });
                    put!(!is_reserved as u32);
                    self.reservation = None;
                }
                Kind::AmoswapW => swap!(|_| b),
                Kind::AmoaddW => swap!(|old: u32| old.wrapping_add(b)),
                Kind::AmoxorW => swap!(|old| old ^ b),
                Kind::AmoandW => swap!(|old| old & b),
                Kind::AmoorW => swap!(|old| old | b),
                Kind::AmominW => swap!(|old| signed_b.min(old as i32) as u32),
                Kind::AmomaxW => swap!(|old| signed_b.max(old as i32) as u32),
                Kind::AmominuW => swap!(|old| b.min(old)),
                Kind::AmomaxuW => swap!(|old| b.max(old)),
                Kind::Fence => {}
                Kind::Ecall => break Stop::Call,
                Kind::Ebreak => break Stop::Signal(BREAK),
                Kind::Illegal => break Stop::Signal(ILLEGAL),
            }
            pc = pc.wrapping_add(4);
            steps += 1;
        };
        self.pc = pc;
        (steps, stop)
    }

    /// Answers the call that the registers ask for; None where it ends the run.
    fn call(&mut self) -> Option<()> {
        let [first, at, len] = [10, 11, 12].map(|n| self.registers[n]);
        self.registers[10] = match self.registers[17] {
            93 | 94 => return None,
            64 => self.memory.print(first, at, len),
            214 => {
                if self.memory.grow(self.heap_break, first) {
                    self.heap_break = first;
                }
                self.heap_break
            }
            _ => -38i32 as u32,
        };
        self.reservation = None;
        self.pc = self.pc.wrapping_add(4);
        Some(())
    }
}

fn main() -> ExitCode {
    let words: Vec<String> = env::args().skip(1).collect();
    let words: Vec<&str> = words.iter().map(String::as_str).collect();
    let ["run", "--by", "serial", "--budget", budget, name] = words[..] else {
        panic!("call it as: run --by serial --budget N FILE");
    };
    let file = fs::read(name).expect("the file was not read");
    let mut left: u64 = budget.parse().expect("the budget is no number");
    let mut machine = Machine::load(&file);
    let mut count = 0;
    loop {
        let (steps, stop) = machine.run(left);
        count += steps;
        left -= steps;
        match stop {
            Stop::Spent => {
                eprintln!("fast: budget {budget} spent");
                return ExitCode::from(125);
            }
            Stop::Signal(kind) => {
                eprintln!("icount {count}\nend signal {kind} at {:#010x}", machine.pc);
                return ExitCode::from(128 + kind as u8);
            }
            Stop::Call if left == 0 => {}
            Stop::Call => {
                count += 1;
                left -= 1;
                if machine.call().is_none() {
                    let status = machine.registers[10] as u8;
                    eprintln!("icount {count}\nend exit {status}");
                    return ExitCode::from(status);
                }
            }
        }
    }
}
