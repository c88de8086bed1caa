//! The guest program that is measured. It goes over a buffer of two pages again and again, calls a function for each word, and
//! exits with 0. How many steps it takes turns on what it computes, so two interpreters that count the same agreed on it.

// Where the code and the buffer begin.
const CODE: u32 = 0x10074;
const BUFFER: u32 = 0x20000;
const BUFFER_SIZE: u32 = 0x2000;

// How often the program goes over the buffer: about 10^8 steps. It is above 2,047, so that it takes two words to put it.
const ROUNDS: i32 = 2111;

// Registers by their names in the calling convention.
const ZERO: u32 = 0;
const RA: u32 = 1;
const SP: u32 = 2;
const T0: u32 = 5;
const T1: u32 = 6;
const T2: u32 = 7;
const S0: u32 = 8;
const S1: u32 = 9;
const A0: u32 = 10;
const A1: u32 = 11;
const A7: u32 = 17;
const S2: u32 = 18;
const S3: u32 = 19;

// The forms of words.
fn r(f7: u32, f3: u32, rd: u32, rs1: u32, rs2: u32) -> u32 {
    f7 << 25 | rs2 << 20 | rs1 << 15 | f3 << 12 | rd << 7 | 0b0110011
}

fn i(opcode: u32, f3: u32, rd: u32, rs1: u32, immediate: i32) -> u32 {
    (immediate as u32) << 20 | rs1 << 15 | f3 << 12 | rd << 7 | opcode
}

fn s(f3: u32, rs1: u32, rs2: u32, offset: u32) -> u32 {
    (offset >> 5) << 25 | rs2 << 20 | rs1 << 15 | f3 << 12 | (offset & 31) << 7 | 0b0100011
}

fn b(f3: u32, rs1: u32, rs2: u32, offset: i32) -> u32 {
    let o = offset as u32;
    let high = (o >> 12 & 1) << 31 | (o >> 5 & 63) << 25;
    high | rs2 << 20 | rs1 << 15 | f3 << 12 | (o >> 1 & 15) << 8 | (o >> 11 & 1) << 7 | 0b1100011
}

fn j(rd: u32, offset: i32) -> u32 {
    let o = offset as u32;
    let high = (o >> 20 & 1) << 31 | (o >> 1 & 1023) << 21 | (o >> 11 & 1) << 20;
    high | (o >> 12 & 255) << 12 | rd << 7 | 0b1101111
}

fn lui(rd: u32, page: u32) -> u32 {
    page << 12 | rd << 7 | 0b0110111
}

fn addi(rd: u32, rs1: u32, immediate: i32) -> u32 {
    i(0b0010011, 0, rd, rs1, immediate)
}

// How far it is from the end of the code to the word of this index.
fn to(index: usize, code: &[u32]) -> i32 {
    4 * (index as i32 - code.len() as i32)
}

// The code: a jump to the loops, and before them the function, which mixes the bits of a0.
fn code() -> Vec<u32> {
    let mut code = vec![0];
    let mix = code.len();
    code.extend([
        addi(SP, SP, -16),
        s(2, SP, RA, 12),            // sw ra,12(sp)
        r(1, 0, A0, A0, A1),         // mul a0,a0,a1
        i(0b0010011, 5, T1, A0, 15), // srli t1,a0,15
        r(0, 4, A0, A0, T1),         // xor a0,a0,t1
        i(0b0010011, 1, T1, A0, 3),  // slli t1,a0,3
        r(0, 0, A0, A0, T1),         // add a0,a0,t1
        i(0b0010011, 7, T1, A0, 7),  // andi t1,a0,7
        b(1, T1, ZERO, 8),           // bne t1,zero: past the next word
        addi(A0, A0, 1213),
        i(0b0000011, 2, RA, SP, 12), // lw ra,12(sp)
        addi(SP, SP, 16),
        i(0b1100111, 0, ZERO, RA, 0), // jalr zero,0(ra)
    ]);
    code[0] = j(ZERO, 4 * code.len() as i32);
    code.extend([
        lui(S0, BUFFER >> 12),
        lui(S1, (BUFFER + BUFFER_SIZE) >> 12),
        lui(S2, 1),
        addi(S2, S2, ROUNDS - 4096),
        lui(A1, 0x9E377),
        addi(A1, A1, 0x1B9),
    ]);
    let round = code.len();
    code.push(addi(T0, S0, 0));
    let each = code.len();
    code.push(i(0b0000011, 2, A0, T0, 0)); // lw a0,0(t0)
    code.push(j(RA, to(mix, &code)));
    code.extend([
        s(2, T0, A0, 0),            // sw a0,0(t0)
        i(0b0000011, 4, T1, T0, 1), // lbu t1,1(t0)
        i(0b0000011, 1, T2, T0, 2), // lh t2,2(t0)
        r(1, 3, T2, T2, A1),        // mulhu t2,t2,a1
        r(32, 5, T2, T2, T1),       // sra t2,t2,t1
        r(0, 0, S3, S3, T2),        // add s3,s3,t2
        s(1, T0, S3, 2),            // sh s3,2(t0)
        addi(T0, T0, 4),
    ]);
    code.push(b(6, T0, S1, to(each, &code))); // bltu t0,s1
    code.push(addi(S2, S2, -1));
    code.push(b(1, S2, ZERO, to(round, &code))); // bne s2,zero
    code.extend([addi(A7, ZERO, 93), addi(A0, ZERO, 0), 0x00000073]);
    code
}

/// The bytes of the executable: a segment of code that may be read and executed, with the headers in front, and one of zeros
/// that may be read and written.
pub fn executable() -> Vec<u8> {
    let code = code();
    let size = CODE - 0x10000 + 4 * code.len() as u32;
    let header = [
        0x464C457F, 0x00010101, 0, 0, 0x00F30002, 1, CODE, 52, 0, 0, 0x00200034, 0x00280002, 0,
    ];
    let segments = [
        [1, 0, 0x10000, 0x10000, size, size, 5, 0x1000],
        [1, 0, BUFFER, BUFFER, 0, BUFFER_SIZE, 6, 0x1000],
    ];
    let words = header.iter().chain(segments.as_flattened()).chain(&code);
    words.flat_map(|word| word.to_le_bytes()).collect()
}
