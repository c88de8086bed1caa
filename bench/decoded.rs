//! Words of code, decoded.

use crate::fields::{branch_offset, jump_offset};

#[derive(Clone, Copy, PartialEq, Eq)]
#[repr(u8)]
pub enum Kind {
    /// `lui`: the immediate goes to rd.
    Put,
    Auipc,
    Jal,
    Jalr,
    Beq,
    Bne,
    Blt,
    Bge,
    Bltu,
    Bgeu,
    Lb,
    Lh,
    Lw,
    Lbu,
    Lhu,
    Sb,
    Sh,
    Sw,
    Addi,
    Slti,
    Sltiu,
    Xori,
    Ori,
    Andi,
    Slli,
    Srli,
    Srai,
    Add,
    Sub,
    Sll,
    Slt,
    Sltu,
    Xor,
    Srl,
    Sra,
    Or,
    And,
    Mul,
    Mulh,
    Mulhsu,
    Mulhu,
    Div,
    Divu,
    Rem,
    Remu,
    LrW,
    ScW,
    AmoswapW,
    AmoaddW,
    AmoxorW,
    AmoandW,
    AmoorW,
    AmominW,
    AmomaxW,
    AmominuW,
    AmomaxuW,
    Fence,
    Ecall,
    Ebreak,
    Illegal,
}

use Kind::*;

/// A word in 8 bytes. Of a word that writes no register rd is 32, as of one that writes x0.
pub struct Word {
    pub kind: Kind,
    pub rd: u8,
    pub rs1: u8,
    pub rs2: u8,
    pub immediate: u32,
}

impl Word {
    pub fn of(word: u32) -> Word {
        let upper = word & 0xffff_f000;
        let signed = (word as i32 >> 20) as u32;
        let stored = signed & !31 | word >> 7 & 31;
        let f3 = (word >> 12 & 7) as usize;
        let (kind, immediate) = match word & 127 {
            0x37 => (Put, upper),
            0x17 => (Auipc, upper),
            0x6f => (Jal, jump_offset(word)),
            0x67 if f3 == 0 => (Jalr, signed),
            0x63 => (
                [Beq, Bne, Illegal, Illegal, Blt, Bge, Bltu, Bgeu][f3],
                branch_offset(word),
            ),
            0x03 => (
                [Lb, Lh, Lw, Illegal, Lbu, Lhu, Illegal, Illegal][f3],
                signed,
            ),
            0x23 if f3 < 3 => ([Sb, Sh, Sw][f3], stored),
            0x13 => (immediate_kind(word >> 25, f3), signed),
            0x33 => (register_kind(word >> 25, f3), 0),
            0x2f if f3 == 2 => (atomic_kind(word >> 27, word >> 20 & 31), 0),
            0x0f if f3 == 0 => (Fence, 0),
            0x73 if word == 0x0000_0073 => (Ecall, 0),
            0x73 if word == 0x0010_0073 => (Ebreak, 0),
            _ => (Illegal, 0),
        };
        let rd = (word >> 7 & 31) as u8;
        let writes = !matches!(
            kind,
            Beq | Bne | Blt | Bge | Bltu | Bgeu | Sb | Sh | Sw | Fence | Ecall | Ebreak | Illegal
        );
        Word {
            kind,
            rd: if writes && rd != 0 { rd } else { 32 },
            rs1: (word >> 15 & 31) as u8,
            rs2: (word >> 20 & 31) as u8,
            immediate,
        }
    }
}

fn immediate_kind(f7: u32, f3: usize) -> Kind {
    match (f3, f7) {
        (1, 0) => Slli,
        (5, 0) => Srli,
        (5, 32) => Srai,
        (1 | 5, _) => Illegal,
        _ => [Addi, Illegal, Slti, Sltiu, Xori, Illegal, Ori, Andi][f3],
    }
}

fn register_kind(f7: u32, f3: usize) -> Kind {
    match (f7, f3) {
        (0, _) => [Add, Sll, Slt, Sltu, Xor, Srl, Or, And][f3],
        (1, _) => [Mul, Mulh, Mulhsu, Mulhu, Div, Divu, Rem, Remu][f3],
        (32, 0) => Sub,
        (32, 5) => Sra,
        _ => Illegal,
    }
}

fn atomic_kind(code: u32, rs2: u32) -> Kind {
    match code {
        0b00010 if rs2 == 0 => LrW,
        0b00011 => ScW,
        0b00001 => AmoswapW,
        0b00000 => AmoaddW,
        0b00100 => AmoxorW,
        0b01100 => AmoandW,
        0b01000 => AmoorW,
        0b10000 => AmominW,
        0b10100 => AmomaxW,
        0b11000 => AmominuW,
        0b11100 => AmomaxuW,
        _ => Illegal,
    }
}
