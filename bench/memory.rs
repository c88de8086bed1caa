//! The memory of the fast interpreter: a table with an entry a page, which says what may be done there and where its bytes are.

use std::io::{Write, stderr, stdout};

const EXECUTE: u32 = 1;
const WRITE: u32 = 2;
const READ: u32 = 4;

/// The place of a page's bytes, in units of 8, with its flags below.
pub struct Memory {
    table: Box<[u32; 1 << 20]>,
    bytes: Vec<u8>,
}

impl Memory {
    /// The segments of an executable and a stack; the end of the last segment, and the first range of code.
    /// It panics where the file is malformed.
    pub fn of(file: &[u8]) -> (Memory, u32, [u32; 2]) {
        let half = |at: usize| u16::from_le_bytes([file[at], file[at + 1]]) as usize;
        let word = |at: usize| u32::from_le_bytes(file[at..at + 4].try_into().unwrap());
        assert!(file.starts_with(b"\x7fELF\x01\x01") && half(16) == 2 && half(18) == 243);
        let mut memory = Memory {
            table: vec![0; 1 << 20].try_into().unwrap(),
            bytes: Vec::new(),
        };
        let (mut end, mut code) = (0, [0, 0]);
        for header in (0..half(44)).map(|k| word(28) as usize + 32 * k) {
            if word(header) != 1 {
                continue;
            }
            let [from, at, _, file_size, size, flags] =
                [1, 2, 3, 4, 5, 6].map(|n| word(header + 4 * n));
            memory.map(at, at + size, flags);
            for (k, byte) in file[from as usize..(from + file_size) as usize]
                .iter()
                .enumerate()
            {
                let place = memory.place(at + k as u32);
                memory.bytes[place] = *byte;
            }
            end = end.max((at + size).next_multiple_of(4096));
            if flags & EXECUTE != 0 && code == [0, 0] {
                code = [at / 4096 * 4096, (at + size).next_multiple_of(4096)];
            }
        }
        memory.map(0x7fe0_0000, 0x7fff_f000, READ | WRITE);
        (memory, end, code)
    }

    /// Maps the pages of a range, as far as they are not.
    fn map(&mut self, from: u32, to: u32, flags: u32) {
        for page in from / 4096..to.div_ceil(4096) {
            if self.table[page as usize] == 0 {
                self.table[page as usize] = self.bytes.len() as u32 | flags;
                self.bytes.resize(self.bytes.len() + 4096, 0);
            }
        }
    }

    /// Moves the end of the heap, if it may lie there.
    pub fn grow(&mut self, from: u32, to: u32) -> bool {
        let grows = to >= from && to < 0x4000_0000;
        if grows {
            self.map(from.next_multiple_of(4096), to, READ | WRITE);
        }
        grows
    }

    #[inline(always)]
    fn place(&self, at: u32) -> usize {
        (self.table[(at >> 12) as usize] & !7) as usize + (at & 4095) as usize
    }

    #[inline(always)]
    fn is_permitted(&self, flag: u32, at: u32) -> bool {
        self.table[(at >> 12) as usize] & flag != 0
    }

    /// The number at an address whose bytes may be read.
    #[inline(always)]
    pub fn load<const N: usize>(&self, at: u32) -> Option<[u8; N]> {
        if at & 4095 > 4096 - N as u32 {
            return self.load_across(at);
        }
        if !self.is_permitted(READ, at) {
            return None;
        }
        let place = self.place(at);
        self.bytes[place..place + N].try_into().ok()
    }

    #[inline(never)]
    fn load_across<const N: usize>(&self, at: u32) -> Option<[u8; N]> {
        let mut bytes = [0; N];
        for (k, byte) in bytes.iter_mut().enumerate() {
            let at = at.wrapping_add(k as u32);
            if !self.is_permitted(READ, at) {
                return None;
            }
            *byte = self.bytes[self.place(at)];
        }
        Some(bytes)
    }

    /// Stores bytes, if they may be written.
    #[inline(always)]
    pub fn store<const N: usize>(&mut self, at: u32, bytes: [u8; N]) -> bool {
        if at & 4095 > 4096 - N as u32 {
            return self.store_across(at, bytes);
        }
        if !self.is_permitted(WRITE, at) {
            return false;
        }
        let place = self.place(at);
        self.bytes[place..place + N].copy_from_slice(&bytes);
        true
    }

    #[inline(never)]
    fn store_across<const N: usize>(&mut self, at: u32, bytes: [u8; N]) -> bool {
        let is_at = |k: usize| at.wrapping_add(k as u32);
        if !(0..N).all(|k| self.is_permitted(WRITE, is_at(k))) {
            return false;
        }
        for (k, byte) in bytes.iter().enumerate() {
            let place = self.place(is_at(k));
            self.bytes[place] = *byte;
        }
        true
    }

    /// Writes a range to the standard output or error.
    pub fn print(&self, port: u32, at: u32, len: u32) -> u32 {
        let bytes: Option<Vec<u8>> = (0..len)
            .map(|k| self.load(at.wrapping_add(k)).map(|[byte]| byte))
            .collect();
        let Some(bytes) = bytes else {
            return -14i32 as u32;
        };
        let written = match port {
            1 => stdout().write_all(&bytes),
            2 => stderr().write_all(&bytes),
            _ => return -9i32 as u32,
        };
        written.map_or(-5i32 as u32, |()| len)
    }
}
