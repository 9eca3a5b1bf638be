//! An interpreter in plain Rust that matches on the word itself, over any memory: what the yardsticks of two benchmarks share.
#[path = "elf.rs"]
mod elf;

pub use elf::{EXECUTE, READ, WRITE};
use std::io::Write;

/// Where the bytes of an address are, and who may use them.
pub trait Memory {
    /// The place of an address among the bytes, where its page has the right.
    fn place(&mut self, address: u32, right: u8) -> Option<usize>;

    fn bytes(&self) -> &[u8];

    fn bytes_mut(&mut self) -> &mut [u8];

    /// Maps a page of zeros, or adds rights to one that is mapped; answers where its first byte is.
    fn map(&mut self, page: u32, rights: u8) -> usize;
}

enum End {
    Exited(u32),
    Trap(u32, u32),
}

// Registers first, in reach of short displacements, and a loop that stands by itself: measured to be the fastest form.
#[repr(C)]
struct Machine<M> {
    x: [u32; 32],
    pc: u32,
    memory: M,
    output: Vec<u8>,
}

impl<M: Memory> Machine<M> {
    #[inline(always)]
    fn at<const N: usize>(&self, place: usize) -> [u8; N] {
        self.memory.bytes()[place..place + N].try_into().unwrap()
    }

    #[inline(always)]
    fn load<const N: usize>(&mut self, address: u32) -> Result<[u8; N], End> {
        if address % N as u32 != 0 {
            return Err(End::Trap(4, address));
        }
        match self.memory.place(address, READ) {
            Some(place) => Ok(self.at(place)),
            None => Err(End::Trap(13, address)),
        }
    }

    #[inline(always)]
    fn store<const N: usize>(&mut self, address: u32, value: [u8; N]) -> Result<(), End> {
        if address % N as u32 != 0 {
            return Err(End::Trap(6, address));
        }
        let Some(place) = self.memory.place(address, WRITE) else {
            return Err(End::Trap(15, address));
        };
        self.memory.bytes_mut()[place..place + N].copy_from_slice(&value);
        Ok(())
    }

    #[inline(always)]
    fn set(&mut self, rd: usize, value: u32) {
        if rd != 0 {
            self.x[rd] = value;
        }
    }

    #[inline(always)]
    fn jump(&mut self, rd: usize, target: u32) -> Result<(), End> {
        if target % 4 != 0 {
            return Err(End::Trap(0, target));
        }
        self.set(rd, self.pc.wrapping_add(4));
        self.pc = target;
        Ok(())
    }

    #[inline(never)]
    fn run(&mut self) -> (End, u64) {
        let mut steps = 0;
        loop {
            steps += 1;
            if let Err(end) = self.step() {
                return (end, steps);
            }
        }
    }

    #[inline(always)]
    fn step(&mut self) -> Result<(), End> {
        let pc = self.pc;
        if pc % 4 != 0 {
            return Err(End::Trap(0, pc));
        }
        let Some(place) = self.memory.place(pc, EXECUTE) else {
            return Err(End::Trap(12, pc));
        };
        let word = u32::from_le_bytes(self.at(place));
        let rd = (word >> 7 & 31) as usize;
        let a = self.x[(word >> 15 & 31) as usize];
        let b = self.x[(word >> 20 & 31) as usize];
        let i = (word as i32 >> 20) as u32;
        let illegal = Err(End::Trap(2, word));
        let value = match word & 127 {
            0x37 => word & 0xFFFF_F000,
            0x17 => pc.wrapping_add(word & 0xFFFF_F000),
            0x6F => {
                let sign = ((word as i32 >> 31) as u32) << 20;
                let offset = sign | (word >> 12 & 0xFF) << 12 | (word >> 20 & 1) << 11 | (word >> 21 & 0x3FF) << 1;
                return self.jump(rd, pc.wrapping_add(offset));
            }
            0x67 if word >> 12 & 7 == 0 => return self.jump(rd, a.wrapping_add(i) & !1),
            0x63 => {
                let taken = match word >> 12 & 7 {
                    0 => a == b,
                    1 => a != b,
                    4 => (a as i32) < b as i32,
                    5 => a as i32 >= b as i32,
                    6 => a < b,
                    7 => a >= b,
                    _ => return illegal,
                };
                if taken {
                    let sign = ((word as i32 >> 31) as u32) << 12;
                    let offset = sign | (word >> 7 & 1) << 11 | (word >> 25 & 0x3F) << 5 | (word >> 8 & 15) << 1;
                    return self.jump(0, pc.wrapping_add(offset));
                }
                self.pc = pc.wrapping_add(4);
                return Ok(());
            }
            0x03 => {
                let address = a.wrapping_add(i);
                match word >> 12 & 7 {
                    0 => i8::from_le_bytes(self.load(address)?) as u32,
                    1 => i16::from_le_bytes(self.load(address)?) as u32,
                    2 => u32::from_le_bytes(self.load(address)?),
                    4 => u8::from_le_bytes(self.load(address)?).into(),
                    5 => u16::from_le_bytes(self.load(address)?).into(),
                    _ => return illegal,
                }
            }
            0x23 => {
                let address = a.wrapping_add(((word as i32 >> 25) as u32) << 5 | (word >> 7 & 31));
                match word >> 12 & 7 {
                    0 => self.store(address, (b as u8).to_le_bytes())?,
                    1 => self.store(address, (b as u16).to_le_bytes())?,
                    2 => self.store(address, b.to_le_bytes())?,
                    _ => return illegal,
                }
                self.pc = pc.wrapping_add(4);
                return Ok(());
            }
            0x13 => match (word >> 12 & 7, word >> 25) {
                (0, _) => a.wrapping_add(i),
                (2, _) => ((a as i32) < i as i32).into(),
                (3, _) => (a < i).into(),
                (4, _) => a ^ i,
                (6, _) => a | i,
                (7, _) => a & i,
                (1, 0) => a << (i & 31),
                (5, 0) => a >> (i & 31),
                (5, 0x20) => (a as i32 >> (i & 31)) as u32,
                _ => return illegal,
            },
            0x33 => match (word >> 12 & 7, word >> 25) {
                (0, 0) => a.wrapping_add(b),
                (0, 0x20) => a.wrapping_sub(b),
                (1, 0) => a << (b & 31),
                (2, 0) => ((a as i32) < b as i32).into(),
                (3, 0) => (a < b).into(),
                (4, 0) => a ^ b,
                (5, 0) => a >> (b & 31),
                (5, 0x20) => (a as i32 >> (b & 31)) as u32,
                (6, 0) => a | b,
                (7, 0) => a & b,
                (0, 1) => a.wrapping_mul(b),
                (1, 1) => (i64::from(a as i32) * i64::from(b as i32) >> 32) as u32,
                (2, 1) => (i64::from(a as i32) * i64::from(b) >> 32) as u32,
                (3, 1) => (u64::from(a) * u64::from(b) >> 32) as u32,
                (4, 1) if b == 0 => u32::MAX,
                (4, 1) => (a as i32).wrapping_div(b as i32) as u32,
                (5, 1) => a.checked_div(b).unwrap_or(u32::MAX),
                (6, 1) if b == 0 => a,
                (6, 1) => (a as i32).wrapping_rem(b as i32) as u32,
                (7, 1) => a.checked_rem(b).unwrap_or(a),
                _ => return illegal,
            },
            0x0F if word >> 12 & 7 == 0 => {
                self.pc = pc.wrapping_add(4);
                return Ok(());
            }
            0x73 if word == 0x73 => {
                self.call()?;
                self.pc = pc.wrapping_add(4);
                return Ok(());
            }
            0x73 if word == 0x0010_0073 => return Err(End::Trap(3, pc)),
            _ => return illegal,
        };
        self.set(rd, value);
        self.pc = pc.wrapping_add(4);
        Ok(())
    }

    #[cold]
    fn call(&mut self) -> Result<(), End> {
        match self.x[17] {
            94 => return Err(End::Exited(self.x[10])),
            64 => {
                let (address, length) = (self.x[11], self.x[12] as usize);
                let count = length.min(4096 - (address & 4095) as usize);
                self.x[10] = if count == 0 {
                    0
                } else if let Some(place) = self.memory.place(address, READ) {
                    self.output.extend_from_slice(&self.memory.bytes()[place..place + count]);
                    count as u32
                } else {
                    (-14i32) as u32
                };
            }
            _ => self.x[10] = (-38i32) as u32,
        }
        Ok(())
    }
}

/// Runs the program in the ELF file that the command line names, and prints its process lines.
pub fn play<M: Memory>(memory: M) {
    let path = std::env::args().nth(1).expect("an ELF file");
    let (entry, segments) = elf::read(&path);
    let mut machine = Machine { x: [0; 32], pc: entry, memory, output: Vec::new() };
    for segment in &segments {
        for page in segment.pages() {
            machine.memory.map(page, segment.rights);
        }
        for (address, byte) in (segment.address..).zip(&segment.bytes) {
            let base = machine.memory.map(address >> 12, 0);
            machine.memory.bytes_mut()[base | (address & 4095) as usize] = *byte;
        }
    }
    for page in 0x7_FFC0..0x8_0000 {
        machine.memory.map(page, READ | WRITE);
    }
    machine.x[2] = 0x7FFF_FFF0;
    let (end, steps) = machine.run();
    let mut out = std::io::stdout();
    write!(out, "process 0 output {}\n", machine.output.len()).unwrap();
    out.write_all(&machine.output).unwrap();
    match end {
        End::Exited(status) => write!(out, "\nprocess 0 exited {status} after {steps} steps\n"),
        End::Trap(cause, value) => {
            let pc = machine.pc;
            write!(out, "\nprocess 0 trap {cause} hart 0 pc 0x{pc:08X} value 0x{value:08X} after {steps} steps\n")
        }
    }
    .unwrap();
}
