//! A plain Rust interpreter: pages behind a directory, words made into an enum first.
//!
//! It decodes each word anew, matches on the decoded instruction, checks a page's rights for each
//! access, and keeps no cache of decoded instructions.
mod elf;

use elf::{EXECUTE, READ, WRITE};
use std::io::Write;

struct Page {
    rights: u8,
    bytes: Box<[u8; 4096]>,
}

struct Memory {
    leaves: Vec<Option<Box<[u32; 1024]>>>,
    pages: Vec<Page>,
}

#[derive(Clone, Copy)]
enum Fault {
    Misaligned,
    Page,
}

impl Memory {
    fn new() -> Self {
        Memory { leaves: (0..1024).map(|_| None).collect(), pages: Vec::new() }
    }

    fn map(&mut self, number: u32, rights: u8) -> &mut Page {
        let leaf = self.leaves[(number >> 10) as usize].get_or_insert_with(|| Box::new([0; 1024]));
        self.pages.push(Page { rights, bytes: Box::new([0; 4096]) });
        leaf[(number & 1023) as usize] = self.pages.len() as u32;
        self.pages.last_mut().unwrap()
    }

    fn page(&self, address: u32, right: u8) -> Result<&Page, Fault> {
        let leaf = self.leaves[(address >> 22) as usize].as_ref().ok_or(Fault::Page)?;
        match leaf[(address >> 12 & 1023) as usize] {
            0 => Err(Fault::Page),
            place => {
                let page = &self.pages[place as usize - 1];
                if page.rights & right == right { Ok(page) } else { Err(Fault::Page) }
            }
        }
    }

    fn page_mut(&mut self, address: u32, right: u8) -> Result<&mut Page, Fault> {
        let leaf = self.leaves[(address >> 22) as usize].as_ref().ok_or(Fault::Page)?;
        match leaf[(address >> 12 & 1023) as usize] {
            0 => Err(Fault::Page),
            place => {
                let page = &mut self.pages[place as usize - 1];
                if page.rights & right == right { Ok(page) } else { Err(Fault::Page) }
            }
        }
    }

    fn load(&self, address: u32, width: Width) -> Result<u32, Fault> {
        if address % width.bytes() != 0 {
            return Err(Fault::Misaligned);
        }
        let page = self.page(address, READ)?;
        let offset = (address & 4095) as usize;
        Ok(match width {
            Width::Byte => page.bytes[offset].into(),
            Width::Half => u16::from_le_bytes(page.bytes[offset..offset + 2].try_into().unwrap()).into(),
            Width::Word => u32::from_le_bytes(page.bytes[offset..offset + 4].try_into().unwrap()),
        })
    }

    fn store(&mut self, address: u32, width: Width, value: u32) -> Result<(), Fault> {
        if address % width.bytes() != 0 {
            return Err(Fault::Misaligned);
        }
        let page = self.page_mut(address, WRITE)?;
        let offset = (address & 4095) as usize;
        match width {
            Width::Byte => page.bytes[offset] = value as u8,
            Width::Half => page.bytes[offset..offset + 2].copy_from_slice(&(value as u16).to_le_bytes()),
            Width::Word => page.bytes[offset..offset + 4].copy_from_slice(&value.to_le_bytes()),
        }
        Ok(())
    }

    fn fetch(&self, address: u32) -> Result<u32, Fault> {
        if address % 4 != 0 {
            return Err(Fault::Misaligned);
        }
        let page = self.page(address, EXECUTE)?;
        let offset = (address & 4095) as usize;
        Ok(u32::from_le_bytes(page.bytes[offset..offset + 4].try_into().unwrap()))
    }
}

#[derive(Clone, Copy)]
enum Width { Byte, Half, Word }

impl Width {
    fn bytes(self) -> u32 {
        match self {
            Width::Byte => 1,
            Width::Half => 2,
            Width::Word => 4,
        }
    }
}

#[derive(Clone, Copy)]
enum Branch { Eq, Ne, Lt, Ge, Ltu, Geu }

#[derive(Clone, Copy)]
enum Alu { Add, Sub, Sll, Slt, Sltu, Xor, Srl, Sra, Or, And, Mul, Mulh, Mulhsu, Mulhu, Div, Divu, Rem, Remu }

#[derive(Clone, Copy)]
enum Insn {
    Lui { rd: u8, value: u32 },
    Auipc { rd: u8, value: u32 },
    Jal { rd: u8, offset: u32 },
    Jalr { rd: u8, rs1: u8, offset: u32 },
    Branch { kind: Branch, rs1: u8, rs2: u8, offset: u32 },
    Load { width: Width, signed: bool, rd: u8, rs1: u8, offset: u32 },
    Store { width: Width, rs1: u8, rs2: u8, offset: u32 },
    Immediate { kind: Alu, rd: u8, rs1: u8, value: u32 },
    Op { kind: Alu, rd: u8, rs1: u8, rs2: u8 },
    Ecall,
    Ebreak,
}

fn decode(word: u32) -> Option<Insn> {
    let rd = (word >> 7 & 31) as u8;
    let rs1 = (word >> 15 & 31) as u8;
    let rs2 = (word >> 20 & 31) as u8;
    let funct3 = word >> 12 & 7;
    let funct7 = word >> 25;
    let i = (word as i32 >> 20) as u32;
    Some(match word & 127 {
        0b0110111 => Insn::Lui { rd, value: word & 0xFFFF_F000 },
        0b0010111 => Insn::Auipc { rd, value: word & 0xFFFF_F000 },
        0b1101111 => Insn::Jal {
            rd,
            offset: ((word as i32 >> 31) as u32) << 20 | (word >> 12 & 0xFF) << 12 | (word >> 20 & 1) << 11 | (word >> 21 & 0x3FF) << 1,
        },
        0b1100111 if funct3 == 0 => Insn::Jalr { rd, rs1, offset: i },
        0b1100011 => Insn::Branch {
            kind: match funct3 {
                0 => Branch::Eq,
                1 => Branch::Ne,
                4 => Branch::Lt,
                5 => Branch::Ge,
                6 => Branch::Ltu,
                7 => Branch::Geu,
                _ => return None,
            },
            rs1,
            rs2,
            offset: ((word as i32 >> 31) as u32) << 12 | (word >> 7 & 1) << 11 | (word >> 25 & 0x3F) << 5 | (word >> 8 & 15) << 1,
        },
        0b0000011 => {
            let (width, signed) = match funct3 {
                0 => (Width::Byte, true),
                1 => (Width::Half, true),
                2 => (Width::Word, false),
                4 => (Width::Byte, false),
                5 => (Width::Half, false),
                _ => return None,
            };
            Insn::Load { width, signed, rd, rs1, offset: i }
        }
        0b0100011 => Insn::Store {
            width: match funct3 {
                0 => Width::Byte,
                1 => Width::Half,
                2 => Width::Word,
                _ => return None,
            },
            rs1,
            rs2,
            offset: ((word as i32 >> 25) as u32) << 5 | (word >> 7 & 31),
        },
        0b0010011 => {
            let kind = match (funct3, funct7) {
                (0, _) => Alu::Add,
                (2, _) => Alu::Slt,
                (3, _) => Alu::Sltu,
                (4, _) => Alu::Xor,
                (6, _) => Alu::Or,
                (7, _) => Alu::And,
                (1, 0) => return Some(Insn::Immediate { kind: Alu::Sll, rd, rs1, value: rs2.into() }),
                (5, 0) => return Some(Insn::Immediate { kind: Alu::Srl, rd, rs1, value: rs2.into() }),
                (5, 0b0100000) => return Some(Insn::Immediate { kind: Alu::Sra, rd, rs1, value: rs2.into() }),
                _ => return None,
            };
            Insn::Immediate { kind, rd, rs1, value: i }
        }
        0b0110011 => Insn::Op {
            kind: match (funct3, funct7) {
                (0, 0) => Alu::Add,
                (0, 0b0100000) => Alu::Sub,
                (1, 0) => Alu::Sll,
                (2, 0) => Alu::Slt,
                (3, 0) => Alu::Sltu,
                (4, 0) => Alu::Xor,
                (5, 0) => Alu::Srl,
                (5, 0b0100000) => Alu::Sra,
                (6, 0) => Alu::Or,
                (7, 0) => Alu::And,
                (0, 1) => Alu::Mul,
                (1, 1) => Alu::Mulh,
                (2, 1) => Alu::Mulhsu,
                (3, 1) => Alu::Mulhu,
                (4, 1) => Alu::Div,
                (5, 1) => Alu::Divu,
                (6, 1) => Alu::Rem,
                (7, 1) => Alu::Remu,
                _ => return None,
            },
            rd,
            rs1,
            rs2,
        },
        0b1110011 if word == 0x73 => Insn::Ecall,
        0b1110011 if word == 0x0010_0073 => Insn::Ebreak,
        _ => return None,
    })
}

fn alu(kind: Alu, a: u32, b: u32) -> u32 {
    match kind {
        Alu::Add => a.wrapping_add(b),
        Alu::Sub => a.wrapping_sub(b),
        Alu::Sll => a << (b & 31),
        Alu::Slt => ((a as i32) < b as i32).into(),
        Alu::Sltu => (a < b).into(),
        Alu::Xor => a ^ b,
        Alu::Srl => a >> (b & 31),
        Alu::Sra => (a as i32 >> (b & 31)) as u32,
        Alu::Or => a | b,
        Alu::And => a & b,
        Alu::Mul => a.wrapping_mul(b),
        Alu::Mulh => (i64::from(a as i32) * i64::from(b as i32) >> 32) as u32,
        Alu::Mulhsu => (i64::from(a as i32) * i64::from(b) >> 32) as u32,
        Alu::Mulhu => (u64::from(a) * u64::from(b) >> 32) as u32,
        Alu::Div if b == 0 => u32::MAX,
        Alu::Div => (a as i32).wrapping_div(b as i32) as u32,
        Alu::Divu => a.checked_div(b).unwrap_or(u32::MAX),
        Alu::Rem if b == 0 => a,
        Alu::Rem => (a as i32).wrapping_rem(b as i32) as u32,
        Alu::Remu => a.checked_rem(b).unwrap_or(a),
    }
}

enum End {
    Exited(u32),
    Trap(u32, u32),
}

struct Machine {
    x: [u32; 32],
    pc: u32,
    memory: Memory,
    output: Vec<u8>,
}

impl Machine {
    fn set(&mut self, rd: u8, value: u32) {
        if rd != 0 {
            self.x[rd as usize] = value;
        }
    }

    fn jump(&mut self, rd: u8, target: u32) -> Option<End> {
        if target % 4 != 0 {
            return Some(End::Trap(0, target));
        }
        self.set(rd, self.pc.wrapping_add(4));
        self.pc = target;
        None
    }

    fn step(&mut self) -> Option<End> {
        let word = match self.memory.fetch(self.pc) {
            Ok(word) => word,
            Err(Fault::Misaligned) => return Some(End::Trap(0, self.pc)),
            Err(Fault::Page) => return Some(End::Trap(12, self.pc)),
        };
        let Some(insn) = decode(word) else {
            return Some(End::Trap(2, word));
        };
        match insn {
            Insn::Lui { rd, value } => self.set(rd, value),
            Insn::Auipc { rd, value } => self.set(rd, self.pc.wrapping_add(value)),
            Insn::Jal { rd, offset } => return self.jump(rd, self.pc.wrapping_add(offset)),
            Insn::Jalr { rd, rs1, offset } => {
                let target = self.x[rs1 as usize].wrapping_add(offset) & !1;
                return self.jump(rd, target);
            }
            Insn::Branch { kind, rs1, rs2, offset } => {
                let (a, b) = (self.x[rs1 as usize], self.x[rs2 as usize]);
                let taken = match kind {
                    Branch::Eq => a == b,
                    Branch::Ne => a != b,
                    Branch::Lt => (a as i32) < b as i32,
                    Branch::Ge => a as i32 >= b as i32,
                    Branch::Ltu => a < b,
                    Branch::Geu => a >= b,
                };
                if taken {
                    return self.jump(0, self.pc.wrapping_add(offset));
                }
            }
            Insn::Load { width, signed, rd, rs1, offset } => {
                let address = self.x[rs1 as usize].wrapping_add(offset);
                match self.memory.load(address, width) {
                    Ok(value) => {
                        let value = match width {
                            Width::Byte if signed => value as i8 as u32,
                            Width::Half if signed => value as i16 as u32,
                            _ => value,
                        };
                        self.set(rd, value);
                    }
                    Err(Fault::Misaligned) => return Some(End::Trap(4, address)),
                    Err(Fault::Page) => return Some(End::Trap(13, address)),
                }
            }
            Insn::Store { width, rs1, rs2, offset } => {
                let address = self.x[rs1 as usize].wrapping_add(offset);
                match self.memory.store(address, width, self.x[rs2 as usize]) {
                    Ok(()) => {}
                    Err(Fault::Misaligned) => return Some(End::Trap(6, address)),
                    Err(Fault::Page) => return Some(End::Trap(15, address)),
                }
            }
            Insn::Immediate { kind, rd, rs1, value } => self.set(rd, alu(kind, self.x[rs1 as usize], value)),
            Insn::Op { kind, rd, rs1, rs2 } => self.set(rd, alu(kind, self.x[rs1 as usize], self.x[rs2 as usize])),
            Insn::Ecall => {
                let end = self.call();
                self.pc = self.pc.wrapping_add(4);
                return end;
            }
            Insn::Ebreak => return Some(End::Trap(3, self.pc)),
        }
        self.pc = self.pc.wrapping_add(4);
        None
    }

    fn call(&mut self) -> Option<End> {
        match self.x[17] {
            94 => return Some(End::Exited(self.x[10])),
            64 => {
                let (address, length) = (self.x[11], self.x[12]);
                let offset = (address & 4095) as usize;
                let count = (length as usize).min(4096 - offset);
                self.x[10] = if length == 0 {
                    0
                } else if let Ok(page) = self.memory.page(address, READ) {
                    self.output.extend_from_slice(&page.bytes[offset..offset + count]);
                    count as u32
                } else {
                    (-14i32) as u32
                };
            }
            _ => self.x[10] = (-38i32) as u32,
        }
        None
    }
}

fn main() {
    let path = std::env::args().nth(1).expect("an ELF file");
    let (entry, segments) = elf::read(&path);
    let mut machine = Machine { x: [0; 32], pc: entry, memory: Memory::new(), output: Vec::new() };
    for segment in &segments {
        for number in segment.pages() {
            machine.memory.map(number, segment.rights);
        }
        for (address, byte) in (segment.address..).zip(&segment.bytes) {
            machine.memory.page_mut(address, segment.rights).ok().unwrap().bytes[(address & 4095) as usize] = *byte;
        }
    }
    for number in 0x7_FFC0..0x8_0000 {
        machine.memory.map(number, READ | WRITE);
    }
    machine.x[2] = 0x7FFF_FFF0;
    let mut steps = 0u64;
    let end = loop {
        steps += 1;
        if let Some(end) = machine.step() {
            break end;
        }
    };
    let mut out = std::io::stdout();
    write!(out, "process 0 output {}\n", machine.output.len()).unwrap();
    out.write_all(&machine.output).unwrap();
    match end {
        End::Exited(status) => write!(out, "\nprocess 0 exited {status} after {steps} steps\n"),
        End::Trap(cause, value) => {
            let pc = machine.pc;
            write!(out, "\nprocess 0 trap {cause} hart 0 pc 0x{pc:08X} value 0x{value:08X} after {steps} steps\n")
        }
    }
    .unwrap();
}
