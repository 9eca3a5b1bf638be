//! The walks of crates/parts_bench in plain Rust: the yardstick of this benchmark.
use std::time::Instant;

#[derive(Clone, Copy)]
#[allow(dead_code)]
enum Access {
    Fetch,
    Load,
    Store,
}

enum Fault {
    Page,
    Access,
}

const VALID: u32 = 1;
const READ: u32 = 2;
const WRITE: u32 = 4;
const EXECUTE: u32 = 8;
const USER: u32 = 16;
const ACCESSED: u32 = 64;
const DIRTY: u32 = 128;
const TABLE_PPN: u32 = 0x20_0000;

struct Tables(Vec<[u32; 1024]>);

impl Tables {
    fn walk(&mut self, address: u32, access: Access) -> Result<(u32, u64), Fault> {
        let mut table = 0;
        let mut index = (address >> 22) as usize;
        let mut word = self.0[table][index];
        if word & VALID == 0 || word & (READ | WRITE) == WRITE {
            return Err(Fault::Page);
        }
        let superpage = word & (READ | EXECUTE) != 0;
        if !superpage {
            if word & (USER | ACCESSED | DIRTY) != 0 {
                return Err(Fault::Page);
            }
            table = (word >> 10).checked_sub(TABLE_PPN).ok_or(Fault::Access)? as usize;
            if table >= self.0.len() {
                return Err(Fault::Access);
            }
            index = (address >> 12 & 1023) as usize;
            word = self.0[table][index];
            if word & VALID == 0 || word & (READ | WRITE) == WRITE || word & (READ | EXECUTE) == 0 {
                return Err(Fault::Page);
            }
        }
        let right = match access {
            Access::Fetch => EXECUTE,
            Access::Load => READ,
            Access::Store => WRITE,
        };
        if word & USER == 0 || word & right == 0 || superpage && word >> 10 & 1023 != 0 {
            return Err(Fault::Page);
        }
        word |= ACCESSED;
        if matches!(access, Access::Store) {
            word |= DIRTY;
        }
        self.0[table][index] = word;
        let physical = if superpage {
            (word as u64 >> 20) << 22 | (address & 0x3F_FFFF) as u64
        } else {
            (word as u64 >> 10) << 12 | (address & 0xFFF) as u64
        };
        Ok((word, physical))
    }

    fn map(&mut self, vpn: u32, ppn: u32) {
        let root = (vpn >> 10) as usize;
        if self.0[0][root] == 0 {
            self.0[0][root] = (TABLE_PPN + self.0.len() as u32) << 10 | VALID;
            self.0.push([0; 1024]);
        }
        let table = (self.0[0][root] >> 10) - TABLE_PPN;
        self.0[table as usize][(vpn & 1023) as usize] = ppn << 10 | VALID | USER | READ | WRITE;
    }
}

fn main() {
    let count: u32 = std::env::args().nth(1).map_or(1000, |n| n.parse().expect("a number of walks"));
    let mut tables = Tables(vec![[0; 1024]]);
    for vpn in 0..4096 {
        tables.map(vpn, vpn);
    }
    let start = Instant::now();
    let mut sum: u64 = 0;
    for i in 0..count {
        let address = i.wrapping_mul(0x9E37_79B1) >> 8;
        if let Ok((_, physical)) = tables.walk(address, Access::Load) {
            sum = sum.wrapping_add(physical);
        }
    }
    let elapsed = start.elapsed();
    println!("{sum}");
    eprintln!("{}", elapsed.as_nanos());
}
