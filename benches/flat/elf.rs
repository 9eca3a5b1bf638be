//! Just enough of ELF to load the guests of this benchmark.

pub const READ: u8 = 1;
pub const WRITE: u8 = 2;
pub const EXECUTE: u8 = 4;

/// Bytes at an address, with zeros behind them up to `size`.
pub struct Segment {
    pub address: u32,
    pub size: u32,
    pub bytes: Vec<u8>,
    pub rights: u8,
}

impl Segment {
    /// The numbers of the pages that it touches.
    pub fn pages(&self) -> std::ops::Range<u32> {
        self.address >> 12..(self.address + self.size + 4095) >> 12
    }
}

/// The entry and the segments that are loaded.
pub fn read(path: &str) -> (u32, Vec<Segment>) {
    let file = std::fs::read(path).expect("readable");
    let half = |at: usize| u16::from_le_bytes(file[at..at + 2].try_into().unwrap());
    let word = |at: usize| u32::from_le_bytes(file[at..at + 4].try_into().unwrap());
    let mut segments = Vec::new();
    for k in 0..half(44) as usize {
        let header = word(28) as usize + 32 * k;
        if word(header) != 1 {
            continue;
        }
        let (from, count, flags) = (word(header + 4) as usize, word(header + 16) as usize, word(header + 24));
        let mut rights = 0;
        for (flag, right) in [(4, READ), (2, WRITE), (1, EXECUTE)] {
            if flags & flag != 0 {
                rights |= right;
            }
        }
        segments.push(Segment {
            address: word(header + 8),
            size: word(header + 20),
            bytes: file[from..from + count].to_vec(),
            rights,
        });
    }
    (word(24), segments)
}
