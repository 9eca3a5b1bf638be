//! A plain Rust interpreter that translates by Sv32 page tables and a list of 16 translations, matching on the word itself.
//!
//! Fetches, loads and stores each try the entry that served last, then the list in turn (with `--cfg in_turn` the list in turn
//! alone), and walk the tables where no entry serves; a walk sets the accessed bit, and the dirty bit on a store, and the first
//! of 16 entries goes.
#![cfg_attr(in_turn, allow(dead_code))]
#[path = "../flat/interpreter.rs"]
mod interpreter;

use interpreter::{EXECUTE, Memory, READ, WRITE};

/// Bits of a leaf.
const VALID: u32 = 1;
const USER: u32 = 1 << 4;
const ACCESSED: u32 = 1 << 6;
const DIRTY: u32 = 1 << 7;

/// Where a page's bytes are.
#[derive(Clone, Copy)]
struct Translation {
    page: u32,
    base: u32,
    rights: u8,
    dirty: bool,
}

const NOTHING: Translation = Translation { page: u32::MAX, base: 0, rights: 0, dirty: false };

struct Tables {
    frames: Vec<u8>,
    tables: Vec<[u32; 1024]>,
    entries: [Translation; 16],
    oldest: usize,
    fetched: usize,
    loaded: usize,
    stored: usize,
}

impl Tables {
    /// Whether an entry serves: a store needs one that is known to be dirty.
    #[inline(always)]
    fn serves(&self, entry: usize, page: u32, right: u8) -> bool {
        let entry = &self.entries[entry & 15];
        entry.page == page && entry.rights & right != 0 && (right != WRITE || entry.dirty)
    }

    #[inline(never)]
    fn find(&mut self, page: u32, right: u8) -> Option<usize> {
        let entry = match (0..16).find(|&entry| self.serves(entry, page, right)) {
            Some(entry) => entry,
            None => self.walk(page, right)?,
        };
        match right {
            EXECUTE => self.fetched = entry,
            READ => self.loaded = entry,
            _ => self.stored = entry,
        }
        Some(entry)
    }

    /// The Sv32 walk: a leaf of the second level, whose accessed and dirty bits are set.
    fn walk(&mut self, page: u32, right: u8) -> Option<usize> {
        let pointer = self.tables[0][(page >> 10) as usize];
        if pointer & VALID == 0 {
            return None;
        }
        let leaf = &mut self.tables[(pointer >> 10 & 0xFFFF) as usize][(page & 1023) as usize];
        if *leaf & VALID == 0 || *leaf & USER == 0 || (*leaf >> 1) as u8 & right == 0 {
            return None;
        }
        *leaf |= ACCESSED;
        if right == WRITE {
            *leaf |= DIRTY;
        }
        let found = Translation {
            page,
            base: *leaf >> 10 << 12,
            rights: (*leaf >> 1) as u8 & 7,
            dirty: *leaf & DIRTY != 0,
        };
        let entry = match self.entries.iter().position(|entry| entry.page == page) {
            Some(entry) => entry,
            None => {
                let oldest = self.oldest;
                self.oldest = (oldest + 1) % 16;
                oldest
            }
        };
        self.entries[entry] = found;
        Some(entry)
    }
}

impl Memory for Tables {
    #[inline(always)]
    fn place(&mut self, address: u32, right: u8) -> Option<usize> {
        #[cfg(in_turn)]
        let entry = match (0..16).find(|&entry| self.serves(entry, address >> 12, right)) {
            Some(entry) => entry,
            None => self.walk(address >> 12, right)?,
        };
        #[cfg(not(in_turn))]
        let last = match right {
            EXECUTE => self.fetched,
            READ => self.loaded,
            _ => self.stored,
        };
        #[cfg(not(in_turn))]
        let entry = if self.serves(last, address >> 12, right) { last } else { self.find(address >> 12, right)? };
        Some((self.entries[entry & 15].base | address & 4095) as usize)
    }

    #[inline(always)]
    fn bytes(&self) -> &[u8] {
        &self.frames
    }

    #[inline(always)]
    fn bytes_mut(&mut self) -> &mut [u8] {
        &mut self.frames
    }

    fn map(&mut self, page: u32, rights: u8) -> usize {
        if self.tables[0][(page >> 10) as usize] == 0 {
            self.tables[0][(page >> 10) as usize] = (0x200000 + self.tables.len() as u32) << 10 | VALID;
            self.tables.push([0; 1024]);
        }
        let table = (self.tables[0][(page >> 10) as usize] >> 10 & 0xFFFF) as usize;
        let leaf = &mut self.tables[table][(page & 1023) as usize];
        if *leaf == 0 {
            *leaf = (self.frames.len() as u32 >> 12) << 10 | VALID | USER;
            self.frames.resize(self.frames.len() + 4096, 0);
        }
        *leaf |= u32::from(rights) << 1;
        (*leaf >> 10 << 12) as usize
    }
}

fn main() {
    interpreter::play(Tables {
        frames: Vec::new(),
        tables: vec![[0; 1024]],
        entries: [NOTHING; 16],
        oldest: 0,
        fetched: 0,
        loaded: 0,
        stored: 0,
    });
}
