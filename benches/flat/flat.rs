//! A plain Rust interpreter over one flat array with a byte of rights a page, matching on the word itself.
//!
//! There is no directory and no decoded instruction between the word and what it does; each access tests its page's rights.
mod interpreter;

use interpreter::Memory;

/// How far memory reaches: nothing is mapped from here on.
const TOP: usize = 0x8000_0000;

struct FlatArray {
    bytes: Vec<u8>,
    rights: Vec<u8>,
}

impl Memory for FlatArray {
    #[inline(always)]
    fn place(&mut self, address: u32, right: u8) -> Option<usize> {
        (self.rights[(address >> 12) as usize] & right != 0).then_some(address as usize)
    }

    #[inline(always)]
    fn bytes(&self) -> &[u8] {
        &self.bytes
    }

    #[inline(always)]
    fn bytes_mut(&mut self) -> &mut [u8] {
        &mut self.bytes
    }

    fn map(&mut self, page: u32, rights: u8) -> usize {
        self.rights[page as usize] |= rights;
        (page << 12) as usize
    }
}

fn main() {
    interpreter::play(FlatArray { bytes: vec![0; TOP], rights: vec![0; 1 << 20] });
}
