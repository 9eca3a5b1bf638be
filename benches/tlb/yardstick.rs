//! The look-ups of crates/parts_bench in plain Rust: the yardstick of this benchmark.
use std::time::Instant;

#[derive(Clone, Copy)]
#[allow(dead_code)]
struct Translation {
    page: u32,
    place: usize,
    frame: u32,
    rights: u8,
    dirty: bool,
    doomed: bool,
}

struct Tlb {
    entries: Vec<Translation>,
    hints: [u8; 256],
}

impl Tlb {
    fn look(&self, page: u32) -> Option<Translation> {
        match self.entries.get(self.hints[page as usize % 256] as usize) {
            Some(entry) if entry.page == page => Some(*entry),
            _ => self.search(page),
        }
    }

    #[cold]
    fn search(&self, page: u32) -> Option<Translation> {
        self.entries.iter().find(|entry| entry.page == page).copied()
    }

    fn fill(&mut self, entry: Translation) {
        let place = match self.entries.iter().position(|old| old.page == entry.page) {
            Some(place) => {
                self.entries[place] = entry;
                place
            }
            None => {
                if self.entries.len() == 16 {
                    self.entries.remove(0);
                    self.hints.iter_mut().for_each(|place| *place = place.saturating_sub(1));
                }
                self.entries.push(entry);
                self.entries.len() - 1
            }
        };
        self.hints[entry.page as usize % 256] = place as u8;
    }
}

fn main() {
    let count: u32 = std::env::args().nth(1).map_or(1000, |n| n.parse().expect("a number of look-ups"));
    let mut cache = Tlb { entries: Vec::with_capacity(16), hints: [0; 256] };
    let start = Instant::now();
    let mut sum: u64 = 0;
    for i in 0..count {
        let page = match i % 4 {
            0 | 2 => 0x10 + i / 65536 % 4,
            1 => 0x20 + i / 16 % 8,
            _ => 0x7_FFFE + i / 64 % 2,
        };
        match cache.look(page) {
            Some(found) => sum = sum.wrapping_add(found.frame as u64).wrapping_add(found.place as u64),
            None => cache.fill(Translation {
                page,
                place: page as usize % 64,
                frame: page / 3,
                rights: 3,
                dirty: true,
                doomed: false,
            }),
        }
    }
    let elapsed = start.elapsed();
    println!("{sum}");
    eprintln!("{}", elapsed.as_nanos());
}
