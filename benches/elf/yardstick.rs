//! Makes ELF files of 60,000 segments of one byte each, and loads such a file as plain Rust would.

use std::collections::BTreeMap;
use std::env::args;
use std::fs;

const SEGMENTS: u32 = 60_000;
const HEADER: usize = 52;
const SEGMENT_HEADER: usize = 32;

/// An executable whose k-th segment lies at the k-th address. All segments are the one byte behind the headers.
fn file_of(addresses: &[u32]) -> Vec<u8> {
    let entry = *addresses.iter().min().unwrap();
    let mut file = vec![0x7F, 0x45, 0x4C, 0x46, 1, 1, 1, 0, 0, 0, 0, 0, 0, 0, 0, 0];
    let halves = |file: &mut Vec<u8>, numbers: &[u16]| numbers.iter().for_each(|n| file.extend(n.to_le_bytes()));
    let words = |file: &mut Vec<u8>, numbers: &[u32]| numbers.iter().for_each(|n| file.extend(n.to_le_bytes()));
    halves(&mut file, &[2, 243]);
    words(&mut file, &[1, entry, HEADER as u32, 0, 0]);
    halves(&mut file, &[HEADER as u16, SEGMENT_HEADER as u16, addresses.len() as u16, 0, 0, 0]);
    let offset = (HEADER + SEGMENT_HEADER * addresses.len()) as u32;
    for address in addresses {
        words(&mut file, &[1, offset, *address, *address, 1, 1, 5, 4096]);
    }
    file.push(0x73);
    file
}

fn word_at(file: &[u8], offset: usize) -> u32 {
    u32::from_le_bytes(file[offset..offset + 4].try_into().unwrap())
}

/// The pages that a file loads, or nothing where two segments overlap: sorted by address, then copied one after another.
fn load(file: &[u8]) -> Option<BTreeMap<u32, [u8; 4096]>> {
    let start = word_at(file, 28) as usize;
    let count = u16::from_le_bytes([file[44], file[45]]) as usize;
    let mut segments: Vec<[u32; 8]> = (0..count)
        .map(|k| std::array::from_fn(|n| word_at(file, start + SEGMENT_HEADER * k + 4 * n)))
        .filter(|segment: &[u32; 8]| segment[0] == 1 && segment[5] > 0)
        .collect();
    segments.sort_by_key(|segment| segment[2]);
    if segments.windows(2).any(|pair| pair[0][2] + pair[0][5] > pair[1][2]) {
        return None;
    }
    let mut pages: BTreeMap<u32, [u8; 4096]> = BTreeMap::new();
    for [_, offset, address, _, in_file, in_memory, ..] in segments {
        for page in address / 4096..=(address + in_memory - 1) / 4096 {
            pages.entry(page).or_insert([0; 4096]);
        }
        for k in 0..in_file {
            let page = pages.get_mut(&((address + k) / 4096)).unwrap();
            page[((address + k) % 4096) as usize] = file[(offset + k) as usize];
        }
    }
    Some(pages)
}

fn main() {
    let words: Vec<String> = args().collect();
    match (words[1].as_str(), &words[2]) {
        ("rest", _) => {}
        ("make", folder) => {
            let dense: Vec<u32> = (0..SEGMENTS).map(|k| 0x1_0000 + k).collect();
            let spread: Vec<u32> = (0..SEGMENTS).map(|k| 0x1_0000 + k % 4000 * 4096 + k / 4000).collect();
            let falling: Vec<u32> = dense.iter().rev().copied().collect();
            for (name, addresses) in [("dense", dense), ("spread", spread), ("falling", falling)] {
                fs::write(format!("{folder}/{name}.elf"), file_of(&addresses)).unwrap();
            }
        }
        ("load", file) => println!("{} pages", load(&fs::read(file).unwrap()).unwrap().len()),
        _ => panic!("make FOLDER, load FILE, or rest -"),
    }
}
