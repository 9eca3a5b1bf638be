//! Runs a guest on flat memory or on paged memory by the plain code: flat GUEST.elf, or serial FRAMES SLICE GUEST.elf..
//! [INPUT]. It prints the output's length, the steps, and the time of the run alone.
use rattle::alloc::Global;
use rattle::marker::Brand;
use rattle::prelude::Vec as RoomyVec;
use rattle::sync::ledger::Blank;

#[repr(C)]
struct Time {
    seconds: i64,
    nanoseconds: i64,
}

unsafe extern "C" {
    fn clock_gettime(clock: i32, time: *mut Time) -> i32;
}

/// The seconds of processor time that this process has taken.
fn processor_time() -> f64 {
    let mut time = Time { seconds: 0, nanoseconds: 0 };
    unsafe { clock_gettime(2, &mut time) };
    time.seconds as f64 + time.nanoseconds as f64 * 1e-9
}

fn roomy<T>(items: Vec<T>) -> RoomyVec<T> {
    let mut all = RoomyVec::new(Global);
    for item in items {
        all.push(item).unwrap();
    }
    all
}

fn image(path: &str) -> elf_image::Image {
    elf_image::read_elf(Global, &std::fs::read(path).unwrap()).unwrap()
}

/// Goes to the end with no point, with a break that is never met, or with a watch of the stack's last word.
fn debug<T: debug_core::Target>(name: &str, point: &str, target: T) {
    let mut debugger = debug_core::Debugger::new(target);
    match point {
        "break" => {
            debugger.add_break(0xFFFF_FFFC).ok().unwrap();
        }
        "watch" => {
            debugger.add_watch(0x7FFF_FFFC, 4).ok().unwrap();
        }
        _ => {}
    }
    let begin = processor_time();
    let (why, steps, _) = debugger.go(1_000_000_000).unwrap();
    println!("debug {name} {point} {why:?} steps {steps} seconds {:.3}", processor_time() - begin);
}

fn hash(bytes: &[u8]) -> u64 {
    bytes.iter().fold(0xcbf2_9ce4_8422_2325, |sum, byte| (sum ^ *byte as u64).wrapping_mul(0x100_0000_01b3))
}

fn main() {
    let words: Vec<String> = std::env::args().skip(1).collect();
    let words: Vec<&str> = words.iter().map(|word| word.as_str()).collect();
    let limit: u64 = std::env::var("LIMIT").ok().and_then(|text| text.parse().ok()).unwrap_or(1_000_000_000);
    let none = || roomy(Vec::<u8>::new());
    match words[..] {
        ["flat", guest] => {
            let mut process = flat_machine::FlatProcess::new(Global, &image(guest), none()).unwrap();
            let begin = processor_time();
            let steps = process.run_for(limit).ok().unwrap();
            let seconds = processor_time() - begin;
            println!("flat output {} hash {:x} end {:?} steps {steps} seconds {seconds:.3}", process.output().len(), hash(process.output()), process.end());
        }
        ["serial", frames, slice, ref guests @ ..] if !guests.is_empty() => {
            let frames: u32 = frames.parse().unwrap();
            let slots = roomy((0..4096).map(|_| swap_slots::MemorySlot::new(Global).ok().unwrap()).collect());
            let processes = roomy(guests.iter().map(|guest| (image(guest), none())).collect());
            let mut core: machine_core::Core<Brand, swap_slots::MemorySlot, clock_ring::ClockRing> =
                machine_core::Core::new(Global, frames, Blank::new(0), slots, processes).ok().unwrap();
            let begin = processor_time();
            let report = serial_driver::run_serial(Global, &mut core, slice.parse().unwrap(), limit).unwrap();
            let seconds = processor_time() - begin;
            let first = &report.processes[0];
            println!(
                "serial output {} hash {:x} end {:?} steps {} page-ins {} victims {} saves {} audit {} seconds {seconds:.3}",
                first.output.len(), hash(&first.output), first.end, first.steps, report.page_ins, report.victims, report.saves, report.audit
            );
        }
        ["debug", point, guest] => {
            let process = flat_machine::FlatProcess::new(Global, &image(guest), none()).unwrap();
            debug("flat", point, process);
        }
        ["debug", point, frames, guest] => {
            let frames: u32 = frames.parse().unwrap();
            let slots = roomy((0..4096).map(|_| swap_slots::MemorySlot::new(Global).ok().unwrap()).collect());
            let target: paged_target::PagedTarget<Brand, clock_ring::ClockRing> =
                paged_target::PagedTarget::new(Global, frames, Blank::new(0), slots, image(guest), none()).ok().unwrap();
            debug("paged", point, target);
        }
        _ => panic!("flat GUEST | serial FRAMES SLICE GUEST.. | debug none|break|watch [FRAMES] GUEST"),
    }
}
