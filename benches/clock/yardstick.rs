//! The replacement policy over a ring in plain Rust: a slab of links, and an index from a page to its node in a flat array.
//! Arguments as for `parts_bench clock`, without the first: frames, pages, references.

use std::time::Instant;

#[derive(Clone, Copy, PartialEq, Eq)]
enum Kind {
    Hot,
    Test,
    Cold,
    Shadow,
}

#[derive(Clone, Copy, PartialEq, Eq)]
enum Bit {
    Zero,
    One,
}

#[derive(Clone, Copy)]
struct Node {
    page: u32,
    kind: Kind,
    next: usize,
    previous: usize,
}

struct Ring {
    frames: usize,
    share: usize,
    asked: usize,
    nodes: Vec<Node>,
    free: Vec<usize>,
    index: Vec<Option<usize>>,
    front: usize,
    cold_hand: usize,
    test_hand: usize,
    hot: usize,
    cold: usize,
    shadows: usize,
}

impl Ring {
    fn new(frames: usize, pages: usize) -> Self {
        Ring {
            frames,
            share: 1,
            asked: 0,
            nodes: Vec::with_capacity(2 * frames),
            free: Vec::with_capacity(2 * frames),
            index: vec![None; pages],
            front: 0,
            cold_hand: 0,
            test_hand: 0,
            hot: 0,
            cold: 0,
            shadows: 0,
        }
    }

    fn count(&mut self, kind: Kind) -> &mut usize {
        match kind {
            Kind::Hot => &mut self.hot,
            Kind::Test | Kind::Cold => &mut self.cold,
            Kind::Shadow => &mut self.shadows,
        }
    }

    fn mark(&mut self, at: usize, kind: Kind) {
        *self.count(self.nodes[at].kind) -= 1;
        *self.count(kind) += 1;
        self.nodes[at].kind = kind;
    }

    fn leave(&mut self, at: usize) {
        let next = self.nodes[at].next;
        if self.cold_hand == at {
            self.cold_hand = next;
        }
        if self.test_hand == at {
            self.test_hand = next;
        }
    }

    fn unlink(&mut self, at: usize) {
        let Node { next, previous, .. } = self.nodes[at];
        self.nodes[previous].next = next;
        self.nodes[next].previous = previous;
        if self.front == at {
            self.front = next;
        }
    }

    fn link_last(&mut self, at: usize) {
        let front = self.front;
        let last = self.nodes[front].previous;
        self.nodes[at].next = front;
        self.nodes[at].previous = last;
        self.nodes[last].next = at;
        self.nodes[front].previous = at;
    }

    fn remove(&mut self, at: usize) {
        self.leave(at);
        self.unlink(at);
        let Node { page, kind, .. } = self.nodes[at];
        *self.count(kind) -= 1;
        self.index[page as usize] = None;
        self.free.push(at);
    }

    fn send_to_end(&mut self, at: usize, kind: Kind) {
        self.leave(at);
        if self.nodes[at].next != at {
            self.unlink(at);
            self.link_last(at);
        }
        self.mark(at, kind);
    }

    fn append(&mut self, page: u32) {
        let node = Node { page, kind: Kind::Test, next: 0, previous: 0 };
        let at = match self.free.pop() {
            Some(at) => {
                self.nodes[at] = node;
                at
            }
            None => {
                self.nodes.push(node);
                self.nodes.len() - 1
            }
        };
        if self.hot + self.cold + self.shadows == 0 {
            self.nodes[at].next = at;
            self.nodes[at].previous = at;
            self.front = at;
            self.cold_hand = at;
            self.test_hand = at;
        } else {
            self.link_last(at);
        }
        self.cold += 1;
        self.index[page as usize] = Some(at);
    }

    fn asked_node(&self) -> Option<usize> {
        if self.hot > self.frames - self.share || self.cold == 0 {
            if self.hot == 0 {
                return None;
            }
            let mut at = self.front;
            while self.nodes[at].kind != Kind::Hot {
                at = self.nodes[at].next;
            }
            Some(at)
        } else {
            let mut at = self.cold_hand;
            while !matches!(self.nodes[at].kind, Kind::Test | Kind::Cold) {
                at = self.nodes[at].next;
            }
            Some(at)
        }
    }

    fn question(&self) -> Option<u32> {
        self.asked_node().map(|at| self.nodes[at].page)
    }

    fn fall(&mut self) {
        self.share = self.share.saturating_sub(1).max(1);
    }

    fn turn_to(&mut self, bit: Bit, hot: usize) {
        while self.front != hot {
            let at = self.front;
            match self.nodes[at].kind {
                Kind::Hot | Kind::Cold => self.front = self.nodes[at].next,
                Kind::Test => {
                    self.mark(at, Kind::Cold);
                    self.front = self.nodes[at].next;
                    self.fall();
                }
                Kind::Shadow => {
                    self.remove(at);
                    self.fall();
                }
            }
        }
        if bit == Bit::Zero {
            self.mark(hot, Kind::Cold);
        }
        self.front = self.nodes[hot].next;
    }

    fn trim(&mut self) {
        if self.shadows <= self.frames {
            return;
        }
        let mut at = self.test_hand;
        while self.nodes[at].kind != Kind::Shadow {
            if self.nodes[at].kind == Kind::Test {
                self.mark(at, Kind::Cold);
                self.fall();
            }
            at = self.nodes[at].next;
        }
        self.test_hand = at;
        self.remove(at);
        self.fall();
    }

    /// The victim, if there is one.
    fn answer(&mut self, bit: Bit) -> Option<u32> {
        let at = self.asked_node()?;
        let bit = if self.asked == 3 * self.frames { Bit::Zero } else { bit };
        let Node { page, kind, .. } = self.nodes[at];
        match (kind, bit) {
            (Kind::Hot, _) => self.turn_to(bit, at),
            (Kind::Test, Bit::Zero) => {
                self.mark(at, Kind::Shadow);
                self.cold_hand = self.nodes[at].next;
            }
            (Kind::Test, Bit::One) => {
                self.cold_hand = at;
                self.send_to_end(at, Kind::Hot);
                self.share = (self.share + 1).min(self.frames - 1);
            }
            (_, Bit::Zero) => {
                self.cold_hand = at;
                self.remove(at);
            }
            (_, Bit::One) => {
                self.cold_hand = at;
                self.send_to_end(at, Kind::Test);
            }
        }
        if kind != Kind::Hot && bit == Bit::Zero {
            self.trim();
            self.asked = 0;
            return Some(page);
        }
        self.asked = (self.asked + 1).min(3 * self.frames);
        None
    }

    fn admit(&mut self, page: u32) -> bool {
        let found = self.index[page as usize];
        if found.is_some_and(|at| self.nodes[at].kind != Kind::Shadow) || self.hot + self.cold == self.frames {
            return false;
        }
        match found {
            Some(at) => {
                self.send_to_end(at, Kind::Hot);
                self.share = (self.share + 1).min(self.frames - 1);
            }
            None => self.append(page),
        }
        true
    }
}

fn main() {
    let numbers: Vec<usize> = std::env::args().skip(1).map(|word| word.parse().expect("a number")).collect();
    let [frames, pages, references] = numbers[..] else { panic!("FRAMES PAGES REFERENCES") };
    let mut ring = Ring::new(frames, pages);
    let mut used = vec![false; pages];
    let mut resident = vec![false; pages];
    let (mut free, mut random, mut calls, mut sum) = (frames, 88172645463325252u64, 0u64, 0u64);
    let start = Instant::now();
    for _ in 0..references {
        random = random.wrapping_mul(6364136223846793005).wrapping_add(1442695040888963407);
        let near = random >> 60 < 4;
        let page = (random >> 20) as usize % if near { frames / 2 } else { pages };
        used[page] = true;
        if resident[page] {
            continue;
        }
        while free == 0 {
            let Some(asked) = ring.question() else { break };
            let bit = if used[asked as usize] { Bit::One } else { Bit::Zero };
            used[asked as usize] = false;
            calls += 2;
            if let Some(victim) = ring.answer(bit) {
                resident[victim as usize] = false;
                free += 1;
                sum = sum.wrapping_mul(31).wrapping_add(u64::from(victim));
            }
        }
        calls += 1;
        if ring.admit(page as u32) {
            resident[page] = true;
            free -= 1;
        }
    }
    let nanoseconds = start.elapsed().as_nanos();
    println!("{calls} {sum}");
    eprintln!("{nanoseconds}");
}
