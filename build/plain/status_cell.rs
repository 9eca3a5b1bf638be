//! The crate `status_cell` without its proofs: a pair of counts that one thread writes and another looks at.

use rattle::alloc::{AllocError, Global};
use std::sync::Arc;
use std::sync::atomic::{AtomicU64, Ordering};

#[derive(Clone, Copy, PartialEq, Eq, Debug)]
pub struct Status {
    pub steps: u64,
    pub output: u64,
}

type Pair = Arc<(AtomicU64, AtomicU64)>;

pub struct Viewer(Pair);

pub struct Writer(Pair);

impl Viewer {
    pub fn look<R>(&mut self, _: &R) -> Status {
        Status {
            steps: self.0.0.load(Ordering::SeqCst),
            output: self.0.1.load(Ordering::SeqCst),
        }
    }
}

impl Writer {
    pub fn publish<R>(&mut self, _: &R, status: Status) {
        self.0.0.store(status.steps, Ordering::SeqCst);
        self.0.1.store(status.output, Ordering::SeqCst);
    }
}

pub fn new_cell(_: Global) -> Result<(Writer, Viewer), AllocError> {
    let pair = Arc::new((AtomicU64::new(0), AtomicU64::new(0)));
    Ok((Writer(pair.clone()), Viewer(pair)))
}
