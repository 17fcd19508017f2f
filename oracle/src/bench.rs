//! What the stand-ins of one run share with the harness: the input, the reservation, and what was seen of the stream.
use crate::array::RecordBatch;
use crate::datatypes::SchemaRef;
use crate::stream::{RecordBatchStream, Stream};
use crate::{EmitTo, Result, resources_datafusion_err};
use std::cell::RefCell;
use std::pin::Pin;
use std::sync::{Arc, Mutex, MutexGuard};
use std::task::{Context, Poll};

#[derive(Debug, Clone, Copy, PartialEq)]
pub enum Memory {
    Bounded(u64),
    Recorded(u64),
}

pub struct Seen {
    memory: Memory,
    /// What every request has on top of the need: the ordering counts its own size, which is always the same.
    on_top: usize,
    growths: u32,
    pub bytes: u64,
    pub last: bool,
    pub offered: Option<RecordBatch>,
    pub closed: bool,
    /// The stream has dropped its input: its end step has run.
    pub ended: bool,
    pub held: usize,
    /// All groups went out before the end, which only the probe's skip does.
    pub skips: bool,
}

pub struct Bench(Mutex<Seen>);

thread_local! {
    /// The bench of the stream that is made next: the original hands none on to the maker of a table.
    static CURRENT: RefCell<Option<Arc<Bench>>> = const { RefCell::new(None) };
}

impl Bench {
    pub fn new(memory: Memory, on_top: usize) -> Arc<Bench> {
        let (growths, bytes, last, held) = (0, 0, true, 0);
        let (offered, closed, ended, skips) = (None, false, false, false);
        let seen = Seen { memory, on_top, growths, bytes, last, offered, closed, ended, held, skips };
        let bench = Arc::new(Bench(Mutex::new(seen)));
        CURRENT.set(Some(Arc::clone(&bench)));
        bench
    }

    pub fn current() -> Arc<Bench> {
        CURRENT.with_borrow(|b| b.clone()).expect("a bench is made before a stream")
    }

    pub fn seen(&self) -> MutexGuard<'_, Seen> {
        self.0.lock().unwrap_or_else(|e| e.into_inner())
    }

    pub fn input(self: &Arc<Self>, schema: SchemaRef) -> Input {
        Input { bench: Arc::clone(self), schema }
    }

    pub fn holds(&self, groups: usize) {
        self.seen().held = groups;
    }

    pub fn emits(&self, emit_to: EmitTo) {
        let mut seen = self.seen();
        seen.skips |= emit_to == EmitTo::All && !seen.ended;
    }

    pub fn bytes(&self) -> u64 {
        self.seen().bytes
    }

    /// What is no growth is granted and not counted.
    pub fn resize(&self, asked: usize) -> Result<()> {
        let mut seen = self.seen();
        let need = (asked - seen.on_top) as u64;
        seen.last = need <= seen.bytes || seen.grants_growth(need);
        if !seen.last {
            return Err(resources_datafusion_err!("{need} bytes are refused"));
        }
        seen.bytes = need;
        Ok(())
    }
}

impl Seen {
    fn grants_growth(&mut self, need: u64) -> bool {
        let growth = self.growths;
        self.growths = (growth + 1).min(64);
        match self.memory {
            Memory::Bounded(limit) => need <= limit,
            Memory::Recorded(word) => growth > 63 || word >> growth & 1 == 1,
        }
    }
}

/// The batches offered, one at a time.
pub struct Input {
    bench: Arc<Bench>,
    schema: SchemaRef,
}

impl Drop for Input {
    fn drop(&mut self) {
        self.bench.seen().ended = true;
    }
}

impl Stream for Input {
    type Item = Result<RecordBatch>;

    fn poll_next(self: Pin<&mut Self>, _: &mut Context<'_>) -> Poll<Option<Self::Item>> {
        let mut seen = self.bench.seen();
        match seen.offered.take() {
            Some(batch) => Poll::Ready(Some(Ok(batch))),
            None if seen.closed => Poll::Ready(None),
            None => Poll::Pending,
        }
    }
}

impl RecordBatchStream for Input {
    fn schema(&self) -> SchemaRef {
        Arc::clone(&self.schema)
    }
}
