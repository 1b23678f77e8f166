//! A fast judge by the method of docs/JUDGE.md, "How it judges": ranks, and for each reader a view of each other thread.

use crate::format::{self, Act, Answer, Record, Source};

/// Where a thread's writes and notifies are kept.
pub trait Store<T: Copy> {
    const EMPTY: Self;
    fn push(&mut self, item: T);
    fn items(&self) -> &[T];
}

/// What an array is cleared with.
pub trait Zero: Copy {
    const ZERO: Self;
}

/// An array that is cleared first and holds 512 items: nothing is allocated.
pub struct Array<T> {
    items: [T; 512],
    len: usize,
}

impl<T: Zero> Store<T> for Array<T> {
    const EMPTY: Self = Array { items: [T::ZERO; 512], len: 0 };

    #[inline]
    fn push(&mut self, item: T) {
        self.items[self.len] = item;
        self.len += 1;
    }

    #[inline]
    fn items(&self) -> &[T] {
        &self.items[..self.len]
    }
}

/// A vector that grows: nothing is cleared, but memory is asked for.
impl<T: Copy> Store<T> for Vec<T> {
    const EMPTY: Self = Vec::new();

    #[inline]
    fn push(&mut self, item: T) {
        Vec::push(self, item);
    }

    #[inline]
    fn items(&self) -> &[T] {
        self
    }
}

#[derive(Clone, Copy)]
pub struct Write {
    value: u32,
    address: u16,
    rank: u16,
}

impl Zero for Write {
    const ZERO: Write = Write { value: 0, address: 0, rank: 0 };
}

#[derive(Clone, Copy)]
pub struct Notify {
    label: u32,
    rank: u16,
}

impl Zero for Notify {
    const ZERO: Notify = Notify { label: 0, rank: 0 };
}

struct Page<W, N> {
    records: u16,
    /// strict events so far
    strict: u16,
    waits: u16,
    writes: W,
    notifies: N,
    /// the number of the last write to each address, or 0
    last: [u16; 64],
}

impl<W: Store<Write>, N: Store<Notify>> Page<W, N> {
    const EMPTY: Self = Page { records: 0, strict: 0, waits: 0, writes: W::EMPTY, notifies: N::EMPTY, last: [0; 64] };
}

#[derive(Clone, Copy)]
struct View {
    /// how many of the other's writes have a rank below the largest one observed
    passed: usize,
    /// for each address one more than the largest rank of a covered write, or 0
    covered: [u16; 64],
}

impl View {
    /// An event of this rank is observed.
    #[inline]
    fn observe(&mut self, writes: &[Write], rank: u16) {
        while let Some(write) = writes.get(self.passed) {
            if write.rank >= rank {
                break;
            }
            self.cover(write);
            self.passed += 1;
        }
    }

    #[inline]
    fn cover(&mut self, write: &Write) {
        let covered = &mut self.covered[write.address as usize];
        *covered = (*covered).max(write.rank + 1);
    }
}

pub struct Book<W, N> {
    threads: usize,
    pages: [Page<W, N>; 8],
    /// by reader, then by the thread that is read
    views: [[View; 8]; 8],
}

impl<W: Store<Write>, N: Store<Notify>> Book<W, N> {
    #[inline]
    pub fn new(threads: u8) -> Self {
        Book {
            threads: threads as usize,
            pages: [const { Page::EMPTY }; 8],
            views: [[View { passed: 0, covered: [0; 64] }; 8]; 8],
        }
    }

    pub fn records(&self, thread: u8) -> u64 {
        self.pages[thread as usize].records.into()
    }

    /// Takes a well-made record if it is lawful, and answers the reason if it is not; the book is then as before.
    #[inline]
    pub fn take(&mut self, record: &Record) -> Result<(), u64> {
        let t = record.thread as usize;
        let threads = self.threads;
        if self.pages[t].records >= 512 {
            return Err(1);
        }
        let strict = match record.act {
            Act::Write { address, strict, value } => {
                let page = &mut self.pages[t];
                page.writes.push(Write { value, address, rank: 2 * page.strict + u16::from(strict) });
                page.last[address as usize] = page.writes.items().len() as u16;
                strict
            }
            Act::Read { address, strict, source: Source::Initial, value } => {
                if value != 0 {
                    return Err(4);
                }
                let a = address as usize;
                if self.pages[t].last[a] > 0 || (0..threads).any(|u| u != t && self.views[t][u].covered[a] > 0) {
                    return Err(7);
                }
                strict
            }
            Act::Read { address, strict, source: Source::Write { thread, number }, value } => {
                let u = thread as usize;
                let writer = &self.pages[u];
                let Some(write) = writer.writes.items().get(number as usize - 1) else {
                    return Err(2);
                };
                if write.address != address {
                    return Err(3);
                }
                if write.value != value {
                    return Err(4);
                }
                if u == t {
                    if writer.last[address as usize] > number {
                        return Err(5);
                    }
                } else {
                    let view = &mut self.views[t][u];
                    if write.rank + 1 < view.covered[address as usize] {
                        return Err(6);
                    }
                    view.observe(writer.writes.items(), write.rank);
                    view.cover(write);
                }
                strict
            }
            Act::Fence => true,
            Act::Notify { label } => {
                let page = &mut self.pages[t];
                if page.notifies.items().len() != page.waits as usize {
                    return Err(8);
                }
                page.notifies.push(Notify { label, rank: 2 * page.strict + 1 });
                true
            }
            Act::Wait { label } => {
                let phase = self.pages[t].waits as usize;
                if self.pages[t].notifies.items().len() != phase + 1 {
                    return Err(9);
                }
                let pages = &self.pages[..threads];
                if pages.iter().any(|p| p.notifies.items().len() <= phase) {
                    return Err(10);
                }
                if pages.iter().any(|p| p.notifies.items()[phase].label != label) {
                    return Err(11);
                }
                for (u, page) in pages.iter().enumerate() {
                    if u != t {
                        self.views[t][u].observe(page.writes.items(), page.notifies.items()[phase].rank);
                    }
                }
                self.pages[t].waits += 1;
                false
            }
        };
        let page = &mut self.pages[t];
        page.records += 1;
        page.strict += u16::from(strict);
        Ok(())
    }
}

#[inline]
fn judge<W: Store<Write>, N: Store<Notify>>(bytes: &[u8]) -> Answer {
    let trace = match format::open(bytes) {
        Ok(trace) => trace,
        Err(number) => return Answer::Refused { number },
    };
    let mut book = Book::<W, N>::new(trace.threads);
    let (slots, _) = trace.records.as_chunks::<12>();
    for (place, slot) in slots.iter().enumerate() {
        let record = match format::decode(slot, trace.threads, trace.addresses) {
            Ok(record) => record,
            Err(cause) => return Answer::Damaged { cause, place: place as u64, depth: 0 },
        };
        if let Err(reason) = book.take(&record) {
            return Answer::Unlawful { thread: record.thread.into(), index: book.records(record.thread), reason };
        }
    }
    Answer::Compliant { records: slots.len() as u64 }
}

/// Judges with arrays that are cleared for each trace, as the proved judge does.
#[inline(never)]
pub fn judge_in_arrays(bytes: &[u8]) -> Answer {
    judge::<Array<Write>, Array<Notify>>(bytes)
}

/// Judges with vectors that grow.
#[inline(never)]
pub fn judge_in_vectors(bytes: &[u8]) -> Answer {
    judge::<Vec<Write>, Vec<Notify>>(bytes)
}
