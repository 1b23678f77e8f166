//! Random trace files: lawful ones of a given shape, and ones that break a rule or the format somewhere. The same seed gives the same files.

use crate::fast::{Book, Notify, Write};
use crate::format::{self, Act, Record, Source};

/// Marsaglia's xorshift with a multiplier behind it.
pub struct Random(u64);

impl Random {
    pub fn new(seed: u64) -> Random {
        Random(seed.wrapping_mul(0x9e37_79b9_7f4a_7c15) | 1)
    }

    pub fn next(&mut self) -> u64 {
        self.0 ^= self.0 >> 12;
        self.0 ^= self.0 << 25;
        self.0 ^= self.0 >> 27;
        self.0.wrapping_mul(0x2545_f491_4f6c_dd1d) >> 16
    }

    pub fn below(&mut self, n: u64) -> u64 {
        self.next() % n
    }

    pub fn one_in(&mut self, n: u64) -> bool {
        self.below(n) == 0
    }

    /// A number from `low` to `high`.
    pub fn between(&mut self, low: u64, high: u64) -> u64 {
        low + self.below(high - low + 1)
    }
}

/// How often each kind of record is tried.
#[derive(Clone, Copy)]
pub struct Mix {
    pub writes: u64,
    pub reads: u64,
    pub fences: u64,
    pub barriers: u64,
}

pub const EVEN: Mix = Mix { writes: 6, reads: 8, fences: 1, barriers: 2 };

/// What was put into the trace so far, to choose from.
struct Maker {
    threads: u8,
    addresses: u8,
    writes: Vec<Vec<(u16, u32)>>,
    notified: Vec<u32>,
    waits: Vec<u32>,
    records: Vec<Record>,
}

impl Maker {
    fn new(threads: u8, addresses: u8) -> Maker {
        let n = threads as usize;
        Maker { threads, addresses, writes: vec![vec![]; n], notified: vec![0; n], waits: vec![0; n], records: vec![] }
    }

    fn push(&mut self, record: Record) {
        let t = record.thread as usize;
        match record.act {
            Act::Write { address, value, .. } => self.writes[t].push((address, value)),
            Act::Notify { .. } => self.notified[t] += 1,
            Act::Wait { .. } => self.waits[t] += 1,
            Act::Read { .. } | Act::Fence => {}
        }
        self.records.push(record);
    }

    fn address(&self, random: &mut Random) -> u16 {
        random.below(self.addresses.into()) as u16
    }

    fn read(&self, random: &mut Random, strict: bool) -> Act {
        let thread = random.below(self.threads.into()) as u8;
        let writes = &self.writes[thread as usize];
        let initial = Act::Read { address: self.address(random), strict, source: Source::Initial, value: random.one_in(20) as u32 };
        if random.one_in(5) {
            return initial;
        }
        let written = writes.len() as u64;
        let number = match random.below(30) {
            0 => written + 1 + random.below(3),
            1..=9 if written > 0 => 1 + random.below(written),
            _ => written.saturating_sub(random.below(5)),
        };
        if number == 0 {
            return initial;
        }
        let (mut address, mut value) = writes.get(number as usize - 1).copied().unwrap_or((self.address(random), 1));
        if random.one_in(30) {
            address = self.address(random);
        }
        if random.one_in(30) {
            value = value.wrapping_add(1);
        }
        Act::Read { address, strict, source: Source::Write { thread, number: number as u16 }, value }
    }

    /// A record that may be lawful or not. Labels are `phase` unless `loose`.
    fn candidate(&self, random: &mut Random, mix: Mix, thread: u8, loose: bool) -> Record {
        let t = thread as usize;
        let strict = random.one_in(4);
        let pick = random.below(mix.writes + mix.reads + mix.fences + mix.barriers);
        let act = if pick < mix.writes {
            let value = if random.one_in(8) { random.next() as u32 } else { random.below(3) as u32 };
            Act::Write { address: self.address(random), strict, value }
        } else if pick < mix.writes + mix.reads {
            self.read(random, strict)
        } else if pick < mix.writes + mix.reads + mix.fences {
            Act::Fence
        } else {
            let notify = (self.notified[t] == self.waits[t]) != (loose && random.one_in(20));
            let phase = if notify { self.notified[t] } else { self.waits[t] };
            let label = if loose && random.one_in(12) { phase ^ 1 } else { phase };
            if notify { Act::Notify { label } } else { Act::Wait { label } }
        };
        Record { thread, act }
    }
}

/// What a list of records is to have wrong.
#[derive(Clone, Copy, PartialEq)]
pub enum Wrong {
    Nothing,
    /// A record that is unlawful for this reason, where one comes up.
    Reason(u64),
    /// A record that is unlawful for any reason.
    Any,
}

/// A list of lawful records, but for the first that is wrong as asked; what follows that one is as it comes.
///
/// No thread has more than 512 records before that one, so 512 for each thread are the most that can be asked for unless something is to be wrong.
pub fn records(random: &mut Random, threads: u8, addresses: u8, count: usize, mix: Mix, wrong: Wrong) -> Vec<Record> {
    let mut maker = Maker::new(threads, addresses);
    let mut book = Book::<Vec<Write>, Vec<Notify>>::new(threads);
    let mut lawful = true;
    let overfull = matches!(wrong, Wrong::Reason(1) | Wrong::Any) || count > 512 * threads as usize;
    // In a long list not the very first chance is taken.
    let seldom = 1 + count as u64 / 30;
    while maker.records.len() < count {
        let mut thread = random.below(threads.into()) as u8;
        while lawful && !overfull && book.records(thread) >= 512 {
            thread = (thread + 1) % threads;
        }
        for tries in 0.. {
            let mut record = maker.candidate(random, mix, thread, wrong != Wrong::Nothing);
            if tries == 30 {
                record.act = Act::Write { address: maker.address(random), strict: false, value: 1 };
            }
            if lawful {
                if let Err(reason) = book.take(&record) {
                    let asked = wrong == Wrong::Reason(reason) || wrong == Wrong::Any;
                    lawful = !(reason == 1 || asked && random.one_in(seldom));
                    if lawful {
                        continue;
                    }
                }
            }
            maker.push(record);
            break;
        }
    }
    maker.records
}

/// Twelve bytes that have the damage cause, and perhaps later ones besides.
fn damaged_slot(random: &mut Random, cause: u64, threads: u8, addresses: u8) -> [u8; 12] {
    let kind = match cause {
        1 => if random.one_in(2) { 0 } else { random.between(6, 255) as u8 },
        3 | 4 => random.between(1, 2) as u8,
        5 => 2,
        6 => [1, 3, 4, 5][random.below(4) as usize],
        _ => random.between(1, 5) as u8,
    };
    let mut slot = [0; 12];
    slot[0] = kind;
    slot[1] = random.below(threads.into()) as u8;
    slot[11] = random.below(2) as u8;
    match kind {
        1 => slot[3] = random.below(addresses.into()) as u8,
        2 => {
            slot[3] = random.below(addresses.into()) as u8;
            slot[4] = 255;
        }
        3 => slot[11] = 0,
        _ => {}
    }
    let address = random.between(addresses.into(), 65535) as u16;
    for broken in cause..=6 {
        if broken > cause && random.one_in(2) {
            continue;
        }
        match broken {
            2 => slot[1] = random.between(threads.into(), 255) as u8,
            3 => slot[2..4].copy_from_slice(&address.to_be_bytes()),
            4 => slot[5] = random.between(2, 255) as u8,
            5 => match random.below(3) {
                0 => (slot[4], slot[7]) = (random.between(threads.into(), 254) as u8, 1),
                1 => (slot[4], slot[6], slot[7]) = (random.below(threads.into()) as u8, 0, 0),
                _ => (slot[4], slot[6], slot[7]) = (255, 0, random.between(1, 255) as u8),
            },
            6 => match (kind, random.below(5)) {
                (1, 0) => slot[4] = random.between(1, 255) as u8,
                (1, 1) => slot[6] = random.between(1, 255) as u8,
                (1, _) => slot[7] = random.between(1, 255) as u8,
                (3, 0) => slot[8 + random.below(4) as usize] = random.between(1, 255) as u8,
                (_, place) => slot[[2, 3, 4, 5, 7][place as usize]] = random.between(1, 255) as u8,
            },
            _ => {}
        }
    }
    slot
}

/// Breaks the header so that opening refuses with this number.
fn refuse(random: &mut Random, bytes: &mut Vec<u8>, number: u64) {
    let mut put = |at: usize, n: usize, value: u64| bytes[at..at + n].copy_from_slice(&value.to_be_bytes()[8 - n..]);
    match number {
        1 => {}
        2 => put(0, 2, if random.one_in(2) { 0 } else { random.between(9, 65535) }),
        3 => put(2, 2, if random.one_in(2) { 0 } else { random.between(65, 65535) }),
        4 => {
            let count = if random.one_in(2) { 4097 } else { random.between(4097, u32::MAX.into()) };
            put(4, 4, count);
            if count == 4097 {
                put(12, 4, 16 + 12 * 4097);
                bytes.resize(16 + 12 * 4097, 0);
            }
        }
        _ => match random.below(5) {
            0 => put(8, 4, random.between(17, 300)),
            1 => put(8, 4, random.below(16)),
            2 => put(12, 4, random.next() & 0xffff),
            3 => {
                let more = random.between(1, 30) as usize;
                bytes.resize(bytes.len() + more, 0);
            }
            _ => {
                let less = random.between(1, 12) as usize;
                bytes.truncate((bytes.len() - less.min(bytes.len() - 16)).max(16));
                put_count(bytes, random);
            }
        },
    }
    if number == 1 {
        bytes.truncate(random.below(16) as usize);
    }
}

/// A count that disagrees with the bytes by one.
fn put_count(bytes: &mut [u8], random: &mut Random) {
    if random.one_in(2) {
        bytes[7] ^= 1;
    } else {
        bytes[15] ^= 4;
    }
}

/// A random trace file of at most so many records: lawful, unlawful, damaged, refused, or with a few bytes changed at random.
pub fn any_file(random: &mut Random, most: u64) -> Vec<u8> {
    let threads = if random.one_in(4) { random.between(1, 2) } else { random.between(1, 8) } as u8;
    let addresses = match random.below(3) {
        0 => random.between(1, 2),
        1 => random.between(1, 8),
        _ => random.between(1, 64),
    } as u8;
    let style = random.below(20);
    let wrong = match style {
        0..=2 => Wrong::Nothing,
        3..=4 => Wrong::Any,
        5..=11 => Wrong::Reason(random.between(1, 11)),
        _ if random.one_in(4) => Wrong::Any,
        _ => Wrong::Nothing,
    };
    let limit = if wrong == Wrong::Nothing { most.min(512 * u64::from(threads)) } else { most };
    let count = if random.one_in(4) { limit } else { random.below(limit + 1) } as usize;
    let mix = match random.below(4) {
        0 => Mix { writes: 4, reads: 4, fences: 1, barriers: 8 },
        1 => Mix { writes: 3, reads: 12, fences: 1, barriers: 1 },
        _ => EVEN,
    };
    let records = records(random, threads, addresses, count, mix, wrong);
    let mut bytes = format::file(threads, addresses, &records);
    match style {
        12..=15 if count > 0 => {
            let place = if random.one_in(2) { random.below(1 + count as u64 / 8) } else { random.below(count as u64) } as usize;
            let cause = random.between(1, 6);
            let slot = damaged_slot(random, cause, threads, addresses);
            bytes[16 + 12 * place..28 + 12 * place].copy_from_slice(&slot);
        }
        16..=18 => {
            let first = random.between(1, 5);
            refuse(random, &mut bytes, 5.max(first));
            if first < 5 && bytes.len() >= 16 {
                refuse(random, &mut bytes, first);
            }
        }
        19 => {
            for _ in 0..random.between(1, 3) {
                let at = random.below(bytes.len() as u64) as usize;
                bytes[at] = if random.one_in(2) { bytes[at] ^ (1 << random.below(8)) } else { random.next() as u8 };
            }
        }
        _ => {}
    }
    bytes
}

/// The shapes that are timed, each over eight threads and 64 addresses and lawful throughout.
pub const SHAPES: [&str; 5] = ["mixed", "reads", "initial", "writes", "barriers"];

/// A lawful trace file of this shape.
pub fn shaped_file(random: &mut Random, shape: &str, count: usize) -> Vec<u8> {
    let of = |k: usize, act: Act| Record { thread: (k % 8) as u8, act };
    let records: Vec<Record> = match shape {
        "mixed" => records(random, 8, 64, count, EVEN, Wrong::Nothing),
        // A write by each thread, and then reads of them.
        "reads" => (0..count)
            .map(|k| match k / 8 {
                0 => of(k, Act::Write { address: k as u16, strict: false, value: 1 }),
                _ => {
                    let thread = random.below(8) as u8;
                    let source = Source::Write { thread, number: 1 };
                    of(k, Act::Read { address: thread.into(), strict: random.one_in(4), source, value: 1 })
                }
            })
            .collect(),
        "initial" => (0..count)
            .map(|k| {
                let address = random.below(64) as u16;
                of(k, Act::Read { address, strict: random.one_in(4), source: Source::Initial, value: 0 })
            })
            .collect(),
        "writes" => (0..count)
            .map(|k| {
                let address = random.below(64) as u16;
                of(k, Act::Write { address, strict: random.one_in(4), value: k as u32 })
            })
            .collect(),
        // Eight notifies, eight waits, and so on.
        _ => (0..count)
            .map(|k| {
                let label = (k / 16) as u32;
                of(k, if k / 8 % 2 == 0 { Act::Notify { label } } else { Act::Wait { label } })
            })
            .collect(),
    };
    format::file(8, 64, &records)
}
