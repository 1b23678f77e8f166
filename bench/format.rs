//! Trace files and records as docs/FORMATS.md and docs/REFUSALS.md have them, for the two judges in Rust and for the generator.

/// What there is to say of a trace file.
#[derive(Clone, Copy, PartialEq, Eq, Debug)]
pub enum Answer {
    Compliant { records: u64 },
    Unlawful { thread: u64, index: u64, reason: u64 },
    Damaged { cause: u64, place: u64, depth: u64 },
    Refused { number: u64 },
}

#[derive(Clone, Copy)]
pub enum Source {
    Initial,
    Write { thread: u8, number: u16 },
}

#[derive(Clone, Copy)]
pub enum Act {
    Write { address: u16, strict: bool, value: u32 },
    Read { address: u16, strict: bool, source: Source, value: u32 },
    Fence,
    Notify { label: u32 },
    Wait { label: u32 },
}

#[derive(Clone, Copy)]
pub struct Record {
    pub thread: u8,
    pub act: Act,
}

/// A trace file whose header passed.
pub struct Trace<'a> {
    pub threads: u8,
    pub addresses: u8,
    pub records: &'a [u8],
}

fn u16_at(bytes: &[u8], at: usize) -> u16 {
    u16::from_be_bytes([bytes[at], bytes[at + 1]])
}

fn u32_at(bytes: &[u8], at: usize) -> u32 {
    u32::from_be_bytes([bytes[at], bytes[at + 1], bytes[at + 2], bytes[at + 3]])
}

/// The trace file, or the number of the first refusal.
pub fn open(bytes: &[u8]) -> Result<Trace<'_>, u64> {
    if bytes.len() < 16 {
        return Err(1);
    }
    let threads = u16_at(bytes, 0);
    let addresses = u16_at(bytes, 2);
    let count = u32_at(bytes, 4);
    if !(1..=8).contains(&threads) {
        return Err(2);
    }
    if !(1..=64).contains(&addresses) {
        return Err(3);
    }
    if count > 4096 {
        return Err(4);
    }
    let length = 16 + 12 * count as usize;
    if u32_at(bytes, 8) != 16 || u32_at(bytes, 12) as usize != length || bytes.len() != length {
        return Err(5);
    }
    Ok(Trace {
        threads: threads as u8,
        addresses: addresses as u8,
        records: &bytes[16..],
    })
}

/// The record of twelve bytes, or the number of the first damage cause.
#[inline]
pub fn decode(slot: &[u8; 12], threads: u8, addresses: u8) -> Result<Record, u64> {
    let [kind, thread, _, _, writer, mode, ..] = *slot;
    let address = u16_at(slot, 2);
    let number = u16_at(slot, 6);
    let value = u32_at(slot, 8);
    if !(1..=5).contains(&kind) {
        return Err(1);
    }
    if thread >= threads {
        return Err(2);
    }
    let act = match kind {
        1 | 2 => {
            if address >= u16::from(addresses) {
                return Err(3);
            }
            if mode > 1 {
                return Err(4);
            }
            let strict = mode == 1;
            if kind == 1 {
                if writer != 0 || number != 0 {
                    return Err(6);
                }
                Act::Write { address, strict, value }
            } else {
                let source = match (writer, number) {
                    (255, 0) => Source::Initial,
                    (thread, number) if thread < threads && number > 0 => Source::Write { thread, number },
                    _ => return Err(5),
                };
                Act::Read { address, strict, source, value }
            }
        }
        _ => {
            if address != 0 || writer != 0 || mode != 0 || number != 0 || (kind == 3 && value != 0) {
                return Err(6);
            }
            match kind {
                3 => Act::Fence,
                4 => Act::Notify { label: value },
                _ => Act::Wait { label: value },
            }
        }
    };
    Ok(Record { thread, act })
}

/// The twelve bytes of a record.
pub fn encode(record: Record) -> [u8; 12] {
    let (kind, address, writer, mode, number, value) = match record.act {
        Act::Write { address, strict, value } => (1, address, 0, strict as u8, 0, value),
        Act::Read { address, strict, source, value } => {
            let (writer, number) = match source {
                Source::Initial => (255, 0),
                Source::Write { thread, number } => (thread, number),
            };
            (2, address, writer, strict as u8, number, value)
        }
        Act::Fence => (3, 0, 0, 0, 0, 0),
        Act::Notify { label } => (4, 0, 0, 0, 0, label),
        Act::Wait { label } => (5, 0, 0, 0, 0, label),
    };
    let [a0, a1] = address.to_be_bytes();
    let [n0, n1] = u16::to_be_bytes(number);
    let [v0, v1, v2, v3] = value.to_be_bytes();
    [kind, record.thread, a0, a1, writer, mode, n0, n1, v0, v1, v2, v3]
}

/// The bytes of a trace file.
pub fn file(threads: u8, addresses: u8, records: &[Record]) -> Vec<u8> {
    let count = records.len() as u32;
    let mut bytes = Vec::with_capacity(16 + 12 * records.len());
    bytes.extend_from_slice(&u16::from(threads).to_be_bytes());
    bytes.extend_from_slice(&u16::from(addresses).to_be_bytes());
    bytes.extend_from_slice(&count.to_be_bytes());
    bytes.extend_from_slice(&16u32.to_be_bytes());
    bytes.extend_from_slice(&(16 + 12 * count).to_be_bytes());
    for record in records {
        bytes.extend_from_slice(&encode(*record));
    }
    bytes
}
