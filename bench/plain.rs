//! A judge written down from docs/RULES.md sentence by sentence, with no thought of speed: events, precedence, what was observed, covered, overwritten.

use crate::format::{self, Act, Answer, Record, Source};

/// An event of one thread: a write, a strict read, a fence, or the fence of a notify.
struct Event {
    /// its place in the whole list
    at: usize,
    strict: bool,
    /// the address and value of a write
    write: Option<(u16, u32)>,
    notify: Option<u32>,
}

/// The events of a thread, oldest first.
fn events(list: &[Record], thread: u8) -> Vec<Event> {
    let mut events = Vec::new();
    for (at, record) in list.iter().enumerate() {
        if record.thread != thread {
            continue;
        }
        let (strict, write, notify) = match record.act {
            Act::Write { address, strict, value } => (strict, Some((address, value)), None),
            Act::Read { strict: true, .. } | Act::Fence => (true, None, None),
            Act::Notify { label } => (true, None, Some(label)),
            Act::Read { strict: false, .. } | Act::Wait { .. } => continue,
        };
        events.push(Event { at, strict, write, notify });
    }
    events
}

/// Which of the events are writes, and which are notifies.
fn writes(events: &[Event]) -> Vec<usize> {
    (0..events.len()).filter(|&k| events[k].write.is_some()).collect()
}

fn notifies(events: &[Event]) -> Vec<usize> {
    (0..events.len()).filter(|&k| events[k].notify.is_some()).collect()
}

/// Of two events of one thread: the one stands earlier, and one of the two is strict or a strict event stands between them.
fn precedes(events: &[Event], a: usize, b: usize) -> bool {
    a < b && (events[a].strict || events[b].strict || events[a + 1..b].iter().any(|e| e.strict))
}

/// The events of `other` that the reader has observed.
fn observed(list: &[Record], reader: u8, other: u8, events: &[Event]) -> Vec<usize> {
    let (writes, notifies) = (writes(events), notifies(events));
    let mut waits = 0;
    let mut observed = Vec::new();
    for (at, record) in list.iter().enumerate() {
        if record.thread != reader {
            continue;
        }
        let event = match record.act {
            Act::Read { source: Source::Write { thread, number }, .. } if thread == other => {
                writes.get(number as usize - 1)
            }
            Act::Wait { .. } => {
                waits += 1;
                notifies.get(waits - 1)
            }
            _ => None,
        };
        if let Some(&event) = event {
            if events[event].at < at {
                observed.push(event);
            }
        }
    }
    observed
}

/// The event is an observed one, or precedes one.
fn covered(events: &[Event], observed: &[usize], event: usize) -> bool {
    observed.iter().any(|&o| event == o || precedes(events, event, o))
}

/// The write precedes a covered write to the same address.
fn overwritten(events: &[Event], observed: &[usize], write: usize, address: u16) -> bool {
    (0..events.len()).any(|k| {
        matches!(events[k].write, Some((a, _)) if a == address)
            && precedes(events, write, k)
            && covered(events, observed, k)
    })
}

fn is_write_to(record: &Record, to: u16) -> bool {
    matches!(record.act, Act::Write { address, .. } if address == to)
}

fn read_verdict(list: &[Record], threads: u8, reader: u8, address: u16, source: Source, value: u32) -> Option<u64> {
    match source {
        Source::Initial => {
            if value != 0 {
                return Some(4);
            }
            if list.iter().any(|r| r.thread == reader && is_write_to(r, address)) {
                return Some(7);
            }
            for other in (0..threads).filter(|&u| u != reader) {
                let events = events(list, other);
                let observed = observed(list, reader, other, &events);
                for k in 0..events.len() {
                    if matches!(events[k].write, Some((a, _)) if a == address) && covered(&events, &observed, k) {
                        return Some(7);
                    }
                }
            }
            None
        }
        Source::Write { thread, number } => {
            let events = events(list, thread);
            let Some(&write) = writes(&events).get(number as usize - 1) else {
                return Some(2);
            };
            let (written_to, written) = events[write].write.unwrap();
            if written_to != address {
                return Some(3);
            }
            if written != value {
                return Some(4);
            }
            if thread == reader {
                if events[write + 1..].iter().any(|e| matches!(e.write, Some((a, _)) if a == address)) {
                    return Some(5);
                }
            } else if overwritten(&events, &observed(list, reader, thread, &events), write, address) {
                return Some(6);
            }
            None
        }
    }
}

/// The labels of a thread's notifies, oldest first.
fn labels(list: &[Record], thread: u8) -> Vec<u32> {
    let of = |r: &Record| match r.act {
        Act::Notify { label } if r.thread == thread => Some(label),
        _ => None,
    };
    list.iter().filter_map(of).collect()
}

/// The reason for which the record is unlawful behind the list.
fn verdict(list: &[Record], threads: u8, record: &Record) -> Option<u64> {
    let own = || list.iter().filter(|r| r.thread == record.thread);
    if own().count() >= 512 {
        return Some(1);
    }
    let waits = own().filter(|r| matches!(r.act, Act::Wait { .. })).count();
    let notified = labels(list, record.thread).len();
    match record.act {
        Act::Write { .. } | Act::Fence => None,
        Act::Read { address, source, value, .. } => read_verdict(list, threads, record.thread, address, source, value),
        Act::Notify { .. } => (notified != waits).then_some(8),
        Act::Wait { label } => {
            let j = waits + 1;
            if notified != j {
                return Some(9);
            }
            if (0..threads).any(|u| labels(list, u).len() < j) {
                return Some(10);
            }
            if (0..threads).any(|u| labels(list, u)[j - 1] != label) {
                return Some(11);
            }
            None
        }
    }
}

/// Judges the bytes as a trace file.
pub fn judge(bytes: &[u8]) -> Answer {
    let trace = match format::open(bytes) {
        Ok(trace) => trace,
        Err(number) => return Answer::Refused { number },
    };
    let mut list: Vec<Record> = Vec::new();
    for slot in trace.records.chunks_exact(12) {
        let record = match format::decode(slot.try_into().unwrap(), trace.threads, trace.addresses) {
            Ok(record) => record,
            Err(cause) => return Answer::Damaged { cause, place: list.len() as u64, depth: 0 },
        };
        if let Some(reason) = verdict(&list, trace.threads, &record) {
            let index = list.iter().filter(|r| r.thread == record.thread).count() as u64;
            return Answer::Unlawful { thread: record.thread.into(), index, reason };
        }
        list.push(record);
    }
    Answer::Compliant { records: list.len() as u64 }
}
