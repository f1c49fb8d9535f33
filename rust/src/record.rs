//! The record of a call, read from its bytes (`include/ccs.h`).
use crate::{Counts, RECORD_LENGTH};

/// The object's answer to a request.
#[derive(Clone, Copy, Debug, PartialEq, Eq)]
pub enum Answer {
    /// A put is done: the count of items held after it, 1 to the capacity.
    Done(u32),
    /// A take or an add has its value.
    Value(u32),
    /// A take found nothing.
    Empty,
    /// A put found no room.
    Full,
}

/// How a call was served.
#[derive(Clone, Copy, Debug, PartialEq, Eq)]
pub struct Serving {
    /// The object's answer.
    pub answer: Answer,
    /// The thread that applied the request.
    pub server: u8,
    /// Its turn, numbered from 0.
    pub turn: u16,
}

/// One call of a run.
#[derive(Clone, Copy, Debug, PartialEq, Eq)]
pub struct Record {
    /// The calling thread.
    pub thread: u8,
    /// Which of its requests, from 0.
    pub request: u8,
    /// How it was served; none yet for a call that waits.
    pub serving: Option<Serving>,
    /// The call's remote references so far. Of a returned call of CC-Synch, at most 6 if another thread served it, and at most k + 5 if it
    /// had the turn itself and served k; of DSM-Synch, exactly 2 if another thread served it (1 if its Swap gave its own thread's other node).
    pub remote: u32,
    /// The number of the entry that ran the call's line 1: its place in the whole schedule, from 0.
    pub began: u32,
    /// The number of the entry with which it returned, its line 11 or 21 of CC-Synch, 12, 24 or 28 of DSM-Synch; none while it is open.
    pub returned: Option<u32>,
}

/// No capacity is above this, and no count of items.
const CAPACITY: u32 = 64;

/// An entry's number is below this: no schedule is longer.
const ENTRIES: u32 = 32_768;

/// Bytes 20 to 23 while the call is open.
const OPEN: u32 = 4_294_967_295;

impl Record {
    /// The call whose record these bytes are; none if their fields contradict each other, which those of a run never do.
    ///
    /// ```
    /// let waiting = [
    ///     0, 1, 255, 255, 0, 0, 0, 0, 2, 0, 0, 0, 0, 255, 255, 0, 21, 0, 0, 0, 255, 255, 255, 255,
    /// ];
    /// let record = ccs::Record::read(&waiting).unwrap();
    /// assert_eq!((record.thread, record.request, record.remote), (0, 1, 2));
    /// assert_eq!((record.serving, record.began, record.returned), (None, 21, None));
    /// assert_eq!(ccs::Record::read(&[255; ccs::RECORD_LENGTH]), None);
    /// ```
    pub fn read(bytes: &[u8; RECORD_LENGTH]) -> Option<Record> {
        let [thread, request, mark, server, ..] = *bytes;
        let value = number(bytes, 4);
        let turn = u16::from_le_bytes([bytes[13], bytes[14]]);
        let began = number(bytes, 16);
        if thread > 15 || request > 15 || bytes[15] != 0 || began >= ENTRIES {
            return None;
        }
        let serving = match (mark, value, server, turn) {
            (255, 0, 255, 65_535) => None,
            (_, _, 0..=15, 0..=65_534) => Some(Serving {
                answer: answer(mark, value)?,
                server,
                turn,
            }),
            _ => return None,
        };
        let returned = match (bytes[12], number(bytes, 20)) {
            (0, OPEN) => None,
            (1, entry) if serving.is_some() && began < entry && entry < ENTRIES => Some(entry),
            _ => return None,
        };
        Some(Record {
            thread,
            request,
            serving,
            remote: number(bytes, 8),
            began,
            returned,
        })
    }
}

/// The answer of a mark and a value; none if they contradict each other.
fn answer(mark: u8, value: u32) -> Option<Answer> {
    match (mark, value) {
        (0, held @ 1..=CAPACITY) => Some(Answer::Done(held)),
        (1, value) => Some(Answer::Value(value)),
        (2, 0) => Some(Answer::Empty),
        (3, 0) => Some(Answer::Full),
        _ => None,
    }
}

/// The four bytes from a place on, low byte first.
fn number(bytes: &[u8; RECORD_LENGTH], at: usize) -> u32 {
    u32::from_le_bytes([bytes[at], bytes[at + 1], bytes[at + 2], bytes[at + 3]])
}

/// The records that [`run`](crate::run) left in a buffer, in Swap order. A call that returned before another began comes before it.
///
/// ```
/// // a queue of capacity 4, two threads that put 5 and 7; thread 0 runs alone
/// let mut file = vec![0x43, 0x43, 0x53, 1, 0, 0, 2, 1, 4, 1, 0, 5, 0, 0, 0, 1, 0, 7, 0, 0, 0, 21, 0];
/// file.resize(file.len() + 21, 0);
/// let mut out = [0; 2 * ccs::RECORD_LENGTH];
/// let counts = ccs::run(&file, &mut out).unwrap();
/// let records: Vec<ccs::Record> = ccs::records(&out, &counts).collect();
/// assert_eq!(records.len(), 1);
/// assert_eq!(records[0].serving.unwrap().answer, ccs::Answer::Done(1));
/// ```
pub fn records<'a>(out: &'a [u8], counts: &Counts) -> impl Iterator<Item = Record> + 'a {
    out.chunks_exact(RECORD_LENGTH)
        .take(counts.records as usize)
        .map_while(|bytes| Record::read(bytes.try_into().ok()?))
}

#[cfg(test)]
mod tests {
    use super::*;

    /// A call of thread 1, served by thread 0 in turn 2: begun with entry 258, returned with entry 515.
    const RETURNED: [u8; RECORD_LENGTH] = [
        1, 3, 1, 0, 7, 0, 0, 0, 5, 0, 0, 0, 1, 2, 0, 0, 2, 1, 0, 0, 3, 2, 0, 0,
    ];
    /// The same before it is served.
    const WAITING: [u8; RECORD_LENGTH] = [
        1, 3, 255, 255, 0, 0, 0, 0, 2, 0, 0, 0, 0, 255, 255, 0, 2, 1, 0, 0, 255, 255, 255, 255,
    ];

    /// The record with other bytes from a place on.
    fn with(mut record: [u8; RECORD_LENGTH], at: usize, bytes: &[u8]) -> Option<Record> {
        record[at..at + bytes.len()].copy_from_slice(bytes);
        Record::read(&record)
    }

    fn with_entry(record: [u8; RECORD_LENGTH], at: usize, entry: u32) -> Option<Record> {
        with(record, at, &entry.to_le_bytes())
    }

    #[test]
    fn fields_are_read() {
        let waiting = Record {
            thread: 1,
            request: 3,
            serving: None,
            remote: 2,
            began: 258,
            returned: None,
        };
        assert_eq!(Record::read(&WAITING), Some(waiting));
        let returned = Record {
            serving: Some(Serving {
                answer: Answer::Value(7),
                server: 0,
                turn: 2,
            }),
            remote: 5,
            returned: Some(515),
            ..waiting
        };
        assert_eq!(Record::read(&RETURNED), Some(returned));
        let served = Record {
            returned: None,
            ..returned
        };
        let mut open = RETURNED;
        open[12] = 0;
        assert_eq!(with_entry(open, 20, OPEN), Some(served));
    }

    /// Fields out of range, and those of a serving against each other.
    #[test]
    fn contradictions_are_no_record() {
        for record in [RETURNED, WAITING] {
            for place in [0, 1, 15] {
                assert_eq!(with(record, place, &[16]), None);
            }
        }
        for mark in [2, 3, 4, 255] {
            assert_eq!(with(RETURNED, 2, &[mark]), None);
        }
        for server in [16, 255] {
            assert_eq!(with(RETURNED, 3, &[server]), None);
        }
        assert_eq!(with(RETURNED, 13, &[255, 255]), None);
        for (place, bytes) in [(2, [1, 255]), (2, [255, 0]), (4, [1, 0]), (13, [0, 0])] {
            assert_eq!(with(WAITING, place, &bytes), None);
        }
    }

    /// Marks and their numbers: done has a count of items, a value is any number, empty and full have 0.
    #[test]
    fn answers_are_read() {
        let answer_in = |mark, number: u32| {
            let [a, b, c, d] = number.to_le_bytes();
            let record = with(RETURNED, 2, &[mark, 0, a, b, c, d])?;
            Some(record.serving.expect("a serving").answer)
        };
        for held in 1..=CAPACITY {
            assert_eq!(answer_in(0, held), Some(Answer::Done(held)));
        }
        for value in [0, 1, 64, 65, u32::MAX] {
            assert_eq!(answer_in(1, value), Some(Answer::Value(value)));
        }
        assert_eq!(answer_in(2, 0), Some(Answer::Empty));
        assert_eq!(answer_in(3, 0), Some(Answer::Full));
        for (mark, number) in [(0, 0), (0, 65), (0, 257), (2, 1), (3, 1), (3, 64)] {
            assert_eq!(answer_in(mark, number), None);
        }
    }

    /// Byte 12 and the numbers of the entries.
    #[test]
    fn contradictory_entries_are_no_record() {
        for (record, other) in [(RETURNED, 0), (WAITING, 1)] {
            for byte in [other, 2, 255] {
                assert_eq!(with(record, 12, &[byte]), None);
            }
            for began in [ENTRIES, OPEN] {
                assert_eq!(with_entry(record, 16, began), None);
            }
        }
        for began in [515, 516] {
            assert_eq!(with_entry(RETURNED, 16, began), None);
        }
        for returned in [0, 258, ENTRIES, OPEN] {
            assert_eq!(with_entry(RETURNED, 20, returned), None);
        }
        for returned in [0, 515, ENTRIES, OPEN - 1] {
            assert_eq!(with_entry(WAITING, 20, returned), None);
        }
        let mut unserved = WAITING;
        unserved[12] = 1;
        assert_eq!(with_entry(unserved, 20, 515), None);
        assert!(with_entry(RETURNED, 20, ENTRIES - 1).is_some());
        assert!(with_entry(WAITING, 16, ENTRIES - 1).is_some());
    }
}
