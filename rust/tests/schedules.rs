//! Every schedule of small files of both methods, and some of random files: the library beside the plain Rust implementation, and the claims on what
//! the library returns, after every cut; of a run that meets null, after every cut before that.
mod claims;
mod inputs;
mod plain;

use ccs::{Counts, RECORD_LENGTH};
use claims::{check_start, check_step, After, RecordBytes};
use inputs::{run_by_library, run_plainly, Given, Random, CC_SYNCH, DSM_SYNCH};

/// All schedules of so many entries or fewer are run, for two threads and for three; of DSM-Synch from the Swaps on.
const TWO_THREADS: usize = 17;
const THREE_THREADS: usize = 10;

/// All beginnings of so many entries are completed, for two threads and for three, and so many entries for each call complete them.
const TWO_BEGIN: usize = 9;
const THREE_BEGIN: usize = 5;
const COMPLETING: usize = 50;

/// One file, its schedule so far, and what the library returned for each cut of it.
struct Walk {
    given: Given,
    calls: usize,
    cuts: Vec<(Counts, Vec<RecordBytes>)>,
    checked: usize,
    returned: usize,
}

impl Walk {
    /// A file with an empty schedule.
    fn new(given: Given) -> Walk {
        let mut walk = Walk {
            calls: given.calls(),
            given,
            cuts: Vec::new(),
            checked: 0,
            returned: 0,
        };
        assert!(walk.given.schedule.is_empty());
        let cut = walk.run().expect("a file in range");
        walk.cuts.push(cut);
        check_start(&walk.given.fields(), &walk.after(0)).expect("the claims at the start");
        walk
    }

    /// The same, in DSM-Synch with every thread's first call before its Swap: up to there a call touches nothing that another thread does.
    fn from_swap(given: Given) -> Walk {
        let mut walk = Walk::new(given);
        if walk.given.method == DSM_SYNCH {
            for entry in 0..6 * walk.given.n {
                walk.push(entry / 6);
            }
            walk.checked = 0;
        }
        walk
    }

    /// Runs the schedule so far by the library and by the plain implementation: what is returned, or a refusal.
    fn run(&self) -> Result<(Counts, Vec<RecordBytes>), u8> {
        let file = self.given.bytes();
        let mut out = vec![0x5A; RECORD_LENGTH * self.calls];
        let mut plainly = out.clone();
        let numbers = run_by_library(&file, &mut out);
        assert_eq!(
            numbers,
            run_plainly(&file, &mut plainly),
            "{:?}",
            self.given
        );
        assert_eq!(out, plainly, "{:?}", self.given);
        let [records, turns, blanks, spins, remote] = numbers?;
        let counts = Counts {
            records,
            turns,
            blanks,
            spins,
            remote,
        };
        let records = out
            .chunks_exact(RECORD_LENGTH)
            .take(counts.records as usize);
        Ok((
            counts,
            records
                .map(|bytes| bytes.try_into().expect("a record's length"))
                .collect(),
        ))
    }

    fn after(&self, cut: usize) -> After<'_> {
        let (counts, records) = &self.cuts[cut];
        After {
            schedule: &self.given.schedule[..cut],
            counts: *counts,
            records,
        }
    }

    /// One entry more, checked: whether it is accepted. One that is not meets null, and is left out.
    fn takes(&mut self, entry: u8) -> bool {
        self.given.schedule.push(entry);
        let cut = match self.run() {
            Ok(cut) => cut,
            Err(refusal) => {
                assert_eq!((refusal, self.given.method), (14, DSM_SYNCH));
                self.given.schedule.pop();
                return false;
            }
        };
        self.cuts.push(cut);
        let last = self.cuts.len() - 1;
        let checked = check_step(
            &self.given.fields(),
            &self.after(last - 1),
            &self.after(last),
        );
        if let Err(claim) = checked {
            panic!("{claim}: {:?}", self.given);
        }
        self.checked += 1;
        true
    }

    /// One entry more, which does not meet null.
    fn push(&mut self, entry: u8) {
        assert!(self.takes(entry), "{entry} after {:?}", self.given);
    }

    fn pop(&mut self) {
        self.given.schedule.pop();
        self.cuts.pop();
    }

    /// Every schedule with so many entries more, by prefix; at the end of each, `then`.
    fn every(&mut self, more: usize, then: &mut impl FnMut(&mut Walk)) {
        if more == 0 {
            return then(self);
        }
        for entry in 0..self.given.n {
            self.push(entry);
            self.every(more - 1, then);
            self.pop();
        }
    }

    /// Completes every call, each thread for so many entries before the next: all calls return.
    fn complete(&mut self, burst: usize, first: u8) {
        let begun = self.given.schedule.len();
        let n = usize::from(self.given.n);
        for i in 0..COMPLETING * self.calls {
            self.push(((usize::from(first) + i / burst) % n) as u8);
        }
        let (_, records) = &self.cuts[self.cuts.len() - 1];
        assert_eq!(records.len(), self.calls, "{:?}", self.given);
        assert!(
            records.iter().all(|record| record[12] == 1),
            "{:?}",
            self.given
        );
        self.returned += self.calls;
        while self.given.schedule.len() > begun {
            self.pop();
        }
    }
}

const PUT_7: [u8; 5] = [0, 7, 0, 0, 0];
const PUT_8: [u8; 5] = [0, 8, 0, 0, 0];
const TAKE: [u8; 5] = [1, 0, 0, 0, 0];
const ADD_5: [u8; 5] = [2, 5, 0, 0, 0];
const ADD_MOST: [u8; 5] = [2, 255, 255, 255, 255];

/// A small file: of capacity 1, so that a second put is full.
fn small(object: u8, h: u8, counts: &[u8], requests: &[[u8; 5]]) -> Given {
    Given {
        version: 1,
        object,
        n: counts.len() as u8,
        h,
        capacity: if object == 2 { 0 } else { 1 },
        method: CC_SYNCH,
        counts: counts.to_vec(),
        requests: requests.concat(),
        schedule: Vec::new(),
    }
}

/// Two threads with one request each: all objects, all answers.
fn two_threads() -> Vec<Given> {
    vec![
        small(0, 1, &[1, 1], &[PUT_7, TAKE]),
        small(0, 2, &[1, 1], &[PUT_7, PUT_8]),
        small(1, 2, &[1, 1], &[TAKE, PUT_7]),
        small(2, 1, &[1, 1], &[ADD_5, ADD_MOST]),
    ]
}

/// Three threads, and a thread with two requests.
fn more_threads_or_requests() -> Vec<Given> {
    vec![
        small(0, 2, &[1, 1, 1], &[PUT_7, TAKE, TAKE]),
        small(1, 3, &[1, 1, 1], &[PUT_7, PUT_8, TAKE]),
        small(2, 2, &[2, 1], &[ADD_5, ADD_MOST, ADD_5]),
        small(0, 1, &[1, 2], &[PUT_7, TAKE, PUT_8]),
    ]
}

/// Room for two items: a second put counts 2, and a take sees whether it is a queue or a stack.
fn two_items() -> Vec<Given> {
    let two = |given| Given {
        capacity: 2,
        ..given
    };
    vec![
        two(small(0, 2, &[1, 1, 1], &[PUT_7, TAKE, PUT_8])),
        two(small(1, 1, &[2, 1], &[PUT_7, TAKE, PUT_8])),
    ]
}

/// The files, and the same of DSM-Synch.
fn by_both_methods(files: Vec<Given>) -> Vec<Given> {
    let by_dsm_synch = |given: &Given| Given {
        version: 2,
        method: DSM_SYNCH,
        ..given.clone()
    };
    let others: Vec<Given> = files.iter().map(by_dsm_synch).collect();
    [files, others].concat()
}

#[test]
fn two_threads_one_request_each() {
    for given in by_both_methods(two_threads()) {
        let mut walk = Walk::from_swap(given);
        walk.every(TWO_THREADS, &mut |_| {});
        assert_eq!(walk.checked, (1 << (TWO_THREADS + 1)) - 2);
    }
}

#[test]
fn three_threads_one_request_each() {
    for given in by_both_methods(vec![more_threads_or_requests().swap_remove(0)]) {
        let mut walk = Walk::from_swap(given);
        walk.every(THREE_THREADS, &mut |_| {});
        assert_eq!(walk.checked, (3usize.pow(THREE_THREADS as u32 + 1) - 3) / 2);
    }
}

#[test]
fn every_beginning_completed() {
    let files = [two_threads(), more_threads_or_requests(), two_items()].concat();
    for given in by_both_methods(files) {
        let begin = if given.n == 2 { TWO_BEGIN } else { THREE_BEGIN };
        let beginnings = usize::from(given.n).pow(begin as u32);
        let mut walk = Walk::from_swap(given);
        walk.every(begin, &mut |walk| {
            for burst in [1, 16] {
                walk.complete(burst, 0);
                walk.complete(burst, 1);
            }
        });
        assert_eq!(walk.returned, beginnings * 4 * walk.calls);
    }
}

#[test]
fn random_files_cut_everywhere() {
    let mut random = Random(0x5EED_0005);
    let (mut checked, mut returned) = (0, 0);
    for i in 0..600 {
        let mut given = Given::random(&mut random, if i % 20 == 0 { 2_000 } else { 400 });
        let schedule = std::mem::take(&mut given.schedule);
        let mut walk = Walk::new(given);
        for entry in schedule {
            walk.push(entry);
        }
        let (_, records) = &walk.cuts[walk.cuts.len() - 1];
        returned += records.iter().filter(|record| record[12] == 1).count();
        checked += walk.checked;
    }
    assert!(checked > 100_000, "{checked} cuts");
    assert!(returned > 1_500, "{returned} calls returned");
}

/// Runs of DSM-Synch that meet null: every cut before that is as claimed, also with other entries in the last one's place, and every longer schedule
/// is refused as well.
#[test]
fn up_to_null() {
    let mut random = Random(0x5EED_0008);
    for _ in 0..200 {
        let mut given = Given::that_meets_null(&mut random);
        let mut schedule = std::mem::take(&mut given.schedule);
        let last = schedule.pop().expect("an entry");
        let mut walk = Walk::new(given);
        for entry in schedule {
            walk.push(entry);
        }
        assert!(!walk.takes(last), "{:?}", walk.given);
        for _ in 0..60 {
            let others = (0..walk.given.n).filter(|&entry| entry != last);
            let entry = others.collect::<Vec<u8>>()[random.below(usize::from(walk.given.n) - 1)];
            walk.push(entry);
        }
        assert!(!walk.takes(last), "{:?}", walk.given);
        walk.given.schedule.push(last);
        for entry in 0..walk.given.n {
            walk.given.schedule.push(entry);
            assert_eq!(walk.run(), Err(14));
        }
    }
}
