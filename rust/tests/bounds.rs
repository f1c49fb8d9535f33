//! The bounds on the remote references of a returned call of CC-Synch are reached: 6 where another thread served it, and k + 5 where it combined and served k,
//! for every k from 1 to 239. By the library, beside the plain Rust implementation.
mod inputs;
mod plain;

use ccs::{Record, ENOUGH_FOR_RECORDS};
use inputs::{run_by_library, run_plainly, stretched, Given, Stretch, CC_SYNCH};

/// A counter to which each thread adds 1 as often as its count says.
fn counter(h: u8, counts: Vec<u8>, schedule: &[Stretch]) -> Given {
    let calls = counts.iter().map(|&count| usize::from(count)).sum();
    Given {
        version: 1,
        object: 2,
        n: counts.len() as u8,
        h,
        capacity: 0,
        method: CC_SYNCH,
        counts,
        requests: [2, 1, 0, 0, 0].repeat(calls),
        schedule: stretched(schedule),
    }
}

/// The records of a run, alike by both implementations.
fn records(given: &Given) -> Vec<Record> {
    let file = given.bytes();
    let mut out = [0; ENOUGH_FOR_RECORDS];
    let mut plainly = out;
    assert_eq!(
        run_by_library(&file, &mut out),
        run_plainly(&file, &mut plainly)
    );
    assert_eq!(out, plainly);
    let counts = ccs::run(&file, &mut out).expect("a file in range");
    ccs::records(&out, &counts).collect()
}

/// Thread 0 fetches its own node, Tail and curNode, and reads wait again after each of lines 16, 17 and 18 of thread 1.
#[test]
fn six_where_another_served() {
    let schedule = [
        (1, 8),
        (0, 9),
        (1, 14),
        (0, 1),
        (1, 1),
        (0, 1),
        (1, 1),
        (0, 3),
    ];
    let records = records(&counter(2, vec![1, 1], &schedule));
    let call = &records[1];
    let serving = call.serving.expect("a serving");
    assert_eq!((call.thread, serving.server), (0, 1));
    assert_eq!((call.returned, call.remote), (Some(37), 6));
}

/// The thread of call i, from 0, that comes after thread 0's first: thread 0 for the 15 that it has left, then threads 2 to 15 for 16 each.
fn caller(i: usize) -> u8 {
    match i {
        0..=14 => 0,
        _ => (2 + (i - 15) / 16) as u8,
    }
}

/// Thread 1's turn serves k calls, its own and k - 1 others. It fetches its own node, Tail, curNode, curNode again after line 20 of thread 0's turn,
/// and a node for each other call. One more call runs line 6 before the turn's last line 13, and line 7 between that and line 20: the node at the end
/// is fetched twice.
fn combining(k: usize) -> Given {
    let callers: Vec<u8> = (0..k).map(caller).collect();
    let (&last, others) = callers.split_last().expect("a caller");
    let mut counts = vec![0; 2.max(usize::from(last) + 1)];
    for &thread in [0, 1].iter().chain(&callers) {
        counts[usize::from(thread)] += 1;
    }
    let mut schedule = vec![(0, 19), (1, 9), (0, 2), (1, 10)];
    for &other in others {
        schedule.extend([(other, 8), (1, 7), (other, 3)]);
    }
    schedule.extend([(last, 6), (1, 1), (last, 1), (1, 2)]);
    counter(k as u8, counts, &schedule)
}

#[test]
fn k_and_five_where_it_combined() {
    for k in 1..=239 {
        let records = records(&combining(k));
        let mut own = records.iter().filter(|record| record.thread == 1);
        let call = own.next().expect("thread 1's call");
        let serving = call.serving.expect("a serving");
        assert_eq!(serving.server, 1);
        assert!(call.returned.is_some());
        let turns = records.iter().filter_map(|record| record.serving);
        let served = turns.filter(|other| other.turn == serving.turn).count();
        assert_eq!((served, call.remote as usize), (k, k + 5));
    }
}
