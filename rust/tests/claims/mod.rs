//! Demand 3 of document 01 and what requests No. 1, 3, 5 and 6 of document 02 make of it, for both methods, so far as they can be seen
//! from outside: evaluated on the records and counts that a bench returns for every cut of one schedule that is not refused,
//! on the cuts themselves, and on the file's fields alone.

use ccs::{Counts, Fields, RECORD_LENGTH};

/// The bytes of a record.
pub type RecordBytes = [u8; RECORD_LENGTH];

/// Bytes 20 to 23 of the record of an open call.
const OPEN: usize = 4_294_967_295;

/// The method's number of DSM-Synch.
const DSM_SYNCH: u8 = 1;

/// A schedule cut to some length, and what the bench returned for it. The file's own schedule is not read.
#[derive(Debug, PartialEq, Eq, Clone, Copy)]
pub struct After<'a> {
    pub schedule: &'a [u8],
    pub counts: Counts,
    pub records: &'a [RecordBytes],
}

/// The claims on the empty cut.
pub fn check_start(file: &Fields, after: &After) -> Result<(), String> {
    claim(after.schedule.is_empty(), "the cut has no entry")?;
    claim(
        after.counts == Counts::default(),
        "all counts are 0 at the start",
    )?;
    check_cut(file, after)
}

/// The claims on one more entry, `before` having been checked: those on the new cut, and those on
/// the step from one cut to the next.
pub fn check_step(file: &Fields, before: &After, after: &After) -> Result<(), String> {
    let Some((&entry, earlier)) = after.schedule.split_last() else {
        return Err("the cut has an entry".to_string());
    };
    claim(before.schedule == earlier, "the cut has one entry more")?;
    check_cut(file, after)?;
    check_counts(file, before, after)?;
    check_records(before, entry, after)?;
    check_entry(file, before, entry, after)
}

/// The claims on one cut by itself.
fn check_cut(file: &Fields, after: &After) -> Result<(), String> {
    let After {
        schedule,
        counts,
        records,
    } = *after;
    claim(
        records.len() == counts.records as usize,
        "as many records as Swaps counted",
    )?;
    check_calls(file, records)?;
    check_times(schedule, records)?;
    check_precedence(records)?;
    check_marks(file, records)?;
    check_servings(file, &counts, records)?;
    check_answers(file, records)?;
    check_turns(file, &counts, records)?;
    check_costs(file, schedule, &counts, records)
}

/// Records name calls of the file, each once: a thread's calls in their order, one at a time.
fn check_calls(file: &Fields, records: &[RecordBytes]) -> Result<(), String> {
    let mut seen = [0; 16];
    let mut open = [false; 16];
    for record in records {
        claim(record[0] < file.n, "a record names a thread of the file")?;
        let thread = usize::from(record[0]);
        claim(
            record[1] < file.counts[thread],
            "a record names a request of its thread",
        )?;
        claim(
            record[1] == seen[thread],
            "a thread's records name its requests once, in order",
        )?;
        claim(
            !open[thread],
            "a thread begins no call before its last one has returned",
        )?;
        claim(record[12] <= 1, "byte 12 is 0 or 1")?;
        claim(record[15] == 0, "byte 15 is 0")?;
        seen[thread] += 1;
        open[thread] = !returned(record);
    }
    Ok(())
}

/// The two numbers of a record: a call begins with its thread's first entry, or with the first after
/// the return of the call before; it returns with a later entry of its thread.
fn check_times(schedule: &[u8], records: &[RecordBytes]) -> Result<(), String> {
    let mut idle_since = [0; 16];
    for record in records {
        let (began, returned_at) = (began(record), returned_at(record));
        let idle = &mut idle_since[usize::from(record[0])];
        claim(
            schedule.get(began) == Some(&record[0]),
            "a call begins with an entry of its thread",
        )?;
        claim(
            began >= *idle,
            "a thread's calls begin in order, each after the one before returned",
        )?;
        claim(
            !schedule[*idle..began].contains(&record[0]),
            "a call begins with its thread's first entry after the call before",
        )?;
        claim(
            returned(record) == (returned_at != OPEN),
            "bytes 20 to 23 are 4294967295 just while byte 12 is 0",
        )?;
        claim(
            !returned(record)
                || (began < returned_at && schedule.get(returned_at) == Some(&record[0])),
            "a call returns with a later entry of its thread",
        )?;
        *idle = returned_at + 1;
    }
    Ok(())
}

/// A call that returned before another began stands earlier in Swap order.
fn check_precedence(records: &[RecordBytes]) -> Result<(), String> {
    for (i, record) in records.iter().enumerate() {
        let returned_at = returned_at(record);
        claim(
            !records[..=i].iter().any(|other| returned_at < began(other)),
            "a call that returned before another began stands earlier in Swap order",
        )?;
    }
    Ok(())
}

/// The value goes by the mark: a count of items for done, 0 for empty, full and none.
fn check_marks(file: &Fields, records: &[RecordBytes]) -> Result<(), String> {
    for record in records {
        let value = number(record, 4);
        match record[2] {
            0 => claim(
                (1..=u32::from(file.capacity)).contains(&value),
                "a put that is done counts from 1 to the capacity",
            )?,
            1 => {}
            2 | 3 | 255 => claim(value == 0, "empty, full and none have value 0")?,
            _ => claim(false, "byte 2 is 0 to 3 or 255")?,
        }
    }
    Ok(())
}

/// A call that is served has a thread of the file and a turn begun; one that isn't has neither.
fn check_servings(file: &Fields, counts: &Counts, records: &[RecordBytes]) -> Result<(), String> {
    for record in records {
        if record[2] == 255 {
            claim(record[3] == 255, "server 255 while not applied")?;
            claim(turn(record) == 65_535, "turn 65535 while not applied")?;
            claim(!returned(record), "a returned call is served")?;
        } else {
            claim(record[3] < file.n, "the server is a thread of the file")?;
            claim(turn(record) < counts.turns, "the turn is one begun")?;
        }
    }
    Ok(())
}

/// The applied requests are the first ones in Swap order, answered as by the plain object.
fn check_answers(file: &Fields, records: &[RecordBytes]) -> Result<(), String> {
    let mut object = Plain::new(file);
    let a = applied(records);
    for record in &records[..a] {
        let answer = object.answer(request(file, record));
        claim(
            (record[2], number(record, 4)) == answer,
            "the answer is the plain object's",
        )?;
    }
    claim(
        records[a..].iter().all(|record| record[2] == 255),
        "no request is applied before an earlier one in Swap order",
    )
}

/// Turns follow one another in Swap order; each has one server, which serves itself first, and
/// serves at most h. Only the last turn begun may have served none yet.
fn check_turns(file: &Fields, counts: &Counts, records: &[RecordBytes]) -> Result<(), String> {
    let a = applied(records);
    let mut turns = 0;
    let mut served = 0;
    let mut server = 255;
    for record in &records[..a] {
        if turn(record) == turns {
            claim(
                record[3] == record[0],
                "a turn serves its own thread's call first",
            )?;
            turns += 1;
            served = 0;
            server = record[3];
        }
        claim(
            turn(record) + 1 == turns,
            "turns are numbered in Swap order, without a gap",
        )?;
        claim(
            record[3] == server,
            "all records of one turn have one server",
        )?;
        claim(
            served == 0 || record[3] != record[0],
            "a turn serves its own thread once",
        )?;
        served += 1;
        claim(served <= u32::from(file.h), "no turn serves more than h")?;
    }
    claim(
        counts.turns == turns || counts.turns == turns + 1,
        "only the last turn has served none",
    )?;
    claim(
        counts.turns == turns || a < records.len(),
        "a turn has its own call to serve",
    )
}

/// What a returned call costs, by the file's method, and what the total is beside the records' costs.
fn check_costs(
    file: &Fields,
    schedule: &[u8],
    counts: &Counts,
    records: &[RecordBytes],
) -> Result<(), String> {
    for (i, record) in records.iter().enumerate() {
        if returned(record) {
            match file.method {
                DSM_SYNCH => check_dsm_cost(records, i)?,
                _ => check_cc_cost(records, i)?,
            }
        }
    }
    let sum: u64 = records.iter().map(cost).sum();
    claim(
        u64::from(counts.remote) == sum + before_swap(file, schedule, records),
        "the total is the records' costs and those of calls before their Swap",
    )
}

/// CC-Synch: at most k + 5 for a call that combined and served k, at most 6 for one that another thread served.
fn check_cc_cost(records: &[RecordBytes], i: usize) -> Result<(), String> {
    let record = &records[i];
    if record[3] != record[0] {
        return claim(
            cost(record) <= 6,
            "a call served by another thread costs at most 6",
        );
    }
    let k = records[i..]
        .iter()
        .take_while(|other| turn(other) == turn(record))
        .count();
    claim(
        cost(record) <= k as u64 + 5,
        "a call that combined costs at most k + 5",
    )
}

/// DSM-Synch: exactly 2 for a call that another thread served, or 1 if its Swap gave its own thread's other node, so that its thread swapped
/// last before it; nothing for one that combined.
fn check_dsm_cost(records: &[RecordBytes], i: usize) -> Result<(), String> {
    let record = &records[i];
    let again = i > 0 && records[i - 1][0] == record[0];
    claim(
        record[3] == record[0] || cost(record) == 2 || again && cost(record) == 1,
        "a call served by another thread costs exactly 2, or 1",
    )
}

/// The cost of the calls before their Swap. Such a call accesses its thread's own node alone. In DSM-Synch that is never remote. In CC-Synch no
/// other thread writes the node then: a thread's first call fetches it at line 2, and a later call finds the copy with which the last one returned.
fn before_swap(file: &Fields, schedule: &[u8], records: &[RecordBytes]) -> u64 {
    if file.method == DSM_SYNCH {
        return 0;
    }
    let fetched = |&thread: &u8| {
        let mut entries = schedule.iter().filter(|&&entry| entry == thread);
        file.counts[usize::from(thread)] > 0
            && entries.nth(1).is_some()
            && records.iter().all(|record| record[0] != thread)
    };
    (0..file.n).filter(fetched).count() as u64
}

/// How far one entry takes the counts. Line 19 of DSM-Synch may have three accesses.
fn check_counts(file: &Fields, before: &After, after: &After) -> Result<(), String> {
    let (old, new) = (before.counts, after.counts);
    claim(
        grows(old.records, new.records, 1),
        "an entry adds 0 or 1 to the records",
    )?;
    claim(
        grows(old.turns, new.turns, 1),
        "an entry adds 0 or 1 to the turns",
    )?;
    claim(
        grows(old.blanks, new.blanks, 1),
        "an entry adds 0 or 1 to the blanks",
    )?;
    claim(
        grows(old.spins, new.spins, 1),
        "an entry adds 0 or 1 to the spins",
    )?;
    let most = if file.method == DSM_SYNCH { 3 } else { 1 };
    claim(
        grows(old.remote, new.remote, most),
        "an entry adds 0 or 1 to the remote references, in DSM-Synch up to 3",
    )
}

/// What one entry may change in the records: it serves one, or its thread's own call goes on.
fn check_records(before: &After, entry: u8, after: &After) -> Result<(), String> {
    let a = applied(before.records);
    let own = open_call(before.records, entry);
    let remote = after.counts.remote - before.counts.remote;
    for (i, (old, new)) in before.records.iter().zip(after.records).enumerate() {
        claim(old[..2] == new[..2], "thread and request of a record stay")?;
        claim(
            old[16..20] == new[16..20],
            "the number of a call's line 1 stays",
        )?;
        claim(old[12] <= new[12], "a returned call stays returned")?;
        if i != a {
            let same = old[2..8] == new[2..8] && old[13..15] == new[13..15];
            claim(
                same,
                "an entry applies only the next request in Swap order, and once",
            )?;
        }
        if own == Some(i) {
            let cost = number(old, 8).checked_add(remote);
            claim(
                cost == Some(number(new, 8)),
                "an entry's remote references are its call's",
            )?;
            claim(
                !returned(new) || returned_at(new) == before.schedule.len(),
                "the number of a return is that of its entry",
            )?;
        } else {
            claim(
                old[8..13] == new[8..13] && old[20..] == new[20..],
                "an entry changes no other call's cost and return",
            )?;
        }
    }
    Ok(())
}

/// An entry is at most one of: Swap, begin of a turn, blank, spin, application, return.
fn check_entry(file: &Fields, before: &After, entry: u8, after: &After) -> Result<(), String> {
    let a = applied(before.records);
    let own = open_call(before.records, entry);
    let swaps = after.counts.records > before.counts.records;
    let begins = after.counts.turns > before.counts.turns;
    let blank = after.counts.blanks > before.counts.blanks;
    let spins = after.counts.spins > before.counts.spins;
    let applies = applied(after.records) > a;
    let returns = own.is_some_and(|i| returned(&after.records[i]));
    let remote = after.counts.remote - before.counts.remote;

    let events = [swaps, begins, blank, spins, applies, returns];
    claim(
        events.iter().filter(|&&event| event).count() <= 1,
        "an entry is one line",
    )?;
    claim(
        remote == 0 || !(begins || blank || returns),
        "the begin of a turn and a blank have no access, and a return reads a node that is local",
    )?;
    claim(
        blank == exhausted(file, before.records, entry),
        "an entry is a blank just if its thread has no request left unreturned",
    )?;
    claim(
        own.is_some() || !(begins || spins || applies),
        "a call begins no turn, spins or serves before Swap",
    )?;
    if swaps {
        claim(
            own.is_none(),
            "a Swap is one of a thread without an open record",
        )?;
        check_swap(file, before, entry, after)?;
    }
    if begins {
        claim(
            own == Some(a),
            "a turn begins with the first unserved call in Swap order",
        )?;
        let ended = applied_turns(before.records) == before.counts.turns;
        claim(ended, "no turn begins before the last one has served")?;
    }
    if spins {
        check_spin(file, before, entry, remote)?;
    }
    if applies {
        check_serving(file, before, entry, after)?;
    }
    Ok(())
}

/// When a spin is remote. CC-Synch: a call that combined spins no more, and one not yet served spins on a valid copy. DSM-Synch: just at line 25 on
/// another's node, which the turn served last; at line 10 the node is the thread's own.
fn check_spin(file: &Fields, before: &After, entry: u8, remote: u32) -> Result<(), String> {
    let a = applied(before.records);
    let own = open_call(before.records, entry);
    let combined = own.is_some_and(|i| before.records[i][3] == entry);
    if file.method == DSM_SYNCH {
        let others = combined && before.records[a - 1][0] != entry;
        return claim(
            remote == u32::from(others),
            "a spin is remote just on another's node",
        );
    }
    claim(!combined, "a call that combined spins no more")?;
    let served = own.is_some_and(|i| i < a);
    claim(
        remote == 0 || served,
        "before it is served a call spins on a valid copy",
    )
}

/// A Swap's record is of the entry's thread, unserved and open, with the cost of the lines up to the Swap.
fn check_swap(file: &Fields, before: &After, entry: u8, after: &After) -> Result<(), String> {
    let record = &after.records[after.records.len() - 1];
    claim(record[0] == entry, "a Swap is one of the entry's thread")?;
    claim(record[2] == 255, "a record begins unserved")?;
    claim(!returned(record), "a record begins open")?;
    let own_entries = after.schedule[began(record)..]
        .iter()
        .filter(|&&other| other == entry);
    let first = record[1] == 0;
    let again = before.records.last().is_some_and(|last| last[0] == entry);
    let (swap_line, expected) = match file.method {
        DSM_SYNCH => (7, 1),
        _ => (5, u64::from(first) + u64::from(!again)),
    };
    claim(
        own_entries.count() == swap_line,
        "a call's Swap is its fifth entry, in DSM-Synch its seventh, and its line 1 the first",
    )?;
    claim(
        cost(record) == expected,
        "a call fetches its node if it is its thread's first, and Tail unless its thread swapped last; in DSM-Synch Tail alone is remote",
    )
}

/// The first unserved call is served by the entry's thread, in the turn that its own call began. In CC-Synch the thread has a copy of the node; in
/// DSM-Synch both accesses go by the node's owner.
fn check_serving(file: &Fields, before: &After, entry: u8, after: &After) -> Result<(), String> {
    let record = &after.records[applied(before.records)];
    claim(record[3] == entry, "the server is the entry's thread")?;
    claim(
        turn(record) + 1 == before.counts.turns,
        "an entry serves in the last turn begun",
    )?;
    let first = after
        .records
        .iter()
        .position(|other| turn(other) == turn(record));
    claim(
        open_call(before.records, entry) == first,
        "the server's own call, still open, is the first of its turn",
    )?;
    let others = file.method == DSM_SYNCH && record[0] != entry;
    claim(
        after.counts.remote - before.counts.remote == 2 * u32::from(others),
        "line 16 is remote just in DSM-Synch on another's node, and twice",
    )
}

fn claim(holds: bool, text: &str) -> Result<(), String> {
    if holds {
        Ok(())
    } else {
        Err(text.to_string())
    }
}

fn grows(old: u32, new: u32, most: u32) -> bool {
    new.checked_sub(old).is_some_and(|more| more <= most)
}

/// How many requests are applied: the records before the first that isn't.
fn applied(records: &[RecordBytes]) -> usize {
    records.iter().take_while(|record| record[2] != 255).count()
}

/// How many turns have served.
fn applied_turns(records: &[RecordBytes]) -> u32 {
    let a = applied(records);
    if a == 0 {
        0
    } else {
        turn(&records[a - 1]) + 1
    }
}

/// The record of the thread's call that is past its Swap and has not returned.
fn open_call(records: &[RecordBytes], thread: u8) -> Option<usize> {
    records
        .iter()
        .position(|record| record[0] == thread && !returned(record))
}

/// Whether all requests of the thread have returned.
fn exhausted(file: &Fields, records: &[RecordBytes], thread: u8) -> bool {
    let own = records
        .iter()
        .filter(|record| record[0] == thread && returned(record));
    own.count() == usize::from(file.counts[usize::from(thread)])
}

fn returned(record: &RecordBytes) -> bool {
    record[12] == 1
}

/// The number of the entry that ran the call's line 1.
fn began(record: &RecordBytes) -> usize {
    number(record, 16) as usize
}

/// The number of the entry with which the call returned, `OPEN` while it has not.
fn returned_at(record: &RecordBytes) -> usize {
    number(record, 20) as usize
}

/// The call's remote references so far.
fn cost(record: &RecordBytes) -> u64 {
    number(record, 8).into()
}

fn turn(record: &RecordBytes) -> u32 {
    u16::from_le_bytes([record[13], record[14]]).into()
}

fn number(bytes: &[u8], at: usize) -> u32 {
    u32::from_le_bytes([bytes[at], bytes[at + 1], bytes[at + 2], bytes[at + 3]])
}

/// The five bytes of the request that a record names.
fn request<'a>(file: &Fields<'a>, record: &RecordBytes) -> &'a [u8] {
    let earlier = &file.counts[..usize::from(record[0])];
    let number = earlier
        .iter()
        .map(|&count| usize::from(count))
        .sum::<usize>()
        + usize::from(record[1]);
    &file.requests[5 * number..5 * number + 5]
}

/// The plain object of document 01, which counts by request No. 3: a list of values or a sum.
struct Plain {
    queue: bool,
    capacity: usize,
    list: Vec<u32>,
    sum: u32,
}

impl Plain {
    fn new(file: &Fields) -> Self {
        Plain {
            queue: file.object == 0,
            capacity: file.capacity.into(),
            list: Vec::new(),
            sum: 0,
        }
    }

    /// Mark and value of the answer; of done, how many values the list has then.
    fn answer(&mut self, request: &[u8]) -> (u8, u32) {
        let value = number(request, 1);
        match request[0] {
            0 if self.list.len() < self.capacity => {
                self.list.push(value);
                (0, self.list.len() as u32)
            }
            0 => (3, 0),
            1 if self.list.is_empty() => (2, 0),
            1 if self.queue => (1, self.list.remove(0)),
            1 => (1, self.list.pop().unwrap_or(0)),
            _ => {
                let sum = self.sum;
                self.sum = sum.wrapping_add(value);
                (1, sum)
            }
        }
    }
}
