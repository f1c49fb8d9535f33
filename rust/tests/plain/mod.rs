//! An independent implementation of document 01, with requests No. 1 to 3 and 5 to 7 of document 02, and of Algorithms 1 and 2
//! in source 004 (CC-Synch and DSM-Synch), written from these papers, with expected listings and pages to try it on, and, but for the
//! count of request No. 3, without the code that it is compared with.

// Each user of this module needs only a part of it.
#![allow(dead_code)]

use std::fmt::Write;

/// A sound file in numbers: as in the file, the requests in all, the schedule's length.
#[derive(Debug, PartialEq, Eq, Clone, Copy)]
pub struct Judged {
    pub version: u32,
    pub object: u32,
    pub n: u32,
    pub h: u32,
    pub capacity: u32,
    pub method: u32,
    pub requests: u32,
    pub entries: u32,
}

/// The five counts of a run.
#[derive(Debug, PartialEq, Eq, Clone, Copy, Default)]
pub struct Counts {
    pub records: u32,
    pub turns: u32,
    pub blanks: u32,
    pub spins: u32,
    pub remote: u32,
}

/// What the writer is given: the counts and the requests (five bytes each) as two rows.
#[derive(Debug, PartialEq, Eq, Clone, Copy)]
pub struct Fields<'a> {
    pub version: u16,
    pub object: u8,
    pub n: u8,
    pub h: u8,
    pub capacity: u8,
    pub method: u8,
    pub counts: &'a [u8],
    pub requests: &'a [u8],
    pub schedule: &'a [u8],
}

/// Judges a file: its numbers, or the number of its refusal.
pub fn judge(file: &[u8]) -> Result<Judged, u8> {
    let bench = Bench::of(file)?;
    Ok(Judged {
        version: bench.version.into(),
        object: bench.object.into(),
        n: bench.n.into(),
        h: bench.h.into(),
        capacity: bench.capacity.into(),
        method: bench.method.into(),
        requests: bench.calls() as u32,
        entries: bench.schedule.len() as u32,
    })
}

/// Judges a file, runs it and writes one record per Swap, in Swap order. 13 is judged before the run, and so before its 14.
pub fn run(file: &[u8], out: &mut [u8]) -> Result<Counts, u8> {
    let bench = Bench::of(file)?;
    require(out.len() >= RECORD * bench.calls(), 13)?;
    let mut records = ROOM;
    let counts = Machine::fresh(&bench).run(&bench, &mut records)?;
    let written = RECORD * counts.records as usize;
    out[..written].copy_from_slice(&records[..written]);
    Ok(counts)
}

/// Writes a file from its fields: the length written.
pub fn write(fields: &Fields, out: &mut [u8]) -> Result<usize, u8> {
    let Fields {
        version,
        object,
        n,
        h,
        capacity,
        method,
        counts,
        requests,
        schedule,
    } = *fields;
    require(version_rule(version), 3)?;
    require(object <= COUNTER, 4)?;
    require((1..=16).contains(&n), 5)?;
    require(h != 0, 6)?;
    require(capacity_rule(object, capacity), 7)?;
    require(method_rule(version, method), 15)?;
    require(counts.len() >= n.into(), 1)?;
    require(counts.len() <= n.into(), 12)?;
    require(counts.iter().all(|&count| count <= 16), 8)?;
    let calls: usize = counts.iter().map(|&count| usize::from(count)).sum();
    require(requests.len() >= REQUEST * calls, 1)?;
    require(requests.len() <= REQUEST * calls, 12)?;
    for request in requests.chunks_exact(REQUEST) {
        require(code_rule(object, request[0]), 9)?;
        require(value_rule(request[0], &request[1..]), 9)?;
    }
    require(schedule.len() <= ENTRIES, 10)?;
    require(all_below(schedule, n), 11)?;
    let method = method_byte(version, &method);
    let length = 9 + method.len() + counts.len() + requests.len() + 2 + schedule.len();
    require(out.len() >= length, 13)?;

    let mut rest = &mut out[..length];
    put(&mut rest, &MARK);
    put(&mut rest, &version.to_le_bytes());
    put(&mut rest, &[object, n, h, capacity]);
    put(&mut rest, method);
    let mut requests = requests;
    for &count in counts {
        let (own, others) = requests.split_at(REQUEST * usize::from(count));
        put(&mut rest, &[count]);
        put(&mut rest, own);
        requests = others;
    }
    put(&mut rest, &(schedule.len() as u16).to_le_bytes());
    put(&mut rest, schedule);
    Ok(length)
}

/// Converts a file to the wanted version: the length written. Version 1 has no DSM-Synch; all but the version and the method's byte stays.
pub fn convert(file: &[u8], wanted: u16, out: &mut [u8]) -> Result<usize, u8> {
    require(version_rule(wanted), 3)?;
    let bench = Bench::of(file)?;
    require(method_rule(wanted, bench.method), 16)?;
    let (head, rest) = file.split_at(9);
    let rows = &rest[method_byte(bench.version, &bench.method).len()..];
    let method = method_byte(wanted, &bench.method);
    let version = &wanted.to_le_bytes();
    let converted = [&head[..3], version, &head[5..], method, rows].concat();
    give(&converted, out)
}

/// Writes a file's listing, `refused N` for a refused file: the length written.
pub fn list(file: &[u8], out: &mut [u8]) -> Result<usize, u8> {
    let mut records = ROOM;
    let text = match (Bench::of(file), run(file, &mut records)) {
        (Ok(bench), Ok(counts)) => listing(&bench, &counts, &records),
        (Err(refusal), _) | (_, Err(refusal)) => format!("refused {refusal}\n"),
    };
    give(text.as_bytes(), out)
}

/// Writes the pages of a file's run: the length written. 13 is by the rows of the run, and so after its 14.
pub fn page(file: &[u8], out: &mut [u8]) -> Result<usize, u8> {
    let mut records = ROOM;
    let counts = run(file, &mut records)?;
    give(pages(&counts, &records).as_bytes(), out)
}

/// Copies bytes to a lent buffer, if they fit.
fn give(bytes: &[u8], out: &mut [u8]) -> Result<usize, u8> {
    let lent = out.get_mut(..bytes.len()).ok_or(13)?;
    lent.copy_from_slice(bytes);
    Ok(bytes.len())
}

// ---- The bench file ----

const MARK: [u8; 3] = *b"CCS";
const CC_SYNCH: u8 = 0;
const DSM_SYNCH: u8 = 1;
const QUEUE: u8 = 0;
const COUNTER: u8 = 2;
const PUT: u8 = 0;
const TAKE: u8 = 1;
const ADD: u8 = 2;
/// Bytes of a request, bytes of a record, most entries of a schedule.
const REQUEST: usize = 5;
const RECORD: usize = 24;
const ENTRIES: usize = 32_768;

/// Room for the records of every file.
const ROOM: [u8; RECORD * 16 * 16] = [0; RECORD * 16 * 16];

/// A sound file, taken apart: `requests` has the bytes of each thread's requests.
struct Bench<'a> {
    version: u16,
    object: u8,
    n: u8,
    h: u8,
    capacity: u8,
    method: u8,
    requests: [&'a [u8]; 16],
    schedule: &'a [u8],
}

impl<'a> Bench<'a> {
    /// Judges the fields front to back.
    fn of(file: &'a [u8]) -> Result<Self, u8> {
        let mut rest = file;
        require(field(&mut rest)? == MARK, 2)?;
        let version = u16::from_le_bytes(field(&mut rest)?);
        require(version_rule(version), 3)?;
        let [object] = field(&mut rest)?;
        require(object <= COUNTER, 4)?;
        let [n] = field(&mut rest)?;
        require((1..=16).contains(&n), 5)?;
        let [h] = field(&mut rest)?;
        require(h != 0, 6)?;
        let [capacity] = field(&mut rest)?;
        require(capacity_rule(object, capacity), 7)?;
        let [method] = match version {
            1 => [CC_SYNCH],
            _ => field(&mut rest)?,
        };
        require(method_rule(version, method), 15)?;
        let mut requests = [&file[..0]; 16];
        for own in &mut requests[..n.into()] {
            *own = requests_of_thread(object, &mut rest)?;
        }
        let length = usize::from(u16::from_le_bytes(field(&mut rest)?));
        require(length <= ENTRIES, 10)?;
        let (schedule, end) = rest.split_at(length.min(rest.len()));
        require(all_below(schedule, n), 11)?;
        require(schedule.len() == length, 1)?;
        require(end.is_empty(), 12)?;
        Ok(Bench {
            version,
            object,
            n,
            h,
            capacity,
            method,
            requests,
            schedule,
        })
    }

    /// The requests in the file, performed or not.
    fn calls(&self) -> usize {
        self.requests.iter().map(|own| own.len() / REQUEST).sum()
    }
}

/// One thread's count and requests: the bytes of the requests.
fn requests_of_thread<'a>(object: u8, rest: &mut &'a [u8]) -> Result<&'a [u8], u8> {
    let [count] = field(rest)?;
    require(count <= 16, 8)?;
    let own = *rest;
    for _ in 0..count {
        let [code] = field(rest)?;
        require(code_rule(object, code), 9)?;
        let value: [u8; 4] = field(rest)?;
        require(value_rule(code, &value), 9)?;
    }
    Ok(&own[..REQUEST * usize::from(count)])
}

/// The next field, or 1 where the end cuts it off.
fn field<const N: usize>(rest: &mut &[u8]) -> Result<[u8; N], u8> {
    let (bytes, behind) = rest.split_first_chunk().ok_or(1)?;
    *rest = behind;
    Ok(*bytes)
}

/// Gives the refusal unless the field's rule holds.
fn require(holds: bool, refusal: u8) -> Result<(), u8> {
    if holds {
        Ok(())
    } else {
        Err(refusal)
    }
}

fn version_rule(version: u16) -> bool {
    version == 1 || version == 2
}

/// Version 1 knows CC-Synch alone.
fn method_rule(version: u16, method: u8) -> bool {
    method == CC_SYNCH || version == 2 && method == DSM_SYNCH
}

/// The method as it stands in a file: version 1 has no byte for it.
fn method_byte(version: u16, method: &u8) -> &[u8] {
    match version {
        1 => &[],
        _ => std::slice::from_ref(method),
    }
}

fn capacity_rule(object: u8, capacity: u8) -> bool {
    if object == COUNTER {
        capacity == 0
    } else {
        (1..=64).contains(&capacity)
    }
}

fn code_rule(object: u8, code: u8) -> bool {
    if object == COUNTER {
        code == ADD
    } else {
        code == PUT || code == TAKE
    }
}

fn value_rule(code: u8, value: &[u8]) -> bool {
    code != TAKE || value == [0; 4]
}

/// Whether all entries name one of n threads, n at least 1.
fn all_below(schedule: &[u8], n: u8) -> bool {
    schedule
        .iter()
        .fold(0, |highest, &entry| entry.max(highest))
        < n
}

/// Puts bytes at the front of the rest of a lent buffer that is long enough.
fn put(rest: &mut &mut [u8], bytes: &[u8]) {
    let (front, behind) = std::mem::take(rest).split_at_mut(bytes.len());
    front.copy_from_slice(bytes);
    *rest = behind;
}

// ---- The shared memory ----

/// The null of a pointer; node numbers are below 32.
const NULL: usize = usize::MAX;

/// One entry: its place in the schedule, its thread, and how many of its accesses so far were remote references.
struct Entry {
    place: u32,
    thread: u8,
    remote: u32,
}

/// Tail or a whole node, with the set of the threads to which it is local: in CC-Synch those that have a valid copy, in DSM-Synch
/// the node's owner, for good.
#[derive(Clone, Copy)]
struct Location<T> {
    value: T,
    local: u16,
}

impl<T> Location<T> {
    /// CC-Synch: the value, to read. The access is remote if the thread has no valid copy; then it has one.
    fn read(&mut self, entry: &mut Entry) -> &T {
        self.reach(entry);
        self.local |= 1 << entry.thread;
        &self.value
    }

    /// CC-Synch: the value, to be written: of a node, one field. Remote as a read is; every other thread's copy ends.
    fn write(&mut self, entry: &mut Entry) -> &mut T {
        self.reach(entry);
        self.local = 1 << entry.thread;
        &mut self.value
    }

    /// An access, remote unless the location is local to the thread. In DSM-Synch it stays local to whom it is.
    fn reach(&mut self, entry: &mut Entry) -> &mut T {
        entry.remote += u32::from(self.local & 1 << entry.thread == 0);
        &mut self.value
    }
}

/// A node. It holds no ret: line 16 puts the answer into the record of the call that a Swap assigned the node to.
#[derive(Clone, Copy)]
struct Node {
    req: Request,
    wait: bool,
    completed: bool,
    next: usize,
    record: u16,
}

/// A node at the start. Its req is filled before anyone reads it, so a take may stand for empty.
const FRESH: Node = Node {
    req: Request::Take,
    wait: false,
    completed: false,
    next: NULL,
    record: 0,
};

// ---- The object ----

#[derive(Clone, Copy)]
enum Request {
    Put(u32),
    Take,
    Add(u32),
}

impl Request {
    /// The request with this number among a thread's requests.
    fn of(requests: &[u8], number: u8) -> Self {
        let at = REQUEST * usize::from(number);
        let value = number_at(requests, at + 1);
        match requests[at] {
            PUT => Request::Put(value),
            TAKE => Request::Take,
            _ => Request::Add(value),
        }
    }
}

fn number_at(bytes: &[u8], at: usize) -> u32 {
    u32::from_le_bytes([bytes[at], bytes[at + 1], bytes[at + 2], bytes[at + 3]])
}

/// The record's marks.
const DONE: u8 = 0;
const VALUE: u8 = 1;
const EMPTY: u8 = 2;
const FULL: u8 = 3;
const NONE: u8 = 255;

/// Queue and stack hold their values in a ring; the counter holds a sum.
struct Object {
    queue: bool,
    capacity: usize,
    ring: [u32; 64],
    first: usize,
    held: usize,
    sum: u32,
}

impl Object {
    /// Applies a request: the mark and the value of the answer; of done, the count of items held after it.
    fn apply(&mut self, request: Request) -> (u8, u32) {
        match request {
            Request::Put(_) if self.held == self.capacity => (FULL, 0),
            Request::Put(value) => {
                self.ring[(self.first + self.held) % 64] = value;
                self.held += 1;
                (DONE, self.held as u32)
            }
            Request::Take if self.held == 0 => (EMPTY, 0),
            Request::Take => {
                self.held -= 1;
                if self.queue {
                    let value = self.ring[self.first % 64];
                    self.first = (self.first + 1) % 64;
                    (VALUE, value)
                } else {
                    (VALUE, self.ring[(self.first + self.held) % 64])
                }
            }
            Request::Add(value) => {
                let sum = self.sum;
                self.sum = sum.wrapping_add(value);
                (VALUE, sum)
            }
        }
    }
}

// ---- The machine ----

/// A thread: `line` is the line to run next, 0 while idle; `begun` counts its calls. The fields from `counter` on are those of its call,
/// `began` the place of the entry that ran line 1.
#[derive(Clone, Copy)]
struct Thread<'a> {
    requests: &'a [u8],
    count: u8,
    begun: u8,
    line: u8,
    counter: u8,
    tmp_node: usize,
    cc: CcVariables,
    dsm: DsmVariables,
    turn: u16,
    record: u16,
    began: u32,
    remote: u32,
}

/// What CC-Synch alone uses. `node` is the thread's own node, which is also nextNode up to line 7.
#[derive(Clone, Copy)]
struct CcVariables {
    node: usize,
    cur_node: usize,
    tmp_node_next: usize,
}

/// What DSM-Synch alone uses.
#[derive(Clone, Copy)]
struct DsmVariables {
    toggle: usize,
    my_node: usize,
    my_pred_node: usize,
}

impl Thread<'_> {
    /// Whether an idle thread has no request left.
    fn is_done(&self) -> bool {
        self.begun == self.count
    }

    /// An idle thread runs line 1, but for what a method does there besides: the line that follows.
    fn begins(&mut self, entry: &Entry) -> u8 {
        self.begun += 1;
        self.counter = 0;
        self.began = entry.place;
        self.remote = 0;
        2
    }

    /// The request of the call.
    fn request(&self) -> Request {
        Request::of(self.requests, self.begun - 1)
    }

    /// The Swap opens the call's record: the number that the node assigned to the call is given.
    fn swaps(&mut self, entry: &Entry, counts: &mut Counts, records: &mut [u8]) -> u16 {
        self.record = counts.records as u16;
        counts.records += 1;
        open(
            records,
            self.record,
            entry.thread,
            self.begun - 1,
            self.began,
        );
        self.record
    }

    /// A turn begins.
    fn combines(&mut self, counts: &mut Counts) {
        self.turn = counts.turns as u16;
        counts.turns += 1;
    }

    /// The call returns, with the cost of its last line too, and the thread is idle.
    fn returns(&self, entry: &Entry, records: &mut [u8]) -> u8 {
        cost(records, self.record, self.remote + entry.remote);
        close(records, self.record, entry.place);
        0
    }
}

/// A blank is counted, and the thread stays idle.
fn blank(counts: &mut Counts) -> u8 {
    counts.blanks += 1;
    0
}

struct Machine<'a> {
    threads: [Thread<'a>; 16],
    nodes: [Location<Node>; 32],
    tail: Location<usize>,
    object: Object,
    h: u8,
    counts: Counts,
}

impl<'a> Machine<'a> {
    /// All threads idle, the object empty or 0. CC-Synch: thread i with node i + 1, Tail at node 0, no copies. DSM-Synch: nodes 2i and
    /// 2i + 1 belong to thread i, toggles are 0, Tail is null.
    fn fresh(bench: &Bench<'a>) -> Self {
        let thread = |i: usize| Thread {
            requests: bench.requests[i],
            count: (bench.requests[i].len() / REQUEST) as u8,
            begun: 0,
            line: 0,
            counter: 0,
            tmp_node: NULL,
            cc: CcVariables {
                node: i + 1,
                cur_node: NULL,
                tmp_node_next: NULL,
            },
            dsm: DsmVariables {
                toggle: 0,
                my_node: NULL,
                my_pred_node: NULL,
            },
            turn: 0,
            record: 0,
            began: 0,
            remote: 0,
        };
        let cached = bench.method == CC_SYNCH;
        let node = |node: usize| Location {
            value: FRESH,
            local: if cached { 0 } else { 1 << (node / 2) },
        };
        Machine {
            threads: std::array::from_fn(thread),
            nodes: std::array::from_fn(node),
            tail: Location {
                value: if cached { 0 } else { NULL },
                local: 0,
            },
            object: Object {
                queue: bench.object == QUEUE,
                capacity: bench.capacity.into(),
                ring: [0; 64],
                first: 0,
                held: 0,
                sum: 0,
            },
            h: bench.h,
            counts: Counts::default(),
        }
    }

    /// Runs a file's schedule and lays the records, or gives the 14 of an entry.
    fn run(mut self, bench: &Bench, records: &mut [u8]) -> Result<Counts, u8> {
        let swap_line = match bench.method {
            CC_SYNCH => {
                self.entries(bench.schedule, records, Machine::cc_synch)?;
                5
            }
            _ => {
                self.entries(bench.schedule, records, Machine::dsm_synch)?;
                7
            }
        };
        // The cost so far of the calls that are past their Swap and have not returned.
        for thread in self.threads.iter().filter(|thread| thread.line > swap_line) {
            cost(records, thread.record, thread.remote);
        }
        Ok(self.counts)
    }

    /// Each entry's thread executes one line, by the method's function of its lines, which gives the line that follows.
    #[inline(always)]
    fn entries(
        &mut self,
        schedule: &[u8],
        records: &mut [u8],
        execute: impl Fn(&mut Self, &mut Entry, &mut [u8]) -> Result<u8, u8>,
    ) -> Result<(), u8> {
        for (place, &named) in schedule.iter().enumerate() {
            let entry = &mut Entry {
                place: place as u32,
                thread: named,
                remote: 0,
            };
            let following = execute(self, entry, records)?;
            let thread = &mut self.threads[usize::from(named)];
            thread.line = following;
            thread.remote += entry.remote;
            self.counts.remote += entry.remote;
        }
        Ok(())
    }

    /// Algorithm 1 line by line: the line that follows, 0 where the call returns.
    #[inline(always)]
    fn cc_synch(&mut self, entry: &mut Entry, records: &mut [u8]) -> Result<u8, u8> {
        let Machine {
            threads,
            nodes,
            tail,
            object,
            h,
            counts,
        } = self;
        let thread = &mut threads[usize::from(entry.thread)];
        let mut following = thread.line + 1;
        match thread.line {
            0 if thread.is_done() => following = blank(counts),
            0 => following = thread.begins(entry),
            2 => nodes[thread.cc.node].write(entry).next = NULL,
            3 => nodes[thread.cc.node].write(entry).wait = true,
            4 => nodes[thread.cc.node].write(entry).completed = false,
            // The node that the Swap gives is assigned to the call.
            5 => {
                thread.cc.cur_node = std::mem::replace(tail.write(entry), thread.cc.node);
                nodes[thread.cc.cur_node].value.record = thread.swaps(entry, counts, records);
            }
            6 => nodes[thread.cc.cur_node].write(entry).req = thread.request(),
            7 => nodes[thread.cc.cur_node].write(entry).next = thread.cc.node,
            8 => thread.cc.node = thread.cc.cur_node,
            9 => {
                if nodes[thread.cc.cur_node].read(entry).wait {
                    counts.spins += 1;
                    following = 9;
                }
            }
            10 => {
                let completed = nodes[thread.cc.cur_node].read(entry).completed;
                following = if completed { 11 } else { 12 };
            }
            12 => {
                thread.tmp_node = thread.cc.cur_node;
                thread.combines(counts);
            }
            13 => {
                let next = nodes[thread.tmp_node].read(entry).next;
                let goes_on = next != NULL && thread.counter < *h;
                following = if goes_on { 14 } else { 20 };
            }
            14 => thread.counter += 1,
            15 => thread.cc.tmp_node_next = nodes[thread.tmp_node].read(entry).next,
            // Two accesses of one node: req is read, ret is written with the copy that the read made valid.
            16 => {
                let node = &mut nodes[thread.tmp_node];
                let answer = object.apply(node.read(entry).req);
                let record = node.write(entry).record;
                serve(records, record, answer, entry.thread, thread.turn);
            }
            17 => nodes[thread.tmp_node].write(entry).completed = true,
            18 => nodes[thread.tmp_node].write(entry).wait = false,
            19 => {
                thread.tmp_node = thread.cc.tmp_node_next;
                following = 13;
            }
            20 => nodes[thread.tmp_node].write(entry).wait = false,
            // 11 and 21: ret is read, and the call returns.
            _ => {
                nodes[thread.cc.cur_node].read(entry);
                following = thread.returns(entry, records);
            }
        }
        Ok(following)
    }

    /// Algorithm 2 line by line: the line that follows, 0 where the call returns; 14 where a null pointer would be followed, or put into
    /// tmpNode.
    #[inline(always)]
    fn dsm_synch(&mut self, entry: &mut Entry, records: &mut [u8]) -> Result<u8, u8> {
        let Machine {
            threads,
            nodes,
            tail,
            object,
            h,
            counts,
        } = self;
        let thread = &mut threads[usize::from(entry.thread)];
        let mut following = thread.line + 1;
        match thread.line {
            0 if thread.is_done() => following = blank(counts),
            0 => {
                following = thread.begins(entry);
                thread.dsm.toggle = 1 - thread.dsm.toggle;
            }
            2 => thread.dsm.my_node = 2 * usize::from(entry.thread) + thread.dsm.toggle,
            3 => nodes[thread.dsm.my_node].reach(entry).wait = true,
            4 => nodes[thread.dsm.my_node].reach(entry).completed = false,
            5 => nodes[thread.dsm.my_node].reach(entry).next = NULL,
            6 => nodes[thread.dsm.my_node].reach(entry).req = thread.request(),
            // The node that the Swap puts in is assigned to the call.
            7 => {
                thread.dsm.my_pred_node = std::mem::replace(tail.reach(entry), thread.dsm.my_node);
                nodes[thread.dsm.my_node].value.record = thread.swaps(entry, counts, records);
            }
            8 if thread.dsm.my_pred_node == NULL => following = 13,
            8 => {}
            9 => nodes[thread.dsm.my_pred_node].reach(entry).next = thread.dsm.my_node,
            10 => {
                if nodes[thread.dsm.my_node].reach(entry).wait {
                    counts.spins += 1;
                    following = 10;
                }
            }
            11 => {
                let completed = nodes[thread.dsm.my_node].reach(entry).completed;
                following = if completed { 12 } else { 13 };
            }
            13 => {
                thread.tmp_node = thread.dsm.my_node;
                thread.combines(counts);
            }
            14 => {}
            15 => thread.counter += 1,
            16 => {
                let node = &mut nodes[thread.tmp_node];
                let answer = object.apply(node.reach(entry).req);
                let record = node.reach(entry).record;
                serve(records, record, answer, entry.thread, thread.turn);
            }
            17 => nodes[thread.tmp_node].reach(entry).completed = true,
            18 => nodes[thread.tmp_node].reach(entry).wait = false,
            // One access, or three: tmpNode's next is read again for the node that it gives. The counter is tested last.
            19 => {
                let mut next_of = |node: usize| nodes[node].reach(entry).next;
                let ends = next_of(thread.tmp_node) == NULL
                    || {
                        let next = next_of(thread.tmp_node);
                        next_of(next) == NULL
                    }
                    || thread.counter >= *h;
                following = if ends { 20 } else { 21 };
            }
            20 => following = 22,
            21 => {
                let next = nodes[thread.tmp_node].reach(entry).next;
                require(next != NULL, 14)?;
                thread.tmp_node = next;
                following = 14;
            }
            22 => {
                let next = nodes[thread.tmp_node].reach(entry).next;
                following = if next == NULL { 23 } else { 26 };
            }
            // CAS is one access, whether it succeeds or not.
            23 => {
                let tail = tail.reach(entry);
                if *tail == thread.tmp_node {
                    *tail = NULL;
                } else {
                    following = 25;
                }
            }
            25 => {
                if nodes[thread.tmp_node].reach(entry).next == NULL {
                    counts.spins += 1;
                    following = 25;
                }
            }
            26 => {
                let next = nodes[thread.tmp_node].reach(entry).next;
                require(next != NULL, 14)?;
                nodes[next].reach(entry).wait = false;
            }
            27 => nodes[thread.tmp_node].reach(entry).next = NULL,
            // 12, 24 and 28: ret is read, and the call returns.
            _ => {
                nodes[thread.dsm.my_node].reach(entry);
                following = thread.returns(entry, records);
            }
        }
        Ok(following)
    }
}

// ---- The record of a call ----

/// Swap opens a record: unserved, of no cost yet, with the place of the call's line 1.
fn open(out: &mut [u8], record: u16, thread: u8, request: u8, began: u32) {
    let record = record_in(out, record);
    record.fill(0);
    record[..4].copy_from_slice(&[thread, request, NONE, 255]);
    record[13..15].fill(255);
    record[16..20].copy_from_slice(&began.to_le_bytes());
    record[20..].fill(255);
}

/// Line 16 sets bytes 2 to 7 and 13 to 14.
fn serve(out: &mut [u8], record: u16, (mark, value): (u8, u32), server: u8, turn: u16) {
    let record = record_in(out, record);
    record[2] = mark;
    record[3] = server;
    record[4..8].copy_from_slice(&value.to_le_bytes());
    record[13..15].copy_from_slice(&turn.to_le_bytes());
}

/// Bytes 8 to 11: the call's remote references so far.
fn cost(out: &mut [u8], record: u16, remote: u32) {
    record_in(out, record)[8..12].copy_from_slice(&remote.to_le_bytes());
}

/// The return sets byte 12 and bytes 20 to 23, its place.
fn close(out: &mut [u8], record: u16, place: u32) {
    let record = record_in(out, record);
    record[12] = 1;
    record[20..].copy_from_slice(&place.to_le_bytes());
}

fn record_in(out: &mut [u8], record: u16) -> &mut [u8] {
    let at = RECORD * usize::from(record);
    &mut out[at..at + RECORD]
}

// ---- The listing ----

fn listing(bench: &Bench, counts: &Counts, records: &[u8]) -> String {
    let version = bench.version;
    let method = match (version, bench.method) {
        (1, _) => "",
        (_, CC_SYNCH) => "cc ",
        _ => "dsm ",
    };
    let object = ["queue", "stack", "counter"][usize::from(bench.object)];
    let (n, h) = (bench.n, bench.h);
    let Counts {
        records: calls,
        turns,
        blanks,
        spins,
        remote,
    } = *counts;
    let mut text = format!(
        "CCS {version} {method}{object} n={n} h={h} calls={calls} turns={turns} blank={blanks} spin={spins} remote={remote}\n"
    );
    for (order, record) in records
        .chunks_exact(RECORD)
        .take(calls as usize)
        .enumerate()
    {
        line_of_record(&mut text, order, record);
    }
    text
}

fn line_of_record(text: &mut String, order: usize, record: &[u8]) {
    let (thread, request, server) = (record[0], record[1], record[3]);
    let word = mark_word(record);
    let value = or_hyphen(has_value(record), number_at(record, 4));
    let served = record[2] != NONE;
    let server = or_hyphen(served, server.into());
    let turn = or_hyphen(served, turn_of(record));
    let remote = number_at(record, 8);
    let returned = record[12] == 1;
    let state = state_word(record);
    let began = number_at(record, 16);
    let returned_at = or_hyphen(returned, number_at(record, 20));
    // Writing to a string does not fail.
    let _ = writeln!(
        text,
        "{order} {thread} {request} {word} {value} {server} {turn} {remote} {state} {began} {returned_at}"
    );
}

fn mark_word(record: &[u8]) -> &'static str {
    match record[2] {
        DONE => "done",
        VALUE => "value",
        EMPTY => "empty",
        FULL => "full",
        _ => "none",
    }
}

/// Whether a number stands in the value's place: a value, or the count of a done put.
fn has_value(record: &[u8]) -> bool {
    matches!(record[2], DONE | VALUE)
}

fn state_word(record: &[u8]) -> &'static str {
    if record[12] == 1 {
        "returned"
    } else {
        "open"
    }
}

fn turn_of(record: &[u8]) -> u32 {
    u16::from_le_bytes([record[13], record[14]]).into()
}

fn or_hyphen(given: bool, number: u32) -> String {
    if given {
        number.to_string()
    } else {
        "-".to_string()
    }
}

// ---- The pages ----

/// The records of a page, at most.
const PAGE: usize = 58;

/// The head row: each word left in its column, of 3, 2, 2, 5, 10, 2, 5, 10 and 8.
const HEAD: &str = "no  th rq ans   value      by turn  remote     state   \n";

fn pages(counts: &Counts, records: &[u8]) -> String {
    let rows: Vec<String> = records
        .chunks_exact(RECORD)
        .take(counts.records as usize)
        .enumerate()
        .map(|(order, record)| row_of_record(order, record))
        .collect();
    if rows.is_empty() {
        return HEAD.to_string();
    }
    rows.chunks(PAGE)
        .map(|rows| HEAD.to_string() + &rows.concat())
        .collect()
}

/// Numbers right in their columns, words and hyphens left.
fn row_of_record(order: usize, record: &[u8]) -> String {
    let (thread, request) = (record[0], record[1]);
    let word = mark_word(record);
    let served = record[2] != NONE;
    let value = column(10, has_value(record), number_at(record, 4));
    let server = column(2, served, record[3].into());
    let turn = column(5, served, turn_of(record));
    let remote = number_at(record, 8);
    let state = state_word(record);
    format!(
        "{order:>3} {thread:>2} {request:>2} {word:<5} {value} {server} {turn} {remote:>10} {state:<8}\n"
    )
}

/// A number right in a column, or a hyphen left in it.
fn column(width: usize, given: bool, number: u32) -> String {
    if given {
        format!("{number:>width$}")
    } else {
        format!("{:<width$}", "-")
    }
}
