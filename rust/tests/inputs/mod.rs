//! Inputs of the tests and of the benchmark: bench files of random fields, and ways to damage them; and the answers of both implementations in one form.

// Each user of this module needs only a part of it.
#![allow(dead_code)]

use crate::plain;
use ccs::Refusal;

/// A run by the library: its five counts, or the refusal's number.
pub fn run_by_library(file: &[u8], out: &mut [u8]) -> Result<[u32; 5], u8> {
    let c = ccs::run(file, out).map_err(Refusal::number)?;
    Ok([c.records, c.turns, c.blanks, c.spins, c.remote])
}

/// A run by the plain implementation.
pub fn run_plainly(file: &[u8], out: &mut [u8]) -> Result<[u32; 5], u8> {
    let c = plain::run(file, out)?;
    Ok([c.records, c.turns, c.blanks, c.spins, c.remote])
}

/// Numbers that look random, the same in every run.
pub struct Random(pub u64);

impl Random {
    pub fn next(&mut self) -> u64 {
        self.0 ^= self.0 << 13;
        self.0 ^= self.0 >> 7;
        self.0 ^= self.0 << 17;
        self.0
    }

    pub fn below(&mut self, limit: usize) -> usize {
        ((self.next() >> 16) % limit as u64) as usize
    }

    pub fn byte(&mut self) -> u8 {
        self.below(256) as u8
    }

    pub fn one_in(&mut self, many: usize) -> bool {
        self.below(many) == 0
    }

    /// Below the one limit mostly, below the other now and then.
    fn mostly(&mut self, limit: usize, other: usize) -> usize {
        let limit = if self.one_in(4) { other } else { limit };
        self.below(limit)
    }
}

/// The fields of a file, as the writer is given them.
#[derive(Clone, Debug, PartialEq)]
pub struct Given {
    pub version: u16,
    pub object: u8,
    pub n: u8,
    pub h: u8,
    pub capacity: u8,
    pub method: u8,
    pub counts: Vec<u8>,
    pub requests: Vec<u8>,
    pub schedule: Vec<u8>,
}

/// The methods' numbers.
pub const CC_SYNCH: u8 = 0;
pub const DSM_SYNCH: u8 = 1;

/// Version and method of a random file: half of them of DSM-Synch, a third of version 1.
const KINDS: [(u16, u8); 6] = [
    (1, CC_SYNCH),
    (1, CC_SYNCH),
    (2, CC_SYNCH),
    (2, DSM_SYNCH),
    (2, DSM_SYNCH),
    (2, DSM_SYNCH),
];

impl Given {
    /// Fields in range: few or many threads, few requests mostly, and at most so many entries.
    pub fn random(random: &mut Random, most_entries: usize) -> Given {
        let (version, method) = KINDS[random.below(KINDS.len())];
        let object = random.below(3) as u8;
        let n = 1 + random.mostly(4, 16) as u8;
        let h = 1 + random.mostly(4, 255) as u8;
        let capacity = match object {
            2 => 0,
            _ => 1 + random.mostly(4, 64) as u8,
        };
        let most = if random.one_in(4) { 17 } else { 4 };
        let counts: Vec<u8> = (0..n).map(|_| random.below(most) as u8).collect();
        let calls = counts.iter().map(|&count| usize::from(count)).sum();
        let puts = [1, 1, 4, 30][random.below(4)];
        let requests = (0..calls)
            .flat_map(|_| request(random, object, puts))
            .collect();
        let length = random.below(most_entries + 1);
        let schedule = schedule(random, n, length);
        Given {
            version,
            object,
            n,
            h,
            capacity,
            method,
            counts,
            requests,
            schedule,
        }
    }

    /// The fields of an accepted file, taken out of it by its layout.
    pub fn of(file: &[u8]) -> Given {
        let version = u16::from_le_bytes([file[3], file[4]]);
        let [object, n, h, capacity] = file[5..9].try_into().expect("four bytes");
        let (method, mut rest) = match version {
            1 => (CC_SYNCH, &file[9..]),
            _ => (file[9], &file[10..]),
        };
        let mut counts = Vec::new();
        let mut requests = Vec::new();
        for _ in 0..n {
            let count = rest[0];
            let (row, behind) = rest[1..].split_at(5 * usize::from(count));
            counts.push(count);
            requests.extend(row);
            rest = behind;
        }
        Given {
            version,
            object,
            n,
            h,
            capacity,
            method,
            counts,
            requests,
            schedule: rest[2..].to_vec(),
        }
    }

    pub fn fields(&self) -> ccs::Fields<'_> {
        ccs::Fields {
            version: self.version,
            object: self.object,
            n: self.n,
            h: self.h,
            capacity: self.capacity,
            method: self.method,
            counts: &self.counts,
            requests: &self.requests,
            schedule: &self.schedule,
        }
    }

    pub fn plain_fields(&self) -> plain::Fields<'_> {
        plain::Fields {
            version: self.version,
            object: self.object,
            n: self.n,
            h: self.h,
            capacity: self.capacity,
            method: self.method,
            counts: &self.counts,
            requests: &self.requests,
            schedule: &self.schedule,
        }
    }

    /// How many requests the row has room for.
    pub fn calls(&self) -> usize {
        self.requests.len() / 5
    }

    /// The method's byte, which version 1 does not have.
    fn method_byte(&self) -> Option<u8> {
        (self.version != 1).then_some(self.method)
    }

    /// The length of the file of these fields.
    pub fn length(&self) -> usize {
        let head = 9 + self.method_byte().into_iter().count();
        head + self.counts.len() + self.requests.len() + 2 + self.schedule.len()
    }

    /// The file of these fields, by its version's layout.
    pub fn bytes(&self) -> Vec<u8> {
        let mut bytes = b"CCS".to_vec();
        bytes.extend(self.version.to_le_bytes());
        bytes.extend([self.object, self.n, self.h, self.capacity]);
        bytes.extend(self.method_byte());
        let mut requests = self.requests.chunks(5);
        for &count in &self.counts {
            bytes.push(count);
            bytes.extend(requests.by_ref().take(count.into()).flatten());
        }
        bytes.extend((self.schedule.len() as u16).to_le_bytes());
        bytes.extend(&self.schedule);
        bytes
    }
}

/// A stretch of a schedule: a thread, and how many entries name it.
pub type Stretch = (u8, usize);

/// The schedule of stretches.
pub fn stretched(stretches: &[Stretch]) -> Vec<u8> {
    let stretch = |&(thread, entries): &Stretch| vec![thread; entries];
    stretches.iter().flat_map(stretch).collect()
}

/// The first entries of the runs that meet null (`docs/DSM-SYNCH.md`): thread 0 has lines 27 and 28 left, and tmpNode is thread 1's node.
const BEFORE_LINE_27: [Stretch; 6] = [(0, 8), (1, 9), (2, 9), (0, 17), (1, 3), (2, 13)];

/// Runs of DSM-Synch that meet null with their last entry, h = 2: the threads' counts and what follows the first entries. Line 26 of three threads
/// and of four, and line 21.
const MEET_NULL: [(&[u8], &[Stretch]); 3] = [
    (&[1, 3, 2], &[(1, 27), (2, 9), (1, 9), (0, 1), (1, 1)]),
    (&[1, 3, 1, 1], &[(1, 27), (3, 9), (1, 9), (0, 1), (1, 1)]),
    (
        &[1, 3, 2, 1],
        &[(1, 27), (2, 9), (3, 9), (1, 7), (0, 1), (1, 1)],
    ),
];

impl Given {
    /// Fields whose run meets null with its last entry: one of the runs above with any object, its threads renamed, others beside them, and
    /// blanks in between.
    pub fn that_meets_null(random: &mut Random) -> Given {
        let (counts, stretches) = MEET_NULL[random.below(MEET_NULL.len())];
        let n = counts.len() + 1 + random.mostly(3, 16 - counts.len());
        // the thread that each thread of the run is, and one without requests
        let names = some_of(random, n, counts.len() + 1);
        let idle = names[counts.len()] as u8;
        let object = random.below(3) as u8;
        let mut given = Given {
            version: 2,
            object,
            n: n as u8,
            h: 2,
            capacity: if object == 2 {
                0
            } else {
                1 + random.below(3) as u8
            },
            method: DSM_SYNCH,
            counts: vec![0; n],
            requests: Vec::new(),
            schedule: Vec::new(),
        };
        for (&count, &name) in counts.iter().zip(&names) {
            given.counts[name] = count;
        }
        let calls = counts.iter().map(|&count| usize::from(count)).sum();
        let request = |_| request(random, object, 1);
        given.requests = (0..calls).flat_map(request).collect();
        let blanks = random.below(3);
        for entry in stretched(&[&BEFORE_LINE_27, stretches].concat()) {
            if blanks > 0 && random.one_in(20) {
                given.schedule.extend(vec![idle; blanks]);
            }
            given.schedule.push(names[usize::from(entry)] as u8);
        }
        given
    }
}

/// So many different numbers below a limit, in any order.
fn some_of(random: &mut Random, limit: usize, many: usize) -> Vec<usize> {
    let mut numbers: Vec<usize> = (0..limit).collect();
    for i in 0..many {
        numbers.swap(i, i + random.below(limit - i));
    }
    numbers.truncate(many);
    numbers
}

/// A request that the object knows, so many puts for a take: its code, and a value that may be small or large.
fn request(random: &mut Random, object: u8, puts: usize) -> [u8; 5] {
    let code = match object {
        2 => 2,
        _ => random.one_in(1 + puts).into(),
    };
    let value = match random.below(3) {
        _ if code == 1 => 0,
        0 => random.next() as u32,
        1 => u32::MAX - random.below(3) as u32,
        _ => random.below(10) as u32,
    };
    let [a, b, c, d] = value.to_le_bytes();
    [code, a, b, c, d]
}

/// A schedule in which a thread goes on for one entry or for some.
fn schedule(random: &mut Random, n: u8, length: usize) -> Vec<u8> {
    let changes = [1, 2, 8, 25][random.below(4)];
    let mut thread = 0;
    let mut entry = |_| {
        if random.one_in(changes) {
            thread = random.below(n.into()) as u8;
        }
        thread
    };
    (0..length).map(&mut entry).collect()
}

/// A file with something wrong, or by chance nothing: bytes changed, cut off or added.
pub fn damaged(random: &mut Random, mut file: Vec<u8>) -> Vec<u8> {
    match random.below(4) {
        0 => file.truncate(random.below(file.len() + 1)),
        1 => {
            let more = 1 + random.below(3);
            file.extend((0..more).map(|_| random.byte()));
        }
        2 => {
            // in the head, where each byte has a rule
            let place = random.below(file.len().min(12));
            file[place] = random.byte();
        }
        _ => {
            for _ in 0..1 + random.below(3) {
                let place = random.below(file.len());
                file[place] = [0, 1, 2, 16, 17, 255, random.byte()][random.below(7)];
            }
        }
    }
    file
}
