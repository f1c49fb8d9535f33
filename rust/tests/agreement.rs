//! The library beside the plain Rust implementation: answers, refusals and every byte of the lent buffers.
mod inputs;
mod plain;

use ccs::{Answer, Record, Refusal, ENOUGH_FOR_LISTING, ENOUGH_FOR_PAGES, ENOUGH_FOR_RECORDS};
use ccs::{PAGE_RECORDS, RECORD_LENGTH, ROW_LENGTH};
use inputs::{damaged, run_by_library, run_plainly, Given, Random, CC_SYNCH, DSM_SYNCH};
use std::collections::BTreeSet;
use std::fs;
use std::path::{Path, PathBuf};

/// The longest buffer that is lent, and so many bytes before and behind it that are looked at as well.
const LENT: usize = 70_000;
const AROUND: usize = 256;

/// The byte that stands at a place before anything is written.
fn pattern(place: usize) -> u8 {
    place as u8 ^ 0xA5
}

/// Two buffers with one pattern, one for each implementation.
struct Lent {
    library: Vec<u8>,
    plain: Vec<u8>,
}

impl Lent {
    fn new() -> Lent {
        Lent {
            library: vec![0; LENT + 2 * AROUND],
            plain: vec![0; LENT + 2 * AROUND],
        }
    }

    /// Lends so many bytes of a pattern to each, which answer alike and leave alike bytes, around them too.
    fn alike<T: PartialEq + std::fmt::Debug>(
        &mut self,
        lent: usize,
        library: impl FnOnce(&mut [u8]) -> Result<T, u8>,
        plain: impl FnOnce(&mut [u8]) -> Result<T, u8>,
    ) -> Result<T, u8> {
        let shown = lent + 2 * AROUND;
        for (i, (a, b)) in self.library[..shown]
            .iter_mut()
            .zip(&mut self.plain)
            .enumerate()
        {
            *a = pattern(i);
            *b = *a;
        }
        let answer = library(&mut self.library[AROUND..AROUND + lent]);
        assert_eq!(answer, plain(&mut self.plain[AROUND..AROUND + lent]));
        assert!(
            self.library[..shown] == self.plain[..shown],
            "the buffers differ"
        );
        answer
    }

    /// The first bytes of the buffer that the library was lent.
    fn written(&self, length: usize) -> &[u8] {
        &self.library[AROUND..][..length]
    }

    fn runs(&mut self, file: &[u8], lent: usize) -> Result<[u32; 5], u8> {
        self.alike(
            lent,
            |out| run_by_library(file, out),
            |out| run_plainly(file, out),
        )
    }

    fn lists(&mut self, file: &[u8], lent: usize) -> Result<usize, u8> {
        self.alike(
            lent,
            |out| ccs::list(file, out).map_err(Refusal::number),
            |out| plain::list(file, out),
        )
    }

    fn pages(&mut self, file: &[u8], lent: usize) -> Result<usize, u8> {
        self.alike(
            lent,
            |out| ccs::page(file, out).map_err(Refusal::number),
            |out| plain::page(file, out),
        )
    }

    fn writes(&mut self, given: &Given, lent: usize) -> Result<usize, u8> {
        self.alike(
            lent,
            |out| ccs::write(&given.fields(), out).map_err(Refusal::number),
            |out| plain::write(&given.plain_fields(), out),
        )
    }

    fn converts(&mut self, file: &[u8], wanted: u16, lent: usize) -> Result<usize, u8> {
        self.alike(
            lent,
            |out| ccs::convert(file, wanted, out).map_err(Refusal::number),
            |out| plain::convert(file, wanted, out),
        )
    }

    /// Printed alike with more bytes lent than are needed, with none, with one too few and with just enough.
    fn prints(&mut self, file: &[u8]) -> Result<usize, u8> {
        let printed = self.pages(file, ENOUGH_FOR_PAGES + 1);
        let short = printed.and(Err(13));
        assert_eq!(self.pages(file, 0), short);
        if let Ok(length) = printed {
            assert_eq!(self.pages(file, length - 1), short);
            assert_eq!(self.pages(file, length), printed);
        }
        printed
    }

    /// The rows of a file that prints.
    fn rows(&mut self, file: &[u8]) -> Vec<&str> {
        let length = self.prints(file).expect("a file in range");
        let row = |row| std::str::from_utf8(row).expect("a text");
        let rows = self.written(length).chunks(ROW_LENGTH);
        rows.map(row).collect()
    }

    /// A file in the wanted version, converted alike with enough bytes lent, with none, with one too few and with just enough: accepted, and the same
    /// fields but for the version.
    fn in_version(&mut self, file: &[u8], wanted: u16) -> Result<Vec<u8>, u8> {
        // one byte more than the file has is enough, and so is the whole buffer
        let converted = self.converts(file, wanted, LENT.min(file.len() + 1));
        let short = converted.and(Err(13));
        assert_eq!(self.converts(file, wanted, 0), short);
        let length = converted?;
        assert_eq!(self.converts(file, wanted, length - 1), short);
        assert_eq!(self.converts(file, wanted, length), converted);
        let bytes = self.written(length);
        judged(bytes).expect("a converted file is accepted");
        let mut given = Given::of(file);
        given.version = wanted;
        assert_eq!(Given::of(bytes), given, "the fields of a converted file");
        Ok(bytes.to_vec())
    }

    /// Judged, run, listed, printed and converted alike, with enough bytes lent: an accepted file's run may still meet null, and to version 1 it may not
    /// convert.
    fn agree(&mut self, file: &[u8]) -> Result<(), u8> {
        let own = judged(file);
        let ran = self.runs(file, ENOUGH_FOR_RECORDS);
        let refused = ran.map(|_| ());
        assert!(refused == own || refused == Err(14) && own.is_ok());
        if let Ok([records, ..]) = ran {
            let bytes = self.written(RECORD_LENGTH * records as usize);
            assert_eq!(bytes, read_and_laid(bytes), "the records as they are read");
        }
        self.lists(file, ENOUGH_FOR_LISTING)
            .expect("the listing fits");
        let printed = self.pages(file, ENOUGH_FOR_PAGES);
        assert_eq!(printed.map(|_| ()), refused);
        if let Ok(length) = printed {
            let mut rows = self.written(length).chunks(ROW_LENGTH);
            assert!(rows.all(is_row), "55 columns a row");
        }
        let [one, two] = [1, 2].map(|wanted| self.in_version(file, wanted).map(|_| ()));
        assert_eq!(two, own);
        assert!(one == own || one == Err(16) && own.is_ok());
        refused
    }
}

/// Judged alike.
fn judged(file: &[u8]) -> Result<(), u8> {
    let library = ccs::judge(file).map_err(Refusal::number).map(|j| {
        let head = [j.version, j.object, j.n, j.h, j.capacity, j.method];
        (head, [j.requests, j.entries])
    });
    let plain = plain::judge(file).map(|j| {
        let head = [j.version, j.object, j.n, j.h, j.capacity, j.method];
        (head.map(as_usize), [j.requests, j.entries].map(as_usize))
    });
    assert_eq!(library, plain);
    library.map(|_| ())
}

fn as_usize(number: u32) -> usize {
    number as usize
}

/// Records, each read and laid again.
fn read_and_laid(bytes: &[u8]) -> Vec<u8> {
    bytes
        .chunks_exact(RECORD_LENGTH)
        .flat_map(|bytes| {
            laid(&Record::read(bytes.try_into().expect("a record's length")).expect("a record"))
        })
        .collect()
}

/// The bytes of a record, by document 01 and requests No. 1 and 3 of document 02.
fn laid(record: &Record) -> [u8; RECORD_LENGTH] {
    let (mark, server, value, turn) = match record.serving {
        None => (255, 255, 0, 65_535),
        Some(serving) => {
            let (mark, value) = match serving.answer {
                Answer::Done(held) => (0, held),
                Answer::Value(value) => (1, value),
                Answer::Empty => (2, 0),
                Answer::Full => (3, 0),
            };
            (mark, serving.server, value, serving.turn)
        }
    };
    let mut bytes = [0; RECORD_LENGTH];
    bytes[..4].copy_from_slice(&[record.thread, record.request, mark, server]);
    bytes[4..8].copy_from_slice(&value.to_le_bytes());
    bytes[8..12].copy_from_slice(&record.remote.to_le_bytes());
    bytes[12] = record.returned.is_some().into();
    bytes[13..15].copy_from_slice(&turn.to_le_bytes());
    bytes[16..20].copy_from_slice(&record.began.to_le_bytes());
    bytes[20..].copy_from_slice(&record.returned.unwrap_or(u32::MAX).to_le_bytes());
    bytes
}

/// 55 columns and a line feed.
fn is_row(bytes: &[u8]) -> bool {
    let printable = |byte: &u8| (b' '..=b'~').contains(byte);
    bytes.len() == 56 && bytes[..55].iter().all(printable) && bytes[55] == b'\n'
}

/// The files of `examples/`, by name.
fn examples() -> Vec<PathBuf> {
    let folder = Path::new(env!("CARGO_MANIFEST_DIR")).join("../examples");
    let entries = fs::read_dir(folder).expect("the examples' folder");
    let mut names: Vec<PathBuf> = entries
        .map(|entry| entry.expect("its entries").path())
        .collect();
    names.retain(|name| name.extension().is_some_and(|end| end == "bin"));
    names.sort();
    names
}

fn example_files() -> Vec<Vec<u8>> {
    let read = |name: &PathBuf| fs::read(name).expect("an example");
    examples().iter().map(read).collect()
}

/// The shorter examples, and some random files.
fn short_files() -> Vec<Vec<u8>> {
    let mut files = example_files();
    files.retain(|file| file.len() <= 100);
    let mut random = Random(0xC0FF_EE00_0001);
    files.extend((0..8).map(|_| Given::random(&mut random, 60).bytes()));
    files
}

/// Document 01's file of 64 bytes.
fn two_adds() -> Given {
    Given {
        version: 1,
        object: 2,
        n: 1,
        h: 1,
        capacity: 0,
        method: CC_SYNCH,
        counts: vec![2],
        requests: vec![2, 5, 0, 0, 0, 2, 7, 0, 0, 0],
        schedule: vec![0; 42],
    }
}

/// The longest file of each version; that of version 2 is the longest there is.
fn longest(version: u16) -> Given {
    Given {
        version,
        object: 0,
        n: 16,
        h: 8,
        capacity: 64,
        method: if version == 1 { CC_SYNCH } else { DSM_SYNCH },
        counts: vec![16; 16],
        requests: [0, 7, 0, 0, 0].repeat(256),
        schedule: vec![15; 32_768],
    }
}

#[test]
fn examples_list_as_expected() {
    let names = examples();
    assert!(names.len() >= 20);
    for name in names {
        let file = fs::read(&name).expect("an example");
        let expected = fs::read(name.with_extension("txt")).expect("its listing");
        let mut text = vec![0; ENOUGH_FOR_LISTING];
        let length = ccs::list(&file, &mut text).expect("enough bytes");
        assert!(text[..length] == expected, "{}", name.display());
        let _ = Lent::new().agree(&file);
    }
}

/// As the program prints: the rows, or a refused file's number.
#[test]
fn examples_print_as_expected() {
    for name in examples() {
        let file = fs::read(&name).expect("an example");
        let expected = fs::read(name.with_extension("page")).expect("its page");
        let mut rows = vec![0; ENOUGH_FOR_PAGES];
        let printed = match ccs::page(&file, &mut rows) {
            Ok(length) => rows[..length].to_vec(),
            Err(refusal) => format!("refused {}\n", refusal.number()).into_bytes(),
        };
        assert!(printed == expected, "{}", name.display());
    }
}

const HEAD: &str = "no  th rq ans   value      by turn  remote     state   \n";

/// How many entries a call takes that runs alone.
fn entries_alone(method: u8) -> usize {
    match method {
        CC_SYNCH => 21,
        _ => 19,
    }
}

/// A counter's threads add 5, so many calls in all, one after the other.
fn calls_in_a_row(method: u8, calls: usize) -> Given {
    let alone = entries_alone(method);
    Given {
        version: 2,
        object: 2,
        n: 16,
        h: 1,
        capacity: 0,
        method,
        counts: (0..16)
            .map(|thread| calls.saturating_sub(16 * thread).min(16) as u8)
            .collect(),
        requests: [2, 5, 0, 0, 0].repeat(calls),
        schedule: (0..alone * calls)
            .map(|i| (i / (alone * 16)) as u8)
            .collect(),
    }
}

/// Where pages begin: with a head row before records 0, 58, 116 and so on, and with one where there are no records.
#[test]
fn pages_of_so_many_records() {
    let figures = [
        (0, 56),
        (1, 112),
        (57, 3_248),
        (58, 3_304),
        (59, 3_416),
        (116, 6_608),
        (117, 6_720),
        (256, 14_616),
    ];
    let mut lent = Lent::new();
    for method in [CC_SYNCH, DSM_SYNCH] {
        for (records, length) in figures {
            let file = calls_in_a_row(method, records).bytes();
            let rows = lent.rows(&file);
            assert_eq!(rows.concat().len(), length);
            for (i, row) in rows.iter().enumerate() {
                assert_eq!(*row == HEAD, i % (PAGE_RECORDS + 1) == 0);
            }
        }
    }
    let last_rows = [
        "255 15 15 value       1275 15   255          0 returned\n",
        "255 15 15 value       1275 15   255          2 returned\n",
    ];
    for (method, last) in [CC_SYNCH, DSM_SYNCH].into_iter().zip(last_rows) {
        let file = calls_in_a_row(method, 256).bytes();
        assert_eq!(lent.rows(&file).last(), Some(&last));
    }
}

/// Numbers right, words and hyphens left: every answer and none, calls returned and open.
#[test]
fn pages_as_stated() {
    let mut lent = Lent::new();
    let mut counter = two_adds();
    assert_eq!(
        lent.rows(&counter.bytes()),
        [
            HEAD,
            "  0  0  0 value          0  0     0          3 returned\n",
            "  1  0  1 value          5  0     1          0 returned\n",
        ]
    );
    counter.schedule.truncate(5);
    assert_eq!(
        lent.rows(&counter.bytes()),
        [
            HEAD,
            "  0  0  0 none  -          -  -              2 open    \n",
        ]
    );
    // before the Swap: two requests stand in the file, and the head row alone is printed
    counter.schedule.truncate(4);
    assert_eq!(lent.rows(&counter.bytes()), [HEAD]);

    let queue = Given {
        version: 1,
        object: 0,
        n: 1,
        h: 1,
        capacity: 1,
        method: CC_SYNCH,
        counts: vec![4],
        requests: [
            [0, 3, 0, 0, 0],
            [0, 4, 0, 0, 0],
            [1, 0, 0, 0, 0],
            [1, 0, 0, 0, 0],
        ]
        .concat(),
        schedule: vec![0; 84],
    };
    assert_eq!(
        lent.rows(&queue.bytes()),
        [
            HEAD,
            "  0  0  0 done           1  0     0          3 returned\n",
            "  1  0  1 full  -           0     1          0 returned\n",
            "  2  0  2 value          3  0     2          0 returned\n",
            "  3  0  3 empty -           0     3          0 returned\n",
        ]
    );
}

/// A put that is done tells how many items are held after it, of a stack and of a queue; full and empty tell none.
#[test]
fn items_held_are_counted() {
    let put = |value| [0, value, 0, 0, 0];
    let take = [1, 0, 0, 0, 0];
    for (object, [first, second, third]) in [(0, [9, 8, 6]), (1, [8, 6, 9])] {
        let file = Given {
            version: 1,
            object,
            n: 1,
            h: 1,
            capacity: 2,
            method: CC_SYNCH,
            counts: vec![8],
            requests: [put(9), put(8), put(7), take, put(6), take, take, take].concat(),
            schedule: vec![0; 8 * 21],
        }
        .bytes();
        Lent::new().agree(&file).expect("a file in range");
        let mut out = [0; 8 * RECORD_LENGTH];
        let counts = ccs::run(&file, &mut out).expect("enough bytes");
        let answers: Vec<Answer> = ccs::records(&out, &counts)
            .map(|record| record.serving.expect("a serving").answer)
            .collect();
        assert_eq!(
            answers,
            [
                Answer::Done(1),
                Answer::Done(2),
                Answer::Full,
                Answer::Value(first),
                Answer::Done(2),
                Answer::Value(second),
                Answer::Value(third),
                Answer::Empty,
            ]
        );
    }
}

#[test]
fn random_files() {
    const FILES: usize = 400_000;
    let mut random = Random(0x5EED_0001);
    let mut lent = Lent::new();
    let mut accepted = 0;
    let mut refusals = [0usize; 16];
    for i in 0..FILES {
        let most = match i % 1_000 {
            0 => 32_768,
            1..=20 => 2_000,
            _ => 150,
        };
        let mut file = match i % 40 {
            2 => meeting_null(&mut random).bytes(),
            _ => Given::random(&mut random, most).bytes(),
        };
        if random.one_in(3) {
            file = damaged(&mut random, file);
        }
        match lent.agree(&file) {
            Ok(()) => accepted += 1,
            Err(number) => refusals[usize::from(number)] += 1,
        }
        // with few bytes lent: the file's refusal comes before 13, and a refusal is listed if it fits
        if let Err(number) = lent.runs(&file, random.below(12 * RECORD_LENGTH)) {
            refusals[13] += usize::from(number == 13);
        }
        let _ = lent.lists(&file, random.below(14));
        let _ = lent.prints(&file);
    }
    // the inputs reach what they are made for
    assert!(accepted > FILES / 2, "{accepted} accepted");
    assert!(refusals[1..].iter().all(|&seen| seen > 20), "{refusals:?}");
}

/// Fields whose run meets null, some cut before that, and some with entries behind it.
fn meeting_null(random: &mut Random) -> Given {
    let mut given = Given::that_meets_null(random);
    match random.below(4) {
        0 => {
            let length = random.below(given.schedule.len() + 1);
            given.schedule.truncate(length);
        }
        1 => {
            let more = random.below(40);
            let entry = |_| random.below(given.n.into()) as u8;
            given.schedule.extend((0..more).map(entry));
        }
        _ => {}
    }
    given
}

/// A run that meets null: 14, whatever follows, after 13, and on a page before it; `refused 14` where that fits; nothing is written. Each cut
/// before it is accepted.
#[test]
fn null_is_refused() {
    let mut random = Random(0x5EED_0006);
    let mut lent = Lent::new();
    for _ in 0..200 {
        let mut given = Given::that_meets_null(&mut random);
        let whole = given.schedule.clone();
        let need = RECORD_LENGTH * given.calls();
        for more in [0, 1, 30] {
            given.schedule.resize(whole.len() + more, 0);
            let file = given.bytes();
            judged(&file).expect("a file in range");
            for length in [0, 1, need - 1, need, need + 1, ENOUGH_FOR_RECORDS] {
                let refusal = if length < need { 13 } else { 14 };
                assert_eq!(lent.runs(&file, length), Err(refusal));
            }
            for length in [0, 1, ROW_LENGTH, ENOUGH_FOR_PAGES] {
                assert_eq!(lent.pages(&file, length), Err(14));
            }
            for length in 0..14 {
                let listed = if length < 11 { Err(13) } else { Ok(11) };
                assert_eq!(lent.lists(&file, length), listed);
            }
            assert_eq!(lent.written(11), b"refused 14\n");
        }
        for cut in 0..whole.len() {
            given.schedule = whole[..cut].to_vec();
            lent.agree(&given.bytes()).expect("a cut before null");
        }
    }
}

/// A file of version 2 with method 0 gives the records, counts and pages of its twin of version 1, with any length lent, and its listing but for the
/// head's first words.
#[test]
fn version_1_twins() {
    let mut random = Random(0x5EED_0007);
    let mut lent = Lent::new();
    let mut files: Vec<Given> = example_files()
        .iter()
        .filter(|file| ccs::judge(file).is_ok_and(|judged| judged.version == 1))
        .map(|file| Given::of(file))
        .collect();
    files.extend((0..20_000).map(|_| Given::random(&mut random, 150)));
    for given in files {
        let [one, two] = [1, 2].map(|version| Given {
            version,
            method: CC_SYNCH,
            ..given.clone()
        });
        let room = match random.below(4) {
            0 => random.below(RECORD_LENGTH * given.calls() + 1),
            _ => ENOUGH_FOR_RECORDS,
        };
        let [one, two] = [one.bytes(), two.bytes()];
        let text = |lent: &Lent, length| lent.library[AROUND..AROUND + length].to_vec();
        let counts = lent.runs(&one, room);
        let records = text(&lent, room);
        assert_eq!(lent.runs(&two, room), counts);
        assert!(text(&lent, room) == records);
        let rows = lent.pages(&one, ENOUGH_FOR_PAGES).expect("enough bytes");
        let page = text(&lent, rows);
        assert_eq!(lent.pages(&two, ENOUGH_FOR_PAGES), Ok(rows));
        assert!(text(&lent, rows) == page);
        let length = lent.lists(&one, ENOUGH_FOR_LISTING).expect("enough bytes");
        let listing = text(&lent, length);
        let longer = length + b"cc ".len();
        assert_eq!(lent.lists(&two, ENOUGH_FOR_LISTING), Ok(longer));
        let expected = [b"CCS 2 cc".as_slice(), &listing[b"CCS 1".len()..]].concat();
        assert!(text(&lent, longer) == expected);
    }
}

/// A converted file gives the records, counts and pages of the file, with any length lent, and its listing but for the head's first words: files of
/// version 1, their twins of version 2 with method 0, and copies, whose runs may meet null.
#[test]
fn converted_files_run_alike() {
    let mut random = Random(0x5EED_0007);
    let mut lent = Lent::new();
    let mut files = example_files();
    files.retain(|file| ccs::judge(file).is_ok());
    files.extend((0..20_000).map(|i| match i % 20 {
        0 => meeting_null(&mut random).bytes(),
        _ => Given::random(&mut random, 150).bytes(),
    }));
    for file in files {
        let need = RECORD_LENGTH * Given::of(&file).calls();
        let room = match random.below(4) {
            0 => random.below(need + 1),
            _ => ENOUGH_FOR_PAGES,
        };
        for wanted in [1, 2] {
            let Ok(converted) = lent.in_version(&file, wanted) else {
                continue;
            };
            let twins = [&file, &converted];
            let [one, two] = twins.map(|file| (lent.runs(file, room), lent.written(room).to_vec()));
            assert!(one == two, "the runs differ");
            let [one, two] =
                twins.map(|file| (lent.pages(file, room), lent.written(room).to_vec()));
            assert!(one == two, "the pages differ");
            let [one, two] = twins.map(|file| {
                let length = lent.lists(file, ENOUGH_FOR_LISTING).expect("enough bytes");
                in_version_2(lent.written(length))
            });
            assert!(one == two, "the listings differ");
        }
    }
}

/// A listing with the head that version 2 has.
fn in_version_2(listing: &[u8]) -> Vec<u8> {
    match listing.strip_prefix(b"CCS 1") {
        Some(behind) => [b"CCS 2 cc", behind].concat(),
        None => listing.to_vec(),
    }
}

/// Objects that fill up: every capacity, almost only puts, one call after the other.
#[test]
fn full_objects() {
    let mut random = Random(0x5EED_0004);
    let mut lent = Lent::new();
    for capacity in 1..=64 {
        for (object, method) in [(0, CC_SYNCH), (1, CC_SYNCH), (0, DSM_SYNCH), (1, DSM_SYNCH)] {
            let alone = entries_alone(method);
            let given = Given {
                object,
                capacity,
                method,
                requests: (0..256u32)
                    .flat_map(|i| match random.below(20) {
                        0 => [1, 0, 0, 0, 0],
                        _ => [0, i as u8, (i >> 8) as u8, 0, 1],
                    })
                    .collect(),
                schedule: (0..16 * 16 * alone)
                    .map(|i| (i / alone % 16) as u8)
                    .collect(),
                ..longest(2)
            };
            let file = given.bytes();
            lent.agree(&file).expect("a file in range");
            lent.runs(&file, ENOUGH_FOR_RECORDS).expect("enough bytes");
            let records = lent.written(ENOUGH_FOR_RECORDS);
            let records = records.chunks_exact(RECORD_LENGTH);
            let full = records.clone().filter(|r| r[2] == 3);
            assert!(full.count() > 20, "the object fills up");
            let held: BTreeSet<u8> = records.filter(|r| r[2] == 0).map(|r| r[4]).collect();
            assert!(held.into_iter().eq(1..=capacity), "each count is told");
        }
    }
}

/// A call at the end of the longest schedule, behind blanks: the highest numbers of entries.
#[test]
fn latest_call() {
    for method in [CC_SYNCH, DSM_SYNCH] {
        let blanks = 32_768 - entries_alone(method);
        let file = Given {
            version: 2,
            object: 2,
            n: 2,
            h: 1,
            capacity: 0,
            method,
            counts: vec![0, 1],
            requests: vec![2, 5, 0, 0, 0],
            schedule: (0..32_768).map(|i| u8::from(i >= blanks)).collect(),
        }
        .bytes();
        Lent::new().agree(&file).expect("a file in range");
        let mut out = [0; RECORD_LENGTH];
        let counts = ccs::run(&file, &mut out).expect("enough bytes");
        let record = ccs::records(&out, &counts).next().expect("a record");
        let ends = (record.began, record.returned);
        assert_eq!(ends, (blanks as u32, Some(32_767)));
    }
}

#[test]
fn random_fields_written() {
    let mut random = Random(0x5EED_0002);
    let mut lent = Lent::new();
    let mut refusals = [0usize; 16];
    for i in 0..200_000 {
        let mut given = Given::random(&mut random, if i % 100 == 0 { 3_000 } else { 60 });
        for _ in 0..[0, 0, 1, 1, 2, 3, 4][random.below(7)] {
            spoil(&mut random, &mut given);
        }
        if i % 50 == 0 {
            let entry = random.below(18) as u8;
            given.schedule.resize(32_767 + random.below(4), entry);
        }
        let length = given.length();
        let room = match random.below(8) {
            0 => random.below(length),
            _ => length + random.below(4),
        };
        match lent.writes(&given, room) {
            Ok(written) => {
                let bytes = lent.written(written);
                assert_eq!(bytes, given.bytes(), "the layout's bytes");
                judged(bytes).expect("what is written is accepted");
            }
            Err(number) => refusals[usize::from(number)] += 1,
        }
    }
    for number in [1, 3, 4, 5, 6, 7, 8, 9, 10, 11, 12, 13, 15] {
        assert!(refusals[number] > 20, "{refusals:?}");
    }
}

/// Files that are accepted: examples, the longest, and random ones, some of which were damaged.
fn accepted_files(random: &mut Random) -> Vec<Vec<u8>> {
    let mut files = example_files();
    files.extend([1, 2].map(|version| longest(version).bytes()));
    for i in 0..40_000 {
        let most = if i % 100 == 0 { 3_000 } else { 60 };
        let file = Given::random(random, most).bytes();
        let file = match i % 2 {
            0 => file,
            _ => damaged(random, file),
        };
        files.push(file);
    }
    files.retain(|file| ccs::judge(file).is_ok());
    // the undamaged half, and some of the other
    assert!(files.len() > 21_000, "{} accepted", files.len());
    files
}

/// Read files write back unchanged, into a buffer of their length and into a longer one.
#[test]
fn accepted_files_written_back() {
    let mut random = Random(0x5EED_0005);
    let mut lent = Lent::new();
    for file in accepted_files(&mut random) {
        let given = Given::of(&file);
        for room in [file.len(), file.len() + 1 + random.below(300)] {
            assert_eq!(lent.writes(&given, room), Ok(file.len()));
            let mut expected: Vec<u8> = (0..room + 2 * AROUND).map(pattern).collect();
            expected[AROUND..AROUND + file.len()].copy_from_slice(&file);
            assert!(lent.library[..expected.len()] == expected);
        }
    }
}

/// 3 comes before the file is looked at, 16 after its own refusals, and then 13, by the converted length.
#[test]
fn conversions_as_stated() {
    let mut lent = Lent::new();
    let one = [0x43, 0x43, 0x53, 1, 0, 2, 1, 1, 0, 0, 0, 0];
    let two = [0x43, 0x43, 0x53, 2, 0, 2, 1, 1, 0, 0, 0, 0, 0];
    assert_eq!(lent.converts(&one, 2, 12), Err(13));
    assert_eq!(lent.converts(&one, 2, 13), Ok(13));
    assert_eq!(lent.written(13), two);
    assert_eq!(lent.converts(&two, 1, 11), Err(13));
    assert_eq!(lent.converts(&two, 1, 12), Ok(12));
    assert_eq!(lent.written(12), one);

    let mut dsm = Given {
        version: 2,
        method: DSM_SYNCH,
        ..two_adds()
    }
    .bytes();
    assert_eq!(lent.converts(&dsm, 1, 0), Err(16));
    assert_eq!(lent.converts(&dsm, 2, 64), Err(13));
    assert_eq!(lent.converts(&dsm, 2, 65), Ok(65));
    assert_eq!(lent.written(65), dsm);
    dsm.push(0);
    assert_eq!(lent.converts(&dsm, 1, 0), Err(12));

    assert_eq!(lent.converts(&[], 3, 0), Err(3));
    assert_eq!(lent.converts(&[], 1, 0), Err(1));
    for wanted in [0, 3, 257, 258, 65_535] {
        assert_eq!(lent.converts(&one, wanted, 13), Err(3));
    }
}

/// With so many bytes lent, what is answered with enough, or 13, which comes last.
fn unless_short(answer: Result<usize, u8>, lent: usize) -> Result<usize, u8> {
    match answer {
        Ok(length) if lent < length => Err(13),
        _ => answer,
    }
}

/// Versions that there are, and others, some of which have the low byte of one.
const VERSIONS: [u16; 8] = [0, 1, 2, 3, 257, 258, 512, 65_535];

/// Every refusal of a conversion, with any length lent.
#[test]
fn random_files_converted() {
    let mut random = Random(0x5EED_0008);
    let mut lent = Lent::new();
    let mut refusals = [0usize; 17];
    for i in 0..200_000 {
        let most = if i % 100 == 0 { 3_000 } else { 60 };
        let mut file = Given::random(&mut random, most).bytes();
        if random.one_in(3) {
            file = damaged(&mut random, file);
        }
        let wanted = if random.one_in(4) {
            VERSIONS[random.below(8)]
        } else {
            [1, 2][random.below(2)]
        };
        let room = random.below(file.len() + 4);
        let converted = lent.in_version(&file, wanted).map(|bytes| bytes.len());
        let answer = unless_short(converted, room);
        assert_eq!(lent.converts(&file, wanted, room), answer);
        if let Err(number) = answer {
            refusals[usize::from(number)] += 1;
        }
    }
    for number in (1..=13).chain([15, 16]) {
        assert!(refusals[number] > 20, "{refusals:?}");
    }
}

/// There and back restores every byte, into a buffer of just the file's length; a file already in the wanted version is copied.
#[test]
fn converted_there_and_back() {
    let mut random = Random(0x5EED_0009);
    let mut lent = Lent::new();
    for file in accepted_files(&mut random) {
        let given = Given::of(&file);
        for wanted in [1, 2] {
            let converted = match lent.in_version(&file, wanted) {
                Ok(converted) => converted,
                Err(number) => {
                    assert_eq!((number, wanted, given.method), (16, 1, DSM_SYNCH));
                    continue;
                }
            };
            assert!(wanted != given.version || converted == file, "a copy");
            let back = lent.converts(&converted, given.version, file.len());
            assert_eq!(back, Ok(file.len()));
            assert!(lent.written(file.len()) == file, "the file again");
        }
    }
}

/// One field out of range, or one row too short or too long.
fn spoil(random: &mut Random, given: &mut Given) {
    let some = 1 + random.below(6);
    match random.below(13) {
        0 => given.version = VERSIONS[random.below(8)],
        1 => given.object = random.byte(),
        2 => given.n = random.byte(),
        3 => given.h = 0,
        4 => given.capacity = random.byte(),
        5 => given.method = [0, 1, 2, 255][random.below(4)],
        6 => given.counts.truncate(given.counts.len().saturating_sub(1)),
        7 => given.counts.push(random.below(20) as u8),
        8 if !given.counts.is_empty() => {
            let place = random.below(given.counts.len());
            given.counts[place] = random.below(20) as u8;
        }
        9 => given
            .requests
            .truncate(given.requests.len().saturating_sub(some)),
        10 => given.requests.extend(vec![1; some]),
        11 if !given.requests.is_empty() => {
            let place = random.below(given.requests.len());
            given.requests[place] = random.below(4) as u8;
        }
        _ => given.schedule.push(random.byte()),
    }
}

#[test]
fn every_truncation() {
    let mut lent = Lent::new();
    for file in short_files() {
        for length in 0..=file.len() {
            let _ = lent.agree(&file[..length]);
        }
    }
    for (version, length) in [(1, 34_075), (2, 34_076)] {
        let file = longest(version).bytes();
        assert_eq!(file.len(), length);
        for length in 0..=file.len() {
            assert_eq!(judged(&file[..length]).is_ok(), length == file.len());
        }
    }
}

#[test]
fn every_byte_changed() {
    let mut lent = Lent::new();
    for mut file in short_files() {
        for place in 0..file.len() {
            let meant = file[place];
            for byte in 0..=255 {
                file[place] = byte;
                let _ = lent.agree(&file);
            }
            file[place] = meant;
        }
    }
}

#[test]
fn every_lent_length() {
    let mut lent = Lent::new();
    let mut random = Random(0x5EED_0003);
    for i in 0..300 {
        let given = Given::random(&mut random, 200);
        let file = given.bytes();
        let need = RECORD_LENGTH * given.calls();
        for length in 0..=need + RECORD_LENGTH {
            assert_eq!(lent.runs(&file, length).is_err(), length < need);
        }
        let text = lent.lists(&file, LENT).expect("the listing fits");
        for length in text.saturating_sub(60)..=text + 20 {
            assert_eq!(lent.lists(&file, length).is_err(), length < text);
        }
        let rows = lent.pages(&file, LENT).expect("the pages fit");
        for length in rows - ROW_LENGTH..=rows + ROW_LENGTH {
            assert_eq!(lent.pages(&file, length).is_err(), length < rows);
        }
        for length in file.len().saturating_sub(40)..=file.len() + 20 {
            assert_eq!(lent.writes(&given, length).is_err(), length < file.len());
        }
        for wanted in [1, 2] {
            let converted = lent.in_version(&file, wanted).map(|bytes| bytes.len());
            for length in 0..=file.len() + 20 {
                let answer = unless_short(converted, length);
                assert_eq!(lent.converts(&file, wanted, length), answer);
            }
        }
        if i < 20 {
            for length in 0..text {
                assert_eq!(lent.lists(&file, length), Err(13));
            }
            for length in 0..rows {
                assert_eq!(lent.pages(&file, length), Err(13));
            }
            for length in 0..file.len() {
                assert_eq!(lent.writes(&given, length), Err(13));
            }
        }
    }
}

/// Lengths past 16 bits, of a file and of a buffer.
#[test]
fn large_lengths() {
    let mut lent = Lent::new();
    let file = longest(2).bytes();
    for more in [65_536 - 12, 65_536, 1 << 20] {
        let mut longer = file.clone();
        longer.resize(file.len() + more, 0);
        assert_eq!(lent.agree(&longer), Err(12));
        let mut short = Given::random(&mut Random(9), 20).bytes();
        short.resize(short.len() + more, 0);
        assert_eq!(lent.agree(&short), Err(12));
    }
    for length in [ENOUGH_FOR_RECORDS - 1, ENOUGH_FOR_RECORDS] {
        let ran = lent.runs(&file, length);
        assert_eq!(ran.is_ok(), length == ENOUGH_FOR_RECORDS);
    }
    for length in [65_535, 65_536, 65_537, LENT] {
        lent.runs(&file, length).expect("enough bytes");
        lent.lists(&file, length).expect("enough bytes");
        lent.pages(&file, length).expect("enough bytes");
        lent.writes(&longest(2), length).expect("enough bytes");
        lent.converts(&file, 2, length).expect("enough bytes");
    }
}
