//! The CC-Synch step bench for Rust programs: safe functions over the proved library. A file names its method, CC-Synch or DSM-Synch.
//!
//! Each function takes any bytes and any lent buffer, and answers a result or a [`Refusal`]. A refusal leaves the buffer as it was;
//! otherwise what is written stands from the buffer's first byte on, and every later byte is as it was. The functions may be
//! called from several threads at once. [`run`] needs 56 KiB of stack, [`list`] 96 KiB, [`page`] 80 KiB.
//!
//! What the library promises of its answers is proved, for every file and every schedule; this package, the linker and the
//! compiler are not part of that proof. The file's layout, the record of a call and what a remote reference is stand in `include/ccs.h`;
//! the repository's README shows a listing and a page.
mod record;
mod refusal;

pub use record::{records, Answer, Record, Serving};
pub use refusal::Refusal;

/// The functions of `include/ccs.h`.
mod border {
    extern "C" {
        pub fn ccs_judge(file: *const u8, file_length: usize, numbers: *mut [usize; 8]) -> u8;
        pub fn ccs_run(
            file: *const u8,
            file_length: usize,
            out: *mut u8,
            out_length: usize,
            numbers: *mut [u32; 5],
        ) -> u8;
        pub fn ccs_write(
            version: u16,
            object: u8,
            n: u8,
            h: u8,
            capacity: u8,
            method: u8,
            counts: *const u8,
            counts_length: usize,
            requests: *const u8,
            requests_length: usize,
            schedule: *const u8,
            schedule_length: usize,
            out: *mut u8,
            out_length: usize,
            length: *mut usize,
        ) -> u8;
        pub fn ccs_convert(
            file: *const u8,
            file_length: usize,
            wanted: u16,
            out: *mut u8,
            out_length: usize,
            length: *mut usize,
        ) -> u8;
        pub fn ccs_list(
            file: *const u8,
            file_length: usize,
            out: *mut u8,
            out_length: usize,
            length: *mut usize,
        ) -> u8;
        pub fn ccs_page(
            file: *const u8,
            file_length: usize,
            out: *mut u8,
            out_length: usize,
            length: *mut usize,
        ) -> u8;
    }
}

/// The bytes of one record in the buffer of [`run`].
pub const RECORD_LENGTH: usize = 24;

/// So many bytes hold the records of every file.
pub const ENOUGH_FOR_RECORDS: usize = 256 * RECORD_LENGTH;

/// So many bytes hold the listing of every file.
pub const ENOUGH_FOR_LISTING: usize = 29_313;

/// The bytes of one row of a [`page`]: 55 columns and a line feed.
pub const ROW_LENGTH: usize = 56;

/// The records of one page, at most.
pub const PAGE_RECORDS: usize = 58;

/// So many bytes hold the pages of every file: 256 records on five pages.
pub const ENOUGH_FOR_PAGES: usize = (256 + 5) * ROW_LENGTH;

/// What a file that is accepted holds, by the numbers of its layout.
#[derive(Clone, Copy, Debug, PartialEq, Eq)]
pub struct Judged {
    /// 1 or 2.
    pub version: usize,
    /// 0 queue, 1 stack, 2 counter.
    pub object: usize,
    /// How many threads.
    pub n: usize,
    /// How many requests a turn serves at most.
    pub h: usize,
    /// The capacity of a queue or a stack, 0 for a counter.
    pub capacity: usize,
    /// 0 CC-Synch, which is also version 1's, 1 DSM-Synch.
    pub method: usize,
    /// The requests of all threads.
    pub requests: usize,
    /// The entries of the schedule.
    pub entries: usize,
}

/// The counts of a run.
#[derive(Clone, Copy, Debug, Default, PartialEq, Eq)]
pub struct Counts {
    /// Records, one for each Swap done.
    pub records: u32,
    /// Turns begun.
    pub turns: u32,
    /// Entries of an idle thread without a request left.
    pub blanks: u32,
    /// Entries that ran a waiting loop's test and stay: line 9 of CC-Synch, 10 and 25 of DSM-Synch.
    pub spins: u32,
    /// All remote references, those of calls not yet at Swap included.
    pub remote: u32,
}

/// The fields of a file, as [`write`] is given them.
#[derive(Clone, Copy, Debug, PartialEq, Eq)]
pub struct Fields<'a> {
    /// 1 or 2.
    pub version: u16,
    /// 0 queue, 1 stack, 2 counter.
    pub object: u8,
    /// How many threads, 1 to 16.
    pub n: u8,
    /// How many requests a turn serves at most, 1 to 255.
    pub h: u8,
    /// 1 to 64, 0 for the counter.
    pub capacity: u8,
    /// 0 CC-Synch, 1 DSM-Synch, which version 1 does not know.
    pub method: u8,
    /// How many requests each thread has, a byte each.
    pub counts: &'a [u8],
    /// The requests, thread by thread, five bytes each: code, then value, low byte first.
    pub requests: &'a [u8],
    /// The schedule, a thread's number an entry.
    pub schedule: &'a [u8],
}

/// The answer unless the number is a refusal's.
fn unless_refused<T>(number: u8, answer: T) -> Result<T, Refusal> {
    match Refusal::of(number) {
        None => Ok(answer),
        Some(refusal) => Err(refusal),
    }
}

/// Judges any bytes as a bench file.
///
/// ```
/// // a counter, one thread without requests, an empty schedule
/// let file = [0x43, 0x43, 0x53, 1, 0, 2, 1, 1, 0, 0, 0, 0];
/// let judged = ccs::judge(&file).unwrap();
/// assert_eq!((judged.object, judged.n, judged.entries), (2, 1, 0));
/// assert_eq!((judged.version, judged.method), (1, 0));
/// assert_eq!(ccs::judge(&file[..5]), Err(ccs::Refusal::CutOff));
///
/// // the same in version 2, by DSM-Synch
/// let mut file = [0x43, 0x43, 0x53, 2, 0, 2, 1, 1, 0, 1, 0, 0, 0];
/// let judged = ccs::judge(&file).unwrap();
/// assert_eq!((judged.version, judged.method), (2, 1));
/// file[9] = 2;
/// assert_eq!(ccs::judge(&file), Err(ccs::Refusal::Method));
/// ```
pub fn judge(file: &[u8]) -> Result<Judged, Refusal> {
    let mut numbers = [0; 8];
    // SAFETY: the pointers and lengths are those of a slice and an array that live through the call and do not overlap.
    let number = unsafe { border::ccs_judge(file.as_ptr(), file.len(), &mut numbers) };
    let [version, object, n, h, capacity, method, requests, entries] = numbers;
    unless_refused(
        number,
        Judged {
            version,
            object,
            n,
            h,
            capacity,
            method,
            requests,
            entries,
        },
    )
}

/// Runs any bytes as a bench file, by its method. The buffer needs [`RECORD_LENGTH`] bytes for each request in the file; it then has one record for
/// each Swap done, in Swap order. [`Refusal::Null`] is of a run of DSM-Synch that comes to a line which would follow a null pointer or put one into
/// tmpNode, and comes after [`Refusal::Buffer`].
///
/// ```
/// // a counter, one thread that adds 5, and 21 entries
/// let mut file = vec![0x43, 0x43, 0x53, 1, 0, 2, 1, 1, 0, 1, 2, 5, 0, 0, 0, 21, 0];
/// file.resize(file.len() + 21, 0);
/// let mut out = [0xEE; 32];
/// let counts = ccs::run(&file, &mut out).unwrap();
/// assert_eq!((counts.records, counts.turns, counts.remote), (1, 1, 3));
/// let record = ccs::records(&out, &counts).next().unwrap();
/// assert_eq!(record.serving.unwrap().answer, ccs::Answer::Value(0));
/// assert_eq!((record.began, record.returned), (0, Some(20)));
/// assert_eq!(out[ccs::RECORD_LENGTH..], [0xEE; 8]);
/// assert_eq!(ccs::run(&file, &mut out[..ccs::RECORD_LENGTH - 1]), Err(ccs::Refusal::Buffer));
///
/// // the same in version 2, by DSM-Synch: a call alone takes 19 entries, and Swap and CAS are remote
/// file[3] = 2;
/// file.insert(9, 1);
/// let counts = ccs::run(&file, &mut out).unwrap();
/// assert_eq!((counts.records, counts.blanks, counts.remote), (1, 2, 2));
/// assert_eq!(ccs::records(&out, &counts).next().unwrap().returned, Some(18));
/// ```
pub fn run(file: &[u8], out: &mut [u8]) -> Result<Counts, Refusal> {
    let mut numbers = [0; 5];
    // SAFETY: as in `judge`; `out` is lent for writing.
    let number = unsafe {
        border::ccs_run(
            file.as_ptr(),
            file.len(),
            out.as_mut_ptr(),
            out.len(),
            &mut numbers,
        )
    };
    let [records, turns, blanks, spins, remote] = numbers;
    unless_refused(
        number,
        Counts {
            records,
            turns,
            blanks,
            spins,
            remote,
        },
    )
}

/// Writes the bench file of given fields, and answers its length.
///
/// ```
/// let fields = ccs::Fields {
///     version: 1, object: 2, n: 1, h: 1, capacity: 0, method: 0, counts: &[1], requests: &[2, 5, 0, 0, 0], schedule: &[0; 21],
/// };
/// let mut file = [0; 64];
/// let length = ccs::write(&fields, &mut file).unwrap();
/// assert_eq!(length, 38);
/// assert_eq!(ccs::judge(&file[..length]).unwrap().requests, 1);
/// assert_eq!(ccs::write(&fields, &mut file[..37]), Err(ccs::Refusal::Buffer));
///
/// // version 2 has one byte more, the method
/// let dsm = ccs::Fields { version: 2, method: 1, ..fields };
/// assert_eq!(ccs::write(&dsm, &mut file), Ok(39));
/// assert_eq!(file[9], 1);
/// assert_eq!(ccs::write(&ccs::Fields { version: 1, ..dsm }, &mut file), Err(ccs::Refusal::Method));
/// assert_eq!(ccs::write(&ccs::Fields { version: 3, ..dsm }, &mut file), Err(ccs::Refusal::Version));
/// ```
pub fn write(fields: &Fields, out: &mut [u8]) -> Result<usize, Refusal> {
    let mut length = 0;
    // SAFETY: as in `run`.
    let number = unsafe {
        border::ccs_write(
            fields.version,
            fields.object,
            fields.n,
            fields.h,
            fields.capacity,
            fields.method,
            fields.counts.as_ptr(),
            fields.counts.len(),
            fields.requests.as_ptr(),
            fields.requests.len(),
            fields.schedule.as_ptr(),
            fields.schedule.len(),
            out.as_mut_ptr(),
            out.len(),
            &mut length,
        )
    };
    unless_refused(number, length)
}

/// Converts any bytes as a bench file to the wanted version, 1 or 2, and answers the converted file's length, at most one byte more than the file's.
/// Version 1 becomes version 2 with method 0, and version 2 with method 0 becomes version 1; a file already in the wanted version is judged and copied.
/// The converted file is accepted, with the same fields but for the version; [`run`] answers alike for both with as many bytes lent; and converting
/// back gives the first file again, byte for byte. [`Refusal::Version`] for the wanted version comes before the file is looked at,
/// 16, for a DSM-Synch file where version 1 is wanted, after the file's own refusals, and [`Refusal::Buffer`] last.
///
/// ```
/// use ccs::Refusal;
/// // a counter, one thread without requests, an empty schedule
/// let file = [0x43, 0x43, 0x53, 1, 0, 2, 1, 1, 0, 0, 0, 0];
/// let mut two = [0xEE; 13];
/// assert_eq!(ccs::convert(&file, 2, &mut two[..12]), Err(Refusal::Buffer));
/// assert_eq!(ccs::convert(&file, 2, &mut two), Ok(13));
/// assert_eq!(two, [0x43, 0x43, 0x53, 2, 0, 2, 1, 1, 0, 0, 0, 0, 0]);
///
/// // and back
/// let mut one = [0xEE; 12];
/// assert_eq!(ccs::convert(&two, 1, &mut one[..11]), Err(Refusal::Buffer));
/// assert_eq!(ccs::convert(&two, 1, &mut one), Ok(12));
/// assert_eq!(one, file);
///
/// // no other version, whatever the file is
/// assert_eq!(ccs::convert(&file, 257, &mut one), Err(Refusal::Version));
/// assert_eq!(ccs::convert(&[], 3, &mut one), Err(Refusal::Version));
/// assert_eq!(ccs::convert(&[], 1, &mut one), Err(Refusal::CutOff));
///
/// // version 1 has no DSM-Synch, however few bytes are lent
/// two[9] = 1;
/// assert_eq!(ccs::convert(&two, 1, &mut []).map_err(Refusal::number), Err(16));
/// ```
pub fn convert(file: &[u8], wanted: u16, out: &mut [u8]) -> Result<usize, Refusal> {
    let mut length = 0;
    // SAFETY: as in `run`.
    let number = unsafe {
        border::ccs_convert(
            file.as_ptr(),
            file.len(),
            wanted,
            out.as_mut_ptr(),
            out.len(),
            &mut length,
        )
    };
    unless_refused(number, length)
}

/// Lists any bytes as a bench file, and answers the listing's length; a file or a run that is refused has the listing `refused N`. The one refusal
/// is [`Refusal::Buffer`]; [`ENOUGH_FOR_LISTING`] bytes are never too few.
///
/// ```
/// let mut out = [0; ccs::ENOUGH_FOR_LISTING];
/// let length = ccs::list(b"CCT", &mut out).unwrap();
/// assert_eq!(&out[..length], b"refused 2\n");
/// assert_eq!(ccs::list(b"CCT", &mut out[..9]), Err(ccs::Refusal::Buffer));
///
/// // from version 2 on the head shows the method
/// let file = [0x43, 0x43, 0x53, 2, 0, 2, 1, 1, 0, 1, 0, 0, 0];
/// let length = ccs::list(&file, &mut out).unwrap();
/// assert_eq!(&out[..length], b"CCS 2 dsm counter n=1 h=1 calls=0 turns=0 blank=0 spin=0 remote=0\n");
/// ```
pub fn list(file: &[u8], out: &mut [u8]) -> Result<usize, Refusal> {
    let mut length = 0;
    // SAFETY: as in `run`.
    let number = unsafe {
        border::ccs_list(
            file.as_ptr(),
            file.len(),
            out.as_mut_ptr(),
            out.len(),
            &mut length,
        )
    };
    unless_refused(number, length)
}

/// Runs any bytes as a bench file, prints the run's pages, and answers their length. A page has a head row and at most [`PAGE_RECORDS`] records,
/// in Swap order, each row [`ROW_LENGTH`] bytes; only the last page may be shorter, and a head row alone is printed where there are no records,
/// once. Row i, from 0, stands at byte `ROW_LENGTH * (i + i / PAGE_RECORDS + 1)`. `include/ccs.h` has the columns. [`Refusal::Buffer`] is by the
/// rows of this run, not by the requests in the file, and comes after [`Refusal::Null`]; [`ENOUGH_FOR_PAGES`] bytes are never too few.
///
/// ```
/// // a counter, one thread that adds 5, and 5 entries: the last is the Swap
/// let file = [0x43, 0x43, 0x53, 1, 0, 2, 1, 1, 0, 1, 2, 5, 0, 0, 0, 5, 0, 0, 0, 0, 0, 0];
/// let mut out = [0; ccs::ENOUGH_FOR_PAGES];
/// let length = ccs::page(&file, &mut out).unwrap();
/// let rows: Vec<&[u8]> = out[..length].chunks(ccs::ROW_LENGTH).collect();
/// assert_eq!(rows.len(), 2);
/// assert_eq!(rows[0], b"no  th rq ans   value      by turn  remote     state   \n");
/// assert_eq!(rows[1], b"  0  0  0 none  -          -  -              2 open    \n");
///
/// // no request, no entry: the head row alone
/// let file = [0x43, 0x43, 0x53, 1, 0, 2, 1, 1, 0, 0, 0, 0];
/// assert_eq!(ccs::page(&file, &mut out[..56]), Ok(ccs::ROW_LENGTH));
/// assert_eq!(ccs::page(&file, &mut out[..55]), Err(ccs::Refusal::Buffer));
/// assert_eq!(ccs::page(b"CCT", &mut out), Err(ccs::Refusal::Mark));
/// ```
pub fn page(file: &[u8], out: &mut [u8]) -> Result<usize, Refusal> {
    let mut length = 0;
    // SAFETY: as in `run`.
    let number = unsafe {
        border::ccs_page(
            file.as_ptr(),
            file.len(),
            out.as_mut_ptr(),
            out.len(),
            &mut length,
        )
    };
    unless_refused(number, length)
}

#[cfg(test)]
mod tests {
    use super::*;

    #[test]
    fn every_number_is_its_refusals() {
        assert_eq!(Refusal::of(0), None);
        for number in 1..=255 {
            let refusal = Refusal::of(number).expect("a refusal");
            assert_eq!(refusal.number(), number);
            assert_eq!(matches!(refusal, Refusal::Unlisted(_)), number > 15);
        }
    }

    /// What a refusal leaves in the numbers that are lent, whatever they held: 0.
    #[test]
    fn numbers_of_a_refusal_are_0() {
        let file = [0x43, 0x43, 0x53, 1, 0, 2, 1, 1, 0, 1, 2, 5, 0, 0, 0, 0, 0];
        let mut out = [0xEE; RECORD_LENGTH - 1];
        for length in 0..=file.len() {
            let mut numbers = [usize::MAX; 8];
            // SAFETY: as in `judge`, `run`, `list`, `page` and `convert`.
            let judged = unsafe { border::ccs_judge(file.as_ptr(), length, &mut numbers) };
            assert_eq!(judged == 0, length == file.len());
            assert_eq!(numbers == [0; 8], judged != 0);

            let mut counts = [u32::MAX; 5];
            let (at, lent) = (out.as_mut_ptr(), out.len());
            let ran = unsafe { border::ccs_run(file.as_ptr(), length, at, lent, &mut counts) };
            assert_eq!(ran, if judged == 0 { 13 } else { judged });
            assert_eq!(counts, [0; 5]);

            let mut written = usize::MAX;
            let listed = unsafe { border::ccs_list(file.as_ptr(), length, at, 9, &mut written) };
            assert_eq!((listed, written), (13, 0));

            let mut written = usize::MAX;
            let printed =
                unsafe { border::ccs_page(file.as_ptr(), length, at, lent, &mut written) };
            assert_eq!((printed, written), (ran, 0));

            // version 2 takes a byte more than is lent
            for (wanted, refusal) in [(2, ran), (3, 3)] {
                let mut written = usize::MAX;
                let lent = file.len();
                let converted = unsafe {
                    border::ccs_convert(file.as_ptr(), length, wanted, at, lent, &mut written)
                };
                assert_eq!((converted, written), (refusal, 0));
            }
        }
        let mut written = usize::MAX;
        let (row, at, lent) = (file.as_ptr(), out.as_mut_ptr(), out.len());
        // SAFETY: as in `write`.
        let refusal = unsafe {
            border::ccs_write(
                1,
                2,
                1,
                0,
                0,
                0,
                row,
                1,
                row,
                0,
                row,
                0,
                at,
                lent,
                &mut written,
            )
        };
        assert_eq!((refusal, written), (6, 0));
        assert_eq!(out, [0xEE; RECORD_LENGTH - 1]);
    }

    /// The same of a run that meets null, in which six calls came to their Swap, and of that file where version 1 is wanted.
    #[test]
    fn numbers_of_a_run_that_meets_null_are_0() {
        let file = include_bytes!("../../examples/dsm_follows_null.bin");
        let mut out = [0xEE; 6 * RECORD_LENGTH];
        let mut counts = [u32::MAX; 5];
        let (at, lent) = (out.as_mut_ptr(), out.len());
        // SAFETY: as in `run`, `page` and `convert`.
        let ran = unsafe { border::ccs_run(file.as_ptr(), file.len(), at, lent, &mut counts) };
        assert_eq!((ran, counts), (14, [0; 5]));
        let mut written = usize::MAX;
        let printed = unsafe { border::ccs_page(file.as_ptr(), file.len(), at, 0, &mut written) };
        assert_eq!((printed, written), (14, 0));
        let mut written = usize::MAX;
        let converted =
            unsafe { border::ccs_convert(file.as_ptr(), file.len(), 1, at, lent, &mut written) };
        assert_eq!((converted, written), (16, 0));
        assert_eq!(out, [0xEE; 6 * RECORD_LENGTH]);
    }
}
