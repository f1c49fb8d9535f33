/* The CC-Synch step bench for programs in C: link with libccs.a (x86-64), which `rt lib` in crates/ccs builds.
 *
 * Every function takes any bytes, any numbers and any lent buffer, and answers 0 or the number of a refusal. Each comment says which numbers a
 * function answers, and what each buffer holds afterwards, refused or not. A file that is refused gives its refusal's number, and nothing is
 * written; for ccs_list alone the refusal is a text to list.
 *
 * Pointers: each points to as many bytes or numbers as the length beside it or the parameter says, and is not NULL, even where the length is 0. What
 * is lent for writing overlaps nothing else that is passed. Nothing is kept of a pointer after the call, and no function writes to memory that is
 * not lent to it. The functions may be called from several threads at once. ccs_run needs 56 KiB of stack, ccs_list 96 KiB, ccs_page 80 KiB,
 * the others 1 KiB.
 *
 * The bench file, numbers low byte first:
 *   bytes 0 to 2   mark, 'C' 'C' 'S'
 *   bytes 3 and 4  version, 1 or 2
 *   byte 5         object: 0 queue, 1 stack, 2 counter
 *   byte 6         n, the number of threads, 1 to 16
 *   byte 7         h, how many requests a turn serves at most, 1 to 255
 *   byte 8         capacity, 1 to 64, or 0 for the counter
 *   byte 9         of version 2 alone: method, 0 CC-Synch, 1 DSM-Synch; a file of version 1 has no such byte, and is of CC-Synch
 *   per thread     one byte count, 0 to 16, then five bytes for each request: code (0 put, 1 take, 2 add) and a 32-bit value, 0 for a take;
 *                  a queue and a stack know put and take, a counter knows add
 *   then           16-bit length of the schedule, 0 to 32,768, and a thread's number, below n, for each entry; then the end
 *
 * The record of a call, CCS_RECORD_LENGTH bytes:
 *   byte 0         thread
 *   byte 1         request within the thread, from 0
 *   byte 2         0 done, 1 value, 2 empty, 3 full, 255 none yet
 *   byte 3         serving thread, 255 before serving
 *   bytes 4 to 7   of done, the count of items held after the put, 1 to the capacity; of value, the value; else 0
 *   bytes 8 to 11  the call's remote references so far
 *   byte 12        1 once returned, else 0
 *   bytes 13, 14   turn that served it, 65,535 before serving
 *   byte 15        0
 *   bytes 16 to 19 number of the entry that ran the call's line 1
 *   bytes 20 to 23 number of the entry with which it returned (its line 11 or 21 of CC-Synch, 12, 24 or 28 of DSM-Synch), 4,294,967,295 while it is
 *                  open
 * An entry's number is its place in the whole schedule, from 0: blanks, spins and other threads' entries are numbered too. The two numbers are the
 * ends of the call's bar on a time line of entries. Of two calls whose bars do not overlap, the earlier one stands earlier in Swap order: if one's
 * bytes 20 to 23 are below another's bytes 16 to 19, its record comes before the other's.
 *
 * Threads wait in line at nodes, and Tail points to the last of them (README.md, 'The algorithm and its words'). A location is Tail or a whole node.
 * CC-Synch: an access to a location is a remote reference if its thread has no valid copy of it; then the thread has one, and a write or Swap ends every
 * other thread's copy of it. At the start there are no copies. A returned call has at most 6 remote references if another thread served it, and at most
 * k + 5 if it had the turn itself and served k.
 * DSM-Synch: nodes 2i and 2i + 1 belong to thread i for good. An access to Tail is a remote reference, one to a node unless its owner makes it; copies
 * play no part. A returned call that another thread served has exactly 2 remote references, or exactly 1 if its Swap gave its own thread's other node.
 * One that had the turn itself has no bound: it may spin at line 25 on another's node.
 * A run of DSM-Synch may come to a line that would follow a null pointer or put one into tmpNode (docs/DSM-SYNCH.md has such a file); it is refused with
 * 14. The same file with its schedule cut before that entry is not.
 */
#ifndef CCS_H
#define CCS_H

#include <stddef.h>
#include <stdint.h>

#ifdef __cplusplus
extern "C" {
#endif

/* The refusals. Of a file, fields are judged front to back; at each, 1 comes before the field's own rule; then 12. A run judges 13 before 14, a page 14
 * before 13, a conversion 16 before 13. */
enum {
    CCS_ACCEPTED = 0,
    CCS_REFUSED_CUT_OFF = 1,          /* a field is cut off by the end; of given fields, a row is too short */
    CCS_REFUSED_MARK = 2,             /* the mark differs */
    CCS_REFUSED_VERSION = 3,          /* the version is neither 1 nor 2 */
    CCS_REFUSED_OBJECT = 4,           /* the object is above 2 */
    CCS_REFUSED_THREADS = 5,          /* n is outside 1 to 16 */
    CCS_REFUSED_BOUND = 6,            /* h is 0 */
    CCS_REFUSED_CAPACITY = 7,         /* the capacity is not allowed for the object */
    CCS_REFUSED_COUNT = 8,            /* a count of requests is above 16 */
    CCS_REFUSED_REQUEST = 9,          /* a code is unknown to the object, or a take has a value other than 0 */
    CCS_REFUSED_SCHEDULE_LENGTH = 10, /* the schedule is longer than 32,768 */
    CCS_REFUSED_ENTRY = 11,           /* an entry is not below n */
    CCS_REFUSED_TRAILING = 12,        /* bytes follow the end; of given fields, a row is too long */
    CCS_REFUSED_BUFFER = 13,          /* the lent buffer is too short */
    CCS_REFUSED_NULL = 14,            /* in the run, a line would follow a null pointer or put one into tmpNode: of DSM-Synch alone */
    CCS_REFUSED_METHOD = 15,          /* the method is above 1; of given fields, also one other than 0 under version 1 */
    CCS_REFUSED_DSM_SYNCH = 16        /* a DSM-Synch file where version 1 is wanted */
};

/* The bytes of one record, how many hold the records of every file, and how many the listing of every file. */
enum {
    CCS_RECORD_LENGTH = 24,
    CCS_ENOUGH_FOR_RECORDS = 256 * CCS_RECORD_LENGTH,
    CCS_ENOUGH_FOR_LISTING = 29313
};

/* The bytes of a page's row, the records of a page at most, and how many bytes hold the pages of every file: 256 records on five pages, 14,616. */
enum {
    CCS_ROW_LENGTH = 56,
    CCS_PAGE_RECORDS = 58,
    CCS_ENOUGH_FOR_PAGES = (256 + 5) * CCS_ROW_LENGTH
};

/* The places of the numbers that ccs_judge tells. */
enum {
    CCS_JUDGED_VERSION,  /* 1 or 2 */
    CCS_JUDGED_OBJECT,   /* 0 queue, 1 stack, 2 counter */
    CCS_JUDGED_N,        /* threads */
    CCS_JUDGED_H,        /* how many requests a turn serves at most */
    CCS_JUDGED_CAPACITY, /* of a queue or a stack; 0 for a counter */
    CCS_JUDGED_METHOD,   /* 0 CC-Synch, which is also version 1's, 1 DSM-Synch */
    CCS_JUDGED_REQUESTS, /* requests of all threads */
    CCS_JUDGED_ENTRIES,  /* entries of the schedule */
    CCS_JUDGED_NUMBERS   /* how many numbers these are */
};

/* The places of the counts that ccs_run tells. */
enum {
    CCS_RUN_RECORDS, /* one for each Swap done */
    CCS_RUN_TURNS,   /* turns begun */
    CCS_RUN_BLANKS,  /* entries of an idle thread without a request left */
    CCS_RUN_SPINS,   /* entries that ran a waiting loop's test and stay: line 9 of CC-Synch, 10 and 25 of DSM-Synch */
    CCS_RUN_REMOTE,  /* all remote references, those of calls not yet at Swap included */
    CCS_RUN_COUNTS   /* how many counts these are */
};

/* Judges file as a bench file: 0, or 1 to 12 or 15. The numbers are those of the file, or all 0 if it is refused. */
uint8_t ccs_judge(const uint8_t *file, size_t file_length, size_t numbers[CCS_JUDGED_NUMBERS]);

/* Runs file as a bench file by its method: 0, or 1 to 12 or 15 for the file, or 13 where out has fewer than CCS_RECORD_LENGTH bytes for each request in
 * the file, performed or not, or 14 for the run, judged in this order.
 * 0: out has one record for each Swap done, in Swap order, from its first byte on, and every later byte is as it was; the counts are those of the
 * run. A refusal: out is as it was, and all counts are 0. */
uint8_t ccs_run(const uint8_t *file, size_t file_length, uint8_t *out, size_t out_length, uint32_t counts[CCS_RUN_COUNTS]);

/* Writes the bench file of given fields: 0, or 3 for the version, 4 to 7 for the numbers, 15 for the method, 1 or 12 for a row of fewer or more than n
 * counts, 8 for a count, 1 or 12 for fewer or more bytes of requests than the counts ask, 9 for a request, 10 or 11 for the schedule, or 13 where out is
 * shorter than the file, judged in this order. requests has the five bytes of each request, thread by thread. Under version 1 the method is 0, and no
 * byte is written for it.
 * 0: out has the file from its first byte on, every later byte is as it was, and *length is the file's. A refusal: out is as it was, and *length is 0. */
uint8_t ccs_write(uint16_t version, uint8_t object, uint8_t n, uint8_t h, uint8_t capacity, uint8_t method, const uint8_t *counts, size_t counts_length,
                  const uint8_t *requests, size_t requests_length, const uint8_t *schedule, size_t schedule_length, uint8_t *out, size_t out_length,
                  size_t *length);

/* Converts file as a bench file to the wanted version: 0, or 3 where wanted, of 16 bits as a file's version, is neither 1 nor 2, which is judged before
 * the file is looked at, or 1 to 12 or 15 for the file, or 16 where it is of DSM-Synch and version 1 is wanted, or 13 where out is shorter than the
 * converted file, judged in this order.
 * Version 1 becomes version 2 with method 0, and version 2 with method 0 becomes version 1; a file already in the wanted version is copied. The converted
 * file is at most one byte longer than the file. It is accepted, with the same fields but for the version. Run on the bench it gives the same records and
 * counts as the file, or the same refusal, with as many bytes lent. Converting it back to the file's version gives the file again, byte for byte.
 * 0: out has the converted file from its first byte on, every later byte is as it was, and *length is the converted file's. A refusal: out is as it was,
 * and *length is 0. */
uint8_t ccs_convert(const uint8_t *file, size_t file_length, uint16_t wanted, uint8_t *out, size_t out_length, size_t *length);

/* Lists file as a bench file, as text: 0, or 13 where the listing is longer than out, which it never is with CCS_ENOUGH_FOR_LISTING bytes. The listing
 * of a file or a run that is refused is `refused N`; that of a run has a head line and a line for each record. The head line shows the version, and from
 * version 2 on the method, cc or dsm, before the object. Every line ends with a line feed.
 * 0: out has the text from its first byte on, without a 0 at its end, every later byte is as it was, and *length is the text's. 13: out is as it was,
 * and *length is 0. */
uint8_t ccs_list(const uint8_t *file, size_t file_length, uint8_t *out, size_t out_length, size_t *length);

/* Prints the pages of file's run: 0, or 1 to 12 or 15 for the file, or 14 for the run, or 13 where out is shorter than the rows of this run, which it
 * never is with CCS_ENOUGH_FOR_PAGES bytes, judged in this order; how many requests stand in the file does not matter to it.
 * A page has a head row and at most CCS_PAGE_RECORDS records, a row each, in Swap order. Only the last page may be shorter; a page with the head row
 * alone is printed where there are no records, once. A row is CCS_ROW_LENGTH bytes: 55 columns, with the spaces at their end, and a line feed. The
 * head row's words, and under each in so many columns, with one space between:
 *   no       3     order, from 0, running on over the pages
 *   th       2     thread
 *   rq       2     request within the thread
 *   ans      5     done, value, empty, full, or none while not served
 *   value   10     of done, the count of items held after the put; of value, the value; else a hyphen
 *   by       2     serving thread, or a hyphen before serving
 *   turn     5     turn that served it, or a hyphen before serving
 *   remote  10     the call's remote references so far
 *   state    8     open or returned
 * Numbers stand right in their columns, words and hyphens left. Row i, from 0, stands at byte CCS_ROW_LENGTH * (i + i / CCS_PAGE_RECORDS + 1). No two
 * different rows of these fields print alike.
 * 0: out has the rows from its first byte on, without a 0 at their end, every later byte is as it was, and *length is that of the rows. A refusal:
 * out is as it was, and *length is 0. */
uint8_t ccs_page(const uint8_t *file, size_t file_length, uint8_t *out, size_t out_length, size_t *length);

#ifdef __cplusplus
}
#endif

#endif
