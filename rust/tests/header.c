/* Every name and every refusal of include/ccs.h, by calls of the functions: the numbers that are lent are told whatever they held, and a refusal
 * leaves the buffer. Compiled as C and as C++. Prints what differs; the exit status is 1 if anything does, else 0. */
#include "ccs.h"

#include <stdio.h>
#include <string.h>

#define PATTERN 0xEE

static int differences = 0;

static void same(const char *name, size_t found, size_t expected)
{
    if (found != expected) {
        printf("%s: %zu, not %zu\n", name, found, expected);
        differences++;
    }
}

/* A record's number of four bytes, low byte first. */
static uint32_t number(const uint8_t *at)
{
    return at[0] | (uint32_t)at[1] << 8 | (uint32_t)at[2] << 16 | (uint32_t)at[3] << 24;
}

/* A counter with two threads that add 5 and 7, h = 3, and 42 entries: thread 0, then thread 1. Version 1, and version 2 with DSM-Synch. */
static uint8_t file[65];
static const size_t file_length = sizeof file;
static uint8_t dsm_file[66];

static void lay_files(void)
{
    static const uint8_t start[23] = {'C', 'C', 'S', 1, 0, 2, 2, 3, 0, 1, 2, 5, 0, 0, 0, 1, 2, 7, 0, 0, 0, 42, 0};
    memcpy(file, start, sizeof start);
    memset(file + 23, 0, 21);
    memset(file + 44, 1, 21);
    memcpy(dsm_file, file, 9);
    dsm_file[3] = 2;
    dsm_file[9] = 1;
    memcpy(dsm_file + 10, file + 9, sizeof file - 9);
}

/* One of the files with one byte changed, or cut, or with a byte more. */
static void refused(const char *name, const uint8_t *whole, size_t place, uint8_t byte, size_t length, uint8_t expected)
{
    uint8_t changed[sizeof dsm_file + 1] = {0};
    memcpy(changed, whole, whole == file ? sizeof file : sizeof dsm_file);
    changed[place] = byte;

    size_t numbers[CCS_JUDGED_NUMBERS];
    memset(numbers, PATTERN, sizeof numbers);
    same(name, ccs_judge(changed, length, numbers), expected);
    for (int i = 0; i < CCS_JUDGED_NUMBERS; i++)
        same(name, numbers[i], 0);

    uint8_t out[CCS_ENOUGH_FOR_RECORDS];
    uint32_t counts[CCS_RUN_COUNTS];
    memset(out, PATTERN, sizeof out);
    memset(counts, PATTERN, sizeof counts);
    same(name, ccs_run(changed, length, out, sizeof out, counts), expected);
    for (int i = 0; i < CCS_RUN_COUNTS; i++)
        same(name, counts[i], 0);
    for (size_t i = 0; i < sizeof out; i++)
        same(name, out[i], PATTERN);

    char text[32];
    size_t told;
    uint8_t listing[CCS_ENOUGH_FOR_LISTING];
    same(name, ccs_list(changed, length, listing, sizeof listing, &told), CCS_ACCEPTED);
    same(name, told, (size_t)sprintf(text, "refused %d\n", expected));
    same(name, memcmp(listing, text, told) != 0, 0);

    uint8_t pages[CCS_ENOUGH_FOR_PAGES];
    memset(pages, PATTERN, sizeof pages);
    told = 99;
    same(name, ccs_page(changed, length, pages, sizeof pages, &told), expected);
    same(name, told, 0);
    for (uint16_t wanted = 1; wanted <= 2; wanted++) {
        told = 99;
        same(name, ccs_convert(changed, length, wanted, pages, sizeof pages, &told), expected);
        same(name, told, 0);
    }
    for (size_t i = 0; i < sizeof pages; i++)
        same(name, pages[i], PATTERN);
}

static void refused_files(void)
{
    const size_t end = sizeof file, dsm_end = sizeof dsm_file;
    refused("cut off", file, 0, 'C', end - 1, CCS_REFUSED_CUT_OFF);
    refused("mark", file, 2, 'T', end, CCS_REFUSED_MARK);
    refused("version", file, 3, 3, end, CCS_REFUSED_VERSION);
    refused("object", file, 5, 3, end, CCS_REFUSED_OBJECT);
    refused("threads", file, 6, 17, end, CCS_REFUSED_THREADS);
    refused("bound", file, 7, 0, end, CCS_REFUSED_BOUND);
    refused("capacity", file, 8, 1, end, CCS_REFUSED_CAPACITY);
    refused("count", file, 9, 17, end, CCS_REFUSED_COUNT);
    refused("request", file, 10, 0, end, CCS_REFUSED_REQUEST);
    refused("schedule length", file, 22, 128, end, CCS_REFUSED_SCHEDULE_LENGTH);
    refused("entry", file, 30, 2, end, CCS_REFUSED_ENTRY);
    refused("trailing", file, 0, 'C', end + 1, CCS_REFUSED_TRAILING);
    refused("method", dsm_file, 9, 2, dsm_end, CCS_REFUSED_METHOD);
    refused("method cut off", dsm_file, 9, 1, 9, CCS_REFUSED_CUT_OFF);
    refused("high byte of the version", dsm_file, 4, 1, dsm_end, CCS_REFUSED_VERSION);
    refused("trailing", dsm_file, 9, 1, dsm_end + 1, CCS_REFUSED_TRAILING);
}

static void accepted(void)
{
    size_t numbers[CCS_JUDGED_NUMBERS];
    same("judged", ccs_judge(file, file_length, numbers), CCS_ACCEPTED);
    same("version", numbers[CCS_JUDGED_VERSION], 1);
    same("method", numbers[CCS_JUDGED_METHOD], 0);
    same("object", numbers[CCS_JUDGED_OBJECT], 2);
    same("n", numbers[CCS_JUDGED_N], 2);
    same("h", numbers[CCS_JUDGED_H], 3);
    same("capacity", numbers[CCS_JUDGED_CAPACITY], 0);
    same("requests", numbers[CCS_JUDGED_REQUESTS], 2);
    same("entries", numbers[CCS_JUDGED_ENTRIES], 42);

    uint8_t out[2 * CCS_RECORD_LENGTH + 1];
    uint32_t counts[CCS_RUN_COUNTS];
    memset(out, PATTERN, sizeof out);
    same("short run", ccs_run(file, file_length, out, 2 * CCS_RECORD_LENGTH - 1, counts), CCS_REFUSED_BUFFER);
    for (size_t i = 0; i < sizeof out; i++)
        same("short run", out[i], PATTERN);
    same("run", ccs_run(file, file_length, out, sizeof out, counts), CCS_ACCEPTED);
    same("behind the records", out[2 * CCS_RECORD_LENGTH], PATTERN);
    same("first thread", out[0], 0);
    same("second thread", out[CCS_RECORD_LENGTH], 1);
    same("second value", number(out + CCS_RECORD_LENGTH + 4), 5);
    same("first begin", number(out + 16), 0);
    same("first return", number(out + 20), 20);
    same("second begin", number(out + CCS_RECORD_LENGTH + 16), 21);
    same("second return", number(out + CCS_RECORD_LENGTH + 20), 41);
    /* each fetches its own node, Tail and curNode */
    same("first cost", number(out + 8), 3);
    same("second cost", number(out + CCS_RECORD_LENGTH + 8), 3);
    same("records", counts[CCS_RUN_RECORDS], 2);
    same("turns", counts[CCS_RUN_TURNS], 2);
    same("blanks", counts[CCS_RUN_BLANKS], 0);
    same("spins", counts[CCS_RUN_SPINS], 0);
    same("remote", counts[CCS_RUN_REMOTE], 6);
    /* thread 0 alone runs its 21 entries and then has blanks; after 8 entries of thread 1, thread 0 runs 8 lines and spins for the other 26 entries */
    uint8_t other[sizeof file];
    memcpy(other, file, sizeof file);
    memset(other + 23, 0, 42);
    same("run", ccs_run(other, file_length, out, sizeof out, counts), CCS_ACCEPTED);
    same("blanks", counts[CCS_RUN_BLANKS], 21);
    memset(other + 23, 1, 8);
    same("run", ccs_run(other, file_length, out, sizeof out, counts), CCS_ACCEPTED);
    same("spins", counts[CCS_RUN_SPINS], 26);
    same("spinning thread", out[CCS_RECORD_LENGTH], 0);
    same("spinning begin", number(out + CCS_RECORD_LENGTH + 16), 8);
    same("spinning return", number(out + CCS_RECORD_LENGTH + 20), 4294967295);
}

/* DSM-Synch: a call alone takes 19 entries, and its Swap and its CAS are remote. */
static void accepted_dsm(void)
{
    size_t numbers[CCS_JUDGED_NUMBERS];
    same("judged", ccs_judge(dsm_file, sizeof dsm_file, numbers), CCS_ACCEPTED);
    same("version", numbers[CCS_JUDGED_VERSION], 2);
    same("capacity", numbers[CCS_JUDGED_CAPACITY], 0);
    same("method", numbers[CCS_JUDGED_METHOD], 1);
    same("requests", numbers[CCS_JUDGED_REQUESTS], 2);
    same("entries", numbers[CCS_JUDGED_ENTRIES], 42);

    uint8_t out[2 * CCS_RECORD_LENGTH];
    uint32_t counts[CCS_RUN_COUNTS];
    same("run", ccs_run(dsm_file, sizeof dsm_file, out, sizeof out, counts), CCS_ACCEPTED);
    same("records", counts[CCS_RUN_RECORDS], 2);
    same("turns", counts[CCS_RUN_TURNS], 2);
    same("blanks", counts[CCS_RUN_BLANKS], 4);
    same("spins", counts[CCS_RUN_SPINS], 0);
    same("remote", counts[CCS_RUN_REMOTE], 4);
    same("first return", number(out + 20), 18);
    same("second cost", number(out + CCS_RECORD_LENGTH + 8), 2);
    same("second value", number(out + CCS_RECORD_LENGTH + 4), 5);
}

/* The run whose last entry would follow a null pointer (docs/DSM-SYNCH.md): three threads with 1, 3 and 2 adds, h = 2, 106 entries. */
static void follows_null(void)
{
    static const uint8_t stretches[11][2] = {{0, 8}, {1, 9}, {2, 9}, {0, 17}, {1, 3}, {2, 13}, {1, 27}, {2, 9}, {1, 9}, {0, 1}, {1, 1}};
    static const uint8_t counts_row[3] = {1, 3, 2};
    uint8_t requests[6 * 5] = {0}, schedule[106], run[200];
    size_t entries = 0, length = 0;
    for (size_t i = 0; i < 6; i++)
        requests[5 * i] = 2;
    for (size_t i = 0; i < 11; i++) {
        memset(schedule + entries, stretches[i][0], stretches[i][1]);
        entries += stretches[i][1];
    }
    same("written", ccs_write(2, 2, 3, 2, 0, 1, counts_row, 3, requests, sizeof requests, schedule, entries, run, sizeof run, &length), CCS_ACCEPTED);
    same("written", length, 151);

    uint8_t out[6 * CCS_RECORD_LENGTH];
    uint32_t counts[CCS_RUN_COUNTS];
    memset(out, PATTERN, sizeof out);
    memset(counts, PATTERN, sizeof counts);
    same("short run", ccs_run(run, length, out, sizeof out - 1, counts), CCS_REFUSED_BUFFER);
    same("null", ccs_run(run, length, out, sizeof out, counts), CCS_REFUSED_NULL);
    for (size_t i = 0; i < sizeof out; i++)
        same("null", out[i], PATTERN);
    for (int i = 0; i < CCS_RUN_COUNTS; i++)
        same("null", counts[i], 0);

    size_t told = 99;
    same("page", ccs_page(run, length, out, 0, &told), CCS_REFUSED_NULL);
    same("page", told, 0);
    uint8_t text[CCS_ENOUGH_FOR_LISTING];
    same("text", ccs_list(run, length, text, sizeof text, &told), CCS_ACCEPTED);
    same("text", told, 11);
    same("text", memcmp(text, "refused 14\n", 11) != 0, 0);

    same("cut", ccs_write(2, 2, 3, 2, 0, 1, counts_row, 3, requests, sizeof requests, schedule, 105, run, sizeof run, &length), CCS_ACCEPTED);
    same("cut", ccs_run(run, length, out, sizeof out, counts), CCS_ACCEPTED);
    same("cut", counts[CCS_RUN_RECORDS], 6);
    same("cut", counts[CCS_RUN_REMOTE], 24);
    same("page", ccs_page(run, length, out, 0, &told), CCS_REFUSED_BUFFER);
}

/* A stack of capacity 2, one thread that puts 9, 8 and 7: two counts of items held, and a full without one. */
static void counted(void)
{
    static const uint8_t stack[9 + 16 + 2 + 63] = {'C', 'C', 'S', 1, 0, 1, 1, 1, 2, 3, 0, 9, 0, 0, 0, 0, 8, 0, 0, 0, 0, 7, 0, 0, 0, 63};
    static const uint8_t answers[3][2] = {{0, 1}, {0, 2}, {3, 0}};
    uint8_t out[3 * CCS_RECORD_LENGTH];
    uint32_t counts[CCS_RUN_COUNTS];
    same("puts", ccs_run(stack, sizeof stack, out, sizeof out, counts), CCS_ACCEPTED);
    same("puts", counts[CCS_RUN_RECORDS], 3);
    for (size_t i = 0; i < 3; i++) {
        same("answer of a put", out[CCS_RECORD_LENGTH * i + 2], answers[i][0]);
        same("items held after a put", number(out + CCS_RECORD_LENGTH * i + 4), answers[i][1]);
    }
}

/* The most requests that a file has: their records fit, and would not in a byte less. */
static void most_records(void)
{
    uint8_t most[9 + 16 * 81 + 2] = {'C', 'C', 'S', 1, 0, 0, 16, 1, 64};
    for (size_t i = 0; i < 16; i++)
        most[9 + 81 * i] = 16;
    uint8_t out[CCS_ENOUGH_FOR_RECORDS];
    uint32_t counts[CCS_RUN_COUNTS];
    same("most records", ccs_run(most, sizeof most, out, sizeof out, counts), CCS_ACCEPTED);
    same("most records", ccs_run(most, sizeof most, out, sizeof out - 1, counts), CCS_REFUSED_BUFFER);
}

static void written(void)
{
    const uint8_t counts[2] = {1, 1};
    const uint8_t requests[10] = {2, 5, 0, 0, 0, 2, 7, 0, 0, 0};
    uint8_t out[sizeof file + 1];
    size_t length = 99;
    memset(out, PATTERN, sizeof out);
    same("short file", ccs_write(1, 2, 2, 3, 0, 0, counts, 2, requests, 10, file + 23, 42, out, sizeof file - 1, &length), CCS_REFUSED_BUFFER);
    same("short file", length, 0);
    same("short file", out[0], PATTERN);
    same("h", ccs_write(1, 2, 2, 0, 0, 0, counts, 2, requests, 10, file + 23, 42, out, sizeof out, &length), CCS_REFUSED_BOUND);
    same("counts", ccs_write(1, 2, 2, 3, 0, 0, counts, 1, requests, 10, file + 23, 42, out, sizeof out, &length), CCS_REFUSED_CUT_OFF);
    same("requests", ccs_write(1, 2, 1, 3, 0, 0, counts, 1, requests, 10, file + 23, 42, out, sizeof out, &length), CCS_REFUSED_TRAILING);
    same("file", ccs_write(1, 2, 2, 3, 0, 0, counts, 2, requests, 10, file + 23, 42, out, sizeof out, &length), CCS_ACCEPTED);
    same("file", length, sizeof file);
    same("file", memcmp(out, file, sizeof file) != 0, 0);
    same("behind the file", out[sizeof file], PATTERN);

    same("version", ccs_write(257, 2, 2, 3, 0, 0, counts, 2, requests, 10, file + 23, 42, out, sizeof out, &length), CCS_REFUSED_VERSION);
    same("method", ccs_write(1, 2, 2, 3, 0, 1, counts, 2, requests, 10, file + 23, 42, out, sizeof out, &length), CCS_REFUSED_METHOD);
    same("method", ccs_write(2, 2, 2, 3, 0, 2, counts, 2, requests, 10, file + 23, 42, out, sizeof out, &length), CCS_REFUSED_METHOD);
    same("version 2", ccs_write(2, 2, 2, 3, 0, 1, counts, 2, requests, 10, file + 23, 42, out, sizeof out, &length), CCS_ACCEPTED);
    same("version 2", length, sizeof dsm_file);
    same("version 2", memcmp(out, dsm_file, sizeof dsm_file) != 0, 0);
}

/* To the wanted version, with one byte lent too few, and with more than enough. */
static void converts(const char *name, const uint8_t *from, size_t from_length, uint16_t wanted, const uint8_t *to, size_t to_length)
{
    uint8_t out[sizeof dsm_file + 1];
    size_t length = 99;
    memset(out, PATTERN, sizeof out);
    same(name, ccs_convert(from, from_length, wanted, out, to_length - 1, &length), CCS_REFUSED_BUFFER);
    same(name, length, 0);
    for (size_t i = 0; i < sizeof out; i++)
        same(name, out[i], PATTERN);
    same(name, ccs_convert(from, from_length, wanted, out, sizeof out, &length), CCS_ACCEPTED);
    same(name, length, to_length);
    same(name, memcmp(out, to, to_length) != 0, 0);
    for (size_t i = to_length; i < sizeof out; i++)
        same(name, out[i], PATTERN);
}

static void converted(void)
{
    uint8_t cc_file[sizeof dsm_file];
    memcpy(cc_file, dsm_file, sizeof dsm_file);
    cc_file[9] = 0;
    converts("to version 2", file, sizeof file, 2, cc_file, sizeof cc_file);
    converts("to version 1", cc_file, sizeof cc_file, 1, file, sizeof file);
    converts("copy", file, sizeof file, 1, file, sizeof file);
    converts("copy", cc_file, sizeof cc_file, 2, cc_file, sizeof cc_file);
    converts("copy", dsm_file, sizeof dsm_file, 2, dsm_file, sizeof dsm_file);

    uint8_t out[sizeof file];
    size_t length = 99;
    memset(out, PATTERN, sizeof out);
    same("DSM-Synch", ccs_convert(dsm_file, sizeof dsm_file, 1, out, 0, &length), CCS_REFUSED_DSM_SYNCH);
    same("DSM-Synch", length, 0);
    same("DSM-Synch", ccs_convert(dsm_file, sizeof dsm_file, 1, out, sizeof out, &length), CCS_REFUSED_DSM_SYNCH);
    same("wanted version", ccs_convert(file, sizeof file, 257, out, sizeof out, &length), CCS_REFUSED_VERSION);
    same("wanted version", ccs_convert(file, 0, 0, out, sizeof out, &length), CCS_REFUSED_VERSION);
    for (size_t i = 0; i < sizeof out; i++)
        same("not converted", out[i], PATTERN);
}

static void listed(void)
{
    uint8_t text[CCS_ENOUGH_FOR_LISTING];
    size_t length = 99;
    memset(text, PATTERN, sizeof text);
    same("short text", ccs_list(file, file_length, text, 20, &length), CCS_REFUSED_BUFFER);
    same("short text", length, 0);
    same("short text", text[0], PATTERN);
    same("text", ccs_list(file, file_length, text, sizeof text, &length), CCS_ACCEPTED);
    same("text", memcmp(text, "CCS 1 counter n=2 h=3 calls=2 turns=2 ", 38) != 0, 0);
    same("last byte", text[length - 1], '\n');
    same("behind the text", text[length], PATTERN);
    same("text", ccs_list(dsm_file, sizeof dsm_file, text, sizeof text, &length), CCS_ACCEPTED);
    same("text", memcmp(text, "CCS 2 dsm counter n=2 h=3 calls=2 turns=2 ", 42) != 0, 0);
}

static void printed(void)
{
    const size_t rows = 3 * CCS_ROW_LENGTH;
    uint8_t pages[3 * CCS_ROW_LENGTH + 1];
    size_t length = 99;
    memset(pages, PATTERN, sizeof pages);
    same("short page", ccs_page(file, file_length, pages, rows - 1, &length), CCS_REFUSED_BUFFER);
    same("short page", length, 0);
    for (size_t i = 0; i < sizeof pages; i++)
        same("short page", pages[i], PATTERN);
    same("page", ccs_page(file, file_length, pages, sizeof pages, &length), CCS_ACCEPTED);
    same("page", length, rows);
    same("head row", memcmp(pages, "no  th rq ans   value      by turn  remote     state   \n", CCS_ROW_LENGTH) != 0, 0);
    same("first row", memcmp(pages + CCS_ROW_LENGTH, "  0  0  0 value          0  0     0 ", 36) != 0, 0);
    same("second row", memcmp(pages + 2 * CCS_ROW_LENGTH, "  1  1  0 value          5  1     1 ", 36) != 0, 0);
    same("behind the page", pages[rows], PATTERN);
}

/* The most records that a run has, 16 threads with 16 adds one after the other: their pages fit, and would not in a byte less. */
static void most_rows(void)
{
    static uint8_t most[9 + 16 * 81 + 2 + 256 * 21] = {'C', 'C', 'S', 1, 0, 2, 16, 1, 0};
    uint8_t *const schedule = most + 9 + 16 * 81 + 2;
    for (size_t i = 0; i < 16; i++) {
        most[9 + 81 * i] = 16;
        for (size_t k = 0; k < 16; k++)
            most[9 + 81 * i + 1 + 5 * k] = 2;
        memset(schedule + 16 * 21 * i, (int)i, 16 * 21);
    }
    schedule[-2] = 256 * 21 % 256;
    schedule[-1] = 256 * 21 / 256;

    uint8_t pages[CCS_ENOUGH_FOR_PAGES];
    size_t length;
    same("most rows", ccs_page(most, sizeof most, pages, sizeof pages - 1, &length), CCS_REFUSED_BUFFER);
    same("most rows", ccs_page(most, sizeof most, pages, sizeof pages, &length), CCS_ACCEPTED);
    same("most rows", length, sizeof pages);
    const uint8_t *second = pages + (1 + CCS_PAGE_RECORDS) * CCS_ROW_LENGTH;
    same("second page", memcmp(second, pages, CCS_ROW_LENGTH) != 0, 0);
    same("its first record", memcmp(second + CCS_ROW_LENGTH, " 58  3 10 ", 10) != 0, 0);
}

int main(void)
{
    lay_files();
    refused_files();
    accepted();
    accepted_dsm();
    follows_null();
    counted();
    most_records();
    written();
    converted();
    listed();
    printed();
    most_rows();
    return differences > 0;
}
