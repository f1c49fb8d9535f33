/* Writes a bench file of two threads, once for each method, runs it under a schedule, and prints from which entry to which each call went and what it
 * cost. */
#include "ccs.h"

#include <stdio.h>

/* A record's number of four bytes, low byte first. */
static uint32_t number(const uint8_t *at)
{
    return at[0] | (uint32_t)at[1] << 8 | (uint32_t)at[2] << 16 | (uint32_t)at[3] << 24;
}

/* The refusal's number, or 0. */
static uint8_t run_by(uint8_t method)
{
    /* Queue of capacity 4, h = 8; thread 0 puts 7, thread 1 takes: document 01's run with ten entries more, which are blanks in CC-Synch. There thread 0
     * serves both calls, which cost 5 and 4 by request No. 5 of document 02. In DSM-Synch it leaves the last node in line to its owner. */
    const uint8_t counts[] = {1, 1};
    const uint8_t requests[] = {0, 7, 0, 0, 0, 1, 0, 0, 0, 0};
    uint8_t schedule[8 + 9 + 20 + 13] = {0};
    for (size_t i = 8; i < 17; i++)
        schedule[i] = 1;
    for (size_t i = 37; i < 50; i++)
        schedule[i] = 1;

    uint8_t file[128];
    size_t file_length;
    uint8_t refusal =
        ccs_write(2, 0, 2, 8, 4, method, counts, sizeof counts, requests, sizeof requests, schedule, sizeof schedule, file, sizeof file, &file_length);
    if (refusal != CCS_ACCEPTED) {
        printf("not written: %d\n", refusal);
        return refusal;
    }

    size_t judged[CCS_JUDGED_NUMBERS];
    refusal = ccs_judge(file, file_length, judged);
    printf("judged %d: version=%zu n=%zu h=%zu method=%zu requests=%zu entries=%zu\n", refusal, judged[CCS_JUDGED_VERSION], judged[CCS_JUDGED_N],
           judged[CCS_JUDGED_H], judged[CCS_JUDGED_METHOD], judged[CCS_JUDGED_REQUESTS], judged[CCS_JUDGED_ENTRIES]);

    uint8_t records[2 * CCS_RECORD_LENGTH];
    uint32_t told[CCS_RUN_COUNTS];
    refusal = ccs_run(file, file_length, records, sizeof records, told);
    if (refusal != CCS_ACCEPTED) {
        printf("not run: %d\n", refusal);
        return refusal;
    }
    for (uint32_t i = 0; i < told[CCS_RUN_RECORDS]; i++) {
        const uint8_t *call = records + i * CCS_RECORD_LENGTH;
        printf("thread %d, served by thread %d, from entry %u", call[0], call[3], number(call + 16));
        if (call[12])
            printf(" to %u", number(call + 20));
        printf(": %u remote references\n", number(call + 8));
    }

    uint8_t text[CCS_ENOUGH_FOR_LISTING];
    size_t length;
    refusal = ccs_list(file, file_length, text, sizeof text, &length);
    fwrite(text, 1, length, stdout);
    return refusal;
}

int main(void)
{
    return run_by(0) || run_by(1);
}
