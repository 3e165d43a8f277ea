/* 01's whole case over the boundary for C, with the lines that 01 gives for it: a reading, a Multi-PG frame, an RTS that is granted,
   the second segment before the first.

       cc -std=c11 -Iinclude examples/whole_case.c target/staticlib/libdwaebinam.a -o target/whole_case */
#include "dwaebinam.h"

#include <stdio.h>

/* All memory is ours: the link allocates nothing and keeps no pointer. */
static uint8_t record[DWB_RECORD_BYTES];
static uint8_t store[DWB_STORE_BYTES];
static uint8_t answer[DWB_ANSWER_BYTES];
static uint8_t answers[DWB_ANSWERS_BYTES];
static uint32_t groups[DWB_GROUPS_WORDS];
static unsigned taken;

static unsigned long number_at(const uint8_t *place)
{
    return place[0] | (unsigned long)place[1] << 8 | (unsigned long)place[2] << 16 | (unsigned long)place[3] << 24;
}

/* A controller would now send the control frame that the answer holds where it says so: identifier, then data. */
static void print_answer(const uint8_t *a)
{
    switch (a[DWB_AT_CODE]) {
    case DWB_GRANT:
        printf("send cts %d %d %lu %d\n", a[DWB_AT_SA], a[DWB_AT_SESSION], number_at(a + DWB_AT_SEGMENT), a[DWB_AT_COUNT]);
        break;
    case DWB_TAKEN:
        printf("took %d %d %lu\n", a[DWB_AT_SA], a[DWB_AT_SESSION], number_at(a + DWB_AT_SEGMENT));
        break;
    case DWB_ENDED:
        printf("%s %d %d %d\n", a[DWB_AT_SENDS] ? "send abort" : "ended", a[DWB_AT_SA], a[DWB_AT_SESSION], a[DWB_AT_NUMBER]);
        break;
    default: /* the other codes do not come up in this case */
        printf("code %d number %d\n", a[DWB_AT_CODE], a[DWB_AT_NUMBER]);
    }
}

/* The frame was judged when it was taken, so its groups are not refused here. */
static void print_groups(uint32_t id, const uint8_t *bytes, size_t length)
{
    size_t count = dwb_groups(bytes, length, groups, DWB_GROUPS_WORDS);
    for (const uint32_t *g = groups; g < groups + DWB_GROUP_WORDS * count; g += DWB_GROUP_WORDS)
        printf("pg %d %d %lu %lu\n", (int)(id & 255), (int)(id >> 8 & 255), (unsigned long)g[DWB_GROUP_PGN], (unsigned long)g[DWB_GROUP_LENGTH]);
}

static void take_reading(uint32_t reading)
{
    dwb_reading(record, sizeof record, reading, store, sizeof store, answers, sizeof answers);
    for (const uint8_t *a = answers; a < answers + sizeof answers; a += DWB_ANSWER_BYTES)
        if (a[DWB_AT_CODE] == DWB_ENDED)
            print_answer(a);
    taken++;
}

static void take_frame(uint32_t id, const uint8_t *bytes, size_t length)
{
    dwb_frame(record, sizeof record, id, bytes, length, store, sizeof store, answer, sizeof answer);
    if (answer[DWB_AT_CODE] == DWB_GROUPS)
        print_groups(id, bytes, length);
    else
        print_answer(answer);
    taken++;
}

int main(void)
{
    static const uint8_t multi_pg[] = {0x40, 0xEA, 0x00, 3, 0xCA, 0xFE, 0x00};
    static const uint8_t rts[] = {0x30, 61, 0, 0, 2, 0, 0, 255, 0, 0xCA, 0xFE, 0x00};
    static const uint8_t segment_2[] = {0x30, 2, 0, 0, 0x11};

    if (dwb_version() != DWB_VERSION || dwb_open(record, sizeof record, 33, 1250, 1250, 0) != 0)
        return 1;
    take_reading(0);
    take_frame(0x18252180, multi_pg, sizeof multi_pg);
    take_frame(0x1C4D2180, rts, sizeof rts);
    take_frame(0x1C4E2180, segment_2, sizeof segment_2);
    printf("end %u\n", taken);
    return 0;
}
