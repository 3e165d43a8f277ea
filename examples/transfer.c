/* Two large messages over the boundary for C, one after the other in the same slot, and two groups packed and read back. Everything is
   compared with what was sent; exit status 0 only if all of it came through.

       cc -std=c11 -Iinclude examples/transfer.c target/staticlib/libdwaebinam.a -o target/transfer */
#include "dwaebinam.h"

#include <stdio.h>
#include <string.h>

enum { OWN = 33, SENDER = 128, SESSION = 3, SEGMENT_BYTES = 60, UNTOUCHED = 0x5A };

static const uint32_t control_id = 0x1C4D0000 | OWN << 8 | SENDER;
static const uint32_t data_id = 0x1C4E0000 | OWN << 8 | SENDER;

static uint8_t record[DWB_RECORD_BYTES];
static uint8_t store[DWB_STORE_BYTES];
static uint8_t answer[DWB_ANSWER_BYTES];
static uint8_t out[DWB_SLOT_BYTES];
static int faults;

static void expect(int holds, const char *what)
{
    if (!holds) {
        printf("NOT SO: %s\n", what);
        faults++;
    }
}

static void put24(uint8_t *place, size_t number)
{
    place[0] = number & 255;
    place[1] = number >> 8 & 255;
    place[2] = number >> 16 & 255;
}

/* Hands one frame to the receiver: the answer's code. The control frame that is to be sent for it, if any, is printed. */
static int take(uint32_t id, const uint8_t *bytes, size_t length)
{
    dwb_frame(record, sizeof record, id, bytes, length, store, sizeof store, answer, sizeof answer);
    if (answer[DWB_AT_SENDS]) {
        printf("  to send:");
        for (int i = DWB_AT_DATA; i < DWB_AT_DATA + DWB_DATA_BYTES; i++)
            printf(" %02X", answer[i]);
        printf("\n");
    }
    return answer[DWB_AT_CODE];
}

/* An RTS (control 0) or its EOMS (control 2) for PGN 65226; byte 8 is MAX SGMTS in the one, reserved in the other. */
static int take_control(uint8_t control, size_t total)
{
    uint8_t frame[12] = {SESSION << 4 | control, 0, 0, 0, 0, 0, 0, 255, 0, 0xCA, 0xFE, 0x00};
    put24(frame + 1, total);
    put24(frame + 4, (total + SEGMENT_BYTES - 1) / SEGMENT_BYTES);
    return take(control_id, frame, sizeof frame);
}

/* The last segment is padded to a length that CAN FD has; the padding must not be seen in the message. */
static int take_segment(size_t number, const uint8_t *message, size_t total)
{
    size_t start = SEGMENT_BYTES * (number - 1);
    size_t due = total - start < SEGMENT_BYTES ? total - start : SEGMENT_BYTES;
    uint8_t frame[64];
    memset(frame, 0xAA, sizeof frame);
    frame[0] = SESSION << 4;
    put24(frame + 1, number);
    memcpy(frame + 4, message + start, due);
    return take(data_id, frame, dwb_least_length(4 + due));
}

/* Sends one message whole and fetches it into out. */
static void transfer(const uint8_t *message, size_t total)
{
    printf("message of %zu bytes\n", total);
    expect(take_control(0, total) == DWB_GRANT, "the RTS is granted");
    for (size_t number = 1; SEGMENT_BYTES * (number - 1) < total; number++) {
        int code = take_segment(number, message, total);
        expect(code == DWB_TAKEN || code == DWB_GRANT, "the segment is taken");
    }
    expect(take_control(2, total) == DWB_HANDED_OVER, "the message is handed over");
    expect(answer[DWB_AT_SLOT] == 0, "it is in slot 0");

    memset(out, UNTOUCHED, sizeof out);
    size_t length = dwb_message(answer, sizeof answer, store, sizeof store, out, sizeof out);
    printf("  fetched %zu bytes\n", length);
    expect(length == total && memcmp(out, message, total) == 0, "the message is as sent");
}

/* The first message has bytes from 0x80 on only, the second none of them, so a byte that stayed is known by its value. */
static void two_messages(void)
{
    static uint8_t first[1000], second[70];
    for (size_t i = 0; i < sizeof first; i++)
        first[i] = 0x80 | (7 * i & 0x7F);
    for (size_t i = 0; i < sizeof second; i++)
        second[i] = (uint8_t)i;
    transfer(first, sizeof first);
    transfer(second, sizeof second);

    size_t tail = sizeof first - sizeof second, stale = 0, untouched = 0;
    for (size_t i = 0; i < sizeof out; i++) {
        stale += out[i] >= 0x80;
        untouched += out[i] == UNTOUCHED;
    }
    printf("  %zu bytes of the first message still behind it in the slot, %zu in what was fetched\n", tail, stale);
    expect(memcmp(store + sizeof second, first + sizeof second, tail) == 0, "the slot still has the first message's tail");
    expect(stale == 0, "no byte of the first message was fetched with the second");
    expect(untouched == sizeof out - sizeof second, "nothing is written behind the second message");
}

/* A plain group, and one with a trailer of 4 bytes of assurance data. */
static void two_groups(void)
{
    static const uint8_t services[] = {DWB_PLAIN, DWB_WITH_TRAILER}, formats[] = {0, 2};
    static const uint32_t pgns[] = {59904, 65226};
    static const uint8_t lengths[] = {3, 8}, trailer_lengths[] = {0, 4};
    static const uint8_t data[] = {0xCA, 0xFE, 0x00, 1, 2, 3, 4, 5, 6, 7, 8}, trailers[] = {0xAF, 0x03, 0x87, 0xEF};
    uint8_t frame[64];
    uint32_t groups[DWB_GROUPS_WORDS];

    size_t length = dwb_pack(services, 2, formats, 2, pgns, 2, lengths, 2, trailer_lengths, 2, data, sizeof data, trailers,
                             sizeof trailers, frame, sizeof frame);
    expect(length == 24, "two headers, 11 bytes of data and a trailer of 4 go into 24");
    printf("packed 2 groups into %zu bytes\n", length);

    size_t count = dwb_groups(frame, length, groups, DWB_GROUPS_WORDS);
    expect(count == 2, "two groups come back");
    const uint8_t *next = data, *trailer = trailers;
    for (size_t i = 0; i < 2 && count == 2; i++) {
        const uint32_t *g = groups + DWB_GROUP_WORDS * i;
        const uint8_t *start = frame + g[DWB_GROUP_START];
        expect(g[DWB_GROUP_SERVICE] == services[i] && g[DWB_GROUP_FORMAT] == formats[i], "service type and format are as packed");
        expect(g[DWB_GROUP_PGN] == pgns[i] && g[DWB_GROUP_LENGTH] == lengths[i], "PGN and length are as packed");
        expect(g[DWB_GROUP_TRAILER] == trailer_lengths[i], "the trailer is as long as packed");
        expect(memcmp(start, next, lengths[i]) == 0, "the data is as packed");
        expect(memcmp(start + lengths[i], trailer, trailer_lengths[i]) == 0, "the trailer is as packed");
        next += lengths[i];
        trailer += trailer_lengths[i];
        printf("  pgn %lu, %lu bytes from byte %lu, trailer %lu\n", (unsigned long)g[DWB_GROUP_PGN],
               (unsigned long)g[DWB_GROUP_LENGTH], (unsigned long)g[DWB_GROUP_START], (unsigned long)g[DWB_GROUP_TRAILER]);
    }
}

int main(void)
{
    expect(dwb_version() == DWB_VERSION, "the archive is the header's");
    expect(dwb_open(record, sizeof record, OWN, 1250, 750, 0) == 0, "the receiver opens");
    two_messages();
    two_groups();
    printf("%d faults\n", faults);
    return faults != 0;
}
