/* A lamp sends its white table to a camera's head, once by RTS/CTS and once by BAM, over a bus of two queues. The lamp only sends, so it
   has a sender's record and no store; the head receives and could send, so it has both records. Exit status 0 only if both tables came
   through equal.

       cc -std=c11 -Iinclude examples/lamp.c target/staticlib/libdwaebinam.a -o target/lamp */
#include "dwaebinam.h"

#include <stdio.h>
#include <string.h>

enum { HEAD = 33, LAMP = 128, EVERYONE = 255, SESSION = 3, PGN = 61184, LIMIT = 1250, BETWEEN = 750, TABLE_BYTES = 300, ROOM = 4 };

struct frame {
    uint32_t id;
    size_t length;
    uint8_t bytes[DWB_FRAME_BYTES];
};

/* One way of the bus: keeps order and loses nothing. */
struct queue {
    struct frame frames[ROOM];
    unsigned first, count, sent;
};

static struct queue to_head, to_lamp;
static uint8_t table[TABLE_BYTES];
static uint32_t now;
static int faults;

/* The lamp's memory. */
static uint8_t lamp[DWB_SENDER_BYTES];
static uint8_t lamp_frame[DWB_FRAME_BYTES];
static uint8_t lamp_answer[DWB_ANSWER_BYTES];
static int sending;

/* The head's memory. */
static uint8_t record[DWB_RECORD_BYTES];
static uint8_t store[DWB_STORE_BYTES];
static uint8_t head_sender[DWB_SENDER_BYTES];
static uint8_t head_answer[DWB_ANSWER_BYTES];
static uint8_t message[DWB_SLOT_BYTES];
static size_t message_bytes;

static void expect(int holds, const char *what)
{
    if (!holds) {
        printf("NOT SO: %s\n", what);
        faults++;
    }
}

static uint32_t number_at(const uint8_t *place)
{
    return place[0] | (uint32_t)place[1] << 8 | (uint32_t)place[2] << 16 | (uint32_t)place[3] << 24;
}

static void put(struct queue *way, const uint8_t *answer, const uint8_t *bytes, size_t length)
{
    if (way->count == ROOM || length > DWB_FRAME_BYTES) {
        expect(0, "the queue has room");
        return;
    }
    struct frame *f = &way->frames[(way->first + way->count) % ROOM];
    f->id = number_at(answer + DWB_AT_IDENTIFIER);
    f->length = length;
    memcpy(f->bytes, bytes, length);
    way->count++;
    way->sent++;
}

/* The oldest frame, or NULL. It is good until ROOM more are put in. */
static const struct frame *take(struct queue *way)
{
    if (way->count == 0)
        return NULL;
    const struct frame *f = &way->frames[way->first];
    way->first = (way->first + 1) % ROOM;
    way->count--;
    return f;
}

/* A frame of the sender's is in the frame buffer, and the answer has its length. */
static void lamp_sends(void)
{
    put(&to_head, lamp_answer, lamp_frame, lamp_answer[DWB_AT_LENGTH]);
}

/* The lamp reads what came for it, or else sends the next frame that is due. 0 if it had nothing to do. */
static int lamp_turn(uint8_t da)
{
    const struct frame *f = take(&to_lamp);
    if (f) {
        dwb_sender_frame(lamp, sizeof lamp, f->id, f->bytes, f->length, lamp_answer, sizeof lamp_answer);
        int code = lamp_answer[DWB_AT_CODE];
        expect(code == DWB_CTS_TAKEN || code == DWB_ACKNOWLEDGED, "the lamp takes the head's frame");
        sending = code == DWB_CTS_TAKEN;
        return 1;
    }
    if (!sending || to_head.count == ROOM)
        return 0;
    dwb_next_frame(lamp, sizeof lamp, da, SESSION, table, sizeof table, lamp_frame, sizeof lamp_frame,
                   lamp_answer, sizeof lamp_answer);
    switch (lamp_answer[DWB_AT_CODE]) {
    case DWB_NOTHING_DUE:
        return 0;
    case DWB_STATUS_SENT:
        sending = lamp_answer[DWB_AT_KIND] == DWB_RTS; /* nobody acknowledges a BAM */
        break;
    case DWB_SEGMENT_SENT:
        break;
    default:
        expect(0, "the lamp may ask for its next frame");
        sending = 0;
        return 0;
    }
    lamp_sends();
    return 1;
}

/* The head takes one frame and sends what it is answered by. 0 if none had come. */
static int head_turn(void)
{
    const struct frame *f = take(&to_head);
    if (!f)
        return 0;
    dwb_node_frame(record, sizeof record, f->id, f->bytes, f->length, store, sizeof store,
                   head_sender, sizeof head_sender, head_answer, sizeof head_answer);
    expect(head_answer[DWB_AT_NUMBER] == 0, "the head takes the lamp's frame");
    if (head_answer[DWB_AT_CODE] == DWB_HANDED_OVER)
        message_bytes = dwb_message(head_answer, sizeof head_answer, store, sizeof store, message, sizeof message);
    if (head_answer[DWB_AT_SENDS])
        put(&to_lamp, head_answer, head_answer + DWB_AT_DATA, DWB_DATA_BYTES);
    return 1;
}

/* A millisecond goes by at both. Where a transfer fell silent, its answer would have an Abort to send. */
static void tick(void)
{
    static const uint8_t none[DWB_ANSWERS_BYTES];
    uint8_t sessions[DWB_ANSWERS_BYTES], transfers[DWB_TRANSFER_ANSWERS_BYTES];
    now++;
    expect(dwb_sender_reading(lamp, sizeof lamp, now, transfers, sizeof transfers) == 0, "the lamp takes the reading");
    expect(memcmp(transfers, none, sizeof transfers) == 0, "no transfer falls silent");
    expect(dwb_reading(record, sizeof record, now, store, sizeof store, sessions, sizeof sessions) == 0, "so does the head");
    expect(memcmp(sessions, none, sizeof sessions) == 0, "no session falls silent");
}

/* Sends the table whole and looks at what the head has of it. */
static void transfer(const char *way, uint8_t da)
{
    printf("%s to %d\n", way, da);
    to_head.sent = to_lamp.sent = 0;
    message_bytes = 0;
    sending = dwb_announce(lamp, sizeof lamp, da, SESSION, PGN, table, sizeof table, lamp_frame, sizeof lamp_frame,
                           lamp_answer, sizeof lamp_answer) == 0;
    expect(sending, "the announcement is accepted");
    if (sending)
        lamp_sends();

    int moved;
    do {
        moved = lamp_turn(da);
        moved += head_turn();
        tick();
    } while (moved);

    int equal = message_bytes == sizeof table && memcmp(message, table, sizeof table) == 0;
    printf("  frames: %u from the lamp, %u from the head\n", to_head.sent, to_lamp.sent);
    printf("  message: %zu bytes, %s\n", message_bytes, equal ? "equal" : "not equal");
    expect(equal, "the table is as sent");
    expect(!sending, "the lamp has ended its transfer");
}

int main(void)
{
    if (dwb_version() != DWB_VERSION)
        return 1;
    for (size_t i = 0; i < sizeof table; i++)
        table[i] = (uint8_t)(200 + i % 7 - i / 50);
    expect(dwb_sender_open(lamp, sizeof lamp, LAMP, LIMIT, now) == 0, "the lamp opens");
    expect(dwb_open(record, sizeof record, HEAD, LIMIT, BETWEEN, now) == 0, "the head's receiver opens");
    expect(dwb_sender_open(head_sender, sizeof head_sender, HEAD, LIMIT, now) == 0, "the head's sender opens");
    transfer("by RTS", HEAD);
    memset(message, 0, sizeof message);
    transfer("by BAM", EVERYONE);
    printf("%d faults\n", faults);
    return faults != 0;
}
