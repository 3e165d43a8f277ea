/* The data link's calls for a program in C. Link target/staticlib/libdwaebinam.a, which tests/archive makes.

   A byte slice crosses as a pointer and a number of bytes, one after the other. Every call takes any values of its types; a pointer
   must be to as many bytes as the length beside it says, and two buffers of one call must not overlap. No call keeps a pointer. */
#ifndef DWAEBINAM_H
#define DWAEBINAM_H

#include <stddef.h>
#include <stdint.h>

/* The version of this boundary. It goes up with every change of a call, a length, a place or a code below. dwb_version answers the
   archive's: where the two differ, the program was compiled with the header of another archive, and must make no other call. */
#define DWB_VERSION 5
uint32_t dwb_version(void);

/* The receiver's record is opaque: dwb_open fills it, and no other than these calls should read or write it. It holds no pointer, so it
   may be copied and moved. A record that was changed by someone else is refused with 23 if it is out of bounds. */
#define DWB_RECORD_BYTES 373

/* The store: eight slots, one after the other. What it holds at first does not matter. */
#define DWB_SLOT_BYTES 4096
#define DWB_STORE_BYTES 32768

/* The sender's record, of four transfers: opaque as the receiver's, and opened by dwb_sender_open. A controller that receives and sends at
   one address has both; a lamp that only sends has this one and no store. */
#define DWB_SENDER_BYTES 113
#define DWB_TRANSFERS 4

/* The buffer for a frame of the sender's: the most that CAN FD carries. */
#define DWB_FRAME_BYTES 64

/* An answer of either end, and the places of its fields. PGN, Total Bytes, segment and identifier are numbers of 32 bits, low byte first. */
#define DWB_ANSWER_BYTES 36

enum {
    DWB_AT_NUMBER = 0,      /* the refusal's number in 01 or 02, 0 where nothing is refused */
    DWB_AT_CODE = 1,        /* DWB_GROUPS to DWB_REFUSED of the receiver, DWB_ANNOUNCED to DWB_SENDER_REFUSED of the sender */
    DWB_AT_SA = 2,
    DWB_AT_DA = 3,
    DWB_AT_SESSION = 4,
    DWB_AT_KIND = 5,        /* DWB_RTS or DWB_BAM */
    DWB_AT_COUNT = 6,       /* of DWB_GRANT: the segments granted */
    DWB_AT_SLOT = 6,        /* of DWB_HANDED_OVER: the slot that has the message */
    DWB_AT_SPENT = 6,       /* of DWB_ENDED: 1 where 21 is for segments missing after the last request, else 0 */
    DWB_AT_LENGTH = 6,      /* of a frame that is in the frame buffer: how many bytes of it are the frame's */
    DWB_AT_PGN = 7,
    DWB_AT_TOTAL = 11,      /* Total Bytes */
    DWB_AT_SEGMENT = 15,    /* DWB_TAKEN: the segment taken. DWB_GRANT: the next one to be sent. DWB_HANDED_OVER: the number of segments */
    DWB_AT_SENDS = 19,      /* 1 if a frame is to be sent now, else 0 and zeros after it */
    DWB_AT_IDENTIFIER = 20,
    DWB_AT_DATA = 24        /* the frame's DWB_DATA_BYTES bytes; zeros where it is in the frame buffer */
};
#define DWB_DATA_BYTES 12

enum { DWB_RTS = 1, DWB_BAM = 2 };

/* What each answer of the receiver says. SA, DA and session number are the key. A field that is not named here is 0.

     code              what has happened                       fields                                               to be sent
     DWB_GROUPS        the frame's groups are good             none; dwb_groups gives the groups                    nothing
     DWB_OPENED        a BAM has opened a session              key; the kind is 0                                   nothing
     DWB_TAKEN         a segment was taken                     key, segment; the kind is 0                          nothing
     DWB_GRANT         an RTS has opened a session or, sent    key, kind DWB_RTS, count, PGN, segment               CTS
                       again, started it anew: the next
                       segment is 1; or the last segment
                       granted was taken and others follow:
                       the next is the one after it; or an
                       EOMS came with segments missing: the
                       first of them, and as many in a row
     DWB_HANDED_OVER   an EOMS has ended a session that has    key, kind, slot, PGN, Total Bytes, segment           EOMA for an RTS
                       every segment
     DWB_ABORTED       the originator has ended its session    key; the kind is 0                                   nothing
     DWB_ENDED         a refusal has ended a session           number (19, 21; 22 at a reading), key, kind,         Abort for an RTS
                                                               spent, PGN
     DWB_REFUSED_RTS   an RTS was refused; nothing changed     number (8, 11 to 15), key, kind DWB_RTS, PGN         Abort
     DWB_REFUSED       the frame was refused; nothing changed  number                                               nothing */
enum {
    DWB_GROUPS = 1,
    DWB_OPENED = 2,
    DWB_TAKEN = 3,
    DWB_GRANT = 4,
    DWB_HANDED_OVER = 5,
    DWB_ABORTED = 6,
    DWB_ENDED = 7,
    DWB_REFUSED_RTS = 8,
    DWB_REFUSED = 9
};

/* What each answer of the sender says. The key has the own address as SA and the destination as DA. A field that is not named here is 0: the
   caller of DWB_SEGMENT_SENT has just named the transfer, and has the frame of DWB_CTS_TAKEN.

     code                   what has happened                   fields                                             to be sent
     DWB_ANNOUNCED          a transfer is open                  key, kind, length, PGN, Total Bytes; segment is    RTS or BAM
                                                                their number
     DWB_SEGMENT_SENT       a segment goes out                  length, segment                                    data frame
     DWB_STATUS_SENT        the end of message status goes      as DWB_ANNOUNCED                                   EOMS
                            out; a BAM has then ended well
     DWB_NOTHING_DUE        nothing is to be sent now           none                                               nothing
     DWB_CTS_TAKEN          a CTS was taken, for segments or    none                                               nothing
                            for none
     DWB_ACKNOWLEDGED       an EOMA has ended a transfer well   key                                                nothing
     DWB_TRANSFER_ABORTED   the responder has ended it          key                                                nothing
     DWB_TRANSFER_ENDED     a refusal has ended a transfer      number (27; 22 at a reading), key, kind, PGN       Abort for an RTS
     DWB_SENDER_REFUSED     refused; nothing changed            number                                             nothing */
enum {
    DWB_ANNOUNCED = 10,
    DWB_SEGMENT_SENT = 11,
    DWB_STATUS_SENT = 12,
    DWB_NOTHING_DUE = 13,
    DWB_CTS_TAKEN = 14,
    DWB_ACKNOWLEDGED = 15,
    DWB_TRANSFER_ABORTED = 16,
    DWB_TRANSFER_ENDED = 17,
    DWB_SENDER_REFUSED = 18
};

/* The answers of a reading: one of DWB_ANSWER_BYTES for each slot, from slot 0 on; of the sender's, for each transfer. */
#define DWB_ANSWERS_BYTES 288
#define DWB_TRANSFER_ANSWERS_BYTES 144

/* The groups of a frame: DWB_GROUP_WORDS numbers for each; 16 fit at most. A group's trailer of assurance data follows its data; a group
   of service type 2 has none. */
#define DWB_GROUPS_WORDS 96

enum {
    DWB_GROUP_PGN = 0,
    DWB_GROUP_SERVICE = 1,  /* its service type, DWB_WITH_TRAILER or DWB_PLAIN */
    DWB_GROUP_FORMAT = 2,   /* its trailer format */
    DWB_GROUP_START = 3,    /* where its data starts in the frame */
    DWB_GROUP_LENGTH = 4,   /* how long its data is: at START + LENGTH the trailer starts */
    DWB_GROUP_TRAILER = 5,  /* how long its trailer is: 0, 4 or 8 bytes */
    DWB_GROUP_WORDS = 6
};

/* The service types that a group can have. With 1 the trailer formats 1 and 2 have a trailer of 4 bytes, 3, 5 and 6 one of 8; with 2 the
   trailer format is 0. */
enum { DWB_WITH_TRAILER = 1, DWB_PLAIN = 2 };

/* The least data length of a CAN FD frame that holds need bytes; 255 for more than 64. */
size_t dwb_least_length(size_t need);

/* Opens a receiver with no slot open in record: 0, or 23 for own over 253, or a limit 0 or over 60,000. A refused opening writes a
   record that every call refuses with 23. A buffer not of DWB_RECORD_BYTES is refused with 23 and stays as it was.

   A session may be silent for less than first milliseconds after a CTS, and for less than second after a segment that brought none, or
   after the last one; a BAM is given no CTS, and has only the second limit. */
uint8_t dwb_open(uint8_t *record, size_t record_bytes, uint8_t own, uint32_t first, uint32_t second, uint32_t reading);

/* Takes one frame with the identifier id: the answer's number, with the answer written, and the record and the store changed where the
   answer says so. 23 for a buffer that is no record, a record out of bounds, or a store not of DWB_STORE_BYTES: the answer says so, and
   record and store stay as they were. An answer buffer not of DWB_ANSWER_BYTES is refused with 23, and every buffer stays as it was.

   A message that is handed over is the first Total Bytes of its slot, at DWB_SLOT_BYTES times the slot's number in the store. Its slot
   is free from then on, and the next frame may open a session there: copy the message, by dwb_message or otherwise, before you call
   dwb_frame again with this record and store.

   A receiver alone has no transfer: a CTS, an EOMA and an Abort of a responder are refused with 16. */
uint8_t dwb_frame(uint8_t *record, size_t record_bytes, uint32_t id, const uint8_t *bytes, size_t bytes_len,
                  uint8_t *store, size_t store_bytes, uint8_t *answer, size_t answer_bytes);

/* Takes one reading of the clock: each session that was silent for the limit in force ends, and its answer (DWB_ENDED, number 22) is
   at DWB_ANSWER_BYTES times its slot's number in answers; the bytes of every other slot are zeros there. 0, or 23 as for a frame, with the
   record as it was and zeros in answers. answers not of DWB_ANSWERS_BYTES are refused with 23, and every buffer stays as it was. */
uint8_t dwb_reading(uint8_t *record, size_t record_bytes, uint32_t reading, const uint8_t *store, size_t store_bytes,
                    uint8_t *answers, size_t answers_bytes);

/* How many segments of the open session of a key are still missing, 0 to 69. An RTS session takes its segments in any order, and asks at
   an EOMS for what is missing, five times at most; a BAM's come in sequence. Refused: 256 times the number, 23 for bytes that are no record
   in bounds, then 16 where no session of the key is open. Nothing is written. */
size_t dwb_missing(const uint8_t *record, size_t record_bytes, uint8_t sa, uint8_t da, uint8_t session);

/* Copies the message of a DWB_HANDED_OVER answer out of the store: its length, with the bytes of out after it as they were. 0, with
   out as it was, for any other answer, for a place that is not in the store, or where out is too short. */
size_t dwb_message(const uint8_t *answer, size_t answer_bytes, const uint8_t *store, size_t store_bytes,
                   uint8_t *out, size_t out_bytes);

/* Opens a sender with no transfer open in sender: as dwb_open, with one limit, for a buffer of DWB_SENDER_BYTES. */
uint8_t dwb_sender_open(uint8_t *sender, size_t sender_bytes, uint8_t own, uint32_t limit, uint32_t reading);

/* Announces message, of 1 to 4,096 bytes, to the destination da under a session number of 0 to 15: by BAM for 255, else by RTS. The
   number, with the answer written and, if that is 0, the frame in the front of frame and the bytes after it as they were. Refused, with the
   record and frame as they were: 23 for a buffer that is no sender's record, a record out of bounds or a frame buffer not of
   DWB_FRAME_BYTES, then 3 for da 254 or the own address or a session number above 15, 8 for the PGN, 26 for the length, 14 for a destination
   and session number that are already sending, 25 where all four transfers are open. An answer buffer not of DWB_ANSWER_BYTES is refused
   with 23, and every buffer stays as it was.

   No call keeps the message: lend the same bytes again to every dwb_next_frame of this transfer. */
uint8_t dwb_announce(uint8_t *sender, size_t sender_bytes, uint8_t da, uint8_t session, uint32_t pgn,
                     const uint8_t *message, size_t message_bytes, uint8_t *frame, size_t frame_bytes,
                     uint8_t *answer, size_t answer_bytes);

/* Asks for the next frame of a transfer: a data frame, an EOMS or nothing due, by the answer's code. Send what it gives before you ask
   again. Refused, with the record and frame as they were: 23 as above, 16 for a transfer that is not open, 26 for a message of another
   length than was announced. */
uint8_t dwb_next_frame(uint8_t *sender, size_t sender_bytes, uint8_t da, uint8_t session,
                       const uint8_t *message, size_t message_bytes, uint8_t *frame, size_t frame_bytes,
                       uint8_t *answer, size_t answer_bytes);

/* Takes one frame at a node that only sends: a CTS, an EOMA or an Abort of a responder. Refused, with the record as it was: 23, 2, 1, 3
   (also for what is no control frame), 9, 10 for any other control frame, 16 for one to 255, for no such transfer of its PGN, or for an
   EOMA with other totals or before our EOMS. 27, for a CTS with a segment that is not in the message, ends the transfer. */
uint8_t dwb_sender_frame(uint8_t *sender, size_t sender_bytes, uint32_t id, const uint8_t *bytes, size_t bytes_len,
                         uint8_t *answer, size_t answer_bytes);

/* Takes one reading of the clock at the sender: as dwb_reading, with an answer (DWB_TRANSFER_ENDED, number 22) for each transfer that was
   silent for the idle limit, in answers of DWB_TRANSFER_ANSWERS_BYTES. The receiver's last reading stays as it was. */
uint8_t dwb_sender_reading(uint8_t *sender, size_t sender_bytes, uint32_t reading, uint8_t *answers, size_t answers_bytes);

/* Takes one frame at a node that receives and sends, in place of dwb_frame. 23 for the receiver's record or the store, then for the
   sender's record; then a CTS, an EOMA and an Abort of a responder go to the sender, all else to the receiver, and the answer's code says
   which end answered: it judges the frame by its own record, 2, 1 and 3 first. What goes to one end changes no byte of the other. Open both
   records with one own address. */
uint8_t dwb_node_frame(uint8_t *record, size_t record_bytes, uint32_t id, const uint8_t *bytes, size_t bytes_len,
                       uint8_t *store, size_t store_bytes, uint8_t *sender, size_t sender_bytes,
                       uint8_t *answer, size_t answer_bytes);

/* The groups of a Multi-PG frame, judged whole: how many, with DWB_GROUP_WORDS numbers for each in groups and the numbers after them as
   they were. Refused: 256 times the number (23 for groups not of DWB_GROUPS_WORDS, 1, 4 to 8), with groups as they were. */
size_t dwb_groups(const uint8_t *bytes, size_t bytes_len, uint32_t *groups, size_t groups_words);

/* Packs groups into a frame: its length, 0 to 64, with the bytes of out after it as they were. Each group has a number at its place of
   the first five lists: its service type, trailer format and PGN, how long its data is without the trailer, and how long its trailer is.
   data holds the data of all groups back to back, trailers their trailers.

   Refused: 256 times the number, with out as it was. Check by check: 6 for any service type other than 1 and 2; 7 for any trailer format
   that its service type does not have, up to the shorter of the two lists; 8 for any PGN; then 24 for a trailer of another length than
   its format has, lists of different lengths, data or trailers not as long as the lengths say, groups of more than 64 bytes, or out not
   of 64 bytes. */
size_t dwb_pack(const uint8_t *services, size_t services_len, const uint8_t *formats, size_t formats_len,
                const uint32_t *pgns, size_t pgns_len, const uint8_t *lengths, size_t lengths_len,
                const uint8_t *trailer_lengths, size_t trailer_lengths_len, const uint8_t *data, size_t data_bytes,
                const uint8_t *trailers, size_t trailers_bytes, uint8_t *out, size_t out_bytes);

#endif
