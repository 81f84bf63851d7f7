/* litchihull.h: ccTalk in a program of your own (ccTalk Generic Specification 4, parts 1 to 3). Link libcct_c.a.

   Every call answers LH_OK, or why it did nothing: then what it would have written is as it was. Where something happens under
   another code (LH_MORE, LH_DAMAGED of a framer, LH_SILENCE and LH_NOTHING of a core), the call says so. Each looks at null,
   at counts, at room and at every code, address and number. What no call can see is the caller's:
   - a pointer that isn't null points to as many bytes as the count says, or to one whole struct, aligned for its type, which
     nothing else reads or writes meanwhile, and what is written to overlaps nothing else that is passed;
   - a call of a core or a host ends before the next one of the same begins, on whatever thread or in whatever signal handler;
     no copy of an LhCore or LhHost is used after it was freed, and none that wasn't made;
   - for these alone, `rattle_alloc` and `rattle_dealloc` (end of this file).
   A null pointer with a count of 0 is no bytes. The library keeps no pointer that it was passed, and has no other state than
   its cores and hosts: calls of two of them may go side by side where `rattle_alloc` may. No call waits, and none reads a
   clock, a file or a port. The names with `raw` look at no pointer: other languages call them with pointers that their own
   layer knows.

   Numbers of several bytes go low byte first on the wire; the structs have them as numbers. */
#ifndef LITCHIHULL_H
#define LITCHIHULL_H

#include <stddef.h>
#include <stdint.h>

#ifdef __cplusplus
extern "C" {
#endif

/* What a call answers. */
enum {
    LH_OK = 0,            /* it did what it says */
    LH_BAD_POINTER = 1,   /* null where something is needed, a count that no object has, or a core that was freed */
    LH_BAD_CHECK = 2,     /* the code is neither LH_SIMPLE nor LH_CRC */
    LH_TOO_LONG = 3,      /* more than 255 data bytes; of a framer: more than 260 bytes since the gap */
    LH_NO_ROOM = 4,       /* the room is too small for what goes there */
    LH_NO_REQUEST = 5,    /* no request has this header and so many data bytes, or its data are under a cipher */
    LH_SHORT = 6,         /* fewer than 5 bytes, so no message */
    LH_BAD_LENGTH = 7,    /* the second byte and 5 aren't the number of bytes */
    LH_DAMAGED = 8,       /* the check isn't that of the bytes */
    LH_BAD_ECHO = 9,      /* what was heard doesn't begin with what was sent */
    LH_SILENCE = 10,      /* no byte follows the echo; of a core: it doesn't answer */
    LH_NAK = 11,          /* the device refuses: header 5 */
    LH_BUSY = 12,         /* the device can't act on the request now: header 6 */
    LH_OTHER = 13,        /* a whole message, but not the wanted reply */
    LH_MORE = 14,         /* the bytes since the gap are no message yet */
    LH_BAD_FORM = 15,     /* the code is no LH_FORM_ */
    LH_BAD_FAMILY = 16,   /* the family is none of the three */
    LH_BAD_ADDRESS = 17,  /* the address is 0 or 1 */
    LH_BAD_SERIAL = 18,   /* the serial number is 2^24 or more */
    LH_BAD_COUNT = 19,    /* the accept counter or the life count is 2^24 or more */
    LH_BAD_TEXT = 20,     /* a text isn't 1 to 24 printing characters, 21 to 7e in hexadecimal */
    LH_BAD_ID = 21,       /* an identification isn't six printing characters */
    LH_NO_MEMORY = 22,    /* rattle_alloc gave none */
    LH_BAD_PLACE = 23,    /* the place isn't 1 to 16 */
    LH_WRONG_FAMILY = 24, /* no device of this family knows that */
    LH_NOTHING = 25,      /* it came back: an inhibited coin or bill; or it was nothing to a hopper that doesn't pay */
    LH_BAD_HANDLE = 26,   /* raw calls alone: something else than what is wanted */
    LH_BAD_SETUP = 27,    /* a line of the setup is refused */
    LH_SMALL_PART = 28,   /* the part has fewer than 2,368 bytes */
    LH_BAD_PART = 29,     /* the part isn't all 0, and has no journal of this version */
    LH_BAD_RECORD = 30,   /* a record can't be read, or doesn't follow those before it under this setup */
    LH_BAD_COMMAND = 31,  /* the line is no command */
    LH_NOT_NOW = 32       /* something else is due first: lh_host_ask tells what */
};

/* Checks: one byte that makes the sum of all 0, or a CRC of 16 bits. */
enum { LH_SIMPLE = 0, LH_CRC = 1 };

/* The most bytes of a message, and of what is heard in one exchange: an echo and a message. */
enum { LH_MOST = 260, LH_MOST_HEARD = 520 };

/* The data of a message that was read begin at this place of the piece, counted from 0. */
enum { LH_DATA_AT = 4 };

/* Headers of requests, their data bytes, and the form of their reply. */
enum {
    LH_RESET = 1,           /* none: start again as after power-up; ACK */
    LH_REVISION = 4,        /* none: release of the standard; REVISION */
    LH_ROUTE_BILL = 154,    /* 0 to give a held bill back, 1 to stack it; ACK */
    LH_READ_BILLS = 159,    /* none: event counter and five events; CREDITS */
    LH_TEST_HOPPER = 163,   /* none; REGISTER */
    LH_ENABLE = 164,        /* 165 to enable a hopper, another byte to disable it; ACK */
    LH_STATUS = 166,        /* none: state of the payout; STATUS */
    LH_DISPENSE = 167,      /* serial number, 3 bytes, and number of coins; ACK */
    LH_LIFE = 168,          /* none: coins ever paid; LIFE */
    LH_STOP = 172,          /* none: stop the payout; REMAINING */
    LH_COIN_ID = 184,       /* place; COIN_ID */
    LH_GET_DEFAULT = 188,   /* none: default sorter path; PATH */
    LH_SET_DEFAULT = 189,   /* path, 1 to 8; ACK */
    LH_BUILD_CODE = 192,    /* none; TEXT */
    LH_GET_PATH = 209,      /* place; PATH */
    LH_SET_PATH = 210,      /* place, and path, 1 to 8; ACK */
    LH_ACCEPT_COUNT = 225,  /* none: coins or bills accepted; ACCEPTS */
    LH_GET_MASTER = 227,    /* none; MASTER */
    LH_SET_MASTER = 228,    /* 1 for normal operation, 0 to inhibit all; ACK */
    LH_READ_CREDITS = 229,  /* none: event counter and five events; CREDITS */
    LH_GET_MASK = 230,      /* none; MASK */
    LH_SET_MASK = 231,      /* inhibit mask, 2 bytes: bit 0 is place 1, and 1 accepts it; ACK */
    LH_SOFTWARE = 241,      /* none; TEXT */
    LH_SERIAL = 242,        /* none; SERIAL */
    LH_PRODUCT = 244,       /* none; TEXT */
    LH_CATEGORY = 245,      /* none; TEXT */
    LH_MAKER = 246,         /* none; TEXT */
    LH_ADDRESS_POLL = 253,  /* none, to address 0; each device answers with its address, a bare byte */
    LH_POLL = 254           /* none: is it there?; ACK */
};

/* Forms of replies, and the fields of LhReply that tell them. */
enum {
    LH_FORM_ACK = 0,       /* none */
    LH_FORM_CREDITS = 1,   /* counter, events */
    LH_FORM_MASK = 2,      /* mask */
    LH_FORM_MASTER = 3,    /* value: 1 normal, 0 all inhibited */
    LH_FORM_PATH = 4,      /* value: a sorter path */
    LH_FORM_COIN_ID = 5,   /* id */
    LH_FORM_STATUS = 6,    /* counter, remaining, paid, unpaid */
    LH_FORM_LIFE = 7,      /* number: coins ever paid, modulo 2^24 */
    LH_FORM_REMAINING = 8, /* value: coins that remained of the stopped payout */
    LH_FORM_REGISTER = 9,  /* value: the test register */
    LH_FORM_TEXT = 10,     /* count, text */
    LH_FORM_SERIAL = 11,   /* number */
    LH_FORM_REVISION = 12, /* release, major, minor */
    LH_FORM_ACCEPTS = 13   /* number: coins or bills accepted, modulo 2^24 */
};

/* Families of devices. */
enum { LH_ACCEPTOR = 0, LH_HOPPER = 1, LH_BILL = 2 };

/* A message that was read. Its data are `count` bytes of the piece from LH_DATA_AT on. */
typedef struct {
    uint8_t to;     /* the address that it is for; 0 is all, 1 the host */
    uint8_t named;  /* 1 where it names its source, 0 under the CRC */
    uint8_t from;   /* the source, 0 under the CRC */
    uint8_t header; /* what it asks; 0 a reply */
    uint8_t count;  /* number of data bytes */
} LhFrame;

/* An event. Of an acceptor: a coin of place a by sorter path b. Of a bill acceptor: a bill of place a, held (b is 1) or
   stacked (b is 0). Where a is 0: an error, or no event where b is 0 too. */
typedef struct {
    uint8_t a, b;
} LhEvent;

/* A reply. The fields of other forms are 0. */
typedef struct {
    uint32_t number;
    uint16_t mask;      /* bit 0 is place 1, and 1 accepts it */
    uint8_t counter;    /* event counter: 0 after a reset, then 1 to 255, then 1 again */
    uint8_t value;
    uint8_t remaining;  /* coins that are still to fall */
    uint8_t paid;       /* coins of the last payout that fell */
    uint8_t unpaid;     /* coins of the last payout that didn't */
    uint8_t release, major, minor;
    LhEvent events[5];  /* newest first */
    uint8_t id[6];      /* ASCII, as EU100A */
    uint8_t count;      /* bytes of the text */
    uint8_t text[255];  /* ASCII, not ended by 0 */
} LhReply;

/* The bytes since the last gap. The caller has its memory; lh_framer_gap begins it. `bytes` and `count` may be read. */
typedef struct {
    uint8_t check;
    uint16_t count;
    uint8_t bytes[260];
} LhFramer;

/* What a device is. Each text ends with a byte 0 where it has fewer than 24 characters. */
typedef struct {
    uint8_t family;      /* LH_ACCEPTOR, LH_HOPPER or LH_BILL */
    uint8_t check;       /* LH_SIMPLE or LH_CRC */
    uint8_t address;     /* 2 to 255 */
    uint32_t serial;     /* below 2^24 */
    uint32_t count;      /* coins or bills accepted before, or coins ever paid; below 2^24 */
    uint8_t maker[24], product[24], software[24], build[24];
    uint8_t ids[16][6];  /* of its coins or bills, that of place 1 first; a hopper's aren't read */
} LhSettings;

/* What a host asks for. */
enum {
    LH_IDLE = 0,  /* nothing at this address */
    LH_SEND = 1,  /* send the `count` bytes of `out`, and say by lh_host_heard what came */
    LH_HEAR = 2,  /* a message was sent: say by lh_host_heard what came */
    LH_WRITE = 3, /* write the `count` bytes of `out` to the part from `at` on; then lh_host_done or lh_host_lost */
    LH_SYNC = 4,  /* make sure that the part keeps all that was written; then lh_host_done or lh_host_lost */
    LH_TAKE = 5,  /* `out` has a line of docs/TRANSCRIPT.md, with its line feed; then lh_host_taken */
    LH_ENDED = 6  /* nothing any more, since a call was lost: free the host, and make one over what the part has now */
};

/* The most bytes that a host asks for at once. */
enum { LH_MOST_ASKED = 3000 };

typedef struct {
    uint64_t at;    /* of LH_WRITE: a place of the part, from 0 */
    size_t count;   /* of LH_SEND, LH_WRITE and LH_TAKE: bytes of `out` */
    uint8_t what;
} LhAsk;

/* What the operator has, in units of value. */
typedef struct {
    uint64_t available, reserved, paid, sold;
} LhTotals;

typedef struct LhOpaque LhOpaque;
typedef struct {
    LhOpaque *at;
} LhHandle;

/* A device core: lh_core_new makes it, and lh_core_free frees it. */
typedef struct {
    LhHandle core, settings;
} LhCore;

/* A host: lh_host_new makes it, and lh_host_free frees it. */
typedef struct {
    LhHandle host, machine;
} LhHost;

/* The library's own calls. */
uint8_t lh_raw_simple_sum(const uint8_t *bytes, size_t count);
uint16_t lh_raw_crc16(const uint8_t *bytes, size_t count);
uint32_t lh_raw_frame_write(uint8_t check, uint8_t to, uint8_t from, uint8_t header, const uint8_t *data,
                            size_t count, uint8_t *out, size_t room, size_t *written);
uint32_t lh_raw_frame_read(uint8_t check, const uint8_t *piece, size_t count, LhFrame *frame);
uint32_t lh_raw_request_write(uint8_t check, uint8_t to, uint8_t header, const uint8_t *data, size_t count,
                              uint8_t *out, size_t room, size_t *written);
uint32_t lh_raw_reply_read(uint8_t check, uint8_t address, uint8_t form, const uint8_t *sent, size_t sent_count,
                           const uint8_t *heard, size_t heard_count, LhReply *reply);
uint32_t lh_raw_framer_gap(LhFramer *framer, uint8_t check);
uint32_t lh_raw_framer_feed(LhFramer *framer, uint8_t byte);
uint32_t lh_raw_settings_new(const LhSettings *settings, LhOpaque **out);
uint32_t lh_raw_core_new(LhHandle settings, LhOpaque **out);
uint32_t lh_raw_core_byte(LhHandle core, uint8_t byte, LhOpaque **back);
uint32_t lh_raw_core_gap(LhHandle core, uint8_t *out, size_t room, size_t *written, LhOpaque **back);
uint32_t lh_raw_core_put(LhHandle core, uint8_t place, uint8_t *path, LhOpaque **back);
uint32_t lh_raw_core_alien(LhHandle core, LhOpaque **back);
uint32_t lh_raw_core_fall(LhHandle core, LhOpaque **back);
uint32_t lh_raw_core_jam(LhHandle core, LhOpaque **back);
uint32_t lh_raw_core_reset(LhHandle core, LhOpaque **back);
uint32_t lh_raw_machine_new(const uint8_t *text, size_t count, uint32_t *line, LhOpaque **out);
uint32_t lh_raw_host_new(LhHandle machine, const uint8_t *part, size_t count, uint32_t *index, LhOpaque **out);
uint32_t lh_raw_host_ask(LhHandle host, uint8_t address, LhAsk *ask, uint8_t *out, size_t room, LhOpaque **back);
uint32_t lh_raw_host_done(LhHandle host, LhOpaque **back);
uint32_t lh_raw_host_lost(LhHandle host, LhOpaque **back);
uint32_t lh_raw_host_taken(LhHandle host, LhOpaque **back);
uint32_t lh_raw_host_heard(LhHandle host, const uint8_t *bytes, size_t count, LhOpaque **back);
uint32_t lh_raw_host_command(LhHandle host, const uint8_t *line, size_t count, LhOpaque **back);
uint32_t lh_raw_host_totals(LhHandle host, LhTotals *totals, LhOpaque **back);
void lh_raw_free(LhHandle handle);

/* Whether so many bytes may be there. */
static inline int lh_may_be(const void *at, size_t count) {
    return (at != NULL || count == 0) && count <= (size_t)PTRDIFF_MAX;
}

/* Bytes as a pointer that isn't null. */
static inline const uint8_t *lh_bytes(const uint8_t *at) {
    static const uint8_t none[1] = {0};
    return at != NULL ? at : none;
}

/* Whether room and what is told of it may be there. */
static inline int lh_may_write(const uint8_t *out, size_t room, const size_t *written) {
    return out != NULL && written != NULL && lh_may_be(out, room);
}

/* The sum of bytes modulo 256; a whole message under the simple check has the sum 0. LH_BAD_POINTER. */
static inline uint32_t lh_simple_sum(const uint8_t *bytes, size_t count, uint8_t *sum) {
    if (!lh_may_be(bytes, count) || sum == NULL) return LH_BAD_POINTER;
    *sum = lh_raw_simple_sum(lh_bytes(bytes), count);
    return LH_OK;
}

/* The CRC of bytes: CRC-16/XMODEM. LH_BAD_POINTER. */
static inline uint32_t lh_crc16(const uint8_t *bytes, size_t count, uint16_t *crc) {
    if (!lh_may_be(bytes, count) || crc == NULL) return LH_BAD_POINTER;
    *crc = lh_raw_crc16(lh_bytes(bytes), count);
    return LH_OK;
}

/* Writes the message with `count` data bytes to the front of `out`, and its length, `count` and 5, to `written`. Under the
   CRC `from` isn't used. LH_BAD_POINTER, LH_BAD_CHECK, LH_TOO_LONG, LH_NO_ROOM. */
static inline uint32_t lh_frame_write(uint8_t check, uint8_t to, uint8_t from, uint8_t header, const uint8_t *data,
                                      size_t count, uint8_t *out, size_t room, size_t *written) {
    if (!lh_may_be(data, count) || !lh_may_write(out, room, written)) return LH_BAD_POINTER;
    return lh_raw_frame_write(check, to, from, header, lh_bytes(data), count, out, room, written);
}

/* Reads the one message that `count` bytes are. LH_BAD_POINTER, LH_BAD_CHECK, and what is wrong first: LH_SHORT,
   LH_BAD_LENGTH, LH_DAMAGED. */
static inline uint32_t lh_frame_read(uint8_t check, const uint8_t *piece, size_t count, LhFrame *frame) {
    if (!lh_may_be(piece, count) || frame == NULL) return LH_BAD_POINTER;
    return lh_raw_frame_read(check, lh_bytes(piece), count, frame);
}

/* Writes the request with a header and its data bytes, from the host, address 1, to the front of `out`, and its length to
   `written`. LH_BAD_POINTER, LH_BAD_CHECK, LH_NO_REQUEST, LH_NO_ROOM. */
static inline uint32_t lh_request_write(uint8_t check, uint8_t to, uint8_t header, const uint8_t *data, size_t count,
                                        uint8_t *out, size_t room, size_t *written) {
    if (!lh_may_be(data, count) || !lh_may_write(out, room, written)) return LH_BAD_POINTER;
    return lh_raw_request_write(check, to, header, lh_bytes(data), count, out, room, written);
}

/* Reads the reply of this form that the device at `address` gave, out of what was heard after `sent` was sent: its echo, and
   then the reply. On a line without an echo pass no bytes as `sent`. Under the CRC a reply names no source, so any reply to
   the host counts as of that device. LH_BAD_POINTER, LH_BAD_CHECK, LH_BAD_FORM; LH_BAD_ECHO, LH_SILENCE; LH_SHORT,
   LH_BAD_LENGTH, LH_DAMAGED; LH_NAK, LH_BUSY, LH_OTHER. */
static inline uint32_t lh_reply_read(uint8_t check, uint8_t address, uint8_t form, const uint8_t *sent, size_t sent_count,
                                     const uint8_t *heard, size_t heard_count, LhReply *reply) {
    if (!lh_may_be(sent, sent_count) || !lh_may_be(heard, heard_count) || reply == NULL) return LH_BAD_POINTER;
    return lh_raw_reply_read(check, address, form, lh_bytes(sent), sent_count, lh_bytes(heard), heard_count, reply);
}

/* Begins a framer, or tells it a gap between two bytes: the next byte is the first of a message. LH_BAD_POINTER,
   LH_BAD_CHECK. */
static inline uint32_t lh_framer_gap(LhFramer *framer, uint8_t check) {
    return framer == NULL ? (uint32_t)LH_BAD_POINTER : lh_raw_framer_gap(framer, check);
}

/* One byte more came. LH_OK where the bytes since the gap are one message: read it by lh_frame_read out of `bytes`. LH_MORE,
   and LH_DAMAGED where as many came as the second byte tells, and the check is wrong: the byte is kept in either case.
   LH_TOO_LONG, LH_BAD_CHECK, LH_BAD_POINTER. */
static inline uint32_t lh_framer_feed(LhFramer *framer, uint8_t byte) {
    return framer == NULL ? (uint32_t)LH_BAD_POINTER : lh_raw_framer_feed(framer, byte);
}

/* Makes a device core as after power-up; it copies the settings. What `core` was before is lost, and not freed. LH_BAD_POINTER,
   LH_BAD_ADDRESS, LH_BAD_CHECK, LH_BAD_SERIAL, LH_BAD_TEXT, LH_BAD_COUNT, LH_BAD_ID, LH_BAD_FAMILY, LH_NO_MEMORY. */
static inline uint32_t lh_core_new(const LhSettings *settings, LhCore *core) {
    LhHandle kept, made;
    uint32_t code;
    if (settings == NULL || core == NULL) return LH_BAD_POINTER;
    kept.at = NULL;
    made.at = NULL;
    code = lh_raw_settings_new(settings, &kept.at);
    if (code != LH_OK) return code;
    code = lh_raw_core_new(kept, &made.at);
    if (code != LH_OK) {
        lh_raw_free(kept);
        return code;
    }
    core->settings = kept;
    core->core = made;
    return LH_OK;
}

/* Frees a core, and then its settings, which it borrowed. Nothing happens to one that was freed: LH_BAD_POINTER, as each call
   of it then answers. */
static inline uint32_t lh_core_free(LhCore *core) {
    if (core == NULL || core->core.at == NULL) return LH_BAD_POINTER;
    lh_raw_free(core->core);
    lh_raw_free(core->settings);
    core->core.at = NULL;
    core->settings.at = NULL;
    return LH_OK;
}

/* The device hears one byte more. It acts and answers only at a gap. LH_BAD_POINTER. */
static inline uint32_t lh_core_byte(LhCore *core, uint8_t byte) {
    if (core == NULL || core->core.at == NULL) return LH_BAD_POINTER;
    return lh_raw_core_byte(core->core, byte, &core->core.at);
}

/* A gap: the device acts on the message that the bytes since the last one are, and writes its answer to the front of `out`,
   with room for LH_MOST bytes, and its length to `written`. LH_SILENCE where it doesn't answer, as to a message for another
   address or a damaged one: the bytes are gone then too. LH_NO_ROOM: no gap then. LH_BAD_POINTER. */
static inline uint32_t lh_core_gap(LhCore *core, uint8_t *out, size_t room, size_t *written) {
    if (core == NULL || core->core.at == NULL || !lh_may_write(out, room, written)) return LH_BAD_POINTER;
    return lh_raw_core_gap(core->core, out, room, written, &core->core.at);
}

/* The device hears bytes and then a gap, as lh_core_byte and lh_core_gap tell; nothing happens without room. LH_SILENCE,
   LH_NO_ROOM, LH_BAD_POINTER. */
static inline uint32_t lh_core_hear(LhCore *core, const uint8_t *bytes, size_t count, uint8_t *out, size_t room,
                                    size_t *written) {
    size_t i;
    if (core == NULL || core->core.at == NULL || !lh_may_be(bytes, count)) return LH_BAD_POINTER;
    if (!lh_may_write(out, room, written)) return LH_BAD_POINTER;
    if (room < LH_MOST) return LH_NO_ROOM;
    for (i = 0; i < count; i++) (void)lh_core_byte(core, bytes[i]);
    return lh_core_gap(core, out, room, written);
}

/* A coin or a bill of a place, 1 to 16, is put in: LH_OK where the coin is accepted, with its sorter path, 1 to 8, in `path`,
   or the bill is held. LH_NOTHING where it comes back, which is an event too. LH_BAD_PLACE, LH_WRONG_FAMILY of a hopper,
   LH_BAD_POINTER. */
static inline uint32_t lh_core_put(LhCore *core, uint8_t place, uint8_t *path) {
    if (core == NULL || core->core.at == NULL || path == NULL) return LH_BAD_POINTER;
    return lh_raw_core_put(core->core, place, path, &core->core.at);
}

/* An object that is no coin is put in, and comes back: an event. LH_WRONG_FAMILY but of an acceptor, LH_BAD_POINTER. */
static inline uint32_t lh_core_alien(LhCore *core) {
    if (core == NULL || core->core.at == NULL) return LH_BAD_POINTER;
    return lh_raw_core_alien(core->core, &core->core.at);
}

/* A coin falls out of a hopper, and is paid. LH_NOTHING where it doesn't pay, LH_WRONG_FAMILY, LH_BAD_POINTER. */
static inline uint32_t lh_core_fall(LhCore *core) {
    if (core == NULL || core->core.at == NULL) return LH_BAD_POINTER;
    return lh_raw_core_fall(core->core, &core->core.at);
}

/* A coin is stuck in a hopper, which ends its payout. LH_NOTHING where it doesn't pay, LH_WRONG_FAMILY, LH_BAD_POINTER. */
static inline uint32_t lh_core_jam(LhCore *core) {
    if (core == NULL || core->core.at == NULL) return LH_BAD_POINTER;
    return lh_raw_core_jam(core->core, &core->core.at);
}

/* The device starts again as after power-up; its accept counter or life count goes on. LH_BAD_POINTER. */
static inline uint32_t lh_core_reset(LhCore *core) {
    if (core == NULL || core->core.at == NULL) return LH_BAD_POINTER;
    return lh_raw_core_reset(core->core, &core->core.at);
}

/* Makes a host of the machine that `text_count` bytes of setup lines say (docs/SCRIPT.md), over the `part_count` bytes that its
   part holds now: a journal, with which it goes on, or zeros. It copies both. The part keeps its length from then on; where it
   was all 0, the first calls that are asked for make the journal. `where` is told the number of a refused line, from 1, under
   LH_BAD_SETUP, or the index of a bad record, from 0, under LH_BAD_RECORD. What `host` was before is lost, and not freed.
   LH_BAD_POINTER, LH_SMALL_PART, LH_BAD_PART, LH_NO_MEMORY. */
static inline uint32_t lh_host_new(const uint8_t *text, size_t text_count, const uint8_t *part, size_t part_count,
                                   LhHost *host, uint32_t *where) {
    LhHandle kept, made;
    uint32_t code;
    if (!lh_may_be(text, text_count) || !lh_may_be(part, part_count) || host == NULL || where == NULL) return LH_BAD_POINTER;
    kept.at = NULL;
    made.at = NULL;
    code = lh_raw_machine_new(lh_bytes(text), text_count, where, &kept.at);
    if (code != LH_OK) return code;
    code = lh_raw_host_new(kept, lh_bytes(part), part_count, where, &made.at);
    if (code != LH_OK) {
        lh_raw_free(kept);
        return code;
    }
    host->machine = kept;
    host->host = made;
    return LH_OK;
}

/* Frees a host, and then its machine, which it borrowed, at any moment: what it had asked for is then not to be done. Nothing
   happens to one that was freed: LH_BAD_POINTER, as each call of it then answers. */
static inline uint32_t lh_host_free(LhHost *host) {
    if (host == NULL || host->host.at == NULL) return LH_BAD_POINTER;
    lh_raw_free(host->host);
    lh_raw_free(host->machine);
    host->host.at = NULL;
    host->machine.at = NULL;
    return LH_OK;
}

/* Tells what is to be done next. At any address calls on the part come first, in their order, then lines to be taken, then
   LH_HEAR for a message that was told; else it is what the job at `address` needs: a device's, 0 for a scan, 1 for a sale,
   which sends nothing. A call and a line are told until they are answered, a message once. `out` has room for LH_MOST_ASKED
   bytes; with less nothing is asked: LH_NO_ROOM. LH_BAD_POINTER. */
static inline uint32_t lh_host_ask(LhHost *host, uint8_t address, LhAsk *ask, uint8_t *out, size_t room) {
    if (host == NULL || host->host.at == NULL || ask == NULL || out == NULL || !lh_may_be(out, room)) return LH_BAD_POINTER;
    return lh_raw_host_ask(host->host, address, ask, out, room, &host->host.at);
}

/* The write or the sync that was asked for was made. LH_NOT_NOW where none is due, LH_BAD_POINTER. */
static inline uint32_t lh_host_done(LhHost *host) {
    if (host == NULL || host->host.at == NULL) return LH_BAD_POINTER;
    return lh_raw_host_done(host->host, &host->host.at);
}

/* It failed, or it isn't known whether it was made: the host is over, at any moment. Then lh_host_ask tells LH_ENDED, and
   lh_host_totals and lh_host_free do as before; the others answer LH_NOT_NOW. LH_BAD_POINTER. */
static inline uint32_t lh_host_lost(LhHost *host) {
    if (host == NULL || host->host.at == NULL) return LH_BAD_POINTER;
    return lh_raw_host_lost(host->host, &host->host.at);
}

/* The line that was asked to be taken was taken. LH_NOT_NOW where none is due, LH_BAD_POINTER. */
static inline uint32_t lh_host_taken(LhHost *host) {
    if (host == NULL || host->host.at == NULL) return LH_BAD_POINTER;
    return lh_raw_host_taken(host->host, &host->host.at);
}

/* After the message that was sent these bytes came, its echo first; none where nothing came. On a line without an echo the
   program puts the message itself in front. LH_NOT_NOW where no message was asked to be sent, LH_TOO_LONG above
   LH_MOST_HEARD, LH_BAD_POINTER. */
static inline uint32_t lh_host_heard(LhHost *host, const uint8_t *bytes, size_t count) {
    if (host == NULL || host->host.at == NULL || !lh_may_be(bytes, count)) return LH_BAD_POINTER;
    return lh_raw_host_heard(host->host, lh_bytes(bytes), count, &host->host.at);
}

/* The operator gives a command (docs/SCRIPT.md), a line without its line feed. A line that is then to be taken says whether it
   is accepted, or why not. LH_BAD_COMMAND where it is no command, as other words of docs/LIVE.md; LH_NOT_NOW while a call, a
   line or a reply is due, at whatever address; LH_BAD_POINTER. */
static inline uint32_t lh_host_command(LhHost *host, const uint8_t *line, size_t count) {
    if (host == NULL || host->host.at == NULL || !lh_may_be(line, count)) return LH_BAD_POINTER;
    return lh_raw_host_command(host->host, lh_bytes(line), count, &host->host.at);
}

/* What the operator has by now: by the records that were put, and those of which the calls are still due. LH_BAD_POINTER. */
static inline uint32_t lh_host_totals(LhHost *host, LhTotals *totals) {
    if (host == NULL || host->host.at == NULL || totals == NULL) return LH_BAD_POINTER;
    return lh_raw_host_totals(host->host, totals, &host->host.at);
}

/* What the library asks of the program, where it makes cores or hosts; the parts alone ask nothing. bindings/c/memory.c has
   both over malloc. A block of `size` bytes, which may be 0, aligned to `align`, 1 to 16; where there is none `ok` is 0, and
   `at` points to any byte. */
typedef struct {
    uint8_t ok;
    void *at;
} LhTried;
LhTried rattle_alloc(size_t size, size_t align);
void rattle_dealloc(void *at);

#ifdef __cplusplus
}
#endif

#endif
