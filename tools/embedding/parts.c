/* Each call of litchihull.h, and each of its codes once. What is wanted is written here by docs/PROTOCOL.md and by the
   published check value of the CRC. The exit status is 1 if something differs. */
#include "litchihull.h"

#include <stdio.h>
#include <string.h>

static int faults;

#define WANT(what) ((what) ? (void)0 : (void)(faults++, printf("FAILED: line %d: %s\n", __LINE__, #what)))
#define BYTES(text) (const uint8_t *)(text), sizeof(text) - 1

static int same(const uint8_t *bytes, size_t count, const char *wanted, size_t wanted_count) {
    return count == wanted_count && memcmp(bytes, wanted, count) == 0;
}
#define ARE(bytes, count, text) same(bytes, count, text, sizeof(text) - 1)

static void checks(void) {
    uint16_t crc = 0;
    uint8_t sum = 1;
    WANT(lh_crc16(BYTES("123456789"), &crc) == LH_OK && crc == 0x31c3);
    WANT(lh_simple_sum(BYTES("\x02\x00\x01\xe5\x18"), &sum) == LH_OK && sum == 0);
    WANT(lh_crc16(NULL, 0, &crc) == LH_OK && crc == 0);
    WANT(lh_crc16(NULL, 1, &crc) == LH_BAD_POINTER && lh_simple_sum(NULL, 1, &sum) == LH_BAD_POINTER);
    WANT(lh_crc16((const uint8_t *)"a", (size_t)-1, &crc) == LH_BAD_POINTER && lh_simple_sum(NULL, 0, NULL) == LH_BAD_POINTER);
}

static void frames(void) {
    uint8_t out[LH_MOST], data[256] = {0};
    size_t count = 9;
    LhFrame frame;
    WANT(lh_frame_write(LH_SIMPLE, 2, 1, 231, BYTES("\x10\x00"), out, sizeof out, &count) == LH_OK
         && ARE(out, count, "\x02\x02\x01\xe7\x10\x00\x04"));
    WANT(lh_frame_read(LH_SIMPLE, out, count, &frame) == LH_OK && frame.to == 2 && frame.named == 1 && frame.from == 1
         && frame.header == 231 && frame.count == 2 && ARE(out + LH_DATA_AT, frame.count, "\x10\x00"));
    WANT(lh_frame_read(LH_SIMPLE, out, 4, &frame) == LH_SHORT && lh_frame_read(LH_SIMPLE, out, 6, &frame) == LH_BAD_LENGTH);
    out[6] ^= 1;
    WANT(lh_frame_read(LH_SIMPLE, out, count, &frame) == LH_DAMAGED && lh_frame_read(2, out, count, &frame) == LH_BAD_CHECK);
    WANT(lh_frame_write(LH_CRC, 40, 1, 254, NULL, 0, out, sizeof out, &count) == LH_OK && count == 5);
    WANT(lh_frame_read(LH_CRC, out, count, &frame) == LH_OK && frame.named == 0 && frame.from == 0);
    count = 9;
    WANT(lh_frame_write(LH_SIMPLE, 2, 1, 0, data, 255, out, sizeof out, &count) == LH_OK && count == 260);
    WANT(lh_frame_write(LH_SIMPLE, 2, 1, 0, data, 256, out, sizeof out, &count) == LH_TOO_LONG && count == 260);
    WANT(lh_frame_write(LH_SIMPLE, 2, 1, 0, data, 255, out, 259, &count) == LH_NO_ROOM);
    WANT(lh_frame_write(9, 2, 1, 0, data, 1, out, sizeof out, &count) == LH_BAD_CHECK);
    WANT(lh_frame_write(LH_SIMPLE, 2, 1, 0, data, 1, NULL, 260, &count) == LH_BAD_POINTER);
    WANT(lh_frame_read(LH_SIMPLE, out, 5, NULL) == LH_BAD_POINTER);
}

static void requests_and_replies(void) {
    uint8_t out[LH_MOST];
    size_t count = 0;
    LhReply reply;
    WANT(lh_request_write(LH_SIMPLE, 2, LH_READ_CREDITS, NULL, 0, out, sizeof out, &count) == LH_OK
         && ARE(out, count, "\x02\x00\x01\xe5\x18"));
    WANT(lh_request_write(LH_SIMPLE, 3, LH_DISPENSE, BYTES("\x01\x02\x03\x04"), out, sizeof out, &count) == LH_OK
         && ARE(out, count, "\x03\x04\x01\xa7\x01\x02\x03\x04\x47"));
    WANT(lh_request_write(LH_SIMPLE, 2, LH_SET_MASK, BYTES("\x10"), out, sizeof out, &count) == LH_NO_REQUEST);
    WANT(lh_request_write(LH_SIMPLE, 3, LH_DISPENSE, BYTES("123456789"), out, sizeof out, &count) == LH_NO_REQUEST);
    WANT(lh_request_write(LH_SIMPLE, 2, LH_POLL, NULL, 0, out, 4, &count) == LH_NO_ROOM);
    WANT(lh_request_write(7, 2, LH_POLL, NULL, 0, out, sizeof out, &count) == LH_BAD_CHECK);
    WANT(lh_request_write(LH_SIMPLE, 2, LH_POLL, NULL, 0, out, sizeof out, NULL) == LH_BAD_POINTER);
#define READ(form, sent, heard) lh_reply_read(LH_SIMPLE, 2, form, BYTES(sent), BYTES(heard), &reply)
    WANT(READ(LH_FORM_CREDITS, "\x02\x00\x01\xe5\x18",
              "\x02\x00\x01\xe5\x18\x01\x0b\x02\x00\x02\x05\x01\x00\x02\x00\x00\x00\x00\x00\x00\xe8") == LH_OK
         && reply.counter == 2 && reply.events[0].a == 5 && reply.events[0].b == 1 && reply.events[1].a == 0
         && reply.events[1].b == 2 && reply.events[4].b == 0);
    WANT(READ(LH_FORM_ACK, "", "\x01\x00\x02\x00\xfd") == LH_OK);
    WANT(READ(LH_FORM_MASK, "", "\x01\x02\x02\x00\x3f\x01\xbb") == LH_OK && reply.mask == 0x013f);
    WANT(READ(LH_FORM_MASTER, "", "\x01\x01\x02\x00\x01\xfb") == LH_OK && reply.value == 1);
    WANT(READ(LH_FORM_STATUS, "", "\x01\x04\x02\x00\x01\x02\x03\x04\xef") == LH_OK && reply.counter == 1
         && reply.remaining == 2 && reply.paid == 3 && reply.unpaid == 4);
    WANT(READ(LH_FORM_LIFE, "", "\x01\x03\x02\x00\x01\x02\x03\xf4") == LH_OK && reply.number == 0x030201);
    WANT(READ(LH_FORM_TEXT, "", "\x01\x04\x02\x00" "ACME\xe3") == LH_OK && ARE(reply.text, reply.count, "ACME"));
    WANT(READ(LH_FORM_COIN_ID, "", "\x01\x06\x02\x00" "EU100A\x8b") == LH_OK && ARE(reply.id, 6, "EU100A"));
    WANT(READ(LH_FORM_ACK, "\x02\x00\x01\xfe\xff", "\x02\x00\x01\xfe") == LH_BAD_ECHO);
    WANT(READ(LH_FORM_ACK, "\x02\x00\x01\xfe\xff", "\x02\x00\x01\xfe\xff") == LH_SILENCE);
    WANT(READ(LH_FORM_ACK, "", "\x01\x00\x02\x00") == LH_SHORT);
    WANT(READ(LH_FORM_ACK, "", "\x01\x01\x02\x00\xfd") == LH_BAD_LENGTH);
    WANT(READ(LH_FORM_ACK, "", "\x01\x00\x02\x00\xfe") == LH_DAMAGED);
    WANT(READ(LH_FORM_ACK, "", "\x01\x00\x02\x05\xf8") == LH_NAK && READ(LH_FORM_ACK, "", "\x01\x00\x02\x06\xf7") == LH_BUSY);
    WANT(READ(LH_FORM_ACK, "", "\x01\x00\x03\x00\xfc") == LH_OTHER && READ(14, "", "\x01\x00\x02\x00\xfd") == LH_BAD_FORM);
    WANT(lh_reply_read(5, 2, 0, BYTES(""), BYTES("\x01\x00\x02\x00\xfd"), &reply) == LH_BAD_CHECK);
    WANT(lh_reply_read(0, 2, 0, NULL, 1, BYTES("\x01"), &reply) == LH_BAD_POINTER);
}

static void framers(void) {
    LhFramer framer;
    int i;
    WANT(lh_framer_gap(&framer, 2) == LH_BAD_CHECK && lh_framer_gap(NULL, 0) == LH_BAD_POINTER);
    WANT(lh_framer_gap(&framer, LH_SIMPLE) == LH_OK && framer.count == 0);
    for (i = 0; i < 4; i++) WANT(lh_framer_feed(&framer, (uint8_t)"\x02\x00\x01\xfe"[i]) == LH_MORE);
    WANT(lh_framer_feed(&framer, 0xff) == LH_OK && ARE(framer.bytes, framer.count, "\x02\x00\x01\xfe\xff"));
    WANT(lh_framer_feed(&framer, 0xff) == LH_MORE);
    WANT(lh_framer_gap(&framer, LH_SIMPLE) == LH_OK);
    for (i = 0; i < 4; i++) lh_framer_feed(&framer, (uint8_t)"\x02\x00\x01\xfe"[i]);
    WANT(lh_framer_feed(&framer, 0xfe) == LH_DAMAGED);
    for (i = 5; i < LH_MOST; i++) WANT(lh_framer_feed(&framer, 0) == LH_MORE);
    WANT(lh_framer_feed(&framer, 0) == LH_TOO_LONG && framer.count == LH_MOST);
    memset(&framer, 0xff, sizeof framer);
    WANT(lh_framer_feed(&framer, 0) == LH_BAD_CHECK && lh_framer_feed(NULL, 0) == LH_BAD_POINTER);
    framer.check = LH_CRC;
    WANT(lh_framer_feed(&framer, 0) == LH_TOO_LONG);
}

static LhSettings settings(uint8_t family, uint8_t address) {
    LhSettings settings;
    int i;
    memset(&settings, 0, sizeof settings);
    settings.family = family;
    settings.address = address;
    settings.serial = 197121;
    strcpy((char *)settings.maker, "ACME");
    strcpy((char *)settings.product, "DEMO");
    strcpy((char *)settings.software, "1.04");
    memcpy(settings.build, "123456789012345678901234", 24);
    for (i = 0; i < 16; i++) memcpy(settings.ids[i], "EU100A", 6);
    return settings;
}

/* What a core says to bytes. */
static uint8_t said[LH_MOST];
static size_t said_count;
#define HEARS(core, text) (said_count = 0, lh_core_hear(core, BYTES(text), said, sizeof said, &said_count))
#define SAYS(core, text, wanted) (HEARS(core, text) == LH_OK && ARE(said, said_count, wanted))

static void acceptors(void) {
    LhSettings what = settings(LH_ACCEPTOR, 2);
    LhCore core;
    uint8_t path = 0;
    WANT(lh_core_new(&what, &core) == LH_OK);
    WANT(lh_core_put(&core, 5, &path) == LH_NOTHING && path == 0);
    WANT(SAYS(&core, "\x02\x02\x01\xe7\x10\x00\x04", "\x01\x00\x02\x00\xfd"));
    WANT(lh_core_put(&core, 5, &path) == LH_OK && path == 1);
    WANT(SAYS(&core, "\x02\x00\x01\xe5\x18", "\x01\x0b\x02\x00\x02\x05\x01\x00\x02\x00\x00\x00\x00\x00\x00\xe8"));
    WANT(HEARS(&core, "\x02\x00\x01\xe5\x19") == LH_SILENCE && HEARS(&core, "\x03\x00\x01\xfe\xfe") == LH_SILENCE);
    WANT(lh_core_alien(&core) == LH_OK);
    WANT(SAYS(&core, "\x02\x00\x01\xe5\x18", "\x01\x0b\x02\x00\x03\x00\x01\x05\x01\x00\x02\x00\x00\x00\x00\xe6"));
    WANT(SAYS(&core, "\x02\x00\x01\xc0\x3d", "\x01\x18\x02\x00" "123456789012345678901234" "\x01"));
    WANT(lh_core_reset(&core) == LH_OK && SAYS(&core, "\x02\x00\x01\xe6\x17", "\x01\x02\x02\x00\x00\x00\xfb"));
    WANT(lh_core_put(&core, 0, &path) == LH_BAD_PLACE && lh_core_put(&core, 17, &path) == LH_BAD_PLACE);
    WANT(lh_core_fall(&core) == LH_WRONG_FAMILY && lh_core_jam(&core) == LH_WRONG_FAMILY);
    WANT(lh_core_gap(&core, said, LH_MOST - 1, &said_count) == LH_NO_ROOM);
    WANT(lh_core_put(&core, 5, NULL) == LH_BAD_POINTER && lh_core_gap(&core, NULL, LH_MOST, &said_count) == LH_BAD_POINTER);
    WANT(lh_core_free(&core) == LH_OK && lh_core_free(&core) == LH_BAD_POINTER && lh_core_byte(&core, 0) == LH_BAD_POINTER);
}

static void hoppers(void) {
    LhSettings what = settings(LH_HOPPER, 3);
    LhCore core;
    WANT(lh_core_new(&what, &core) == LH_OK);
    WANT(lh_core_fall(&core) == LH_NOTHING);
    WANT(SAYS(&core, "\x03\x04\x01\xa7\x01\x02\x03\x04\x47", "\x01\x00\x03\x05\xf7"));
    WANT(SAYS(&core, "\x03\x01\x01\xa4\xa5\xb2", "\x01\x00\x03\x00\xfc"));
    WANT(SAYS(&core, "\x03\x04\x01\xa7\x01\x02\x03\x04\x47", "\x01\x00\x03\x00\xfc"));
    WANT(lh_core_fall(&core) == LH_OK && lh_core_fall(&core) == LH_OK);
    WANT(SAYS(&core, "\x03\x00\x01\xa6\x56", "\x01\x04\x03\x00\x01\x02\x02\x00\xf3"));
    WANT(lh_core_jam(&core) == LH_OK && lh_core_jam(&core) == LH_NOTHING);
    WANT(SAYS(&core, "\x03\x00\x01\xa6\x56", "\x01\x04\x03\x00\x01\x00\x02\x02\xf3"));
    WANT(SAYS(&core, "\x03\x00\x01\xa8\x54", "\x01\x03\x03\x00\x02\x00\x00\xf7"));
    WANT(lh_core_put(&core, 1, said) == LH_WRONG_FAMILY && lh_core_alien(&core) == LH_WRONG_FAMILY);
    WANT(lh_core_free(&core) == LH_OK);
}

static void bill_acceptors(void) {
    LhSettings what = settings(LH_BILL, 40);
    LhCore core;
    uint8_t path = 7;
    WANT(lh_core_new(&what, &core) == LH_OK);
    WANT(lh_core_put(&core, 1, &path) == LH_NOTHING);
    WANT(SAYS(&core, "\x28\x02\x01\xe7\x01\x00\xed", "\x01\x00\x28\x00\xd7"));
    WANT(SAYS(&core, "\x28\x01\x01\xe4\x01\xf1", "\x01\x00\x28\x00\xd7"));
    WANT(lh_core_put(&core, 1, &path) == LH_OK && path == 7 && lh_core_put(&core, 1, &path) == LH_NOTHING);
    WANT(SAYS(&core, "\x28\x01\x01\x9a\x01\x3b", "\x01\x00\x28\x00\xd7"));
    WANT(SAYS(&core, "\x28\x01\x01\x9a\x01\x3b", "\x01\x00\x28\x05\xd2"));
    WANT(SAYS(&core, "\x28\x00\x01\x9f\x38", "\x01\x0b\x28\x00\x04\x01\x00\x00\x02\x01\x01\x00\x02\x00\x00\xc1"));
    WANT(lh_core_free(&core) == LH_OK);
}

static void wrong_settings(void) {
    LhCore core = {{NULL}, {NULL}};
    LhSettings what;
#define WRONG(family, change, code) (what = settings(family, 2), (void)(change), lh_core_new(&what, &core) == (code))
    WANT(WRONG(3, 0, LH_BAD_FAMILY) && WRONG(LH_ACCEPTOR, what.address = 1, LH_BAD_ADDRESS));
    WANT(WRONG(LH_HOPPER, what.check = 2, LH_BAD_CHECK) && WRONG(LH_HOPPER, what.serial = 1u << 24, LH_BAD_SERIAL));
    WANT(WRONG(LH_BILL, what.count = 1u << 24, LH_BAD_COUNT) && WRONG(LH_BILL, what.ids[15][5] = 0x20, LH_BAD_ID));
    WANT(WRONG(LH_ACCEPTOR, what.maker[0] = 0, LH_BAD_TEXT) && WRONG(LH_ACCEPTOR, what.build[23] = 0x7f, LH_BAD_TEXT));
    WANT(WRONG(LH_HOPPER, what.ids[0][0] = 0, LH_OK) && lh_core_free(&core) == LH_OK);
    WANT(lh_core_new(NULL, &core) == LH_BAD_POINTER && lh_core_new(&what, NULL) == LH_BAD_POINTER);
}

/* The part of a host. */
static uint8_t part[2368];

/* Does what a host asks for, with an acceptor at the other end of its line, up to what isn't one of these. */
static uint8_t serve(LhHost *host, LhCore *acceptor, uint8_t address) {
    static uint8_t out[LH_MOST_ASKED], heard[LH_MOST_HEARD];
    LhAsk ask;
    size_t count = 0;
    while (lh_host_ask(host, address, &ask, out, sizeof out) == LH_OK) {
        if (ask.what == LH_WRITE || ask.what == LH_SYNC) {
            if (ask.what == LH_WRITE) memcpy(part + ask.at, out, ask.count);
            WANT(lh_host_done(host) == LH_OK);
        } else if (ask.what == LH_TAKE) {
            WANT(ask.count > 0 && out[ask.count - 1] == '\n' && lh_host_taken(host) == LH_OK);
        } else if (ask.what == LH_SEND) {
            memcpy(heard, out, ask.count);
            WANT(lh_core_hear(acceptor, out, ask.count, heard + ask.count, sizeof heard - ask.count, &count) == LH_OK);
            WANT(lh_host_heard(host, heard, ask.count + count) == LH_OK);
        } else {
            return ask.what;
        }
    }
    return LH_ENDED;
}

static void hosts(void) {
    static const char one[] = "acceptor 2 simple 197 0\nvalue 2 5 100 EU100A\n", other[] = "acceptor 4 simple 197 0\n";
    LhSettings what = settings(LH_ACCEPTOR, 2);
    static uint8_t out[LH_MOST_ASKED];
    LhTotals has;
    LhCore core;
    LhHost host = {{NULL}, {NULL}};
    LhAsk ask;
    uint32_t where = 0;
    uint8_t path;
    WANT(lh_core_new(&what, &core) == LH_OK);
    WANT(lh_host_new(BYTES("acceptor 1 simple 197 0\n"), part, sizeof part, &host, &where) == LH_BAD_SETUP && where == 1);
    WANT(lh_host_new(BYTES(one), part, sizeof part - 1, &host, &where) == LH_SMALL_PART);
    part[9] = 1;
    WANT(lh_host_new(BYTES(one), part, sizeof part, &host, &where) == LH_BAD_PART);
    part[9] = 0;
    WANT(lh_host_new(BYTES(one), NULL, 1, &host, &where) == LH_BAD_POINTER && lh_host_free(&host) == LH_BAD_POINTER);
    WANT(lh_host_new(BYTES(one), part, sizeof part, &host, &where) == LH_OK);
    WANT(lh_host_ask(&host, 2, &ask, out, sizeof out) == LH_OK && (ask.what == LH_WRITE || ask.what == LH_SYNC));
    WANT(lh_host_command(&host, BYTES("start 2 0010")) == LH_NOT_NOW && lh_host_taken(&host) == LH_NOT_NOW);
    WANT(lh_host_ask(&host, 2, &ask, out, sizeof out - 1) == LH_NO_ROOM && serve(&host, &core, 2) == LH_IDLE);
    WANT(lh_host_done(&host) == LH_NOT_NOW && lh_host_heard(&host, NULL, 0) == LH_NOT_NOW);
    WANT(lh_host_heard(&host, out, LH_MOST_HEARD + 1) == LH_TOO_LONG);
    WANT(lh_host_command(&host, BYTES("coin 2 5")) == LH_BAD_COMMAND);
    WANT(lh_host_command(&host, BYTES("start 2 0010")) == LH_OK && serve(&host, &core, 2) == LH_IDLE);
    WANT(lh_core_put(&core, 5, &path) == LH_OK);
    WANT(lh_host_command(&host, BYTES("round 2")) == LH_OK && serve(&host, &core, 2) == LH_IDLE);
    WANT(lh_host_totals(&host, &has) == LH_OK && has.available == 100 && has.reserved == 0 && has.paid == 0 && has.sold == 0);
    WANT(lh_host_free(&host) == LH_OK && lh_host_free(&host) == LH_BAD_POINTER && lh_host_lost(&host) == LH_BAD_POINTER);
    WANT(lh_host_new(BYTES(other), part, sizeof part, &host, &where) == LH_BAD_RECORD && where == 1);
    WANT(lh_host_new(BYTES(one), part, sizeof part, &host, &where) == LH_OK);
    WANT(lh_host_totals(&host, &has) == LH_OK && has.available == 100);
    WANT(lh_host_command(&host, BYTES("round 2")) == LH_OK && lh_host_taken(&host) == LH_OK);
    WANT(lh_host_ask(&host, 2, &ask, out, sizeof out) == LH_OK && ask.what == LH_SEND);
    WANT(ARE(out, ask.count, "\x02\x00\x01\xe1\x1c"));
    WANT(lh_host_ask(&host, 2, &ask, out, sizeof out) == LH_OK && ask.what == LH_HEAR && ask.count == 0);
    WANT(lh_host_lost(&host) == LH_OK && lh_host_heard(&host, NULL, 0) == LH_NOT_NOW && serve(&host, &core, 2) == LH_ENDED);
    WANT(lh_host_free(&host) == LH_OK && lh_core_free(&core) == LH_OK);
}

int main(void) {
    checks();
    frames();
    requests_and_replies();
    framers();
    acceptors();
    hoppers();
    bill_acceptors();
    wrong_settings();
    hosts();
    return faults != 0;
}
