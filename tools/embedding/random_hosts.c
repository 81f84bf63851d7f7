/* Calls of lh_host_* with random arguments and bytes, by a program that mostly does what a host asks for, and now and then
   anything else. Nothing is touched outside what was passed, each code is a known one, a call that is asked for is asked for
   until it was made, a message is told once, and a host that starts over a part on which each call was made has what the one
   before it had in its records.

       random_hosts SEED COUNT

   Parts, bytes and room end at a page that may not be touched. The exit status is 1 if something differs. */
#define _DEFAULT_SOURCE
#include "chance.h"

#include <string.h>

enum { LEAST_PART = 2368, MOST_LINE = 60 };

static const char SETUP[] = "acceptor 2 simple 197 0\nvalue 2 1 100 EU100A\nvalue 2 5 50 EU050A\nhopper 3 simple 1 0 10\n";

/* A host, and what its program has. */
typedef struct {
    LhHost host;
    LhCore acceptor, hopper;
    uint8_t *part;     /* ends at a fence */
    size_t size;
    LhAsk ask;         /* what it asked for last */
    int is_pending;    /* a call on the part was asked for, and isn't answered */
    int is_sent;       /* a message was told, and it isn't said what was heard */
    int is_kept;       /* under SETUP each call was made as it was asked for, and nothing else was written */
    int is_settled;    /* no call was asked for since the totals were told */
    LhTotals has;
} Box;

static uint8_t *part_page, *in_page, *out_page;

/* Text with a byte that may be wrong. */
static const uint8_t *some_text(const char *text, size_t count) {
    uint8_t *bytes = in_page + PAGE - count;
    memcpy(bytes, text, count);
    if (draw(16) == 0) bytes[draw((uint32_t)count)] = (uint8_t)draw(256);
    return bytes;
}

static LhCore some_core(uint8_t family, uint8_t address, uint32_t serial) {
    LhCore core;
    LhSettings settings;
    memset(&settings, 0x41, sizeof settings);
    settings.family = family;
    settings.check = LH_SIMPLE;
    settings.address = address;
    settings.serial = serial;
    settings.count = 0;
    if (lh_core_new(&settings, &core) != LH_OK) exit(2);
    return core;
}

/* What the part holds before a host starts: what it held, zeros, or something else. */
static void fill_part(Box *box) {
    uint32_t kind = draw(16), i;
    if (box->size != 0 && kind > 3) return;
    if (box->size != 0 && kind > 1) {
        for (i = draw(4); i > 0; i--) box->part[draw((uint32_t)box->size)] ^= (uint8_t)(1u << draw(8));
    } else {
        box->size = draw(16) ? LEAST_PART + draw(PAGE - LEAST_PART + 1) : draw(LEAST_PART);
        box->part = part_page + PAGE - box->size;
        memset(box->part, draw(16) ? 0 : (int)draw(256), box->size);
    }
    box->is_kept = 0;
}

/* What is available once nothing is reserved. */
static uint64_t worth(const LhTotals *has) {
    return has->available + has->reserved;
}

/* Starts a host over the part. What its records tell is what those before it told; what was only reserved is available. */
static void start(Box *box) {
    const uint8_t *text = some_text(SETUP, sizeof SETUP - 1);
    int is_plain = memcmp(text, SETUP, sizeof SETUP - 1) == 0;
    uint32_t where = 77, code;
    LhTotals has;
    fill_part(box);
    code = lh_host_new(draw(32) ? text : NULL, sizeof SETUP - 1, box->part, box->size, &box->host, &where);
    want_code(code);
    if (code != LH_OK) return;
    WANT(lh_host_totals(&box->host, &has) == LH_OK);
    if (is_plain && box->is_kept && box->is_settled)
        WANT(worth(&has) == worth(&box->has) && has.paid == box->has.paid && has.sold == box->has.sold);
    box->has = has;
    box->is_pending = box->is_sent = 0;
    box->is_kept = is_plain;
    box->is_settled = 1;
}

/* What both devices make of a message: its echo, and then an answer. Some of it may be lost or wrong. */
static uint32_t hear(Box *box, const uint8_t *sent, size_t count) {
    uint8_t heard[LH_MOST_HEARD + 8] = {0}, *at;
    size_t written = 0, got = count, i;
    memcpy(heard, sent, count);
    if (lh_core_hear(&box->acceptor, sent, count, heard + got, LH_MOST, &written) == LH_OK) got += written;
    else if (lh_core_hear(&box->hopper, sent, count, heard + got, LH_MOST, &written) == LH_OK) got += written;
    if (draw(32) == 0) got = draw((uint32_t)sizeof heard + 1);
    for (i = draw(32) ? 0 : draw(4); i > 0 && got > 0; i--) heard[draw((uint32_t)got)] = (uint8_t)draw(256);
    at = in_page + PAGE - got;
    memcpy(at, heard, got);
    return lh_host_heard(&box->host, got ? at : NULL, got);
}

/* What a host tells of what it asks for is as the header says. */
static void want_asked(const Box *box, const LhAsk *was, int was_sent) {
    const LhAsk *ask = &box->ask;
    WANT(ask->what <= LH_ENDED);
    WANT(ask->count <= LH_MOST_ASKED);
    if (ask->what == LH_WRITE) WANT(ask->at <= box->size && ask->count <= box->size - ask->at);
    if (ask->what == LH_SEND) WANT(ask->count >= 5 && ask->count <= LH_MOST && !was_sent);
    if (was_sent && ask->what != LH_ENDED) WANT(ask->what == LH_HEAR);
    if (box->is_pending && ask->what != LH_ENDED)
        WANT(ask->what == was->what && ask->at == was->at && ask->count == was->count);
}

/* Does what the host asks for. */
static void obey(Box *box) {
    size_t room = draw(32) ? LH_MOST_ASKED : draw(LH_MOST_ASKED);
    uint8_t *out = out_page + PAGE - room;
    LhAsk was = box->ask;
    uint32_t code = lh_host_ask(&box->host, (uint8_t)draw(5), &box->ask, out, room);
    want_code(code);
    WANT(room < LH_MOST_ASKED ? code == LH_NO_ROOM : code == LH_OK);
    if (code != LH_OK) return;
    want_asked(box, &was, box->is_sent);
    box->is_pending = box->ask.what == LH_WRITE || box->ask.what == LH_SYNC;
    if (box->is_pending) box->is_settled = 0;
    switch (box->ask.what) {
    case LH_WRITE:
        if (draw(64) == 0) return;
        memcpy(box->part + box->ask.at, out, box->ask.count);
        box->is_pending = 0;
        WANT(lh_host_done(&box->host) == LH_OK);
        break;
    case LH_SYNC:
        box->is_pending = 0;
        WANT(lh_host_done(&box->host) == LH_OK);
        break;
    case LH_TAKE:
        WANT(box->ask.count > 1 && out[box->ask.count - 1] == '\n');
        WANT(lh_host_taken(&box->host) == LH_OK);
        break;
    case LH_SEND:
        box->is_sent = 1;
        code = hear(box, out, box->ask.count);
        WANT(code == LH_OK || code == LH_TOO_LONG);
        if (code == LH_OK) box->is_sent = 0;
        break;
    case LH_HEAR:
        WANT(lh_host_heard(&box->host, NULL, 0) == LH_OK);
        box->is_sent = 0;
        break;
    case LH_IDLE:
        box->is_settled = 1;
        WANT(lh_host_totals(&box->host, &box->has) == LH_OK);
        break;
    default:
        WANT(lh_host_free(&box->host) == LH_OK);
    }
}

/* Gives a command, which may be none. */
static void command(Box *box) {
    static const char *const forms[] = {"start 2 0011", "round 2", "round 2", "round 2", "round 2", "stop 2", "pay 3 %u 2",
                                        "pay 3 %u 2", "settle 3", "halt 3", "vend %u 50", "scan", "ident 2", "ident 3",
                                        "path 2 1 3", "poll", "%u"};
    static unsigned id;
    char line[MOST_LINE];
    int count = snprintf(line, sizeof line, forms[draw(sizeof forms / sizeof *forms)], id += draw(3));
    uint32_t code = lh_host_command(&box->host, draw(64) ? some_text(line, (size_t)count) : NULL, (size_t)count);
    want_code(code);
    WANT(code == LH_OK || code == LH_NOT_NOW || code == LH_BAD_COMMAND || code == LH_BAD_POINTER);
    if (code == LH_OK) WANT(!box->is_pending && !box->is_sent);
}

/* Says something that may not be due: that is not now. */
static void mislead(Box *box) {
    size_t count = draw(24);
    uint32_t code;
    switch (draw(5)) {
    case 0:
        code = lh_host_done(&box->host);
        if (code == LH_OK) box->is_kept = box->is_pending = 0;
        break;
    case 1: code = lh_host_taken(&box->host); break;
    case 2:
        code = lh_host_heard(&box->host, draw(9) ? in_page + PAGE - count : NULL, count);
        if (code == LH_OK) box->is_sent = 0;
        break;
    case 3: code = lh_host_totals(&box->host, draw(2) ? &box->has : NULL); box->is_settled = 0; break;
    default:
        code = draw(64) ? LH_OK : lh_host_lost(&box->host);
    }
    want_code(code);
    WANT(code == LH_OK || code == LH_NOT_NOW || code == LH_BAD_POINTER);
}

/* Something befalls a device. */
static void befall(Box *box) {
    uint8_t path = 0;
    want_code(draw(2) ? lh_core_put(&box->acceptor, draw(2) ? 1 : 5, &path) : lh_core_fall(&box->hopper));
    if (draw(64) == 0) want_code(lh_core_reset(draw(2) ? &box->acceptor : &box->hopper));
}

int main(int words, char **word) {
    Box box;
    unsigned long left;
    if (words != 3) return 2;
    sow(word[1]);
    part_page = fence();
    in_page = fence();
    out_page = fence();
    memset(&box, 0, sizeof box);
    box.acceptor = some_core(LH_ACCEPTOR, 2, 197);
    box.hopper = some_core(LH_HOPPER, 3, 1);
    for (left = strtoul(word[2], NULL, 10); left > 0; left--) {
        uint32_t kind = draw(256);
        if (box.host.host.at == NULL) start(&box);
        else if (kind == 0) WANT(lh_host_free(&box.host) == LH_OK);
        else if (kind < 8) mislead(&box);
        else if (kind < 32) command(&box);
        else if (kind < 56) befall(&box);
        else obey(&box);
    }
    want_code(lh_host_free(&box.host));
    want_code(lh_core_free(&box.acceptor));
    want_code(lh_core_free(&box.hopper));
    return faults != 0;
}
