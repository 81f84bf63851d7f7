/* Calls of litchihull.h with random arguments and bytes: nothing is touched outside what was passed, each code is a known one,
   and a call that is refused writes nothing.

       random_calls SEED COUNT

   Bytes and room end at a page that may not be touched, so a byte too many ends the program. The exit status is 1 if something
   differs. */
#define _DEFAULT_SOURCE
#include "chance.h"

#include <string.h>

enum { MOST_BYTES = 600 };

static uint8_t *in_page, *other_page, *out_page;

/* So many bytes that end at the fence, or null now and then. */
static uint8_t *at_end(uint8_t *page, size_t count) {
    return draw(64) == 0 ? NULL : page + PAGE - count;
}

static size_t some_count(void) {
    return draw(4) == 0 ? draw(MOST_BYTES) : draw(24);
}

static uint8_t some_check(void) {
    return (uint8_t)(draw(16) == 0 ? draw(256) : draw(2));
}

/* Fills bytes: noise, or a message that may be damaged. */
static void fill(uint8_t *bytes, size_t count) {
    static const uint8_t headers[] = {0, 0, 0, 5, 6, 1, 154, 159, 164, 166, 167, 168, 228, 229, 231, 242, 254};
    size_t i, written;
    uint8_t piece[LH_MOST], data[255];
    if (bytes == NULL) return;
    for (i = 0; i < count; i++) bytes[i] = (uint8_t)draw(draw(2) ? 256 : 4);
    if (count < 5 || count > LH_MOST || draw(4) == 0) return;
    for (i = 0; i < count - 5; i++) data[i] = bytes[i];
    if (lh_frame_write((uint8_t)draw(2), (uint8_t)draw(4), (uint8_t)draw(4), headers[draw(sizeof headers)], data, count - 5,
                       piece, sizeof piece, &written) == LH_OK) memcpy(bytes, piece, count);
    if (draw(8) == 0) bytes[draw((uint32_t)count)] ^= (uint8_t)(1u << draw(8));
}

static void try_frames(void) {
    size_t count = some_count(), room = some_count(), written = 77;
    uint8_t *data = at_end(in_page, count), *out = at_end(out_page, room), before[MOST_BYTES];
    LhFrame frame, was;
    uint32_t code;
    fill(data, count);
    memset(out_page, 0x5a, PAGE);
    memset(before, 0x5a, sizeof before);
    code = draw(2) ? lh_frame_write(some_check(), (uint8_t)draw(256), 1, (uint8_t)draw(256), data, count, out, room, &written)
                   : lh_request_write(some_check(), (uint8_t)draw(256), (uint8_t)draw(256), data, count, out, room, &written);
    want_code(code);
    WANT(code == LH_OK ? written <= room : written == 77);
    if (code != LH_OK && out != NULL) WANT(memcmp(out, before, room) == 0);
    memset(&frame, 0x33, sizeof frame);
    was = frame;
    code = lh_frame_read(some_check(), data, count, &frame);
    want_code(code);
    WANT(code == LH_OK ? count == (size_t)frame.count + 5 : memcmp(&frame, &was, sizeof frame) == 0);
}

static void try_checks(void) {
    size_t count = some_count();
    uint8_t *bytes = at_end(in_page, count), sum;
    uint16_t crc;
    fill(bytes, count);
    want_code(lh_crc16(bytes, count, &crc));
    want_code(lh_simple_sum(bytes, draw(99) ? count : (size_t)-1, &sum));
}

static void try_replies(void) {
    size_t sent_count = draw(3) ? 0 : draw(9), count = some_count();
    uint8_t *sent = at_end(other_page, sent_count), *heard = at_end(in_page, count);
    LhReply reply, was;
    uint32_t code;
    fill(sent, sent_count);
    fill(heard, count);
    if (sent != NULL && heard != NULL && sent_count <= count && draw(3)) memcpy(sent, heard, sent_count);
    memset(&reply, 0x33, sizeof reply);
    was = reply;
    code = lh_reply_read(some_check(), (uint8_t)draw(4), (uint8_t)draw(15), sent, sent_count, heard, count, &reply);
    want_code(code);
    if (code != LH_OK) WANT(memcmp(&reply, &was, sizeof reply) == 0);
}

/* A framer in which anything may stand, at the fence. */
static void try_framer(void) {
    LhFramer *framer = (LhFramer *)(void *)(out_page + PAGE - sizeof(LhFramer));
    size_t i, count = some_count();
    if (draw(8) == 0) for (i = 0; i < sizeof *framer; i++) ((uint8_t *)framer)[i] = (uint8_t)draw(256);
    else want_code(lh_framer_gap(framer, some_check()));
    for (i = 0; i < count; i++) want_code(lh_framer_feed(framer, (uint8_t)draw(draw(2) ? 256 : 4)));
}

static LhSettings some_settings(void) {
    LhSettings settings;
    uint8_t *bytes = (uint8_t *)&settings;
    size_t i;
    memset(&settings, 0x41, sizeof settings);
    settings.family = (uint8_t)draw(3);
    settings.check = (uint8_t)draw(2);
    settings.address = (uint8_t)(1 + draw(3));
    settings.serial = draw(4);
    settings.count = draw(2) ? draw(4) : 0xffffff;
    for (i = draw(8) ? 0 : draw(9); i > 0; i--) bytes[draw(sizeof settings)] = (uint8_t)draw(256);
    return settings;
}

/* One step of a core. */
static void step(LhCore *core) {
    size_t count = some_count(), room = draw(8) ? LH_MOST : draw(300), written = 77, i;
    uint8_t *bytes = at_end(in_page, count), *out = at_end(out_page, room), path = 0;
    uint32_t code;
    switch (draw(8)) {
    case 0: code = lh_core_put(core, (uint8_t)(draw(9) ? 1 + draw(16) : draw(256)), &path); break;
    case 1: code = lh_core_alien(core); break;
    case 2: code = draw(3) ? lh_core_fall(core) : lh_core_jam(core); break;
    case 3: code = draw(9) ? LH_OK : lh_core_reset(core); break;
    case 4:
        code = LH_OK;
        for (i = 0; i < count; i++) want_code(lh_core_byte(core, (uint8_t)draw(256)));
        break;
    default:
        fill(bytes, count);
        code = lh_core_hear(core, bytes, count, out, room, &written);
        WANT(code == LH_OK ? written <= room : written == 77);
    }
    want_code(code);
}

int main(int words, char **word) {
    LhCore cores[4];
    unsigned long left;
    size_t i;
    if (words != 3) return 2;
    sow(word[1]);
    left = strtoul(word[2], NULL, 10);
    in_page = fence();
    other_page = fence();
    out_page = fence();
    memset(cores, 0, sizeof cores);
    for (; left > 0; left--) {
        LhCore *core = &cores[draw(4)];
        switch (draw(8)) {
        case 0: try_checks(); break;
        case 1: try_frames(); break;
        case 2: try_replies(); break;
        case 3: try_framer(); break;
        case 4:
            if (draw(8) == 0) want_code(lh_core_free(core));
            if (core->core.at == NULL) {
                LhSettings settings = some_settings();
                want_code(lh_core_new(draw(32) ? &settings : NULL, core));
            }
            break;
        default: step(core);
        }
    }
    for (i = 0; i < 4; i++) want_code(lh_core_free(&cores[i]));
    return faults != 0;
}
