/* A coin falls into an acceptor core, and a host reads it: both ends of the line in one program, without a port. */
#include "litchihull.h"

#include <stdio.h>
#include <string.h>

static uint8_t heard[LH_MOST_HEARD];
static size_t heard_count;

/* The wire: the host hears its own bytes, and then what the acceptor answers. */
static void exchange(LhCore *acceptor, const uint8_t *sent, size_t count) {
    size_t answered = 0;
    memcpy(heard, sent, count);
    lh_core_hear(acceptor, sent, count, heard + count, sizeof heard - count, &answered);
    heard_count = count + answered;
}

/* The host asks, and reads the reply. */
static uint32_t ask(LhCore *acceptor, uint8_t header, const uint8_t *data, size_t count, uint8_t form, LhReply *reply) {
    uint8_t sent[LH_MOST];
    size_t sent_count;
    uint32_t code = lh_request_write(LH_SIMPLE, 2, header, data, count, sent, sizeof sent, &sent_count);
    if (code != LH_OK) return code;
    exchange(acceptor, sent, sent_count);
    return lh_reply_read(LH_SIMPLE, 2, form, sent, sent_count, heard, heard_count, reply);
}

int main(void) {
    static const uint8_t place_5[2] = {0x10, 0x00};
    LhSettings settings = {0};
    LhCore acceptor;
    LhReply reply;
    uint8_t path;
    int i;
    settings.family = LH_ACCEPTOR;
    settings.address = 2;
    settings.serial = 197121;
    strcpy((char *)settings.maker, "ACME");
    strcpy((char *)settings.product, "DEMO");
    strcpy((char *)settings.software, "1.04");
    strcpy((char *)settings.build, "JUNE");
    for (i = 0; i < 16; i++) memcpy(settings.ids[i], "EU100A", 6);
    if (lh_core_new(&settings, &acceptor) != LH_OK) return 1;
    if (ask(&acceptor, LH_SET_MASK, place_5, 2, LH_FORM_ACK, &reply) != LH_OK) return 1;
    if (lh_core_put(&acceptor, 5, &path) != LH_OK) return 1;
    if (ask(&acceptor, LH_READ_CREDITS, NULL, 0, LH_FORM_CREDITS, &reply) != LH_OK) return 1;
    printf("event %u: a coin of place %u by path %u\n", reply.counter, reply.events[0].a, reply.events[0].b);
    return lh_core_free(&acceptor) == LH_OK ? 0 : 1;
}
