/* Reads the coins of an acceptor on a serial line at 9600 baud, and shows them.

       read_coins PORT ADDRESS READINGS [echo]

   `echo` where the line gives back what is sent, as ccTalk's one wire does. It ends after so many readings, with status 0; with
   status 1 where the line can't be opened or the acceptor doesn't answer. */
#define _DEFAULT_SOURCE
#include "litchihull.h"

#include <fcntl.h>
#include <stdio.h>
#include <stdlib.h>
#include <string.h>
#include <termios.h>
#include <unistd.h>

enum { TRIES = 3, PAUSE = 150000 /* microseconds between two readings */ };

typedef struct {
    int port;
    uint8_t address;
    int echoes;
} Line;

/* The port as a raw line at 9600 baud, 8 bits, no parity, whose read gives up after a fifth of a second. */
static int open_port(const char *path) {
    struct termios mode;
    int port = open(path, O_RDWR | O_NOCTTY);
    if (port < 0 || tcgetattr(port, &mode) != 0) return -1;
    cfmakeraw(&mode);
    cfsetspeed(&mode, B9600);
    mode.c_cflag |= CLOCAL | CREAD;
    mode.c_cc[VMIN] = 0;
    mode.c_cc[VTIME] = 2;
    return tcsetattr(port, TCSANOW, &mode) == 0 ? port : -1;
}

static int send_all(int port, const uint8_t *bytes, size_t count) {
    while (count > 0) {
        ssize_t sent = write(port, bytes, count);
        if (sent <= 0) return 0;
        bytes += sent;
        count -= (size_t)sent;
    }
    return 1;
}

/* Reads an echo of so many bytes and what follows it, up to a whole message or a silence. */
static size_t hear(int port, size_t echo, uint8_t *heard) {
    LhFramer framer;
    size_t count = 0;
    lh_framer_gap(&framer, LH_SIMPLE);
    while (count < LH_MOST_HEARD && read(port, heard + count, 1) == 1) {
        count++;
        if (count > echo && lh_framer_feed(&framer, heard[count - 1]) == LH_OK) break;
    }
    return count;
}

/* Asks a request until its reply comes, three times at most. Repeat no request that pays: ask for the hopper's state. */
static uint32_t ask(const Line *line, uint8_t header, const uint8_t *data, size_t data_count, uint8_t form,
                    LhReply *reply) {
    uint8_t sent[LH_MOST], heard[LH_MOST_HEARD];
    size_t sent_count, echo, heard_count;
    uint32_t code;
    int tries;
    code = lh_request_write(LH_SIMPLE, line->address, header, data, data_count, sent, sizeof sent, &sent_count);
    if (code != LH_OK) return code;
    echo = line->echoes ? sent_count : 0;
    for (tries = 0; tries < TRIES; tries++) {
        tcflush(line->port, TCIFLUSH);
        if (!send_all(line->port, sent, sent_count)) return LH_SILENCE;
        heard_count = hear(line->port, echo, heard);
        code = lh_reply_read(LH_SIMPLE, line->address, form, sent, echo, heard, heard_count, reply);
        if (code == LH_OK || code == LH_NAK) break;
    }
    return code;
}

/* Shows who answers, and lets all coins in. */
static int begin(const Line *line) {
    static const uint8_t all[2] = {0xff, 0xff}, normal[1] = {1};
    LhReply reply;
    if (ask(line, LH_POLL, NULL, 0, LH_FORM_ACK, &reply) != LH_OK) return 0;
    if (ask(line, LH_CATEGORY, NULL, 0, LH_FORM_TEXT, &reply) != LH_OK) return 0;
    printf("%u: %.*s", line->address, reply.count, (const char *)reply.text);
    if (ask(line, LH_SERIAL, NULL, 0, LH_FORM_SERIAL, &reply) != LH_OK) return 0;
    printf(", serial number %lu\n", (unsigned long)reply.number);
    return ask(line, LH_SET_MASK, all, 2, LH_FORM_ACK, &reply) == LH_OK
        && ask(line, LH_SET_MASTER, normal, 1, LH_FORM_ACK, &reply) == LH_OK;
}

/* How many events came between two readings of the counter: it counts 1 to 255, and then 1 again. */
static unsigned events_between(uint8_t before, uint8_t now) {
    return now >= before ? (unsigned)(now - before) : (unsigned)(now + 255 - before);
}

/* Shows the events since the reading before, oldest first. */
static void show(const LhReply *reply, uint8_t before) {
    unsigned count = events_between(before, reply->counter);
    if (count > 5) {
        printf("%u events are lost\n", count - 5);
        count = 5;
    }
    while (count > 0) {
        LhEvent event = reply->events[--count];
        if (event.a != 0) printf("coin of place %u by path %u\n", event.a, event.b);
        else printf("error %u\n", event.b);
    }
    fflush(stdout);
}

int main(int count, char **words) {
    Line line;
    LhReply reply;
    uint8_t before;
    long left;
    if (count < 4) {
        fprintf(stderr, "read_coins PORT ADDRESS READINGS [echo]\n");
        return 2;
    }
    line.port = open_port(words[1]);
    line.address = (uint8_t)atoi(words[2]);
    line.echoes = count > 4 && strcmp(words[4], "echo") == 0;
    if (line.port < 0) {
        fprintf(stderr, "%s can't be opened\n", words[1]);
        return 1;
    }
    if (!begin(&line)) {
        fprintf(stderr, "no acceptor answers\n");
        return 1;
    }
    if (ask(&line, LH_READ_CREDITS, NULL, 0, LH_FORM_CREDITS, &reply) != LH_OK) return 1;
    before = reply.counter;
    for (left = atol(words[3]); left > 0; left--) {
        usleep(PAUSE);
        if (ask(&line, LH_READ_CREDITS, NULL, 0, LH_FORM_CREDITS, &reply) != LH_OK) continue;
        if (reply.counter == 0 && before != 0) {
            /* It was reset, so it inhibits all coins, and its events are gone. */
            printf("reset\n");
            if (!begin(&line)) return 1;
        } else {
            show(&reply, before);
        }
        before = reply.counter;
    }
    close(line.port);
    return 0;
}
