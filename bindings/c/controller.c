/* A host on a serial line at 9600 baud, over a journal in a file.

       controller SETUP PORT JOURNAL [echo]

   SETUP has setup lines (docs/SCRIPT.md). JOURNAL is a file of at least 2,368 bytes, all 0 or with a journal; its length is kept.
   `echo` where the line gives back what is sent. Standard input has commands of docs/SCRIPT.md, each followed by `do A` with the
   address at which its job runs, and `balance`. Standard output has the lines of docs/TRANSCRIPT.md. It ends with status 0 at the
   end of its input, with 1 where the journal, the port or the output fails, and with 2 where it can't begin. */
#define _DEFAULT_SOURCE
#define _POSIX_C_SOURCE 200809L
#include "litchihull.h"

#include <fcntl.h>
#include <stdio.h>
#include <stdlib.h>
#include <string.h>
#include <sys/stat.h>
#include <termios.h>
#include <unistd.h>

/* A job that asks more often than this is left for the next line. */
enum { MOST_STEPS = 4096 };

typedef struct {
    LhHost host;
    int port, journal, echoes;
} Machine;

/* All bytes of a file, or null. The caller frees them. */
static uint8_t *whole(int file, size_t *count) {
    struct stat about;
    uint8_t *bytes;
    if (fstat(file, &about) != 0 || (bytes = malloc((size_t)about.st_size + 1)) == NULL) return NULL;
    for (*count = 0; *count < (size_t)about.st_size;) {
        ssize_t came = pread(file, bytes + *count, (size_t)about.st_size - *count, (off_t)*count);
        if (came <= 0) {
            free(bytes);
            return NULL;
        }
        *count += (size_t)came;
    }
    return bytes;
}

/* The port as a raw line at 9600 baud, 8 bits, no parity, whose read gives up after a fifth of a second. */
static int open_port(const char *path) {
    struct termios mode;
    int port = open(path, O_RDWR | O_NOCTTY);
    if (port < 0 || tcgetattr(port, &mode) != 0) return -1;
    cfmakeraw(&mode);
    cfsetspeed(&mode, B9600);
    mode.c_cflag |= CLOCAL | CREAD;
    mode.c_cc[VMIN] = 0;
    mode.c_cc[VTIME] = 2;
    return tcsetattr(port, TCSANOW, &mode) == 0 ? port : -1;
}

/* Writes all of it, or says no. */
static int put_all(int file, const uint8_t *bytes, size_t count, uint64_t at) {
    while (count > 0) {
        ssize_t done = pwrite(file, bytes, count, (off_t)at);
        if (done <= 0) return 0;
        bytes += done;
        at += (uint64_t)done;
        count -= (size_t)done;
    }
    return 1;
}

/* Sends a message, once, and hears what comes up to a silence: the echo, and then a reply. 0 where the port fails. */
static int exchange(Machine *machine, const uint8_t *sent, size_t count) {
    uint8_t heard[LH_MOST_HEARD];
    size_t got = machine->echoes ? 0 : count, done = 0;
    ssize_t came = 0;
    tcflush(machine->port, TCIFLUSH);
    if (!machine->echoes) memcpy(heard, sent, count);
    while (done < count && (came = write(machine->port, sent + done, count - done)) > 0) done += (size_t)came;
    while (got < sizeof heard && (came = read(machine->port, heard + got, sizeof heard - got)) > 0) got += (size_t)came;
    return lh_host_heard(&machine->host, heard, got) == LH_OK && done == count && came >= 0;
}

/* Makes a call on the journal. What isn't sure to be kept is lost. */
static uint32_t keep(Machine *machine, const LhAsk *ask, const uint8_t *bytes) {
    int kept = ask->what == LH_SYNC ? fdatasync(machine->journal) == 0 : put_all(machine->journal, bytes, ask->count, ask->at);
    return kept ? lh_host_done(&machine->host) : lh_host_lost(&machine->host);
}

/* Does what the host asks for, at an address, until nothing is left to do there: 1; 0 where the host is over. At address
   1 nothing is sent: there records of sales are put. */
static int serve(Machine *machine, uint8_t address) {
    uint8_t out[LH_MOST_ASKED];
    LhAsk ask;
    int steps;
    for (steps = 0; steps < MOST_STEPS; steps++) {
        if (lh_host_ask(&machine->host, address, &ask, out, sizeof out) != LH_OK) return 0;
        switch (ask.what) {
        case LH_WRITE:
        case LH_SYNC:
            if (keep(machine, &ask, out) != LH_OK) return 0;
            break;
        case LH_TAKE:
            fwrite(out, 1, ask.count, stdout);
            if (fflush(stdout) != 0 || lh_host_taken(&machine->host) != LH_OK) return 0;
            break;
        case LH_SEND:
            if (!exchange(machine, out, ask.count)) return 0;
            break;
        case LH_IDLE:
            return 1;
        default:
            return 0;
        }
    }
    return 1;
}

/* Says what the operator has. */
static int tell_balance(Machine *machine) {
    LhTotals has;
    if (lh_host_totals(&machine->host, &has) != LH_OK) return 0;
    printf("balance %llu %llu %llu %llu\n", (unsigned long long)has.available, (unsigned long long)has.reserved,
           (unsigned long long)has.paid, (unsigned long long)has.sold);
    return fflush(stdout) == 0;
}

/* Does what a line of input says: 1, or 0 where the host is over. */
static int take_line(Machine *machine, const char *line, size_t count) {
    uint32_t code;
    if (count > 3 && strncmp(line, "do ", 3) == 0) return serve(machine, (uint8_t)atoi(line + 3));
    if (strcmp(line, "balance") == 0) return tell_balance(machine);
    code = lh_host_command(&machine->host, (const uint8_t *)line, count);
    if (code == LH_BAD_COMMAND) fprintf(stderr, "refused: %s\n", line);
    return code == LH_BAD_COMMAND || (code == LH_OK && serve(machine, 1));
}

/* Opens all, and starts the host over what the journal has. */
static int begin(Machine *machine, char **words) {
    size_t text_count = 0, part_count = 0;
    uint32_t where = 0, code = LH_BAD_POINTER;
    int setup = open(words[1], O_RDONLY);
    uint8_t *text = whole(setup, &text_count), *part;
    machine->port = open_port(words[2]);
    machine->journal = open(words[3], O_RDWR);
    part = whole(machine->journal, &part_count);
    if (text == NULL || part == NULL || machine->port < 0) {
        fprintf(stderr, "no host: SETUP, PORT or JOURNAL can't be opened\n");
    } else if ((code = lh_host_new(text, text_count, part, part_count, &machine->host, &where)) != LH_OK) {
        fprintf(stderr, "no host: code %lu, at %lu\n", (unsigned long)code, (unsigned long)where);
    }
    free(text);
    free(part);
    close(setup);
    return code == LH_OK;
}

/* Does what all lines of standard input say. */
static int work(Machine *machine) {
    char *line = NULL;
    size_t room = 0;
    ssize_t count;
    int goes_on = serve(machine, 1);
    while (goes_on && (count = getline(&line, &room, stdin)) > 0) {
        if (line[count - 1] == '\n') line[--count] = 0;
        goes_on = take_line(machine, line, (size_t)count);
    }
    free(line);
    return goes_on;
}

int main(int count, char **words) {
    Machine machine;
    int is_done;
    if (count < 4) {
        fprintf(stderr, "controller SETUP PORT JOURNAL [echo]\n");
        return 2;
    }
    machine.echoes = count > 4 && strcmp(words[4], "echo") == 0;
    if (!begin(&machine, words)) return 2;
    is_done = work(&machine);
    lh_host_free(&machine.host);
    return is_done ? 0 : 1;
}
