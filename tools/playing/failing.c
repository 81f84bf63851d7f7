/* Functions that the loader puts before those of the C library: some calls of a program fail.

   Calls on a journal are the reads, writes and syncs of any file but standard input, output and error, counted together. The
   environment tells which fail, each by its number, the first of which is 1:

   FAILING_TAKE  the read of standard input
   FAILING_PUT   the write on standard output
   FAILING_CALL  the call on a journal
   FAILING_PLACE the setting of a place in a journal
   FAILING_OPEN  the opening of a file
   EMPTY         where it is there, such a read or write doesn't fail, but moves no byte
   TORN          by which choice a write on a journal that fails sets the bytes of its range, as a `TornDisk` does
   FAILING_LOCK  how each lock of a file fails
   FAILING_SIZE  where it is there, no open file tells its size
   MADE_FIRST    where it is there, another process makes a file of so many bytes just before it is made
   MOST          the most bytes that a read of standard input gives
   LITTLE        the most bytes that a write moves, or a read of a journal
   CALLS         a file, into which each write on a journal goes, torn or whole: its place, its length, the number of its call, and
                 its bytes. A sync that is done is a write of no byte

   A variable that isn't there is 0: no such call fails, and a write that fails changes nothing. */

typedef long ssize_t;
typedef unsigned long size_t;
typedef unsigned char byte;

extern char *getenv(const char *name);
extern long atol(const char *text);
extern void *dlsym(void *library, const char *name);
extern int ftruncate(int file, long size);
extern ssize_t pread(int file, void *room, size_t size, long place);
extern ssize_t pwrite(int file, const void *bytes, size_t size, long place);
extern int *__errno_location(void);

enum { FAILED = 5, FROM_HERE = 1, MOST_TORN = 65536, MAKING = 01 | 0100, EMPTYING = 01000, ONLY_NEW = 0200, MODE = 0600 };

typedef int opening(const char *, int, ...);
typedef ssize_t reading(int, void *, size_t);
typedef ssize_t writing(int, const void *, size_t);
typedef long placing(int, long, int);
typedef int sizing(int, const char *, int, unsigned, void *);
typedef int locking(int, int);
typedef int syncing(int);

static long takes, puts_made, calls, places, openings;

static void *next(const char *name) { return dlsym((void *)-1, name); }

static long number(const char *name)
{
    const char *text = getenv(name);
    return text ? atol(text) : 0;
}

static int fails_by(int why)
{
    *__errno_location() = why;
    return -1;
}

/* A read or write that fails, or moves no byte. */
static ssize_t fails(void) { return getenv("EMPTY") ? 0 : fails_by(FAILED); }

/* How many bytes a call moves of so many, if a variable says the most. */
static size_t at_most(const char *name, size_t size)
{
    long most = number(name);
    return most && (long)size > most ? (size_t)most : size;
}

int open(const char *path, int how, ...)
{
    opening *real = next("open");
    if (++openings == number("FAILING_OPEN"))
        return fails_by(FAILED);
    if (how & ONLY_NEW && getenv("MADE_FIRST"))
        ftruncate(real(path, MAKING, MODE), number("MADE_FIRST"));
    return real(path, how, MODE);
}

long lseek(int file, long place, int from)
{
    if (file > 2 && ++places == number("FAILING_PLACE"))
        return fails_by(FAILED);
    return ((placing *)next("lseek"))(file, place, from);
}

int statx(int folder, const char *path, int how, unsigned what, void *told)
{
    if (!*path && getenv("FAILING_SIZE"))
        return fails_by(FAILED);
    return ((sizing *)next("statx"))(folder, path, how, what, told);
}

int flock(int file, int how)
{
    if (getenv("FAILING_LOCK"))
        return fails_by((int)number("FAILING_LOCK"));
    return ((locking *)next("flock"))(file, how);
}

/* Where in a file the next byte is written. */
static long place_in(int file) { return ((placing *)next("lseek"))(file, 0, FROM_HERE); }

/* Notes a write of these bytes at a place. */
static void note(long place, long size, const void *bytes)
{
    static int notes = -1;
    const char *path = getenv("CALLS");
    if (!path)
        return;
    if (notes < 0)
        notes = ((opening *)next("open"))(path, MAKING | EMPTYING, MODE);
    long head[3] = {place, size, calls};
    ((writing *)next("write"))(notes, head, sizeof head);
    ((writing *)next("write"))(notes, bytes, size);
}

ssize_t read(int file, void *room, size_t size)
{
    reading *real = next("read");
    if (file == 0)
        return ++takes == number("FAILING_TAKE") ? fails() : real(file, room, at_most("MOST", size));
    return ++calls == number("FAILING_CALL") ? fails() : real(file, room, at_most("LITTLE", size));
}

/* What a torn write leaves in a place: `old` stood there, and `new` was to be written. */
static byte torn(long choice, long place, byte old, byte new)
{
    switch (choice) {
    case 0: return old;
    case 1: return new;
    case 2: return place % 2 ? old : new;
    default: return (byte)(choice + place);
    }
}

/* Sets the bytes of a write that fails by the choice. */
static void tear(int file, const byte *bytes, size_t size)
{
    static byte left[MOST_TORN];
    long place = place_in(file), choice = number("TORN");
    if (!getenv("TORN") || size > MOST_TORN || pread(file, left, size, place) != (ssize_t)size)
        return;
    for (size_t at = 0; at < size; at++)
        left[at] = torn(choice, place + (long)at, left[at], bytes[at]);
    if (pwrite(file, left, size, place) == (ssize_t)size)
        note(place, (long)size, left);
}

ssize_t write(int file, const void *bytes, size_t size)
{
    writing *real = next("write");
    size = at_most("LITTLE", size);
    if (file == 1 && ++puts_made == number("FAILING_PUT"))
        return fails();
    if (file <= 2)
        return real(file, bytes, size);
    if (++calls == number("FAILING_CALL")) {
        tear(file, bytes, size);
        return fails();
    }
    long place = place_in(file);
    ssize_t done = real(file, bytes, size);
    if (done > 0)
        note(place, done, bytes);
    return done;
}

static int sync_by(const char *name, int file)
{
    if (++calls == number("FAILING_CALL"))
        return fails_by(FAILED);
    int done = ((syncing *)next(name))(file);
    if (done == 0)
        note(0, 0, "");
    return done;
}

int fsync(int file) { return sync_by("fsync", file); }

int fdatasync(int file) { return sync_by("fdatasync", file); }
