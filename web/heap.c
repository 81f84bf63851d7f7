/* What the bench's module wants of a C library on wasm64: memory, which is never given back, since each call has a new instance;
   copies of bytes; and arithmetic of 128 bits. No proof covers this file. */
typedef unsigned long word;
typedef unsigned char byte;
typedef unsigned __int128 wide;

struct Tried {
  _Bool is_there;
  byte *at;
};

enum { PAGE = 65536, LEAST_PAGES = 64 };

/* The memory that was taken of the engine and isn't used yet. */
static word from, end;
static byte nothing;

static byte *take(word count) {
  word at = (from + 15) & ~15ul;
  if (end == 0 || at + count > end) {
    word pages = (count + 16 + PAGE - 1) / PAGE;
    if (pages < LEAST_PAGES)
      pages = LEAST_PAGES;
    word had = __builtin_wasm_memory_grow(0, pages);
    if (had == (word)-1)
      return 0;
    if (had * PAGE != end)
      from = had * PAGE;
    end = (had + pages) * PAGE;
    at = (from + 15) & ~15ul;
  }
  from = at + count;
  return (byte *)at;
}

struct Tried rattle_alloc(word count, word align) {
  (void)align;
  byte *at = take(count);
  struct Tried tried = {at != 0, at ? at : &nothing};
  return tried;
}

struct Tried rattle_realloc(byte *old, word kept, word count, word align) {
  struct Tried tried = rattle_alloc(count, align);
  if (tried.is_there)
    __builtin_memcpy(tried.at, old, kept < count ? kept : count);
  return tried;
}

void rattle_dealloc(byte *old) { (void)old; }

void *memcpy(void *to, const void *of, word count) {
  __builtin_memcpy(to, of, count);
  return to;
}

void *memmove(void *to, const void *of, word count) {
  __builtin_memmove(to, of, count);
  return to;
}

void *memset(void *to, int value, word count) {
  __builtin_memset(to, value, count);
  return to;
}

int memcmp(const void *one, const void *other, word count) {
  const byte *a = one, *b = other;
  for (word i = 0; i < count; i++)
    if (a[i] != b[i])
      return a[i] - b[i];
  return 0;
}

static wide made(word low, word high) { return ((wide)high << 64) | low; }

wide __multi3(wide a, wide b) {
  word a_low = (word)a, a_high = (word)(a >> 64), b_low = (word)b, b_high = (word)(b >> 64);
  word a0 = a_low & 0xffffffff, a1 = a_low >> 32, b0 = b_low & 0xffffffff, b1 = b_low >> 32;
  word low = a0 * b0, mid = a1 * b0 + (low >> 32), more = a0 * b1 + (mid & 0xffffffff);
  return made((low & 0xffffffff) | (more << 32),
              a1 * b1 + (mid >> 32) + (more >> 32) + a_low * b_high + a_high * b_low);
}

wide __lshrti3(wide a, int by) {
  word low = (word)a, high = (word)(a >> 64);
  if (by & 64)
    return made(high >> (by & 63), 0);
  return by ? made((low >> by) | (high << (64 - by)), high >> by) : a;
}

wide __ashlti3(wide a, int by) {
  word low = (word)a, high = (word)(a >> 64);
  if (by & 64)
    return made(0, low << (by & 63));
  return by ? made(low << by, (high << by) | (low >> (64 - by))) : a;
}
