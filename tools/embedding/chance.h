/* What programs that make random calls share. */
#ifndef LITCHIHULL_CHANCE_H
#define LITCHIHULL_CHANCE_H

#include "litchihull.h"

#include <stdio.h>
#include <stdlib.h>
#include <sys/mman.h>

enum { PAGE = 4096 };

static uint64_t state;
static unsigned long faults;

/* Begins with a seed. */
static void sow(const char *seed) {
    state = strtoull(seed, NULL, 10) * 2654435761u + 88172645463325252u;
}

static uint32_t draw(uint32_t below) {
    state ^= state << 13;
    state ^= state >> 7;
    state ^= state << 17;
    return (uint32_t)(state >> 32) % below;
}

#define WANT(what) ((what) ? (void)0 : (void)(faults++, printf("FAILED: line %d: %s\n", __LINE__, #what)))

/* A page before one that may not be touched. */
static uint8_t *fence(void) {
    uint8_t *pages = (uint8_t *)mmap(NULL, 2 * PAGE, PROT_READ | PROT_WRITE, MAP_PRIVATE | MAP_ANONYMOUS, -1, 0);
    if (pages == MAP_FAILED || mprotect(pages + PAGE, PAGE, PROT_NONE) != 0) exit(2);
    return pages;
}

static void want_code(uint32_t code) {
    WANT(code <= LH_NOT_NOW);
}

#endif
