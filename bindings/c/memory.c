/* The memory of cores and hosts, over malloc. A board without one has its own two functions in place of these. */
#include "litchihull.h"

#include <stdlib.h>

LhTried rattle_alloc(size_t size, size_t align) {
    static uint8_t nothing;
    LhTried tried;
    void *at = malloc(size > 0 ? size : align);
    tried.ok = at != NULL;
    tried.at = at != NULL ? at : &nothing;
    return tried;
}

void rattle_dealloc(void *at) {
    free(at);
}
