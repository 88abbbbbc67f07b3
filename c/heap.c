/* The heap of the library where the toolchain has no object of it: what the proved code calls, over malloc, realloc and free.
 *
 * Each asks for so many bytes at an alignment that divides 16, or for a place of no byte. Where a block can't be had `found` is
 * false; the place is then one that nobody reads or writes, since the proved code wants one that isn't null. */
#include <stdbool.h>
#include <stddef.h>
#include <stdint.h>
#include <stdlib.h>

typedef struct {
    bool found;
    void *place;
} tried;

static uint8_t nowhere;

static tried tell(void *place) { return (tried){place != NULL, place ? place : &nowhere}; }

/* A block has at least as many bytes as its alignment, so that one of no byte has a place of its own. */
tried rattle_alloc(size_t bytes, size_t alignment) { return tell(malloc(bytes ? bytes : alignment)); }

/* Where it fails the old block is as it was. */
tried rattle_realloc(void *old, size_t kept, size_t bytes, size_t alignment) {
    (void)kept;
    return tell(realloc(old, bytes ? bytes : alignment));
}

void rattle_dealloc(void *place) { free(place); }
