/*
 * Fenced copies: bytes between two pages that cannot be touched, so that a call that reads or writes one byte too far is ended at once.
 *
 * A copy either begins where its first page begins, the fence directly before it, or ends where its last page ends, the fence directly
 * behind it. What the pages hold besides the copy is painted, and must be paint afterwards.
 */
#ifndef FENCE_H
#define FENCE_H

#include <stdint.h>
#include <stdlib.h>
#include <string.h>
#include <sys/mman.h>

enum { PAGE = 4096, PAINT = 0xA5 };

/* Where the copy stands in its pages. */
enum place { AT_START, AT_END, PLACES };

struct fenced {
    uint8_t *at;
    size_t len;
    uint8_t *inside;
    size_t size;
};

/* Pages to read and write, as many as `size` bytes take, between two fences of `fence` bytes. */
static inline uint8_t *fenced_pages(size_t size, size_t fence)
{
    uint8_t *all = mmap(NULL, size + 2 * fence, PROT_NONE, MAP_PRIVATE | MAP_ANONYMOUS, -1, 0);
    if (all == MAP_FAILED || (size > 0 && mprotect(all + fence, size, PROT_READ | PROT_WRITE) != 0)) {
        abort();
    }
    return all + fence;
}

/* A fenced copy of so many bytes. A copy of none is a pointer to a fence. */
static inline struct fenced fence(const void *bytes, size_t len, enum place place)
{
    struct fenced copy;
    copy.len = len;
    copy.size = (len / PAGE + (len % PAGE > 0)) * PAGE;
    copy.inside = fenced_pages(copy.size, PAGE);
    copy.at = copy.inside + (place == AT_START ? 0 : copy.size - len);
    if (len > 0) {
        memset(copy.inside, PAINT, copy.size);
        memcpy(copy.at, bytes, len);
    }
    return copy;
}

/* The same, and nothing may be written to it. */
static inline struct fenced fence_to_read(const void *bytes, size_t len, enum place place)
{
    struct fenced copy = fence(bytes, len, place);
    if (copy.size > 0 && mprotect(copy.inside, copy.size, PROT_READ) != 0) {
        abort();
    }
    return copy;
}

/* Takes the fences down; whether what stands around the copy is still paint. */
static inline int unfence(struct fenced copy)
{
    int clean = 1;
    for (size_t i = 0; i < copy.size; i++) {
        const uint8_t *byte = copy.inside + i;
        clean = clean && ((byte >= copy.at && byte < copy.at + copy.len) || *byte == PAINT);
    }
    munmap(copy.inside - PAGE, copy.size + 2 * (size_t)PAGE);
    return clean;
}

#endif
