/*
 * The kit's heap, for machines that the kit has no C side for: what proved code calls for memory.
 *
 * Nothing proves C. Each function says which declaration of the kit's sources it meets; machines/kit.sha256 has the
 * sums of these sources, and machines/arm64 stops if they changed. machines/kit_test.c compares these functions with
 * the kit's own on x86-64.
 */
#include <stdbool.h>
#include <stddef.h>
#include <stdlib.h>

/* `Tried` of libc/src/types.rt: whether there was memory, and where. */
struct tried {
    bool ok;
    void *p;
};

/* What a failed call points to: a pointer is never null, and nobody reads there. */
static char nothing[16];

/* The memory at a pointer that malloc or realloc returned. */
static struct tried tried_of(void *p)
{
    return (struct tried){ .ok = p != NULL, .p = p != NULL ? p : nothing };
}

/*
 * `rattle_alloc` of libc/src/heap.rt: memory for a value of this size and alignment, which divides 16. That is the
 * alignment of malloc on all 64-bit machines. A value without bytes has a place of its own, too.
 */
struct tried rattle_alloc(size_t size, size_t alignment)
{
    return tried_of(malloc(size != 0 ? size : alignment));
}

/*
 * `rattle_realloc` of libc/src/heap.rt: makes a block one of this size. Its first `kept` bytes are as they were. If it
 * fails, the block is as it was.
 */
struct tried rattle_realloc(void *p, size_t kept, size_t size, size_t alignment)
{
    (void)kept;
    return tried_of(realloc(p, size != 0 ? size : alignment));
}

/* `rattle_dealloc` of libc/src/heap.rt: frees what either of the two returned. */
void rattle_dealloc(void *p)
{
    free(p);
}
