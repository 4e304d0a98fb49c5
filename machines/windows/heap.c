/*
 * The kit's heap on Windows: what proved code calls for memory.
 *
 * Nothing proves C. The functions meet the declarations of the kit's libc/src/heap.rt, whose sum machines/kit.sha256
 * has. An answer of two words is returned through a pointer on Windows: machines/module.py puts rattle_alloc and
 * rattle_realloc into the module, which call system_alloc and system_realloc here.
 */
#include <stdint.h>
#include <stdlib.h>

/* `Tried` of libc/src/types.rt: whether there was memory, and where. Of `ok` only the first byte counts. */
struct tried {
    uint64_t ok;
    void *p;
};

/* What a failed call points to: a pointer is never null, and nobody reads there. */
static char nothing[16];

void system_alloc(struct tried *answer, uint64_t size, uint64_t alignment);
void system_realloc(struct tried *answer, void *p, uint64_t kept, uint64_t size, uint64_t alignment);
void rattle_dealloc(void *p);

/* The memory at a pointer that malloc or realloc returned. */
static struct tried tried_of(void *p)
{
    return (struct tried){ .ok = p != NULL, .p = p != NULL ? p : nothing };
}

/*
 * `rattle_alloc` of libc/src/heap.rt: memory for a value of this size and alignment, which divides 16. That is the
 * alignment of malloc on Windows with 64 bits. A value without bytes has a place of its own, too.
 */
void system_alloc(struct tried *answer, uint64_t size, uint64_t alignment)
{
    *answer = tried_of(malloc(size != 0 ? size : alignment));
}

/*
 * `rattle_realloc` of libc/src/heap.rt: makes a block one of this size. Its first `kept` bytes are as they were. If it
 * fails, the block is as it was.
 */
void system_realloc(struct tried *answer, void *p, uint64_t kept, uint64_t size, uint64_t alignment)
{
    (void)kept;
    *answer = tried_of(realloc(p, size != 0 ? size : alignment));
}

/* `rattle_dealloc` of libc/src/heap.rt: frees what either of the two returned. */
void rattle_dealloc(void *p)
{
    free(p);
}
