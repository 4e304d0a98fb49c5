/*
 * Reports by its exit status how the bytes of standard input begin: 0 for a CBOR item, 1 if they end before the item
 * does, 2 for an error, and 3 if they cannot be read or kept. It prints nothing. From the top, after `make`:
 *
 *     cc -O2 -I dist/include checks/benches/extent.c dist/lib/libcbor_diag.a -o dist/extent
 *     checks/benches/bench.py dist/extent OTHER --status
 */
#include <stdio.h>
#include <stdlib.h>
#include <unistd.h>

#include <cbor_diag.h>

/* Reads standard input to its end. Ends the program if that fails. */
static unsigned char *read_all(size_t *length)
{
    size_t room = 1 << 16, used = 0;
    unsigned char *bytes = malloc(room);
    for (;;) {
        if (used == room && bytes) {
            unsigned char *more = realloc(bytes, room *= 2);
            if (!more) {
                free(bytes);
            }
            bytes = more;
        }
        ssize_t count = bytes ? read(STDIN_FILENO, bytes + used, room - used) : -1;
        if (count < 0) {
            free(bytes);
            exit(3);
        }
        if (count == 0) {
            *length = used;
            return bytes;
        }
        used += (size_t)count;
    }
}

int main(void)
{
    size_t length;
    unsigned char *bytes = read_all(&length);
    int64_t found = cbor_diag_extent(bytes, length, NULL);
    free(bytes);
    if (found >= 0) {
        return 0;
    }
    return found == -CBOR_DIAG_ERROR_CUT_SHORT ? 1 : 2;
}
