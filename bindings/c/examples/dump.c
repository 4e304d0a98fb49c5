/* Dumps a file that holds one CBOR item: its bytes in hex, a line for each head, with comments. */
#include <stdio.h>
#include <stdlib.h>

#include "cbor_diag.h"

/* Reads all bytes of a stream into memory that the caller frees. Null if that fails. */
static unsigned char *read_all(FILE *stream, size_t *length)
{
    size_t room = 4096;
    unsigned char *bytes = malloc(room);
    *length = 0;
    while (bytes) {
        *length += fread(bytes + *length, 1, room - *length, stream);
        if (*length < room) {
            break;
        }
        room *= 2;
        unsigned char *more = realloc(bytes, room);
        if (!more) {
            free(bytes);
        }
        bytes = more;
    }
    if (bytes && ferror(stream)) {
        free(bytes);
        return NULL;
    }
    return bytes;
}

/* Prints the dump of an item. Returns what cbor_diag_convert does. */
static int64_t print_dump(const unsigned char *item, size_t item_len)
{
    /* Most dumps are shorter than this. If one is not, the first call has told its length. */
    size_t room = 16 * item_len + 256;
    char *dump = malloc(room);
    if (!dump) {
        return -CBOR_DIAG_ERROR_MEMORY;
    }
    int64_t length = cbor_diag_convert(CBOR_DIAG_FORM_BYTES, CBOR_DIAG_FORM_HEX, item, item_len, dump, room);
    if (length > 0 && (size_t)length > room) {
        free(dump);
        room = (size_t)length;
        dump = malloc(room);
        if (!dump) {
            return -CBOR_DIAG_ERROR_MEMORY;
        }
        length = cbor_diag_convert(CBOR_DIAG_FORM_BYTES, CBOR_DIAG_FORM_HEX, item, item_len, dump, room);
    }
    if (length > 0) {
        fwrite(dump, 1, (size_t)length, stdout);
    }
    free(dump);
    return length;
}

int main(int argc, char **argv)
{
    if (argc != 2) {
        fprintf(stderr, "usage: %s FILE\n", argv[0]);
        return 2;
    }
    FILE *stream = fopen(argv[1], "rb");
    if (!stream) {
        perror(argv[1]);
        return 1;
    }
    size_t length;
    unsigned char *item = read_all(stream, &length);
    fclose(stream);
    if (!item) {
        fprintf(stderr, "%s: cannot be read\n", argv[1]);
        return 1;
    }
    int64_t answer = print_dump(item, length);
    free(item);
    if (answer < 0) {
        char text[CBOR_DIAG_ERROR_TEXT_SIZE];
        fprintf(stderr, "%s: %s\n", argv[1], cbor_diag_strerror(answer, text, sizeof text));
        return 1;
    }
    return fflush(stdout) == 0 ? 0 : 1;
}
