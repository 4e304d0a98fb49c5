#include <stdio.h>

#include <cbor_diag.h>

int main(void)
{
    struct cbor_diag_scanner scanner;
    unsigned char piece[4];
    size_t count, fed = 0;
    cbor_diag_scanner_init(&scanner);
    while ((count = fread(piece, 1, sizeof piece, stdin)) > 0) {
        for (size_t at = 0; at < count;) {
            size_t end;
            int64_t length = cbor_diag_scanner_feed(&scanner, piece + at, count - at, &end);
            if (length == -CBOR_DIAG_ERROR_CUT_SHORT) {
                fed += count - at; /* more bytes are needed */
                break;
            }
            if (length < 0) {
                char text[CBOR_DIAG_ERROR_TEXT_SIZE];
                printf("byte %zu of an item: %s\n", end - 1, cbor_diag_strerror(length, text, sizeof text));
                return 1;
            }
            printf("an item of %lld bytes\n", (long long)length);
            at += (size_t)length - fed;
            fed = 0;
            cbor_diag_scanner_init(&scanner); /* the next item */
        }
    }
    return fed > 0;
}
