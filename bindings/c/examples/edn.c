#include <stdio.h>
#include <string.h>

#include <cbor_diag.h>

int main(void)
{
    char line[256], words[CBOR_DIAG_FAULT_TEXT_SIZE];
    unsigned char bytes[256];
    while (fgets(line, sizeof line, stdin)) {
        int64_t length = cbor_diag_convert(CBOR_DIAG_FORM_EDN, CBOR_DIAG_FORM_BYTES,
                                           line, strlen(line), bytes, sizeof bytes);
        if (length < 0) {
            size_t place;
            cbor_diag_fault(CBOR_DIAG_FORM_EDN, line, strlen(line), &place);
            length = cbor_diag_fault_text(CBOR_DIAG_FORM_EDN, line, strlen(line), words, sizeof words);
            printf("byte %zu: %.*s\n", place, (int)length, words);
            continue;
        }
        for (int64_t i = 0; i < length && i < (int64_t)sizeof bytes; i++) {
            printf("%02x", bytes[i]);
        }
        putchar('\n');
    }
    return 0;
}
