#include <stdio.h>
#include <string.h>

#include <cbor_diag.h>

int main(void)
{
    /* {"at": 1(1700000000), "loc": [52.5, 13.25]} */
    static const char item[] = "\xa2\x62" "at\xc1\x1a\x65\x53\xf1\x00\x63" "loc\x82\xf9\x52\x90\xf9\x4a\xa0";
    size_t length = sizeof item - 1;
    struct cbor_diag_value value;
    struct cbor_diag_part parts[4];
    char lines[128];
    if (cbor_diag_value(item, length, "at", 2, &value) == 0 && value.kind == CBOR_DIAG_KIND_UNSIGNED) {
        printf("at %llu, tag %llu\n", (unsigned long long)value.argument, (unsigned long long)value.tag);
    }
    int64_t count = cbor_diag_parts(item, length, "*", 1, parts, 4);
    for (int64_t i = 0; i < count && i < 4; i++) {
        printf("a key at %zu, its value at %zu to %zu\n", parts[i].key, parts[i].start, parts[i].end);
    }
    int64_t written = cbor_diag_paths(item, length, lines, sizeof lines);
    printf("%.*s", (int)written, lines);
    return 0;
}
