#include <stdio.h>

#include <cbor_diag.h>

/* Prints the heads of an item, each below what it is in, and returns where the item ends. */
static size_t heads(const unsigned char *bytes, size_t length, size_t at, int depth)
{
    static const char *const kinds[] = {"unsigned", "negative", "bytes", "text", "array",
                                        "map",      "tag",      "simple", "float", "break"};
    struct cbor_diag_head head;
    int64_t taken = cbor_diag_head(bytes + at, length - at, &head);
    if (taken < 0) {
        return length;
    }
    printf("%*s%s %llu\n", 2 * depth, "", kinds[head.kind], (unsigned long long)head.argument);
    at += (size_t)taken;
    if (head.kind == CBOR_DIAG_KIND_BYTES || head.kind == CBOR_DIAG_KIND_TEXT) {
        return at + head.argument;
    }
    uint64_t count = head.kind == CBOR_DIAG_KIND_TAG ? 1 : head.kind == CBOR_DIAG_KIND_ARRAY ? head.argument
                     : head.kind == CBOR_DIAG_KIND_MAP ? 2 * head.argument : 0;
    for (uint64_t i = 0; i < count && at < length; i++) {
        at = heads(bytes, length, at, depth + 1);
    }
    return at;
}

int main(void)
{
    heads((const unsigned char *)"\x82\x01\xa1\x61k\xf9\x3e\x00", 8, 0, 0);
    return 0;
}
