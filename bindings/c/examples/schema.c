#include <stdio.h>

#include <cbor_diag.h>

int main(void)
{
    static const char cddl[] = "record = {\n  at: time,\n  event: \"open\" / \"close\",\n}\n";
    /* {"at": 1(0), "event": "opened"} */
    static const char item[] = "\xa2\x62" "at\xc1\x00\x65" "event\x66" "opened";
    char message[256];
    struct cbor_diag_misfit misfit;
    struct cbor_diag_schema *schema = cbor_diag_schema_new(cddl, sizeof cddl - 1, NULL, message, sizeof message);
    if (!schema) {
        printf("%s\n", message);
        return 2;
    }
    int64_t length = cbor_diag_schema_check(schema, item, sizeof item - 1, &misfit, message, sizeof message);
    if (length > 0) {
        int room = (int)sizeof message, rule = (int)(misfit.rule_end - misfit.rule);
        printf("byte %zu: %.*s\n", misfit.place, length < room ? (int)length : room, message);
        printf("line %zu of the CDDL: %.*s\n", misfit.line, rule, message + misfit.rule);
    }
    cbor_diag_schema_free(schema);
    return length != 0;
}
