/*
 * Runs the rows of the vectors whose call is one of the library's: the files of crates/vectors/data, in the form that
 * docs/VECTORS.md has.
 *
 *     vectors FILE..
 *
 * Prints each row whose result differs, and how many rows it ran. The exit status is 1 if a row differs, if a file
 * cannot be read, or if there was no row.
 */
#include <stdio.h>
#include <stdlib.h>
#include <string.h>

#include "cbor_diag.h"

#define ROOM (1 << 20)

static const struct {
    const char *call;
    uint32_t from, to;
} conversions[] = {
    {"bytes_to_diag", CBOR_DIAG_FORM_BYTES, CBOR_DIAG_FORM_DIAG},
    {"bytes_to_diag_pretty", CBOR_DIAG_FORM_BYTES, CBOR_DIAG_FORM_PRETTY},
    {"bytes_to_hex", CBOR_DIAG_FORM_BYTES, CBOR_DIAG_FORM_HEX},
    {"bytes_to_edn", CBOR_DIAG_FORM_BYTES, CBOR_DIAG_FORM_EDN},
    {"bytes_to_edn_pretty", CBOR_DIAG_FORM_BYTES, CBOR_DIAG_FORM_EDN_PRETTY},
    {"diag_to_bytes", CBOR_DIAG_FORM_DIAG, CBOR_DIAG_FORM_BYTES},
    {"diag_to_hex", CBOR_DIAG_FORM_DIAG, CBOR_DIAG_FORM_HEX},
    {"hex_to_bytes", CBOR_DIAG_FORM_HEX, CBOR_DIAG_FORM_BYTES},
    {"hex_to_diag", CBOR_DIAG_FORM_HEX, CBOR_DIAG_FORM_DIAG},
    {"hex_to_diag_pretty", CBOR_DIAG_FORM_HEX, CBOR_DIAG_FORM_PRETTY},
};

/* The names of the errors, by their numbers from 1 on. */
static const char *const errors[] = {"Memory",    "CutShort", "Head",   "Utf8",     "TooDeep",
                                     "Remaining", "OddHex",   "BadHex", "Notation", "PastWidth"};

static const char *const sets[] = {"rfc8949", "valid", "preferred", "core", "length-first", "ctap2", "dcbor"};

/* A text or bytes that grow. A zero byte stands behind them. */
struct text {
    char bytes[ROOM + 1];
    size_t length;
    int has_line;
};

static struct text head, input, wanted, found;
static long rows, wrong;

static void append(struct text *text, const char *bytes, size_t length)
{
    if (length > ROOM - text->length) {
        fprintf(stderr, "vectors: a row is too long\n");
        exit(1);
    }
    memcpy(text->bytes + text->length, bytes, length);
    text->length += length;
    text->bytes[text->length] = 0;
}

static void clear(struct text *text)
{
    text->length = 0;
    text->has_line = 0;
    text->bytes[0] = 0;
}

static void append_line(struct text *text, const char *line)
{
    if (text->has_line)
        append(text, "\n", 1);
    append(text, line, strlen(line));
    text->has_line = 1;
}

/* Appends the bytes of hex digits, between which there may be blanks. */
static void append_bytes(struct text *text, const char *digits)
{
    for (; *digits; digits++) {
        unsigned value;
        if (*digits == ' ' || *digits == '\n')
            continue;
        if (sscanf(digits, "%2x", &value) != 1 || !digits[1]) {
            fprintf(stderr, "vectors: no hex: %s\n", digits);
            exit(1);
        }
        char byte = (char)value;
        append(text, &byte, 1);
        digits++;
    }
    text->has_line = 1;
}

static void append_hex(struct text *text, const uint8_t *bytes, size_t length)
{
    for (size_t at = 0; at < length; at++) {
        char digits[3];
        snprintf(digits, sizeof digits, "%02x", bytes[at]);
        append(text, digits, 2);
    }
}

static const char *error_name(int64_t answer)
{
    size_t number = (size_t)-answer;
    return number <= sizeof errors / sizeof *errors ? errors[number - 1] : "an error that no row has";
}

/* What a conversion gives, as the rows write it: bytes in hex, a text without the line feed at its end. */
static void convert(uint32_t from, uint32_t to, const uint8_t *bytes, size_t length)
{
    static uint8_t output[ROOM];
    int64_t answer = cbor_diag_convert(from, to, bytes, length, output, sizeof output);
    if (answer < 0)
        append_line(&found, error_name(answer));
    else if (answer > ROOM)
        append_line(&found, "too long");
    else if (to == CBOR_DIAG_FORM_BYTES)
        append_hex(&found, output, (size_t)answer);
    else
        append(&found, (const char *)output, (size_t)answer - 1);
}

static void extent(const uint8_t *bytes, size_t length)
{
    char text[64];
    size_t end;
    int64_t answer = cbor_diag_extent(bytes, length, &end);
    if (answer > 0)
        snprintf(text, sizeof text, "item %lld", (long long)answer);
    else if (answer == -CBOR_DIAG_ERROR_CUT_SHORT)
        snprintf(text, sizeof text, "truncated");
    else
        snprintf(text, sizeof text, "malformed %s %zu", error_name(answer), end);
    append_line(&found, text);
}

/* The new encoding in hex; of an input that has none, what the row says. */
static void reencode(uint32_t rules, const uint8_t *bytes, size_t length)
{
    static uint8_t output[ROOM];
    int64_t answer = cbor_diag_reencode(rules, bytes, length, output, sizeof output);
    if (answer >= 0)
        append_hex(&found, output, (size_t)answer);
    else if (answer == -CBOR_DIAG_ERROR_NOT_ENCODABLE && strchr(wanted.bytes, ' '))
        append_line(&found, wanted.bytes);
}

/* The place of a violation and the rest of what the row says; or that there is none. */
static void violation(uint32_t rules, const uint8_t *bytes, size_t length)
{
    char text[64];
    size_t place, detail;
    int64_t answer = cbor_diag_violation(rules, bytes, length, &place, &detail);
    snprintf(text, sizeof text, answer > 0 ? "%zu" : "kept", place);
    append_line(&found, text);
    const char *rest = strchr(wanted.bytes, ' ');
    if (answer > 0 && rest)
        append(&found, rest, strlen(rest));
}

/* Appends a part of a message: `(line 4)` is `(:4)` in the rows. */
static void append_message(const char *part, size_t length)
{
    static const char line[] = "(line ";
    size_t at = 0, begin = 0;
    for (; at < length; at++) {
        if (length - at >= sizeof line - 1 && !memcmp(part + at, line, sizeof line - 1)) {
            append(&found, part + begin, at - begin);
            append(&found, "(:", 2);
            begin = at + sizeof line - 1;
        }
    }
    append(&found, part + begin, length - begin);
}

/* What is wrong with a text of CDDL: the line, the column and the message. */
static void schema_fault(const char *cddl, size_t length, const char *rule)
{
    char message[1024], text[64];
    size_t line, column;
    int64_t said = cbor_diag_schema_fault(cddl, length, rule, strlen(rule), &line, &column, message, sizeof message);
    const char *words = line ? strstr(message, ": ") + 2 : message;
    if (said == 0) {
        append_line(&found, "none");
        return;
    }
    snprintf(text, sizeof text, "%zu:%zu ", line ? line : 1, column ? column : 1);
    append_line(&found, text);
    append(&found, words, (size_t)(message + said - words));
}

/* The bytes of an item: EDN, or `hex` and digits. */
static size_t item_bytes(const char *line, size_t length, uint8_t *bytes)
{
    uint32_t from = length > 4 && !memcmp(line, "hex ", 4) ? CBOR_DIAG_FORM_HEX : CBOR_DIAG_FORM_EDN;
    size_t before = from == CBOR_DIAG_FORM_HEX ? 4 : 0;
    int64_t answer = cbor_diag_convert(from, CBOR_DIAG_FORM_BYTES, line + before, length - before, bytes, ROOM);
    return answer > 0 ? (size_t)answer : 0;
}

/* What is said of an item by a schema: where it does not fit, and with `words` the message. */
static void check_item(const struct cbor_diag_schema *schema, const char *line, size_t length, int words)
{
    static uint8_t bytes[ROOM];
    char message[1024], text[64];
    struct cbor_diag_misfit misfit;
    size_t item = item_bytes(line, length, bytes);
    int64_t said = cbor_diag_schema_check(schema, bytes, item, &misfit, message, sizeof message);
    if (said == 0) {
        append_line(&found, "fits");
        return;
    }
    if (said < 0 || said > (int64_t)sizeof message) {
        append_line(&found, said < 0 ? error_name(said) : "too long");
        return;
    }
    snprintf(text, sizeof text, words ? "%zu " : "misfit %zu", misfit.place);
    append_line(&found, text);
    if (words) {
        append_message(message, misfit.found_end);
        if (misfit.found_end + 2 < (size_t)said) {
            append(&found, "\n", 1);
            append_message(message + misfit.found_end + 2, (size_t)said - misfit.found_end - 2);
        }
    }
}

/* The row of a text of CDDL, an empty line, and items, a line each. */
static void check_items(const char *rule, int words)
{
    char message[1024];
    const char *line = input.bytes;
    for (const char *empty = line; (empty = strstr(empty, "\n\n")); empty++)
        line = empty;
    struct cbor_diag_schema *schema =
        cbor_diag_schema_new(input.bytes, (size_t)(line - input.bytes), *rule ? rule : NULL, message, sizeof message);
    if (!schema) {
        schema_fault(input.bytes, (size_t)(line - input.bytes), rule);
        return;
    }
    for (line += 2; *line;) {
        size_t length = strcspn(line, "\n");
        check_item(schema, line, length, words);
        line += length + (line[length] == '\n');
    }
    cbor_diag_schema_free(schema);
}

/* Makes the call of a row of CDDL; returns whether it is one. */
static int called_cddl(const char *call, const char *rule)
{
    if (!strcmp(call, "cddl_fault"))
        schema_fault(input.bytes, input.length, rule);
    else if (!strcmp(call, "cddl_fits"))
        check_items(rule, 0);
    else if (!strcmp(call, "cddl_message"))
        check_items(rule, 1);
    else
        return 0;
    return 1;
}

/* Makes the call of the row; returns whether it is one of the library's. */
static int called(const char *call, const char *argument)
{
    static struct text bytes;
    if (called_cddl(call, argument))
        return 1;
    clear(&bytes);
    int takes_bytes = !strncmp(call, "bytes_", 6) || !strcmp(call, "extent") || !strcmp(call, "violation_of") ||
                      !strcmp(call, "reencode");
    if (takes_bytes)
        append_bytes(&bytes, input.bytes);
    else
        append(&bytes, input.bytes, input.length);
    const uint8_t *given = (const uint8_t *)bytes.bytes;
    for (size_t i = 0; i < sizeof conversions / sizeof *conversions; i++) {
        if (!strcmp(call, conversions[i].call) && !*argument) {
            convert(conversions[i].from, conversions[i].to, given, bytes.length);
            return 1;
        }
    }
    if (!strcmp(call, "extent")) {
        extent(given, bytes.length);
        return 1;
    }
    for (uint32_t set = 0; set < sizeof sets / sizeof *sets; set++) {
        if (strcmp(argument, sets[set]))
            continue;
        if (!strcmp(call, "violation_of"))
            violation(set, given, bytes.length);
        else if (!strcmp(call, "reencode"))
            reencode(set, given, bytes.length);
        else
            return 0;
        return 1;
    }
    return 0;
}

/* Runs the row that was read. */
static void run_row(const char *file)
{
    if (!head.length)
        return;
    char *argument = strchr(head.bytes, ' ');
    if (argument)
        *argument++ = 0;
    clear(&found);
    if (called(head.bytes, argument ? argument : "")) {
        rows++;
        if (found.length != wanted.length || memcmp(found.bytes, wanted.bytes, found.length)) {
            wrong++;
            printf("%s: %s %s  %s\nis\n%s\n", file, head.bytes, argument ? argument : "", input.bytes, found.bytes);
        }
    }
    clear(&head);
}

static void begin_row(const char *line)
{
    const char *blanks = strstr(line, "  ");
    clear(&head);
    clear(&input);
    clear(&wanted);
    append(&head, line, blanks ? (size_t)(blanks - line) : strlen(line));
    if (blanks)
        append_line(&input, blanks + 2);
}

static void take_line(const char *file, const char *line)
{
    const char *rest = line[0] && line[1] == ' ' ? line + 2 : line + 1;
    if (*line >= 'a' && *line <= 'z') {
        run_row(file);
        begin_row(line);
    } else if (*line == '|') {
        append_line(&input, rest);
    } else if (*line == '=') {
        append_line(&wanted, rest);
    } else if (*line == '$') {
        append_bytes(&input, rest);
    } else if (*line == '%') {
        append_bytes(&wanted, rest);
    }
}

static void run_file(const char *name)
{
    static char line[ROOM];
    FILE *file = fopen(name, "rb");
    if (!file) {
        perror(name);
        exit(1);
    }
    while (fgets(line, sizeof line, file)) {
        line[strcspn(line, "\n")] = 0;
        take_line(name, line);
    }
    run_row(name);
    fclose(file);
}

int main(int count, char **arguments)
{
    for (int i = 1; i < count; i++)
        run_file(arguments[i]);
    printf("%ld rows, %ld of them wrong\n", rows, wrong);
    return wrong || !rows;
}
