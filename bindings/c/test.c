/*
 * Tests of the library for C. Expected values are worked out by hand from RFC 7049 and the documents in docs/.
 *
 *     test [COUNT]      COUNT is how many integers the large array has, 65536 to 16777215; 500000 if left out
 *
 * Links with -Wl,--wrap=malloc,--wrap=realloc,--wrap=free, so that each allocation can be made to fail. With -DSHARED it
 * tests a shared library, whose allocations cannot be.
 */
#include <math.h>
#include <pthread.h>
#include <stdarg.h>
#include <stddef.h>
#include <stdio.h>
#include <stdlib.h>
#include <string.h>

#include "cbor_diag.h"

#define BYTES CBOR_DIAG_FORM_BYTES
#define HEX CBOR_DIAG_FORM_HEX
#define DIAG CBOR_DIAG_FORM_DIAG
#define PRETTY CBOR_DIAG_FORM_PRETTY
#define EDN CBOR_DIAG_FORM_EDN
#define EDN_PRETTY CBOR_DIAG_FORM_EDN_PRETTY
#define FORMS 6 /* those that keep all of an item */
#define JSON CBOR_DIAG_FORM_JSON
#define JSON_STRICT CBOR_DIAG_FORM_JSON_STRICT
#define HTML CBOR_DIAG_FORM_HTML
#define UNTOUCHED 0xa5

/* ---- reports */

static pthread_mutex_t reporting = PTHREAD_MUTEX_INITIALIZER;
static long checks, failures;

/* One check. If it fails, the words say on what input, what was expected and what came. */
static void check(int holds, const char *words, ...)
{
    pthread_mutex_lock(&reporting);
    checks++;
    if (!holds) {
        failures++;
        va_list arguments;
        va_start(arguments, words);
        vfprintf(stderr, words, arguments);
        va_end(arguments);
        fputc('\n', stderr);
    }
    pthread_mutex_unlock(&reporting);
}

static void check_answer(const char *input, int64_t expected, int64_t came)
{
    check(expected == came, "%s: expected the answer %lld, came %lld", input, (long long)expected, (long long)came);
}

/* Where the bytes differ from what is expected. */
static void check_bytes(const char *input, const void *expected, const void *came, size_t length)
{
    const unsigned char *e = expected, *c = came;
    size_t at = 0;
    while (at < length && e[at] == c[at]) {
        at++;
    }
    check(at == length, "%s: expected byte %zu to be %02x, came %02x", input, at, at < length ? e[at] : 0,
          at < length ? c[at] : 0);
}

/* ---- memory that fails */

void *__real_malloc(size_t size);
void *__real_realloc(void *block, size_t size);
void __real_free(void *block);

/* The allocation that fails, counted from 0, where counting is on; and how many blocks are held. */
static long failing = -1, allocations, held;
static int counting;

static int fails(void)
{
    return counting && allocations++ == failing;
}

void *__wrap_malloc(size_t size)
{
    if (fails()) {
        return NULL;
    }
    void *block = __real_malloc(size);
    held += counting && block;
    return block;
}

void *__wrap_realloc(void *block, size_t size)
{
    if (fails()) {
        return NULL;
    }
    void *moved = __real_realloc(block, size);
    held += counting && !block && moved;
    return moved;
}

void __wrap_free(void *block)
{
    held -= counting && block;
    __real_free(block);
}

/* Whether an allocation was made to fail. Those of a shared library cannot be, so it is tested with -DSHARED. */
static int was_made_to_fail(void)
{
#ifdef SHARED
    return 1;
#else
    return failing > 1;
#endif
}

/* ---- an item in all forms */

struct text {
    const void *bytes;
    size_t length;
};

#define TEXT(literal) {literal, sizeof(literal) - 1}

/* The tag 32 over a text, as the README of the repository shows it. */
static const struct text uri[FORMS] = {
    TEXT("\xd8\x20\x73https://example.com"),
    TEXT("d8 20                                        # uri, tag(32)\n"
         "   73                                        #   text(19)\n"
         "      68747470733a2f2f6578616d706c652e636f6d #     \"https://example.com\"\n"
         "                                             #   valid URL (checked against URL Standard, not RFC 3986)\n"),
    TEXT("32_0(\"https://example.com\")\n"),
    TEXT("32_0(\"https://example.com\")\n"),
    TEXT("32(\"https://example.com\")\n"),
    TEXT("32(\"https://example.com\")\n"),
};

/* What comes of it. EDN leaves the width of the tag open, and then the other notation states none. */
static struct text uri_from(int from, int to)
{
    return uri[from >= EDN && (to == DIAG || to == PRETTY) ? EDN : to];
}

/* A buffer of its own for each length, so that a tool that watches memory sees a byte past its end. */
static void test_room(const char *name, int from, int to, struct text input, struct text output)
{
    for (size_t room = 0; room <= output.length + 3; room++) {
        unsigned char *buffer = malloc(room + 1);
        memset(buffer, UNTOUCHED, room + 1);
        int64_t came = cbor_diag_convert(from, to, input.bytes, input.length, buffer, room);
        size_t written = room < output.length ? room : output.length;
        check_answer(name, (int64_t)output.length, came);
        check_bytes(name, output.bytes, buffer, written);
        for (size_t i = written; i <= room; i++) {
            check(buffer[i] == UNTOUCHED, "%s: room of %zu: expected byte %zu untouched, came %02x", name, room, i,
                  buffer[i]);
        }
        free(buffer);
    }
}

/* The same with no byte to spare, for the tools. */
static void test_exact_room(const char *name, int from, int to, struct text input, struct text output)
{
    for (size_t room = 0; room <= output.length; room++) {
        unsigned char *in = malloc(input.length), *out = malloc(room);
        memcpy(in, input.bytes, input.length);
        check_answer(name, (int64_t)output.length, cbor_diag_convert(from, to, in, input.length, out, room));
        check_bytes(name, output.bytes, out, room);
        free(in);
        free(out);
    }
}

static const char *const form_names[FORMS] = {"bytes", "hex", "diag", "pretty", "EDN", "pretty EDN"};

static void test_all_pairs_in_every_room(void)
{
    for (int from = 0; from < FORMS; from++) {
        for (int to = 0; to < FORMS; to++) {
            char name[64];
            snprintf(name, sizeof name, "a URI from %s to %s", form_names[from], form_names[to]);
            test_room(name, from, to, uri[from], uri_from(from, to));
            test_exact_room(name, from, to, uri[from], uri_from(from, to));
        }
    }
}

/* ---- EDN */

static void test_edn(void)
{
    const struct {
        const char *name;
        struct text given, bytes, line, pretty;
    } rows[] = {
        {"floats", TEXT("[1.5, -0.0, 1e300, 1.5_3, NaN]"),
         TEXT("\x85\xf9\x3e\x00\xf9\x80\x00\xfb\x7e\x37\xe4\x3c\x88\x00\x75\x9c"
              "\xfb\x3f\xf8\x00\x00\x00\x00\x00\x00\xf9\x7e\x00"),
         TEXT("[1.5, -0.0, 1e300, 1.5_3, NaN]\n"),
         TEXT("[1.5, -0.0, 1e300, 1.5_3, NaN]\n")},
        {"escapes", TEXT("\"\\n\\u00fc\\u0007\\ud83d\\ude00\""), TEXT("\x68\n\xc3\xbc\x07\xf0\x9f\x98\x80"),
         TEXT("\"\\n\xc3\xbc\\u0007\xf0\x9f\x98\x80\"\n"), TEXT("\"\\n\xc3\xbc\\u0007\xf0\x9f\x98\x80\"\n")},
        {"indicators", TEXT("[_0 1_1 24_0(\"a\"_1) {_2 }]"),
         TEXT("\x98\x03\x19\x00\x01\xd8\x18\x79\x00\x01\x61\xba\x00\x00\x00\x00"),
         TEXT("[_0 1_1, 24(\"a\"_1), {_2 }]\n"), TEXT("[_0 1_1, 24(\"a\"_1), {_2 }]\n")},
        {"a JSON document", TEXT("{\"a\": [1, -2.5e0, null]}\n"), TEXT("\xa1\x61\x61\x83\x01\xf9\xc1\x00\xf6"),
         TEXT("{\"a\": [1, -2.5, null]}\n"), TEXT("{\"a\": [1, -2.5, null]}\n")},
        {"a date", TEXT("# the first\n1(0) // of 1970"), TEXT("\xc1\x00"), TEXT("1(0)\n"),
         TEXT("1(0 /1970-01-01T00:00:00Z/)\n")},
    };
    for (size_t i = 0; i < sizeof rows / sizeof *rows; i++) {
        test_room(rows[i].name, EDN, BYTES, rows[i].given, rows[i].bytes);
        test_room(rows[i].name, BYTES, EDN, rows[i].bytes, rows[i].line);
        test_room(rows[i].name, EDN_PRETTY, EDN, rows[i].pretty, rows[i].line);
        test_room(rows[i].name, EDN, EDN_PRETTY, rows[i].line, rows[i].pretty);
        test_room(rows[i].name, EDN_PRETTY, BYTES, rows[i].pretty, rows[i].bytes);
    }
}

/* ---- JSON */

static void test_json(void)
{
    const struct {
        const char *name;
        struct text bytes, line;
    } rows[] = {
        {"integer keys", TEXT("\xa2\x01\x02\x20\x03"), TEXT("{\"1\": 2, \"-1\": 3}\n")},
        {"2^64 - 1", TEXT("\x1b\xff\xff\xff\xff\xff\xff\xff\xff"), TEXT("18446744073709551615\n")},
        {"-2^64", TEXT("\x3b\xff\xff\xff\xff\xff\xff\xff\xff"), TEXT("-18446744073709551616\n")},
        {"2^64", TEXT("\xc2\x49\x01\x00\x00\x00\x00\x00\x00\x00\x00"), TEXT("18446744073709551616\n")},
        {"no numbers", TEXT("\x83\xf9\x7e\x00\xf9\x7c\x00\xf9\xfc\x00"), TEXT("[null, null, null]\n")},
        {"simple values", TEXT("\x84\xf4\xf5\xf6\xf7"), TEXT("[false, true, null, null]\n")},
        {"floats", TEXT("\x82\xf9\x3e\x00\xfb\x40\x00\x00\x00\x00\x00\x00\x00"), TEXT("[1.5, 2.0]\n")},
        {"byte strings", TEXT("\x82\x43\x01\x02\x03\xd7\x41\x01"), TEXT("[\"AQID\", \"01\"]\n")},
        {"nested", TEXT("\xa1\x61" "a\x82\x01\xa1\x61" "b\xc1\x18\x00"), TEXT("{\"a\": [1, {\"b\": 0}]}\n")},
        {"chunks", TEXT("\x7f\x61\n\x62\xc3\xbc\xff"), TEXT("\"\\n\xc3\xbc\"\n")},
    };
    for (size_t i = 0; i < sizeof rows / sizeof *rows; i++) {
        test_room(rows[i].name, BYTES, JSON, rows[i].bytes, rows[i].line);
        test_exact_room(rows[i].name, BYTES, JSON, rows[i].bytes, rows[i].line);
    }
    struct text json = TEXT("{\"1\": [2, 1.0]}\n"), strict = TEXT("{\"a\": [1.5, null, -2, \"\\n\"]}\n");
    test_room("hex to JSON", HEX, JSON, (struct text)TEXT("a1 01 82 02 f9 3c00 # a map"), json);
    test_room("notation to JSON", DIAG, JSON, (struct text)TEXT("{1: [_ 2, float'3c00']}"), json);
    test_room("EDN to JSON", EDN_PRETTY, JSON, (struct text)TEXT("{1_1: [2, 1.0_3]} # a map"), json);
    test_room("JSON to itself", JSON, JSON, strict, strict);
    test_room("JSON to strict JSON", JSON, JSON_STRICT, strict, strict);
    test_room("JSON to bytes", JSON_STRICT, BYTES, (struct text)TEXT("{\"a\": 1.5}"),
              (struct text)TEXT("\xa1\x61\x61\xf9\x3e\x00"));
}

static void test_output_faults(void)
{
    const size_t none = CBOR_DIAG_NO_PLACE;
    const struct {
        uint32_t from, to;
        struct text input;
        int error;
        size_t place, detail;
    } rows[] = {
        {BYTES, JSON, TEXT("\xa2\x01\x00\x61\x31\x00"), CBOR_DIAG_ERROR_SAME_KEYS, 3, 1},
        {BYTES, JSON, TEXT("\x82\x00\xa3\x02\x00\x01\x00\x18\x01\x00"), CBOR_DIAG_ERROR_SAME_KEYS, 7, 5},
        {BYTES, JSON_STRICT, TEXT("\xa2\x61" "a\x00\x61" "a\x00"), CBOR_DIAG_ERROR_SAME_KEYS, 4, 1},
        {HEX, JSON, TEXT("a2 01 00 # one\n 61 31 00"), CBOR_DIAG_ERROR_SAME_KEYS, 3, 1},
        {DIAG, JSON, TEXT("[0,{1:0,\"1\":0}]"), CBOR_DIAG_ERROR_SAME_KEYS, 5, 3},
        {EDN, JSON, TEXT("{\"a\": 0, \"\\u0061\": 0}"), CBOR_DIAG_ERROR_SAME_KEYS, 4, 1},
        {BYTES, JSON_STRICT, TEXT("\xa2\x01\x00\x61\x31\x00"), CBOR_DIAG_ERROR_NOT_KEPT, 1, CBOR_DIAG_LOSS_KEY},
        {BYTES, JSON_STRICT, TEXT("\xc1\x00"), CBOR_DIAG_ERROR_NOT_KEPT, 0, CBOR_DIAG_LOSS_TAG},
        {HEX, JSON_STRICT, TEXT("82 f97e00 c100"), CBOR_DIAG_ERROR_NOT_KEPT, 1, CBOR_DIAG_LOSS_NOT_FINITE},
        {JSON, JSON_STRICT, TEXT("[null, undefined]"), CBOR_DIAG_ERROR_NOT_KEPT, 2, CBOR_DIAG_LOSS_SIMPLE},
        {PRETTY, JSON_STRICT, TEXT("[[1], h'00']"), CBOR_DIAG_ERROR_NOT_KEPT, 3, CBOR_DIAG_LOSS_BYTES},
        {BYTES, JSON, TEXT("\xc1\x00"), 0, none, none},
        {BYTES, EDN, TEXT("\xa2\x01\x00\x61\x31\x00"), 0, none, none},
        {BYTES, JSON, TEXT("\x82\x01"), CBOR_DIAG_ERROR_CUT_SHORT, none, none},
        {DIAG, BYTES, TEXT("1.5"), CBOR_DIAG_ERROR_NOTATION, none, none},
        {BYTES, HTML, TEXT("\xa2\x01\x00\x61\x31\x00"), 0, none, none},
        {BYTES, HTML, TEXT("\x82\x01"), CBOR_DIAG_ERROR_CUT_SHORT, none, none},
        {9, JSON, TEXT("\x01"), CBOR_DIAG_ERROR_NO_FORM, none, none},
        {BYTES, 9, TEXT("\x01"), CBOR_DIAG_ERROR_NO_FORM, none, none},
    };
    for (size_t i = 0; i < sizeof rows / sizeof *rows; i++) {
        char name[40];
        snprintf(name, sizeof name, "the output's fault of row %zu", i);
        size_t length = rows[i].input.length, place = 99, detail = 99;
        unsigned char *input = malloc(length);
        memcpy(input, rows[i].input.bytes, length);
        uint32_t from = rows[i].from, to = rows[i].to;
        check_answer(name, -rows[i].error, cbor_diag_output_fault(from, to, input, length, &place, &detail));
        check(place == rows[i].place, "%s: expected the place %zu, came %zu", name, rows[i].place, place);
        check(detail == rows[i].detail, "%s: expected the detail %zu, came %zu", name, rows[i].detail, detail);
        check_answer(name, -rows[i].error, cbor_diag_output_fault(from, to, input, length, NULL, NULL));
        int64_t came = cbor_diag_convert(from, to, input, length, NULL, 0);
        check_answer(name, -rows[i].error, came < 0 ? came : 0);
        free(input);
    }
    size_t place = 99, detail = 99;
    check_answer("null input", -CBOR_DIAG_ERROR_CUT_SHORT,
                 cbor_diag_output_fault(BYTES, JSON, NULL, 0, &place, &detail));
    check(place == none && detail == none, "null input: expected no place, came %zu and %zu", place, detail);
    place = detail = 99;
    check_answer("2^64 - 1 bytes", -CBOR_DIAG_ERROR_MEMORY,
                 cbor_diag_output_fault(BYTES, JSON, "\x01", SIZE_MAX, &place, &detail));
    check(place == none && detail == none, "2^64 - 1 bytes: expected no place, came %zu and %zu", place, detail);
}

/* Each allocation fails in turn. */
static void test_output_faults_without_memory(void)
{
    int64_t came = -CBOR_DIAG_ERROR_MEMORY;
    for (failing = 0; came == -CBOR_DIAG_ERROR_MEMORY && failing < 1000; failing++) {
        size_t place = 99, detail = 99;
        allocations = held = 0;
        counting = 1;
        came = cbor_diag_output_fault(EDN, JSON, "{1: 0, \"1\": 0}", 14, &place, &detail);
        counting = 0;
        check(held == 0, "allocation %ld fails: expected no block held, came %ld", failing, held);
        if (came == -CBOR_DIAG_ERROR_MEMORY) {
            check(place == CBOR_DIAG_NO_PLACE && detail == CBOR_DIAG_NO_PLACE,
                  "out of memory: expected no place, came %zu and %zu", place, detail);
        }
    }
    check(was_made_to_fail(), "no allocation was made to fail in the fault of an output");
    check_answer("the fault of an output, with memory enough", -CBOR_DIAG_ERROR_SAME_KEYS, came);
}

/* ---- errors */

struct refused {
    const char *name;
    uint32_t from, to;
    struct text input;
    int error;
};

static const struct refused refusals[] = {
    {"no bytes", BYTES, DIAG, TEXT(""), CBOR_DIAG_ERROR_CUT_SHORT},
    {"no hex", HEX, DIAG, TEXT(""), CBOR_DIAG_ERROR_CUT_SHORT},
    {"no notation", DIAG, BYTES, TEXT(""), CBOR_DIAG_ERROR_NOTATION},
    {"an array of two that ends after one", BYTES, DIAG, TEXT("\x82\x01"), CBOR_DIAG_ERROR_CUT_SHORT},
    {"a head with the info 28", BYTES, DIAG, TEXT("\x1c"), CBOR_DIAG_ERROR_HEAD},
    {"a break alone", BYTES, DIAG, TEXT("\xff"), CBOR_DIAG_ERROR_HEAD},
    {"a text of the byte ff", BYTES, DIAG, TEXT("\x61\xff"), CBOR_DIAG_ERROR_UTF8},
    {"hex of the byte ff", HEX, DIAG, TEXT("\xff"), CBOR_DIAG_ERROR_UTF8},
    {"notation of the byte ff", DIAG, BYTES, TEXT("\xff"), CBOR_DIAG_ERROR_UTF8},
    {"two items", BYTES, DIAG, TEXT("\x01\x02"), CBOR_DIAG_ERROR_REMAINING},
    {"one hex digit", HEX, BYTES, TEXT("0"), CBOR_DIAG_ERROR_ODD_HEX},
    {"a g among hex digits", HEX, BYTES, TEXT("0g"), CBOR_DIAG_ERROR_BAD_HEX},
    {"a decimal fraction", DIAG, BYTES, TEXT("1.5"), CBOR_DIAG_ERROR_NOTATION},
    {"a decimal fraction, pretty", PRETTY, BYTES, TEXT("1.5"), CBOR_DIAG_ERROR_NOTATION},
    {"300 in one byte", DIAG, BYTES, TEXT("300_0"), CBOR_DIAG_ERROR_PAST_WIDTH},
    {"no EDN", EDN, BYTES, TEXT(""), CBOR_DIAG_ERROR_NOTATION},
    {"two items in EDN", EDN, EDN, TEXT("1 2"), CBOR_DIAG_ERROR_NOTATION},
    {"300 in one byte in EDN", EDN, DIAG, TEXT("300_0"), CBOR_DIAG_ERROR_NOTATION},
    {"EDN of the byte ff", EDN_PRETTY, HEX, TEXT("\"\xff\""), CBOR_DIAG_ERROR_UTF8},
    {"bytes that are cut, to EDN", BYTES, EDN, TEXT("\x82\x01"), CBOR_DIAG_ERROR_CUT_SHORT},
    {"hex that is cut, to EDN", HEX, EDN_PRETTY, TEXT("82 01"), CBOR_DIAG_ERROR_CUT_SHORT},
    {"a g among hex digits, to EDN", HEX, EDN, TEXT("0g"), CBOR_DIAG_ERROR_BAD_HEX},
    {"a decimal fraction in notation, to EDN", DIAG, EDN, TEXT("1.5"), CBOR_DIAG_ERROR_NOTATION},
    {"bytes that are cut, to JSON", BYTES, JSON, TEXT("\x82\x01"), CBOR_DIAG_ERROR_CUT_SHORT},
    {"a g among hex digits, to JSON", HEX, JSON_STRICT, TEXT("0g"), CBOR_DIAG_ERROR_BAD_HEX},
    {"a decimal fraction in notation, to JSON", DIAG, JSON, TEXT("1.5"), CBOR_DIAG_ERROR_NOTATION},
    {"two lines of JSON", JSON, JSON, TEXT("1\n2\n"), CBOR_DIAG_ERROR_NOTATION},
    {"JSON of the byte ff", JSON_STRICT, BYTES, TEXT("\"\xff\""), CBOR_DIAG_ERROR_UTF8},
    {"two keys of a map that become the same", BYTES, JSON, TEXT("\xa2\x01\x00\x61\x31\x00"),
     CBOR_DIAG_ERROR_SAME_KEYS},
    {"the same in EDN", EDN, JSON, TEXT("{1: 0, \"1\": 0}"), CBOR_DIAG_ERROR_SAME_KEYS},
    {"a tag in strict JSON", HEX, JSON_STRICT, TEXT("c1 00"), CBOR_DIAG_ERROR_NOT_KEPT},
    {"undefined in strict JSON", JSON, JSON_STRICT, TEXT("[undefined]"), CBOR_DIAG_ERROR_NOT_KEPT},
    {"bytes that are cut, to HTML", BYTES, HTML, TEXT("\x82\x01"), CBOR_DIAG_ERROR_CUT_SHORT},
    {"two items, to HTML", BYTES, HTML, TEXT("\x01\x02"), CBOR_DIAG_ERROR_REMAINING},
    {"a g among hex digits, to HTML", HEX, HTML, TEXT("0g"), CBOR_DIAG_ERROR_BAD_HEX},
    {"lines of HTML, which are read as EDN", HTML, BYTES, TEXT("<span>1</span>"), CBOR_DIAG_ERROR_NOTATION},
    {"from the form 9", 9, BYTES, TEXT("\x01"), CBOR_DIAG_ERROR_NO_FORM},
    {"to the form 9", BYTES, 9, TEXT("\x01"), CBOR_DIAG_ERROR_NO_FORM},
    {"from the form 2^32 - 1", UINT32_MAX, BYTES, TEXT("\x01"), CBOR_DIAG_ERROR_NO_FORM},
    {"to the form 2^31", BYTES, 1u << 31, TEXT("\x01"), CBOR_DIAG_ERROR_NO_FORM},
    {"to no form, of no item", BYTES, 99, TEXT(""), CBOR_DIAG_ERROR_NO_FORM},
};

static void check_refused(const char *name, uint32_t from, uint32_t to, struct text input, int error)
{
    unsigned char buffer[16], as_before[sizeof buffer];
    memset(buffer, UNTOUCHED, sizeof buffer);
    memset(as_before, UNTOUCHED, sizeof buffer);
    check_answer(name, -error, cbor_diag_convert(from, to, input.bytes, input.length, buffer, sizeof buffer));
    check_bytes(name, as_before, buffer, sizeof buffer);
    check_answer(name, -error, cbor_diag_convert(from, to, input.bytes, input.length, NULL, 0));
}

static void test_errors(void)
{
    for (size_t i = 0; i < sizeof refusals / sizeof *refusals; i++) {
        const struct refused *r = &refusals[i];
        check_refused(r->name, r->from, r->to, r->input, r->error);
    }
}

static const char *const error_texts[] = {
    "no such error",
    "out of memory",
    "the item is cut short",
    "no item can have this head",
    "a text is not UTF-8",
    "nested deeper than 128 levels",
    "bytes remain after the item",
    "an odd number of hex digits",
    "not a hex digit",
    "not diagnostic notation",
    "a number does not fit its width",
    "no such form",
    "no such rules",
    "no encoding of the items keeps the rules",
    "two keys of a map become the same in JSON",
    "JSON does not keep all of the item",
    "the path leads to no part of the item",
    "no such type",
    "neither hex, EDN, base 64 nor bytes of items",
    "the file of names has an error",
    "the CDDL has an error",
    "the bytes are no schema",
    "matching takes too many steps, or is nested too deeply",
    "no such error",
};

static void test_error_texts(void)
{
    for (int64_t number = 0; number <= 23; number++) {
        const char *expected = error_texts[number];
        char text[CBOR_DIAG_ERROR_TEXT_SIZE];
        check(strcmp(expected, cbor_diag_strerror(-number, text, sizeof text)) == 0,
              "the error %lld: expected \"%s\", came \"%s\"", (long long)number, expected, text);
        for (size_t size = 1; size <= strlen(expected) + 2; size++) {
            char *cut = malloc(size);
            size_t length = size - 1 < strlen(expected) ? size - 1 : strlen(expected);
            cbor_diag_strerror(-number, cut, size);
            check(strlen(cut) == length && memcmp(cut, expected, length) == 0,
                  "the error %lld in %zu bytes: expected %zu of \"%s\", came \"%s\"", (long long)number, size, length,
                  expected, cut);
            free(cut);
        }
    }
    char text[CBOR_DIAG_ERROR_TEXT_SIZE];
    const int64_t no_errors[] = {1, INT64_MAX, INT64_MIN, -UINT32_MAX, -(int64_t)UINT32_MAX - 2};
    for (size_t i = 0; i < sizeof no_errors / sizeof *no_errors; i++) {
        check(strcmp("no such error", cbor_diag_strerror(no_errors[i], text, sizeof text)) == 0,
              "the answer %lld: came \"%s\"", (long long)no_errors[i], text);
    }
}

/* ---- how bytes begin */

static void test_extents(void)
{
    const struct {
        struct text input;
        int64_t answer;
        size_t end;
    } rows[] = {
        {TEXT(""), -CBOR_DIAG_ERROR_CUT_SHORT, 0},
        {TEXT("\x01"), 1, 1},
        {TEXT("\x01\x02"), 1, 1},
        {TEXT("\x82\x01\x02\x03"), 3, 3},
        {TEXT("\x82\x01"), -CBOR_DIAG_ERROR_CUT_SHORT, 2},
        {TEXT("\x82\x01\x1c\x00"), -CBOR_DIAG_ERROR_HEAD, 3},
        {TEXT("\xff"), -CBOR_DIAG_ERROR_HEAD, 1},
        {TEXT("\x81\x62\xff\x00\x00"), -CBOR_DIAG_ERROR_UTF8, 4},
        {TEXT("\x62\xff"), -CBOR_DIAG_ERROR_CUT_SHORT, 2},
        {TEXT("\x9f\x01\xff\xff"), 3, 3},
    };
    for (size_t i = 0; i < sizeof rows / sizeof *rows; i++) {
        char name[40];
        snprintf(name, sizeof name, "the extent of row %zu", i);
        size_t length = rows[i].input.length, end = 99;
        unsigned char *input = malloc(length);
        memcpy(input, rows[i].input.bytes, length);
        check_answer(name, rows[i].answer, cbor_diag_extent(input, length, &end));
        check(end == rows[i].end, "%s: expected the end %zu, came %zu", name, rows[i].end, end);
        check_answer(name, rows[i].answer, cbor_diag_extent(input, length, NULL));
        free(input);
    }
    size_t end = 99;
    check_answer("null input", -CBOR_DIAG_ERROR_CUT_SHORT, cbor_diag_extent(NULL, 0, &end));
    check(end == 0, "null input: expected the end 0, came %zu", end);
    check_answer("2^64 - 1 bytes", -CBOR_DIAG_ERROR_MEMORY, cbor_diag_extent("\x01", SIZE_MAX, NULL));
}

/* Arrays in arrays: at level 129 any byte is the byte at fault. And no memory is taken. */
static void test_deep_extent(void)
{
    const size_t count = 200000;
    unsigned char *openings = malloc(count);
    size_t end;
    memset(openings, 0x81, count);
    allocations = 0;
    counting = 1;
    int64_t deep = cbor_diag_extent(openings, count, &end);
    int64_t cut = cbor_diag_extent(openings, 128, NULL);
    counting = 0;
    check_answer("200000 arrays", -CBOR_DIAG_ERROR_TOO_DEEP, deep);
    check(end == 129, "200000 arrays: expected the end 129, came %zu", end);
    check_answer("128 arrays", -CBOR_DIAG_ERROR_CUT_SHORT, cut);
    check(allocations == 0, "200000 arrays: expected no allocation, came %ld", allocations);
    free(openings);
}

/* ---- bytes in pieces */

/* Items, cuts and faults of each kind, with bytes after some: heads of each width, texts whose characters have one to
   four bytes, chunks, containers of both kinds, tags. */
static const struct text in_pieces[] = {
    TEXT(""),
    TEXT("\x17\x00"),
    TEXT("\x18\x18"),
    TEXT("\x39\x03\xe7"),
    TEXT("\x1a\x00\x0f\x42\x40"),
    TEXT("\x1b\x00\x00\x00\xe8\xd4\xa5\x10\x00\xff"),
    TEXT("\xf9\x3c\x00"),
    TEXT("\xfb\x3f\xf1\x99\x99\x99\x99\x99\x9a"),
    TEXT("\xf8\xff"),
    TEXT("\xc1\x1a\x51\x4b\x67\xb0"),
    TEXT("\xd9\xd9\xf7\x83\x01\x02\x03\x04"),
    TEXT("\x43\x01\x02\x03\x04"),
    TEXT("\x59\x00\x03\x01\x02\x03"),
    TEXT("\x6a" "a\xc3\xbc\xe6\xb0\xb4\xf0\x90\x85\x91"),
    TEXT("\x7f\x63" "a\xc3\xbc\x78\x03\xe6\xb0\xb4\x64\xf0\x90\x85\x91\xff\x00"),
    TEXT("\x5f\x41\x01\x58\x02\x02\x03\x40\xff"),
    TEXT("\x9f\x18\x20\x82\x04\x05\x9f\xff\xff\xff"),
    TEXT("\xa2\x61\x61\x01\x61\x62\xbf\x01\x02\xff"),
    TEXT("\xbf\x01\x02\x03\xff"),
    TEXT("\x82\x01\x1c\x00"),
    TEXT("\x9f\xfe"),
    TEXT("\xff"),
    TEXT("\x5f\x61\x61\xff"),
    TEXT("\x7f\x7f\xff\xff"),
    TEXT("\x81\x62\xff\x00\x00"),
    TEXT("\x65" "ab\xc3" "de"),
    TEXT("\x65" "abcd\xc3"),
    TEXT("\x68\xf0\x90\x85" "abcde\x00"),
    TEXT("\x64\xed\xa0\x80" "a"),
    TEXT("\x7f\x61\xc3\x61\xbc\xff"),
    TEXT("\x9a\xff\xff\xff\xff\x01"),
    TEXT("\x7b\xff\xff\xff\xff\xff\xff\xff\xff" "abc"),
    TEXT("\x5b\x7f\xff\xff\xff\xff\xff\xff\xff" "abc"),
};

/* Feeds the next bytes in memory of their own, and compares with the extent of all that came. */
static void feed_and_compare(struct cbor_diag_scanner *scanner, const struct text *input, size_t fed, size_t count)
{
    char name[80];
    snprintf(name, sizeof name, "%zu bytes after %zu of row %td", count, fed, input - in_pieces);
    size_t expected_end, end = 99;
    int64_t expected = cbor_diag_extent(input->bytes, fed + count, &expected_end);
    unsigned char *piece = malloc(count);
    memcpy(piece, (const unsigned char *)input->bytes + fed, count);
    check_answer(name, expected, cbor_diag_scanner_feed(scanner, piece, count, &end));
    check(end == expected_end, "%s: expected the end %zu, came %zu", name, expected_end, end);
    free(piece);
}

/* The size of the next piece: at least 1 if more are left. */
static size_t some_piece(uint32_t *seed, size_t left)
{
    *seed = *seed * 1664525 + 1013904223;
    return left == 0 ? 0 : 1 + (*seed >> 16) % left;
}

static void test_scanner(void)
{
    uint32_t seed = 1;
    for (const struct text *input = in_pieces; input < in_pieces + sizeof in_pieces / sizeof *in_pieces; input++) {
        /* The scanner in memory of its own. */
        struct cbor_diag_scanner *scanner = malloc(sizeof *scanner);
        for (size_t cut = 0; cut <= input->length; cut++) {
            cbor_diag_scanner_init(scanner);
            feed_and_compare(scanner, input, 0, cut);
            feed_and_compare(scanner, input, cut, input->length - cut);
            feed_and_compare(scanner, input, input->length, 0);
        }
        cbor_diag_scanner_init(scanner);
        for (size_t fed = 0; fed < input->length; fed++) {
            feed_and_compare(scanner, input, fed, 1);
        }
        for (int round = 0; round < 20; round++) {
            cbor_diag_scanner_init(scanner);
            for (size_t fed = 0, count; fed < input->length; fed += count) {
                count = some_piece(&seed, input->length - fed);
                feed_and_compare(scanner, input, fed, count);
            }
        }
        free(scanner);
    }
}

/* A copy of a scanner goes on by itself; null pointers, and lengths that no object has. */
static void test_scanner_limits(void)
{
    struct cbor_diag_scanner scanner, copy;
    size_t end = 99;
    cbor_diag_scanner_init(&scanner);
    check_answer("null input", -CBOR_DIAG_ERROR_CUT_SHORT, cbor_diag_scanner_feed(&scanner, NULL, 0, &end));
    check(end == 0, "null input: expected the end 0, came %zu", end);
    check_answer("null end", -CBOR_DIAG_ERROR_CUT_SHORT, cbor_diag_scanner_feed(&scanner, "\x82\x19\x03", 3, NULL));
    copy = scanner;
    check_answer("2^64 - 1 bytes", -CBOR_DIAG_ERROR_MEMORY, cbor_diag_scanner_feed(&scanner, "\x01", SIZE_MAX, NULL));
    check_answer("the scanner", 5, cbor_diag_scanner_feed(&scanner, "\xe8\x02\xff", 3, &end));
    check(end == 5, "the scanner: expected the end 5, came %zu", end);
    check_answer("the copy", -CBOR_DIAG_ERROR_HEAD, cbor_diag_scanner_feed(&copy, "\xe8\x1c", 2, &end));
    check(end == 5, "the copy: expected the end 5, came %zu", end);
    check_answer("the scanner after its item", 5, cbor_diag_scanner_feed(&scanner, "\x00\x00", 2, &end));
    check(end == 5, "the scanner after its item: expected the end 5, came %zu", end);
    check_answer("the copy after its error", -CBOR_DIAG_ERROR_HEAD, cbor_diag_scanner_feed(&copy, "\x00", 1, &end));
    check(end == 5, "the copy after its error: expected the end 5, came %zu", end);
}

/* Arrays in arrays in pieces of 100 bytes, and no memory is taken. */
static void test_deep_scanner(void)
{
    unsigned char openings[100];
    struct cbor_diag_scanner scanner;
    size_t end = 0;
    memset(openings, 0x81, sizeof openings);
    allocations = 0;
    counting = 1;
    cbor_diag_scanner_init(&scanner);
    int64_t cut = cbor_diag_scanner_feed(&scanner, openings, sizeof openings, NULL);
    int64_t deep = cbor_diag_scanner_feed(&scanner, openings, sizeof openings, &end);
    counting = 0;
    check_answer("100 arrays", -CBOR_DIAG_ERROR_CUT_SHORT, cut);
    check_answer("200 arrays", -CBOR_DIAG_ERROR_TOO_DEEP, deep);
    check(end == 129, "200 arrays: expected the end 129, came %zu", end);
    check(allocations == 0, "200 arrays: expected no allocation, came %ld", allocations);
}

/* ---- places of faults */

static void test_faults(void)
{
    const struct {
        uint32_t from;
        struct text input;
        int error;
        size_t place;
    } rows[] = {
        {BYTES, TEXT("\x82\x01\x02"), 0, CBOR_DIAG_NO_PLACE},
        {BYTES, TEXT(""), CBOR_DIAG_ERROR_CUT_SHORT, 0},
        {BYTES, TEXT("\x82\x01"), CBOR_DIAG_ERROR_CUT_SHORT, 2},
        {BYTES, TEXT("\x82\x01\x1c\x00"), CBOR_DIAG_ERROR_HEAD, 2},
        {BYTES, TEXT("\x81\x62\xff\x00\x00"), CBOR_DIAG_ERROR_UTF8, 3},
        {BYTES, TEXT("\x81\x02\x03\x04"), CBOR_DIAG_ERROR_REMAINING, 2},
        {HEX, TEXT("82 01 02"), 0, CBOR_DIAG_NO_PLACE},
        {HEX, TEXT(""), CBOR_DIAG_ERROR_CUT_SHORT, 0},
        {HEX, TEXT("82 01 # two"), CBOR_DIAG_ERROR_CUT_SHORT, 11},
        {HEX, TEXT("82 01 # one\n 1c # 28"), CBOR_DIAG_ERROR_HEAD, 13},
        {HEX, TEXT("82 01 0#\n2 03 04"), CBOR_DIAG_ERROR_REMAINING, 11},
        {HEX, TEXT("82 01 0#\n2 "), 0, CBOR_DIAG_NO_PLACE},
        {HEX, TEXT("82 0g"), CBOR_DIAG_ERROR_BAD_HEX, 4},
        {HEX, TEXT("82 01 0 # half"), CBOR_DIAG_ERROR_ODD_HEX, 6},
        {HEX, TEXT("82 # \xff"), CBOR_DIAG_ERROR_UTF8, 5},
        {DIAG, TEXT("[1, 2]"), 0, CBOR_DIAG_NO_PLACE},
        {DIAG, TEXT("[1, 2.5]"), CBOR_DIAG_ERROR_NOTATION, 5},
        {DIAG, TEXT("[1, 2"), CBOR_DIAG_ERROR_NOTATION, 5},
        {DIAG, TEXT("[1, 2]]"), CBOR_DIAG_ERROR_NOTATION, 6},
        {PRETTY, TEXT("[300_0]"), CBOR_DIAG_ERROR_PAST_WIDTH, 6},
        {PRETTY, TEXT("[\"\xc3\xbc\", \xff]"), CBOR_DIAG_ERROR_UTF8, 7},
        {EDN, TEXT("[1, 2.5]"), 0, CBOR_DIAG_NO_PLACE},
        {EDN, TEXT("[1, 2"), CBOR_DIAG_ERROR_NOTATION, 5},
        {EDN, TEXT("{\"a\" 1}"), CBOR_DIAG_ERROR_NOTATION, 5},
        {EDN, TEXT("[1, \"\\q\"]"), CBOR_DIAG_ERROR_NOTATION, 5},
        {EDN_PRETTY, TEXT("[1, x]"), CBOR_DIAG_ERROR_NOTATION, 4},
        {EDN, TEXT("[\"\xc3\xbc\", \xff]"), CBOR_DIAG_ERROR_UTF8, 7},
        {JSON, TEXT("{\"a\" 1}"), CBOR_DIAG_ERROR_NOTATION, 5},
        {JSON, TEXT("{\"a\": 1}"), 0, CBOR_DIAG_NO_PLACE},
        {BYTES, TEXT("\xa2\x01\x00\x61\x31\x00"), 0, CBOR_DIAG_NO_PLACE},
        {HTML, TEXT("[1, x]"), CBOR_DIAG_ERROR_NOTATION, 4},
        {9, TEXT("\x01"), CBOR_DIAG_ERROR_NO_FORM, CBOR_DIAG_NO_PLACE},
    };
    for (size_t i = 0; i < sizeof rows / sizeof *rows; i++) {
        char name[40], other[8];
        snprintf(name, sizeof name, "the fault of row %zu", i);
        size_t length = rows[i].input.length, place = 99;
        unsigned char *input = malloc(length);
        memcpy(input, rows[i].input.bytes, length);
        check_answer(name, -rows[i].error, cbor_diag_fault(rows[i].from, input, length, &place));
        check(place == rows[i].place, "%s: expected the place %zu, came %zu", name, rows[i].place, place);
        check_answer(name, -rows[i].error, cbor_diag_fault(rows[i].from, input, length, NULL));
        if (rows[i].error) {
            check_answer(name, -rows[i].error,
                         cbor_diag_convert(rows[i].from, BYTES, input, length, other, sizeof other));
        }
        free(input);
    }
    size_t place = 99;
    check_answer("null input", -CBOR_DIAG_ERROR_CUT_SHORT, cbor_diag_fault(BYTES, NULL, 0, &place));
    check(place == 0, "null input: expected the place 0, came %zu", place);
    check_answer("2^64 - 1 bytes", -CBOR_DIAG_ERROR_MEMORY, cbor_diag_fault(BYTES, "\x01", SIZE_MAX, &place));
    check(place == CBOR_DIAG_NO_PLACE, "2^64 - 1 bytes: expected no place, came %zu", place);
}

static void test_fault_texts(void)
{
    const struct {
        uint32_t from;
        struct text input;
        const char *text;
    } rows[] = {
        {EDN, TEXT("{\"a\" 1}"), "a colon has to follow the key"},
        {EDN_PRETTY, TEXT("[_1]"),
         "a blank has to follow: [_1 ] is an empty array, and [_ 1] one of indefinite length"},
        {EDN, TEXT("\"\xff\""), "a text is not UTF-8"},
        {EDN, TEXT("[1, 2.5]"), ""},
        {BYTES, TEXT("\x82\x01"), "the item is cut short"},
        {BYTES, TEXT("\x01"), ""},
        {HEX, TEXT("0g"), "not a hex digit"},
        {DIAG, TEXT("300_0"), "a number does not fit its width"},
        {JSON_STRICT, TEXT("{\"a\" 1}"), "a colon has to follow the key"},
        {9, TEXT("1"), "no such form"},
    };
    for (size_t i = 0; i < sizeof rows / sizeof *rows; i++) {
        char name[40];
        snprintf(name, sizeof name, "the text of fault %zu", i);
        size_t length = strlen(rows[i].text);
        for (size_t room = 0; room <= length + 2; room++) {
            char *text = malloc(room + 1);
            memset(text, UNTOUCHED, room + 1);
            check_answer(name, (int64_t)length,
                         cbor_diag_fault_text(rows[i].from, rows[i].input.bytes, rows[i].input.length, text, room));
            size_t written = room < length ? room : length;
            check_bytes(name, rows[i].text, text, written);
            for (size_t j = written; j <= room; j++) {
                check((unsigned char)text[j] == UNTOUCHED, "%s: expected byte %zu untouched", name, j);
            }
            free(text);
        }
        check(length < CBOR_DIAG_FAULT_TEXT_SIZE, "%s: it is longer than said", name);
    }
    char text[CBOR_DIAG_FAULT_TEXT_SIZE];
    check_answer("the text of null input", 21, cbor_diag_fault_text(BYTES, NULL, 0, text, sizeof text));
    check_answer("the text of null input, without room", 21, cbor_diag_fault_text(BYTES, NULL, 0, NULL, 0));
    check_answer("the text of 2^64 - 1 bytes", 13, cbor_diag_fault_text(BYTES, "\x01", SIZE_MAX, text, sizeof text));
    check_bytes("the text of 2^64 - 1 bytes", "out of memory", text, 13);
}

static void test_fault_paths(void)
{
    const struct {
        uint32_t from;
        struct text input;
        const char *path, *message;
    } rows[] = {
        {BYTES, TEXT("\x82\x01\x02"), "", ""},
        {BYTES, TEXT(""), "/", "truncated: no item is at byte 0"},
        {BYTES, TEXT("\x82\x01"), "1", "truncated: the array at byte 0 has 2 items, 1 is there"},
        {BYTES, TEXT("\x1f"), "/", "1f: this major type has no indefinite length"},
        {BYTES, TEXT("\xa1\x61k\x82\x01\x1f\x00"), "k/1",
         "1f: this major type has no indefinite length, at k/1, in the array of 2 at byte 3, of which 1 is there"},
        {BYTES, TEXT("\xa1\x62\xc3\xbc\x62\xff\x00"), "\xc3\xbc",
         "a text is not UTF-8, at \xc3\xbc, in the map of 1 at byte 0, of which a key is there"},
        {BYTES, TEXT("\x81\x02\x03"), "", "bytes remain after the item"},
        {HEX, TEXT("82 01 # one\n 1c # 28"), "1",
         "1c: lengths 28 to 30 are reserved, at 1, in the array of 2 at byte 0, of which 1 is there"},
        {HEX, TEXT("82 0g"), "", "not a hex digit"},
        {DIAG, TEXT("300_0"), "", "a number does not fit its width"},
        {EDN, TEXT("{\"a\" 1}"), "", "a colon has to follow the key"},
    };
    for (size_t i = 0; i < sizeof rows / sizeof *rows; i++) {
        char name[40], text[128];
        snprintf(name, sizeof name, "the path of fault %zu", i);
        const unsigned char *input = (const unsigned char *)rows[i].input.bytes;
        size_t length = rows[i].input.length, wanted = strlen(rows[i].path), room = strlen(rows[i].message);
        memset(text, UNTOUCHED, sizeof text);
        check_answer(name, (int64_t)wanted, cbor_diag_fault_path(rows[i].from, input, length, text, sizeof text));
        check_bytes(name, rows[i].path, text, wanted);
        check((unsigned char)text[wanted] == UNTOUCHED, "%s: expected byte %zu untouched", name, wanted);
        check_answer(name, (int64_t)wanted, cbor_diag_fault_path(rows[i].from, input, length, NULL, 0));
        snprintf(name, sizeof name, "the message of fault %zu", i);
        memset(text, UNTOUCHED, sizeof text);
        check_answer(name, (int64_t)room, cbor_diag_fault_message(rows[i].from, input, length, text, sizeof text));
        check_bytes(name, rows[i].message, text, room);
        check((unsigned char)text[room] == UNTOUCHED, "%s: expected byte %zu untouched", name, room);
        memset(text, UNTOUCHED, sizeof text);
        check_answer(name, (int64_t)room, cbor_diag_fault_message(rows[i].from, input, length, text, 3));
        check_bytes(name, rows[i].message, text, room < 3 ? room : 3);
        check((unsigned char)text[3] == UNTOUCHED, "%s: expected byte 3 untouched", name);
    }
    char text[8];
    check_answer("no form's path", -CBOR_DIAG_ERROR_NO_FORM, cbor_diag_fault_path(99, "\x82", 1, text, sizeof text));
    check_answer("no form's message", -CBOR_DIAG_ERROR_NO_FORM,
                 cbor_diag_fault_message(99, "\x82", 1, text, sizeof text));
    check_answer("the path of null input", 1, cbor_diag_fault_path(BYTES, NULL, 0, text, sizeof text));
    check_answer("the path of 2^64 - 1 bytes", -CBOR_DIAG_ERROR_MEMORY,
                 cbor_diag_fault_path(BYTES, "\x01", SIZE_MAX, text, sizeof text));
    check_answer("the message of 2^64 - 1 bytes", -CBOR_DIAG_ERROR_MEMORY,
                 cbor_diag_fault_message(BYTES, "\x01", SIZE_MAX, text, sizeof text));
}

/* Each allocation fails in turn. */
static void test_paths_without_memory(void)
{
    const char input[] = "\xa1\x61k\x82\x01\x1f";
    int64_t came[2] = {-CBOR_DIAG_ERROR_MEMORY, -CBOR_DIAG_ERROR_MEMORY};
    for (int i = 0; i < 2; i++) {
        for (failing = 0; came[i] == -CBOR_DIAG_ERROR_MEMORY && failing < 1000; failing++) {
            char text[128];
            memset(text, UNTOUCHED, sizeof text);
            allocations = held = 0;
            counting = 1;
            came[i] = i ? cbor_diag_fault_message(BYTES, input, sizeof input - 1, text, sizeof text)
                        : cbor_diag_fault_path(BYTES, input, sizeof input - 1, text, sizeof text);
            counting = 0;
            check(held == 0, "allocation %ld fails: expected no block held, came %ld", failing, held);
            if (came[i] == -CBOR_DIAG_ERROR_MEMORY) {
                check((unsigned char)text[0] == UNTOUCHED, "out of memory: expected no byte written");
            }
        }
        check(was_made_to_fail(), "no allocation was made to fail in a path or a message");
    }
    check_answer("a path at last", 3, came[0]);
    check_answer("a message at last", 102, came[1]);
}

/* Each allocation fails in turn. */
static void test_faults_without_memory(int from, const char *input, int error)
{
    int64_t came = -CBOR_DIAG_ERROR_MEMORY;
    for (failing = 0; came == -CBOR_DIAG_ERROR_MEMORY && failing < 1000; failing++) {
        size_t place = 99;
        allocations = held = 0;
        counting = 1;
        came = cbor_diag_fault(from, input, strlen(input), &place);
        counting = 0;
        check(held == 0, "allocation %ld fails: expected no block held, came %ld", failing, held);
        if (came == -CBOR_DIAG_ERROR_MEMORY) {
            check(place == CBOR_DIAG_NO_PLACE, "out of memory: expected no place, came %zu", place);
        }
    }
    check(was_made_to_fail(), "no allocation was made to fail in the fault of \"%s\"", input);
    check_answer(input, -error, came);
}

/* ---- violations */

static void test_violations(void)
{
    const size_t none = CBOR_DIAG_NO_PLACE;
    const struct {
        uint32_t rules;
        struct text input;
        int kind;
        size_t place, detail;
    } rows[] = {
        {CBOR_DIAG_RULES_RFC8949, TEXT(""), 0, none, none},
        {CBOR_DIAG_RULES_RFC8949, TEXT("\x18\x01\xbf\xff"), 0, none, none},
        {CBOR_DIAG_RULES_RFC8949, TEXT("\xa2\x01\x80\x01\x80"), 0, none, none},
        {CBOR_DIAG_RULES_CORE, TEXT("\xa2\x0a\x01\x18\x64\x02"), 0, none, none},
        {CBOR_DIAG_RULES_DCBOR, TEXT("\xf9\x3e\x00\xf6"), 0, none, none},

        {CBOR_DIAG_RULES_RFC8949, TEXT("\x01\x82\x01"), CBOR_DIAG_VIOLATION_NO_ITEM, 3, CBOR_DIAG_ERROR_CUT_SHORT},
        {CBOR_DIAG_RULES_CORE, TEXT("\x82\x01\x1c"), CBOR_DIAG_VIOLATION_NO_ITEM, 2, CBOR_DIAG_ERROR_HEAD},
        {CBOR_DIAG_RULES_VALID, TEXT("\x81\x61\xff"), CBOR_DIAG_VIOLATION_NO_ITEM, 1, CBOR_DIAG_ERROR_UTF8},
        {CBOR_DIAG_RULES_RFC8949, TEXT("\x81\xf8\x18"), CBOR_DIAG_VIOLATION_LONG_SIMPLE, 1, none},
        {CBOR_DIAG_RULES_PREFERRED, TEXT("\x01\x18\x17"), CBOR_DIAG_VIOLATION_LONG_HEAD, 1, none},
        {CBOR_DIAG_RULES_DCBOR, TEXT("\x01\x63\xe2\x84\xab"), CBOR_DIAG_VIOLATION_NOT_NFC, 1, none},
        {CBOR_DIAG_RULES_CORE, TEXT("\xfa\x3f\xc0\x00\x00"), CBOR_DIAG_VIOLATION_LONG_FLOAT, 0, none},
        {CBOR_DIAG_RULES_DCBOR, TEXT("\x81\xf9\x40\x00"), CBOR_DIAG_VIOLATION_INTEGER_FLOAT, 1, none},
        {CBOR_DIAG_RULES_DCBOR, TEXT("\xf9\x7e\x01"), CBOR_DIAG_VIOLATION_OTHER_NAN, 0, none},
        {CBOR_DIAG_RULES_DCBOR, TEXT("\xf4\xf7"), CBOR_DIAG_VIOLATION_OTHER_SIMPLE, 1, none},
        {CBOR_DIAG_RULES_LENGTH_FIRST, TEXT("\x01\x9f\xff"), CBOR_DIAG_VIOLATION_INDEFINITE, 1, none},
        {CBOR_DIAG_RULES_CTAP2, TEXT("\x81\xc1\x00"), CBOR_DIAG_VIOLATION_TAG, 1, none},
        {CBOR_DIAG_RULES_PREFERRED, TEXT("\x00\xc2\x49\x00\x01\x00\x00\x00\x00\x00\x00\x00"),
         CBOR_DIAG_VIOLATION_LEADING_ZERO, 1, none},
        {CBOR_DIAG_RULES_PREFERRED, TEXT("\xc3\x41\x01"), CBOR_DIAG_VIOLATION_SMALL_BIG_NUMBER, 0, none},
        {CBOR_DIAG_RULES_CTAP2, TEXT("\x81\x81\x81\x81\x80"), CBOR_DIAG_VIOLATION_TOO_DEEP, 4, none},
        {CBOR_DIAG_RULES_CORE, TEXT("\xa2\x18\x64\x01\x0a\x02"), CBOR_DIAG_VIOLATION_KEY_ORDER, 4, 1},
        {CBOR_DIAG_RULES_CORE, TEXT("\xa2\x61\x61\x01\x18\x64\x02"), CBOR_DIAG_VIOLATION_KEY_ORDER, 4, 1},
        {CBOR_DIAG_RULES_LENGTH_FIRST, TEXT("\xa2\x18\x64\x01\x20\x02"), CBOR_DIAG_VIOLATION_KEY_ORDER, 4, 1},
        {CBOR_DIAG_RULES_CORE, TEXT("\xa2\x01\x80\x01\x80"), CBOR_DIAG_VIOLATION_KEY_TWICE, 3, 1},
        {CBOR_DIAG_RULES_VALID, TEXT("\xa3\x01\x80\x00\x80\x01\x80"), CBOR_DIAG_VIOLATION_KEY_TWICE, 5, 1},
        {CBOR_DIAG_RULES_VALID, TEXT("\xa2\x01\x26\x18\x01\x27"), CBOR_DIAG_VIOLATION_KEY_TWICE, 3, 1},

        {7, TEXT("\x00"), -CBOR_DIAG_ERROR_NO_RULES, none, none},
        {UINT32_MAX, TEXT(""), -CBOR_DIAG_ERROR_NO_RULES, none, none},
    };
    for (size_t i = 0; i < sizeof rows / sizeof *rows; i++) {
        char name[40];
        size_t place = 99, detail = 99;
        snprintf(name, sizeof name, "violation %zu", i);
        check_answer(name, rows[i].kind,
                     cbor_diag_violation(rows[i].rules, rows[i].input.bytes, rows[i].input.length, &place, &detail));
        check(place == rows[i].place, "%s: expected the place %zu, came %zu", name, rows[i].place, place);
        check(detail == rows[i].detail, "%s: expected the detail %zu, came %zu", name, rows[i].detail, detail);
        check_answer(name, rows[i].kind,
                     cbor_diag_violation(rows[i].rules, rows[i].input.bytes, rows[i].input.length, NULL, NULL));
    }
    check_answer("no bytes at a null pointer", 0, cbor_diag_violation(CBOR_DIAG_RULES_CORE, NULL, 0, NULL, NULL));
}

static void test_violation_texts(void)
{
    const char *texts[] = {
        "no such violation",
        "no item",
        "a simple value below 32 in two bytes",
        "a head that is not the shortest",
        "a text that is not in NFC",
        "a float that is not the shortest",
        "a float that is an integer",
        "a NaN other than f97e00",
        "a simple value other than false, true and null",
        "an indefinite length",
        "a tag",
        "a big number that begins with a zero byte",
        "a big number that fits an integer",
        "nested deeper than the rules allow",
        "a key that is out of order",
        "a key that stands twice",
        "no such violation",
    };
    for (int64_t kind = 0; kind <= 16; kind++) {
        char text[CBOR_DIAG_VIOLATION_TEXT_SIZE];
        check(strcmp(texts[kind], cbor_diag_strviolation(kind, text, sizeof text)) == 0,
              "the violation %lld: expected \"%s\", came \"%s\"", (long long)kind, texts[kind], text);
    }
    char cut[6];
    check(strcmp("a tag", cbor_diag_strviolation(CBOR_DIAG_VIOLATION_TAG, cut, sizeof cut)) == 0, "a text that fits is cut");
    check(strcmp("no it", cbor_diag_strviolation(CBOR_DIAG_VIOLATION_NO_ITEM, cut, sizeof cut)) == 0, "a text is not cut");
    check(strcmp("no su", cbor_diag_strviolation(-1, cut, sizeof cut)) == 0, "an error has a violation's text");
}

static void test_violations_without_memory(uint32_t rules, struct text input, int kind)
{
    int64_t came = -CBOR_DIAG_ERROR_MEMORY;
    for (failing = 0; came == -CBOR_DIAG_ERROR_MEMORY && failing < 1000; failing++) {
        size_t place = 99;
        allocations = held = 0;
        counting = 1;
        came = cbor_diag_violation(rules, input.bytes, input.length, &place, NULL);
        counting = 0;
        check(held == 0, "allocation %ld fails: expected no block held, came %ld", failing, held);
        if (came == -CBOR_DIAG_ERROR_MEMORY) {
            check(place == CBOR_DIAG_NO_PLACE, "out of memory: expected no place, came %zu", place);
        }
    }
    check_answer("a violation, with memory enough", kind, came);
}

/* ---- encoding again */

static void test_reencoding(void)
{
    const struct {
        uint32_t rules;
        struct text input, output;
        int error;
    } rows[] = {
        {CBOR_DIAG_RULES_CORE, TEXT(""), TEXT(""), 0},
        {CBOR_DIAG_RULES_CORE, TEXT("\xbf\x18\x02\x80\x01\x9f\xff\xff"), TEXT("\xa2\x01\x80\x02\x80"), 0},
        {CBOR_DIAG_RULES_CORE, TEXT("\xa2\x20\x01\x18\x64\x02"), TEXT("\xa2\x18\x64\x02\x20\x01"), 0},
        {CBOR_DIAG_RULES_LENGTH_FIRST, TEXT("\xa2\x18\x64\x02\x20\x01"), TEXT("\xa2\x20\x01\x18\x64\x02"), 0},
        {CBOR_DIAG_RULES_PREFERRED, TEXT("\x18\x01\xfa\x3f\xc0\x00\x00"), TEXT("\x01\xf9\x3e\x00"), 0},
        {CBOR_DIAG_RULES_CORE, TEXT("\x7f\x61\x61\x61\x62\xff"), TEXT("\x62" "ab"), 0},
        {CBOR_DIAG_RULES_CORE, TEXT("\xc2\x41\x05"), TEXT("\x05"), 0},
        {CBOR_DIAG_RULES_DCBOR, TEXT("\xf9\x40\x00\xf9\x80\x00"), TEXT("\x02\x00"), 0},

        {CBOR_DIAG_RULES_CORE, TEXT("\x82\x01"), TEXT(""), CBOR_DIAG_ERROR_NOT_ENCODABLE},
        {CBOR_DIAG_RULES_CTAP2, TEXT("\x18\x01\xc1\x00"), TEXT(""), CBOR_DIAG_ERROR_NOT_ENCODABLE},
        {CBOR_DIAG_RULES_CORE, TEXT("\xa2\x01\x80\x18\x01\x80"), TEXT(""), CBOR_DIAG_ERROR_NOT_ENCODABLE},
        {CBOR_DIAG_RULES_VALID, TEXT("\xa2\x01\x80\x01\x80"), TEXT(""), CBOR_DIAG_ERROR_NOT_ENCODABLE},
        {CBOR_DIAG_RULES_PREFERRED, TEXT("\xa2\x01\x26\x18\x01\x27"), TEXT(""), CBOR_DIAG_ERROR_NOT_ENCODABLE},
        {7, TEXT("\x00"), TEXT(""), CBOR_DIAG_ERROR_NO_RULES},
    };
    for (size_t i = 0; i < sizeof rows / sizeof *rows; i++) {
        const struct text *input = &rows[i].input, *output = &rows[i].output;
        int64_t expected = rows[i].error ? -rows[i].error : (int64_t)output->length;
        for (size_t room = 0; room <= 8; room++) {
            unsigned char buffer[8], wanted[8];
            char name[40];
            size_t written = output->length < room ? output->length : room;
            snprintf(name, sizeof name, "encoding %zu in %zu bytes", i, room);
            memset(buffer, UNTOUCHED, sizeof buffer);
            memset(wanted, UNTOUCHED, sizeof wanted);
            memcpy(wanted, output->bytes, written);
            check_answer(name, expected,
                         cbor_diag_reencode(rows[i].rules, input->bytes, input->length, buffer, room));
            check(memcmp(buffer, wanted, sizeof buffer) == 0, "%s: the buffer holds something else", name);
        }
    }
    check_answer("no bytes at null pointers", 0, cbor_diag_reencode(CBOR_DIAG_RULES_CORE, NULL, 0, NULL, 0));
    check_answer("an encoding of 2^64 - 1 bytes", -CBOR_DIAG_ERROR_MEMORY,
                 cbor_diag_reencode(CBOR_DIAG_RULES_CORE, "\x01", SIZE_MAX, NULL, 0));
}

/* Names of parts, from RFC 9052, table 3 and section 4.2, and RFC 9053, table 18: the path, the type, and the name. */
static void test_names(void)
{
    static const char sign1[] = "\xd2\x84\x43\xa1\x01\x26\xa0\x40\x40", key[] = "\xa2\x01\x04\x20\x41\x00";
    const struct {
        struct text input, path, type, name;
        int error;
    } rows[] = {
        {TEXT(sign1), TEXT(""), TEXT(""), TEXT("COSE_Sign1"), 0},
        {TEXT(sign1), TEXT("0"), TEXT(""), TEXT("protected"), 0},
        {TEXT(sign1), TEXT("0/@/1"), TEXT(""), TEXT("alg"), 0},
        {TEXT(sign1), TEXT("3"), TEXT(""), TEXT("signature"), 0},
        {TEXT(sign1), TEXT("*"), TEXT(""), TEXT(""), 0},
        {TEXT(key), TEXT("1"), TEXT(""), TEXT(""), 0},
        {TEXT(key), TEXT(""), TEXT("COSE_Key"), TEXT("COSE_Key"), 0},
        {TEXT(key), TEXT("-1"), TEXT("COSE_Key"), TEXT("k"), 0},

        {TEXT(sign1), TEXT("4"), TEXT(""), TEXT(""), CBOR_DIAG_ERROR_NO_PART},
        {TEXT(sign1), TEXT("0/1"), TEXT(""), TEXT(""), CBOR_DIAG_ERROR_NO_PART},
        {TEXT(sign1), TEXT("0"), TEXT("COSE_Kex"), TEXT(""), CBOR_DIAG_ERROR_NO_TYPE},
        {TEXT(sign1), TEXT("0"), TEXT("\xff"), TEXT(""), CBOR_DIAG_ERROR_NO_TYPE},
        {TEXT(sign1), TEXT("\xff"), TEXT(""), TEXT(""), CBOR_DIAG_ERROR_UTF8},
        {TEXT("\x82\x01"), TEXT("0"), TEXT(""), TEXT(""), CBOR_DIAG_ERROR_CUT_SHORT},
        {TEXT("\x01\x02"), TEXT(""), TEXT(""), TEXT(""), CBOR_DIAG_ERROR_REMAINING},
        {TEXT(""), TEXT(""), TEXT(""), TEXT(""), CBOR_DIAG_ERROR_CUT_SHORT},
    };
    for (size_t i = 0; i < sizeof rows / sizeof *rows; i++) {
        const struct text *input = &rows[i].input, *path = &rows[i].path, *type = &rows[i].type, *wanted = &rows[i].name;
        int64_t expected = rows[i].error ? -rows[i].error : (int64_t)wanted->length;
        for (size_t room = 0; room <= 12; room++) {
            unsigned char buffer[12], whole[12];
            char name[40];
            snprintf(name, sizeof name, "name %zu in %zu bytes", i, room);
            memset(buffer, UNTOUCHED, sizeof buffer);
            memset(whole, UNTOUCHED, sizeof whole);
            memcpy(whole, wanted->bytes, wanted->length < room ? wanted->length : room);
            check_answer(name, expected, cbor_diag_name_at(input->bytes, input->length, path->bytes, path->length,
                                                           type->bytes, type->length, buffer, room));
            check(memcmp(buffer, whole, sizeof buffer) == 0, "%s: the buffer holds something else", name);
        }
    }
    check_answer("a name at null pointers", -CBOR_DIAG_ERROR_CUT_SHORT,
                 cbor_diag_name_at(NULL, 0, NULL, 0, NULL, 0, NULL, 0));
    check_answer("a name in 2^64 - 1 bytes", -CBOR_DIAG_ERROR_MEMORY,
                 cbor_diag_name_at("\x01", SIZE_MAX, NULL, 0, NULL, 0, NULL, 0));
    check_answer("a path of 2^64 - 1 bytes", -CBOR_DIAG_ERROR_MEMORY,
                 cbor_diag_name_at("\x01", 1, "", SIZE_MAX, NULL, 0, NULL, 0));
    check_answer("a type of 2^64 - 1 bytes", -CBOR_DIAG_ERROR_MEMORY,
                 cbor_diag_name_at("\x01", 1, NULL, 0, "", SIZE_MAX, NULL, 0));
}

static void test_reencoding_faults(void)
{
    const size_t none = CBOR_DIAG_NO_PLACE;
    const struct {
        uint32_t rules;
        struct text input;
        int64_t kind;
        size_t place, detail;
    } rows[] = {
        {CBOR_DIAG_RULES_CORE, TEXT(""), 0, none, none},
        {CBOR_DIAG_RULES_CORE, TEXT("\xa2\x02\x80\x01\x80"), 0, none, none},
        {CBOR_DIAG_RULES_CORE, TEXT("\xa2\x01\x80\x18\x01\x80"), CBOR_DIAG_VIOLATION_KEY_TWICE, 3, 1},
        {CBOR_DIAG_RULES_CORE, TEXT("\x81\xa3\x01\x80\x02\x80\x18\x01\x80"), CBOR_DIAG_VIOLATION_KEY_TWICE, 6, 2},
        {CBOR_DIAG_RULES_VALID, TEXT("\xa2\x01\x80\x01\x80"), CBOR_DIAG_VIOLATION_KEY_TWICE, 3, 1},
        {CBOR_DIAG_RULES_PREFERRED, TEXT("\xa2\x01\x26\x18\x01\x27"), CBOR_DIAG_VIOLATION_KEY_TWICE, 3, 1},
        {CBOR_DIAG_RULES_CTAP2, TEXT("\x18\x01\xc1\x00"), CBOR_DIAG_VIOLATION_TAG, 2, none},
        {CBOR_DIAG_RULES_CORE, TEXT("\x01\x82\x01"), CBOR_DIAG_VIOLATION_NO_ITEM, 3, CBOR_DIAG_ERROR_CUT_SHORT},
        {CBOR_DIAG_RULES_DCBOR, TEXT("\x7f\x61" "e\x62\xcc\x81\xff"), CBOR_DIAG_VIOLATION_NOT_NFC, none, none},
        {7, TEXT("\x00"), -CBOR_DIAG_ERROR_NO_RULES, none, none},
    };
    for (size_t i = 0; i < sizeof rows / sizeof *rows; i++) {
        char name[40];
        snprintf(name, sizeof name, "why encoding %zu fails", i);
        size_t length = rows[i].input.length, place = 99, detail = 99;
        unsigned char *input = malloc(length);
        memcpy(input, rows[i].input.bytes, length);
        check_answer(name, rows[i].kind, cbor_diag_reencode_fault(rows[i].rules, input, length, &place, &detail));
        check(place == rows[i].place, "%s: expected the place %zu, came %zu", name, rows[i].place, place);
        check(detail == rows[i].detail, "%s: expected the detail %zu, came %zu", name, rows[i].detail, detail);
        check_answer(name, rows[i].kind, cbor_diag_reencode_fault(rows[i].rules, input, length, NULL, NULL));
        int64_t came = cbor_diag_reencode(rows[i].rules, input, length, NULL, 0);
        check((came == -CBOR_DIAG_ERROR_NOT_ENCODABLE) == (rows[i].kind > 0), "%s: encoding it gave %lld", name,
              (long long)came);
        free(input);
    }
    size_t place = 99, detail = 99;
    check_answer("why no bytes at a null pointer fail", 0,
                 cbor_diag_reencode_fault(CBOR_DIAG_RULES_CORE, NULL, 0, &place, &detail));
    check(place == none && detail == none, "no bytes: expected no place, came %zu and %zu", place, detail);
    place = detail = 99;
    check_answer("why 2^64 - 1 bytes fail", -CBOR_DIAG_ERROR_MEMORY,
                 cbor_diag_reencode_fault(CBOR_DIAG_RULES_CORE, "\x01", SIZE_MAX, &place, &detail));
    check(place == none && detail == none, "2^64 - 1 bytes: expected no place, came %zu and %zu", place, detail);
}

/* Each allocation fails in turn. */
static void test_reencoding_faults_without_memory(void)
{
    int64_t came = -CBOR_DIAG_ERROR_MEMORY;
    for (failing = 0; came == -CBOR_DIAG_ERROR_MEMORY && failing < 1000; failing++) {
        size_t place = 99, detail = 99;
        allocations = held = 0;
        counting = 1;
        came = cbor_diag_reencode_fault(CBOR_DIAG_RULES_CORE, "\xa2\x01\x80\x18\x01\x80", 6, &place, &detail);
        counting = 0;
        check(held == 0, "allocation %ld fails: expected no block held, came %ld", failing, held);
        if (came == -CBOR_DIAG_ERROR_MEMORY) {
            check(place == CBOR_DIAG_NO_PLACE && detail == CBOR_DIAG_NO_PLACE,
                  "out of memory: expected no place, came %zu and %zu", place, detail);
        }
    }
    check(was_made_to_fail(), "no allocation was made to fail in why an encoding fails");
    check_answer("why an encoding fails, with memory enough", CBOR_DIAG_VIOLATION_KEY_TWICE, came);
}

static void test_reencoding_without_memory(void)
{
    int64_t came = -CBOR_DIAG_ERROR_MEMORY;
    for (failing = 0; came == -CBOR_DIAG_ERROR_MEMORY && failing < 1000; failing++) {
        unsigned char buffer[8] = {0};
        allocations = held = 0;
        counting = 1;
        came = cbor_diag_reencode(CBOR_DIAG_RULES_CORE, "\xbf\x18\x02\x80\x01\x9f\xff\xff", 8, buffer, sizeof buffer);
        counting = 0;
        check(held == 0, "allocation %ld fails: expected no block held, came %ld", failing, held);
        check(came > 0 || buffer[0] == 0, "out of memory: the buffer was written");
    }
    check(was_made_to_fail(), "no allocation was made to fail in an encoding");
    check_answer("an encoding, with memory enough", 5, came);
}

/* ---- heads, parts and values */

static void test_heads(void)
{
    const struct {
        struct text input;
        int64_t answer;
        int kind, indefinite;
        uint64_t argument;
        double number;
    } rows[] = {
        {TEXT("\x17"), 1, CBOR_DIAG_KIND_UNSIGNED, 0, 23, 0},
        {TEXT("\x19\x03\xe8\xff"), 3, CBOR_DIAG_KIND_UNSIGNED, 0, 1000, 0},
        {TEXT("\x1b\xff\xff\xff\xff\xff\xff\xff\xff"), 9, CBOR_DIAG_KIND_UNSIGNED, 0, UINT64_MAX, 0},
        {TEXT("\x38\x63"), 2, CBOR_DIAG_KIND_NEGATIVE, 0, 99, 0},
        {TEXT("\x43"), 1, CBOR_DIAG_KIND_BYTES, 0, 3, 0},
        {TEXT("\x5f"), 1, CBOR_DIAG_KIND_BYTES, 1, 0, 0},
        {TEXT("\x78\xff\xfe"), 2, CBOR_DIAG_KIND_TEXT, 0, 255, 0},
        {TEXT("\x7f"), 1, CBOR_DIAG_KIND_TEXT, 1, 0, 0},
        {TEXT("\x9a\x00\x01\x00\x00"), 5, CBOR_DIAG_KIND_ARRAY, 0, 65536, 0},
        {TEXT("\x9f\xff"), 1, CBOR_DIAG_KIND_ARRAY, 1, 0, 0},
        {TEXT("\xa2"), 1, CBOR_DIAG_KIND_MAP, 0, 2, 0},
        {TEXT("\xbf"), 1, CBOR_DIAG_KIND_MAP, 1, 0, 0},
        {TEXT("\xd9\xd9\xf7"), 3, CBOR_DIAG_KIND_TAG, 0, 55799, 0},
        {TEXT("\xf4"), 1, CBOR_DIAG_KIND_SIMPLE, 0, 20, 0},
        {TEXT("\xf8\xff"), 2, CBOR_DIAG_KIND_SIMPLE, 0, 255, 0},
        {TEXT("\xf9\x3e\x00"), 3, CBOR_DIAG_KIND_FLOAT, 0, 0x3e00, 1.5},
        {TEXT("\xf9\x00\x01"), 3, CBOR_DIAG_KIND_FLOAT, 0, 1, 1.0 / 16777216},
        {TEXT("\xf9\xfc\x00"), 3, CBOR_DIAG_KIND_FLOAT, 0, 0xfc00, -HUGE_VAL},
        {TEXT("\xfa\xc0\x20\x00\x00"), 5, CBOR_DIAG_KIND_FLOAT, 0, 0xc0200000, -2.5},
        {TEXT("\xfb\x40\x09\x21\xfb\x54\x44\x2d\x18"), 9, CBOR_DIAG_KIND_FLOAT, 0, 0x400921fb54442d18,
         3.141592653589793},
        {TEXT("\xff\x01"), 1, CBOR_DIAG_KIND_BREAK, 0, 0, 0},
        {TEXT(""), -CBOR_DIAG_ERROR_CUT_SHORT, 77, 77, 77, 77},
        {TEXT("\x19\x03"), -CBOR_DIAG_ERROR_CUT_SHORT, 77, 77, 77, 77},
        {TEXT("\x1c\x00"), -CBOR_DIAG_ERROR_HEAD, 77, 77, 77, 77},
        {TEXT("\x1f"), -CBOR_DIAG_ERROR_HEAD, 77, 77, 77, 77},
        {TEXT("\xdf"), -CBOR_DIAG_ERROR_HEAD, 77, 77, 77, 77},
    };
    for (size_t i = 0; i < sizeof rows / sizeof *rows; i++) {
        char name[32];
        snprintf(name, sizeof name, "head %zu", i);
        unsigned char *input = malloc(rows[i].input.length);
        memcpy(input, rows[i].input.bytes, rows[i].input.length);
        struct cbor_diag_head head = {77, 77, 77, 77};
        check_answer(name, rows[i].answer, cbor_diag_head(input, rows[i].input.length, &head));
        check(head.kind == rows[i].kind, "%s: expected the kind %d, came %d", name, rows[i].kind, head.kind);
        check(head.indefinite == rows[i].indefinite, "%s: expected indefinite %d, came %d", name, rows[i].indefinite,
              head.indefinite);
        check(head.argument == rows[i].argument, "%s: expected the argument %llx, came %llx", name,
              (unsigned long long)rows[i].argument, (unsigned long long)head.argument);
        check(head.number == rows[i].number, "%s: expected the number %g, came %g", name, rows[i].number, head.number);
        check_answer(name, rows[i].answer, cbor_diag_head(input, rows[i].input.length, NULL));
        free(input);
    }
    struct cbor_diag_head head;
    check_answer("the head of a NaN", 3, cbor_diag_head("\xf9\x7e\x01", 3, &head));
    check(head.number != head.number && head.argument == 0x7e01, "the head of a NaN: came %g", head.number);
    check_answer("a head at a null pointer", -CBOR_DIAG_ERROR_CUT_SHORT, cbor_diag_head(NULL, 0, NULL));
    check_answer("a head of 2^64 - 1 bytes", -CBOR_DIAG_ERROR_MEMORY, cbor_diag_head("\x01", SIZE_MAX, NULL));
}

/* A walk over an item by heads alone ends where the item does. */
static void test_walk(void)
{
    static const struct text item = TEXT("\xa2\x61" "a\x9f\x01\xc1\x02\x5f\x41\x00\xff\xff\x20\xf9\x3e\x00");
    const unsigned char *bytes = item.bytes;
    const int kinds[] = {5, 3, 4, 0, 6, 0, 2, 2, 9, 9, 1, 8};
    size_t at = 0, count = 0;
    while (at < item.length) {
        struct cbor_diag_head head;
        int64_t length = cbor_diag_head(bytes + at, item.length - at, &head);
        check(length > 0 && count < 12 && head.kind == kinds[count], "a walk: head %zu at %zu is of another kind",
              count, at);
        if (length <= 0) {
            break;
        }
        at += (size_t)length;
        if (!head.indefinite && (head.kind == CBOR_DIAG_KIND_BYTES || head.kind == CBOR_DIAG_KIND_TEXT)) {
            at += head.argument;
        }
        count++;
    }
    check(at == item.length && count == 12, "a walk: %zu heads, %zu bytes", count, at);
}

/* {"k": [1, {2: "hi"}], -1: 1(3), "e": [], "b": 24(<<[5]>>)} */
#define NESTED "\xa4\x61k\x82\x01\xa1\x02\x62hi\x20\xc1\x03\x61" "e\x80\x61" "b\xd8\x18\x42\x81\x05"

static void test_parts(void)
{
    const struct {
        struct text input, path;
        int64_t answer;
        size_t start, end;
    } rows[] = {
        {TEXT(NESTED), TEXT(""), 0, 0, 23},
        {TEXT(NESTED), TEXT("/"), 0, 0, 23},
        {TEXT(NESTED), TEXT("k"), 0, 3, 10},
        {TEXT(NESTED), TEXT("k/0"), 0, 4, 5},
        {TEXT(NESTED), TEXT("k/1/2"), 0, 7, 10},
        {TEXT(NESTED), TEXT("k/" "*/2"), 0, 7, 10},
        {TEXT(NESTED), TEXT("-1"), 0, 11, 13},
        {TEXT(NESTED), TEXT("\"e\""), 0, 15, 16},
        {TEXT(NESTED), TEXT("b"), 0, 18, 23},
        {TEXT(NESTED), TEXT("b/0"), 0, 22, 23},
        {TEXT(NESTED), TEXT("b/@/0"), 0, 22, 23},
        {TEXT(NESTED), TEXT("b/@1"), 0, 22, 23},
        {TEXT(NESTED), TEXT("k/2"), -CBOR_DIAG_ERROR_NO_PART, 0, 0},
        {TEXT(NESTED), TEXT("e/" "*"), -CBOR_DIAG_ERROR_NO_PART, 0, 0},
        {TEXT(NESTED), TEXT("x"), -CBOR_DIAG_ERROR_NO_PART, 0, 0},
        {TEXT(NESTED), TEXT("b/@9999999999999999999999"), -CBOR_DIAG_ERROR_NO_PART, 0, 0},
        {TEXT(NESTED), TEXT("\xff"), -CBOR_DIAG_ERROR_UTF8, 0, 0},
        {TEXT(""), TEXT("k"), -CBOR_DIAG_ERROR_CUT_SHORT, 0, 0},
        {TEXT("\x82\x01"), TEXT("0"), -CBOR_DIAG_ERROR_CUT_SHORT, 0, 0},
        {TEXT("\x01\x01"), TEXT("0"), -CBOR_DIAG_ERROR_REMAINING, 0, 0},
        {TEXT("\x82\x01\x1c"), TEXT("0"), -CBOR_DIAG_ERROR_HEAD, 0, 0},
        {TEXT("\x82\x01\x61\xff"), TEXT("0"), -CBOR_DIAG_ERROR_UTF8, 0, 0},
    };
    for (size_t i = 0; i < sizeof rows / sizeof *rows; i++) {
        char name[32];
        snprintf(name, sizeof name, "part %zu", i);
        size_t length = rows[i].input.length;
        unsigned char *input = malloc(length), *path = malloc(rows[i].path.length);
        memcpy(input, rows[i].input.bytes, length);
        memcpy(path, rows[i].path.bytes, rows[i].path.length);
        size_t start = 77, end = 77;
        size_t wanted_start = rows[i].answer ? CBOR_DIAG_NO_PLACE : rows[i].start;
        size_t wanted_end = rows[i].answer ? CBOR_DIAG_NO_PLACE : rows[i].end;
        check_answer(name, rows[i].answer, cbor_diag_part(input, length, path, rows[i].path.length, &start, &end));
        check(start == wanted_start && end == wanted_end, "%s: expected %zu to %zu, came %zu to %zu", name,
              wanted_start, wanted_end, start, end);
        check_answer(name, rows[i].answer, cbor_diag_part(input, length, path, rows[i].path.length, NULL, NULL));
        struct cbor_diag_value value;
        check_answer(name, rows[i].answer, cbor_diag_value(input, length, path, rows[i].path.length, &value));
        check_answer(name, rows[i].answer, cbor_diag_value(input, length, path, rows[i].path.length, NULL));
        free(input);
        free(path);
    }
    size_t start = 77, end = 77;
    check_answer("a part at null pointers", -CBOR_DIAG_ERROR_CUT_SHORT, cbor_diag_part(NULL, 0, NULL, 0, &start, &end));
    check(start == CBOR_DIAG_NO_PLACE && end == CBOR_DIAG_NO_PLACE, "a part at null pointers has a place");
    start = end = 77;
    check_answer("a part of 2^64 - 1 bytes", -CBOR_DIAG_ERROR_MEMORY,
                 cbor_diag_part("\x01", SIZE_MAX, NULL, 0, &start, &end));
    check(start == CBOR_DIAG_NO_PLACE && end == CBOR_DIAG_NO_PLACE, "a part of 2^64 - 1 bytes has a place");
    check_answer("a path of 2^64 - 1 bytes", -CBOR_DIAG_ERROR_MEMORY,
                 cbor_diag_part("\x01", 1, "", SIZE_MAX, NULL, NULL));
}

/* The parts of {"a": 1, "b": [2, 3]}, with room for each number of them. */
static void test_several_parts(void)
{
    static const struct text map = TEXT("\xa2\x61" "a\x01\x61" "b\x82\x02\x03");
    const struct {
        const char *path;
        int64_t count;
        struct cbor_diag_part parts[4];
    } rows[] = {
        {"*", 2, {{1, 3, 4}, {4, 6, 9}}},
        {"b/" "*", 2, {{7, 7, 8}, {8, 8, 9}}},
        {"*/" "*", 2, {{7, 7, 8}, {8, 8, 9}}},
        {"", 1, {{0, 0, 9}}},
        {"a", 1, {{1, 3, 4}}},
        {"c", 0, {{0, 0, 0}}},
        {"a/" "*", 0, {{0, 0, 0}}},
    };
    for (size_t i = 0; i < sizeof rows / sizeof *rows; i++) {
        for (size_t room = 0; room <= 4; room++) {
            char name[32];
            snprintf(name, sizeof name, "parts %zu, room for %zu", i, room);
            struct cbor_diag_part *parts = malloc(room * sizeof *parts);
            memset(parts, UNTOUCHED, room * sizeof *parts);
            check_answer(name, rows[i].count,
                         cbor_diag_parts(map.bytes, map.length, rows[i].path, strlen(rows[i].path), parts, room));
            for (size_t j = 0; j < room; j++) {
                struct cbor_diag_part wanted;
                memset(&wanted, UNTOUCHED, sizeof wanted);
                if ((int64_t)j < rows[i].count) {
                    wanted = rows[i].parts[j];
                }
                check(memcmp(&parts[j], &wanted, sizeof wanted) == 0, "%s: part %zu: came %zu, %zu, %zu", name, j,
                      parts[j].key, parts[j].start, parts[j].end);
            }
            free(parts);
        }
    }
    struct cbor_diag_part untouched = {77, 77, 77};
    check_answer("parts of a cut item", -CBOR_DIAG_ERROR_CUT_SHORT, cbor_diag_parts("\x81", 1, "*", 1, &untouched, 1));
    check(untouched.key == 77 && untouched.start == 77 && untouched.end == 77, "parts of a cut item were set");
    check_answer("parts at null pointers", -CBOR_DIAG_ERROR_CUT_SHORT, cbor_diag_parts(NULL, 0, NULL, 0, NULL, 0));
    check_answer("parts of 2^64 - 1 bytes", -CBOR_DIAG_ERROR_MEMORY,
                 cbor_diag_parts("\x01", SIZE_MAX, NULL, 0, NULL, 0));
    check_answer("room for 2^64 - 1 parts", 1, cbor_diag_parts("\x01", 1, NULL, 0, &untouched, SIZE_MAX));
    check(untouched.end == 1, "room for 2^64 - 1 parts: came the end %zu", untouched.end);
}

static void test_values(void)
{
    const struct {
        struct text input;
        struct cbor_diag_value value;
    } rows[] = {
        {TEXT("\x18\x2a"), {0, 0, 0, 0, 42, 0, 0, 2}},
        {TEXT("\x38\x63"), {1, 0, 0, 0, 99, 0, 0, 2}},
        {TEXT("\x43" "abc"), {2, 0, 0, 0, 3, 0, 1, 4}},
        {TEXT("\x78\x03" "abc"), {3, 0, 0, 0, 3, 0, 2, 5}},
        {TEXT("\x60"), {3, 0, 0, 0, 0, 0, 1, 1}},
        {TEXT("\x7f\x61" "a\xff"), {3, 1, 0, 0, 0, 0, 0, 4}},
        {TEXT("\x82\x01\x02"), {4, 0, 0, 0, 2, 0, 0, 3}},
        {TEXT("\x9f\xff"), {4, 1, 0, 0, 0, 0, 0, 2}},
        {TEXT("\xa0"), {5, 0, 0, 0, 0, 0, 0, 1}},
        {TEXT("\xf5"), {7, 0, 0, 0, 21, 0, 0, 1}},
        {TEXT("\xf9\x3e\x00"), {8, 0, 0, 0, 0x3e00, 1.5, 0, 3}},
        {TEXT("\xc1\x1a\x65\x53\xf1\x00"), {0, 0, 1, 1, 1700000000, 0, 0, 6}},
        {TEXT("\xd8\x20\xc2\x41\xff"), {2, 0, 1, 2, 1, 0, 4, 5}},
    };
    for (size_t i = 0; i < sizeof rows / sizeof *rows; i++) {
        char name[32];
        snprintf(name, sizeof name, "value %zu", i);
        size_t length = rows[i].input.length;
        unsigned char *input = malloc(length);
        memcpy(input, rows[i].input.bytes, length);
        struct cbor_diag_value value, wanted = rows[i].value;
        memset(&value, UNTOUCHED, sizeof value);
        check_answer(name, 0, cbor_diag_value(input, length, NULL, 0, &value));
        check(value.kind == wanted.kind && value.indefinite == wanted.indefinite && value.tagged == wanted.tagged &&
                  value.tag == wanted.tag && value.argument == wanted.argument && value.number == wanted.number,
              "%s: came %d %d %d %llu %llu %g", name, value.kind, value.indefinite, value.tagged,
              (unsigned long long)value.tag, (unsigned long long)value.argument, value.number);
        check(value.start == wanted.start && value.end == wanted.end, "%s: expected %zu to %zu, came %zu to %zu", name,
              wanted.start, wanted.end, value.start, value.end);
        free(input);
    }
    struct cbor_diag_value value = {77, 77, 77, 77, 77, 77, 77, 77};
    check_answer("the value of a cut item", -CBOR_DIAG_ERROR_CUT_SHORT, cbor_diag_value("\x81", 1, "0", 1, &value));
    check(value.kind == 77 && value.argument == 77 && value.end == 77, "the value of a cut item was set");
    check_answer("a value at null pointers", -CBOR_DIAG_ERROR_CUT_SHORT, cbor_diag_value(NULL, 0, NULL, 0, NULL));
    check_answer("a value of 2^64 - 1 bytes", -CBOR_DIAG_ERROR_MEMORY,
                 cbor_diag_value("\x01", SIZE_MAX, NULL, 0, &value));
}

/* An output of an input, in each length of the buffer. */
static void test_each_room(const char *name, int64_t (*call)(const struct text *, void *, size_t),
                           const struct text *input, struct text output)
{
    for (size_t room = 0; room <= output.length + 2; room++) {
        unsigned char *buffer = malloc(room), *wanted = malloc(room);
        memset(buffer, UNTOUCHED, room);
        memset(wanted, UNTOUCHED, room);
        memcpy(wanted, output.bytes, output.length < room ? output.length : room);
        check_answer(name, (int64_t)output.length, call(input, buffer, room));
        check_bytes(name, wanted, buffer, room);
        free(buffer);
        free(wanted);
    }
}

static int64_t paths_of(const struct text *input, void *output, size_t room)
{
    return cbor_diag_paths(input->bytes, input->length, output, room);
}

static int64_t named_of(const struct text *input, void *output, size_t room)
{
    return cbor_diag_named(input[0].bytes, input[0].length, input[1].bytes, input[1].length, output, room);
}

static int64_t recognized_of(const struct text *input, void *output, size_t room)
{
    uint32_t form = 77;
    int64_t answer = cbor_diag_recognize(input[0].bytes, input[0].length, &form, output, room);
    check(form == input[1].length, "recognizing: expected the form %zu, came %u", input[1].length, form);
    return answer;
}

static void test_shown(void)
{
    static const struct text map = TEXT("\xa2\x61k\x82\x01\x02\x20\x61" "a");
    test_each_room("paths", paths_of, &map, (struct text)TEXT("k/0  1\nk/1  2\n-1  \"a\"\n"));
    static const struct text key[] = {TEXT("\xa1\x01\x04"), TEXT("COSE_Key")};
    test_each_room("names", named_of, key, (struct text)TEXT("/COSE_Key/ {/kty/ 1: 4 /Symmetric/}\n"));
    static const struct text date[] = {TEXT("\xc1\x00"), TEXT("")};
    test_each_room("a date", named_of, date, (struct text)TEXT("1(0 /1970-01-01T00:00:00Z/)\n"));
    char buffer[4] = "xxx";
    check_answer("paths of a cut item", -CBOR_DIAG_ERROR_CUT_SHORT, cbor_diag_paths("\x81", 1, buffer, 4));
    check_answer("paths of two items", -CBOR_DIAG_ERROR_REMAINING, cbor_diag_paths("\x01\x02", 2, buffer, 4));
    check_answer("names of a cut item", -CBOR_DIAG_ERROR_CUT_SHORT, cbor_diag_named("\x81", 1, NULL, 0, buffer, 4));
    check_answer("names of no type", -CBOR_DIAG_ERROR_NO_TYPE, cbor_diag_named("\xa0", 1, "what", 4, buffer, 4));
    check_answer("nothing recognized", -CBOR_DIAG_ERROR_NOT_RECOGNIZED,
                 cbor_diag_recognize("what is it?", 11, NULL, buffer, 4));
    check(strcmp(buffer, "xxx") == 0, "an error wrote to the buffer: %s", buffer);
    check_answer("paths at null pointers", -CBOR_DIAG_ERROR_CUT_SHORT, cbor_diag_paths(NULL, 0, NULL, 0));
    check_answer("names at null pointers", -CBOR_DIAG_ERROR_CUT_SHORT, cbor_diag_named(NULL, 0, NULL, 0, NULL, 0));
    check_answer("paths of 2^64 - 1 bytes", -CBOR_DIAG_ERROR_MEMORY, cbor_diag_paths("\x01", SIZE_MAX, NULL, 0));
    check_answer("names of 2^64 - 1 bytes", -CBOR_DIAG_ERROR_MEMORY,
                 cbor_diag_named("\x01", SIZE_MAX, NULL, 0, NULL, 0));
    check_answer("recognizing 2^64 - 1 bytes", -CBOR_DIAG_ERROR_MEMORY,
                 cbor_diag_recognize("\x01", SIZE_MAX, NULL, NULL, 0));
}

static void test_recognizing(void)
{
    const struct {
        const char *name;
        struct text input, bytes;
        uint32_t form;
    } rows[] = {
        {"hex", TEXT("0x82 01 02"), TEXT("\x82\x01\x02"), CBOR_DIAG_INPUT_HEX},
        {"EDN", TEXT("[1, 2]"), TEXT("\x82\x01\x02"), CBOR_DIAG_INPUT_EDN},
        {"base 64", TEXT("ggEC"), TEXT("\x82\x01\x02"), CBOR_DIAG_INPUT_BASE64},
        {"bytes", TEXT("\x82\x01\x02\xf5"), TEXT("\x82\x01\x02\xf5"), CBOR_DIAG_INPUT_BYTES},
    };
    for (size_t i = 0; i < sizeof rows / sizeof *rows; i++) {
        struct text given[] = {rows[i].input, {NULL, rows[i].form}};
        test_each_room(rows[i].name, recognized_of, given, rows[i].bytes);
    }
    check_answer("no bytes at all", 0, cbor_diag_recognize(NULL, 0, NULL, NULL, 0));
}

/* Where in a text a byte is that it stands for. */
static void test_places_in_texts(void)
{
    const struct {
        const char *name;
        struct text text;
        uint32_t form;
        size_t byte;
        int64_t place;
    } rows[] = {
        {"a number in EDN", TEXT("{1: [2, 30]}"), CBOR_DIAG_INPUT_EDN, 4, 8},
        {"its second byte", TEXT("{1: [2, 30]}"), CBOR_DIAG_INPUT_EDN, 5, 8},
        {"the second item, behind a comment", TEXT("1 # one\n[true]"), CBOR_DIAG_INPUT_EDN, 2, 9},
        {"behind a text of two bytes", TEXT("[\"\xc3\xa9\", 1_1]"), CBOR_DIAG_INPUT_EDN, 4, 7},
        {"no such byte in EDN", TEXT("[1]"), CBOR_DIAG_INPUT_EDN, 2, 3},
        {"hex", TEXT("82 01 02"), CBOR_DIAG_INPUT_HEX, 1, 3},
        {"hex with comments", TEXT("82 # an array\n 01 // one\n 02"), CBOR_DIAG_INPUT_HEX, 2, 26},
        {"hex with 0x", TEXT("0x82 0x01"), CBOR_DIAG_INPUT_HEX, 1, 7},
        {"no such byte in hex", TEXT("8101"), CBOR_DIAG_INPUT_HEX, 2, 4},
        {"a byte past any", TEXT("8101"), CBOR_DIAG_INPUT_HEX, SIZE_MAX, 4},
        /* Byte n begins in the digit 8n / 6. */
        {"base 64", TEXT("ggEC"), CBOR_DIAG_INPUT_BASE64, 1, 1},
        {"base 64 on two lines", TEXT("gg\nEC"), CBOR_DIAG_INPUT_BASE64, 2, 3},
        {"no such byte in base 64", TEXT("gQE="), CBOR_DIAG_INPUT_BASE64, 3, 4},
        {"bytes", TEXT("\x82\x01\x02"), CBOR_DIAG_INPUT_BYTES, 2, 2},
        {"past the bytes", TEXT("\x01"), CBOR_DIAG_INPUT_BYTES, 2, 1},
        {"what is not UTF-8", TEXT("\xff"), CBOR_DIAG_INPUT_EDN, 0, 1},
        {"another form", TEXT("01"), 4, 0, -CBOR_DIAG_ERROR_NO_FORM},
    };
    for (size_t i = 0; i < sizeof rows / sizeof *rows; i++) {
        check_answer(rows[i].name, rows[i].place,
                     cbor_diag_place_in_text(rows[i].form, rows[i].text.bytes, rows[i].text.length, rows[i].byte));
    }
    check_answer("a place in no text", 0, cbor_diag_place_in_text(CBOR_DIAG_INPUT_EDN, NULL, 0, 0));
    check_answer("a place in 2^64 - 1 bytes", -CBOR_DIAG_ERROR_MEMORY,
                 cbor_diag_place_in_text(CBOR_DIAG_INPUT_HEX, "01", SIZE_MAX, 0));
}

/* ---- the lines of a page */

/* A file of names. */
static const char things[] = "[Thing]\ntag = 1000\nmap = { 1 = \"one\" }\n";

/* The lines of the item 1, as the definitions of the lines say. */
#define LINE_OF_1 "<span class=\"l\"><a class=\"o\" id=\"x0\" href=\"#x0\">0000</a>" \
                  "<span class=\"h\"><b class=\"n\">01</b></span>" \
                  "<span class=\"t\"><span class=\"n\" data-s=\"0\" data-e=\"1\">1</span></span>\n</span>"

static int64_t page_of(const struct text *input, void *output, size_t room)
{
    return cbor_diag_page(input->bytes, input->length, NULL, 0, NULL, 0, 0, output, room);
}

/* The lines of a page have some words, and lack others. */
static void check_page(struct text input, const char *type, const char *names, uint32_t flags, const char *has,
                       const char *lacks)
{
    static char lines[8192];
    memset(lines, 0, sizeof lines);
    int64_t length = cbor_diag_page(input.bytes, input.length, type, strlen(type), names, strlen(names), flags, lines,
                                    sizeof lines - 1);
    check(length > 0 && length < (int64_t)sizeof lines, "lines that have %s: came %lld", has, (long long)length);
    check(strstr(lines, has) != NULL, "expected %s in the lines, came %s", has, lines);
    check(!*lacks || strstr(lines, lacks) == NULL, "expected no %s in the lines, came %s", lacks, lines);
}

static void test_pages(void)
{
    const struct text one = TEXT("\x01"), line = TEXT(LINE_OF_1);
    test_each_room("the lines of 1", page_of, &one, line);
    test_each_room("the lines of nothing", page_of, &(struct text)TEXT(""), (struct text)TEXT(""));
    test_room("bytes to HTML", BYTES, HTML, one, line);
    test_room("hex to HTML", HEX, HTML, (struct text)TEXT("01 # one"), line);
    test_room("notation to HTML", DIAG, HTML, (struct text)TEXT("1"), line);
    test_room("EDN to HTML", EDN, HTML, (struct text)TEXT("1 # one"), line);
    test_room("the form HTML is read as EDN", HTML, BYTES, (struct text)TEXT("1 # one"), one);
    const struct text key = TEXT("\xa1\x01\x04"), thing = TEXT("\xd9\x03\xe8\xa1\x01\x02");
    check_page(key, "COSE_Key", "", 0, "/COSE_Key/", "&");
    check_page(key, "COSE_Key", "", 0, "/Symmetric/", "");
    check_page(key, "COSE_Key", "", CBOR_DIAG_PAGE_NO_NOTES, "a1", "/COSE_Key/");
    check_page(key, "", "", 0, "a1", "/COSE_Key/");
    check_page(key, "COSE_Key", things, 0, "/COSE_Key/", "");
    check_page(thing, "", things, 0, "/Thing/", "");
    check_page(thing, "Thing", things, 0, "/one/", "");
    check_page(thing, "", "", 0, "03 e8", "/Thing/");
    check_page((struct text)TEXT("\x43\x82\x01\x02"), "", "", 0, "h'820102'", "&lt;&lt;");
    check_page((struct text)TEXT("\x43\x82\x01\x02"), "", "", CBOR_DIAG_PAGE_EMBEDDED, "&lt;&lt;", "h'");
    check_page((struct text)TEXT("\x66<&>\"'/"), "", "", 0, "&lt;&amp;&gt;", "<&>");
    check_page((struct text)TEXT("\x01\x82\x01"), "", "", 0,
               "truncated: the array at byte 1 has 2 items, 1 is there", "");
    check_page((struct text)TEXT("\x82\x01\x1f"), "", "", 0, "malformed: ", "");
}

static void test_page_errors(void)
{
    char buffer[4] = "xxx";
    check_answer("a page of no type", -CBOR_DIAG_ERROR_NO_TYPE,
                 cbor_diag_page("\xa0", 1, "what", 4, NULL, 0, 0, buffer, 4));
    check_answer("a page with a type of other names", -CBOR_DIAG_ERROR_NO_TYPE,
                 cbor_diag_page("\xa0", 1, "Thing", 5, NULL, 0, 0, buffer, 4));
    check_answer("a page with wrong names", -CBOR_DIAG_ERROR_WRONG_NAMES,
                 cbor_diag_page("\xa0", 1, NULL, 0, "names", 5, 0, buffer, 4));
    check_answer("a page with names that are not UTF-8", -CBOR_DIAG_ERROR_WRONG_NAMES,
                 cbor_diag_page("\xa0", 1, NULL, 0, "\xff", 1, 0, buffer, 4));
    check_answer("a page with other flags", -CBOR_DIAG_ERROR_NO_FORM,
                 cbor_diag_page("\xa0", 1, NULL, 0, NULL, 0, 4, buffer, 4));
    check_answer("a page with all flags", -CBOR_DIAG_ERROR_NO_FORM,
                 cbor_diag_page("\xa0", 1, NULL, 0, NULL, 0, UINT32_MAX, buffer, 4));
    check_answer("a page of 2^64 - 1 bytes", -CBOR_DIAG_ERROR_MEMORY,
                 cbor_diag_page("\x01", SIZE_MAX, NULL, 0, NULL, 0, 0, buffer, 4));
    check_answer("names of 2^64 - 1 bytes for a page", -CBOR_DIAG_ERROR_MEMORY,
                 cbor_diag_page("\x01", 1, NULL, 0, "", SIZE_MAX, 0, buffer, 4));
    check(strcmp(buffer, "xxx") == 0, "an error wrote to the buffer: %s", buffer);
    check_answer("a page at null pointers", 0, cbor_diag_page(NULL, 0, NULL, 0, NULL, 0, 0, NULL, 0));
}

static int64_t names_fault_of(const struct text *names, void *output, size_t room)
{
    return cbor_diag_names_fault(names->bytes, names->length, output, room);
}

static void test_names_faults(void)
{
    const struct {
        const char *name;
        struct text names, message;
    } rows[] = {
        {"no names", TEXT(""), TEXT("")},
        {"names", TEXT("[Thing]\ntag = 1000\nmap = { 1 = \"one\" }\n"), TEXT("")},
        {"a tag below 0", TEXT("[Thing]\ntag = -1"), TEXT("line 2: a tag is an integer from 0 on")},
        {"a tag twice", TEXT("[A]\ntag = 1000\n[B]\ntag = 1000\n"),
         TEXT("line 4: another type of the file has this tag")},
        {"a type that is not there", TEXT("[A]\neach = 'B'\n"), TEXT("line 2: no type has this name")},
        {"names that are not UTF-8", TEXT("[A]\n\xff"), TEXT("not UTF-8")},
    };
    for (size_t i = 0; i < sizeof rows / sizeof *rows; i++) {
        test_each_room(rows[i].name, names_fault_of, &rows[i].names, rows[i].message);
    }
    char message[80] = "";
    check(cbor_diag_names_fault("no TOML", 7, message, sizeof message) > 0 && memcmp(message, "line 1: ", 8) == 0,
          "no TOML: came %s", message);
    check_answer("names at null pointers", 0, cbor_diag_names_fault(NULL, 0, NULL, 0));
    check_answer("names of 2^64 - 1 bytes", -CBOR_DIAG_ERROR_MEMORY, cbor_diag_names_fault("", SIZE_MAX, message, 4));
}

/* ---- CDDL */

static const char log_cddl[] = "record = {\n"
                               "  at: time,\n"
                               "  event: \"open\" / \"close\",\n"
                               "  ? id: bytes .size (3..8),\n"
                               "}\n"
                               "name = tstr .regexp \"[a-z]+\"\n";

/* The bytes of a schema, which `length` is set to the length of. */
static unsigned char *loaded(const char *cddl, const char *rule, size_t *length)
{
    int64_t wanted = cbor_diag_schema_load(cddl, strlen(cddl), rule, strlen(rule), NULL, 0);
    check(wanted > 0, "%s: no schema is loaded, came %lld", cddl, (long long)wanted);
    unsigned char *schema = malloc(wanted > 0 ? (size_t)wanted : 1);
    check_answer(cddl, wanted,
                 cbor_diag_schema_load(cddl, strlen(cddl), rule, strlen(rule), schema, (size_t)wanted));
    *length = (size_t)wanted;
    return schema;
}

static int64_t schema_of(const struct text *input, void *output, size_t room)
{
    return cbor_diag_schema_load(input[0].bytes, input[0].length, input[1].bytes, input[1].length, output, room);
}

static int64_t schema_fault_of(const struct text *input, void *output, size_t room)
{
    return cbor_diag_schema_fault(input[0].bytes, input[0].length, input[1].bytes, input[1].length, NULL, NULL, output,
                                  room);
}

static int64_t misfit_of(const struct text *input, void *output, size_t room)
{
    return cbor_diag_schema_misfit(input[0].bytes, input[0].length, input[1].bytes, input[1].length, NULL, output,
                                   room);
}

static void check_part(const char *name, const char *message, size_t begin, size_t end, const char *wanted)
{
    check(end - begin == strlen(wanted) && memcmp(message + begin, wanted, end - begin) == 0,
          "%s: expected %s, came %.*s", name, wanted, (int)(end - begin), message + begin);
}

static void test_schemas(void)
{
    char message[256];
    struct cbor_diag_misfit misfit;
    struct cbor_diag_schema *schema =
        cbor_diag_schema_new(log_cddl, strlen(log_cddl), NULL, message, sizeof message);
    check(schema != NULL, "no schema: %.*s", (int)sizeof message, message);
    /* {"at": 1(0), "event": "open"} */
    const struct text fits = TEXT("\xa2\x62" "at\xc1\x00\x65" "event\x64open");
    /* the same, and {"at": 1(0), "event": "opened"} */
    const struct text second = TEXT("\xa2\x62" "at\xc1\x00\x65" "event\x64open"
                                    "\xa2\x62" "at\xc1\x00\x65" "event\x66opened");
    check_answer("an item that fits", 0, cbor_diag_schema_check(schema, fits.bytes, fits.length, NULL, NULL, 0));
    check_answer("no item", 0, cbor_diag_schema_check(schema, NULL, 0, &misfit, message, sizeof message));
    int64_t length = cbor_diag_schema_check(schema, second.bytes, second.length, &misfit, message, sizeof message);
    const char *wanted = "expected \"open\" / \"close\" for event (line 3), found \"opened\"; at event";
    check_answer("an item that does not fit", (int64_t)strlen(wanted), length);
    check_bytes("an item that does not fit", wanted, message, strlen(wanted));
    check(misfit.item == 17 && misfit.place == 29 && misfit.line == 3, "came item %zu, place %zu, line %zu",
          misfit.item, misfit.place, misfit.line);
    check_part("expected", message, misfit.expected, misfit.expected_end, "\"open\" / \"close\"");
    check_part("rule", message, misfit.rule, misfit.rule_end, "event");
    check_part("found", message, misfit.found, misfit.found_end, "\"opened\"");
    check_part("path", message, misfit.path, misfit.path_end, "event");
    length = cbor_diag_schema_check(schema, "\x01", 1, &misfit, message, sizeof message);
    wanted = "expected a map for record (line 1), found 1";
    check_answer("an integer", (int64_t)strlen(wanted), length);
    check_bytes("an integer", wanted, message, strlen(wanted));
    check(misfit.item == 0 && misfit.place == 0 && misfit.line == 1 && misfit.path == misfit.path_end,
          "an integer: came item %zu, place %zu, line %zu", misfit.item, misfit.place, misfit.line);
    cbor_diag_schema_free(schema);
    cbor_diag_schema_free(NULL);
    schema = cbor_diag_schema_new(log_cddl, strlen(log_cddl), "name", message, sizeof message);
    check_answer("a pattern that fits", 0, cbor_diag_schema_check(schema, "\x62hi", 3, NULL, NULL, 0));
    check(cbor_diag_schema_check(schema, "\x62Hi", 3, NULL, NULL, 0) > 0, "a pattern that does not fit");
    cbor_diag_schema_free(schema);
    check(!cbor_diag_schema_new("a = [ uit ]", 11, NULL, message, sizeof message), "a name without a rule");
    check(strcmp(message, "1:7: no rule uit is there; uint is one") == 0, "a name without a rule: came %s", message);
    check(!cbor_diag_schema_new("a = uint", 8, "b", message, 8), "a rule that is not there");
    check(strcmp(message, "no rule") == 0, "a rule that is not there: came %s", message);
    check(!cbor_diag_schema_new("a = uint", SIZE_MAX, NULL, NULL, 0), "a text of 2^64 - 1 bytes");
}

static void test_schema_rooms(void)
{
    const struct {
        const char *name;
        struct text cddl[2], message;
        size_t line, column;
    } rows[] = {
        {"no fault", {TEXT("a = uint"), TEXT("")}, TEXT(""), 0, 0},
        {"a name without a rule", {TEXT("a = {\n  b: uit\n}"), TEXT("")},
         TEXT("2:6: no rule uit is there; uint is one"), 2, 6},
        {"no rule", {TEXT("; nothing"), TEXT("")}, TEXT("no rule is there"), 0, 0},
        {"no such rule", {TEXT("a = uint"), TEXT("b")}, TEXT("no rule b is there"), 0, 0},
        {"a text that is not UTF-8", {TEXT("a = \"\xff\""), TEXT("")}, TEXT("not UTF-8"), 0, 0},
        {"a rule that is not UTF-8", {TEXT("a = uint"), TEXT("\xff")}, TEXT("not UTF-8"), 0, 0},
    };
    for (size_t i = 0; i < sizeof rows / sizeof *rows; i++) {
        const struct text *cddl = rows[i].cddl;
        size_t line = 9, column = 9;
        test_each_room(rows[i].name, schema_fault_of, cddl, rows[i].message);
        cbor_diag_schema_fault(cddl[0].bytes, cddl[0].length, cddl[1].bytes, cddl[1].length, &line, &column, NULL, 0);
        check(line == rows[i].line && column == rows[i].column, "%s: came %zu:%zu", rows[i].name, line, column);
        if (rows[i].message.length > 0) {
            check_answer(rows[i].name, -CBOR_DIAG_ERROR_WRONG_CDDL, schema_of(cddl, NULL, 0));
        }
    }
    struct text loaded_text, given[2];
    size_t length;
    unsigned char *schema = loaded("a = uint", "", &length);
    loaded_text = (struct text){schema, length};
    static const struct text plain[] = {TEXT("a = uint"), TEXT("")}, named[] = {TEXT("b = 1 a = uint"), TEXT("a")};
    test_each_room("a schema", schema_of, plain, loaded_text);
    check(schema_of(named, NULL, 0) > 0, "a rule that is named");
    given[0] = loaded_text;
    given[1] = (struct text)TEXT("\x20");
    test_each_room("a misfit", misfit_of, given, (struct text)TEXT("expected uint for a (line 1), found -1"));
    free(schema);
}

/* Schemas with each byte changed and of each length: an answer or an error, and no access past the bytes. */
static void test_wrong_schemas(void)
{
    static const char cddl[] = "a = { ? \"k\" => 1..5, * tstr => b } b = [* bstr .size 2 / #6.1(b) / b] / -1.5";
    static const struct text item = TEXT("\xa2\x61k\x06\x61x\x82\x42hi\xc1\x80");
    size_t length;
    unsigned char *schema = loaded(cddl, "", &length), *changed = malloc(length);
    check(cbor_diag_schema_misfit(schema, length, item.bytes, item.length, NULL, NULL, 0) > 0, "the item fits");
    for (size_t at = 0; at < length; at++) {
        unsigned char *part = malloc(at);
        memcpy(part, schema, at);
        check_answer("a truncated schema", -CBOR_DIAG_ERROR_WRONG_SCHEMA,
                     cbor_diag_schema_misfit(part, at, item.bytes, item.length, NULL, NULL, 0));
        free(part);
        for (int bit = 0; bit < 8; bit++) {
            struct cbor_diag_misfit misfit;
            char message[64];
            memcpy(changed, schema, length);
            changed[at] ^= (unsigned char)(1 << bit);
            int64_t said = cbor_diag_schema_misfit(changed, length, item.bytes, item.length, &misfit, message,
                                                   sizeof message);
            check(said >= -CBOR_DIAG_ERROR_TOO_MUCH_WORK, "byte %zu, bit %d: came %lld", at, bit, (long long)said);
            check(said <= 0 || (misfit.expected <= misfit.expected_end && misfit.expected_end <= (size_t)said &&
                                misfit.rule <= misfit.rule_end && misfit.rule_end <= (size_t)said &&
                                misfit.found <= misfit.found_end && misfit.found_end <= (size_t)said &&
                                misfit.path <= misfit.path_end && misfit.path_end <= (size_t)said),
                  "byte %zu, bit %d: a part is past the message", at, bit);
        }
    }
    free(changed);
    free(schema);
}

static void test_schema_errors(void)
{
    char buffer[4] = "xxx";
    struct cbor_diag_misfit misfit;
    memset(&misfit, 7, sizeof misfit);
    size_t length;
    unsigned char *schema = loaded("a = uint", "", &length);
    check_answer("a truncated item", -CBOR_DIAG_ERROR_CUT_SHORT,
                 cbor_diag_schema_misfit(schema, length, "\x01\x19", 2, &misfit, buffer, 4));
    check_answer("no head", -CBOR_DIAG_ERROR_HEAD,
                 cbor_diag_schema_misfit(schema, length, "\xff", 1, &misfit, buffer, 4));
    check_answer("no schema", -CBOR_DIAG_ERROR_WRONG_SCHEMA,
                 cbor_diag_schema_misfit(NULL, 0, "\x01", 1, &misfit, buffer, 4));
    check_answer("a schema of 2^64 - 1 bytes", -CBOR_DIAG_ERROR_MEMORY,
                 cbor_diag_schema_misfit(schema, SIZE_MAX, "\x01", 1, &misfit, buffer, 4));
    check_answer("an input of 2^64 - 1 bytes", -CBOR_DIAG_ERROR_MEMORY,
                 cbor_diag_schema_misfit(schema, length, "\x01", SIZE_MAX, &misfit, buffer, 4));
    check_answer("wrong CDDL", -CBOR_DIAG_ERROR_WRONG_CDDL, cbor_diag_schema_load("a =", 3, NULL, 0, buffer, 4));
    check_answer("CDDL of 2^64 - 1 bytes", -CBOR_DIAG_ERROR_MEMORY,
                 cbor_diag_schema_load("a", SIZE_MAX, NULL, 0, buffer, 4));
    check_answer("a fault of 2^64 - 1 bytes", -CBOR_DIAG_ERROR_MEMORY,
                 cbor_diag_schema_fault("a", SIZE_MAX, NULL, 0, NULL, NULL, buffer, 4));
    check(strcmp(buffer, "xxx") == 0, "an error wrote to the buffer: %s", buffer);
    check(misfit.place == misfit.path_end && misfit.place == (size_t)0x0707070707070707, "an error set the misfit");
    free(schema);
}

/* Each allocation fails in turn in each of the calls that take memory. */
static int64_t part_call(int call, unsigned char *buffer)
{
    static unsigned char schema[4096];
    size_t start, end;
    struct cbor_diag_part parts[4];
    struct cbor_diag_value value;
    switch (call) {
    case 0:
        return cbor_diag_part("\x81\xa1\x61k\x01", 5, "0/k", 3, &start, &end);
    case 1:
        return cbor_diag_parts("\x81\xa1\x61k\x01", 5, "*/" "*", 3, parts, 4);
    case 2:
        return cbor_diag_value("\x81\xa1\x61k\x01", 5, "0/k", 3, &value);
    case 3:
        return cbor_diag_paths("\x81\xa1\x61k\x01", 5, buffer, 8);
    case 4:
        return cbor_diag_recognize("[1, {\"a\": h'00'}]", 17, NULL, buffer, 8);
    case 5:
        return cbor_diag_named("\xa1\x01\x04", 3, "COSE_Key", 8, buffer, 8);
    case 6:
        return cbor_diag_page("\xa1\x01\x04\x81", 4, "COSE_Key", 8, things, strlen(things), 0, buffer, 8);
    case 7:
        return cbor_diag_convert(BYTES, HTML, "\xa1\x01\x04", 3, buffer, 8);
    case 8:
        return cbor_diag_names_fault("[Thing]\ntag = -1", 16, (char *)buffer, 8);
    case 9:
        return cbor_diag_schema_load(log_cddl, strlen(log_cddl), "name", 4, buffer, 8);
    case 10:
        return cbor_diag_schema_fault("a = [ uit ]", 11, NULL, 0, NULL, NULL, (char *)buffer, 8);
    case 11:
        return cbor_diag_place_in_text(CBOR_DIAG_INPUT_EDN, "[1, {\"a\": h'00'}]", 17, 2);
    default:
        counting = 0;
        start = (size_t)cbor_diag_schema_load(log_cddl, strlen(log_cddl), "name", 4, schema, sizeof schema);
        counting = 1;
        return cbor_diag_schema_misfit(schema, start, "\x62Hi", 3, NULL, (char *)buffer, 8);
    }
}

static void test_parts_without_memory(void)
{
    for (int call = 0; call < 13; call++) {
        int64_t came = -CBOR_DIAG_ERROR_MEMORY;
        for (failing = 0; came == -CBOR_DIAG_ERROR_MEMORY && failing < 20000; failing++) {
            unsigned char buffer[8] = {0};
            allocations = held = 0;
            counting = 1;
            came = part_call(call, buffer);
            counting = 0;
            check(held == 0, "call %d, allocation %ld fails: expected no block held, came %ld", call, failing, held);
            check(came >= 0 || buffer[0] == 0, "call %d: the buffer was written without memory", call);
        }
        check(was_made_to_fail(), "call %d: no allocation was made to fail", call);
        check(came >= 0, "call %d, with memory enough: came %lld", call, (long long)came);
    }
}

/* Hostile bytes: each beginning of an item, and the item with each byte changed. No answer is past the bytes. */
static void test_hostile_parts(void)
{
    static const struct text item = TEXT("\xa3\x61k\x82\x01\xa1\x02\x62hi\x20\xc1\x03\x61" "b\xd8\x18\x42\x81\x05");
    static const char *const paths[] = {"",    "k",    "k/1/2", "*", "*/" "*", "b/0",
                                        "b/@", "b/@1", "-1",    "@", "h'00'",  "//"};
    for (size_t at = 0; at <= item.length; at++) {
        for (int byte = -1; byte < 256; byte++) {
            size_t length = byte < 0 ? at : item.length;
            if (byte >= 0 && at == item.length) {
                break;
            }
            unsigned char *bytes = malloc(length);
            memcpy(bytes, item.bytes, length);
            if (byte >= 0) {
                bytes[at] = (unsigned char)byte;
            }
            size_t end;
            int64_t extent = cbor_diag_extent(bytes, length, &end);
            int whole = extent == (int64_t)length;
            for (size_t i = 0; i < sizeof paths / sizeof *paths; i++) {
                size_t start = 0, stop = 0;
                struct cbor_diag_value value;
                struct cbor_diag_part parts[6];
                int64_t answer = cbor_diag_part(bytes, length, paths[i], strlen(paths[i]), &start, &stop);
                int64_t count = cbor_diag_parts(bytes, length, paths[i], strlen(paths[i]), parts, 6);
                int64_t valued = cbor_diag_value(bytes, length, paths[i], strlen(paths[i]), &value);
                check(whole == (answer == 0 || answer == -CBOR_DIAG_ERROR_NO_PART), "byte %zu is %d, %s: came %lld", at,
                      byte, paths[i], (long long)answer);
                check((answer == 0) == (count > 0) && answer == valued, "byte %zu is %d, %s: the calls differ", at,
                      byte, paths[i]);
                if (answer == 0) {
                    size_t unused;
                    check(start < stop && stop <= length && parts[0].start == start && parts[0].end == stop &&
                              parts[0].key <= start && value.start <= value.end && value.end <= stop,
                          "byte %zu is %d, %s: a part is past the bytes", at, byte, paths[i]);
                    check_answer("a part", (int64_t)(stop - start),
                                 cbor_diag_extent(bytes + start, length - start, &unused));
                }
            }
            cbor_diag_head(bytes, length, NULL);
            int64_t lines = cbor_diag_paths(bytes, length, NULL, 0);
            check(whole == (lines > 0), "byte %zu is %d: paths came to %lld", at, byte, (long long)lines);
            cbor_diag_recognize(bytes, length, NULL, NULL, 0);
            for (uint32_t form = 0; form < 4; form++) {
                int64_t place = cbor_diag_place_in_text(form, bytes, length, at);
                check(0 <= place && place <= (int64_t)length, "byte %zu is %d: a place is past the text", at, byte);
            }
            check(cbor_diag_page(bytes, length, NULL, 0, NULL, 0, 0, NULL, 0) >= 0,
                  "byte %zu is %d: the lines of a page came to an error", at, byte);
            check(whole == (cbor_diag_convert(BYTES, HTML, bytes, length, NULL, 0) > 0),
                  "byte %zu is %d: lines of a page came of what is no item, or none of an item", at, byte);
            free(bytes);
        }
    }
    char *arrays = malloc(100000);
    memset(arrays, 0x81, 100000);
    check_answer("a part of arrays too deep", -CBOR_DIAG_ERROR_TOO_DEEP,
                 cbor_diag_part(arrays, 100000, "0/0", 3, NULL, NULL));
    check_answer("paths of arrays too deep", -CBOR_DIAG_ERROR_TOO_DEEP, cbor_diag_paths(arrays, 100000, NULL, 0));
    arrays[127] = 0;
    check_answer("a part of deep arrays", 0, cbor_diag_part(arrays, 128, "0/0", 3, NULL, NULL));
    check(cbor_diag_paths(arrays, 128, NULL, 0) == 127 * 2 + 3, "paths of deep arrays: came another length");
    check(cbor_diag_named(arrays, 128, NULL, 0, NULL, 0) > 0, "deep arrays with names: came an error");
    check(cbor_diag_page(arrays, 128, NULL, 0, NULL, 0, 0, NULL, 0) > 0, "a page of deep arrays: came an error");
    free(arrays);
}

/* ---- arguments at their limits */

static void test_limits(void)
{
    unsigned char buffer[8];
    memset(buffer, UNTOUCHED, sizeof buffer);
    check_answer("null input", -CBOR_DIAG_ERROR_CUT_SHORT, cbor_diag_convert(BYTES, DIAG, NULL, 0, NULL, 0));
    check_answer("null output", 2, cbor_diag_convert(BYTES, DIAG, "\x01", 1, NULL, 0));
    check_answer("an input of 2^64 - 1 bytes", -CBOR_DIAG_ERROR_MEMORY,
                 cbor_diag_convert(BYTES, DIAG, "\x01", SIZE_MAX, buffer, sizeof buffer));
    check_answer("a violation in 2^64 - 1 bytes", -CBOR_DIAG_ERROR_MEMORY,
                 cbor_diag_violation(CBOR_DIAG_RULES_CORE, "\x01", SIZE_MAX, NULL, NULL));
    check_answer("room for 2^64 - 1 bytes", 2, cbor_diag_convert(BYTES, DIAG, "\x01", 1, buffer, SIZE_MAX));
    check_bytes("room for 2^64 - 1 bytes", "1\n\xa5\xa5\xa5\xa5\xa5\xa5", buffer, sizeof buffer);
    check(cbor_diag_version() == CBOR_DIAG_VERSION, "the version: expected %d, came %u", CBOR_DIAG_VERSION,
          cbor_diag_version());
}

/* ---- memory */

static void test_failing_memory(int from, int to, struct text input, struct text output)
{
    unsigned char buffer[400], as_before[400];
    int64_t came = -CBOR_DIAG_ERROR_MEMORY;
    int failed = 1; /* whether that allocation was asked for; the call may do without it, as that for JSON does */
    memset(as_before, UNTOUCHED, sizeof as_before);
    for (failing = 0; failed && failing < 1000; failing++) {
        memset(buffer, UNTOUCHED, sizeof buffer);
        allocations = held = 0;
        counting = 1;
        came = cbor_diag_convert(from, to, input.bytes, input.length, buffer, sizeof buffer);
        counting = 0;
        failed = allocations > failing;
        check(held == 0, "allocation %ld fails: expected no block held, came %ld", failing, held);
        if (came < 0) {
            check_answer("an allocation fails", -CBOR_DIAG_ERROR_MEMORY, came);
            check_bytes("an allocation fails", as_before, buffer, sizeof buffer);
        }
    }
    check(was_made_to_fail(), "no allocation was made to fail from %d to %d", from, to);
    check_answer("no allocation fails", (int64_t)output.length, came);
    check_bytes("no allocation fails", output.bytes, buffer, output.length);
}

static void test_memory(void)
{
    for (int from = 0; from < FORMS; from++) {
        for (int to = 0; to < FORMS; to++) {
            test_failing_memory(from, to, uri[from], uri_from(from, to));
        }
    }
    test_faults_without_memory(HEX, "82 01 1c # 28", CBOR_DIAG_ERROR_HEAD);
    test_faults_without_memory(DIAG, "[h'00', \"a\", 1.5]", CBOR_DIAG_ERROR_NOTATION);
    test_faults_without_memory(EDN, "[h'00', \"a\", 1.5.]", CBOR_DIAG_ERROR_NOTATION);
    test_paths_without_memory();
    struct text twice = TEXT("\xa3\x01\x80\x00\x80\x01\x80"), one = TEXT("\xa2\x01\x26\x18\x01\x27");
    struct text marks = TEXT("\x6b" "a\xcc\x81\xcc\xa7" "o\xcc\x81" "e\xcc\xa3");
    test_violations_without_memory(CBOR_DIAG_RULES_VALID, twice, CBOR_DIAG_VIOLATION_KEY_TWICE);
    check(was_made_to_fail(), "no allocation was made to fail where keys differ");
    test_violations_without_memory(CBOR_DIAG_RULES_VALID, one, CBOR_DIAG_VIOLATION_KEY_TWICE);
    test_violations_without_memory(CBOR_DIAG_RULES_DCBOR, marks, CBOR_DIAG_VIOLATION_NOT_NFC);
    test_violations_without_memory(CBOR_DIAG_RULES_CORE, twice, CBOR_DIAG_VIOLATION_KEY_ORDER);
    check(failing == 1, "a rule that needs no memory took some");
    test_reencoding_without_memory();
    test_reencoding_faults_without_memory();
    test_parts_without_memory();
    struct text map = TEXT("\xa2\x01\x00\x61" "a\xf9\x3c\x00"), json = TEXT("{\"1\": 0, \"a\": 1.0}\n");
    test_failing_memory(BYTES, JSON, map, json);
    test_failing_memory(HEX, JSON, (struct text)TEXT("a2 01 00 61 61 f9 3c 00"), json);
    test_failing_memory(EDN, JSON, (struct text)TEXT("{1: 0, \"a\": 1.0}"), json);
    test_output_faults_without_memory();
}

/* ---- openings */

static void test_openings(void)
{
    const struct {
        const char *name;
        int from;
        const char *opening;
    } rows[] = {
        {"arrays", BYTES, "\x81"},   {"indefinite arrays", BYTES, "\x9f"}, {"maps", BYTES, "\xa1"},
        {"tags", BYTES, "\xc1"},     {"arrays in hex", HEX, "81"},         {"arrays", DIAG, "["},
        {"maps", DIAG, "{"},         {"tags", DIAG, "1("},                 {"arrays", PRETTY, "[_ "},
    };
    const size_t count = 200000;
    char *openings = malloc(3 * count);
    for (size_t i = 0; i < sizeof rows / sizeof *rows; i++) {
        size_t length = strlen(rows[i].opening);
        for (size_t j = 0; j < count; j++) {
            memcpy(openings + j * length, rows[i].opening, length);
        }
        for (int to = 0; to < FORMS; to++) {
            struct text input = {openings, count * length};
            check_refused(rows[i].name, rows[i].from, to, input, CBOR_DIAG_ERROR_TOO_DEEP);
        }
    }
    free(openings);
}

/* ---- a large array of the number 1 */

struct buffer {
    unsigned char *bytes;
    size_t length;
};

static void append(struct buffer *buffer, const char *piece, size_t length)
{
    memcpy(buffer->bytes + buffer->length, piece, length);
    buffer->length += length;
}

/* A first piece, then a piece as often as the array has items, and then a last piece. */
static struct buffer repeated(const char *first, size_t first_length, const char *piece, size_t count, const char *last)
{
    struct buffer buffer = {malloc(first_length + strlen(piece) * count + strlen(last)), 0};
    append(&buffer, first, first_length);
    for (size_t i = 0; i < count; i++) {
        append(&buffer, piece, strlen(piece));
    }
    append(&buffer, last, strlen(last));
    return buffer;
}

static void test_large(size_t count)
{
    unsigned char head[5] = {0x9a, 0, (unsigned char)(count >> 16), (unsigned char)(count >> 8), (unsigned char)count};
    char first_line[80];
    snprintf(first_line, sizeof first_line, "9a %08zx # array(%zu)\n", count, count);
    struct buffer forms[FORMS] = {
        repeated((char *)head, 5, "\x01", count, ""),
        repeated(first_line, strlen(first_line), "   01       #   unsigned(1)\n", count, ""),
        repeated("[", 1, "1,", count - 1, "1]\n"),
        repeated("[\n", 2, "    1,\n", count, "]\n"),
        repeated("[", 1, "1, ", count - 1, "1]\n"),
        repeated("[\n", 2, "    1,\n", count, "]\n"),
    };
    for (int from = 0; from < FORMS; from++) {
        for (int to = 0; to < FORMS; to++) {
            char name[64];
            snprintf(name, sizeof name, "a large array from %s to %s", form_names[from], form_names[to]);
            size_t room = forms[to].length;
            unsigned char *output = malloc(room);
            check_answer(name, (int64_t)room,
                         cbor_diag_convert(from, to, forms[from].bytes, forms[from].length, output, room));
            check_bytes(name, forms[to].bytes, output, room);
            free(output);
        }
    }
    for (int form = 0; form < FORMS; form++) {
        free(forms[form].bytes);
    }
}

/* ---- threads */

static long rounds_of_threads;

/* Rules and items that are nested as deeply as they may be, and more deeply. */
static void check_schemas_in_a_thread(const char *arrays, size_t length)
{
    static const char nested[] = "a = [a] / uint", chain[] = "a = [b] b = c c = d d = [a] / e e = uint / [a] / tstr";
    char cddl[1200];
    unsigned char schema[16384];
    int64_t size = cbor_diag_schema_load(nested, strlen(nested), NULL, 0, schema, sizeof schema);
    check_answer("arrays in a thread", 0, cbor_diag_schema_misfit(schema, (size_t)size, arrays, length, NULL, NULL, 0));
    size = cbor_diag_schema_load(chain, strlen(chain), NULL, 0, schema, sizeof schema);
    check(cbor_diag_schema_misfit(schema, (size_t)size, arrays, length, NULL, NULL, 0) != -CBOR_DIAG_ERROR_MEMORY,
          "rules in a thread: came an error");
    for (size_t depth = 50; depth < 550; depth += 50) {
        size_t at = (size_t)sprintf(cddl, "a = ");
        memset(cddl + at, '[', depth);
        memcpy(cddl + at + depth, "uint", 4);
        memset(cddl + at + depth + 4, ']', depth);
        size = cbor_diag_schema_load(cddl, at + 2 * depth + 4, NULL, 0, schema, sizeof schema);
        check(size > 0 || size == -CBOR_DIAG_ERROR_WRONG_CDDL, "%zu brackets in a thread: came %lld", depth,
              (long long)size);
        check(size < 0 || cbor_diag_schema_misfit(schema, (size_t)size, arrays, length, NULL, NULL, 0) > 0,
              "%zu brackets in a thread: the item fits", depth);
    }
}

/* Writes 1 in this many byte strings, each the content of the next, and returns how many bytes that takes. */
static size_t push_byte_strings(unsigned char *out, size_t strings)
{
    size_t length = 1;
    out[0] = 1;
    for (size_t i = 0; i < strings; i++) {
        unsigned char head[3] = {0x59, (unsigned char)(length >> 8), (unsigned char)length};
        memmove(out + sizeof head, out, length);
        memcpy(out, head, sizeof head);
        length += sizeof head;
    }
    return length;
}

/* Rules that lead back to themselves, by each way into an item, on items of many depths: an item fits, or the check
 * reports that it is nested too deeply. */
static void check_deep_schemas_in_a_thread(void)
{
    static const struct {
        const char *cddl, *head;
    } ways[] = {
        {"a = [a] / uint", "\x81"},
        {"a = [* a] / uint", "\x81"},
        {"a = [b // a] / uint b = tstr", "\x81"},
        {"a = [g] / uint g = (h) h = (? a)", "\x81"},
        {"a = {1: a} / uint", "\xa1\x01"},
        {"a = {* uint => a} / uint", "\xa1\x01"},
        {"a = #6.1(a) / uint", "\xc1"},
        {"a = #6.<n>(a) / uint n = uint", "\xc1"},
        {"a = bstr .cbor a / uint", NULL},
        {"a = bstr .cborseq [a] / uint", NULL},
        {"a = (bstr .and b) / uint b = bstr .cbor a", NULL},
    };
    unsigned char schema[4096], item[1024];
    for (size_t i = 0; i < sizeof ways / sizeof *ways; i++) {
        int64_t size = cbor_diag_schema_load(ways[i].cddl, strlen(ways[i].cddl), NULL, 0, schema, sizeof schema);
        check(size > 0, "%s: came %lld", ways[i].cddl, (long long)size);
        for (size_t depth = 10; depth < 128 || (!ways[i].head && depth < 300); depth++) {
            size_t length = ways[i].head ? 0 : push_byte_strings(item, depth);
            for (size_t level = 0; ways[i].head && level < depth; level++) {
                memcpy(item + length, ways[i].head, strlen(ways[i].head));
                length += strlen(ways[i].head);
            }
            item[ways[i].head ? length++ : length - 1] = 1;
            int64_t answer = cbor_diag_schema_misfit(schema, (size_t)size, item, length, NULL, NULL, 0);
            check(answer == 0 || (depth > 90 && answer == -CBOR_DIAG_ERROR_TOO_MUCH_WORK), "%s, %zu deep: came %lld",
                  ways[i].cddl, depth, (long long)answer);
        }
    }
}

/* All pairs of forms over and over, and items at the deepest level, which take the most stack. */
static void *converting(void *unused)
{
    (void)unused;
    /* The number 1 in 127 byte strings, one in the other. The innermost 23 have heads of one byte, the rest of two. */
    char deepest[4 * 127 + 1];
    const int64_t deepest_length = 1 + 23 + 2 * 104;
    memset(deepest, '<', 2 * 127);
    deepest[2 * 127] = '1';
    memset(deepest + 2 * 127 + 1, '>', 2 * 127);
    check_deep_schemas_in_a_thread();
    for (long round = 0; round < rounds_of_threads; round++) {
        unsigned char output[400];
        int from = (int)(round % FORMS), to = (int)(round / FORMS % FORMS);
        struct text wanted = uri_from(from, to);
        check_answer("in a thread", (int64_t)wanted.length,
                     cbor_diag_convert(from, to, uri[from].bytes, uri[from].length, output, sizeof output));
        check_bytes("in a thread", wanted.bytes, output, wanted.length);
        check_answer("127 levels in a thread", deepest_length,
                     cbor_diag_convert(DIAG, BYTES, deepest, sizeof deepest, output, sizeof output));
        check(output[0] == 0x58 && output[1] == deepest_length - 2 && output[deepest_length - 1] == 1,
              "127 levels in a thread: came %02x %02x", output[0], output[1]);
        if (round % 256 == 0) {
            uint32_t form;
            check_answer("127 levels, recognized in a thread", deepest_length,
                         cbor_diag_recognize(deepest, sizeof deepest, &form, output, sizeof output));
            char arrays[128];
            memset(arrays, 0x81, 127);
            arrays[127] = 1;
            check_answer("a part in a thread", 0, cbor_diag_part(arrays, sizeof arrays, "0/0/0", 5, NULL, NULL));
            check(cbor_diag_paths(arrays, sizeof arrays, NULL, 0) > 0, "paths in a thread: came an error");
            check(cbor_diag_named(arrays, sizeof arrays, NULL, 0, NULL, 0) > 0, "names in a thread: came an error");
            check(cbor_diag_page(arrays, sizeof arrays, NULL, 0, things, strlen(things), 0, NULL, 0) > 0,
                  "a page in a thread: came an error");
            check(cbor_diag_convert(BYTES, HTML, arrays, sizeof arrays, NULL, 0) > 0,
                  "lines of a page in a thread: came an error");
            check_schemas_in_a_thread(arrays, sizeof arrays);
        }
    }
    return NULL;
}

static void test_threads(void)
{
    pthread_t threads[4];
    pthread_attr_t attributes;
    pthread_attr_init(&attributes);
    pthread_attr_setstacksize(&attributes, CBOR_DIAG_STACK_SIZE);
    for (int i = 0; i < 4; i++) {
        check(pthread_create(&threads[i], &attributes, converting, NULL) == 0, "a thread could not be started");
    }
    for (int i = 0; i < 4; i++) {
        pthread_join(threads[i], NULL);
    }
    pthread_attr_destroy(&attributes);
}

static void *checking_schemas(void *unused)
{
    (void)unused;
    test_schemas();
    test_schema_rooms();
    test_wrong_schemas();
    test_schema_errors();
    return NULL;
}

/* With no more stack than the header asks for. */
static void test_schemas_in_a_thread(void)
{
    pthread_t thread;
    pthread_attr_t attributes;
    pthread_attr_init(&attributes);
    pthread_attr_setstacksize(&attributes, CBOR_DIAG_STACK_SIZE);
    check(pthread_create(&thread, &attributes, checking_schemas, NULL) == 0, "a thread could not be started");
    pthread_join(thread, NULL);
    pthread_attr_destroy(&attributes);
}

int main(int argc, char **argv)
{
    size_t count = argc > 1 ? strtoul(argv[1], NULL, 10) : 500000;
    rounds_of_threads = (long)count / 25;
    test_all_pairs_in_every_room();
    test_edn();
    test_json();
    test_output_faults();
    test_errors();
    test_error_texts();
    test_extents();
    test_deep_extent();
    test_scanner();
    test_scanner_limits();
    test_deep_scanner();
    test_faults();
    test_fault_texts();
    test_fault_paths();
    test_violations();
    test_violation_texts();
    test_reencoding();
    test_reencoding_faults();
    test_names();
    test_heads();
    test_walk();
    test_parts();
    test_several_parts();
    test_values();
    test_shown();
    test_recognizing();
    test_places_in_texts();
    test_pages();
    test_page_errors();
    test_names_faults();
    test_schemas_in_a_thread();
    test_hostile_parts();
    test_limits();
    test_memory();
    test_openings();
    test_large(count);
    test_threads();
    printf("%ld checks, %ld failed\n", checks, failures);
    return failures == 0 ? 0 : 1;
}
