/*
 * cbor_diag.h - converts CBOR data items (RFC 8949, which replaced RFC 7049) between bytes, hex with comments,
 * diagnostic notation, EDN (the notation of RFC 8949 and RFC 8610) and JSON.
 *
 *     static const char notation[] = "[1, {\"a\": h'00ff'}]";
 *     unsigned char bytes[64];
 *     int64_t length = cbor_diag_convert(CBOR_DIAG_FORM_DIAG, CBOR_DIAG_FORM_BYTES,
 *                                        notation, strlen(notation), bytes, sizeof bytes);
 *
 * Link with -lcbor_diag. The library needs malloc, realloc, free, memcpy, memmove and memset, and nothing else
 * of the system.
 *
 * The library keeps nothing between calls, so any number of threads may call it at once. During a call nobody may
 * change its input or use its output. A call frees all memory that it takes. It calls malloc, so do not call it from a
 * signal handler, nor in the forked child of a process that has threads. CBOR_DIAG_STACK_SIZE bytes of stack are enough
 * for each call. A scanner (struct cbor_diag_scanner, below) belongs to the caller: one thread at a time may use it.
 */
#ifndef CBOR_DIAG_H
#define CBOR_DIAG_H

#include <stddef.h>
#include <stdint.h>
#include <stdlib.h>
#include <string.h>

#ifdef __cplusplus
extern "C" {
#endif

/* The version of this header: 10000 * major + 100 * minor + patch. */
#define CBOR_DIAG_VERSION 200

/* Bytes of stack that are enough for each call, as measured. Checks by CDDL take the most, for rules and items that are
 * nested as deeply as they may be. */
#define CBOR_DIAG_STACK_SIZE 1048576

/* The form of an input or of an output. Each form can be both. */
enum cbor_diag_form {
    CBOR_DIAG_FORM_BYTES = 0, /* the bytes of an item */
    CBOR_DIAG_FORM_HEX = 1,   /* hex with comments from # to the end of the line; the output is a dump */
    CBOR_DIAG_FORM_DIAG = 2,  /* diagnostic notation; the output is one line, but for line feeds in its texts */
    CBOR_DIAG_FORM_PRETTY = 3, /* diagnostic notation; the output may have several lines */
    CBOR_DIAG_FORM_EDN = 4,    /* one item in EDN; an input may be JSON; the output is one line */
    CBOR_DIAG_FORM_EDN_PRETTY = 5, /* one item in EDN; the output may have several lines, and comments */
    CBOR_DIAG_FORM_JSON = 6,       /* JSON on one line; an input is read as EDN */
    CBOR_DIAG_FORM_JSON_STRICT = 7, /* the same, but what JSON does not keep is an error */
    CBOR_DIAG_FORM_HTML = 8        /* the lines of a page of HTML; an input is read as EDN */
};

/*
 * A line feed ends each output in notation, EDN and JSON.
 *
 * EDN has decimal floats and texts with the escapes of JSON, and shows the width of a number or length only if that is
 * not the shortest. An output in EDN is read back as the same bytes, except a simple value below 32 in two bytes, which
 * RFC 8949 forbids. It has no control characters but line feeds, and these only outside of texts.
 *
 * JSON follows RFC 8949, section 6.1: tags are left out; NaN, the infinities and undefined become null; byte strings
 * become base64url; a key that is no text becomes a string of its EDN, so 1 becomes "1". Unlike in that section, big
 * numbers of at most 1,024 bytes become their digits. Two keys of a map that become the same are an error.
 * CBOR_DIAG_FORM_JSON_STRICT also refuses what JSON does not keep: a tag, NaN, an infinity, a simple value other than
 * false, true and null, a byte string, and a key that is no text. JSON has no control characters but the line feed at
 * its end.
 *
 * The lines of a page have the item in EDN as CBOR_DIAG_FORM_EDN_PRETTY has it, and each line beside its own bytes.
 * They are elements of HTML, to be put into a page. No tag in them comes from data: &, <, > and " are escaped.
 * cbor_diag_page writes such lines with names, for any bytes.
 *
 * Diagnostic notation shows a text string as it is, with its line feeds and control characters. So hostile input can
 * forge lines, and send escape sequences to a terminal. A dump, EDN and JSON escape them.
 */

/* Errors. A call returns minus one of these. */
enum cbor_diag_error {
    CBOR_DIAG_ERROR_MEMORY = 1,      /* out of memory; it says nothing about the input */
    CBOR_DIAG_ERROR_CUT_SHORT = 2,   /* the item is truncated: more bytes are needed */
    CBOR_DIAG_ERROR_HEAD = 3,        /* no item can have this head */
    CBOR_DIAG_ERROR_UTF8 = 4,        /* a text is not UTF-8, or the hex, notation or EDN of the input is not */
    CBOR_DIAG_ERROR_TOO_DEEP = 5,    /* nested deeper than 128 levels */
    CBOR_DIAG_ERROR_REMAINING = 6,   /* bytes remain after the item */
    CBOR_DIAG_ERROR_ODD_HEX = 7,     /* the hex has an odd number of bytes, not counting comments, spaces and
                                        line ends */
    CBOR_DIAG_ERROR_BAD_HEX = 8,     /* that number is even, and one of the bytes is not a hex digit */
    CBOR_DIAG_ERROR_NOTATION = 9,    /* not diagnostic notation, or not one item in EDN */
    CBOR_DIAG_ERROR_PAST_WIDTH = 10, /* a number does not fit its width */
    CBOR_DIAG_ERROR_NO_FORM = 11,    /* no such form: `from` or `to` is not an enum cbor_diag_form; or no such flags */
    CBOR_DIAG_ERROR_NO_RULES = 12,   /* no such rules: `rules` is not an enum cbor_diag_rules */
    CBOR_DIAG_ERROR_NOT_ENCODABLE = 13, /* no encoding of the items keeps the rules, or the bytes are not items */
    CBOR_DIAG_ERROR_SAME_KEYS = 14,  /* two keys of a map become the same in JSON */
    CBOR_DIAG_ERROR_NOT_KEPT = 15,   /* JSON does not keep all of the item: only for CBOR_DIAG_FORM_JSON_STRICT */
    CBOR_DIAG_ERROR_NO_PART = 16,    /* the path leads to no part of the item */
    CBOR_DIAG_ERROR_NO_TYPE = 17,    /* no type of the tables of names has this name */
    CBOR_DIAG_ERROR_NOT_RECOGNIZED = 18, /* neither hex, EDN, base 64 nor bytes of items */
    CBOR_DIAG_ERROR_WRONG_NAMES = 19, /* the file of names has an error: cbor_diag_names_fault says which */
    CBOR_DIAG_ERROR_WRONG_CDDL = 20, /* the CDDL has an error: cbor_diag_schema_fault says which */
    CBOR_DIAG_ERROR_WRONG_SCHEMA = 21, /* the bytes are no schema that cbor_diag_schema_load wrote */
    CBOR_DIAG_ERROR_TOO_MUCH_WORK = 22 /* matching an item takes more than 10 million steps, or nests too deeply */
};

/* What a head is: its major type, or a float, or a break. */
enum cbor_diag_kind {
    CBOR_DIAG_KIND_UNSIGNED = 0, /* an unsigned integer: the argument */
    CBOR_DIAG_KIND_NEGATIVE = 1, /* a negative integer: -1 minus the argument */
    CBOR_DIAG_KIND_BYTES = 2,    /* a byte string of as many bytes as the argument says */
    CBOR_DIAG_KIND_TEXT = 3,     /* a text string of as many bytes of UTF-8 */
    CBOR_DIAG_KIND_ARRAY = 4,    /* an array of as many items */
    CBOR_DIAG_KIND_MAP = 5,      /* a map of as many pairs */
    CBOR_DIAG_KIND_TAG = 6,      /* a tag: the argument is its number, and its item follows */
    CBOR_DIAG_KIND_SIMPLE = 7,   /* a simple value: 20 is false, 21 true, 22 null, 23 undefined */
    CBOR_DIAG_KIND_FLOAT = 8,    /* a float: its bits are the argument */
    CBOR_DIAG_KIND_BREAK = 9     /* the end of an indefinite length */
};

/* A head, as cbor_diag_head reads it. */
struct cbor_diag_head {
    uint8_t kind;       /* an enum cbor_diag_kind */
    uint8_t indefinite; /* 1 for an indefinite length; the argument is 0 then */
    uint64_t argument;  /* a number, a length, a count, a tag, a simple value, or the bits of a float */
    double number;      /* the number of a float, and 0 for other kinds */
};

/* A part of an item, as cbor_diag_parts finds it: where it is in the bytes. */
struct cbor_diag_part {
    size_t key;   /* where its key begins, if it is a value of a map; otherwise the same as start */
    size_t start; /* where it begins, with its tags */
    size_t end;   /* where it ends */
};

/* The value of a part, as cbor_diag_value finds it: that of the head below its tags. */
struct cbor_diag_value {
    uint8_t kind;       /* an enum cbor_diag_kind, neither a tag nor a break */
    uint8_t indefinite; /* 1 for an indefinite length; the argument is 0 then */
    uint8_t tagged;     /* 1 if it has tags */
    uint64_t tag;       /* the innermost of its tags, and 0 without any */
    uint64_t argument;  /* as in struct cbor_diag_head */
    double number;      /* the number of a float, and 0 for other kinds */
    size_t start;       /* where the content of a string of definite length begins; of any other part where it begins */
    size_t end;         /* where that ends */
};

/* Why an item does not fit CDDL, as cbor_diag_schema_check finds it. Four parts are spans of the message. */
struct cbor_diag_misfit {
    size_t place;        /* how many bytes of the input come before what does not fit */
    size_t item;         /* how many come before the outermost item that it is in */
    size_t line;         /* the line of that rule or entry of the CDDL, from 1 on; 0 if `rule` is empty */
    size_t expected;     /* where in the message it says what is expected there, */
    size_t expected_end; /* and where that ends */
    size_t rule;         /* the same for the innermost rule or entry that has a name; empty if there is none */
    size_t rule_end;
    size_t found;        /* the same for what is found there */
    size_t found_end;
    size_t path;         /* the same for the path in the outermost item; empty for that item itself */
    size_t path_end;
};

/* The form that cbor_diag_recognize finds. */
enum cbor_diag_input {
    CBOR_DIAG_INPUT_BYTES = 0, /* the bytes of items, one after the other */
    CBOR_DIAG_INPUT_HEX = 1,   /* these bytes in hex, as people paste it */
    CBOR_DIAG_INPUT_EDN = 2,   /* items in EDN, none or more */
    CBOR_DIAG_INPUT_BASE64 = 3 /* the bytes in base 64, in either alphabet */
};

/* How cbor_diag_page shows items. Flags are added. */
enum cbor_diag_page_flag {
    CBOR_DIAG_PAGE_NO_NOTES = 1, /* without names and notes */
    CBOR_DIAG_PAGE_EMBEDDED = 2  /* a byte string that is an array, a map or a tagged item is shown as that: <<..>> */
};

/* What JSON does not keep. */
enum cbor_diag_loss {
    CBOR_DIAG_LOSS_TAG = 1,        /* a tag */
    CBOR_DIAG_LOSS_NOT_FINITE = 2, /* NaN or an infinity */
    CBOR_DIAG_LOSS_SIMPLE = 3,     /* a simple value other than false, true and null */
    CBOR_DIAG_LOSS_BYTES = 4,      /* a byte string */
    CBOR_DIAG_LOSS_KEY = 5         /* a key that is not a text string */
};

/* Sets of rules for an encoding. Each includes the rules of the first. */
enum cbor_diag_rules {
    CBOR_DIAG_RULES_RFC8949 = 0,      /* well formed: no f8 before a byte below 32 */
    CBOR_DIAG_RULES_VALID = 1,        /* no map has a key twice (RFC 8949, section 5.6.1); takes memory */
    CBOR_DIAG_RULES_PREFERRED = 2,    /* preferred serialization (RFC 8949, section 4.1) */
    CBOR_DIAG_RULES_CORE = 3,         /* core deterministic encoding (RFC 8949, section 4.2.1) */
    CBOR_DIAG_RULES_LENGTH_FIRST = 4, /* length-first deterministic encoding (RFC 8949, section 4.2.3) */
    CBOR_DIAG_RULES_CTAP2 = 5,        /* canonical CBOR (CTAP 2.1, section 8) */
    CBOR_DIAG_RULES_DCBOR = 6         /* dCBOR; takes memory */
};

/* How a head or a key violates a rule. */
enum cbor_diag_violation_kind {
    CBOR_DIAG_VIOLATION_NO_ITEM = 1,          /* no item begins there, or it is truncated, or not UTF-8 */
    CBOR_DIAG_VIOLATION_LONG_SIMPLE = 2,      /* f8 before a byte below 32 */
    CBOR_DIAG_VIOLATION_LONG_HEAD = 3,        /* a number in a non-minimal width: a value, length, count or tag */
    CBOR_DIAG_VIOLATION_NOT_NFC = 4,          /* a text, or a chunk of one, that is not in NFC */
    CBOR_DIAG_VIOLATION_LONG_FLOAT = 5,       /* a float in a non-minimal width */
    CBOR_DIAG_VIOLATION_INTEGER_FLOAT = 6,    /* a float that is an integer */
    CBOR_DIAG_VIOLATION_OTHER_NAN = 7,        /* a NaN other than f97e00 */
    CBOR_DIAG_VIOLATION_OTHER_SIMPLE = 8,     /* a simple value other than false, true and null */
    CBOR_DIAG_VIOLATION_INDEFINITE = 9,       /* an indefinite length */
    CBOR_DIAG_VIOLATION_TAG = 10,             /* a tag */
    CBOR_DIAG_VIOLATION_LEADING_ZERO = 11,    /* a big number with a zero byte in front */
    CBOR_DIAG_VIOLATION_SMALL_BIG_NUMBER = 12, /* a big number that fits an integer */
    CBOR_DIAG_VIOLATION_TOO_DEEP = 13,        /* an array or a map at a level that is too deep */
    CBOR_DIAG_VIOLATION_KEY_ORDER = 14,       /* a key that comes before the one before it, in the order of keys */
    CBOR_DIAG_VIOLATION_KEY_TWICE = 15        /* a key that the map has already */
};

/* Enough for the text of each error with the zero byte that ends it. */
#define CBOR_DIAG_ERROR_TEXT_SIZE 64

/*
 * The state of a scanner. The caller provides this memory, on the stack or anywhere else, and cbor_diag_scanner_init
 * initializes it. Nothing has to be freed. Only the library looks inside. It holds no pointers, so a copy of it is a
 * scanner that was fed the same bytes.
 */
#define CBOR_DIAG_SCANNER_SIZE 2048
struct cbor_diag_scanner {
    uint64_t room[CBOR_DIAG_SCANNER_SIZE / 8];
};

#ifdef __cplusplus
static_assert(sizeof(struct cbor_diag_scanner) == CBOR_DIAG_SCANNER_SIZE, "the size that the library is built for");
static_assert(alignof(struct cbor_diag_scanner) == 8, "the alignment that the library is built for");
#elif __STDC_VERSION__ >= 201112L
_Static_assert(sizeof(struct cbor_diag_scanner) == CBOR_DIAG_SCANNER_SIZE, "the size that the library is built for");
_Static_assert(_Alignof(struct cbor_diag_scanner) == 8, "the alignment that the library is built for");
#endif

/*
 * The functions that the library exports. No pointer may be null, each length is at most PTRDIFF_MAX, and the output
 * does not overlap the input. The memory of a scanner overlaps nothing else. In C and C++, call the functions of the
 * same names below, which allow null pointers. Other languages call these.
 */
int64_t cbor_diag_convert(uint32_t from, uint32_t to, const uint8_t *input, size_t input_len, uint8_t *output,
                          size_t output_len);
int64_t cbor_diag_extent(const uint8_t *input, size_t input_len, size_t *end);
int64_t cbor_diag_fault(uint32_t from, const uint8_t *input, size_t input_len, size_t *place);
int64_t cbor_diag_fault_text(uint32_t from, const uint8_t *input, size_t input_len, uint8_t *text, size_t text_len);
int64_t cbor_diag_fault_path(uint32_t from, const uint8_t *input, size_t input_len, uint8_t *path, size_t path_len);
int64_t cbor_diag_fault_message(uint32_t from, const uint8_t *input, size_t input_len, uint8_t *message,
                                size_t message_len);
int64_t cbor_diag_output_fault(uint32_t from, uint32_t to, const uint8_t *input, size_t input_len, size_t *place,
                               size_t *detail);
void cbor_diag_scanner_init(struct cbor_diag_scanner *scanner);
int64_t cbor_diag_scanner_feed(struct cbor_diag_scanner *scanner, const uint8_t *input, size_t input_len, size_t *end);
int64_t cbor_diag_violation(uint32_t rules, const uint8_t *input, size_t input_len, size_t *place, size_t *detail);
int64_t cbor_diag_violation_text(uint32_t kind, uint8_t *output, size_t output_len);
int64_t cbor_diag_reencode(uint32_t rules, const uint8_t *input, size_t input_len, uint8_t *output, size_t output_len);
int64_t cbor_diag_reencode_fault(uint32_t rules, const uint8_t *input, size_t input_len, size_t *place,
                                 size_t *detail);
int64_t cbor_diag_name_at(const uint8_t *input, size_t input_len, const uint8_t *path, size_t path_len,
                          const uint8_t *type, size_t type_len, uint8_t *output, size_t output_len);
int64_t cbor_diag_head(const uint8_t *input, size_t input_len, struct cbor_diag_head *head);
int64_t cbor_diag_part(const uint8_t *input, size_t input_len, const uint8_t *path, size_t path_len, size_t *start,
                       size_t *end);
int64_t cbor_diag_parts(const uint8_t *input, size_t input_len, const uint8_t *path, size_t path_len,
                        struct cbor_diag_part *parts, size_t parts_len);
int64_t cbor_diag_value(const uint8_t *input, size_t input_len, const uint8_t *path, size_t path_len,
                        struct cbor_diag_value *value);
int64_t cbor_diag_paths(const uint8_t *input, size_t input_len, uint8_t *output, size_t output_len);
int64_t cbor_diag_named(const uint8_t *input, size_t input_len, const uint8_t *type, size_t type_len, uint8_t *output,
                        size_t output_len);
int64_t cbor_diag_recognize(const uint8_t *input, size_t input_len, uint32_t *form, uint8_t *output,
                            size_t output_len);
int64_t cbor_diag_place_in_text(uint32_t form, const uint8_t *text, size_t text_len, size_t byte);
int64_t cbor_diag_page(const uint8_t *input, size_t input_len, const uint8_t *type, size_t type_len,
                       const uint8_t *names, size_t names_len, uint32_t flags, uint8_t *output, size_t output_len);
int64_t cbor_diag_names_fault(const uint8_t *names, size_t names_len, uint8_t *message, size_t message_len);
int64_t cbor_diag_schema_load(const uint8_t *cddl, size_t cddl_len, const uint8_t *rule, size_t rule_len,
                              uint8_t *schema, size_t schema_len);
int64_t cbor_diag_schema_fault(const uint8_t *cddl, size_t cddl_len, const uint8_t *rule, size_t rule_len,
                               size_t *line, size_t *column, uint8_t *message, size_t message_len);
int64_t cbor_diag_schema_misfit(const uint8_t *schema, size_t schema_len, const uint8_t *input, size_t input_len,
                                struct cbor_diag_misfit *misfit, uint8_t *message, size_t message_len);
int64_t cbor_diag_error_text(uint32_t error, uint8_t *output, size_t output_len);
uint32_t cbor_diag_version(void);

/* A pointer to no bytes, used instead of a null pointer. */
static inline uint8_t *cbor_diag_no_bytes(void)
{
    static uint8_t none;
    return &none;
}

/*
 * Converts an item from one form to another.
 *
 * Returns the length of the whole output, and writes as much of it as fits into `output`; the bytes after it are
 * unchanged. If the length is above `output_len`, not all was written. With an `output_len` of 0 the call only finds
 * the length. No zero byte is added.
 *
 * On an error, returns minus a number of enum cbor_diag_error, and `output` is unchanged.
 *
 * A pointer may be null if its length is 0. The output must not overlap the input.
 */
static inline int64_t cbor_diag_convert_checked(uint32_t from, uint32_t to, const void *input, size_t input_len,
                                                void *output, size_t output_len)
{
    const uint8_t *in = input ? (const uint8_t *)input : cbor_diag_no_bytes();
    uint8_t *out = output ? (uint8_t *)output : cbor_diag_no_bytes();
    if (input_len > (size_t)PTRDIFF_MAX) {
        return -CBOR_DIAG_ERROR_MEMORY; /* no object is that large */
    }
    if (output_len > (size_t)PTRDIFF_MAX) {
        output_len = (size_t)PTRDIFF_MAX;
    }
    return cbor_diag_convert(from, to, in, input_len, out, output_len);
}
#define cbor_diag_convert cbor_diag_convert_checked

/*
 * Finds the length of the item at the front of the input, without memory: to read items one after the other.
 *
 * Returns that length, which is at least 1. More bytes may follow the item. Otherwise returns
 *
 * - minus CBOR_DIAG_ERROR_CUT_SHORT, if the bytes end before the item does: call again with more bytes;
 * - minus CBOR_DIAG_ERROR_HEAD, _UTF8 or _TOO_DEEP, if no item begins with these bytes, whatever follows them.
 *
 * `f8` before a byte below 32 is a simple value here, as in RFC 7049. RFC 8949 forbids it, and cbor_diag_violation with
 * CBOR_DIAG_RULES_RFC8949 reports it.
 *
 * `*end` is set to the number of bytes that decide the result: the length of the item; the length of a truncated input;
 * or the number of first bytes that show the error. The last of these is the malformed byte, or the last byte of the
 * text that is not UTF-8. `end` may be null.
 */
static inline int64_t cbor_diag_extent_checked(const void *input, size_t input_len, size_t *end)
{
    const uint8_t *in = input ? (const uint8_t *)input : cbor_diag_no_bytes();
    size_t unused;
    if (input_len > (size_t)PTRDIFF_MAX) {
        return -CBOR_DIAG_ERROR_MEMORY; /* no object is that large */
    }
    return cbor_diag_extent(in, input_len, end ? end : &unused);
}
#define cbor_diag_extent cbor_diag_extent_checked

/* What `*place` is set to where there is no place. */
#define CBOR_DIAG_NO_PLACE SIZE_MAX

/*
 * Finds why an input is not an item in the form `from`, and where. Call it after a conversion has failed.
 *
 * Returns 0 if the input is an item, and otherwise minus a number of enum cbor_diag_error. `*place` is set to the error
 * position: how many bytes of the input come before it. It is CBOR_DIAG_NO_PLACE without an error, out of memory, and
 * if there is no such form. The error position is
 *
 * - in bytes: the malformed byte, or the last byte of the text that is not UTF-8, so `*end` - 1 of cbor_diag_extent;
 *   the end of truncated bytes; or the first byte that follows the item;
 * - in hex: the first digit of that byte; the digit that is wrong, which is the last of an odd number; or the end of a
 *   text whose bytes are truncated;
 * - in notation and EDN: the first byte with which the text cannot go on, or the end of a text that is only truncated.
 *   It is proved to be in the text or at its end; the rest is tested;
 * - in hex, notation or EDN that is not UTF-8: the first byte that is not.
 *
 * In bytes, hex and EDN the error is that of cbor_diag_convert. Notation may have several errors: both
 * CBOR_DIAG_ERROR_NOTATION and _PAST_WIDTH hold for 18446744073709551616_0, and either call may return either.
 *
 * `input` may be null if its length is 0, and `place` may be null.
 */
static inline int64_t cbor_diag_fault_checked(uint32_t from, const void *input, size_t input_len, size_t *place)
{
    const uint8_t *in = input ? (const uint8_t *)input : cbor_diag_no_bytes();
    size_t unused;
    size_t *at = place ? place : &unused;
    if (input_len > (size_t)PTRDIFF_MAX) {
        *at = CBOR_DIAG_NO_PLACE;
        return -CBOR_DIAG_ERROR_MEMORY; /* no object is that large */
    }
    return cbor_diag_fault(from, in, input_len, at);
}
#define cbor_diag_fault cbor_diag_fault_checked

/* Enough for each text of cbor_diag_fault_text. */
#define CBOR_DIAG_FAULT_TEXT_SIZE 256

/*
 * Says in words why an input is not an item in the form `from`. For EDN the text says what has to be at the place of
 * cbor_diag_fault; in other forms it is the text of the error. It is ASCII, without a full stop.
 *
 * Returns the length of the whole text, and writes as much of it as fits into `text`. Returns 0 for an item.
 * No zero byte is added. CBOR_DIAG_FAULT_TEXT_SIZE is enough for each text. A pointer may be null if its length is 0.
 */
static inline int64_t cbor_diag_fault_text_checked(uint32_t from, const void *input, size_t input_len, char *text,
                                                   size_t text_len)
{
    const uint8_t *in = input ? (const uint8_t *)input : cbor_diag_no_bytes();
    uint8_t *out = text ? (uint8_t *)text : cbor_diag_no_bytes();
    if (text_len > (size_t)PTRDIFF_MAX) {
        text_len = (size_t)PTRDIFF_MAX;
    }
    if (input_len > (size_t)PTRDIFF_MAX) {
        return cbor_diag_error_text(CBOR_DIAG_ERROR_MEMORY, out, text_len); /* no object is that large */
    }
    return cbor_diag_fault_text(from, in, input_len, out, text_len);
}
#define cbor_diag_fault_text cbor_diag_fault_text_checked

/*
 * Writes the path to the truncated or malformed item in an input in bytes or hex: steps joined by `/`, as `cborcat -p`
 * reads them, in UTF-8. `/` is the outermost item.
 *
 * Returns the length of the whole path, and writes as much of it as fits into `path`. Returns 0 where there is no path:
 * if the input is an item, if more bytes follow an item, and for notation, EDN and hex whose digits are wrong. On an
 * error, returns minus CBOR_DIAG_ERROR_MEMORY or minus CBOR_DIAG_ERROR_NO_FORM, and `path` is unchanged.
 *
 *     char path[64];
 *     cbor_diag_fault_path(CBOR_DIAG_FORM_BYTES, "\xa1\x61k\x82\x01\x1f", 6, path, sizeof path);  // 3, "k/1"
 *
 * No zero byte is added. A pointer may be null if its length is 0.
 */
static inline int64_t cbor_diag_fault_path_checked(uint32_t from, const void *input, size_t input_len, char *path,
                                                   size_t path_len)
{
    const uint8_t *in = input ? (const uint8_t *)input : cbor_diag_no_bytes();
    uint8_t *out = path ? (uint8_t *)path : cbor_diag_no_bytes();
    if (input_len > (size_t)PTRDIFF_MAX) {
        return -CBOR_DIAG_ERROR_MEMORY; /* no object is that large */
    }
    if (path_len > (size_t)PTRDIFF_MAX) {
        path_len = (size_t)PTRDIFF_MAX;
    }
    return cbor_diag_fault_path(from, in, input_len, out, path_len);
}
#define cbor_diag_fault_path cbor_diag_fault_path_checked

/*
 * Says what is wrong with an input that is not an item, and where in the item. In bytes and hex it is the message of
 * `cborcat` in one line of UTF-8, which counts bytes from the beginning of the item. In notation, in EDN and in hex
 * whose digits are wrong it is the text of cbor_diag_fault_text.
 *
 * Returns the length of the whole message, and writes as much of it as fits into `message`. Returns 0 for an item.
 * On an error, returns minus CBOR_DIAG_ERROR_MEMORY or minus CBOR_DIAG_ERROR_NO_FORM, and `message` is unchanged.
 *
 *     cbor_diag_fault_message(CBOR_DIAG_FORM_BYTES, "\x82\x01", 2, message, sizeof message);
 *     // "truncated: the array at byte 0 has 2 items, 1 is there"
 *
 * No zero byte is added. A pointer may be null if its length is 0.
 */
static inline int64_t cbor_diag_fault_message_checked(uint32_t from, const void *input, size_t input_len,
                                                      char *message, size_t message_len)
{
    const uint8_t *in = input ? (const uint8_t *)input : cbor_diag_no_bytes();
    uint8_t *out = message ? (uint8_t *)message : cbor_diag_no_bytes();
    if (input_len > (size_t)PTRDIFF_MAX) {
        return -CBOR_DIAG_ERROR_MEMORY; /* no object is that large */
    }
    if (message_len > (size_t)PTRDIFF_MAX) {
        message_len = (size_t)PTRDIFF_MAX;
    }
    return cbor_diag_fault_message(from, in, input_len, out, message_len);
}
#define cbor_diag_fault_message cbor_diag_fault_message_checked

/*
 * Finds why an item has no JSON, and where in its bytes. Call it after a conversion to CBOR_DIAG_FORM_JSON or
 * CBOR_DIAG_FORM_JSON_STRICT has failed. If the input is not an item, cbor_diag_fault finds the place.
 *
 * Returns 0 if cbor_diag_convert has an output for the two forms, and otherwise minus the number of its error.
 *
 * - For CBOR_DIAG_ERROR_SAME_KEYS, sets `*place` to how many bytes of the item come before the second of the two keys,
 *   and `*detail` to how many come before the first.
 * - For CBOR_DIAG_ERROR_NOT_KEPT, sets `*place` to how many bytes of the item come before the first thing that JSON
 *   does not keep, and `*detail` to what it is, an enum cbor_diag_loss.
 * - Otherwise both are set to CBOR_DIAG_NO_PLACE.
 *
 * The bytes of the item are the output of a conversion to CBOR_DIAG_FORM_BYTES.
 *
 *     size_t second, first;
 *     cbor_diag_output_fault(CBOR_DIAG_FORM_BYTES, CBOR_DIAG_FORM_JSON, "\xa2\x01\x00\x61\x31\x00", 6,
 *                            &second, &first);  // _SAME_KEYS: the key 1 at 1, and "1" at 3
 *
 * `input` may be null if its length is 0, and `place` and `detail` may be null.
 */
static inline int64_t cbor_diag_output_fault_checked(uint32_t from, uint32_t to, const void *input, size_t input_len,
                                                     size_t *place, size_t *detail)
{
    const uint8_t *in = input ? (const uint8_t *)input : cbor_diag_no_bytes();
    size_t unused_place, unused_detail;
    size_t *at = place ? place : &unused_place;
    size_t *other = detail ? detail : &unused_detail;
    if (input_len > (size_t)PTRDIFF_MAX) {
        *at = CBOR_DIAG_NO_PLACE;
        *other = CBOR_DIAG_NO_PLACE;
        return -CBOR_DIAG_ERROR_MEMORY; /* no object is that large */
    }
    return cbor_diag_output_fault(from, to, in, input_len, at, other);
}
#define cbor_diag_output_fault cbor_diag_output_fault_checked

/*
 * Finds the length of an item that comes in pieces, without memory: feed each piece as it comes, for example from a
 * socket. The time grows with the new bytes alone. At most eight of the bytes before them are read again: those of a
 * truncated head or character.
 *
 * Returns what cbor_diag_extent does for all bytes that the scanner was fed since cbor_diag_scanner_init, and sets
 * `*end` in the same way: minus CBOR_DIAG_ERROR_CUT_SHORT as long as more bytes are needed. Once it returns the length
 * of the item or another error, it returns that again, whatever is fed. It does not read the bytes after the item: feed
 * them to a new scanner, for the next item. The counts are right as long as fewer than 2^63 bytes were fed.
 *
 *     struct cbor_diag_scanner scanner;
 *     cbor_diag_scanner_init(&scanner);
 *     cbor_diag_scanner_feed(&scanner, "\x82\x01", 2, NULL);  // -CBOR_DIAG_ERROR_CUT_SHORT
 *     cbor_diag_scanner_feed(&scanner, "\x02\xff", 2, NULL);  // 3
 *
 * `input` may be null if its length is 0, and `end` may be null. The scanner has to be initialized.
 */
static inline int64_t cbor_diag_scanner_feed_checked(struct cbor_diag_scanner *scanner, const void *input,
                                                     size_t input_len, size_t *end)
{
    const uint8_t *in = input ? (const uint8_t *)input : cbor_diag_no_bytes();
    size_t unused;
    if (input_len > (size_t)PTRDIFF_MAX) {
        return -CBOR_DIAG_ERROR_MEMORY; /* no object is that large */
    }
    return cbor_diag_scanner_feed(scanner, in, input_len, end ? end : &unused);
}
#define cbor_diag_scanner_feed cbor_diag_scanner_feed_checked

/*
 * Finds the first violation of a set of rules, for those who sign CBOR or compare it byte by byte.
 *
 * Returns 0 if the bytes are a sequence of zero or more items that keep the rules, and otherwise the number of the
 * first violation, an enum cbor_diag_violation_kind. `*place` is set to how many bytes come before the head or the key
 * that violates the rule. `*detail` is set to
 *
 * - the place of the key before, for CBOR_DIAG_VIOLATION_KEY_ORDER;
 * - the place of the first of the two keys, for _KEY_TWICE; by CBOR_DIAG_RULES_VALID their bytes may differ, as 01 and
 *   18 01, which have the same core encoding;
 * - the number of the error, an enum cbor_diag_error, for CBOR_DIAG_VIOLATION_NO_ITEM;
 * - CBOR_DIAG_NO_PLACE for each other kind.
 *
 * On an error, returns minus a number of enum cbor_diag_error: CBOR_DIAG_ERROR_NO_RULES, or CBOR_DIAG_ERROR_MEMORY,
 * which only CBOR_DIAG_RULES_VALID and CBOR_DIAG_RULES_DCBOR can have. Then, and if the rules are kept, `*place` and
 * `*detail` are set to CBOR_DIAG_NO_PLACE.
 *
 *     size_t place;
 *     cbor_diag_violation(CBOR_DIAG_RULES_CORE, "\x82\x01\x18\x02", 4, &place, NULL);  // _LONG_HEAD at 2
 *
 * `input` may be null if its length is 0, and `place` and `detail` may be null.
 */
static inline int64_t cbor_diag_violation_checked(uint32_t rules, const void *input, size_t input_len, size_t *place,
                                               size_t *detail)
{
    const uint8_t *in = input ? (const uint8_t *)input : cbor_diag_no_bytes();
    size_t unused_place, unused_detail;
    size_t *at = place ? place : &unused_place;
    size_t *other = detail ? detail : &unused_detail;
    if (input_len > (size_t)PTRDIFF_MAX) {
        *at = CBOR_DIAG_NO_PLACE;
        *other = CBOR_DIAG_NO_PLACE;
        return -CBOR_DIAG_ERROR_MEMORY; /* no object is that large */
    }
    return cbor_diag_violation(rules, in, input_len, at, other);
}
#define cbor_diag_violation cbor_diag_violation_checked

/*
 * Re-encodes a sequence of zero or more items so that they keep a set of rules. The output has the same items except
 * for widths, kinds of length, the order of pairs and the forms of numbers: a big number that fits an integer becomes
 * that integer, and by CBOR_DIAG_RULES_DCBOR a float that is an integer does. An input that keeps the rules stays as it
 * is.
 *
 * Returns the length of the whole output, and writes as much of it as fits into `output`, as cbor_diag_convert does.
 *
 * On an error, returns minus a number of enum cbor_diag_error, and `output` is unchanged:
 *
 * - CBOR_DIAG_ERROR_NOT_ENCODABLE, if the input is not a sequence of items; if it has a violation that re-encoding
 *   cannot repair, such as a tag by CBOR_DIAG_RULES_CTAP2; if two keys of a map have the same core encoding or become
 *   the same; or if the joined chunks of a text violate a rule;
 * - CBOR_DIAG_ERROR_NO_RULES and CBOR_DIAG_ERROR_MEMORY.
 *
 * cbor_diag_reencode_fault says what is wrong, and where.
 *
 *     unsigned char core[64];
 *     cbor_diag_reencode(CBOR_DIAG_RULES_CORE, "\xa2\x18\x02\x80\x01\x80", 6, core, sizeof core);
 *     // 5, and core begins with a2 01 80 02 80
 *
 * A pointer may be null if its length is 0. The output must not overlap the input.
 */
static inline int64_t cbor_diag_reencode_checked(uint32_t rules, const void *input, size_t input_len, void *output,
                                                 size_t output_len)
{
    const uint8_t *in = input ? (const uint8_t *)input : cbor_diag_no_bytes();
    uint8_t *out = output ? (uint8_t *)output : cbor_diag_no_bytes();
    if (input_len > (size_t)PTRDIFF_MAX) {
        return -CBOR_DIAG_ERROR_MEMORY; /* no object is that large */
    }
    if (output_len > (size_t)PTRDIFF_MAX) {
        output_len = (size_t)PTRDIFF_MAX;
    }
    return cbor_diag_reencode(rules, in, input_len, out, output_len);
}
#define cbor_diag_reencode cbor_diag_reencode_checked

/*
 * Finds why no encoding of the items keeps the rules, and where. Call it after cbor_diag_reencode has returned minus
 * CBOR_DIAG_ERROR_NOT_ENCODABLE.
 *
 * Returns 0 if there is an encoding, and otherwise the number of what is wrong, an enum cbor_diag_violation_kind.
 * `*place` is set to how many bytes of the input come before the head or the key that is wrong. `*detail` is set to
 *
 * - the place of the first of the two keys, for CBOR_DIAG_VIOLATION_KEY_TWICE; `*place` is that of the second. Their
 *   bytes may differ, as 01 and 18 01: they have the same core encoding, or become the same;
 * - the number of the error, an enum cbor_diag_error, for CBOR_DIAG_VIOLATION_NO_ITEM;
 * - CBOR_DIAG_NO_PLACE for each other kind.
 *
 * If only the re-encoded items have the violation, as a text whose joined chunks are not in NFC, both are set to
 * CBOR_DIAG_NO_PLACE.
 *
 * On an error, returns minus CBOR_DIAG_ERROR_NO_RULES or minus CBOR_DIAG_ERROR_MEMORY. Then, and if there is an
 * encoding, both are set to CBOR_DIAG_NO_PLACE.
 *
 *     size_t second, first;
 *     cbor_diag_reencode_fault(CBOR_DIAG_RULES_CORE, "\xa2\x01\x80\x18\x01\x80", 6, &second, &first);
 *     // CBOR_DIAG_VIOLATION_KEY_TWICE: the key 1 at 1, and again at 3
 *
 * `input` may be null if its length is 0, and `place` and `detail` may be null.
 */
static inline int64_t cbor_diag_reencode_fault_checked(uint32_t rules, const void *input, size_t input_len,
                                                       size_t *place, size_t *detail)
{
    const uint8_t *in = input ? (const uint8_t *)input : cbor_diag_no_bytes();
    size_t unused_place, unused_detail;
    size_t *at = place ? place : &unused_place;
    size_t *other = detail ? detail : &unused_detail;
    if (input_len > (size_t)PTRDIFF_MAX) {
        *at = CBOR_DIAG_NO_PLACE;
        *other = CBOR_DIAG_NO_PLACE;
        return -CBOR_DIAG_ERROR_MEMORY; /* no object is that large */
    }
    return cbor_diag_reencode_fault(rules, in, input_len, at, other);
}
#define cbor_diag_reencode_fault cbor_diag_reencode_fault_checked

/*
 * Finds the name of a part of an item in COSE, CWT, EAT, SenML or CTAP2: that of its key in a map, of the member of an
 * array, of the tag before it, or of the type of the outermost item.
 *
 * `path` leads to the part: steps joined by /, as cborcat -p reads them. The empty path leads to the item itself. A
 * path with a * has no name, so the call returns 0. `type` is the type of the outermost item where no tag says it, such
 * as COSE_Key; or empty.
 *
 * Returns the length of the name, which is ASCII, and writes as much of it as fits into `output`. Returns 0 if the part
 * has no name. On an error, returns minus a number of enum cbor_diag_error, and `output` is unchanged:
 *
 * - the error of bytes that are not an item; CBOR_DIAG_ERROR_UTF8 also for a path that is not UTF-8;
 * - CBOR_DIAG_ERROR_NO_PART, CBOR_DIAG_ERROR_NO_TYPE and CBOR_DIAG_ERROR_MEMORY.
 *
 *     char name[64];
 *     cbor_diag_name_at("\xd2\x84\x43\xa1\x01\x26\xa0\x40\x40", 9, "0/@/1", 5, NULL, 0, name, sizeof name);
 *     // 3: the key 1 in the protected header is called alg
 *
 * Each call makes the tables anew. A pointer may be null if its length is 0. The output must not overlap the others.
 */
static inline int64_t cbor_diag_name_at_checked(const void *input, size_t input_len, const void *path, size_t path_len,
                                                const void *type, size_t type_len, void *output, size_t output_len)
{
    const uint8_t *in = input ? (const uint8_t *)input : cbor_diag_no_bytes();
    const uint8_t *steps = path ? (const uint8_t *)path : cbor_diag_no_bytes();
    const uint8_t *kind = type ? (const uint8_t *)type : cbor_diag_no_bytes();
    uint8_t *out = output ? (uint8_t *)output : cbor_diag_no_bytes();
    if (input_len > (size_t)PTRDIFF_MAX || path_len > (size_t)PTRDIFF_MAX || type_len > (size_t)PTRDIFF_MAX) {
        return -CBOR_DIAG_ERROR_MEMORY; /* no object is that large */
    }
    if (output_len > (size_t)PTRDIFF_MAX) {
        output_len = (size_t)PTRDIFF_MAX;
    }
    return cbor_diag_name_at(in, input_len, steps, path_len, kind, type_len, out, output_len);
}
#define cbor_diag_name_at cbor_diag_name_at_checked

/*
 * Reads one head at the front of the bytes, or a break. It takes no memory and keeps no state. So a walk over an item
 * needs only an offset: add the length of the head to go into an array, a map or a tag, and what cbor_diag_extent
 * returns to go past an item.
 *
 * Returns how many bytes the head takes, 1 to 9, and sets `*head`. The content of a string and the items that a head
 * announces are not looked at, and may be cut. On an error, returns minus CBOR_DIAG_ERROR_CUT_SHORT, if the bytes end
 * before the head does, or minus CBOR_DIAG_ERROR_HEAD, and `*head` is unchanged.
 *
 *     struct cbor_diag_head head;
 *     cbor_diag_head("\x19\x03\xe8", 3, &head);  // 3: head.kind is CBOR_DIAG_KIND_UNSIGNED, head.argument is 1000
 *
 * `input` may be null if its length is 0, and `head` may be null.
 */
static inline int64_t cbor_diag_head_checked(const void *input, size_t input_len, struct cbor_diag_head *head)
{
    const uint8_t *in = input ? (const uint8_t *)input : cbor_diag_no_bytes();
    struct cbor_diag_head unused = {0, 0, 0, 0};
    if (input_len > (size_t)PTRDIFF_MAX) {
        return -CBOR_DIAG_ERROR_MEMORY; /* no object is that large */
    }
    return cbor_diag_head(in, input_len, head ? head : &unused);
}
#define cbor_diag_head(input, input_len, head) cbor_diag_head_checked(input, input_len, head)

/*
 * Finds the part of an item that a path leads to: steps joined by /, as cborcat -p reads them, but no names. A step is
 * an index, a key in EDN (a plain word is a text), @ for the item in a byte string, @ and a number for the item that
 * begins at that byte of one, or * for each member. A step goes through tags, and into a byte string below tag 24 or
 * 63. The empty path is the item itself.
 *
 * Returns 0, and sets `*start` and `*end` to how many bytes of the input come before the part, with its tags, and
 * before what follows it. With a * it is the first of the parts.
 *
 * On an error, returns minus a number of enum cbor_diag_error, and sets both to CBOR_DIAG_NO_PLACE:
 *
 * - the error for which the bytes are no item; CBOR_DIAG_ERROR_UTF8 also for a path that is not UTF-8;
 * - CBOR_DIAG_ERROR_NO_PART and CBOR_DIAG_ERROR_MEMORY.
 *
 *     size_t start, end;
 *     cbor_diag_part("\xa1\x61k\x82\x01\x02", 6, "k/1", 3, &start, &end);  // 0: the 2, from byte 5 to byte 6
 *
 * A pointer may be null if its length is 0, and `start` and `end` may be null.
 */
static inline int64_t cbor_diag_part_checked(const void *input, size_t input_len, const void *path, size_t path_len,
                                             size_t *start, size_t *end)
{
    const uint8_t *in = input ? (const uint8_t *)input : cbor_diag_no_bytes();
    const uint8_t *steps = path ? (const uint8_t *)path : cbor_diag_no_bytes();
    size_t unused_start, unused_end;
    size_t *begins = start ? start : &unused_start;
    size_t *ends = end ? end : &unused_end;
    if (input_len > (size_t)PTRDIFF_MAX || path_len > (size_t)PTRDIFF_MAX) {
        *begins = CBOR_DIAG_NO_PLACE;
        *ends = CBOR_DIAG_NO_PLACE;
        return -CBOR_DIAG_ERROR_MEMORY; /* no object is that large */
    }
    return cbor_diag_part(in, input_len, steps, path_len, begins, ends);
}
#define cbor_diag_part(input, input_len, path, path_len, start, end) \
    cbor_diag_part_checked(input, input_len, path, path_len, start, end)

/*
 * Finds all parts that a path leads to, which are several with *: for example each member of an array, or each value of
 * a map with its key, by the path *.
 *
 * Returns how many there are, which is 0 if the path leads nowhere. Sets as many elements of `parts`, in order, but no
 * more than `parts_len`. On an error, returns minus a number of enum cbor_diag_error, as cbor_diag_part does, and
 * `parts` is unchanged.
 *
 *     struct cbor_diag_part parts[8];
 *     cbor_diag_parts("\xa1\x61k\x82\x01\x02", 6, "k/" "*", 3, parts, 8);  // 2: the 1 at byte 4, the 2 at byte 5
 *
 * A pointer may be null if its length is 0.
 */
static inline int64_t cbor_diag_parts_checked(const void *input, size_t input_len, const void *path, size_t path_len,
                                              struct cbor_diag_part *parts, size_t parts_len)
{
    const uint8_t *in = input ? (const uint8_t *)input : cbor_diag_no_bytes();
    const uint8_t *steps = path ? (const uint8_t *)path : cbor_diag_no_bytes();
    struct cbor_diag_part none;
    size_t most = (size_t)PTRDIFF_MAX / sizeof none;
    if (input_len > (size_t)PTRDIFF_MAX || path_len > (size_t)PTRDIFF_MAX) {
        return -CBOR_DIAG_ERROR_MEMORY; /* no object is that large */
    }
    return cbor_diag_parts(in, input_len, steps, path_len, parts ? parts : &none, parts_len < most ? parts_len : most);
}
#define cbor_diag_parts(input, input_len, path, path_len, parts, parts_len) \
    cbor_diag_parts_checked(input, input_len, path, path_len, parts, parts_len)

/*
 * Finds the value of the part that a path leads to, below its tags: the whole value of an integer, a float or a simple
 * value; for a string of definite length, where its content is.
 *
 * Returns 0, and sets `*value`. On an error, returns minus a number of enum cbor_diag_error, as cbor_diag_part does,
 * and `*value` is unchanged.
 *
 *     struct cbor_diag_value value;
 *     cbor_diag_value("\xa1\x61k\x62hi", 6, "k", 1, &value);
 *     // 0: value.kind is CBOR_DIAG_KIND_TEXT, and its content is from byte 4 to byte 6
 *
 * A pointer may be null if its length is 0, and `value` may be null.
 */
static inline int64_t cbor_diag_value_checked(const void *input, size_t input_len, const void *path, size_t path_len,
                                              struct cbor_diag_value *value)
{
    const uint8_t *in = input ? (const uint8_t *)input : cbor_diag_no_bytes();
    const uint8_t *steps = path ? (const uint8_t *)path : cbor_diag_no_bytes();
    struct cbor_diag_value unused = {0, 0, 0, 0, 0, 0, 0, 0};
    if (input_len > (size_t)PTRDIFF_MAX || path_len > (size_t)PTRDIFF_MAX) {
        return -CBOR_DIAG_ERROR_MEMORY; /* no object is that large */
    }
    return cbor_diag_value(in, input_len, steps, path_len, value ? value : &unused);
}
#define cbor_diag_value(input, input_len, path, path_len, value) \
    cbor_diag_value_checked(input, input_len, path, path_len, value)

/*
 * Writes a line for each item in an item that holds no other, as cborcat -t paths does: the path that leads to it, two
 * blanks, its EDN, and a line feed. It is UTF-8, and has no other control characters.
 *
 * Returns the length of the whole output, and writes as much of it as fits `output`, as cbor_diag_convert does. On an
 * error, returns minus the number of the error for which the bytes are no item, or minus CBOR_DIAG_ERROR_MEMORY, and
 * `output` is unchanged.
 *
 *     char lines[64];
 *     cbor_diag_paths("\xa1\x61k\x82\x01\x02", 6, lines, sizeof lines);  // 14, "k/0  1\nk/1  2\n"
 *
 * A pointer may be null if its length is 0. The output must not overlap the input.
 */
static inline int64_t cbor_diag_paths_checked(const void *input, size_t input_len, void *output, size_t output_len)
{
    const uint8_t *in = input ? (const uint8_t *)input : cbor_diag_no_bytes();
    uint8_t *out = output ? (uint8_t *)output : cbor_diag_no_bytes();
    if (input_len > (size_t)PTRDIFF_MAX) {
        return -CBOR_DIAG_ERROR_MEMORY; /* no object is that large */
    }
    if (output_len > (size_t)PTRDIFF_MAX) {
        output_len = (size_t)PTRDIFF_MAX;
    }
    return cbor_diag_paths(in, input_len, out, output_len);
}
#define cbor_diag_paths cbor_diag_paths_checked

/*
 * Writes an item in EDN over several lines as cborcat shows it: with the names of COSE, CWT, EAT, SenML and CTAP2 and
 * with notes, as comments, and a line feed at the end. `type` is the type of the item where no tag says it, such as
 * COSE_Key; or empty.
 *
 * Returns the length of the whole output, and writes as much of it as fits `output`, as cbor_diag_convert does. On an
 * error, returns minus a number of enum cbor_diag_error, and `output` is unchanged: that for which the bytes are no
 * item, CBOR_DIAG_ERROR_NO_TYPE, or CBOR_DIAG_ERROR_MEMORY.
 *
 *     char text[64];
 *     cbor_diag_named("\xa1\x01\x04", 3, "COSE_Key", 8, text, sizeof text);
 *     // 36, "/COSE_Key/ {/kty/ 1: 4 /Symmetric/}" and a line feed
 *
 * The tables are made at each call. A pointer may be null if its length is 0. The output must not overlap the others.
 */
static inline int64_t cbor_diag_named_checked(const void *input, size_t input_len, const void *type, size_t type_len,
                                              void *output, size_t output_len)
{
    const uint8_t *in = input ? (const uint8_t *)input : cbor_diag_no_bytes();
    const uint8_t *kind = type ? (const uint8_t *)type : cbor_diag_no_bytes();
    uint8_t *out = output ? (uint8_t *)output : cbor_diag_no_bytes();
    if (input_len > (size_t)PTRDIFF_MAX || type_len > (size_t)PTRDIFF_MAX) {
        return -CBOR_DIAG_ERROR_MEMORY; /* no object is that large */
    }
    if (output_len > (size_t)PTRDIFF_MAX) {
        output_len = (size_t)PTRDIFF_MAX;
    }
    return cbor_diag_named(in, input_len, kind, type_len, out, output_len);
}
#define cbor_diag_named cbor_diag_named_checked

/*
 * Finds the form of an input, as cborcat does: hex as people paste it, EDN, base 64, or bytes; and writes the bytes
 * that it stands for. Unless it is hex, these are items, none or more, one after the other. A text of pairs of hex
 * digits is hex, whatever bytes they are, and no text is taken for bytes.
 *
 * Returns how many bytes it stands for, writes as many of them as fit `output`, and sets `*form` to an enum
 * cbor_diag_input. On an error, returns minus CBOR_DIAG_ERROR_NOT_RECOGNIZED or minus CBOR_DIAG_ERROR_MEMORY, and
 * `*form` and `output` are unchanged.
 *
 *     uint32_t form;
 *     unsigned char bytes[64];
 *     cbor_diag_recognize("0x82 01 02", 10, &form, bytes, sizeof bytes);  // 3, and form is CBOR_DIAG_INPUT_HEX
 *
 * A pointer may be null if its length is 0, and `form` may be null. The output must not overlap the input.
 */
static inline int64_t cbor_diag_recognize_checked(const void *input, size_t input_len, uint32_t *form, void *output,
                                                  size_t output_len)
{
    const uint8_t *in = input ? (const uint8_t *)input : cbor_diag_no_bytes();
    uint8_t *out = output ? (uint8_t *)output : cbor_diag_no_bytes();
    uint32_t unused;
    if (input_len > (size_t)PTRDIFF_MAX) {
        return -CBOR_DIAG_ERROR_MEMORY; /* no object is that large */
    }
    if (output_len > (size_t)PTRDIFF_MAX) {
        output_len = (size_t)PTRDIFF_MAX;
    }
    return cbor_diag_recognize(in, input_len, form ? form : &unused, out, output_len);
}
#define cbor_diag_recognize cbor_diag_recognize_checked

/*
 * Finds where in a text a byte is that the text stands for: the place of its first digit, or in EDN that of the
 * innermost item that has it. So a place in bytes, such as that of a violation, becomes one in the text that they were
 * read from. `form` is the enum cbor_diag_input that cbor_diag_recognize found. For CBOR_DIAG_INPUT_BYTES the place is
 * `byte`.
 *
 * Returns how many bytes of the text come before the place: `text_len` if it stands for no such byte, and never more.
 * On an error, returns minus CBOR_DIAG_ERROR_NO_FORM, for another form, or minus CBOR_DIAG_ERROR_MEMORY.
 *
 *     cbor_diag_place_in_text(CBOR_DIAG_INPUT_EDN, "{1: [2, 30]}", 12, 4);  // 8, where 30 is
 *
 * A pointer may be null if its length is 0.
 */
static inline int64_t cbor_diag_place_in_text_checked(uint32_t form, const void *text, size_t text_len, size_t byte)
{
    const uint8_t *in = text ? (const uint8_t *)text : cbor_diag_no_bytes();
    if (text_len > (size_t)PTRDIFF_MAX) {
        return -CBOR_DIAG_ERROR_MEMORY; /* no object is that large */
    }
    return cbor_diag_place_in_text(form, in, text_len, byte);
}
#define cbor_diag_place_in_text cbor_diag_place_in_text_checked

/*
 * Writes the lines of a page of HTML that shows a sequence of items, each line of EDN beside its own bytes, as
 * cborcat -t html does: with notes, with the names of COSE, CWT, EAT, SenML and CTAP2, and with those of `names`. For
 * a truncated or malformed item they show the part that is there, what is wrong, and the bytes after it. `type` is the
 * type of the outermost items where no tag says it, such as COSE_Key; or empty. `names` is a file of names in TOML, as
 * docs/NAMES.md describes it; or empty. `flags` is 0, or a sum of enum cbor_diag_page_flag.
 *
 * Returns the length of the whole output, and writes as much of it as fits `output`, as cbor_diag_convert does. On an
 * error, returns minus a number of enum cbor_diag_error, and `output` is unchanged: CBOR_DIAG_ERROR_NO_TYPE,
 * CBOR_DIAG_ERROR_WRONG_NAMES, CBOR_DIAG_ERROR_NO_FORM for other flags, or CBOR_DIAG_ERROR_MEMORY. There are lines for
 * any bytes.
 *
 * The lines are elements of HTML without a page round them, in UTF-8. docs/PAGE.md says which they are, and their text
 * is EDN. No tag in them comes from data: &, <, > and " are escaped. So the lines can be put into a page as they are.
 *
 *     static char lines[4096];
 *     cbor_diag_page("\xa1\x01\x04", 3, "COSE_Key", 8, NULL, 0, 0, lines, sizeof lines);
 *
 * The tables are made at each call. A pointer may be null if its length is 0. The output must not overlap the others.
 */
static inline int64_t cbor_diag_page_checked(const void *input, size_t input_len, const void *type, size_t type_len,
                                             const void *names, size_t names_len, uint32_t flags, void *output,
                                             size_t output_len)
{
    const uint8_t *in = input ? (const uint8_t *)input : cbor_diag_no_bytes();
    const uint8_t *kind = type ? (const uint8_t *)type : cbor_diag_no_bytes();
    const uint8_t *file = names ? (const uint8_t *)names : cbor_diag_no_bytes();
    uint8_t *out = output ? (uint8_t *)output : cbor_diag_no_bytes();
    if (input_len > (size_t)PTRDIFF_MAX || type_len > (size_t)PTRDIFF_MAX || names_len > (size_t)PTRDIFF_MAX) {
        return -CBOR_DIAG_ERROR_MEMORY; /* no object is that large */
    }
    if (output_len > (size_t)PTRDIFF_MAX) {
        output_len = (size_t)PTRDIFF_MAX;
    }
    return cbor_diag_page(in, input_len, kind, type_len, file, names_len, flags, out, output_len);
}
#define cbor_diag_page cbor_diag_page_checked

/*
 * Says what is wrong with a file of names for cbor_diag_page, as cborcat does: the line and why, in one line of UTF-8.
 *
 * Returns the length of the whole message, and writes as much of it as fits `message`. Returns 0 if nothing is wrong.
 * On an error, returns minus CBOR_DIAG_ERROR_MEMORY, and `message` is unchanged.
 *
 *     char message[256];
 *     cbor_diag_names_fault("[Thing]\ntag = -1", 16, message, sizeof message);
 *     // 37, "line 2: a tag is an integer from 0 on"
 *
 * No zero byte is added. A pointer may be null if its length is 0.
 */
static inline int64_t cbor_diag_names_fault_checked(const void *names, size_t names_len, char *message,
                                                    size_t message_len)
{
    const uint8_t *file = names ? (const uint8_t *)names : cbor_diag_no_bytes();
    uint8_t *out = message ? (uint8_t *)message : cbor_diag_no_bytes();
    if (names_len > (size_t)PTRDIFF_MAX) {
        return -CBOR_DIAG_ERROR_MEMORY; /* no object is that large */
    }
    if (message_len > (size_t)PTRDIFF_MAX) {
        message_len = (size_t)PTRDIFF_MAX;
    }
    return cbor_diag_names_fault(file, names_len, out, message_len);
}
#define cbor_diag_names_fault cbor_diag_names_fault_checked

/*
 * Writes the text of an error into `text`, with a zero byte at its end, and returns `text`. `answer` is the negative
 * result of a call. A text that does not fit into `size` bytes is truncated; CBOR_DIAG_ERROR_TEXT_SIZE is enough for
 * each. `size` is at least 1.
 */
static inline const char *cbor_diag_strerror(int64_t answer, char *text, size_t size)
{
    uint32_t number = answer < 0 && answer >= -INT32_MAX ? (uint32_t)-answer : 0;
    size_t room = size - 1 < CBOR_DIAG_ERROR_TEXT_SIZE ? size - 1 : CBOR_DIAG_ERROR_TEXT_SIZE - 1;
    int64_t length = cbor_diag_error_text(number, (uint8_t *)text, room);
    text[length < (int64_t)room ? (size_t)length : room] = '\0';
    return text;
}

/*
 * Loads a text of CDDL (RFC 8610) as a schema: bytes that hold no pointers. They can be kept, copied and shared by
 * threads, and cbor_diag_schema_misfit checks items by them. docs/CDDL.md says what is read. `rule` is the name of the
 * rule that an item has to fit; if it is empty, that is the first rule. cbor_diag_schema_new, below, does the same and
 * allocates the memory.
 *
 * Returns the length of the schema, and writes as much of it as fits `schema`, as cbor_diag_convert does. On an error,
 * returns minus a number of enum cbor_diag_error, and `schema` is unchanged: CBOR_DIAG_ERROR_WRONG_CDDL, or
 * CBOR_DIAG_ERROR_MEMORY.
 *
 *     static unsigned char schema[4096];
 *     int64_t length = cbor_diag_schema_load("a = { b: uint }", 15, NULL, 0, schema, sizeof schema);
 *
 * A schema is for the version of the library that wrote it. A pointer may be null if its length is 0. The output must
 * not overlap the others.
 */
static inline int64_t cbor_diag_schema_load_checked(const void *cddl, size_t cddl_len, const void *rule,
                                                    size_t rule_len, void *schema, size_t schema_len)
{
    const uint8_t *text = cddl ? (const uint8_t *)cddl : cbor_diag_no_bytes();
    const uint8_t *name = rule ? (const uint8_t *)rule : cbor_diag_no_bytes();
    uint8_t *out = schema ? (uint8_t *)schema : cbor_diag_no_bytes();
    if (cddl_len > (size_t)PTRDIFF_MAX || rule_len > (size_t)PTRDIFF_MAX) {
        return -CBOR_DIAG_ERROR_MEMORY; /* no object is that large */
    }
    if (schema_len > (size_t)PTRDIFF_MAX) {
        schema_len = (size_t)PTRDIFF_MAX;
    }
    return cbor_diag_schema_load(text, cddl_len, name, rule_len, out, schema_len);
}
#define cbor_diag_schema_load cbor_diag_schema_load_checked

/*
 * Says what is wrong with a text of CDDL, as cborcat does: the line, the column and why, in UTF-8. Call it after
 * cbor_diag_schema_load has returned minus CBOR_DIAG_ERROR_WRONG_CDDL.
 *
 * Returns the length of the whole message, and writes as much of it as fits `message`. Returns 0 if nothing is wrong.
 * Sets `*line` and `*column`, which count from 1. Both are 0 if nothing is wrong, and for an error that has no place:
 * no rule is there, or the text is not UTF-8. Out of memory, returns minus CBOR_DIAG_ERROR_MEMORY, both are 0, and
 * `message` is unchanged.
 *
 *     char message[256];
 *     cbor_diag_schema_fault("a = [ uit ]", 11, NULL, 0, NULL, NULL, message, sizeof message);
 *     // 38, "1:7: no rule uit is there; uint is one"
 *
 * No zero byte is added. A pointer may be null if its length is 0, and `line` and `column` may be null.
 */
static inline int64_t cbor_diag_schema_fault_checked(const void *cddl, size_t cddl_len, const void *rule,
                                                     size_t rule_len, size_t *line, size_t *column, char *message,
                                                     size_t message_len)
{
    const uint8_t *text = cddl ? (const uint8_t *)cddl : cbor_diag_no_bytes();
    const uint8_t *name = rule ? (const uint8_t *)rule : cbor_diag_no_bytes();
    uint8_t *out = message ? (uint8_t *)message : cbor_diag_no_bytes();
    size_t unused_line, unused_column;
    size_t *row = line ? line : &unused_line;
    size_t *place = column ? column : &unused_column;
    if (cddl_len > (size_t)PTRDIFF_MAX || rule_len > (size_t)PTRDIFF_MAX) {
        *row = 0;
        *place = 0;
        return -CBOR_DIAG_ERROR_MEMORY; /* no object is that large */
    }
    if (message_len > (size_t)PTRDIFF_MAX) {
        message_len = (size_t)PTRDIFF_MAX;
    }
    return cbor_diag_schema_fault(text, cddl_len, name, rule_len, row, place, out, message_len);
}
#define cbor_diag_schema_fault cbor_diag_schema_fault_checked

/*
 * Checks a sequence of items by a schema that cbor_diag_schema_load wrote, and finds the first item that does not fit.
 * cbor_diag_schema_check, below, does the same for a schema of cbor_diag_schema_new.
 *
 * Returns 0 if the input is a sequence of zero or more items that all fit. If an item does not fit, returns the length
 * of the message, which says in one line of UTF-8 what is expected and what is found; writes as much of it as fits
 * `message`; and sets `*misfit`, whose spans are in the whole message. On an error, returns minus a number of enum
 * cbor_diag_error, and `message` and `*misfit` are unchanged:
 *
 * - the error for which the bytes after the items that fit are no item;
 * - CBOR_DIAG_ERROR_WRONG_SCHEMA, CBOR_DIAG_ERROR_TOO_MUCH_WORK and CBOR_DIAG_ERROR_MEMORY.
 *
 * The bytes of a schema need not be trusted: wrong ones are an error, or another schema. A pointer may be null if its
 * length is 0, and `misfit` may be null. The outputs must not overlap the others.
 */
static inline int64_t cbor_diag_schema_misfit_checked(const void *schema, size_t schema_len, const void *input,
                                                      size_t input_len, struct cbor_diag_misfit *misfit, char *message,
                                                      size_t message_len)
{
    const uint8_t *rules = schema ? (const uint8_t *)schema : cbor_diag_no_bytes();
    const uint8_t *in = input ? (const uint8_t *)input : cbor_diag_no_bytes();
    uint8_t *out = message ? (uint8_t *)message : cbor_diag_no_bytes();
    struct cbor_diag_misfit unused;
    if (!misfit) {
        memset(&unused, 0, sizeof unused);
    }
    if (schema_len > (size_t)PTRDIFF_MAX || input_len > (size_t)PTRDIFF_MAX) {
        return -CBOR_DIAG_ERROR_MEMORY; /* no object is that large */
    }
    if (message_len > (size_t)PTRDIFF_MAX) {
        message_len = (size_t)PTRDIFF_MAX;
    }
    return cbor_diag_schema_misfit(rules, schema_len, in, input_len, misfit ? misfit : &unused, out, message_len);
}
#define cbor_diag_schema_misfit cbor_diag_schema_misfit_checked

/* A schema that cbor_diag_schema_new allocated: its length, and then its bytes. */
struct cbor_diag_schema {
    size_t length;
};

/* Ends an allocated schema. It may be null. */
static inline void cbor_diag_schema_free(struct cbor_diag_schema *schema)
{
    free(schema);
}

/*
 * Loads a text of CDDL, to check many items by it. `rule` is the name of the rule that an item has to fit, with a zero
 * byte at its end; if it is null, that is the first rule.
 *
 * Returns the schema, for cbor_diag_schema_check and then cbor_diag_schema_free. On an error, returns null, and writes
 * to `message` what is wrong, with a zero byte at its end: the text of cbor_diag_schema_fault, or "out of memory". A
 * text that does not fit into `size` bytes is truncated. `message` may be null if `size` is 0.
 *
 *     char message[256];
 *     struct cbor_diag_schema *schema = cbor_diag_schema_new(text, strlen(text), NULL, message, sizeof message);
 */
static inline struct cbor_diag_schema *cbor_diag_schema_new(const char *cddl, size_t cddl_len, const char *rule,
                                                            char *message, size_t size)
{
    size_t rule_len = rule ? strlen(rule) : 0;
    struct cbor_diag_schema *schema = NULL;
    int64_t length = cbor_diag_schema_load(cddl, cddl_len, rule, rule_len, NULL, 0);
    if (length > 0) {
        schema = (struct cbor_diag_schema *)malloc(sizeof *schema + (size_t)length);
        if (schema) {
            schema->length = (size_t)length;
            length = cbor_diag_schema_load(cddl, cddl_len, rule, rule_len, schema + 1, (size_t)length);
            if (length > 0) {
                return schema;
            }
            free(schema);
        }
    }
    if (size > 0) {
        int64_t wanted = length != -CBOR_DIAG_ERROR_WRONG_CDDL ? 0
                         : cbor_diag_schema_fault(cddl, cddl_len, rule, rule_len, NULL, NULL, message, size - 1);
        if (wanted > 0) {
            message[(size_t)wanted < size ? (size_t)wanted : size - 1] = '\0';
        } else {
            cbor_diag_strerror(-CBOR_DIAG_ERROR_MEMORY, message, size);
        }
    }
    return NULL;
}

/*
 * Checks a sequence of items by a schema of cbor_diag_schema_new, and finds the first item that does not fit.
 *
 * Returns what cbor_diag_schema_misfit does: 0 if all items fit, the length of the message if one does not, or minus a
 * number of enum cbor_diag_error. Any number of threads may check by one schema at once.
 *
 *     struct cbor_diag_misfit misfit;
 *     int64_t length = cbor_diag_schema_check(schema, item, item_len, &misfit, message, sizeof message);
 */
static inline int64_t cbor_diag_schema_check(const struct cbor_diag_schema *schema, const void *input, size_t input_len,
                                             struct cbor_diag_misfit *misfit, char *message, size_t message_len)
{
    return cbor_diag_schema_misfit(schema + 1, schema->length, input, input_len, misfit, message, message_len);
}

/* Enough for each text of cbor_diag_strviolation, and the zero byte that ends it. */
#define CBOR_DIAG_VIOLATION_TEXT_SIZE 64

/*
 * Writes the text of a violation into `text`, with a zero byte at its end, and returns `text`. `kind` is the positive
 * result of cbor_diag_violation. A text that does not fit into `size` bytes is truncated; CBOR_DIAG_VIOLATION_TEXT_SIZE
 * is enough for each. `size` is at least 1.
 */
static inline const char *cbor_diag_strviolation(int64_t kind, char *text, size_t size)
{
    uint32_t number = kind > 0 && kind <= INT32_MAX ? (uint32_t)kind : 0;
    size_t room = size - 1 < CBOR_DIAG_VIOLATION_TEXT_SIZE ? size - 1 : CBOR_DIAG_VIOLATION_TEXT_SIZE - 1;
    int64_t length = cbor_diag_violation_text(number, (uint8_t *)text, room);
    text[length < (int64_t)room ? (size_t)length : room] = '\0';
    return text;
}

#ifdef __cplusplus
}
#endif

#endif
