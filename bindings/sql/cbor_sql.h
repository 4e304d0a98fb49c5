/*
 * What the extensions of SQLite and PostgreSQL have in common: the words of errors and of rules, and where the value of
 * a part is. All of it is asked of the library; nothing here reads CBOR.
 */
#ifndef CBOR_SQL_H
#define CBOR_SQL_H

#include <stdio.h>
#include <stdlib.h>
#include <string.h>

#include "cbor_diag.h"

/* Enough for each message but those of long paths, which are cut. */
#define CBOR_SQL_MESSAGE 1024

/* The set of rules that a word names, as cborcat --check has them; -1 for none. */
static inline int64_t cbor_sql_rules(const char *word, size_t length)
{
    static const char *const words[] = {"rfc8949", "valid", "preferred", "core", "length-first", "ctap2", "dcbor"};
    for (size_t i = 0; i < sizeof words / sizeof *words; i++) {
        if (strlen(words[i]) == length && memcmp(words[i], word, length) == 0) {
            return (int64_t)i;
        }
    }
    return -1;
}

/* Ends a message with a zero byte, before a character that is cut. */
static inline const char *cbor_sql_ended(char *message, int64_t length)
{
    size_t at = length < CBOR_SQL_MESSAGE ? (size_t)length : CBOR_SQL_MESSAGE - 1;
    if (length >= CBOR_SQL_MESSAGE) {
        while (at > 0 && ((unsigned char)message[at] & 0xc0) == 0x80) {
            at--;
        }
    }
    message[at] = '\0';
    return message;
}

/* What is wrong with an input in bytes or EDN that has no output in the form `to`, as cborcat says it. */
static inline const char *cbor_sql_message(int64_t answer, uint32_t from, uint32_t to, const void *input, size_t length,
                                           char *message)
{
    size_t place, detail;
    if (answer <= -CBOR_DIAG_ERROR_CUT_SHORT && answer >= -CBOR_DIAG_ERROR_PAST_WIDTH) {
        int64_t written = cbor_diag_fault_message(from, input, length, message, CBOR_SQL_MESSAGE);
        if (written > 0 && from == CBOR_DIAG_FORM_EDN && cbor_diag_fault(from, input, length, &place) < 0 &&
            place != CBOR_DIAG_NO_PLACE) {
            char words[CBOR_DIAG_FAULT_TEXT_SIZE + 1];
            written = written < CBOR_DIAG_FAULT_TEXT_SIZE ? written : CBOR_DIAG_FAULT_TEXT_SIZE;
            memcpy(words, message, (size_t)written);
            words[written] = '\0';
            snprintf(message, CBOR_SQL_MESSAGE, "%s at byte %zu", words, place);
            return message;
        }
        if (written > 0) {
            return cbor_sql_ended(message, written);
        }
    }
    cbor_diag_strerror(answer, message, CBOR_SQL_MESSAGE);
    size_t end = strlen(message);
    if (answer == -CBOR_DIAG_ERROR_SAME_KEYS &&
        cbor_diag_output_fault(from, to, input, length, &place, &detail) == answer) {
        snprintf(message + end, CBOR_SQL_MESSAGE - end, ": those at bytes %zu and %zu", detail, place);
    } else if (answer == -CBOR_DIAG_ERROR_NOT_KEPT &&
               cbor_diag_output_fault(from, to, input, length, &place, &detail) == answer) {
        static const char *const lost[] = {"", "a tag", "NaN or an infinity", "a simple value", "a byte string",
                                           "a key that is no text"};
        snprintf(message + end, CBOR_SQL_MESSAGE - end, ": %s at byte %zu", detail < 6 ? lost[detail] : "something",
                 place);
    }
    return message;
}

/*
 * Whether bytes are one item that keeps the rules. Returns 1 if they are, 0 if they are not, and then writes what is
 * wrong to the message, or minus the number of an error that is not theirs.
 */
static inline int64_t cbor_sql_check(uint32_t rules, const void *input, size_t length, char *message)
{
    size_t place, detail;
    int64_t answer = cbor_diag_fault(CBOR_DIAG_FORM_BYTES, input, length, &place);
    if (answer < 0) {
        cbor_sql_message(answer, CBOR_DIAG_FORM_BYTES, CBOR_DIAG_FORM_BYTES, input, length, message);
        return answer == -CBOR_DIAG_ERROR_MEMORY ? answer : 0;
    }
    answer = cbor_diag_violation(rules, input, length, &place, &detail);
    if (answer <= 0) {
        return answer == 0 ? 1 : answer;
    }
    cbor_diag_strviolation(answer, message, CBOR_DIAG_VIOLATION_TEXT_SIZE);
    size_t end = strlen(message);
    if (answer == CBOR_DIAG_VIOLATION_KEY_ORDER || answer == CBOR_DIAG_VIOLATION_KEY_TWICE) {
        snprintf(message + end, CBOR_SQL_MESSAGE - end, " at byte %zu, %s at byte %zu", place,
                 answer == CBOR_DIAG_VIOLATION_KEY_ORDER ? "after the key" : "first", detail);
    } else {
        snprintf(message + end, CBOR_SQL_MESSAGE - end, " at byte %zu", place);
    }
    return 0;
}

/* What a call that writes is given. */
struct cbor_sql_given {
    uint32_t from, to; /* forms, or a set of rules */
    const void *input;
    size_t length;
    const void *word; /* the name of a type, or a path */
    size_t word_length;
};

/* A call that returns the length of the whole output, of which it writes as much as there is room for. */
typedef int64_t (*cbor_sql_call)(const struct cbor_sql_given *given, void *output, size_t room);

static inline int64_t cbor_sql_convert(const struct cbor_sql_given *given, void *output, size_t room)
{
    return cbor_diag_convert(given->from, given->to, given->input, given->length, output, room);
}

static inline int64_t cbor_sql_named(const struct cbor_sql_given *given, void *output, size_t room)
{
    return cbor_diag_named(given->input, given->length, given->word, given->word_length, output, room);
}

static inline int64_t cbor_sql_core(const struct cbor_sql_given *given, void *output, size_t room)
{
    return cbor_diag_reencode(CBOR_DIAG_RULES_CORE, given->input, given->length, output, room);
}

/* How long most outputs in a form are, at most. */
static inline size_t cbor_sql_likely(uint32_t to, size_t length)
{
    return length * (to == CBOR_DIAG_FORM_HEX ? 8 : 4) + 64;
}

/* Whether a value is a big number: a byte string right below tag 2 or 3. */
static inline int cbor_sql_is_big_number(const struct cbor_diag_value *value)
{
    return value->kind == CBOR_DIAG_KIND_BYTES && value->tagged && (value->tag == 2 || value->tag == 3);
}

/* Room for the digits of an integer, with a sign and a zero byte. */
#define CBOR_SQL_DIGITS 32

/* Writes the digits of an integer. Returns how many characters they are. */
static inline size_t cbor_sql_digits(const struct cbor_diag_value *value, char *digits)
{
    if (value->kind == CBOR_DIAG_KIND_UNSIGNED) {
        return (size_t)snprintf(digits, CBOR_SQL_DIGITS, "%llu", (unsigned long long)value->argument);
    }
    if (value->argument == UINT64_MAX) {
        return (size_t)snprintf(digits, CBOR_SQL_DIGITS, "-18446744073709551616");
    }
    return (size_t)snprintf(digits, CBOR_SQL_DIGITS, "-%llu", (unsigned long long)value->argument + 1);
}

/* Whether a value is null or undefined. */
static inline int cbor_sql_is_null(const struct cbor_diag_value *value)
{
    return value->kind == CBOR_DIAG_KIND_SIMPLE && (value->argument == 22 || value->argument == 23);
}

#endif
