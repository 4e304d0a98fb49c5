/*
 * CBOR in PostgreSQL: an extension over libcbor_diag. README.md says what each function does.
 *
 *     postgres=# CREATE EXTENSION cbor_diag;
 *     postgres=# SELECT cbor_text(payload, 'event') FROM m;
 */
#include <postgres.h>

#include <fmgr.h>
#include <funcapi.h>
#include <mb/pg_wchar.h>
#include <utils/builtins.h>

#if PG_VERSION_NUM >= 160000
#include <varatt.h>
#endif

#include "../sql/cbor_sql.h"

PG_MODULE_MAGIC;

#define BYTES CBOR_DIAG_FORM_BYTES

PG_FUNCTION_INFO_V1(cbor_sql_diag);
PG_FUNCTION_INFO_V1(cbor_sql_pretty);
PG_FUNCTION_INFO_V1(cbor_sql_hex);
PG_FUNCTION_INFO_V1(cbor_sql_json);
PG_FUNCTION_INFO_V1(cbor_sql_edn);
PG_FUNCTION_INFO_V1(cbor_sql_valid);
PG_FUNCTION_INFO_V1(cbor_sql_error);
PG_FUNCTION_INFO_V1(cbor_sql_text);
PG_FUNCTION_INFO_V1(cbor_sql_part);
PG_FUNCTION_INFO_V1(cbor_sql_each);
PG_FUNCTION_INFO_V1(cbor_sql_seq);

/* ---- arguments, errors and outputs */

/* A conversion of the bytes of the first argument to a form. */
static struct cbor_sql_given given_bytes(FunctionCallInfo fcinfo, uint32_t to)
{
    bytea *bytes = PG_GETARG_BYTEA_PP(0);
    struct cbor_sql_given given = {BYTES, to, VARDATA_ANY(bytes), VARSIZE_ANY_EXHDR(bytes), NULL, 0};
    return given;
}

/* The UTF-8 of a text. */
static const char *utf8_of(text *given, size_t *length)
{
    char *words = VARDATA_ANY(given), *utf8;
    int size = (int)VARSIZE_ANY_EXHDR(given);
    utf8 = pg_server_to_any(words, size, PG_UTF8);
    *length = utf8 == words ? (size_t)size : strlen(utf8);
    return utf8;
}

static void raise_failure(const struct cbor_sql_given *given, int64_t answer) pg_attribute_noreturn();

/* Raises the error of a call. */
static void raise_failure(const struct cbor_sql_given *given, int64_t answer)
{
    char message[CBOR_SQL_MESSAGE];
    int code = given->from == BYTES ? ERRCODE_INVALID_BINARY_REPRESENTATION : ERRCODE_INVALID_TEXT_REPRESENTATION;
    if (answer == -CBOR_DIAG_ERROR_MEMORY) {
        ereport(ERROR, (errcode(ERRCODE_OUT_OF_MEMORY), errmsg("out of memory")));
    }
    if (answer == -CBOR_DIAG_ERROR_NO_TYPE || answer == -CBOR_DIAG_ERROR_NO_RULES) {
        code = ERRCODE_INVALID_PARAMETER_VALUE;
    } else if (answer == -CBOR_DIAG_ERROR_SAME_KEYS || answer == -CBOR_DIAG_ERROR_NOT_KEPT) {
        code = ERRCODE_DATA_EXCEPTION;
    }
    ereport(ERROR, (errcode(code), errmsg("%s", cbor_sql_message(answer, given->from, given->to, given->input,
                                                                 given->length, message))));
    pg_unreachable();
}

/* The output of a call, with a head for its length; it raises the error of one that fails. */
static struct varlena *output_of(cbor_sql_call call, const struct cbor_sql_given *given)
{
    size_t room = cbor_sql_likely(given->to, given->length);
    for (;;) {
        struct varlena *output = palloc_extended(VARHDRSZ + Min(room, MaxAllocSize - VARHDRSZ), MCXT_ALLOC_NO_OOM);
        int64_t length = output ? call(given, VARDATA(output), Min(room, MaxAllocSize - VARHDRSZ))
                                : -CBOR_DIAG_ERROR_MEMORY;
        if (length < 0) {
            raise_failure(given, length);
        }
        if ((size_t)length > MaxAllocSize - VARHDRSZ) {
            ereport(ERROR, (errcode(ERRCODE_PROGRAM_LIMIT_EXCEEDED), errmsg("the output has %lld bytes",
                                                                           (long long)length)));
        }
        if ((size_t)length <= room) {
            SET_VARSIZE(output, VARHDRSZ + length);
            return output;
        }
        pfree(output);
        room = (size_t)length;
    }
}

/* UTF-8 of the library as a text of the database, whose encoding may be another. A text has no zero byte here. */
static text *text_of(const char *utf8, size_t length)
{
    char *words;
    if (memchr(utf8, 0, length)) {
        ereport(ERROR, (errcode(ERRCODE_UNTRANSLATABLE_CHARACTER), errmsg("a text here holds no zero byte")));
    }
    if (GetDatabaseEncoding() == PG_UTF8) {
        return cstring_to_text_with_len(utf8, (int)length);
    }
    words = pg_any_to_server(pnstrdup(utf8, length), (int)length, PG_UTF8);
    return cstring_to_text(words);
}

/* The output of a call as a text, without the last `ending` bytes. */
static text *text_output(cbor_sql_call call, const struct cbor_sql_given *given, size_t ending)
{
    struct varlena *output = output_of(call, given);
    size_t length = VARSIZE(output) - VARHDRSZ - ending;
    /* a text of an item has a zero byte only in notation, which is not written here */
    if (GetDatabaseEncoding() == PG_UTF8) {
        SET_VARSIZE(output, VARHDRSZ + length);
        return output;
    }
    return text_of(VARDATA(output), length);
}

static bytea *bytes_of(const void *input, size_t start, size_t end)
{
    bytea *bytes = palloc(VARHDRSZ + (end - start));
    SET_VARSIZE(bytes, VARHDRSZ + (end - start));
    memcpy(VARDATA(bytes), (const char *)input + start, end - start);
    return bytes;
}

/* ---- an item in another form */

Datum cbor_sql_diag(PG_FUNCTION_ARGS)
{
    struct cbor_sql_given given = given_bytes(fcinfo, CBOR_DIAG_FORM_EDN);
    PG_RETURN_TEXT_P(text_output(cbor_sql_convert, &given, 1));
}

Datum cbor_sql_pretty(PG_FUNCTION_ARGS)
{
    struct cbor_sql_given given = given_bytes(fcinfo, CBOR_DIAG_FORM_EDN_PRETTY);
    if (PG_NARGS() > 1) {
        given.word = utf8_of(PG_GETARG_TEXT_PP(1), &given.word_length);
    }
    PG_RETURN_TEXT_P(text_output(cbor_sql_named, &given, 1));
}

Datum cbor_sql_hex(PG_FUNCTION_ARGS)
{
    struct cbor_sql_given given = given_bytes(fcinfo, CBOR_DIAG_FORM_HEX);
    PG_RETURN_TEXT_P(text_output(cbor_sql_convert, &given, 0));
}

Datum cbor_sql_json(PG_FUNCTION_ARGS)
{
    bool strict = PG_NARGS() > 1 && PG_GETARG_BOOL(1);
    struct cbor_sql_given given = given_bytes(fcinfo, strict ? CBOR_DIAG_FORM_JSON_STRICT : CBOR_DIAG_FORM_JSON);
    PG_RETURN_TEXT_P(text_output(cbor_sql_convert, &given, 1));
}

Datum cbor_sql_edn(PG_FUNCTION_ARGS)
{
    struct cbor_sql_given given = {CBOR_DIAG_FORM_EDN, BYTES, NULL, 0, NULL, 0};
    given.input = utf8_of(PG_GETARG_TEXT_PP(0), &given.length);
    PG_RETURN_BYTEA_P(output_of(cbor_sql_convert, &given));
}

/* ---- whether an item keeps rules */

/* What cbor_sql_check returns of the arguments. */
static int64_t checked(FunctionCallInfo fcinfo, char *message)
{
    struct cbor_sql_given given = given_bytes(fcinfo, BYTES);
    int64_t rules = CBOR_DIAG_RULES_RFC8949, kept;
    if (PG_NARGS() > 1) {
        size_t length;
        const char *word = utf8_of(PG_GETARG_TEXT_PP(1), &length);
        rules = cbor_sql_rules(word, length);
    }
    kept = rules < 0 ? -CBOR_DIAG_ERROR_NO_RULES : cbor_sql_check((uint32_t)rules, given.input, given.length, message);
    if (kept < 0) {
        raise_failure(&given, kept);
    }
    return kept;
}

Datum cbor_sql_valid(PG_FUNCTION_ARGS)
{
    char message[CBOR_SQL_MESSAGE];
    PG_RETURN_BOOL(checked(fcinfo, message) > 0);
}

Datum cbor_sql_error(PG_FUNCTION_ARGS)
{
    char message[CBOR_SQL_MESSAGE];
    if (checked(fcinfo, message) > 0) {
        PG_RETURN_NULL();
    }
    PG_RETURN_TEXT_P(text_of(message, strlen(message)));
}

/* ---- parts and values */

/* The part of an item at the path that is given as a word. Returns false where there is none. */
static bool find_part(const struct cbor_sql_given *given, struct cbor_sql_given *part)
{
    size_t start, end;
    int64_t answer = cbor_diag_part(given->input, given->length, given->word, given->word_length, &start, &end);
    if (answer == -CBOR_DIAG_ERROR_NO_PART) {
        return false;
    }
    if (answer < 0) {
        raise_failure(given, answer);
    }
    part->from = BYTES;
    part->input = (const char *)given->input + start;
    part->length = end - start;
    return true;
}

/* The content of a text string, whose chunks are one in another encoding of it. */
static text *joined(const struct cbor_sql_given *part)
{
    struct varlena *again = output_of(cbor_sql_core, part);
    struct cbor_diag_value value;
    int64_t answer = cbor_diag_value(VARDATA(again), VARSIZE(again) - VARHDRSZ, NULL, 0, &value);
    if (answer < 0) {
        raise_failure(part, answer);
    }
    return text_of(VARDATA(again) + value.start, value.end - value.start);
}

/* A part as JSON has it, which for a byte string is a string: without the quotes. */
static text *scalar(const struct cbor_sql_given *part)
{
    struct varlena *json = output_of(cbor_sql_convert, part);
    const char *words = VARDATA(json);
    size_t length = VARSIZE(json) - VARHDRSZ - 1;
    bool quoted = length >= 2 && words[0] == '"';
    return cstring_to_text_with_len(words + quoted, (int)(length - 2 * quoted));
}

/* The value of an item at the path that is given as a word, as a text; null for null and where nothing is. */
static text *value_at(const struct cbor_sql_given *given)
{
    const char *bytes = given->input;
    struct cbor_sql_given part = {BYTES, CBOR_DIAG_FORM_JSON, NULL, 0, NULL, 0};
    struct cbor_diag_value value;
    int64_t answer = cbor_diag_value(bytes, given->length, given->word, given->word_length, &value);
    if (answer == -CBOR_DIAG_ERROR_NO_PART) {
        return NULL;
    }
    if (answer < 0) {
        raise_failure(given, answer);
    }
    if (value.kind == CBOR_DIAG_KIND_TEXT && !value.indefinite) {
        return text_of(bytes + value.start, value.end - value.start);
    }
    if (cbor_sql_is_null(&value)) {
        return NULL;
    }
    if (value.kind == CBOR_DIAG_KIND_UNSIGNED || value.kind == CBOR_DIAG_KIND_NEGATIVE) {
        char digits[CBOR_SQL_DIGITS];
        size_t length = cbor_sql_digits(&value, digits);
        return cstring_to_text_with_len(digits, (int)length);
    }
    if (value.kind == CBOR_DIAG_KIND_FLOAT && (value.number != value.number || value.number - value.number != 0)) {
        return cstring_to_text(value.number != value.number ? "NaN" : value.number > 0 ? "Infinity" : "-Infinity");
    }
    if ((value.tagged && value.kind != CBOR_DIAG_KIND_FLOAT) || (value.kind == CBOR_DIAG_KIND_BYTES && !value.indefinite)) {
        if (!find_part(given, &part)) {
            return NULL;
        }
    } else {
        /* the value is where the part is, but for tags, and JSON has a number without them */
        part.input = bytes + value.start;
        part.length = value.end - value.start;
    }
    if (value.kind == CBOR_DIAG_KIND_TEXT) {
        return joined(&part);
    }
    if (value.kind == CBOR_DIAG_KIND_ARRAY || value.kind == CBOR_DIAG_KIND_MAP ||
        (value.kind == CBOR_DIAG_KIND_SIMPLE && value.argument != 20 && value.argument != 21)) {
        part.to = CBOR_DIAG_FORM_EDN;
        return text_output(cbor_sql_convert, &part, 1);
    }
    return scalar(&part);
}

/* The first argument, and the second as a path. */
static struct cbor_sql_given given_path(FunctionCallInfo fcinfo)
{
    struct cbor_sql_given given = given_bytes(fcinfo, BYTES);
    given.word = utf8_of(PG_GETARG_TEXT_PP(1), &given.word_length);
    return given;
}

Datum cbor_sql_text(PG_FUNCTION_ARGS)
{
    struct cbor_sql_given given = given_path(fcinfo);
    text *value = value_at(&given);
    if (!value) {
        PG_RETURN_NULL();
    }
    PG_RETURN_TEXT_P(value);
}

Datum cbor_sql_part(PG_FUNCTION_ARGS)
{
    struct cbor_sql_given given = given_path(fcinfo), part;
    if (!find_part(&given, &part)) {
        PG_RETURN_NULL();
    }
    PG_RETURN_BYTEA_P(bytes_of(part.input, 0, part.length));
}

/* ---- members, and the items of a log */

struct members {
    struct cbor_sql_given given;
    struct cbor_diag_part *parts;
    int64_t count;
    bool is_map;
};

static struct members *members_of(FunctionCallInfo fcinfo)
{
    struct members *members = palloc0(sizeof *members);
    bytea *bytes = PG_GETARG_BYTEA_P_COPY(0);
    struct cbor_diag_value value;
    int64_t answer, room = 64;
    members->given.from = members->given.to = BYTES;
    members->given.input = VARDATA(bytes);
    members->given.length = VARSIZE(bytes) - VARHDRSZ;
    answer = cbor_diag_value(members->given.input, members->given.length, NULL, 0, &value);
    if (answer < 0) {
        raise_failure(&members->given, answer);
    }
    members->is_map = value.kind == CBOR_DIAG_KIND_MAP;
    for (;;) {
        members->parts = palloc_extended((Size)room * sizeof *members->parts, MCXT_ALLOC_HUGE);
        members->count = cbor_diag_parts(members->given.input, members->given.length, "*", 1, members->parts,
                                         (size_t)room);
        if (members->count < 0) {
            raise_failure(&members->given, members->count);
        }
        if (members->count <= room) {
            return members;
        }
        pfree(members->parts);
        room = members->count;
    }
}

/* The key of a member: of an array the index, of a map the text of the key, and EDN where that is no text or number. */
static text *key_of(const struct members *members, int64_t index)
{
    struct cbor_sql_given key = {BYTES, CBOR_DIAG_FORM_EDN, NULL, 0, NULL, 0};
    size_t start = members->parts[index].key;
    struct cbor_diag_value value;
    if (!members->is_map) {
        return cstring_to_text(psprintf("%lld", (long long)index));
    }
    key.input = (const char *)members->given.input + start;
    key.length = members->parts[index].start - start;
    if (cbor_diag_value(key.input, key.length, NULL, 0, &value) == 0 && value.kind == CBOR_DIAG_KIND_TEXT) {
        return value_at(&key);
    }
    return text_output(cbor_sql_convert, &key, 1);
}

Datum cbor_sql_each(PG_FUNCTION_ARGS)
{
    FuncCallContext *context;
    struct members *members;
    if (SRF_IS_FIRSTCALL()) {
        MemoryContext before;
        TupleDesc row;
        context = SRF_FIRSTCALL_INIT();
        before = MemoryContextSwitchTo(context->multi_call_memory_ctx);
        if (get_call_result_type(fcinfo, NULL, &row) != TYPEFUNC_COMPOSITE) {
            ereport(ERROR, (errcode(ERRCODE_FEATURE_NOT_SUPPORTED), errmsg("cbor_each returns rows")));
        }
        context->tuple_desc = BlessTupleDesc(row);
        context->user_fctx = members_of(fcinfo);
        MemoryContextSwitchTo(before);
    }
    context = SRF_PERCALL_SETUP();
    members = context->user_fctx;
    if ((int64_t)context->call_cntr < members->count) {
        const struct cbor_diag_part *part = &members->parts[context->call_cntr];
        struct cbor_sql_given item = {BYTES, BYTES, (const char *)members->given.input + part->start,
                                      part->end - part->start, NULL, 0};
        text *value = value_at(&item);
        Datum columns[3];
        bool nulls[3] = {false, value == NULL, false};
        columns[0] = PointerGetDatum(key_of(members, (int64_t)context->call_cntr));
        columns[1] = PointerGetDatum(value);
        columns[2] = PointerGetDatum(bytes_of(item.input, 0, item.length));
        SRF_RETURN_NEXT(context, HeapTupleGetDatum(heap_form_tuple(context->tuple_desc, columns, nulls)));
    }
    SRF_RETURN_DONE(context);
}

/* A log, and how many of its bytes were passed. */
struct log {
    bytea *bytes;
    size_t at;
};

Datum cbor_sql_seq(PG_FUNCTION_ARGS)
{
    FuncCallContext *context;
    struct log *log;
    if (SRF_IS_FIRSTCALL()) {
        MemoryContext before;
        context = SRF_FIRSTCALL_INIT();
        before = MemoryContextSwitchTo(context->multi_call_memory_ctx);
        log = palloc0(sizeof *log);
        log->bytes = PG_GETARG_BYTEA_P_COPY(0);
        context->user_fctx = log;
        MemoryContextSwitchTo(before);
    }
    context = SRF_PERCALL_SETUP();
    log = context->user_fctx;
    if (log->at < VARSIZE(log->bytes) - VARHDRSZ) {
        const char *input = VARDATA(log->bytes);
        size_t start = log->at, rest = VARSIZE(log->bytes) - VARHDRSZ - start, end;
        int64_t length = cbor_diag_extent(input + start, rest, &end);
        if (length < 0) {
            char message[CBOR_SQL_MESSAGE];
            cbor_sql_message(length, BYTES, BYTES, input + start, rest, message);
            ereport(ERROR, (errcode(ERRCODE_INVALID_BINARY_REPRESENTATION),
                            errmsg("the item at byte %zu: %s", start, message)));
        }
        log->at += (size_t)length;
        SRF_RETURN_NEXT(context, PointerGetDatum(bytes_of(input, start, log->at)));
    }
    SRF_RETURN_DONE(context);
}
