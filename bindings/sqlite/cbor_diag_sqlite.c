/*
 * CBOR in SQLite: a loadable extension over libcbor_diag. README.md says what each function does.
 *
 *     sqlite> .load ./cbor_diag_sqlite
 *     sqlite> SELECT cbor_get(payload, 'event') FROM m;
 */
#include <sqlite3ext.h>
SQLITE_EXTENSION_INIT1

#include "../sql/cbor_sql.h"

#ifndef SQLITE_INNOCUOUS
#define SQLITE_INNOCUOUS 0
#endif

#define BYTES CBOR_DIAG_FORM_BYTES

/* ---- arguments and outputs */

/* The bytes of an argument that has to be a BLOB. NULL gives NULL, and any other kind an error; then it returns 0. */
static int given_blob(sqlite3_context *context, sqlite3_value *argument, struct cbor_sql_given *given)
{
    int type = sqlite3_value_type(argument);
    if (type == SQLITE_NULL) {
        return 0;
    }
    if (type != SQLITE_BLOB) {
        sqlite3_result_error(context, "CBOR has to be a BLOB: cbor_edn(text) makes one of EDN, and x'..' of hex", -1);
        return 0;
    }
    given->input = sqlite3_value_blob(argument);
    given->length = (size_t)sqlite3_value_bytes(argument);
    if (!given->input && given->length > 0) {
        sqlite3_result_error_nomem(context);
        return 0;
    }
    return 1;
}

/* The text of an argument. NULL gives NULL; then it returns 0. */
static int given_text(sqlite3_context *context, sqlite3_value *argument, const char **text, size_t *length)
{
    if (sqlite3_value_type(argument) == SQLITE_NULL) {
        return 0;
    }
    *text = (const char *)sqlite3_value_text(argument);
    *length = (size_t)sqlite3_value_bytes(argument);
    if (!*text) {
        sqlite3_result_error_nomem(context);
        return 0;
    }
    return 1;
}

/* The output of a call, to be freed by sqlite3_free; or null, and then `length` is minus the number of an error. */
static unsigned char *output_of(cbor_sql_call call, const struct cbor_sql_given *given, int64_t *length)
{
    size_t room = cbor_sql_likely(given->to, given->length);
    for (int tries = 0; tries < 2; tries++) {
        unsigned char *output = sqlite3_malloc64(room);
        *length = output ? call(given, output, room) : -CBOR_DIAG_ERROR_MEMORY;
        if (*length >= 0 && *length <= (int64_t)room) {
            return output;
        }
        sqlite3_free(output);
        if (*length < 0) {
            return NULL;
        }
        room = (size_t)*length;
    }
    *length = -CBOR_DIAG_ERROR_MEMORY; /* the length of an output does not change */
    return NULL;
}

/* The error of a call. */
static void result_failure(sqlite3_context *context, const struct cbor_sql_given *given, int64_t answer)
{
    char message[CBOR_SQL_MESSAGE];
    if (answer == -CBOR_DIAG_ERROR_MEMORY) {
        sqlite3_result_error_nomem(context);
        return;
    }
    cbor_sql_message(answer, given->from, given->to, given->input, given->length, message);
    sqlite3_result_error(context, message, -1);
}

/* The output of a call as a text, without the last `ending` bytes. */
static void result_text(sqlite3_context *context, cbor_sql_call call, const struct cbor_sql_given *given, int ending)
{
    int64_t length;
    char *text = (char *)output_of(call, given, &length);
    if (text) {
        sqlite3_result_text64(context, text, (sqlite3_uint64)(length - ending), sqlite3_free, SQLITE_UTF8);
    } else {
        result_failure(context, given, length);
    }
}

/* ---- an item in another form */

static void cbor_form(sqlite3_context *context, int count, sqlite3_value **arguments)
{
    uint32_t to = (uint32_t)(intptr_t)sqlite3_user_data(context);
    struct cbor_sql_given given = {BYTES, to, NULL, 0, NULL, 0};
    if (!given_blob(context, arguments[0], &given)) {
        return;
    }
    if (count > 1) {
        if (sqlite3_value_type(arguments[1]) == SQLITE_NULL) {
            return;
        }
        given.to = sqlite3_value_int(arguments[1]) ? CBOR_DIAG_FORM_JSON_STRICT : to;
    }
    result_text(context, cbor_sql_convert, &given, to == CBOR_DIAG_FORM_HEX ? 0 : 1);
}

static void cbor_pretty(sqlite3_context *context, int count, sqlite3_value **arguments)
{
    struct cbor_sql_given given = {BYTES, CBOR_DIAG_FORM_EDN_PRETTY, NULL, 0, NULL, 0};
    const char *type = NULL;
    if (!given_blob(context, arguments[0], &given) ||
        (count > 1 && !given_text(context, arguments[1], &type, &given.word_length))) {
        return;
    }
    given.word = type;
    result_text(context, cbor_sql_named, &given, 1);
}

static void cbor_edn(sqlite3_context *context, int count, sqlite3_value **arguments)
{
    struct cbor_sql_given given = {CBOR_DIAG_FORM_EDN, BYTES, NULL, 0, NULL, 0};
    const char *text;
    int64_t length;
    (void)count;
    if (!given_text(context, arguments[0], &text, &given.length)) {
        return;
    }
    given.input = text;
    unsigned char *bytes = output_of(cbor_sql_convert, &given, &length);
    if (bytes) {
        sqlite3_result_blob64(context, bytes, (sqlite3_uint64)length, sqlite3_free);
    } else {
        result_failure(context, &given, length);
    }
}

/* ---- whether an item keeps rules */

/* cbor_valid, and cbor_error where the user data is not null. */
static void cbor_check(sqlite3_context *context, int count, sqlite3_value **arguments)
{
    struct cbor_sql_given given = {BYTES, BYTES, NULL, 0, NULL, 0};
    char message[CBOR_SQL_MESSAGE];
    int64_t rules = CBOR_DIAG_RULES_RFC8949;
    if (!given_blob(context, arguments[0], &given)) {
        return;
    }
    if (count > 1) {
        const char *word;
        size_t length;
        if (!given_text(context, arguments[1], &word, &length)) {
            return;
        }
        rules = cbor_sql_rules(word, length);
        if (rules < 0) {
            cbor_diag_strerror(-CBOR_DIAG_ERROR_NO_RULES, message, sizeof message);
            sqlite3_result_error(context, message, -1);
            return;
        }
    }
    int64_t kept = cbor_sql_check((uint32_t)rules, given.input, given.length, message);
    if (kept < 0) {
        sqlite3_result_error_nomem(context);
    } else if (!sqlite3_user_data(context)) {
        sqlite3_result_int(context, kept > 0);
    } else if (kept == 0) {
        sqlite3_result_text(context, message, -1, SQLITE_TRANSIENT);
    }
}

/* ---- parts and values */

/* Bytes of the item, as a BLOB of their own. */
static void result_bytes(sqlite3_context *context, const void *input, size_t start, size_t end)
{
    sqlite3_result_blob64(context, (const unsigned char *)input + start, end - start, SQLITE_TRANSIENT);
}

/* An integer; past 2^63 a text of its digits. */
static void result_integer(sqlite3_context *context, const struct cbor_diag_value *value)
{
    char digits[CBOR_SQL_DIGITS];
    if (value->argument <= INT64_MAX) {
        int64_t number = (int64_t)value->argument;
        sqlite3_result_int64(context, value->kind == CBOR_DIAG_KIND_NEGATIVE ? -1 - number : number);
        return;
    }
    size_t length = cbor_sql_digits(value, digits);
    sqlite3_result_text(context, digits, (int)length, SQLITE_TRANSIENT);
}

/* The content of a string in chunks, which are one in another encoding of it. */
static void result_joined(sqlite3_context *context, const struct cbor_sql_given *part)
{
    int64_t length;
    unsigned char *bytes = output_of(cbor_sql_core, part, &length);
    struct cbor_diag_value value;
    if (!bytes || (length = cbor_diag_value(bytes, (size_t)length, NULL, 0, &value)) < 0) {
        sqlite3_free(bytes);
        result_failure(context, part, length);
        return;
    }
    if (value.kind == CBOR_DIAG_KIND_TEXT) {
        sqlite3_result_text64(context, (const char *)bytes + value.start, value.end - value.start, SQLITE_TRANSIENT,
                              SQLITE_UTF8);
    } else {
        result_bytes(context, bytes, value.start, value.end);
    }
    sqlite3_free(bytes);
}

/* The part of an item at a path. Returns 0 where there is none, and has set the result then. */
static int find_part(sqlite3_context *context, const struct cbor_sql_given *given, struct cbor_sql_given *part)
{
    size_t start, end;
    int64_t answer = cbor_diag_part(given->input, given->length, given->word, given->word_length, &start, &end);
    if (answer < 0) {
        if (answer != -CBOR_DIAG_ERROR_NO_PART) {
            result_failure(context, given, answer);
        }
        return 0;
    }
    part->input = (const unsigned char *)given->input + start;
    part->length = end - start;
    return 1;
}

/* The value of an item at the path that is given as a word. */
static void result_value(sqlite3_context *context, const struct cbor_sql_given *given)
{
    const unsigned char *bytes = given->input;
    struct cbor_diag_value value;
    int64_t answer = cbor_diag_value(bytes, given->length, given->word, given->word_length, &value);
    if (answer < 0) {
        if (answer != -CBOR_DIAG_ERROR_NO_PART) {
            result_failure(context, given, answer);
        }
    } else if (cbor_sql_is_null(&value)) {
        return;
    } else if (cbor_sql_is_big_number(&value)) {
        struct cbor_sql_given part = {BYTES, CBOR_DIAG_FORM_JSON, NULL, 0, NULL, 0};
        if (find_part(context, given, &part)) {
            result_text(context, cbor_sql_convert, &part, 1);
        }
    } else if (value.indefinite && (value.kind == CBOR_DIAG_KIND_BYTES || value.kind == CBOR_DIAG_KIND_TEXT)) {
        struct cbor_sql_given part = {BYTES, BYTES, bytes + value.start, value.end - value.start, NULL, 0};
        result_joined(context, &part);
    } else if (value.kind == CBOR_DIAG_KIND_UNSIGNED || value.kind == CBOR_DIAG_KIND_NEGATIVE) {
        result_integer(context, &value);
    } else if (value.kind == CBOR_DIAG_KIND_FLOAT) {
        sqlite3_result_double(context, value.number);
    } else if (value.kind == CBOR_DIAG_KIND_TEXT) {
        sqlite3_result_text64(context, (const char *)bytes + value.start, value.end - value.start, SQLITE_TRANSIENT,
                              SQLITE_UTF8);
    } else if (value.kind == CBOR_DIAG_KIND_SIMPLE && (value.argument == 20 || value.argument == 21)) {
        sqlite3_result_int(context, value.argument == 21);
    } else {
        result_bytes(context, bytes, value.start, value.end);
    }
}

/* cbor_part, and cbor_get where the user data is not null. */
static void cbor_part(sqlite3_context *context, int count, sqlite3_value **arguments)
{
    struct cbor_sql_given given = {BYTES, BYTES, NULL, 0, NULL, 0}, part;
    const char *path;
    (void)count;
    if (!given_blob(context, arguments[0], &given) || !given_text(context, arguments[1], &path, &given.word_length)) {
        return;
    }
    given.word = path;
    if (sqlite3_user_data(context)) {
        result_value(context, &given);
    } else if (find_part(context, &given, &part)) {
        result_bytes(context, part.input, 0, part.length);
    }
}

/* ---- cbor_each and cbor_seq: tables of the members of an item, and of the items of a log */

struct table {
    sqlite3_vtab base;
    int is_seq;
};

struct cursor {
    sqlite3_vtab_cursor base;
    unsigned char *bytes; /* a copy of the argument */
    size_t length;
    struct cbor_diag_part *parts; /* of cbor_each */
    int64_t count;
    int64_t index;     /* of the row */
    size_t start, end; /* of its item */
    int is_map, done;
};

/* The columns of the tables. The last one is the argument. */
enum { KEY, VALUE, ITEM, EACH_BYTES, N = 0, START, SEQ_ITEM, SEQ_BYTES };

static int connect_table(sqlite3 *database, void *is_seq, int count, const char *const *words, sqlite3_vtab **made,
                         char **error)
{
    (void)count, (void)words, (void)error;
    int status = sqlite3_declare_vtab(database, is_seq ? "CREATE TABLE x(n, start, item, bytes HIDDEN)"
                                                       : "CREATE TABLE x(key, value, item, bytes HIDDEN)");
    if (status != SQLITE_OK) {
        return status;
    }
    struct table *table = sqlite3_malloc(sizeof *table);
    if (!table) {
        return SQLITE_NOMEM;
    }
    memset(table, 0, sizeof *table);
    table->is_seq = is_seq != NULL;
    sqlite3_vtab_config(database, SQLITE_VTAB_INNOCUOUS);
    *made = &table->base;
    return SQLITE_OK;
}

static int disconnect_table(sqlite3_vtab *table)
{
    sqlite3_free(table);
    return SQLITE_OK;
}

/* The argument is a constraint on the hidden column, as of each table-valued function. */
static int best_index(sqlite3_vtab *table, sqlite3_index_info *info)
{
    (void)table;
    int unusable = 0;
    for (int i = 0; i < info->nConstraint; i++) {
        if (info->aConstraint[i].iColumn != EACH_BYTES || info->aConstraint[i].op != SQLITE_INDEX_CONSTRAINT_EQ) {
            continue;
        }
        if (!info->aConstraint[i].usable) {
            unusable = 1;
            continue;
        }
        info->aConstraintUsage[i].argvIndex = 1;
        info->aConstraintUsage[i].omit = 1;
        info->idxNum = 1;
        info->estimatedCost = 10;
        info->estimatedRows = 10;
        return SQLITE_OK;
    }
    info->estimatedCost = 1e9;
    return unusable ? SQLITE_CONSTRAINT : SQLITE_OK;
}

static int open_cursor(sqlite3_vtab *table, sqlite3_vtab_cursor **made)
{
    (void)table;
    struct cursor *cursor = sqlite3_malloc(sizeof *cursor);
    if (!cursor) {
        return SQLITE_NOMEM;
    }
    memset(cursor, 0, sizeof *cursor);
    *made = &cursor->base;
    return SQLITE_OK;
}

static void clear_cursor(struct cursor *cursor)
{
    sqlite3_free(cursor->bytes);
    sqlite3_free(cursor->parts);
    cursor->bytes = NULL;
    cursor->parts = NULL;
    cursor->length = 0;
    cursor->count = cursor->index = 0;
    cursor->start = cursor->end = 0;
    cursor->done = 1;
}

static int close_cursor(sqlite3_vtab_cursor *base)
{
    clear_cursor((struct cursor *)base);
    sqlite3_free(base);
    return SQLITE_OK;
}

static int table_failure(struct cursor *cursor, int64_t answer, size_t before)
{
    char message[CBOR_SQL_MESSAGE];
    if (answer == -CBOR_DIAG_ERROR_MEMORY) {
        return SQLITE_NOMEM;
    }
    cbor_sql_message(answer, BYTES, BYTES, cursor->bytes + before, cursor->length - before, message);
    sqlite3_free(cursor->base.pVtab->zErrMsg);
    cursor->base.pVtab->zErrMsg = before ? sqlite3_mprintf("the item at byte %lld: %s", (sqlite3_int64)before, message)
                                         : sqlite3_mprintf("%s", message);
    return SQLITE_ERROR;
}

/* Goes to the row of this index. */
static int to_row(struct cursor *cursor)
{
    struct table *table = (struct table *)cursor->base.pVtab;
    if (!table->is_seq) {
        cursor->done = cursor->index >= cursor->count;
        if (!cursor->done) {
            cursor->start = cursor->parts[cursor->index].start;
            cursor->end = cursor->parts[cursor->index].end;
        }
        return SQLITE_OK;
    }
    cursor->start = cursor->end;
    cursor->done = cursor->start >= cursor->length;
    if (cursor->done) {
        return SQLITE_OK;
    }
    size_t decided;
    int64_t answer = cbor_diag_extent(cursor->bytes + cursor->start, cursor->length - cursor->start, &decided);
    if (answer < 0) {
        cursor->done = 1;
        return table_failure(cursor, answer, cursor->start);
    }
    cursor->end = cursor->start + (size_t)answer;
    return SQLITE_OK;
}

/* Finds the members of the argument. */
static int find_parts(struct cursor *cursor)
{
    struct cbor_diag_value value;
    int64_t answer = cbor_diag_value(cursor->bytes, cursor->length, NULL, 0, &value);
    if (answer < 0) {
        return table_failure(cursor, answer, 0);
    }
    cursor->is_map = value.kind == CBOR_DIAG_KIND_MAP;
    for (size_t room = 64;; room = (size_t)cursor->count) {
        sqlite3_free(cursor->parts);
        cursor->parts = sqlite3_malloc64(room * sizeof *cursor->parts);
        if (!cursor->parts) {
            return SQLITE_NOMEM;
        }
        cursor->count = cbor_diag_parts(cursor->bytes, cursor->length, "*", 1, cursor->parts, room);
        if (cursor->count < 0) {
            return table_failure(cursor, cursor->count, 0);
        }
        if (cursor->count <= (int64_t)room) {
            return SQLITE_OK;
        }
    }
}

static int filter(sqlite3_vtab_cursor *base, int plan, const char *unused, int count, sqlite3_value **arguments)
{
    struct cursor *cursor = (struct cursor *)base;
    struct table *table = (struct table *)base->pVtab;
    (void)unused;
    clear_cursor(cursor);
    if (!plan || count < 1 || sqlite3_value_type(arguments[0]) == SQLITE_NULL) {
        return SQLITE_OK;
    }
    if (sqlite3_value_type(arguments[0]) != SQLITE_BLOB) {
        sqlite3_free(base->pVtab->zErrMsg);
        base->pVtab->zErrMsg = sqlite3_mprintf("CBOR has to be a BLOB: cbor_edn(text) makes one of EDN");
        return SQLITE_ERROR;
    }
    const void *given = sqlite3_value_blob(arguments[0]);
    cursor->length = (size_t)sqlite3_value_bytes(arguments[0]);
    cursor->bytes = sqlite3_malloc64(cursor->length + 1);
    if (!cursor->bytes) {
        return SQLITE_NOMEM;
    }
    if (cursor->length > 0) {
        memcpy(cursor->bytes, given, cursor->length);
    }
    int status = table->is_seq ? SQLITE_OK : find_parts(cursor);
    return status == SQLITE_OK ? to_row(cursor) : status;
}

static int next_row(sqlite3_vtab_cursor *base)
{
    struct cursor *cursor = (struct cursor *)base;
    cursor->index++;
    return to_row(cursor);
}

static int at_end(sqlite3_vtab_cursor *base)
{
    return ((struct cursor *)base)->done;
}

/* The key of a member: of an array the index, of a map the value of the key, and EDN of a key that is no scalar. */
static void result_key(sqlite3_context *context, struct cursor *cursor)
{
    if (!cursor->is_map) {
        sqlite3_result_int64(context, cursor->index);
        return;
    }
    size_t start = cursor->parts[cursor->index].key;
    struct cbor_sql_given key = {BYTES, CBOR_DIAG_FORM_EDN, cursor->bytes + start, cursor->start - start, NULL, 0};
    struct cbor_diag_value value;
    int64_t answer = cbor_diag_value(key.input, key.length, NULL, 0, &value);
    if (answer == 0 && !cbor_sql_is_null(&value) && value.kind != CBOR_DIAG_KIND_ARRAY &&
        value.kind != CBOR_DIAG_KIND_MAP && value.kind != CBOR_DIAG_KIND_SIMPLE) {
        result_value(context, &key);
    } else {
        result_text(context, cbor_sql_convert, &key, 1);
    }
}

static int column(sqlite3_vtab_cursor *base, sqlite3_context *context, int which)
{
    struct cursor *cursor = (struct cursor *)base;
    if (which == ITEM) {
        result_bytes(context, cursor->bytes, cursor->start, cursor->end);
    } else if (which == EACH_BYTES) {
        result_bytes(context, cursor->bytes, 0, cursor->length);
    } else if (((struct table *)base->pVtab)->is_seq) {
        sqlite3_result_int64(context, which == N ? cursor->index + 1 : (sqlite3_int64)cursor->start);
    } else if (which == KEY) {
        result_key(context, cursor);
    } else {
        struct cbor_sql_given item = {BYTES, BYTES, cursor->bytes + cursor->start, 0, NULL, 0};
        item.length = cursor->end - cursor->start;
        result_value(context, &item);
    }
    return SQLITE_OK;
}

static int rowid(sqlite3_vtab_cursor *base, sqlite3_int64 *row)
{
    *row = ((struct cursor *)base)->index + 1;
    return SQLITE_OK;
}

static sqlite3_module tables = {
    .iVersion = 0,
    .xConnect = connect_table,
    .xBestIndex = best_index,
    .xDisconnect = disconnect_table,
    .xOpen = open_cursor,
    .xClose = close_cursor,
    .xFilter = filter,
    .xNext = next_row,
    .xEof = at_end,
    .xColumn = column,
    .xRowid = rowid,
};

/* ---- the extension */

int sqlite3_cbordiagsqlite_init(sqlite3 *database, char **error, const sqlite3_api_routines *api)
{
    SQLITE_EXTENSION_INIT2(api);
    (void)error;
    static const struct {
        const char *name;
        int arguments;
        intptr_t data;
        void (*call)(sqlite3_context *, int, sqlite3_value **);
    } functions[] = {
        {"cbor_diag", 1, CBOR_DIAG_FORM_EDN, cbor_form}, {"cbor_hex", 1, CBOR_DIAG_FORM_HEX, cbor_form},
        {"cbor_json", 1, CBOR_DIAG_FORM_JSON, cbor_form}, {"cbor_json", 2, CBOR_DIAG_FORM_JSON, cbor_form},
        {"cbor_pretty", 1, 0, cbor_pretty}, {"cbor_pretty", 2, 0, cbor_pretty}, {"cbor_edn", 1, 0, cbor_edn},
        {"cbor_valid", 1, 0, cbor_check}, {"cbor_valid", 2, 0, cbor_check}, {"cbor_error", 1, 1, cbor_check},
        {"cbor_error", 2, 1, cbor_check}, {"cbor_part", 2, 0, cbor_part}, {"cbor_get", 2, 1, cbor_part},
    };
    const int flags = SQLITE_UTF8 | SQLITE_DETERMINISTIC | SQLITE_INNOCUOUS;
    int status = SQLITE_OK;
    for (size_t i = 0; status == SQLITE_OK && i < sizeof functions / sizeof *functions; i++) {
        status = sqlite3_create_function_v2(database, functions[i].name, functions[i].arguments, flags,
                                            (void *)functions[i].data, functions[i].call, NULL, NULL, NULL);
    }
    if (status == SQLITE_OK) {
        status = sqlite3_create_module_v2(database, "cbor_each", &tables, NULL, NULL);
    }
    if (status == SQLITE_OK) {
        status = sqlite3_create_module_v2(database, "cbor_seq", &tables, &tables, NULL);
    }
    return status;
}
