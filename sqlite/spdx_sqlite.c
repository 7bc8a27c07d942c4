/* SPDX licence expressions in SQL: an extension of SQLite over libspdx. docs/SQL.md says what each function gives.
 *
 * The list of licences is read once for each connection, by spdx_list(PATH), and kept until the connection is closed.
 * Every function gives NULL where it is asked of NULL.
 */
#include <sqlite3ext.h>
#include <spdx.h>
#include <stdio.h>
#include <stdlib.h>
#include <string.h>

SQLITE_EXTENSION_INIT1

/* The list of a connection, by all functions of it. */
typedef struct {
    spdx_list list;
    int holders;
} kept;

static void release(void *at) {
    kept *it = at;
    if (--it->holders > 0) return;
    spdx_close(&it->list);
    sqlite3_free(it);
}

static spdx_text text_of(sqlite3_value *value) {
    const void *bytes = sqlite3_value_text(value);
    return (spdx_text){bytes, (size_t)sqlite3_value_bytes(value)};
}

/* Whether one of the arguments is NULL, and so the answer. */
static int is_null(int count, sqlite3_value **values) {
    for (int i = 0; i < count; i++)
        if (sqlite3_value_type(values[i]) == SQLITE_NULL) return 1;
    return 0;
}

/* What no text can help. Gives whether the status is such a one. */
static int is_trouble(sqlite3_context *call, spdx_report told) {
    switch (told.status) {
    case SPDX_MEMORY: sqlite3_result_error_nomem(call); return 1;
    case SPDX_ARGUMENT: sqlite3_result_error(call, "spdx: no list is read: SELECT spdx_list('spdx.json')", -1); return 1;
    case SPDX_LICENSEE:
    case SPDX_LICENSEE_NOT_TEXT: sqlite3_result_error(call, "spdx: a licence that is accepted is none", -1); return 1;
    default: return 0;
    }
}

/* The whole of a file, by sqlite3_malloc64; NULL where it can't be read. */
static void *file(const char *path, size_t *length) {
    FILE *from = fopen(path, "rb");
    if (!from) return NULL;
    char *bytes = NULL;
    long end = -1;
    if (fseek(from, 0, SEEK_END) == 0) end = ftell(from);
    if (end >= 0 && fseek(from, 0, SEEK_SET) == 0) bytes = sqlite3_malloc64((sqlite3_uint64)end + 1);
    if (bytes && fread(bytes, 1, (size_t)end, from) != (size_t)end) {
        sqlite3_free(bytes);
        bytes = NULL;
    }
    *length = end < 0 ? 0 : (size_t)end;
    fclose(from);
    return bytes;
}

/* spdx_list(PATH): reads the list. Once for a connection, so that no function changes its answers. */
static void list(sqlite3_context *call, int count, sqlite3_value **values) {
    kept *it = sqlite3_user_data(call);
    if (is_null(count, values)) return;
    size_t length = 0;
    void *bytes = file((const char *)sqlite3_value_text(values[0]), &length);
    if (!bytes) {
        sqlite3_result_error(call, "spdx: the list can't be read", -1);
        return;
    }
    spdx_report told = spdx_open((spdx_text){bytes, length}, &it->list);
    sqlite3_free(bytes);
    if (told.status == SPDX_MEMORY) sqlite3_result_error_nomem(call);
    else if (told.status == SPDX_ARGUMENT) sqlite3_result_error(call, "spdx: a list is read already", -1);
    else if (told.status != SPDX_OK) sqlite3_result_error(call, "spdx: the file is no list of licences", -1);
    else sqlite3_result_int(call, 1);
}

/* A call of the library that writes a text. */
typedef spdx_report writing(const spdx_list *, spdx_text, spdx_buffer);

static spdx_report canonical(const spdx_list *list, spdx_text text, spdx_buffer out) {
    return spdx_canonical(list, SPDX_LAX, text, out);
}

/* The meaning text of the canonical one, so that an old spelling means what a new one does. */
static spdx_report simplify(const spdx_list *list, spdx_text text, spdx_buffer out) {
    return spdx_simplify(list, SPDX_STRICT, text, out);
}

static spdx_report normal(const spdx_list *list, spdx_text text, spdx_buffer out) {
    return spdx_normal(list, SPDX_STRICT, text, out);
}

/* Writes into a place of its own, whose bytes sqlite3_free frees. The bytes are NULL where memory is refused. */
static spdx_report written(writing *write, const spdx_list *list, spdx_text text, spdx_buffer *out) {
    size_t room = text.length + 64;
    for (;;) {
        *out = (spdx_buffer){sqlite3_malloc64(room), room};
        if (!out->bytes) return (spdx_report){.status = SPDX_MEMORY};
        spdx_report told = write(list, text, *out);
        if (told.status == SPDX_OK) return told;
        sqlite3_free(out->bytes);
        out->bytes = NULL;
        if (told.status != SPDX_SHORT) return told;
        room = told.length;
    }
}

static void give(sqlite3_context *call, spdx_report told, spdx_buffer out) {
    if (told.status == SPDX_OK) sqlite3_result_text64(call, out.bytes, told.length, sqlite3_free, SQLITE_UTF8);
    else is_trouble(call, told);
}

/* spdx_canonical(LICENSE): its canonical text, read laxly; NULL where it has none. */
static void canonical_sql(sqlite3_context *call, int count, sqlite3_value **values) {
    kept *it = sqlite3_user_data(call);
    if (is_null(count, values)) return;
    spdx_buffer out;
    spdx_report told = written(canonical, &it->list, text_of(values[0]), &out);
    give(call, told, out);
}

/* spdx_fix(LICENSE): what to write in its place, where strict reading refuses it. */
static void fix_sql(sqlite3_context *call, int count, sqlite3_value **values) {
    kept *it = sqlite3_user_data(call);
    if (is_null(count, values)) return;
    spdx_buffer out;
    spdx_report told = written(spdx_fix, &it->list, text_of(values[0]), &out);
    give(call, told, out);
}

/* The same of the canonical text. */
static void of_canonical(sqlite3_context *call, sqlite3_value *value, writing *write) {
    kept *it = sqlite3_user_data(call);
    spdx_buffer first, out;
    spdx_report told = written(canonical, &it->list, text_of(value), &first);
    if (told.status != SPDX_OK) {
        is_trouble(call, told);
        return;
    }
    told = written(write, &it->list, (spdx_text){first.bytes, told.length}, &out);
    sqlite3_free(first.bytes);
    give(call, told, out);
}

/* spdx_normal(LICENSE): the one text of its tree. */
static void normal_sql(sqlite3_context *call, int count, sqlite3_value **values) {
    if (!is_null(count, values)) of_canonical(call, values[0], normal);
}

/* spdx_simplify(LICENSE): the text of what it means. */
static void simplify_sql(sqlite3_context *call, int count, sqlite3_value **values) {
    if (!is_null(count, values)) of_canonical(call, values[0], simplify);
}

/* spdx_fault(LICENSE): why strict reading refuses it, with the place; NULL where it doesn't. */
static void fault_sql(sqlite3_context *call, int count, sqlite3_value **values) {
    kept *it = sqlite3_user_data(call);
    if (is_null(count, values)) return;
    spdx_report told = spdx_check(&it->list, SPDX_STRICT, text_of(values[0]));
    if (told.status == SPDX_NOT_TEXT) sqlite3_result_text(call, "not UTF-8", -1, SQLITE_STATIC);
    else if (told.status == SPDX_REFUSED) {
        char why[256];
        spdx_report reason = spdx_reason(told.reason, (spdx_buffer){why, sizeof why});
        char *text = sqlite3_mprintf("%lld..%lld: %.*s", (long long)told.start, (long long)told.end,
                                     (int)(reason.status == SPDX_OK ? reason.length : 0), why);
        if (text) sqlite3_result_text(call, text, -1, sqlite3_free);
        else sqlite3_result_error_nomem(call);
    } else is_trouble(call, told);
}

/* spdx_allowed(LICENSE, ACCEPTED): 1 where one who accepts these licences, one on each line, may use what comes under it, 0
 * where not; NULL where it is no expression. */
static void allowed_sql(sqlite3_context *call, int count, sqlite3_value **values) {
    kept *it = sqlite3_user_data(call);
    if (is_null(count, values)) return;
    spdx_report told = spdx_evaluate(&it->list, SPDX_LAX, text_of(values[0]), text_of(values[1]));
    if (told.status == SPDX_OK || told.status == SPDX_UNMET) sqlite3_result_int(call, told.status == SPDX_OK);
    else is_trouble(call, told);
}

/* spdx_same(LICENSE, LICENSE): 1 where both mean the same, 0 where not; NULL where one is no expression. */
static void same_sql(sqlite3_context *call, int count, sqlite3_value **values) {
    kept *it = sqlite3_user_data(call);
    if (is_null(count, values)) return;
    spdx_buffer one = {0}, other = {0};
    spdx_report first = written(canonical, &it->list, text_of(values[0]), &one);
    spdx_report second = written(canonical, &it->list, text_of(values[1]), &other);
    if (first.status != SPDX_OK || second.status != SPDX_OK) {
        if (!is_trouble(call, first)) is_trouble(call, second);
    } else {
        spdx_text a = {one.bytes, first.length}, b = {other.bytes, second.length};
        spdx_report told = spdx_compare(&it->list, SPDX_STRICT, a, b);
        if (told.status == SPDX_OK) sqlite3_result_int(call, told.number == SPDX_SAME);
        else is_trouble(call, told);
    }
    sqlite3_free(one.bytes);
    sqlite3_free(other.bytes);
}

static const struct {
    const char *name;
    int arguments, flags;
    void (*call)(sqlite3_context *, int, sqlite3_value **);
} functions[] = {
    {"spdx_list", 1, SQLITE_DIRECTONLY, list},
    {"spdx_canonical", 1, SQLITE_DETERMINISTIC, canonical_sql},
    {"spdx_fix", 1, SQLITE_DETERMINISTIC, fix_sql},
    {"spdx_normal", 1, SQLITE_DETERMINISTIC, normal_sql},
    {"spdx_simplify", 1, SQLITE_DETERMINISTIC, simplify_sql},
    {"spdx_fault", 1, SQLITE_DETERMINISTIC, fault_sql},
    {"spdx_allowed", 2, SQLITE_DETERMINISTIC, allowed_sql},
    {"spdx_same", 2, SQLITE_DETERMINISTIC, same_sql},
};

#ifdef _WIN32
__declspec(dllexport)
#endif
int sqlite3_spdxsqlite_init(sqlite3 *database, char **why, const sqlite3_api_routines *api) {
    SQLITE_EXTENSION_INIT2(api);
    (void)why;
    kept *it = sqlite3_malloc64(sizeof *it);
    if (!it) return SQLITE_NOMEM;
    memset(it, 0, sizeof *it);
    const int count = sizeof functions / sizeof *functions;
    it->holders = 1;
    int status = SQLITE_OK;
    for (int i = 0; i < count && status == SQLITE_OK; i++) {
        it->holders++; /* released by SQLite also where it refuses the function */
        status = sqlite3_create_function_v2(database, functions[i].name, functions[i].arguments,
                                            SQLITE_UTF8 | functions[i].flags, it, functions[i].call, NULL, NULL, release);
    }
    release(it);
    return status;
}
