/* sample LIST CORPUS STRICT LAX NORMAL BITS EACH: the verdicts of the corpus's lines, in one call by mode, against
 * stored ones; of the first EACH lines each by calls of their own, and their truths by bits; short buffers, wrong
 * arguments, and threads. Prints what differs, and 'N passed, M failed'. */
#include <pthread.h>
#include <spdx.h>
#include <stdio.h>
#include <stdlib.h>
#include <string.h>

static const char held[] = "MIT\nApache-2.0\nBSD-3-Clause\n";
static int passed, failed;

static void expect(int holds, const char *what) {
    if (holds) {
        passed++;
    } else {
        failed++;
        printf("differs: %s\n", what);
    }
}

static spdx_text text_of(const char *s) { return (spdx_text){s, strlen(s)}; }
static spdx_text held_text(void) { return text_of(held); }

static spdx_text file(const char *path) {
    FILE *f = fopen(path, "rb");
    if (!f || fseek(f, 0, SEEK_END)) exit(2);
    long size = ftell(f);
    char *bytes = malloc(size ? size : 1);
    rewind(f);
    if (!bytes || size < 0 || fread(bytes, 1, size, f) != (size_t)size) exit(2);
    fclose(f);
    return (spdx_text){bytes, size};
}

static int same(const char *bytes, size_t length, spdx_text wanted) {
    return length == wanted.length && !memcmp(bytes, wanted.bytes, length);
}

/* The next line, cut off the front. */
static spdx_text line_of(spdx_text *rest) {
    const char *start = rest->bytes, *end = rest->length ? memchr(start, '\n', rest->length) : NULL;
    spdx_text line = {start, end ? (size_t)(end - start) : rest->length};
    size_t gone = line.length + (end ? 1 : 0);
    rest->bytes = start + gone;
    rest->length -= gone;
    return line;
}

/* All lines by one call: first the length is asked, then a buffer one byte short is tried. */
static void whole(const spdx_list *list, uint32_t mode, spdx_text corpus, spdx_text wanted, const char *name) {
    spdx_report told = spdx_lines(list, mode, held_text(), corpus, (spdx_buffer){NULL, 0});
    expect(told.status == SPDX_SHORT && told.length == wanted.length, name);
    char *out = malloc(told.length + 1);
    if (!out) exit(2);
    memset(out, '#', told.length + 1);
    spdx_report brief = spdx_lines(list, mode, held_text(), corpus, (spdx_buffer){out, told.length - 1});
    expect(brief.status == SPDX_SHORT && brief.length == told.length && out[0] == '#', "a short buffer");
    spdx_report full = spdx_lines(list, mode, held_text(), corpus, (spdx_buffer){out, told.length + 1});
    expect(full.status == SPDX_OK && same(out, full.length, wanted), name);
    expect(out[told.length] == '#', "what stands behind");
    free(out);
}

/* The verdict on one line, put together of calls of its own. */
static size_t verdict(const spdx_list *list, uint32_t mode, spdx_text line, char *out, size_t room) {
    spdx_report report = spdx_check(list, mode, line);
    if (report.status == SPDX_NOT_TEXT) return snprintf(out, room, "bad-utf8");
    if (report.status == SPDX_REFUSED) {
        char why[128];
        spdx_report reason = spdx_reason(report.reason, (spdx_buffer){why, sizeof why});
        if (report.reason == 7) return snprintf(out, room, "refused %zu..%zu expected", report.start, report.end);
        return snprintf(out, room, "refused %zu..%zu %.*s", report.start, report.end, (int)reason.length, why);
    }
    char text[512], chosen[512];
    spdx_buffer to = {text, sizeof text};
    spdx_report put = spdx_canonical(list, mode, line, to);
    spdx_report choice = spdx_choose(list, mode, line, held_text(), (spdx_buffer){chosen, sizeof chosen});
    size_t at = snprintf(out, room, "accepted\t%.*s\t", (int)put.length, text);
    if (choice.status == SPDX_UNMET) return at + snprintf(out + at, room - at, "unmet");
    for (size_t i = 0; i + 1 < choice.length; i++) {
        const char *next = chosen[i] == '\n' ? ", " : (char[]){chosen[i], 0};
        at += snprintf(out + at, room - at, "%s", next);
    }
    return at;
}

static void each(const spdx_list *list, uint32_t mode, spdx_text corpus, spdx_text wanted, int count) {
    char out[2048];
    while (corpus.length && count--) {
        spdx_text line = line_of(&corpus), is = line_of(&wanted);
        size_t length = verdict(list, mode, line, out, sizeof out);
        /* The words that were expected stand in the line alone. */
        if (length > 8 && !memcmp(out + length - 8, "expected", 8)) is.length = length;
        expect(same(out, length, is), out);
    }
}

/* The requirements of one line, and its truths over at most sixteen answers: samples/store_bits.py says which. */
static size_t truths(const spdx_list *list, spdx_text line, char *out, size_t room) {
    char text[512];
    spdx_report put = spdx_requirements(list, SPDX_STRICT, line, (spdx_buffer){text, sizeof text});
    if (put.status != SPDX_OK) return snprintf(out, room, "-");
    size_t at = 0, count = 0;
    for (size_t i = 0; i < put.length; i++) {
        if (text[i] != '\n') out[at++] = text[i];
        else if (count++, i + 1 < put.length) at += snprintf(out + at, room - at, ", ");
    }
    out[at++] = '\t';
    for (unsigned k = 0; k < 16 && k < 1u << (count < 4 ? count : 4); k++) {
        unsigned char bits[32];
        memset(bits, k | k << 4, sizeof bits);
        out[at++] = spdx_evaluate_bits(list, SPDX_STRICT, line, bits, count).status == SPDX_OK ? '1' : '0';
    }
    return at;
}

static void each_by_bits(const spdx_list *list, spdx_text corpus, spdx_text wanted, int count) {
    char out[2048];
    while (corpus.length && count--) {
        spdx_text line = line_of(&corpus), is = line_of(&wanted);
        expect(same(out, truths(list, line, out, sizeof out), is), "truths by bits");
    }
}

static void puts_text(spdx_report report, const char *out, const char *wanted, const char *what) {
    expect(report.status == SPDX_OK && same(out, report.length, text_of(wanted)), what);
}

static void singles(const spdx_list *list) {
    char out[256];
    spdx_buffer to = {out, sizeof out};
    puts_text(spdx_fix(list, text_of("mit/apache-2.0"), to), out, "MIT OR Apache-2.0", "a fix");
    expect(spdx_fix(list, text_of("MIT"), to).status == SPDX_NO_FIX, "no fix");
    puts_text(spdx_normal(list, SPDX_STRICT, text_of("((MIT) AND (Zlib))"), to), out, "MIT AND Zlib", "a normal text");
    puts_text(spdx_canonical(list, SPDX_LAX, text_of("gpl-2.0+"), to), out, "GPL-2.0-or-later", "a canonical text");
    spdx_text two = text_of("Zlib OR MIT AND Apache-2.0"), both = text_of("MIT\nApache-2.0");
    puts_text(spdx_choose(list, SPDX_STRICT, two, both, to), out, "MIT\nApache-2.0\n", "a choice");
    puts_text(spdx_reason(9, to), out, "unknown term", "a reason");
    expect(spdx_evaluate(list, SPDX_STRICT, text_of("MIT OR Zlib"), text_of("0BSD\nZlib")).status == SPDX_OK, "met");
    expect(spdx_evaluate(list, SPDX_STRICT, text_of("MIT AND Zlib"), text_of("Zlib")).status == SPDX_UNMET, "unmet");
    puts_text(spdx_requirements(list, SPDX_STRICT, two, to), out, "Zlib\nMIT\nApache-2.0\n", "requirements");
    expect(spdx_evaluate_bits(list, SPDX_STRICT, two, "\6", 3).status == SPDX_OK, "met by bits");
    expect(spdx_evaluate_bits(list, SPDX_STRICT, two, "\2", 3).status == SPDX_UNMET, "unmet by bits");
    spdx_text nine = text_of("MIT AND MIT AND MIT AND MIT AND MIT AND MIT AND MIT AND MIT AND Zlib");
    expect(spdx_evaluate_bits(list, SPDX_STRICT, nine, "\377\1", 9).status == SPDX_OK, "a ninth bit");
    expect(spdx_evaluate_bits(list, SPDX_STRICT, nine, "\377\376", 9).status == SPDX_UNMET, "no ninth bit");
    spdx_report who = spdx_evaluate(list, SPDX_STRICT, text_of("MIT"), text_of("MIT\n  Nope\n"));
    expect(who.status == SPDX_LICENSEE && who.number == 1 && who.start == 2 && who.end == 6, "a licensee");
    who = spdx_evaluate(list, SPDX_STRICT, text_of("MIT"), (spdx_text){"MIT\n\xff", 5});
    expect(who.status == SPDX_LICENSEE_NOT_TEXT && who.number == 1, "a licensee that is no text");
    expect(spdx_check(list, SPDX_STRICT, (spdx_text){"\xff", 1}).status == SPDX_NOT_TEXT, "no text");
    spdx_report empty = spdx_check(list, SPDX_STRICT, (spdx_text){NULL, 0});
    expect(empty.status == SPDX_REFUSED && empty.reason == 6, "an empty text");
}

/* What expressions mean. Of 64 licences and 65 others one of each can be chosen in 4,160 ways. */
static void meanings(const spdx_list *list) {
    char out[256], sides[4096] = "";
    spdx_buffer to = {out, sizeof out};
    spdx_text both = text_of("MIT AND Zlib"), mit = text_of("MIT"), zlib = text_of("Zlib"), bad = text_of("MIT Zlib");
    puts_text(spdx_simplify(list, SPDX_STRICT, text_of("MIT OR (MIT AND Zlib)"), to), out, "MIT", "what it means");
    puts_text(spdx_simplify(list, SPDX_STRICT, text_of("Zlib OR MIT OR Zlib"), to), out, "MIT OR Zlib", "in order");
    puts_text(spdx_simplify(list, SPDX_LAX, text_of("zlib/mit"), to), out, "MIT OR Zlib", "what it means, laxly");
    spdx_report told = spdx_simplify(list, SPDX_STRICT, both, (spdx_buffer){NULL, 0});
    expect(told.status == SPDX_SHORT && told.length == 12, "the length of what it means");
    told = spdx_compare(list, SPDX_STRICT, text_of("MIT OR (MIT AND Zlib)"), mit);
    expect(told.status == SPDX_OK && told.number == SPDX_SAME, "the same");
    told = spdx_compare(list, SPDX_STRICT, both, mit);
    expect(told.status == SPDX_OK && told.number == SPDX_MORE, "more");
    told = spdx_compare(list, SPDX_STRICT, mit, both);
    expect(told.status == SPDX_OK && told.number == SPDX_LESS, "less");
    told = spdx_compare(list, SPDX_STRICT, mit, zlib);
    expect(told.status == SPDX_OK && told.number == SPDX_NEITHER, "neither");
    told = spdx_compare(list, SPDX_STRICT, bad, (spdx_text){"\xff", 1});
    expect(told.status == SPDX_REFUSED && told.number == 0 && told.start == 4, "the first is refused");
    told = spdx_compare(list, SPDX_STRICT, mit, bad);
    expect(told.status == SPDX_REFUSED && told.number == 1 && told.end == 8, "the second is refused");
    told = spdx_compare(list, SPDX_STRICT, (spdx_text){"\xff", 1}, bad);
    expect(told.status == SPDX_NOT_TEXT && told.number == 0, "the first is no text");
    told = spdx_compare(list, SPDX_STRICT, mit, (spdx_text){"\xff", 1});
    expect(told.status == SPDX_NOT_TEXT && told.number == 1, "the second is no text");
    for (int i = 0, at = 0; i < 129; i++) {
        const char *before = i == 0 ? "(" : i == 64 ? ") AND (" : " OR ";
        at += snprintf(sides + at, sizeof sides - at, "%sLicenseRef-%d%s", before, i, i == 128 ? ")" : "");
    }
    told = spdx_simplify(list, SPDX_STRICT, text_of(sides), to);
    expect(told.status == SPDX_TOO_MANY_SETS && told.number == 4160, "too many sets");
    told = spdx_compare(list, SPDX_STRICT, mit, text_of(sides));
    expect(told.status == SPDX_TOO_MANY_SETS && told.number == 4160, "too many sets of the second");
}

/* What the list says of names. */
static void names(const spdx_list *list) {
    static const char *const unlisted[] = {"", "MIT OR Zlib", "GPL-2.0+", "Nope", "LicenseRef-Own"};
    static const char *const current[] = {"MIT", "mit", "GPL-2.0-only", "LLVM-exception", "llvm-EXCEPTION"};
    static const char *const deprecated[] = {"GPL-2.0", "gpl-2.0", "wxWindows", "Nokia-Qt-exception-1.1"};
    spdx_report told;
    for (size_t i = 0; i < sizeof unlisted / sizeof *unlisted; i++) {
        told = spdx_listed(list, text_of(unlisted[i]));
        expect(told.status == SPDX_OK && told.number == SPDX_UNLISTED, unlisted[i]);
    }
    for (size_t i = 0; i < sizeof current / sizeof *current; i++) {
        told = spdx_listed(list, text_of(current[i]));
        expect(told.status == SPDX_OK && told.number == SPDX_CURRENT, current[i]);
    }
    for (size_t i = 0; i < sizeof deprecated / sizeof *deprecated; i++) {
        told = spdx_listed(list, text_of(deprecated[i]));
        expect(told.status == SPDX_OK && told.number == SPDX_DEPRECATED, deprecated[i]);
    }
    told = spdx_listed(list, (spdx_text){"MIT\xff", 4});
    expect(told.status == SPDX_NOT_TEXT && told.number == 0, "a name that is no text");
    expect(spdx_listed(list, (spdx_text){NULL, 0}).status == SPDX_OK, "an empty name");
}

static void wrong(const spdx_list *list) {
    char out[64] = "MIT";
    spdx_buffer to = {out, sizeof out};
    expect(spdx_check(list, 7, text_of("MIT")).status == SPDX_ARGUMENT, "a mode");
    expect(spdx_check(list, SPDX_NORMAL, text_of("MIT")).status == SPDX_ARGUMENT, "a mode of lines");
    expect(spdx_check(NULL, 0, text_of("MIT")).status == SPDX_ARGUMENT, "a null list");
    spdx_buffer over = {(void *)list, sizeof *list};
    expect(spdx_canonical(list, 0, text_of("MIT"), over).status == SPDX_ARGUMENT, "a buffer over a list");
    expect(spdx_check(list, 0, (spdx_text){NULL, 9}).status == SPDX_ARGUMENT, "a null text");
    expect(spdx_check(list, 0, (spdx_text){"MIT", SIZE_MAX}).status == SPDX_ARGUMENT, "a length");
    expect(spdx_fix(list, text_of("mit"), (spdx_buffer){NULL, 9}).status == SPDX_ARGUMENT, "a null buffer");
    expect(spdx_canonical(list, 0, (spdx_text){out, 3}, to).status == SPDX_ARGUMENT, "a buffer over its text");
    for (size_t bits = 0; bits < 5; bits++) {
        spdx_report told = spdx_evaluate_bits(list, 0, text_of("MIT OR Zlib"), out, bits);
        expect(bits == 2 || (told.status == SPDX_ARGUMENT && told.number == 2), "a number of bits");
    }
    expect(spdx_evaluate_bits(list, 0, text_of("MIT"), NULL, 1).status == SPDX_ARGUMENT, "null bits");
    expect(spdx_simplify(list, SPDX_NORMAL, text_of("MIT"), to).status == SPDX_ARGUMENT, "simplify, a mode of lines");
    expect(spdx_simplify(list, 0, (spdx_text){out, 3}, to).status == SPDX_ARGUMENT, "simplify over its text");
    expect(spdx_compare(list, 0, text_of("MIT"), (spdx_text){NULL, 9}).status == SPDX_ARGUMENT, "a null second text");
    expect(spdx_listed(list, (spdx_text){NULL, 9}).status == SPDX_ARGUMENT, "a null name");
    expect(spdx_listed(NULL, text_of("MIT")).status == SPDX_ARGUMENT, "a name, and a null list");
    expect(spdx_reason(0, to).status == SPDX_ARGUMENT && spdx_reason(13, to).status == SPDX_ARGUMENT, "a reason");
}

/* A handle through its life; and every call over one that is closed. */
static void handles(spdx_text json) {
    char out[64];
    spdx_buffer to = {out, sizeof out};
    spdx_text text = text_of("MIT"), no = {NULL, 0};
    spdx_list list = {0};
    expect(spdx_open(text_of("{}"), &list).status == SPDX_LIST, "no list");
    expect(spdx_open((spdx_text){NULL, 9}, &list).status == SPDX_ARGUMENT, "null bytes of a list");
    expect(spdx_open(json, NULL).status == SPDX_ARGUMENT && spdx_close(NULL).status == SPDX_ARGUMENT, "a null handle");
    for (int round = 0; round < 3; round++) {
        expect(spdx_close(&list).status == SPDX_ARGUMENT, "closed twice");
        expect(spdx_listed(&list, text).status == SPDX_ARGUMENT, "listed, closed");
        expect(spdx_check(&list, 0, text).status == SPDX_ARGUMENT, "check, closed");
        expect(spdx_canonical(&list, 0, text, to).status == SPDX_ARGUMENT, "canonical, closed");
        expect(spdx_normal(&list, 0, text, to).status == SPDX_ARGUMENT, "normal, closed");
        expect(spdx_simplify(&list, 0, text, to).status == SPDX_ARGUMENT, "simplify, closed");
        expect(spdx_compare(&list, 0, text, text).status == SPDX_ARGUMENT, "compare, closed");
        expect(spdx_fix(&list, text, to).status == SPDX_ARGUMENT, "fix, closed");
        expect(spdx_requirements(&list, 0, text, to).status == SPDX_ARGUMENT, "requirements, closed");
        expect(spdx_evaluate(&list, 0, text, no).status == SPDX_ARGUMENT, "evaluate, closed");
        expect(spdx_evaluate_bits(&list, 0, text, "", 1).status == SPDX_ARGUMENT, "evaluate_bits, closed");
        expect(spdx_choose(&list, 0, text, no, to).status == SPDX_ARGUMENT, "choose, closed");
        expect(spdx_lines(&list, 0, no, text, to).status == SPDX_ARGUMENT, "lines, closed");
        expect(spdx_open(json, &list).status == SPDX_OK, "open");
        expect(spdx_open(json, &list).status == SPDX_ARGUMENT, "open twice");
        expect(spdx_check(&list, 0, text).status == SPDX_OK, "check, open");
        expect(spdx_close(&list).status == SPDX_OK, "close");
    }
}

typedef struct {
    const spdx_list *list;
    spdx_text corpus, wanted;
    int holds;
} job;

static void *in_thread(void *given) {
    job *j = given;
    char *out = malloc(j->wanted.length);
    if (!out) return NULL;
    spdx_report r = spdx_lines(j->list, SPDX_STRICT, held_text(), j->corpus, (spdx_buffer){out, j->wanted.length});
    j->holds = r.status == SPDX_OK && same(out, r.length, j->wanted);
    free(out);
    return NULL;
}

enum { THREADS = 8 };

static void threads(const spdx_list *list, spdx_text corpus, spdx_text wanted) {
    pthread_t ids[THREADS];
    job jobs[THREADS];
    for (int i = 0; i < THREADS; i++) {
        jobs[i] = (job){list, corpus, wanted, 0};
        if (pthread_create(&ids[i], NULL, in_thread, &jobs[i])) exit(2);
    }
    for (int i = 0; i < THREADS; i++) {
        pthread_join(ids[i], NULL);
        expect(jobs[i].holds, "a thread");
    }
}

int main(int count, char **words) {
    if (count != 8) return 2;
    spdx_text json = file(words[1]), corpus = file(words[2]), wanted[3];
    spdx_list opened = {0}, *list = &opened;
    if (spdx_open(json, list).status != SPDX_OK) return 2;
    handles(json);
    free((void *)json.bytes);
    for (uint32_t mode = 0; mode < 3; mode++) {
        wanted[mode] = file(words[3 + mode]);
        whole(list, mode, corpus, wanted[mode], words[3 + mode]);
    }
    each(list, SPDX_STRICT, corpus, wanted[SPDX_STRICT], atoi(words[7]));
    each(list, SPDX_LAX, corpus, wanted[SPDX_LAX], atoi(words[7]));
    spdx_text bits = file(words[6]);
    each_by_bits(list, corpus, bits, atoi(words[7]));
    free((void *)bits.bytes);
    singles(list);
    meanings(list);
    names(list);
    wrong(list);
    threads(list, corpus, wanted[0]);
    for (int i = 0; i < 3; i++) free((void *)wanted[i].bytes);
    expect(spdx_close(list).status == SPDX_OK, "close");
    free((void *)corpus.bytes);
    printf("%d passed, %d failed\n", passed, failed);
    return failed != 0;
}
