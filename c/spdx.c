/* What C calls: null pointers, impossible lengths and buffers over an input are turned away, and the proved exports of
 * crates/spdx_c are called over what is left, each with a copy of the handle for itself. These lines are trusted, and
 * tested by samples/. */
#include "spdx.h"

#define IN const void *, size_t
#define OUT void *, size_t
#define LIST spdx_list *, uint32_t
spdx_report spdx_slices_open(IN, spdx_list *), spdx_slices_close(spdx_list *), spdx_slices_reason(uint32_t, OUT);
spdx_report spdx_slices_check(LIST, IN), spdx_slices_canonical(LIST, IN, OUT), spdx_slices_normal(LIST, IN, OUT);
spdx_report spdx_slices_fix(spdx_list *, IN, OUT), spdx_slices_requirements(LIST, IN, OUT);
spdx_report spdx_slices_evaluate(LIST, IN, IN), spdx_slices_evaluate_bits(LIST, IN, IN, size_t);
spdx_report spdx_slices_simplify(LIST, IN, OUT), spdx_slices_compare(LIST, IN, IN);
spdx_report spdx_slices_listed(spdx_list *, IN);
spdx_report spdx_slices_choose(LIST, IN, IN, OUT), spdx_slices_lines(LIST, IN, IN, OUT);

static const spdx_report wrong = {SPDX_ARGUMENT, 0, 0, 0, 0, 0, 0, 0};
static const spdx_list unused;
static const spdx_text none;
static const spdx_buffer nowhere;
static char nothing[1];

/* No object is longer than PTRDIFF_MAX, nor has its end behind that of the addresses; the buffer is over no input. */
static int good(spdx_buffer out, const spdx_list *list, spdx_text a, spdx_text b) {
    const spdx_text all[] = {{out.bytes, out.length}, {list, sizeof *list}, a, b};
    uintptr_t from = (uintptr_t)out.bytes, to = from + out.length;
    for (int i = 0; i < 4; i++) {
        uintptr_t start = (uintptr_t)all[i].bytes, length = all[i].length, end = start + length;
        if (length > PTRDIFF_MAX || (!start && length) || end < start) return 0;
        if (i && length && from < to && from < end && start < to) return 0;
    }
    return 1;
}
#define GIVE(s) (s).bytes ? (s).bytes : nothing, (s).length
#define ASK(f, to, a, b, ...) return good(to, list, a, b) ? spdx_slices_##f((spdx_list[]){*list}, __VA_ARGS__) : wrong
#define ON const spdx_list *list, uint32_t mode, spdx_text text
#define TEXT mode, GIVE(text)

spdx_report spdx_open(spdx_text json, spdx_list *list) {
    return good((spdx_buffer){list, sizeof *list}, &unused, json, none) ? spdx_slices_open(GIVE(json), list) : wrong;
}
spdx_report spdx_close(spdx_list *list) { return list ? spdx_slices_close(list) : wrong; }
spdx_report spdx_reason(uint32_t reason, spdx_buffer to) {
    return good(to, &unused, none, none) ? spdx_slices_reason(reason, GIVE(to)) : wrong;
}
spdx_report spdx_listed(const spdx_list *list, spdx_text name) { ASK(listed, nowhere, name, none, GIVE(name)); }
spdx_report spdx_check(ON) { ASK(check, nowhere, text, none, TEXT); }
spdx_report spdx_canonical(ON, spdx_buffer to) { ASK(canonical, to, text, none, TEXT, GIVE(to)); }
spdx_report spdx_fix(const spdx_list *list, spdx_text text, spdx_buffer to) {
    ASK(fix, to, text, none, GIVE(text), GIVE(to));
}
spdx_report spdx_normal(ON, spdx_buffer to) { ASK(normal, to, text, none, TEXT, GIVE(to)); }
spdx_report spdx_simplify(ON, spdx_buffer to) { ASK(simplify, to, text, none, TEXT, GIVE(to)); }
spdx_report spdx_compare(ON, spdx_text other) { ASK(compare, nowhere, text, other, TEXT, GIVE(other)); }
spdx_report spdx_requirements(ON, spdx_buffer to) { ASK(requirements, to, text, none, TEXT, GIVE(to)); }
spdx_report spdx_evaluate(ON, spdx_text held) { ASK(evaluate, nowhere, text, held, TEXT, GIVE(held)); }
spdx_report spdx_evaluate_bits(ON, const void *bits, size_t n) {
    const spdx_text b = {bits, n / 8 + (n % 8 != 0)};
    ASK(evaluate_bits, nowhere, text, b, TEXT, GIVE(b), n);
}
spdx_report spdx_choose(ON, spdx_text held, spdx_buffer to) { ASK(choose, to, text, held, TEXT, GIVE(held), GIVE(to)); }
spdx_report spdx_lines(const spdx_list *list, uint32_t mode, spdx_text held, spdx_text in, spdx_buffer to) {
    ASK(lines, to, held, in, mode, GIVE(held), GIVE(in), GIVE(to));
}
