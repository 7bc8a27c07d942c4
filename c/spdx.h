/* SPDX licence expressions: read, refused with exact spans, mended, evaluated.
 *
 * Texts are UTF-8 bytes with a length; none needs a zero byte at its end, and none that is written has one. Every
 * place is a number of bytes from 0. spdx_open reads a list of licences into memory by malloc, which spdx_close frees;
 * every other call keeps no pointer, and frees what it allocates before it returns. Any number of threads may ask the
 * same open list at once. See docs/C.md.
 */
#ifndef SPDX_H
#define SPDX_H

#include <stddef.h>
#include <stdint.h>

#ifdef __cplusplus
extern "C" {
#endif

/* How texts are read: by the standard, or with what people write beside it. */
enum {
    SPDX_STRICT = 0,
    SPDX_LAX = 1,
    SPDX_NORMAL = 2 /* of spdx_lines alone: strictly, and the normal text in place of the canonical one */
};

/* What a call says in `status`. Only at SPDX_OK was anything written. */
enum {
    SPDX_OK = 0,
    SPDX_REFUSED = 1,           /* the text is no expression: `start`, `end`, `reason`, and of two texts `number` */
    SPDX_NOT_TEXT = 2,          /* the text is not UTF-8; of two texts, text `number` */
    SPDX_LICENSEE = 3,          /* licensee `number` is refused: `start`, `end` in its line, `reason` */
    SPDX_LICENSEE_NOT_TEXT = 4, /* licensee `number` is not UTF-8 */
    SPDX_UNMET = 5,             /* the licensees don't make the expression true */
    SPDX_TOO_MANY = 6,          /* `number` licensees are useful, more than 1,024 */
    SPDX_NO_FIX = 7,            /* the text has no fix, or needs none */
    SPDX_SHORT = 8,             /* the buffer is too short: it needs `length` bytes */
    SPDX_ARGUMENT = 9,          /* a null pointer, an impossible length, a number that means nothing, a list that is
                                 * closed where it has to be open, or open where it has to be closed; or a wrong number
                                 * of bits: the expression has `number` requirements */
    SPDX_LIST = 10,             /* the bytes are no list of licences */
    SPDX_MEMORY = 11,           /* memory was refused */
    SPDX_TOO_MANY_SETS = 12     /* `number` sets are made for a part of an expression, more than 4,096 */
};

/* What spdx_compare says in `number`, at SPDX_OK. */
enum {
    SPDX_SAME = 0,   /* they mean the same: whatever licences are accepted, both hold or neither does */
    SPDX_MORE = 1,   /* the first asks for more: where it holds the second does, and not the other way round */
    SPDX_LESS = 2,   /* the second asks for more */
    SPDX_NEITHER = 3 /* each asks for what the other doesn't */
};

/* What spdx_listed says in `number`, at SPDX_OK. */
enum {
    SPDX_UNLISTED = 0,  /* the list has no such name */
    SPDX_CURRENT = 1,   /* the list has it */
    SPDX_DEPRECATED = 2 /* the list has it, and it is deprecated */
};

/* What a call answers. A field that the status does not speak of is 0. */
typedef struct {
    uint32_t status;
    uint32_t reason;  /* from 1 to 12: spdx_reason */
    size_t start;     /* the first byte of the fault */
    size_t end;       /* the byte behind the fault */
    size_t number;    /* a licensee, or which of two texts, counted from 0; how many licensees, requirements or sets
                       * there are; how two expressions compare; or what the list says of a name */
    size_t length;    /* the bytes of the text, at SPDX_OK and SPDX_SHORT */
    uint64_t lines;   /* of spdx_lines: how many lines there were */
    uint64_t refused; /* and how many of them were refused */
} spdx_report;

/* Bytes of the caller. A null pointer with length 0 is an empty text. */
typedef struct {
    const void *bytes;
    size_t length;
} spdx_text;

/* A buffer of the caller, apart from the texts. A text goes to its front, whole or not at all; what stands behind
 * the text stays. With length 0 the call tells how long the text is. */
typedef struct {
    void *bytes;
    size_t length;
} spdx_buffer;

/* A list of licences that was read, or none: a handle. It begins as all zeroes, which is closed, and its fields are
 * the library's own. A copy reads the same list, and is closed with it: of all copies close one, and ask none after.
 * Open and close a list while no other call uses it. */
typedef struct {
    void *at;
    uint32_t state;
} spdx_list;

/* Reads a list into a closed handle. It is JSON in the form of `spdx list make` (share/spdx/spdx.json), and is not
 * needed after. SPDX_LIST, SPDX_MEMORY, or SPDX_ARGUMENT where the handle is open: it stays as it was then. It takes
 * half a millisecond or more. */
spdx_report spdx_open(spdx_text json, spdx_list *list);

/* Frees the list of an open handle, which is closed then; SPDX_ARGUMENT where it was closed. */
spdx_report spdx_close(spdx_list *list);

/* What the list says of a name, the case of ASCII letters aside: SPDX_UNLISTED, SPDX_CURRENT or SPDX_DEPRECATED in
 * `number`. It is asked for the licence of that name, and for the exception where it has no such licence. */
spdx_report spdx_listed(const spdx_list *list, spdx_text name);

/* Whether the text is an expression. */
spdx_report spdx_check(const spdx_list *list, uint32_t mode, spdx_text text);

/* Its canonical text: listed names, operators in capitals, `-only` and `-or-later` for GNU licences. */
spdx_report spdx_canonical(const spdx_list *list, uint32_t mode, spdx_text text, spdx_buffer out);

/* What to write in place of a text that SPDX_STRICT refuses and SPDX_LAX reads. */
spdx_report spdx_fix(const spdx_list *list, spdx_text text, spdx_buffer out);

/* The one text of its tree, with as few parentheses as it allows. */
spdx_report spdx_normal(const spdx_list *list, uint32_t mode, spdx_text text, spdx_buffer out);

/* The text of what it means: its least sets of requirements, joined by AND, and these by OR, without parentheses. With
 * SPDX_STRICT, two expressions have the same text exactly if they mean the same. An OR has the sets of both its sides,
 * an AND one for each pair of them. An old spelling is another requirement than the new one, as GPL-2.0 than
 * GPL-2.0-only: hand it the text of spdx_canonical where they are to mean the same. */
spdx_report spdx_simplify(const spdx_list *list, uint32_t mode, spdx_text text, spdx_buffer out);

/* How what two expressions ask compares: SPDX_SAME, SPDX_MORE, SPDX_LESS or SPDX_NEITHER in `number`. Where a text is
 * refused or not UTF-8, `number` is 0 of the first, and 1 of the second where the first is an expression. */
spdx_report spdx_compare(const spdx_list *list, uint32_t mode, spdx_text one, spdx_text other);

/* SPDX_OK where those who hold these licences, one on each line, may use what comes under the expression; SPDX_UNMET
 * where not. */
spdx_report spdx_evaluate(const spdx_list *list, uint32_t mode, spdx_text text, spdx_text licensees);

/* The requirements of an expression, from left to right, each with a newline. */
spdx_report spdx_requirements(const spdx_list *list, uint32_t mode, spdx_text text, spdx_buffer out);

/* SPDX_OK where the expression is true if requirement i, in the order of spdx_requirements, is met exactly where bit i
 * is set; SPDX_UNMET where it is false. Bit i is `(bits[i / 8] >> i % 8) & 1`, and there are `count` bits. */
spdx_report spdx_evaluate_bits(const spdx_list *list, uint32_t mode, spdx_text text, const void *bits, size_t count);

/* The requirements of the least choice among the licensees that makes the expression true, each with a newline. */
spdx_report spdx_choose(const spdx_list *list, uint32_t mode, spdx_text text, spdx_text licensees, spdx_buffer out);

/* A line for each line of the input, as `spdx_lines` writes them: `accepted`, its canonical (or normal) text and the
 * least choice, with tabs between; or `refused START..END FAULT`; or `bad-utf8`. */
spdx_report spdx_lines(const spdx_list *list, uint32_t mode, spdx_text licensees, spdx_text input, spdx_buffer out);

/* What a reason says, apart from the words that were expected. */
spdx_report spdx_reason(uint32_t reason, spdx_buffer out);

#ifdef __cplusplus
}
#endif

#endif
