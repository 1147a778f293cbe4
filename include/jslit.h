/*
 * jslit: texts as JavaScript string literals; template pieces, directives, patterns and names as JavaScript source.
 *
 * Five functions on numbers and bytes. Each checks what it is given, prints it whole into the bytes `out` or refuses
 * with a number, and answers with 64 bits:
 *
 *     upper 32 bits   the number: JSLIT_DONE, or why the call was refused
 *     lower 32 bits   the value that goes with it: printed length, place or need, else 0
 *
 * The checks come in the order of the numbers, so a text that is both too long and ill-formed draws JSLIT_TOO_LONG.
 *
 * What was printed stands at the front of `out`, without a NUL behind it. Bytes beyond it are not touched, and a refused
 * call touches none at all. Nothing is allocated or kept between calls, and any number of calls may run at once on
 * different `out` bytes.
 *
 * A flag is set unless it is 0. A pointer is never null, not even with a length of 0, and `out` does not overlap the
 * bytes that are read.
 *
 * docs/FORMAT.md has the rules of what is printed.
 */
#ifndef JSLIT_H
#define JSLIT_H

#include <stddef.h>
#include <stdint.h>

#ifdef __cplusplus
extern "C" {
#endif

/* The numbers of an answer, and the value that goes with each. */
enum {
    JSLIT_DONE = 0,              /* printed; the value is the printed length */
    JSLIT_TOO_LONG = 1,          /* the bytes given are over JSLIT_MAX_TEXT or JSLIT_MAX_NAME */
    JSLIT_ILL_FORMED = 2,        /* not well-formed WTF-8 or UTF-8; the value is the place */
    JSLIT_FLAG_NOT_EXACT = 3,    /* `lone` does not tell whether there is a lone surrogate */
    JSLIT_NOT_A_NAME = 4,        /* the value is the place of the first character that is not allowed there */
    JSLIT_NOT_TEMPLATE_TEXT = 5, /* the value is the place of the first breach */
    JSLIT_DOES_NOT_FIT = 7       /* `out` is too short; the value is the need, the length that would be printed */
};

/* The most bytes that are taken, and the most that are ever printed. Places count bytes from 0. */
#define JSLIT_MAX_TEXT 16384u
#define JSLIT_MAX_NAME 128u
#define JSLIT_MAX_PRINTED 65536u

/* The two halves of an answer. */
#define JSLIT_NUMBER(answer) ((uint32_t)((answer) >> 32))
#define JSLIT_VALUE(answer) ((uint32_t)((answer) & 0xFFFFFFFFu))

/*
 * Prints a text between quotes, as a string literal. Refuses with 1, 2, 3 or 7.
 *
 *   text, len        well-formed WTF-8: UTF-8 in which a lone surrogate may stand as three bytes
 *   lone             set precisely if there is a lone surrogate
 *   single_quote     single instead of double quotes
 *   minify           the quotes that give the fewest bytes, whatever single_quote says
 *   ascii_only       an escape for each character above U+007F
 *   allow_backtick   under minify, backticks are among the quotes
 */
uint64_t jslit_print_string(const uint8_t *text, size_t len, uint32_t lone, uint32_t single_quote, uint32_t minify,
                            uint32_t ascii_only, uint32_t allow_backtick, uint8_t *out, size_t out_len);

/*
 * Prints the raw text of a template's piece, without backticks. Refuses with 1, 2, 5 or 7.
 *
 *   raw, len         UTF-8; unless tagged, template text: no unescaped backtick, no unescaped ${, and no backslash that
 *                    begins neither an escape nor a line continuation
 *   tagged           the template has a tag, so only </script is altered; never refuses with 5
 *   minify           a backslash goes that stands before a $ for nothing
 *   ascii_only       an escape for each character above U+007F
 */
uint64_t jslit_print_template_piece(const uint8_t *raw, size_t len, uint32_t tagged, uint32_t minify,
                                    uint32_t ascii_only, uint8_t *out, size_t out_len);

/* Prints the raw text of a directive, any UTF-8, without its quotes. Refuses with 1, 2 or 7. */
uint64_t jslit_print_directive(const uint8_t *raw, size_t len, uint32_t ascii_only, uint8_t *out, size_t out_len);

/*
 * Prints the pattern of a regular expression, any UTF-8, without its slashes. Refuses with 1, 2 or 7. Under ascii_only a
 * character above U+FFFF becomes two escapes, which holds with and without the flag u.
 */
uint64_t jslit_print_regex_pattern(const uint8_t *raw, size_t len, uint32_t ascii_only, uint8_t *out, size_t out_len);

/*
 * Prints a name: at least one character, no ASCII digit first, only ASCII letters, digits, $, _ and characters above
 * U+007F. Refuses with 1, 2, 4 or 7. That a character above U+007F is one of ID_Start or ID_Continue is the caller's to
 * see to.
 */
uint64_t jslit_print_name(const uint8_t *name, size_t len, uint32_t ascii_only, uint8_t *out, size_t out_len);

#ifdef __cplusplus
}
#endif

#endif
