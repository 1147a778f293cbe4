/*
 * Prints with each function of jslit.h, and draws each refusal. One line for each call:
 *
 *     what was asked -> number, the value that goes with it, what was printed
 *
 * `make c-example` builds and runs it, and holds what it writes to the file stdout beside it.
 */
#include <inttypes.h>
#include <stdio.h>
#include <string.h>

#include "jslit.h"

static uint8_t out[JSLIT_MAX_PRINTED];

/* Bytes that are not printable ASCII are shown in hex. */
static void show(const uint8_t *bytes, size_t len)
{
    for (size_t at = 0; at < len; at++) {
        if (bytes[at] >= 0x20 && bytes[at] < 0x7F)
            putchar(bytes[at]);
        else
            printf("<%02X>", bytes[at]);
    }
}

static void tell(const char *asked, uint64_t answer)
{
    uint32_t number = JSLIT_NUMBER(answer);
    uint32_t value = JSLIT_VALUE(answer);

    printf("%-34s -> %" PRIu32, asked, number);
    switch (number) {
    case JSLIT_DONE:
        printf(", %" PRIu32 " bytes: ", value);
        show(out, value);
        break;
    case JSLIT_TOO_LONG:
        printf(" too long");
        break;
    case JSLIT_ILL_FORMED:
        printf(" ill-formed, place %" PRIu32, value);
        break;
    case JSLIT_FLAG_NOT_EXACT:
        printf(" flag not exact");
        break;
    case JSLIT_NOT_A_NAME:
        printf(" not a name, place %" PRIu32, value);
        break;
    case JSLIT_NOT_TEMPLATE_TEXT:
        printf(" not template text, place %" PRIu32, value);
        break;
    case JSLIT_DOES_NOT_FIT:
        printf(" does not fit, need %" PRIu32, value);
        break;
    default:
        printf(" unknown");
        break;
    }
    putchar('\n');
}

/* The bytes of a C string, without its NUL. */
#define BYTES(text) (const uint8_t *)(text), strlen(text)

int main(void)
{
    static uint8_t long_text[JSLIT_MAX_TEXT + 1];
    const char *kiln = "Kiln 1's \"hot\" end";
    const char *tag = "</SCRIPT> filter dust";

    memset(long_text, 'a', sizeof long_text);

    tell("string", jslit_print_string(BYTES(kiln), 0, 0, 0, 0, 0, out, sizeof out));
    tell("string, single_quote", jslit_print_string(BYTES(kiln), 0, 1, 0, 0, 0, out, sizeof out));
    tell("string, minify", jslit_print_string(BYTES(kiln), 0, 0, 1, 0, 0, out, sizeof out));
    tell("string, minify, allow_backtick", jslit_print_string(BYTES(kiln), 0, 0, 1, 0, 1, out, sizeof out));
    tell("string with a tag", jslit_print_string(BYTES(tag), 0, 0, 0, 0, 0, out, sizeof out));
    tell("string, ascii_only", jslit_print_string(BYTES("\xC3\xA9 \xF0\x9F\x98\x80"), 0, 0, 0, 1, 0, out, sizeof out));
    tell("string with a lone surrogate", jslit_print_string(BYTES("\xED\xA0\x80"), 1, 0, 0, 0, 0, out, sizeof out));
    tell("piece", jslit_print_template_piece(BYTES("\\$5, \xC3\xA9"), 0, 0, 0, out, sizeof out));
    tell("piece, minify, ascii_only", jslit_print_template_piece(BYTES("\\$5, \xC3\xA9"), 0, 1, 1, out, sizeof out));
    tell("tagged piece, minify, ascii_only", jslit_print_template_piece(BYTES("\\$5 </script"), 1, 1, 1, out, sizeof out));
    tell("directive, ascii_only", jslit_print_directive(BYTES("use \\\xC3\xA9"), 1, out, sizeof out));
    tell("regex pattern, ascii_only", jslit_print_regex_pattern(BYTES("\\\xC3\xA9|\xF0\x9F\x98\x80"), 1, out, sizeof out));
    tell("name", jslit_print_name(BYTES("silo_3"), 0, out, sizeof out));
    tell("name, ascii_only", jslit_print_name(BYTES("r\xC3\xA9serve"), 1, out, sizeof out));

    tell("text of 16,384 bytes into 0 bytes", jslit_print_string(long_text, JSLIT_MAX_TEXT, 0, 0, 0, 0, 0, out, 0));
    tell("text of 16,385 bytes", jslit_print_string(long_text, sizeof long_text, 0, 0, 0, 0, 0, out, sizeof out));
    tell("text 46 6C 79 FF", jslit_print_string(BYTES("Fly\xFF"), 0, 0, 0, 0, 0, out, sizeof out));
    tell("surrogate, flag clear", jslit_print_string(BYTES("\xED\xA0\x80"), 0, 0, 0, 0, 0, out, sizeof out));
    tell("name a-b", jslit_print_name(BYTES("a-b"), 0, out, sizeof out));
    tell("piece tonnes: ${", jslit_print_template_piece(BYTES("tonnes: ${"), 0, 0, 0, out, sizeof out));
    tell("text a into 2 bytes", jslit_print_string(BYTES("a"), 0, 0, 0, 0, 0, out, 2));
    return 0;
}
