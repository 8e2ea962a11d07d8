#define _GNU_SOURCE
#include "words.h"

#include <ctype.h>
#include <stdlib.h>
#include <string.h>

char *next_word(char **line)
{
    char *word = strsep(line, " \n");
    return word ? word : "";
}

static int digit(char c)
{
    return isdigit((unsigned char)c) ? c - '0' : tolower((unsigned char)c) - 'a' + 10;
}

void read_text(const char *digits, struct text *text)
{
    text->length = 0;
    text->parts = 0;
    if (!strcmp(digits, "-"))
        return;
    text->part[0] = 0;
    text->parts = 1;
    for (const char *at = digits; *at && text->length < MAX_BYTES; at++) {
        if (*at == '|') {
            if (text->parts == MAX_PARTS)
                abort();
            text->part[text->parts++] = 0;
            continue;
        }
        if (!at[1])
            abort();
        text->bytes[text->length++] = digit(at[0]) << 4 | digit(at[1]);
        text->part[text->parts - 1]++;
        at++;
    }
}

void write_hex(FILE *out, const unsigned char *bytes, size_t length)
{
    static const char digits[] = "0123456789abcdef";

    if (!length)
        fputc('-', out);
    for (size_t at = 0; at < length; at++) {
        fputc(digits[bytes[at] >> 4], out);
        fputc(digits[bytes[at] & 15], out);
    }
}

const char *error_name(int error)
{
    const char *name = strerrorname_np(error);
    return name ? name : "EUNKNOWN";
}
