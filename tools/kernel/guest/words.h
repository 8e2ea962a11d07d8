/* Words of the list, bytes in hexadecimal digits, and the stream of answers. */
#ifndef WORDS_H
#define WORDS_H

#include <stddef.h>
#include <stdio.h>

#define MAX_PARTS 16
#define MAX_BYTES 32768

/* Bytes, and where a text is cut into parts. */
struct text {
    unsigned char bytes[MAX_BYTES];
    size_t length;
    size_t part[MAX_PARTS];
    int parts;
};

/* The next word of a line, or an empty one. */
char *next_word(char **line);

/* Reads digits, with a bar between two parts; `-` is no bytes. */
void read_text(const char *digits, struct text *text);

void write_hex(FILE *out, const unsigned char *bytes, size_t length);

/* The name of an error number. */
const char *error_name(int error);

#endif
