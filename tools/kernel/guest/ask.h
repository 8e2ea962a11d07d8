/* One transform of the kernel's, asked by AF_ALG. */
#ifndef ASK_H
#define ASK_H

#include <stdio.h>

/*
 * Answers `KIND NAME KEYS TAGS DIRECTION IV AAD TEXT`. KIND is a type of AF_ALG (skcipher, aead, hash). KEYS and TAGS
 * are set one after the other, with a comma between two; `none` sets none. Written are the answers to the bind, to each
 * key, to each tag size, and to the request: its bytes in hexadecimal digits, or the name of an error number.
 */
void ask(char *line, FILE *out);

#endif
