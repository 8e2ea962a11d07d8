/* Calls one cipher over several lengths, with its key, IV, text and tag marked as undefined for valgrind's memcheck, which then reports
 * each branch and each address that depends on them. The answers are marked as defined again before they are looked at.
 *
 * usage: driver WORK
 */
#include <stdbool.h>
#include <stddef.h>
#include <stdint.h>
#include <stdio.h>
#include <string.h>
#include <valgrind/memcheck.h>

#define IN(name) const uint8_t *name, size_t name##_len
#define OUT(name) uint8_t *name, size_t name##_len

void cipher_ctr_generic(IN(key), IN(iv), OUT(text));
void cipher_ctr_table(IN(key), IN(iv), OUT(text));
void cipher_ctr(IN(key), IN(iv), OUT(text));
void cipher_cbc_seal(IN(key), IN(iv), OUT(text));
void cipher_cbc_open(IN(key), IN(iv), OUT(text));
void cipher_xts_seal(IN(data_key), IN(tweak_key), IN(iv), OUT(text));
void cipher_xts_open(IN(data_key), IN(tweak_key), IN(iv), OUT(text));
void cipher_ghash_bits(IN(key), IN(text), OUT(tag));
void cipher_gcm_seal(IN(key), IN(iv), IN(associated), OUT(text), OUT(tag));
bool cipher_gcm_open(IN(key), IN(iv), IN(associated), OUT(text), IN(tag));
void cipher_ccm_seal(IN(key), IN(iv), IN(associated), OUT(text), OUT(tag));
bool cipher_ccm_open(IN(key), IN(iv), IN(associated), OUT(text), IN(tag));
void cipher_cmac(IN(key), IN(text), OUT(tag));
void cipher_hmac(IN(key), IN(text), OUT(tag));
void cipher_authenc_seal(IN(key), IN(iv), IN(associated), OUT(text), OUT(tag));
bool cipher_authenc_open(IN(key), IN(iv), IN(associated), OUT(text), IN(tag));

enum { LONGEST = 1400 };

static const size_t LENGTHS[] = {16, 20, 48, 100, 112, 130, 256, LONGEST};

static uint8_t key[16], other[16], iv[16], associated[8], text[LONGEST], tag[16];

/* The first byte of an IV of CCM says how long its nonce is, and the length of each is known to everybody. */
static void fill(void) {
    for (size_t i = 0; i < 16; i++)
        key[i] = 7 * i + 1, other[i] = 5 * i + 2, iv[i] = i + 3, tag[i] = 0;
    for (size_t i = 0; i < sizeof associated; i++)
        associated[i] = i;
    for (size_t i = 0; i < LONGEST; i++)
        text[i] = 3 * i;
}

static void mark(void) {
    VALGRIND_MAKE_MEM_UNDEFINED(key, sizeof key);
    VALGRIND_MAKE_MEM_UNDEFINED(other, sizeof other);
    VALGRIND_MAKE_MEM_UNDEFINED(iv + 1, sizeof iv - 1);
    VALGRIND_MAKE_MEM_UNDEFINED(associated, sizeof associated);
    VALGRIND_MAKE_MEM_UNDEFINED(text, sizeof text);
    VALGRIND_MAKE_MEM_UNDEFINED(tag, sizeof tag);
}

static void unmark(void) {
    VALGRIND_MAKE_MEM_DEFINED(key, sizeof key);
    VALGRIND_MAKE_MEM_DEFINED(other, sizeof other);
    VALGRIND_MAKE_MEM_DEFINED(iv, sizeof iv);
    VALGRIND_MAKE_MEM_DEFINED(associated, sizeof associated);
    VALGRIND_MAKE_MEM_DEFINED(text, sizeof text);
    VALGRIND_MAKE_MEM_DEFINED(tag, sizeof tag);
}

/* Whether the verdict is the wanted one: everybody may know it. */
static bool said(bool verdict, bool wanted) {
    VALGRIND_MAKE_MEM_DEFINED(&verdict, sizeof verdict);
    return verdict == wanted;
}

typedef bool Opens(IN(key), IN(iv), IN(associated), OUT(text), IN(tag));
typedef void Seals(IN(key), IN(iv), IN(associated), OUT(text), OUT(tag));

/* Opens what was sealed with nothing marked; where it is to be refused, one bit of the tag is changed. */
static bool opens(Seals *seal, Opens *open, size_t iv_len, size_t length, bool wanted) {
    seal(key, 16, iv, iv_len, associated, 8, text, length, tag, 16);
    tag[9] ^= !wanted;
    mark();
    return said(open(key, 16, iv, iv_len, associated, 8, text, length, tag, 16), wanted);
}

/* Does the work over a text of that length; false where it is none, or where an opening has another verdict than is wanted. */
static bool work(const char *name, size_t length) {
    bool whole = length % 16 == 0;
    if (!strcmp(name, "gcm-open"))
        return opens(cipher_gcm_seal, cipher_gcm_open, 12, length, true);
    if (!strcmp(name, "gcm-refuse"))
        return opens(cipher_gcm_seal, cipher_gcm_open, 12, length, false);
    if (!strcmp(name, "ccm-open"))
        return opens(cipher_ccm_seal, cipher_ccm_open, 16, length, true);
    if (!strcmp(name, "ccm-refuse"))
        return opens(cipher_ccm_seal, cipher_ccm_open, 16, length, false);
    if (!strcmp(name, "authenc-open"))
        return !whole || opens(cipher_authenc_seal, cipher_authenc_open, 16, length, true);
    if (!strcmp(name, "authenc-refuse"))
        return !whole || opens(cipher_authenc_seal, cipher_authenc_open, 16, length, false);
    mark();
    if (!strcmp(name, "ctr-generic"))
        cipher_ctr_generic(key, 16, iv, 16, text, length);
    else if (!strcmp(name, "ctr-table"))
        cipher_ctr_table(key, 16, iv, 16, text, length);
    else if (!strcmp(name, "ctr"))
        cipher_ctr(key, 16, iv, 16, text, length);
    else if (!strcmp(name, "cbc"))
        cipher_cbc_seal(key, 16, iv, 16, text, length);
    else if (!strcmp(name, "cbc-open"))
        cipher_cbc_open(key, 16, iv, 16, text, length);
    else if (!strcmp(name, "xts"))
        cipher_xts_seal(key, 16, other, 16, iv, 16, text, length);
    else if (!strcmp(name, "xts-open"))
        cipher_xts_open(key, 16, other, 16, iv, 16, text, length);
    else if (!strcmp(name, "ghash-bits"))
        cipher_ghash_bits(key, 16, text, length, tag, 16);
    else if (!strcmp(name, "gcm"))
        cipher_gcm_seal(key, 16, iv, 12, associated, 8, text, length, tag, 16);
    else if (!strcmp(name, "ccm"))
        cipher_ccm_seal(key, 16, iv, 16, associated, 8, text, length, tag, 16);
    else if (!strcmp(name, "cmac"))
        cipher_cmac(key, 16, text, length, tag, 16);
    else if (!strcmp(name, "hmac"))
        cipher_hmac(key, 16, text, length, tag, 16);
    else if (!strcmp(name, "authenc"))
        cipher_authenc_seal(key, 16, iv, 16, associated, 8, text, length, tag, 16);
    else
        return false;
    return true;
}

int main(int argc, char **argv) {
    if (argc != 2)
        return 2;
    unsigned sum = 0;
    for (size_t i = 0; i < sizeof LENGTHS / sizeof *LENGTHS; i++) {
        fill();
        bool done = work(argv[1], LENGTHS[i]);
        unmark();
        if (!done)
            return 3;
        for (size_t k = 0; k < 16; k++)
            sum = 31 * sum + tag[k] + text[k];
    }
    printf("%u\n", sum);
    return 0;
}
