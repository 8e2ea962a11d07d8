// Answers scripts as crypto_script does, by libcrypto, for tools/time-program to time beside it: `alloc`, `key`, `authsize`, `enc` and
// `dec`, of cbc(aes), ctr(aes), xts(aes), gcm(aes) and authenc(hmac(sha256),cbc(aes)). Its `alloc` names no driver. It takes what
// tools/time-program gives it, and is no judge of scripts: what it doesn't know it answers by `malformed`.
//
// built by tools/time-program: cc -O2 -o peer tools/peer.c -lcrypto
#include <openssl/core_names.h>
#include <openssl/evp.h>
#include <openssl/params.h>
#include <stdio.h>
#include <stdlib.h>
#include <string.h>

enum mode { CBC, CTR, XTS, GCM, AUTHENC };

struct transform {
    char label[64];
    enum mode mode;
    int has_key;
    size_t tag;
    EVP_CIPHER_CTX *seal, *open;
    EVP_MAC_CTX *mac;
};

static const char *const names[] = {"cbc(aes)", "ctr(aes)", "xts(aes)", "gcm(aes)", "authenc(hmac(sha256),cbc(aes))"};

static struct transform transforms[16];
static size_t transform_count;
static signed char digit_of[256];
static char pair_of[256][2];

static void make_tables(void) {
    static const char digits[] = "0123456789abcdef";
    memset(digit_of, -1, sizeof digit_of);
    for (int i = 0; i < 16; i++) digit_of[(unsigned char)digits[i]] = (signed char)i;
    for (int i = 0; i < 256; i++) {
        pair_of[i][0] = digits[i / 16];
        pair_of[i][1] = digits[i % 16];
    }
}

// Bytes in the place of their digits; a bare `-` is none of them.
static int bytes_of(char *word, size_t *count) {
    unsigned char *bytes = (unsigned char *)word;
    size_t length = strlen(word);
    *count = 0;
    if (strcmp(word, "-") == 0) return 1;
    if (length % 2) return 0;
    for (size_t i = 0; i < length / 2; i++) {
        int high = digit_of[(unsigned char)word[2 * i]], low = digit_of[(unsigned char)word[2 * i + 1]];
        if (high < 0 || low < 0) return 0;
        bytes[i] = (unsigned char)(high * 16 + low);
    }
    *count = length / 2;
    return 1;
}

static struct transform *labelled(const char *label) {
    for (size_t i = 0; i < transform_count; i++)
        if (strcmp(transforms[i].label, label) == 0) return &transforms[i];
    return NULL;
}

static const EVP_CIPHER *cipher_of(enum mode mode, size_t key_length) {
    int large = key_length == (mode == XTS ? 64 : 32);
    switch (mode) {
    case CTR: return large ? EVP_aes_256_ctr() : EVP_aes_128_ctr();
    case XTS: return large ? EVP_aes_256_xts() : EVP_aes_128_xts();
    case GCM: return large ? EVP_aes_256_gcm() : EVP_aes_128_gcm();
    default: return large ? EVP_aes_256_cbc() : EVP_aes_128_cbc();
    }
}

static int set_key(struct transform *t, unsigned char *key, size_t length) {
    if (t->mode == AUTHENC) {
        // a header of eight bytes, which ends with the cipher key's length, the MAC key and the cipher key
        size_t cipher = length < 8 ? length : (size_t)key[6] * 256 + key[7];
        if (length < 8 || length - 8 < cipher) return 0;
        char digest[] = "SHA256";
        OSSL_PARAM chosen[] = {OSSL_PARAM_construct_utf8_string(OSSL_MAC_PARAM_DIGEST, digest, 0), OSSL_PARAM_construct_end()};
        if (!EVP_MAC_init(t->mac, key + 8, length - 8 - cipher, chosen)) return 0;
        key += length - cipher;
        length = cipher;
    }
    if (!(length == 16 || length == 32 || (t->mode == XTS && length == 64))) return 0;
    const EVP_CIPHER *cipher = cipher_of(t->mode, length);
    t->has_key = EVP_EncryptInit_ex(t->seal, cipher, NULL, key, NULL) && EVP_DecryptInit_ex(t->open, cipher, NULL, key, NULL);
    EVP_CIPHER_CTX_set_padding(t->seal, 0);
    EVP_CIPHER_CTX_set_padding(t->open, 0);
    return t->has_key;
}

// The MAC of two pieces of bytes.
static int mac_of(EVP_MAC_CTX *mac, const unsigned char *a, size_t a_length, const unsigned char *b, size_t b_length, unsigned char made[32]) {
    size_t length;
    return EVP_MAC_init(mac, NULL, 0, NULL) && EVP_MAC_update(mac, a, a_length) && EVP_MAC_update(mac, b, b_length) && EVP_MAC_final(mac, made, &length, 32);
}

// Seals or opens in place; room for a tag is behind the text. The length of what came of it, or -1.
static long done(struct transform *t, int sealing, unsigned char *iv, unsigned char *associated, size_t associated_length, unsigned char *text, size_t length) {
    EVP_CIPHER_CTX *context = sealing ? t->seal : t->open;
    size_t tag = t->mode == GCM || t->mode == AUTHENC ? t->tag : 0;
    unsigned char mac[32], *kept = NULL;
    int n;
    if (!sealing) {
        if (length < tag) return -1;
        length -= tag;
        kept = text + length;
    }
    if (t->mode == AUTHENC && !sealing && (!mac_of(t->mac, associated, associated_length, text, length, mac) || memcmp(mac, kept, tag) != 0)) return -1;
    if (!EVP_CipherInit_ex(context, NULL, NULL, NULL, iv, sealing)) return -1;
    if (t->mode == GCM) {
        if (associated_length && !EVP_CipherUpdate(context, NULL, &n, associated, (int)associated_length)) return -1;
        if (!sealing && !EVP_CIPHER_CTX_ctrl(context, EVP_CTRL_AEAD_SET_TAG, (int)tag, kept)) return -1;
    }
    if (length && !EVP_CipherUpdate(context, text, &n, text, (int)length)) return -1;
    if (t->mode == GCM) {
        if (EVP_CipherFinal_ex(context, text + length, &n) <= 0) return -1;
        if (sealing && !EVP_CIPHER_CTX_ctrl(context, EVP_CTRL_AEAD_GET_TAG, (int)tag, text + length)) return -1;
    }
    if (t->mode == AUTHENC && sealing) {
        if (!mac_of(t->mac, associated, associated_length, text, length, mac)) return -1;
        memcpy(text + length, mac, tag);
    }
    return (long)(length + (sealing ? tag : 0));
}

static int allocated(const char *label, const char *name) {
    for (size_t m = 0; m < sizeof names / sizeof *names; m++) {
        if (strcmp(names[m], name) != 0 || transform_count == 16 || strlen(label) > 63) continue;
        struct transform *t = &transforms[transform_count++];
        strcpy(t->label, label);
        t->mode = (enum mode)m;
        t->tag = m == AUTHENC ? 32 : 16;
        t->seal = EVP_CIPHER_CTX_new();
        t->open = EVP_CIPHER_CTX_new();
        t->mac = EVP_MAC_CTX_new(EVP_MAC_fetch(NULL, "HMAC", NULL));
        return 1;
    }
    return 0;
}

// Answers a line of so many words.
static void answer(unsigned long number, char **words, int count) {
    static char *shown;
    static size_t room;
    size_t iv, associated, length;
    struct transform *t = count > 1 ? labelled(words[1]) : NULL;
    int sealing = strcmp(words[0], "enc") == 0;
    if (count == 3 && strcmp(words[0], "alloc") == 0 && allocated(words[1], words[2])) {
        printf("%lu ok\n", number);
    } else if (t && count == 3 && strcmp(words[0], "key") == 0 && bytes_of(words[2], &length)) {
        printf("%lu %s\n", number, set_key(t, (unsigned char *)words[2], length) ? "ok" : "EINVAL");
    } else if (t && count == 3 && strcmp(words[0], "authsize") == 0) {
        t->tag = (size_t)atoi(words[2]);
        printf("%lu ok\n", number);
    } else if (t && t->has_key && count == 5 && (sealing || strcmp(words[0], "dec") == 0) && bytes_of(words[2], &iv) && bytes_of(words[3], &associated) && bytes_of(words[4], &length)) {
        long made = done(t, sealing, (unsigned char *)words[2], (unsigned char *)words[3], associated, (unsigned char *)words[4], length);
        if (made < 0) {
            printf("%lu EBADMSG\n", number);
            return;
        }
        size_t wanted = 2 * (size_t)made + 32;
        if (room < wanted && (shown = realloc(shown, room = 2 * wanted)) == NULL) exit(1);
        size_t at = (size_t)snprintf(shown, 32, "%lu ok ", number);
        for (long i = 0; i < made; i++, at += 2) memcpy(shown + at, pair_of[((unsigned char *)words[4])[i]], 2);
        shown[at++] = '\n';
        fwrite(shown, 1, at, stdout);
    } else {
        printf("%lu malformed\n", number);
    }
}

int main(void) {
    char *line = NULL;
    size_t room = 0;
    unsigned long number = 0;
    ssize_t length;
    make_tables();
    while ((length = getline(&line, &room, stdin)) > 0) {
        char *words[6] = {0};
        int count = 0;
        number++;
        if (line[length - 1] == '\n') line[--length] = 0;
        // room for a tag behind the last word
        if (room < (size_t)length + 64 && (line = realloc(line, room = 2 * (size_t)length + 64)) == NULL) return 1;
        for (char *word = strtok(line, " "); word && count < 6; word = strtok(NULL, " ")) words[count++] = word;
        if (count == 0 || words[0][0] == '#') continue;
        answer(number, words, count);
    }
    return 0;
}
