/* The C library beside OpenSSL's, in one run: each request with what a caller does for it, under a key that is set. "Eight at once" are
 * eight requests of perdoaze_encrypt_many in their places, where OpenSSL answers one after another.
 *
 * It prints a line for each algorithm and length: its name, the bytes, this library's microseconds and OpenSSL's, and whether the bytes
 * were the same. OpenSSL uses the processor's instructions for AES and GHASH unless OPENSSL_ia32cap forbids it. */
#include <openssl/core_names.h>
#include <openssl/evp.h>
#include <openssl/hmac.h>
#include <perdoaze.h>
#include <stdio.h>
#include <stdlib.h>
#include <string.h>
#include <time.h>

#define GREATEST (1 << 20)
#define ROUNDS 7
#define ENOUGH 0.02
#define EIGHT 8
#define GREATEST_OF_EIGHT 16384

static const uint8_t key[64] = { 1, 2, 3, 4, 5 }, aad[20] = { 8 };
/* byte 0 is what CCM wants there for a nonce of 13 bytes */
static const uint8_t iv[16] = { 1, 7 };
static uint8_t text[GREATEST + 64], ours[GREATEST + 64], theirs[GREATEST + 64], sealed[GREATEST + 64];
static struct perdoaze tfm = PERDOAZE_NONE;
static EVP_CIPHER_CTX *context;
static EVP_MAC_CTX *mac;

struct algorithm {
	const char *name, *ours;
	const EVP_CIPHER *(*theirs)(void);
	size_t key_size, iv_size, aad_size, tag_size;
	bool opens, eight;
};

static uint8_t eight[EIGHT][GREATEST_OF_EIGHT + 64];
static struct perdoaze_request requests[EIGHT];

static double now(void)
{
	struct timespec t;

	clock_gettime(CLOCK_PROCESS_CPUTIME_ID, &t);
	return (double)t.tv_sec + (double)t.tv_nsec * 1e-9;
}

static int ask_ours(const struct algorithm *a, size_t n)
{
	size_t written;

	if (a->eight) {
		for (int i = 0; i < EIGHT; i++)
			requests[i] = (struct perdoaze_request){ sizeof *requests, iv, a->iv_size, aad, a->aad_size, eight[i], sizeof eight[i], n, 0, 0 };
		return perdoaze_encrypt_many(&tfm, requests, EIGHT);
	}
	if (a->opens)
		return perdoaze_decrypt(&tfm, iv, a->iv_size, aad, a->aad_size, sealed, n, ours, sizeof ours, &written);
	return perdoaze_encrypt(&tfm, iv, a->iv_size, aad, a->aad_size, text, n, ours, sizeof ours, &written);
}

/* authenc: the cipher, and HMAC over the associated bytes and the ciphertext */
static int add_mac(size_t n)
{
	size_t made;

	return EVP_MAC_init(mac, NULL, 0, NULL) && EVP_MAC_update(mac, aad, sizeof aad) && EVP_MAC_update(mac, theirs, n)
		       && EVP_MAC_final(mac, theirs + n, &made, 32)
		       ? 0
		       : 1;
}

static int ask_theirs_once(const struct algorithm *a, size_t n)
{
	int made = 0, more = 0, is_ccm = !strcmp(a->name, "CCM");

	if (is_ccm && !EVP_EncryptInit_ex(context, NULL, NULL, key, iv + 1))
		return 1;
	if (!is_ccm && !EVP_CipherInit_ex(context, NULL, NULL, NULL, iv, !a->opens))
		return 1;
	if (is_ccm && !EVP_CipherUpdate(context, NULL, &made, NULL, (int)n))
		return 1;
	if (a->tag_size == 16 && !EVP_CipherUpdate(context, NULL, &made, aad, (int)a->aad_size))
		return 1;
	if (!EVP_CipherUpdate(context, theirs, &made, a->opens ? sealed : text, (int)n))
		return 1;
	if (!is_ccm && !EVP_CipherFinal_ex(context, theirs + made, &more))
		return 1;
	if (a->tag_size == 32)
		return add_mac(n);
	return a->tag_size && !EVP_CIPHER_CTX_ctrl(context, EVP_CTRL_AEAD_GET_TAG, 16, theirs + n);
}

static int ask_theirs(const struct algorithm *a, size_t n)
{
	for (int i = 1; a->eight && i < EIGHT; i++)
		if (ask_theirs_once(a, n))
			return 1;
	return ask_theirs_once(a, n);
}

/* Whether each of eight requests, of the text that theirs were of, came to the same bytes. */
static bool eight_are_same(const struct algorithm *a, size_t n)
{
	for (int i = 0; i < EIGHT; i++)
		memcpy(eight[i], text, n);
	if (ask_ours(a, n))
		return false;
	for (int i = 0; i < EIGHT; i++)
		if (requests[i].written != n + a->tag_size || memcmp(eight[i], theirs, n + a->tag_size))
			return false;
	return true;
}

/* The least microseconds of a request. */
static double time_of(int (*ask)(const struct algorithm *, size_t), const struct algorithm *a, size_t n)
{
	double best = 1e9;

	for (int round = 0; round < ROUNDS; round++)
		for (long count = 1;; count *= 2) {
			double begin = now(), took;

			for (long i = 0; i < count; i++)
				if (ask(a, n))
					exit(1);
			took = now() - begin;
			if (took < ENOUGH)
				continue;
			if (took / (double)count < best)
				best = took / (double)count;
			break;
		}
	return best * 1e6;
}

static void begin(const struct algorithm *a)
{
	uint8_t blob[56] = { 8, 0, 1, 0, 0, 0, 0, 16 };
	const void *given = key;
	size_t n = a->key_size;

	if (a->tag_size == 32) {
		memcpy(blob + 8, key + 16, 32);
		memcpy(blob + 40, key, 16);
		given = blob;
		n = sizeof blob;
	}
	if (perdoaze_init(&tfm, a->ours) || perdoaze_setkey(&tfm, given, n))
		exit(1);
	EVP_CIPHER_CTX_reset(context);
	EVP_CipherInit_ex(context, a->theirs(), NULL, NULL, NULL, !a->opens);
	if (!strcmp(a->name, "CCM")) {
		EVP_CIPHER_CTX_ctrl(context, EVP_CTRL_AEAD_SET_IVLEN, 13, NULL);
		EVP_CIPHER_CTX_ctrl(context, EVP_CTRL_AEAD_SET_TAG, 16, NULL);
	}
	EVP_CipherInit_ex(context, NULL, NULL, key, iv, !a->opens);
	EVP_CIPHER_CTX_set_padding(context, 0);
}

int main(void)
{
	static const struct algorithm all[] = {
		{ "GCM", "gcm(aes)", EVP_aes_128_gcm, 16, 12, 20, 16, false, false },
		{ "CTR", "ctr(aes)", EVP_aes_128_ctr, 16, 16, 0, 0, false, false },
		{ "CBC sealing", "cbc(aes)", EVP_aes_128_cbc, 16, 16, 0, 0, false, false },
		{ "CBC opening", "cbc(aes)", EVP_aes_128_cbc, 16, 16, 0, 0, true, false },
		{ "XTS", "xts(aes)", EVP_aes_128_xts, 32, 16, 0, 0, false, false },
		{ "CCM", "ccm(aes)", EVP_aes_128_ccm, 16, 16, 20, 16, false, false },
		{ "authenc", "authenc(hmac(sha256),cbc(aes))", EVP_aes_128_cbc, 16, 16, 20, 32, false, false },
		{ "CBC sealing, eight at once", "cbc(aes)", EVP_aes_128_cbc, 16, 16, 0, 0, false, true },
		{ "authenc, eight at once", "authenc(hmac(sha256),cbc(aes))", EVP_aes_128_cbc, 16, 16, 20, 32, false, true },
	};
	static const size_t lengths[] = { 16, 64, 256, 1400, 16384, 65536, GREATEST };
	OSSL_PARAM digest[] = { OSSL_PARAM_construct_utf8_string(OSSL_MAC_PARAM_DIGEST, (char *)"SHA256", 0), OSSL_PARAM_construct_end() };

	context = EVP_CIPHER_CTX_new();
	mac = EVP_MAC_CTX_new(EVP_MAC_fetch(NULL, "HMAC", NULL));
	if (!context || !mac || !EVP_MAC_init(mac, key + 16, 32, digest))
		return 1;
	for (size_t i = 0; i < sizeof text; i++)
		text[i] = sealed[i] = (uint8_t)(i * 7);
	for (size_t i = 0; i < sizeof all / sizeof *all; i++)
		for (size_t j = 0; j < sizeof lengths / sizeof *lengths; j++) {
			const struct algorithm *a = &all[i];
			/* CBC takes whole blocks, and CCM fewer than 65,536 bytes */
			size_t n = !strncmp(a->name, "CBC", 3) || a->tag_size == 32 ? lengths[j] / 16 * 16 : lengths[j];

			if ((!strcmp(a->name, "CCM") && n > 65535) || (a->eight && n > GREATEST_OF_EIGHT))
				continue;
			begin(a);
			double us = time_of(ask_ours, a, n), them = time_of(ask_theirs, a, n);
			bool same = a->eight ? eight_are_same(a, n) : !memcmp(ours, theirs, n + a->tag_size);
			printf("%s\t%zu\t%.3f\t%.3f\t%s\n", a->name, n, us, them, same ? "same" : "DIFFER");
			fflush(stdout);
		}
	return 0;
}
