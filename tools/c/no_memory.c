/* Each malloc failing in turn: the call answers -ENOMEM and changes nothing but what it says, and the next call works. Linked with
 * --wrap=malloc. */
#include <errno.h>
#include <perdoaze.h>
#include <stdio.h>
#include <stdlib.h>
#include <string.h>

#define DRIVER "authenc(hmac(sha256-generic),cbc(aes-lanes))"
/* one that doesn't go over pieces */
#define OVER_XTS "authenc(hmac(sha256-generic),xts(aes-lanes))"

void *__real_malloc(size_t n);
void *__wrap_malloc(size_t n);

static long left = -1, used;

void *__wrap_malloc(size_t n)
{
	used++;
	return left >= 0 && left-- == 0 ? NULL : __real_malloc(n);
}

static int fail(const char *what, long at)
{
	printf("%s: malloc %ld\n", what, at);
	return 1;
}

/* The key of authenc: an attribute of 8 bytes, the number of bytes of the cipher's key, the MAC's key, the cipher's. */
static const uint8_t key[56] = { 8, 0, 1, 0, 0, 0, 0, 16, 5 }, other[56] = { 8, 0, 1, 0, 0, 0, 0, 16, 6 },
		     halves[56] = { 8, 0, 1, 0, 0, 0, 0, 32, 7 };

static const uint8_t iv[16] = { 2 };

/* As many bytes as are copied to the stack, with their tag, and more. */
#define FEW (PERDOAZE_ON_STACK - 32)
#define MANY (PERDOAZE_ON_STACK - 16)

static uint8_t text[MANY] = { 3 }, want[MANY + 32];

/* Each malloc of a request over n bytes in two pieces in their place, under an IV and a tag of these sizes: where one fails, the pieces are
 * as they were. How many there are, or -1. */
static long in_pieces(struct perdoaze *tfm, size_t iv_len, size_t tag, size_t n)
{
	static uint8_t a[20], b[MANY + 12];
	const struct iovec buffer[2] = { { a, 20 }, { b, n + 12 } };
	size_t written = 7;

	if (perdoaze_encrypt(tfm, iv, iv_len, text, 20, text, n, want, sizeof want, NULL))
		return -1;
	for (long i = 0;; i++) {
		int got;

		memcpy(a, text, 20);
		memcpy(b, text + 20, n - 20);
		left = i;
		got = perdoaze_encryptv_in_place(tfm, iv, iv_len, text, 20, buffer, 2, n, &written);
		if (!got && left >= 0) {
			left = -1;
			return written == n + tag && !memcmp(a, want, 20) && !memcmp(b, want + 20, n + tag - 20) ? i : -1;
		}
		left = -1;
		if (got != -ENOMEM || written || memcmp(a, text, 20) || memcmp(b, text + 20, n - 20))
			return -1;
	}
}

/* How many mallocs a MAC of a text in pieces takes, or -1. */
static long digests(const char *name)
{
	struct perdoaze tfm = PERDOAZE_NONE;
	const struct iovec pieces[3] = { { text, 20 }, { text + 20, 1500 }, { text + 1520, MANY - 1520 } };
	uint8_t out[32], same[32];
	size_t n = 7, size;
	long took;

	if (perdoaze_init(&tfm, name) || perdoaze_setkey(&tfm, key, 16) || perdoaze_digest(&tfm, text, MANY, same, 32, &size))
		return -1;
	used = 0;
	if (perdoaze_digestv(&tfm, pieces, 3, out, 32, &n) || n != size || memcmp(out, same, size))
		return -1;
	took = used;
	perdoaze_free(&tfm);
	return took;
}

/* How many mallocs the requests over more than 32 pieces take where one is NULL, or -1. Where malloc fails, nothing happens. */
static long null_pieces(void)
{
	struct perdoaze tfm = PERDOAZE_NONE;
	static uint8_t bytes[40 * 16], out[40 * 16];
	struct iovec buffer[41];
	size_t n = 7;

	for (size_t i = 0; i < 40; i++)
		buffer[i] = (struct iovec){ bytes + 16 * i, 16 };
	buffer[40] = (struct iovec){ NULL, 0 };
	if (perdoaze_init(&tfm, "ctr(aes)") || perdoaze_setkey(&tfm, key, 16))
		return -1;
	left = 0;
	if (perdoaze_encryptv(&tfm, iv, 16, NULL, 0, buffer, 41, out, sizeof out, &n) != -ENOMEM || n || out[0])
		return -1;
	left = 0;
	if (perdoaze_encryptv_in_place(&tfm, iv, 16, NULL, 0, buffer, 41, sizeof bytes, &n) != -ENOMEM || bytes[0])
		return -1;
	left = -1;
	used = 0;
	if (perdoaze_encryptv(&tfm, iv, 16, NULL, 0, buffer, 41, out, sizeof out, &n) || n != sizeof out)
		return -1;
	if (perdoaze_encryptv_in_place(&tfm, iv, 16, NULL, 0, buffer, 41, sizeof bytes, &n) || memcmp(bytes, out, sizeof out))
		return -1;
	perdoaze_free(&tfm);
	return used;
}

static bool answers(struct perdoaze *tfm, const uint8_t *first)
{
	uint8_t out[64];
	size_t n = 0;

	return !perdoaze_encrypt(tfm, iv, 16, text, 20, text, 32, out, 64, &n) && n == 64 && !memcmp(out, first, 64);
}

int main(void)
{
	struct perdoaze t = PERDOAZE_NONE, u = PERDOAZE_NONE, esp = PERDOAZE_NONE, over_xts = PERDOAZE_NONE;
	uint8_t first[64], out[64] = { 0 };
	long inits, keys, dups, requests, few, many, walked, copied, macs;

	if (perdoaze_init(&t, DRIVER))
		return fail("init", -1);
	inits = used;
	used = 0;
	if (perdoaze_setkey(&t, key, sizeof key))
		return fail("setkey", -1);
	keys = used;
	used = 0;
	if (perdoaze_encrypt(&t, iv, 16, text, 20, text, 32, first, 64, NULL))
		return fail("encrypt", -1);
	if (perdoaze_encrypt_many(&t, &(struct perdoaze_request){ sizeof(struct perdoaze_request), iv, 16, text, 20, out, 64, 32, 0, 0 }, 1))
		return fail("encrypt_many", -1);
	requests = used;
	used = 0;
	if (perdoaze_dup(&t, &u))
		return fail("dup", -1);
	dups = used;
	few = in_pieces(&t, 16, 32, FEW);
	many = in_pieces(&t, 16, 32, MANY);
	if (perdoaze_init(&esp, "rfc4106(gcm(aes))") || perdoaze_setkey(&esp, key, 20))
		return fail("rfc4106", -1);
	walked = in_pieces(&esp, 8, 16, MANY);
	perdoaze_free(&esp);
	if (perdoaze_init(&over_xts, OVER_XTS) || perdoaze_setkey(&over_xts, halves, sizeof halves))
		return fail("xts", -1);
	copied = in_pieces(&over_xts, 16, 32, MANY);
	perdoaze_free(&over_xts);
	macs = digests("hmac(sha256)") + digests("cmac(aes)");
	if (few || many || walked || copied < 1 || macs)
		return fail("pieces", copied);
	if (null_pieces() != 2)
		return fail("pieces that are NULL", -1);
	for (long i = 0; i < keys; i++) {
		left = i;
		if (perdoaze_setkey(&t, other, sizeof other) != -ENOMEM || (left = -1, !answers(&t, first)))
			return fail("setkey", i);
	}
	for (long i = 0; i < dups; i++) {
		left = i;
		if (perdoaze_dup(&t, &u) != -ENOMEM || (left = -1, !answers(&t, first)) || perdoaze_setauthsize(&u, 32) != -EINVAL)
			return fail("dup", i);
	}
	for (long i = 0; i < inits; i++) {
		left = i;
		if (perdoaze_init(&t, DRIVER) != -ENOMEM || (left = -1, perdoaze_setauthsize(&t, 32)) != -EINVAL)
			return fail("init", i);
	}
	perdoaze_free(&t);
	perdoaze_free(&u);
	printf("mallocs: init %ld, setkey %ld, dup %ld, encrypt %ld, encryptv_in_place %ld, %ld, %ld and %ld, digestv %ld\n", inits, keys, dups, requests,
	       few, many, walked, copied, macs);
	return requests ? fail("encrypt takes memory", requests) : 0;
}
