/* What each call refuses, and what it leaves then. Ends with status 1 at the first check that fails, and says which. */
#include <errno.h>
#include <limits.h>
#include <perdoaze.h>
#include <stdio.h>
#include <string.h>

#define CHECK(holds) \
	do { \
		if (!(holds)) { \
			printf("line %d: %s\n", __LINE__, #holds); \
			return 1; \
		} \
	} while (0)

static int is_all(const uint8_t *bytes, size_t n, uint8_t value)
{
	for (size_t i = 0; i < n; i++)
		if (bytes[i] != value)
			return 0;
	return 1;
}

static int names(void)
{
	struct perdoaze t = PERDOAZE_NONE;

	CHECK(perdoaze_init(&t, "gcm(aes)") == 0);
	CHECK(perdoaze_init(&t, "no such name") == -EINVAL);
	CHECK(perdoaze_setkey(&t, "0123456789abcdef", 16) == -EINVAL);
	CHECK(perdoaze_init(&t, "no-such-name") == -ENOENT);
	CHECK(perdoaze_init(&t, "") == -EINVAL && perdoaze_init(&t, NULL) == -EINVAL && perdoaze_init(NULL, "gcm(aes)") == -EINVAL);
	CHECK(perdoaze_init(&t, "aes-lanes") == -ENOENT);
	CHECK(perdoaze_init(&t, "pcrypt(gcm_base(ctr(aes-table),ghash-generic))") == 0);
	CHECK(perdoaze_init(&t, "pcrypt(gcm(aes))") == 0 && perdoaze_init(&t, "cryptd(pcrypt(hmac(sha256)))") == 0);
	CHECK(perdoaze_init(&t, "cryptd(authenc(hmac(sha256),rfc3686(ctr(aes))))") == 0 && perdoaze_init(&t, "pcrypt(cryptd(gcm(aes)))") == -ENOENT);
	CHECK(perdoaze_init(&t, "pcrypt(gcm(aes)") == -EINVAL && perdoaze_init(&t, "pcrypt()") == -EINVAL && perdoaze_init(&t, "pcrypt(") == -EINVAL);
	perdoaze_free(&t);
	perdoaze_free(&t);
	perdoaze_free(NULL);
	return 0;
}

static int settings(void)
{
	struct perdoaze t = PERDOAZE_NONE;
	uint8_t key[64] = { 0 }, out[64];
	size_t n = 7;

	CHECK(perdoaze_setkey(&t, key, 16) == -EINVAL && perdoaze_setauthsize(&t, 16) == -EINVAL);
	CHECK(perdoaze_encrypt(&t, key, 12, NULL, 0, key, 16, out, 64, &n) == -EINVAL && n == 0);
	CHECK(perdoaze_init(&t, "gcm(aes)") == 0);
	CHECK(perdoaze_encrypt(&t, key, 12, NULL, 0, key, 16, out, 64, &n) == -ENOKEY);
	CHECK(perdoaze_setkey(&t, key, 15) == -EINVAL && perdoaze_setkey(&t, NULL, 16) == -EINVAL);
	CHECK(perdoaze_setkey(&t, NULL, 0) == -EINVAL && perdoaze_setkey(&t, key, SIZE_MAX) == -EINVAL);
	CHECK(perdoaze_setkey(&t, key, 16) == 0);
	CHECK(perdoaze_setauthsize(&t, 7) == -EINVAL && perdoaze_setauthsize(&t, 17) == -EINVAL);
	CHECK(perdoaze_encrypt(&t, key, 12, NULL, 0, key, 16, out, 64, &n) == 0 && n == 32);
	CHECK(perdoaze_setauthsize(&t, 4) == 0);
	CHECK(perdoaze_encrypt(&t, key, 12, NULL, 0, key, 16, out, 64, &n) == 0 && n == 20);
	CHECK(perdoaze_init(&t, "ctr(aes)") == 0 && perdoaze_setauthsize(&t, 0) == -EINVAL);
	CHECK(perdoaze_init(&t, "hmac(sha256)") == 0 && perdoaze_setkey(&t, NULL, 0) == 0);
	CHECK(perdoaze_digest(&t, NULL, 0, out, 32, &n) == 0 && n == 32);
	CHECK(perdoaze_digest(&t, NULL, 0, out, 31, &n) == -EOVERFLOW && n == 0);
	CHECK(perdoaze_digest(&t, NULL, 1, out, 32, &n) == -EINVAL);
	CHECK(perdoaze_encrypt(&t, NULL, 0, NULL, 0, key, 16, out, 64, &n) == -EINVAL);
	perdoaze_free(&t);
	return 0;
}

static int requests(void)
{
	struct perdoaze t = PERDOAZE_NONE;
	uint8_t key[64] = { 0 }, iv[16] = { 1 }, sealed[80], out[80];
	const char text[] = "forty-eight bytes of text that anybody may read";
	size_t n = 7;

	CHECK(perdoaze_init(&t, "gcm(aes)") == 0 && perdoaze_setkey(&t, key, 32) == 0);
	CHECK(perdoaze_encrypt(&t, iv, 12, key, 20, text, 48, sealed, 80, NULL) == 0);
	memset(out, 0x55, 80);
	CHECK(perdoaze_encrypt(&t, iv, 12, key, 20, text, 48, out, 63, &n) == -EOVERFLOW && n == 0 && is_all(out, 80, 0x55));
	CHECK(perdoaze_encrypt(&t, NULL, 12, key, 20, text, 48, out, 80, &n) == -EINVAL && is_all(out, 80, 0x55));
	CHECK(perdoaze_encrypt(&t, iv, 12, NULL, 20, text, 48, out, 80, &n) == -EINVAL && is_all(out, 80, 0x55));
	CHECK(perdoaze_encrypt(&t, iv, 12, key, 20, NULL, 48, out, 80, &n) == -EINVAL && is_all(out, 80, 0x55));
	CHECK(perdoaze_encrypt(&t, iv, 12, key, 20, text, 48, NULL, 80, &n) == -EINVAL);
	CHECK(perdoaze_encrypt(&t, iv, 11, key, 20, text, 48, out, 80, &n) == -EINVAL && n == 0 && is_all(out + 48, 32, 0x55));
	CHECK(perdoaze_encrypt(&t, iv, 12, key, 20, out + 8, 48, out, 80, &n) == -EINVAL);
	CHECK(perdoaze_encrypt(&t, out, 12, key, 20, text, 48, out, 80, &n) == -EINVAL);
	CHECK(perdoaze_decrypt(&t, iv, 12, key, 20, sealed, 15, out, 80, &n) == -EINVAL);
	CHECK(perdoaze_decrypt(&t, iv, 12, key, 20, sealed, 64, out, 47, &n) == -EOVERFLOW);
	CHECK(perdoaze_digest(&t, text, 48, out, 80, &n) == -EINVAL);
	sealed[3] ^= 1;
	memset(out, 0x55, 80);
	CHECK(perdoaze_decrypt(&t, iv, 12, key, 20, sealed, 64, out, 80, &n) == -EBADMSG && n == 0);
	CHECK(is_all(out, 48, 0) && is_all(out + 48, 32, 0x55));
	memcpy(out, sealed, 64);
	CHECK(perdoaze_decrypt_in_place(&t, iv, 12, key, 20, out, 80, 64, &n) == -EBADMSG && n == 0 && !memcmp(out, sealed, 64));
	CHECK(perdoaze_decrypt_in_place(&t, iv, 12, key, 20, out, 63, 64, &n) == -EOVERFLOW);
	CHECK(perdoaze_encrypt_in_place(&t, iv, 12, key, 20, out, 63, 48, &n) == -EOVERFLOW && !memcmp(out, sealed, 64));
	CHECK(perdoaze_encrypt_in_place(&t, iv, 12, key, 20, out, 80, SIZE_MAX, &n) == -EOVERFLOW);
	CHECK(perdoaze_init(&t, "cbc(aes)") == 0 && perdoaze_setkey(&t, key, 16) == 0);
	CHECK(perdoaze_encrypt(&t, iv, 16, NULL, 0, text, 47, out, 80, &n) == -EINVAL && is_all(out, 47, 0));
	CHECK(perdoaze_encrypt(&t, iv, 16, key, 1, text, 48, out, 80, &n) == -EINVAL);
	perdoaze_free(&t);
	return 0;
}

static int pieces(void)
{
	struct perdoaze t = PERDOAZE_NONE;
	uint8_t key[16] = { 4 }, iv[12] = { 1 }, sealed[80], out[80];
	char text[48] = "forty-eight bytes of text that anybody may read";
	const struct iovec some[4] = { { NULL, 0 }, { text, 20 }, { NULL, 0 }, { text + 20, 28 } }, wrong[1] = { { NULL, 1 } };
	const struct iovec within[1] = { { out + 9, 1 } }, huge[2] = { { text, PTRDIFF_MAX }, { text, PTRDIFF_MAX } };
	static struct iovec many[PERDOAZE_MAX_PIECES + 1];
	size_t n = 7;

	CHECK(perdoaze_init(&t, "gcm(aes)") == 0 && perdoaze_setkey(&t, key, 16) == 0);
	CHECK(perdoaze_encrypt(&t, iv, 12, NULL, 0, text, 48, sealed, 80, NULL) == 0);
	memset(out, 0x55, 80);
	CHECK(perdoaze_encryptv(&t, iv, 12, NULL, 0, some, 4, out, 80, &n) == 0 && n == 64 && !memcmp(out, sealed, 64) && out[64] == 0x55);
	CHECK(perdoaze_encryptv(&t, iv, 12, NULL, 0, NULL, 0, out, 80, &n) == 0 && n == 16);
	CHECK(perdoaze_encryptv(&t, iv, 12, NULL, 0, many, PERDOAZE_MAX_PIECES, out, 80, &n) == 0 && n == 16);
	CHECK(perdoaze_encryptv(&t, iv, 12, NULL, 0, many, PERDOAZE_MAX_PIECES + 1, out, 80, &n) == -EINVAL && n == 0);
	CHECK(perdoaze_encryptv(&t, iv, 12, NULL, 0, NULL, 1, out, 80, &n) == -EINVAL && n == 0);
	CHECK(perdoaze_encryptv(&t, iv, 12, NULL, 0, wrong, 1, out, 80, &n) == -EINVAL);
	CHECK(perdoaze_encryptv(&t, iv, 12, NULL, 0, within, 1, out, 80, &n) == -EINVAL);
	CHECK(perdoaze_encryptv(&t, iv, 12, NULL, 0, huge, 2, NULL, 0, &n) == -EINVAL);
	CHECK(perdoaze_encryptv(&t, iv, 12, NULL, 0, some, 4, out, 63, &n) == -EOVERFLOW);
	const struct iovec cut[3] = { { sealed, 40 }, { sealed + 40, 20 }, { sealed + 60, 4 } };
	memset(out, 0x55, 80);
	CHECK(perdoaze_decryptv(&t, iv, 12, NULL, 0, cut, 3, out, 48, &n) == 0 && n == 48 && !memcmp(out, text, 48) && out[48] == 0x55);
	CHECK(perdoaze_decryptv(&t, iv, 12, NULL, 0, cut, 3, out, 47, &n) == -EOVERFLOW && !memcmp(out, text, 48));
	sealed[63] ^= 1;
	CHECK(perdoaze_decryptv(&t, iv, 12, NULL, 0, cut, 3, out, 80, &n) == -EBADMSG && n == 0 && is_all(out, 48, 0) && out[48] == 0x55);
	CHECK(perdoaze_decryptv(&t, iv, 12, NULL, 0, cut + 2, 1, out, 64, &n) == -EINVAL);
	CHECK(perdoaze_init(&t, "hmac(sha256)") == 0 && perdoaze_setkey(&t, key, 16) == 0);
	CHECK(perdoaze_digest(&t, text, 48, sealed, 32, NULL) == 0);
	CHECK(perdoaze_digestv(&t, some, 4, out, 32, &n) == 0 && n == 32 && !memcmp(out, sealed, 32));
	CHECK(perdoaze_digestv(&t, some, 4, out, 31, &n) == -EOVERFLOW && n == 0 && perdoaze_digestv(&t, wrong, 1, out, 32, &n) == -EINVAL);
	CHECK(perdoaze_digestv(&t, within, 1, out, 32, &n) == -EINVAL && perdoaze_digestv(&t, NULL, 0, out, 32, &n) == 0 && n == 32);
	CHECK(perdoaze_encryptv(&t, NULL, 0, NULL, 0, some, 4, out, 80, &n) == -EINVAL);
	perdoaze_free(&t);
	return 0;
}

static int pieces_in_place(void)
{
	struct perdoaze t = PERDOAZE_NONE;
	uint8_t key[16] = { 4 }, iv[12] = { 1 }, sealed[64], a[20], b[28], c[20];
	char text[48] = "forty-eight bytes of text that anybody may read";
	const struct iovec buffer[4] = { { a, 20 }, { b, 28 }, { NULL, 0 }, { c, 20 } };
	const struct iovec twice[2] = { { a, 20 }, { a + 19, 1 } }, on_iv[1] = { { iv + 11, 1 } }, wrong[1] = { { NULL, 1 } };
	size_t n = 7;

	CHECK(perdoaze_init(&t, "gcm(aes)") == 0);
	CHECK(perdoaze_encryptv_in_place(&t, iv, 12, NULL, 0, buffer, 4, 48, &n) == -ENOKEY && n == 0);
	CHECK(perdoaze_setkey(&t, key, 16) == 0 && perdoaze_encrypt(&t, iv, 12, key, 16, text, 48, sealed, 64, NULL) == 0);
	memcpy(a, text, 20);
	memcpy(b, text + 20, 28);
	memset(c, 0x55, 20);
	CHECK(perdoaze_encryptv_in_place(&t, iv, 12, key, 16, buffer, 3, 48, &n) == -EOVERFLOW && n == 0 && !memcmp(a, text, 20));
	CHECK(perdoaze_encryptv_in_place(&t, iv, 11, key, 16, buffer, 4, 48, &n) == -EINVAL && !memcmp(a, text, 20));
	CHECK(perdoaze_encryptv_in_place(&t, iv, 12, key, 16, buffer, 4, 48, &n) == 0 && n == 64);
	CHECK(!memcmp(a, sealed, 20) && !memcmp(b, sealed + 20, 28) && !memcmp(c, sealed + 48, 16) && is_all(c + 16, 4, 0x55));
	c[15] ^= 1;
	CHECK(perdoaze_decryptv_in_place(&t, iv, 12, key, 16, buffer, 4, 64, &n) == -EBADMSG && n == 0 && !memcmp(a, sealed, 20));
	c[15] ^= 1;
	CHECK(perdoaze_decryptv_in_place(&t, iv, 12, key, 16, buffer, 4, 69, &n) == -EOVERFLOW);
	CHECK(perdoaze_decryptv_in_place(&t, iv, 12, key, 16, buffer, 4, 15, &n) == -EINVAL && !memcmp(a, sealed, 20));
	CHECK(perdoaze_decryptv_in_place(&t, iv, 12, key, 16, buffer, 4, 64, &n) == 0 && n == 48);
	CHECK(!memcmp(a, text, 20) && !memcmp(b, text + 20, 28) && is_all(c + 16, 4, 0x55));
	CHECK(perdoaze_encryptv_in_place(&t, iv, 12, NULL, 0, twice, 2, 4, &n) == -EINVAL);
	CHECK(perdoaze_encryptv_in_place(&t, iv, 12, NULL, 0, on_iv, 1, 0, &n) == -EINVAL);
	CHECK(perdoaze_decryptv_in_place(&t, iv, 12, NULL, 0, wrong, 1, 0, &n) == -EINVAL);
	CHECK(perdoaze_decryptv_in_place(&t, iv, 12, NULL, 0, NULL, 0, 0, &n) == -EINVAL);
	CHECK(perdoaze_init(&t, "ctr(aes)") == 0 && perdoaze_setkey(&t, key, 16) == 0);
	CHECK(perdoaze_encryptv_in_place(&t, key, 16, NULL, 0, NULL, 0, 0, &n) == 0 && n == 0);
	perdoaze_free(&t);
	return 0;
}

static int duplicates(void)
{
	struct perdoaze t = PERDOAZE_NONE, u = PERDOAZE_NONE;
	uint8_t key[32] = { 3 }, iv[12] = { 1 }, a[48], b[48];
	size_t n = 0, m = 0;

	CHECK(perdoaze_dup(&t, &u) == -EINVAL && perdoaze_dup(&t, &t) == -EINVAL && perdoaze_dup(&t, NULL) == -EINVAL);
	CHECK(perdoaze_init(&t, "gcm(aes)") == 0 && perdoaze_dup(&t, &u) == 0);
	CHECK(perdoaze_encrypt(&u, iv, 12, NULL, 0, key, 32, b, 48, &n) == -ENOKEY);
	CHECK(perdoaze_setkey(&t, key, 32) == 0 && perdoaze_setauthsize(&t, 12) == 0 && perdoaze_dup(&t, &u) == 0);
	CHECK(perdoaze_encrypt(&t, iv, 12, NULL, 0, key, 32, a, 48, &n) == 0 && n == 44);
	perdoaze_free(&t);
	CHECK(perdoaze_encrypt(&u, iv, 12, NULL, 0, key, 32, b, 48, &m) == 0 && m == 44 && !memcmp(a, b, 44));
	CHECK(perdoaze_dup(&t, &u) == -EINVAL);
	CHECK(perdoaze_encrypt(&u, iv, 12, NULL, 0, key, 32, b, 48, &m) == -EINVAL);
	return 0;
}

static int answer_sizes(void)
{
	struct perdoaze t = PERDOAZE_NONE;
	struct perdoaze_info info = PERDOAZE_INFO;
	size_t n = 7;

	CHECK(perdoaze_outlen(&t, PERDOAZE_ENCRYPT, 5, &n) == -EINVAL && n == 0 && perdoaze_outlen(NULL, PERDOAZE_ENCRYPT, 5, &n) == -EINVAL);
	CHECK(perdoaze_init(&t, "gcm(aes)") == 0 && perdoaze_outlen(&t, PERDOAZE_ENCRYPT, 5, NULL) == -EINVAL);
	CHECK(perdoaze_outlen(&t, PERDOAZE_ENCRYPT, 5, &n) == 0 && n == 21 && perdoaze_outlen(&t, PERDOAZE_DECRYPT, 21, &n) == 0 && n == 5);
	CHECK(perdoaze_outlen(&t, PERDOAZE_DECRYPT, 15, &n) == -EINVAL && n == 0 && perdoaze_outlen(&t, PERDOAZE_DIGEST, 5, &n) == -EINVAL);
	CHECK(perdoaze_outlen(&t, 4, 5, &n) == -EINVAL && perdoaze_outlen(&t, PERDOAZE_ENCRYPT, PTRDIFF_MAX - 15, &n) == -EINVAL);
	CHECK(perdoaze_outlen(&t, PERDOAZE_ENCRYPT, PTRDIFF_MAX - 16, &n) == 0 && n == PTRDIFF_MAX);
	CHECK(perdoaze_outlen(&t, PERDOAZE_DECRYPT, SIZE_MAX, &n) == -EINVAL);
	CHECK(perdoaze_setauthsize(&t, 12) == 0 && perdoaze_outlen(&t, PERDOAZE_ENCRYPT, 5, &n) == 0 && n == 17);
	CHECK(perdoaze_get_info(&t, &info) == 0 && info.tag_size == 12 && info.max_tag_size == PERDOAZE_GCM_TAG_SIZE);
	CHECK(perdoaze_init(&t, "xts(aes)") == 0 && perdoaze_outlen(&t, PERDOAZE_DECRYPT, 33, &n) == 0 && n == 33);
	CHECK(perdoaze_init(&t, "cmac(aes)") == 0 && perdoaze_outlen(&t, PERDOAZE_DIGEST, SIZE_MAX, &n) == 0 && n == PERDOAZE_CMAC_SIZE);
	CHECK(perdoaze_outlen(&t, PERDOAZE_ENCRYPT, 5, &n) == -EINVAL);
	info.size--;
	CHECK(perdoaze_get_info(&t, &info) == -EINVAL && perdoaze_list(0, &info) == -EINVAL);
	info.size += 2;
	CHECK(perdoaze_get_info(&t, &info) == -E2BIG && perdoaze_list(0, &info) == -E2BIG && info.max_tag_size == PERDOAZE_GCM_TAG_SIZE);
	perdoaze_free(&t);
	return 0;
}

/* The header's sizes are those that are told. */
static int constants(void)
{
	static const struct {
		const char *name;
		uint32_t iv, tag;
	} sizes[] = {
		{ "cbc(aes)", PERDOAZE_CBC_IV_SIZE, 0 },
		{ "ctr(aes)", PERDOAZE_CTR_IV_SIZE, 0 },
		{ "rfc3686(ctr(aes))", PERDOAZE_RFC3686_IV_SIZE, 0 },
		{ "xts(aes)", PERDOAZE_XTS_IV_SIZE, 0 },
		{ "gcm(aes)", PERDOAZE_GCM_IV_SIZE, PERDOAZE_GCM_TAG_SIZE },
		{ "rfc4106(gcm(aes))", PERDOAZE_RFC4106_IV_SIZE, PERDOAZE_RFC4106_TAG_SIZE },
		{ "ccm(aes)", PERDOAZE_CCM_IV_SIZE, PERDOAZE_CCM_TAG_SIZE },
		{ "hmac(sha256)", 0, PERDOAZE_HMAC_SHA256_SIZE },
		{ "cmac(aes)", 0, PERDOAZE_CMAC_SIZE },
	};
	struct perdoaze t = PERDOAZE_NONE;
	struct perdoaze_info info = PERDOAZE_INFO;

	for (size_t i = 0; i < sizeof sizes / sizeof *sizes; i++) {
		CHECK(perdoaze_init(&t, sizes[i].name) == 0 && perdoaze_get_info(&t, &info) == 0);
		CHECK(info.iv_size == sizes[i].iv && info.max_tag_size == sizes[i].tag && info.tag_size == sizes[i].tag);
	}
	for (size_t i = 0; perdoaze_list(i, &info) == 0; i++)
		CHECK(info.iv_size <= PERDOAZE_MAX_IV_SIZE && info.max_tag_size <= PERDOAZE_MAX_TAG_SIZE);
	perdoaze_free(&t);
	return 0;
}

static int library(void)
{
	static const int results[] = { ENOENT, E2BIG, EAGAIN, ENOMEM, EBUSY, EINVAL, ENOSPC, EBADMSG, EOVERFLOW, EINPROGRESS, ECANCELED, ENOKEY };
	uint8_t a[33], b[33];

	CHECK(perdoaze_version() == PERDOAZE_VERSION && !strcmp(perdoaze_strerror(0), "done"));
	for (size_t i = 0; i < sizeof results / sizeof *results; i++) {
		CHECK(!strcmp(perdoaze_strerror(results[i]), perdoaze_strerror(-results[i])));
		CHECK(strcmp(perdoaze_strerror(results[i]), perdoaze_strerror(1)));
	}
	CHECK(!strcmp(perdoaze_strerror(INT_MIN), perdoaze_strerror(1)));
	for (size_t n = 0; n <= sizeof a; n++) {
		memset(a, 9, sizeof a);
		memset(b, 9, sizeof b);
		CHECK(perdoaze_compare(a, b, n) == 0);
		for (size_t i = 0; i < sizeof b; i++) {
			b[i] ^= (uint8_t)(1 << i % 8);
			CHECK(perdoaze_compare(a, b, n) == (i < n ? -EBADMSG : 0));
			b[i] = 9;
		}
	}
	CHECK(perdoaze_compare(NULL, NULL, 0) == 0 && perdoaze_compare(NULL, a, 1) == -EINVAL && perdoaze_compare(a, a, SIZE_MAX) == -EINVAL);
	perdoaze_wipe(a, 32);
	CHECK(is_all(a, 32, 0) && a[32] == 9);
	perdoaze_wipe(NULL, 0);
	perdoaze_wipe(NULL, 5);
	return 0;
}

static int infos(void)
{
	struct perdoaze t = PERDOAZE_NONE;
	struct perdoaze_info info = PERDOAZE_INFO, listed = PERDOAZE_INFO;
	size_t n = 0;

	CHECK(perdoaze_get_info(&t, &info) == -EINVAL && perdoaze_get_info(NULL, &info) == -EINVAL && perdoaze_get_info(&t, NULL) == -EINVAL);
	for (; perdoaze_list(n, &listed) == 0; n++) {
		const char *driver = listed.driver;

		CHECK(perdoaze_init(&t, driver) == 0 && perdoaze_get_info(&t, &info) == 0 && !memcmp(&info, &listed, sizeof info));
		CHECK(perdoaze_init(&t, listed.name) == 0 && perdoaze_get_info(&t, &info) == 0);
		CHECK(!memcmp(info.name, listed.name, sizeof info.name) && info.priority >= listed.priority);
	}
	CHECK(n == 43 && perdoaze_list(SIZE_MAX, &listed) == -ENOENT && perdoaze_list(0, NULL) == -EINVAL);
	CHECK(perdoaze_init(&t, "gcm(aes)") == 0 && perdoaze_get_info(&t, &info) == 0);
	CHECK(!strcmp(info.driver, "gcm_base(ctr(aes-lanes),ghash-table)") && info.kind == PERDOAZE_AEAD);
	CHECK(info.iv_size == 12 && info.max_tag_size == 16 && info.min_key_size == 16 && info.max_key_size == 32 && info.block_size == 1);
	perdoaze_free(&t);
	return 0;
}

int main(void)
{
	return names() || settings() || requests() || pieces() || pieces_in_place() || duplicates() || infos() || answer_sizes() || constants()
	       || library();
}
