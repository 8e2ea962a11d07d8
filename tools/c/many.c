/* perdoaze_encrypt_many beside perdoaze_encrypt_in_place, request by request: in step and one after another, taken and refused. */
#include <errno.h>
#include <perdoaze.h>
#include <stdio.h>
#include <stdlib.h>
#include <string.h>

#define MOST 21
#define ROOM 2100
#define ROUNDS 400

static uint8_t text[MOST][ROOM], many[MOST][ROOM], each[MOST][ROOM], ivs[MOST][16], aads[MOST][64];
static struct perdoaze_request requests[MOST];
static unsigned long seed = 1, calls, taken;

static unsigned draw(unsigned n)
{
	seed = seed * 6364136223846793005u + 1442695040888963407u;
	return (unsigned)(seed >> 33) % n;
}

static void fill(uint8_t *bytes, size_t n)
{
	for (size_t i = 0; i < n; i++)
		bytes[i] = (uint8_t)draw(256);
}

/* A request over `many`. One in `wrong` has something that isn't taken. */
static void make(size_t i, const struct perdoaze_info *info, unsigned wrong)
{
	struct perdoaze_request *r = &requests[i];
	size_t n = 16 * draw(draw(3) ? 8 : 128);

	*r = (struct perdoaze_request){ sizeof *r, ivs[i], info->iv_size, aads[i], info->kind == PERDOAZE_AEAD ? 16 : 0, many[i], ROOM, n, 7, 7 };
	fill(ivs[i], 16);
	ivs[i][0] = 1;
	fill(aads[i], 64);
	fill(text[i], ROOM);
	if (draw(wrong))
		return;
	switch (draw(9)) {
	case 0:
		r->iv_len--;
		break;
	case 1:
		r->aad_len = 64 - r->aad_len;
		break;
	case 2:
		r->buffer_len = n + draw(33);
		break;
	case 3:
		r->n += draw(16);
		break;
	case 4:
		r->n = SIZE_MAX;
		break;
	case 5:
		r->iv = NULL;
		break;
	case 6:
		r->aad_len = PTRDIFF_MAX + (size_t)1;
		break;
	case 7:
		*r = (struct perdoaze_request){ sizeof *r, ivs[i], info->iv_size, NULL, 0, NULL, 0, 0, 7, 7 };
		break;
	default:
		r->aad = many[i] + 5;
	}
}

/* The answers of `perdoaze_encrypt_in_place` to the same requests over `each`. Whether all are the same. */
static int compare(struct perdoaze *tfm, size_t count, int first)
{
	int want = 0;

	for (size_t i = 0; i < count; i++) {
		struct perdoaze_request *r = &requests[i];
		const void *aad = r->aad == many[i] + 5 ? each[i] + 5 : r->aad;
		size_t n = 7;
		int got = perdoaze_encrypt_in_place(tfm, r->iv, r->iv_len, aad, r->aad_len, r->buffer ? each[i] : NULL, r->buffer_len, r->n, &n);

		calls++;
		taken += !got;
		want = want ? want : got;
		if (got != r->status || n != r->written || memcmp(many[i], each[i], ROOM))
			return printf("request %zu of %zu: %d and %zu bytes, and not %d and %zu\n", i, count, r->status, r->written, got, n);
	}
	return want == first ? 0 : printf("%d of all, and not %d\n", first, want);
}

static int try_driver(const char *driver, unsigned wrong)
{
	struct perdoaze tfm = PERDOAZE_NONE;
	struct perdoaze_info info = PERDOAZE_INFO;
	uint8_t key[64] = { 8, 0, 1, 0, 0, 0, 0, 16, 5 };
	size_t key_len;

	if (perdoaze_init(&tfm, driver) || perdoaze_get_info(&tfm, &info))
		return printf("%s: isn't made\n", driver);
	key_len = info.min_key_size ? info.min_key_size : 40;
	key[7] = (uint8_t)(key_len - 8);
	if (perdoaze_setkey(&tfm, key, key_len))
		return printf("%s: no key\n", driver);
	for (int round = 0; round < ROUNDS; round++) {
		size_t count = draw(MOST + 1);

		if (!strncmp(driver, "authenc", 7) && perdoaze_setauthsize(&tfm, 1 + draw(32)))
			return printf("%s: no tag size\n", driver);
		for (size_t i = 0; i < count; i++)
			make(i, &info, wrong);
		memcpy(many, text, sizeof many);
		memcpy(each, text, sizeof each);
		if (compare(&tfm, count, perdoaze_encrypt_many(&tfm, requests, count)))
			return printf("%s, round %d\n", driver, round);
	}
	perdoaze_free(&tfm);
	return 0;
}

/* Buffers that overlap: the requests are answered in turn. */
static int tangled(void)
{
	struct perdoaze tfm = PERDOAZE_NONE;
	struct perdoaze_request two[2];
	uint8_t key[16] = { 4 }, iv[16] = { 1 }, one[80] = { 2 }, other[80] = { 2 };
	size_t n = 7;

	if (perdoaze_init(&tfm, "cbc(aes)") || perdoaze_setkey(&tfm, key, 16))
		return 1;
	for (int i = 0; i < 2; i++) {
		two[i] = (struct perdoaze_request){ sizeof *two, iv, 16, NULL, 0, one + 16 * i, 64, 64, 7, 7 };
		if (perdoaze_encrypt_in_place(&tfm, iv, 16, NULL, 0, other + 16 * i, 64, 64, &n) || n != 64)
			return 1;
	}
	if (perdoaze_encrypt_many(&tfm, two, 2) || memcmp(one, other, 80))
		return printf("buffers that overlap\n");
	if (perdoaze_encrypt_many(&tfm, NULL, 0) || perdoaze_encrypt_many(&tfm, NULL, 1) != -EINVAL)
		return printf("no requests\n");
	if (perdoaze_encrypt_many(NULL, two, 2) != -EINVAL || two[1].status != -EINVAL || two[1].written)
		return printf("no struct\n");
	perdoaze_free(&tfm);
	if (perdoaze_encrypt_many(&tfm, two, 2) != -EINVAL || two[1].status != -EINVAL || two[1].written || memcmp(one, other, 80))
		return printf("no transform\n");
	return 0;
}

int main(void)
{
	struct perdoaze_info info = PERDOAZE_INFO;

	for (size_t i = 0; perdoaze_list(i, &info) == 0; i++)
		for (unsigned wrong = 0; wrong < 2; wrong++)
			if (try_driver(info.driver, wrong ? 9 : 10000))
				return 1;
	if (tangled())
		return 1;
	printf("perdoaze_encrypt_many: %lu requests, %lu of them taken\n", calls, taken);
	return 0;
}
