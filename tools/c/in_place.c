/* Buffers in pieces that are changed in their place beside the same buffer in one, for each algorithm and random cuts; right tags and wrong
 * ones. With an argument: how fast GCM goes over 64 KiB and 1 MiB, in one buffer, in one piece and in several. */
#include <errno.h>
#include <perdoaze.h>
#include <stdio.h>
#include <stdlib.h>
#include <string.h>
#include <time.h>

#define ROOM (1 << 20)
#define ROUNDS 60

static uint8_t text[ROOM + 32], one[ROOM + 32], cut[ROOM + 32], kept[ROOM + 32];
static struct iovec pieces[PERDOAZE_MAX_PIECES];
static unsigned long seed = 1;

static unsigned draw(unsigned n)
{
	seed = seed * 6364136223846793005u + 1442695040888963407u;
	return (unsigned)(seed >> 33) % n;
}

static int fail(const struct perdoaze_info *info, size_t n, const char *what)
{
	printf("%s, %zu bytes: %s\n", info->driver, n, what);
	return 1;
}

/* Cuts n bytes of `cut` into pieces. How many. */
static size_t cuts(size_t n)
{
	size_t count = 0, at = 0, most = draw(3) ? 1 + draw(40) : 1 + draw(5000);

	if (!draw(6)) {
		pieces[0] = (struct iovec){ cut, n };
		return 1;
	}
	while (at < n) {
		size_t size = draw(most + 1);

		if (size > n - at || count == PERDOAZE_MAX_PIECES - 1)
			size = n - at;
		pieces[count++] = (struct iovec){ size ? cut + at : NULL, size };
		at += size;
	}
	return count;
}

static int compare(struct perdoaze *tfm, const struct perdoaze_info *info, size_t n)
{
	/* RFC 4106 takes the first two */
	static const size_t aad_lens[3] = { 16, 20, 12 };
	uint8_t iv[16] = { 1, 2, 3 }, aad[20] = { 4 };
	const size_t aad_len = info->kind == PERDOAZE_AEAD ? aad_lens[draw(3)] : 0, size = n + info->max_tag_size, behind = draw(9);
	size_t a = 7, b = 7;
	int want, got;

	for (size_t i = 0; i < size + behind; i++)
		text[i] = (uint8_t)draw(256);
	memcpy(one, text, size + behind);
	memcpy(cut, text, size + behind);
	want = perdoaze_encrypt_in_place(tfm, iv, info->iv_size, aad, aad_len, one, size + behind, n, &a);
	got = perdoaze_encryptv_in_place(tfm, iv, info->iv_size, aad, aad_len, pieces, cuts(size + behind), n, &b);
	if (got != want || a != b || memcmp(one, cut, size + behind))
		return fail(info, n, "encrypted otherwise");
	if (want)
		return want == -EINVAL ? 0 : fail(info, n, "refused");
	if (info->max_tag_size) {
		const size_t at = draw((unsigned)size);

		cut[at] ^= 4;
		memcpy(kept, cut, size + behind);
		got = perdoaze_decryptv_in_place(tfm, iv, info->iv_size, aad, aad_len, pieces, cuts(size + behind), size, &b);
		if (got != -EBADMSG || b || memcmp(kept, cut, size + behind))
			return fail(info, n, "a wrong tag");
		cut[at] ^= 4;
	}
	got = perdoaze_decryptv_in_place(tfm, iv, info->iv_size, aad, aad_len, pieces, cuts(size + behind), size, &b);
	if (got || b != n || memcmp(text, cut, n) || memcmp(one + n, cut + n, size + behind - n))
		return fail(info, n, "opened otherwise");
	return 0;
}

static int each(const struct perdoaze_info *info)
{
	/* of authenc: an attribute of 8 bytes, the number of bytes of the cipher's key, both keys */
	const uint8_t key[56] = { 8, 0, 1, 0, 0, 0, 0, (uint8_t)(info->min_key_size - 8), 9 };
	const size_t size = info->max_key_size > 64 ? sizeof key : info->min_key_size;
	struct perdoaze tfm = PERDOAZE_NONE;
	int wrong = 0;

	if (perdoaze_init(&tfm, info->driver) || perdoaze_setkey(&tfm, key, size))
		return fail(info, 0, "no key");
	for (int i = 0; i < ROUNDS && !wrong; i++)
		wrong = compare(&tfm, info, draw(4) ? 4000 + draw(9000) : draw(3) ? draw(300) : 16 * draw(4000));
	perdoaze_free(&tfm);
	return wrong;
}

/* The least nanoseconds of a call over n bytes, in so many pieces; in one buffer where they are none. */
static double least(struct perdoaze *tfm, size_t n, size_t count)
{
	double best = 1e18;

	for (size_t i = 0; i < count; i++)
		pieces[i] = (struct iovec){ cut + i * (n / count), i + 1 < count ? n / count : n + 16 - i * (n / count) };
	for (int i = 0; i < (n > 100000 ? 60 : 800); i++) {
		struct timespec a, b;
		double took;

		clock_gettime(CLOCK_MONOTONIC, &a);
		if (count ? perdoaze_encryptv_in_place(tfm, "123456789012", 12, NULL, 0, pieces, count, n, NULL)
			  : perdoaze_encrypt_in_place(tfm, "123456789012", 12, NULL, 0, cut, n + 16, n, NULL))
			return 0;
		clock_gettime(CLOCK_MONOTONIC, &b);
		took = (double)(b.tv_sec - a.tv_sec) * 1e9 + (double)(b.tv_nsec - a.tv_nsec);
		best = took < best ? took : best;
	}
	return best;
}

static int speed(void)
{
	struct perdoaze tfm = PERDOAZE_NONE;
	static const size_t counts[4] = { 0, 1, 16, 250 };

	if (perdoaze_init(&tfm, "gcm(aes)") || perdoaze_setkey(&tfm, "0123456789abcdef", 16))
		return 1;
	for (int i = 0; i < 4; i++) {
		const double small = least(&tfm, 65536, counts[i]), large = least(&tfm, ROOM, counts[i]);

		printf("pieces %zu: 64 KiB %.1f us, 1 MiB %.1f us, its rate %.3f of that at 64 KiB\n", counts[i], small / 1e3, large / 1e3, 16 * small / large);
	}
	perdoaze_free(&tfm);
	return 0;
}

int main(int argc, char **argv)
{
	struct perdoaze_info info = PERDOAZE_INFO;

	(void)argv;
	if (argc > 1)
		return speed();
	for (size_t i = 0; !perdoaze_list(i, &info); i++)
		if (info.kind != PERDOAZE_MAC && each(&info))
			return 1;
	return 0;
}
