/* Pieces that overlap are refused, whatever their order; the list of pieces is never written; and pieces that are NULL are left out,
 * however many there are. With the word "speed" it tells how long the test of overlaps takes. */
#define _DEFAULT_SOURCE
#include <errno.h>
#include <perdoaze.h>
#include <stdio.h>
#include <stdlib.h>
#include <string.h>
#include <sys/mman.h>
#include <time.h>

#define BYTES 65536

static uint8_t memory[BYTES], same[BYTES], key[64], iv[16] = { 1 };
static struct iovec *list; /* of PERDOAZE_MAX_PIECES, in memory of its own */
static size_t list_size = PERDOAZE_MAX_PIECES * sizeof(struct iovec);

static size_t drawn(size_t below)
{
	return (size_t)rand() % below;
}

static bool overlap(const struct iovec *a, const struct iovec *b)
{
	const uint8_t *x = a->iov_base, *y = b->iov_base;

	return a->iov_len && b->iov_len && x < y + b->iov_len && y < x + a->iov_len;
}

static bool tangled(size_t count)
{
	for (size_t i = 0; i < count; i++)
		for (size_t j = 0; j < i; j++)
			if (overlap(&list[i], &list[j]))
				return true;
	return false;
}

static void shuffle(size_t count)
{
	for (size_t i = count; i > 1; i--) {
		size_t j = drawn(i);
		struct iovec one = list[i - 1];

		list[i - 1] = list[j];
		list[j] = one;
	}
}

/* Pieces of up to `most` bytes with gaps of 0 to 3, some empty, some NULL; one of them may be moved a little. */
static void draw(size_t count, size_t most)
{
	size_t at = 0;

	for (size_t i = 0; i < count; i++) {
		at += drawn(4);
		list[i] = (struct iovec){ .iov_base = memory + at, .iov_len = drawn(5) ? 1 + drawn(most) : 0 };
		at += list[i].iov_len;
		if (!list[i].iov_len && drawn(2))
			list[i].iov_base = NULL;
	}
	if (count && drawn(2) && list[count / 2].iov_base)
		list[count / 2].iov_len += drawn(8);
	if (drawn(2))
		shuffle(count);
	else if (drawn(2))
		for (size_t i = 0; i < count / 2; i++) {
			struct iovec one = list[i];

			list[i] = list[count - 1 - i];
			list[count - 1 - i] = one;
		}
}

static int overlaps_are_refused(void)
{
	struct perdoaze tfm = PERDOAZE_NONE;
	size_t refused = 0, taken = 0;

	if (perdoaze_init(&tfm, "ctr(aes)") || perdoaze_setkey(&tfm, key, 16))
		return 1;
	for (int round = 0; round < 20000; round++) {
		size_t count = drawn(drawn(50) ? 40 : PERDOAZE_MAX_PIECES + 1), total = 0;
		int got;

		draw(count, count > 40 ? 56 : 30);
		got = perdoaze_encryptv_in_place(&tfm, iv, 16, NULL, 0, list, count, 0, &total);
		if (got != (tangled(count) ? -EINVAL : 0)) {
			printf("round %d: %zu pieces: answered %d\n", round, count, got);
			return 1;
		}
		*(got ? &refused : &taken) += 1;
	}
	perdoaze_free(&tfm);
	printf("%zu lists with an overlap refused, %zu without one taken\n", refused, taken);
	return !refused || !taken;
}

/* Seals and opens under a driver in pieces whose list can't be written. */
static int under(const struct perdoaze_info *info, size_t count, size_t each, size_t nulls)
{
	struct perdoaze tfm = PERDOAZE_NONE;
	size_t n = count * each - 64, aad = info->kind == PERDOAZE_AEAD ? 16 : 0, size = 0, key_len = info->min_key_size;
	int failed = 0;

	memcpy(key, (const uint8_t[]){ 8, 0, 1, 0, 0, 0, 0, (uint8_t)(key_len - 8) }, 8);
	for (size_t i = 0, piece = 0; i < count + nulls; i++) {
		bool null = i % 2 && i / 2 < nulls;

		list[i] = (struct iovec){ .iov_base = null ? NULL : memory + each * piece, .iov_len = null ? 0 : each };
		piece += !null;
	}
	memset(memory, 7, count * each);
	memset(same, 7, n);
	mprotect(list, list_size, PROT_READ);
	failed |= perdoaze_init(&tfm, info->driver) || perdoaze_setkey(&tfm, key, key_len);
	failed |= perdoaze_encrypt_in_place(&tfm, iv, info->iv_size, key, aad, same, sizeof same, n, &size);
	failed |= perdoaze_encryptv_in_place(&tfm, iv, info->iv_size, key, aad, list, count + nulls, n, &size);
	failed |= !!memcmp(memory, same, size);
	failed |= perdoaze_decryptv_in_place(&tfm, iv, info->iv_size, key, aad, list, count + nulls, size, &size);
	for (size_t i = 0; i < n; i++)
		failed |= memory[i] != 7;
	mprotect(list, list_size, PROT_READ | PROT_WRITE);
	perdoaze_free(&tfm);
	if (failed)
		printf("%s: %zu pieces of %zu bytes, %zu NULL\n", info->driver, count, each, nulls);
	return failed;
}

static int lists_are_not_written(void)
{
	struct perdoaze_info info = PERDOAZE_INFO;

	for (size_t i = 0; perdoaze_list(i, &info) == 0; i++) {
		if (info.kind == PERDOAZE_MAC)
			continue;
		if (under(&info, 8, 64, 0) || under(&info, 300, 48, 0) || under(&info, 20, 64, 7) || under(&info, 300, 48, 200))
			return 1;
	}
	printf("lists that can't be written are taken, with NULL pieces and without\n");
	return 0;
}

static double micros(struct perdoaze *tfm, size_t count)
{
	double least = 1e9;

	for (int round = 0; round < 20; round++) {
		struct timespec before, after;
		double took;

		clock_gettime(CLOCK_MONOTONIC, &before);
		for (int i = 0; i < 50; i++)
			perdoaze_encryptv_in_place(tfm, iv, 16, NULL, 0, list, count, 0, NULL);
		clock_gettime(CLOCK_MONOTONIC, &after);
		took = ((double)(after.tv_sec - before.tv_sec) * 1e9 + (double)(after.tv_nsec - before.tv_nsec)) / 50e3;
		least = took < least ? took : least;
	}
	return least;
}

/* A request that encrypts no byte of many pieces: what its tests take. */
static int speed(void)
{
	struct perdoaze tfm = PERDOAZE_NONE;

	if (perdoaze_init(&tfm, "ctr(aes)") || perdoaze_setkey(&tfm, key, 16))
		return 1;
	for (size_t count = 16; count <= PERDOAZE_MAX_PIECES; count *= 4) {
		double in_order, drawn_order;

		for (size_t i = 0; i < count; i++)
			list[i] = (struct iovec){ .iov_base = memory + 64 * i, .iov_len = 64 };
		in_order = micros(&tfm, count);
		shuffle(count);
		drawn_order = micros(&tfm, count);
		printf("%zu pieces: %.2f microseconds in order, %.2f in no order\n", count, in_order, drawn_order);
	}
	perdoaze_free(&tfm);
	return 0;
}

int main(int words, char **word)
{
	list = mmap(NULL, list_size, PROT_READ | PROT_WRITE, MAP_PRIVATE | MAP_ANONYMOUS, -1, 0);
	if (list == MAP_FAILED)
		return 1;
	srand(5);
	if (words > 1 && !strcmp(word[1], "speed"))
		return speed();
	return overlaps_are_refused() || lists_are_not_written();
}
