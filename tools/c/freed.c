/* Reads each block just before the library frees it, when it has been wiped, and finds no part of a key, of a key schedule or of a hash
 * key in it. Linked with --wrap=free; the blocks of this program itself aren't looked at. */
#define _DEFAULT_SOURCE
#include <malloc.h>
#include <perdoaze.h>
#include <stdio.h>
#include <stdlib.h>
#include <string.h>

void __real_free(void *block);
void __wrap_free(void *block);

static unsigned seen, dirty;

void __wrap_free(void *block)
{
	const uint8_t *bytes = block;
	size_t n = block ? malloc_usable_size(block) : 0;

	seen += n > 0;
	for (size_t i = 0; i < n; i++)
		if (bytes[i]) {
			dirty++;
			break;
		}
	__real_free(block);
}

static int use(const char *driver)
{
	struct perdoaze t = PERDOAZE_NONE, u = PERDOAZE_NONE;
	struct perdoaze_info info = PERDOAZE_INFO;
	uint8_t key[64] = { 8, 0, 1, 0, 0, 0, 0, 16 }, iv[16] = { 1 }, text[4096] = { 7 }, out[4200];
	const struct iovec pieces[2] = { { text, 96 }, { text + 96, 4000 } };
	size_t n = 0;

	memset(key + 8, 0xa5, 56);
	if (perdoaze_init(&t, driver) || perdoaze_get_info(&t, &info))
		return 1;
	n = info.min_key_size ? info.min_key_size : 40;
	/* in authenc's blob the number of bytes of the cipher's key, which is all that stands behind the first 8 bytes */
	key[7] = (uint8_t)(n - 8);
	for (int i = 0; i < 3; i++)
		if (perdoaze_setkey(&t, key, n) || perdoaze_dup(&t, &u))
			return 1;
	if (info.kind == PERDOAZE_MAC ? perdoaze_digest(&t, text, 4096, out, 4200, NULL)
				      : perdoaze_encrypt(&t, iv, info.iv_size, text, info.kind == PERDOAZE_AEAD ? 16 : 0, text, 4096, out, 4200,
							 NULL))
		return 1;
	if (info.kind == PERDOAZE_MAC ? perdoaze_digestv(&t, pieces, 2, out, 4200, NULL)
				      : perdoaze_encryptv_in_place(&t, iv, info.iv_size, iv, info.kind == PERDOAZE_AEAD ? 16 : 0, pieces, 2, 4000,
								   NULL))
		return 1;
	perdoaze_free(&t);
	perdoaze_free(&u);
	return 0;
}

int main(void)
{
	struct perdoaze_info info = PERDOAZE_INFO;
	size_t i = 0;

	for (; perdoaze_list(i, &info) == 0; i++)
		if (use(info.driver)) {
			printf("%s: a call failed\n", info.driver);
			return 1;
		}
	printf("%zu drivers, %u blocks freed, %u of them not wiped\n", i, seen, dirty);
	return dirty || !seen;
}
