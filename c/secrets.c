/* What keeps secrets: comparing in constant time, and wiping. */
#define _DEFAULT_SOURCE
#include "checks.h"
#include <string.h>

int perdoaze_compare(const void *a, const void *b, size_t n)
{
	const uint8_t other = 0;

	if (bad_bytes(a, n) || bad_bytes(b, n))
		return -PERDOAZE_EINVAL;
	return perdoaze_raw_compare(or_other(a, &other), n, or_other(b, &other), n);
}

void perdoaze_wipe(void *bytes, size_t n)
{
	if (!bad_bytes(bytes, n) && n)
		explicit_bzero(bytes, n);
}
