/* What the library's functions test before they call what is proved. */
#ifndef PERDOAZE_CHECKS_H
#define PERDOAZE_CHECKS_H

#include <perdoaze_raw.h>

/* Whether these are no bytes that the library takes. */
static inline bool bad_bytes(const void *bytes, size_t n)
{
	return (!bytes && n) || n > PTRDIFF_MAX;
}

/* The bytes, and another address in the place of NULL. */
static inline const uint8_t *or_other(const void *bytes, const uint8_t *other)
{
	return bytes ? (const uint8_t *)bytes : other;
}

/* The same of bytes that a call writes. */
static inline uint8_t *or_other_out(void *bytes, uint8_t *other)
{
	return bytes ? (uint8_t *)bytes : other;
}

/* Whether two pieces of memory have a byte in common. */
static inline bool overlap(const void *a, size_t n, const void *b, size_t m)
{
	uintptr_t x = (uintptr_t)a, y = (uintptr_t)b;
	return n && m && (x < y ? y - x < n : x - y < m);
}

/* Whether a call over these may write `out`: all are bytes that the library takes, and none of the others lies in `out`. */
static inline bool bad_request(const void *iv, size_t iv_len, const void *aad, size_t aad_len, const void *out, size_t out_len)
{
	return bad_bytes(iv, iv_len) || bad_bytes(aad, aad_len) || bad_bytes(out, out_len) || overlap(iv, iv_len, out, out_len)
	       || overlap(aad, aad_len, out, out_len);
}

/* 0 where a struct of the caller's has the size of this header's; -EINVAL where it is smaller, and -E2BIG where a newer header's is. */
static inline int size_status(size_t size, size_t known)
{
	return size < known ? -PERDOAZE_EINVAL : size > known ? -PERDOAZE_E2BIG : 0;
}

#endif
