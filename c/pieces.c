/* Requests over texts in pieces. */
#include "checks.h"
#include <stdlib.h>

/* So many pieces are kept on the stack, where one of them is NULL. */
#define FEW 32

/* Pieces none of which is NULL: the caller's, or a copy of those of the caller's that aren't NULL. */
struct kept {
	const struct iovec *pieces;
	size_t count;
	struct iovec *block;
	struct iovec few[FEW];
};

/* Whether these are no pieces that the library takes. */
static bool bad_pieces(const struct iovec *text, size_t pieces)
{
	if ((!text && pieces) || pieces > PERDOAZE_MAX_PIECES)
		return true;
	for (size_t i = 0; i < pieces; i++)
		if (bad_bytes(text[i].iov_base, text[i].iov_len))
			return true;
	return false;
}

static size_t how_many_null(const struct iovec *text, size_t pieces)
{
	size_t n = 0;

	for (size_t i = 0; i < pieces; i++)
		n += !text[i].iov_base;
	return n;
}

/* Keeps the pieces that aren't NULL. -ENOMEM: they don't lie as the library takes them, and there is no memory for a copy. */
static int keep(struct kept *kept, const struct iovec *text, size_t pieces)
{
	size_t nulls = how_many_null(text, pieces);
	struct iovec *copy = kept->few;

	kept->block = NULL;
	kept->count = pieces - nulls;
	kept->pieces = kept->few;
	if (!nulls) {
		if (pieces)
			kept->pieces = text;
		return 0;
	}
	if (kept->count > FEW) {
		copy = kept->block = malloc(kept->count * sizeof *copy);
		if (!copy)
			return -PERDOAZE_ENOMEM;
		kept->pieces = copy;
	}
	for (size_t i = 0, n = 0; i < pieces; i++)
		if (text[i].iov_base)
			copy[n++] = text[i];
	return 0;
}

/* The calls that change the pieces' bytes take the pieces themselves as theirs, but never write them. */
static struct iovec *unwritten(const struct iovec *pieces)
{
	return (struct iovec *)(uintptr_t)pieces;
}

/* Whether one of the pieces has a byte of these. */
static bool touch(const struct iovec *text, size_t pieces, const void *bytes, size_t n)
{
	for (size_t i = 0; i < pieces; i++)
		if (overlap(text[i].iov_base, text[i].iov_len, bytes, n))
			return true;
	return false;
}

static uintptr_t begin_of(const struct iovec *piece)
{
	return (uintptr_t)piece->iov_base;
}

/* Whether each piece that has bytes lies behind those before it. Most texts are so. */
static bool rise(const struct iovec *text, size_t pieces)
{
	uintptr_t end = 0;

	for (size_t i = 0; i < pieces; i++) {
		if (!text[i].iov_len)
			continue;
		if (begin_of(&text[i]) < end)
			return false;
		end = begin_of(&text[i]) + text[i].iov_len;
	}
	return true;
}

/* Moves the piece at `at` down a heap whose greatest beginning is on top. */
static void sift(const struct iovec *text, uint16_t *order, size_t at, size_t n)
{
	for (size_t child; (child = 2 * at + 1) < n; at = child) {
		uint16_t moved = order[at];

		if (child + 1 < n && begin_of(&text[order[child]]) < begin_of(&text[order[child + 1]]))
			child++;
		if (begin_of(&text[moved]) >= begin_of(&text[order[child]]))
			return;
		order[at] = order[child];
		order[child] = moved;
	}
}

/* Whether two of the pieces have a byte in common: they are sorted by where they begin, by a heap. */
static bool tangled_by_sorting(const struct iovec *text, size_t pieces)
{
	uint16_t order[PERDOAZE_MAX_PIECES];
	size_t n = 0;

	for (size_t i = 0; i < pieces; i++)
		if (text[i].iov_len)
			order[n++] = (uint16_t)i;
	for (size_t i = n / 2; i-- > 0;)
		sift(text, order, i, n);
	for (size_t end = n; end > 1; end--) {
		uint16_t last = order[0];

		order[0] = order[end - 1];
		sift(text, order, 0, end - 1);
		order[end - 1] = last;
		/* the piece that is on top now lies before it, and none lies between them */
		if (begin_of(&text[order[0]]) + text[order[0]].iov_len > begin_of(&text[last]))
			return true;
	}
	return false;
}

static bool tangled(const struct iovec *text, size_t pieces)
{
	return !rise(text, pieces) && tangled_by_sorting(text, pieces);
}

int perdoaze_encryptv(struct perdoaze *tfm, const void *iv, size_t iv_len, const void *aad, size_t aad_len, const struct iovec *text,
		      size_t pieces, void *out, size_t out_len, size_t *written)
{
	uint8_t other_out = 0;
	const uint8_t other = 0;
	size_t unread = 0;
	struct kept kept;
	int status;

	if (written)
		*written = 0;
	if (!tfm || bad_request(iv, iv_len, aad, aad_len, out, out_len) || bad_pieces(text, pieces) || touch(text, pieces, out, out_len))
		return -PERDOAZE_EINVAL;
	status = keep(&kept, text, pieces);
	if (status)
		return status;
	status = perdoaze_raw_encryptv(tfm, or_other(iv, &other), iv_len, or_other(aad, &other), aad_len, kept.pieces, kept.count,
				       or_other_out(out, &other_out), out_len, written ? written : &unread);
	free(kept.block);
	return status;
}

int perdoaze_decryptv(struct perdoaze *tfm, const void *iv, size_t iv_len, const void *aad, size_t aad_len, const struct iovec *text,
		      size_t pieces, void *out, size_t out_len, size_t *written)
{
	uint8_t other_out = 0;
	const uint8_t other = 0;
	size_t unread = 0;
	struct kept kept;
	int status;

	if (written)
		*written = 0;
	if (!tfm || bad_request(iv, iv_len, aad, aad_len, out, out_len) || bad_pieces(text, pieces) || touch(text, pieces, out, out_len))
		return -PERDOAZE_EINVAL;
	status = keep(&kept, text, pieces);
	if (status)
		return status;
	status = perdoaze_raw_decryptv(tfm, or_other(iv, &other), iv_len, or_other(aad, &other), aad_len, kept.pieces, kept.count,
				       or_other_out(out, &other_out), out_len, written ? written : &unread);
	free(kept.block);
	return status;
}

/* Whether a call may not change these pieces in their place. */
static bool bad_in_place(const struct perdoaze *tfm, const void *iv, size_t iv_len, const void *aad, size_t aad_len,
			 const struct iovec *buffer, size_t pieces)
{
	return !tfm || bad_bytes(iv, iv_len) || bad_bytes(aad, aad_len) || bad_pieces(buffer, pieces) || tangled(buffer, pieces)
	       || touch(buffer, pieces, iv, iv_len) || touch(buffer, pieces, aad, aad_len);
}

int perdoaze_encryptv_in_place(struct perdoaze *tfm, const void *iv, size_t iv_len, const void *aad, size_t aad_len,
			       const struct iovec *buffer, size_t pieces, size_t n, size_t *written)
{
	const uint8_t other = 0;
	size_t unread = 0;
	struct kept kept;
	int status;

	if (written)
		*written = 0;
	if (bad_in_place(tfm, iv, iv_len, aad, aad_len, buffer, pieces))
		return -PERDOAZE_EINVAL;
	status = keep(&kept, buffer, pieces);
	if (status)
		return status;
	status = perdoaze_raw_encryptv_in_place(tfm, or_other(iv, &other), iv_len, or_other(aad, &other), aad_len, unwritten(kept.pieces),
						kept.count, n, written ? written : &unread);
	free(kept.block);
	return status;
}

int perdoaze_decryptv_in_place(struct perdoaze *tfm, const void *iv, size_t iv_len, const void *aad, size_t aad_len,
			       const struct iovec *buffer, size_t pieces, size_t n, size_t *written)
{
	const uint8_t other = 0;
	size_t unread = 0;
	struct kept kept;
	int status;

	if (written)
		*written = 0;
	if (bad_in_place(tfm, iv, iv_len, aad, aad_len, buffer, pieces))
		return -PERDOAZE_EINVAL;
	status = keep(&kept, buffer, pieces);
	if (status)
		return status;
	status = perdoaze_raw_decryptv_in_place(tfm, or_other(iv, &other), iv_len, or_other(aad, &other), aad_len, unwritten(kept.pieces),
						kept.count, n, written ? written : &unread);
	free(kept.block);
	return status;
}

int perdoaze_digestv(struct perdoaze *tfm, const struct iovec *text, size_t pieces, void *out, size_t out_len, size_t *written)
{
	uint8_t other_out = 0;
	size_t unread = 0;
	struct kept kept;
	int status;

	if (written)
		*written = 0;
	if (!tfm || bad_bytes(out, out_len) || bad_pieces(text, pieces) || touch(text, pieces, out, out_len))
		return -PERDOAZE_EINVAL;
	status = keep(&kept, text, pieces);
	if (status)
		return status;
	status = perdoaze_raw_digestv(tfm, kept.pieces, kept.count, or_other_out(out, &other_out), out_len, written ? written : &unread);
	free(kept.block);
	return status;
}
