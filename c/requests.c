/* Requests over texts in one piece. */
#include "checks.h"

int perdoaze_encrypt_in_place(struct perdoaze *tfm, const void *iv, size_t iv_len, const void *aad, size_t aad_len, void *buffer,
			      size_t buffer_len, size_t n, size_t *written)
{
	uint8_t other = 0;
	size_t unread = 0;

	if (written)
		*written = 0;
	if (!tfm || bad_request(iv, iv_len, aad, aad_len, buffer, buffer_len))
		return -PERDOAZE_EINVAL;
	return perdoaze_raw_encrypt_in_place(tfm, or_other(iv, &other), iv_len, or_other(aad, &other), aad_len,
					     or_other_out(buffer, &other), buffer_len, n, written ? written : &unread);
}

int perdoaze_decrypt_in_place(struct perdoaze *tfm, const void *iv, size_t iv_len, const void *aad, size_t aad_len, void *buffer,
			      size_t buffer_len, size_t n, size_t *written)
{
	uint8_t other = 0;
	size_t unread = 0;

	if (written)
		*written = 0;
	if (!tfm || bad_request(iv, iv_len, aad, aad_len, buffer, buffer_len))
		return -PERDOAZE_EINVAL;
	return perdoaze_raw_decrypt_in_place(tfm, or_other(iv, &other), iv_len, or_other(aad, &other), aad_len,
					     or_other_out(buffer, &other), buffer_len, n, written ? written : &unread);
}

int perdoaze_encrypt(struct perdoaze *tfm, const void *iv, size_t iv_len, const void *aad, size_t aad_len, const void *text,
		     size_t text_len, void *out, size_t out_len, size_t *written)
{
	uint8_t other_out = 0;
	const uint8_t other = 0;
	size_t unread = 0;

	if (text == out)
		return perdoaze_encrypt_in_place(tfm, iv, iv_len, aad, aad_len, out, out_len, text_len, written);
	if (written)
		*written = 0;
	if (!tfm || bad_request(iv, iv_len, aad, aad_len, out, out_len) || bad_bytes(text, text_len)
	    || overlap(text, text_len, out, out_len))
		return -PERDOAZE_EINVAL;
	return perdoaze_raw_encrypt(tfm, or_other(iv, &other), iv_len, or_other(aad, &other), aad_len, or_other(text, &other), text_len,
				    or_other_out(out, &other_out), out_len, written ? written : &unread);
}

int perdoaze_decrypt(struct perdoaze *tfm, const void *iv, size_t iv_len, const void *aad, size_t aad_len, const void *text,
		     size_t text_len, void *out, size_t out_len, size_t *written)
{
	uint8_t other_out = 0;
	const uint8_t other = 0;
	size_t unread = 0;

	if (text == out && text_len <= out_len)
		return perdoaze_decrypt_in_place(tfm, iv, iv_len, aad, aad_len, out, out_len, text_len, written);
	if (written)
		*written = 0;
	if (!tfm || bad_request(iv, iv_len, aad, aad_len, out, out_len) || bad_bytes(text, text_len)
	    || overlap(text, text_len, out, out_len))
		return -PERDOAZE_EINVAL;
	return perdoaze_raw_decrypt(tfm, or_other(iv, &other), iv_len, or_other(aad, &other), aad_len, or_other(text, &other), text_len,
				    or_other_out(out, &other_out), out_len, written ? written : &unread);
}

int perdoaze_digest(struct perdoaze *tfm, const void *text, size_t text_len, void *out, size_t out_len, size_t *written)
{
	uint8_t other_out = 0;
	const uint8_t other = 0;
	size_t unread = 0;

	if (written)
		*written = 0;
	if (!tfm || bad_request(text, text_len, NULL, 0, out, out_len))
		return -PERDOAZE_EINVAL;
	return perdoaze_raw_digest(tfm, or_other(text, &other), text_len, or_other_out(out, &other_out), out_len,
				   written ? written : &unread);
}
