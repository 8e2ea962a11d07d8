/* Several requests in one call. */
#include "checks.h"

/* How many go to the proved code at once. */
#define GROUP 8

/* 0 where each request has this header's size. */
static int sizes_status(const struct perdoaze_request *requests, size_t count)
{
	int status = 0;

	for (size_t i = 0; i < count && !status; i++)
		status = size_status(requests[i].size, sizeof *requests);
	return status;
}

/* Whether one of two requests writes over what the other has. */
static bool tangled(const struct perdoaze_request *q, const struct perdoaze_request *r)
{
	return overlap(q->buffer, q->buffer_len, r->buffer, r->buffer_len) || overlap(q->buffer, q->buffer_len, r->iv, r->iv_len)
	       || overlap(q->buffer, q->buffer_len, r->aad, r->aad_len) || overlap(q->iv, q->iv_len, r->buffer, r->buffer_len)
	       || overlap(q->aad, q->aad_len, r->buffer, r->buffer_len);
}

/* Whether a group's requests may be answered at once: each has bytes that the library takes, and none writes over what one has. */
static bool stand_apart(const struct perdoaze_request *group, size_t count)
{
	for (size_t i = 0; i < count; i++) {
		const struct perdoaze_request *r = &group[i];

		if (bad_request(r->iv, r->iv_len, r->aad, r->aad_len, r->buffer, r->buffer_len))
			return false;
		for (size_t j = 0; j < i; j++)
			if (tangled(&group[j], r))
				return false;
	}
	return true;
}

/* Answers requests that stand apart. */
static void encrypt_group(struct perdoaze *tfm, struct perdoaze_request *group, size_t count)
{
	struct perdoaze_raw_request asked[GROUP];
	struct iovec buffers[GROUP];
	const uint8_t other = 0;
	uint8_t other_out = 0;

	for (size_t i = 0; i < count; i++) {
		const struct perdoaze_request *r = &group[i];

		asked[i] = (struct perdoaze_raw_request){
			.iv = or_other(r->iv, &other),
			.iv_len = r->iv_len,
			.aad = or_other(r->aad, &other),
			.aad_len = r->aad_len,
			.len = r->n,
		};
		buffers[i] = (struct iovec){ .iov_base = or_other_out(r->buffer, &other_out), .iov_len = r->buffer_len };
	}
	perdoaze_raw_encrypt_many(tfm, asked, count, buffers, count);
	for (size_t i = 0; i < count; i++) {
		group[i].written = asked[i].written;
		group[i].status = asked[i].status;
	}
}

/* Answers requests one after another. */
static void encrypt_each(struct perdoaze *tfm, struct perdoaze_request *group, size_t count)
{
	for (size_t i = 0; i < count; i++) {
		struct perdoaze_request *r = &group[i];

		r->status = perdoaze_encrypt_in_place(tfm, r->iv, r->iv_len, r->aad, r->aad_len, r->buffer, r->buffer_len, r->n,
						      &r->written);
	}
}

int perdoaze_encrypt_many(struct perdoaze *tfm, struct perdoaze_request *requests, size_t count)
{
	int first = 0, status;

	if (!requests && count)
		return -PERDOAZE_EINVAL;
	status = sizes_status(requests, count);
	if (status)
		return status;
	for (size_t done = 0, n; done < count; done += n) {
		struct perdoaze_request *group = requests + done;

		n = count - done < GROUP ? count - done : GROUP;
		if (tfm && stand_apart(group, n))
			encrypt_group(tfm, group, n);
		else
			encrypt_each(tfm, group, n);
		for (size_t i = 0; i < n && !first; i++)
			first = group[i].status;
	}
	return first;
}
