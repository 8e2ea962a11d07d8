/* What the proved crates export, for bindings: perdoaze.h's functions test what these leave to their caller, and are as fast but for a few
 * comparisons. They may change from one version to the next, and have a symbol version of their own.
 *
 * WHAT THE CALLER OWES. No pointer is NULL, also beside the length 0: any other address does there. Each is good for its length, and no
 * length is 2^63 bytes or more. Memory that a call writes overlaps nothing else that it is passed: not a struct, `written`, an array of
 * pieces or what lies in those. An array of pieces has PERDOAZE_MAX_PIECES at most. Otherwise the call's behaviour is undefined.
 * What each call answers is the same as that of the function of perdoaze.h whose name lacks `raw_`.
 */
#ifndef PERDOAZE_RAW_H
#define PERDOAZE_RAW_H

#include <perdoaze.h>

#ifdef __cplusplus
extern "C" {
#endif

/** A transform, as struct perdoaze_info has it. */
struct perdoaze_raw_info {
	char name[PERDOAZE_NAME_SIZE];
	char driver[PERDOAZE_NAME_SIZE];
	uint32_t priority;
	uint32_t kind;
	uint32_t block_size;
	uint32_t iv_size;
	uint32_t max_tag_size;
	uint32_t min_key_size;
	uint32_t max_key_size;
	uint32_t tag_size;
};

/** One of several encryptions. Its buffer stands beside it. */
struct perdoaze_raw_request {
	const uint8_t *iv;
	size_t iv_len;
	const uint8_t *aad;
	size_t aad_len;
	size_t len;
	size_t written;
	int32_t status;
};

/* ---- transforms */

PERDOAZE_API int32_t perdoaze_raw_init(struct perdoaze *tfm, const uint8_t *name, size_t name_len);
PERDOAZE_API int32_t perdoaze_raw_setkey(struct perdoaze *tfm, const uint8_t *key, size_t key_len);
PERDOAZE_API int32_t perdoaze_raw_setauthsize(struct perdoaze *tfm, uint32_t authsize);
PERDOAZE_API int32_t perdoaze_raw_encrypt(struct perdoaze *tfm, const uint8_t *iv, size_t iv_len, const uint8_t *aad,
					  size_t aad_len, const uint8_t *text, size_t text_len, uint8_t *out,
					  size_t out_len, size_t *written);
PERDOAZE_API int32_t perdoaze_raw_decrypt(struct perdoaze *tfm, const uint8_t *iv, size_t iv_len, const uint8_t *aad,
					  size_t aad_len, const uint8_t *text, size_t text_len, uint8_t *out,
					  size_t out_len, size_t *written);
PERDOAZE_API int32_t perdoaze_raw_encrypt_in_place(struct perdoaze *tfm, const uint8_t *iv, size_t iv_len,
						   const uint8_t *aad, size_t aad_len, uint8_t *buffer,
						   size_t buffer_len, size_t n, size_t *written);
PERDOAZE_API int32_t perdoaze_raw_decrypt_in_place(struct perdoaze *tfm, const uint8_t *iv, size_t iv_len,
						   const uint8_t *aad, size_t aad_len, uint8_t *buffer,
						   size_t buffer_len, size_t n, size_t *written);
PERDOAZE_API int32_t perdoaze_raw_digest(struct perdoaze *tfm, const uint8_t *text, size_t text_len, uint8_t *out,
					 size_t out_len, size_t *written);
PERDOAZE_API int32_t perdoaze_raw_encryptv(struct perdoaze *tfm, const uint8_t *iv, size_t iv_len, const uint8_t *aad,
					   size_t aad_len, const struct iovec *text, size_t pieces, uint8_t *out,
					   size_t out_len, size_t *written);
PERDOAZE_API int32_t perdoaze_raw_decryptv(struct perdoaze *tfm, const uint8_t *iv, size_t iv_len, const uint8_t *aad,
					   size_t aad_len, const struct iovec *text, size_t pieces, uint8_t *out,
					   size_t out_len, size_t *written);
PERDOAZE_API int32_t perdoaze_raw_encryptv_in_place(struct perdoaze *tfm, const uint8_t *iv, size_t iv_len,
						    const uint8_t *aad, size_t aad_len, struct iovec *text,
						    size_t pieces, size_t n, size_t *written);
PERDOAZE_API int32_t perdoaze_raw_decryptv_in_place(struct perdoaze *tfm, const uint8_t *iv, size_t iv_len,
						    const uint8_t *aad, size_t aad_len, struct iovec *text,
						    size_t pieces, size_t n, size_t *written);
PERDOAZE_API void perdoaze_raw_encrypt_many(struct perdoaze *tfm, struct perdoaze_raw_request *asked, size_t count,
					    struct iovec *buffers, size_t pieces);
PERDOAZE_API int32_t perdoaze_raw_digestv(struct perdoaze *tfm, const struct iovec *text, size_t pieces, uint8_t *out,
					  size_t out_len, size_t *written);
PERDOAZE_API int32_t perdoaze_raw_dup(struct perdoaze *from, struct perdoaze *into);
PERDOAZE_API int32_t perdoaze_raw_get_info(struct perdoaze *tfm, struct perdoaze_raw_info *info);
PERDOAZE_API int32_t perdoaze_raw_list(size_t index, struct perdoaze_raw_info *info);
PERDOAZE_API void perdoaze_raw_free(struct perdoaze *tfm);
PERDOAZE_API int32_t perdoaze_raw_compare(const uint8_t *a, size_t a_len, const uint8_t *b, size_t b_len);

/* ---- pipes */

PERDOAZE_API int32_t perdoaze_raw_pipe_init(struct perdoaze_pipe *pipe, uint64_t id, uint32_t kind, uint32_t max,
					    uint32_t workers);
PERDOAZE_API int32_t perdoaze_raw_pipe_submit(struct perdoaze_pipe *pipe, struct perdoaze *tfm, uint32_t direction,
					      bool backlog, const uint8_t *iv, size_t iv_len, const uint8_t *aad,
					      size_t aad_len, const uint8_t *text, size_t text_len, uint64_t *number);
PERDOAZE_API int32_t perdoaze_raw_pipe_take(struct perdoaze_pipe *pipe, uint32_t worker, struct perdoaze_job *job);
PERDOAZE_API int32_t perdoaze_raw_job_run(struct perdoaze_job *job);
PERDOAZE_API void perdoaze_raw_jobs_run(struct perdoaze_job *jobs);
PERDOAZE_API int32_t perdoaze_raw_pipe_finish(struct perdoaze_pipe *pipe, struct perdoaze_job *job);
PERDOAZE_API int32_t perdoaze_raw_pipe_poll(struct perdoaze_pipe *pipe, struct perdoaze_event *event, uint8_t *out,
					    size_t out_len);
PERDOAZE_API int32_t perdoaze_raw_pipe_drained(struct perdoaze_pipe *pipe);
PERDOAZE_API int32_t perdoaze_raw_pipe_hold(struct perdoaze_pipe *pipe);
PERDOAZE_API int32_t perdoaze_raw_pipe_go(struct perdoaze_pipe *pipe);
PERDOAZE_API int32_t perdoaze_raw_pipe_mask(struct perdoaze_pipe *pipe, uint32_t bits);
PERDOAZE_API void perdoaze_raw_pipe_free(struct perdoaze_pipe *pipe);
PERDOAZE_API void perdoaze_raw_job_free(struct perdoaze_job *job);

#ifdef __cplusplus
}
#endif
#endif
