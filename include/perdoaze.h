/* perdoaze: the ciphers and MACs of the Linux kernel's Crypto API, proved, for C99 and C++11. docs/C.md has a first program.
 *
 * A transform is an algorithm under a key. It is made by the name of an algorithm, as "gcm(aes)", or by the name of a driver, as
 * "gcm_base(ctr(aes-table),ghash-generic)". It is given a key, and maybe a tag size. Then it answers requests.
 *
 * RESULTS. 0, or the negative of one of Linux's error numbers, which are the same on every system here:
 *     -ENOENT (2)     no transform has that name           -EINVAL (22)     a name, key, length, tag size or place isn't taken
 *     -ENOMEM (12)    malloc gave nothing                  -EOVERFLOW (75)  the answer has no room
 *     -EBADMSG (74)   the tag is wrong                     -ENOKEY (126)    no key was set
 * A call that fails leaves the key and the tag size as they were, and `*written` is 0. But where perdoaze_init or perdoaze_dup fails,
 * the place that it was to fill has no transform.
 *
 * BYTES. A pointer and the number of bytes behind it. NULL is taken beside the number 0. NULL beside another number, or a number of
 * 2^63 or more, is -EINVAL. `written` may be NULL. What a call writes overlaps nothing else that it is passed, but where its comment
 * says so.
 *
 * OWNERSHIP. `struct perdoaze` is the caller's. It begins with all bytes 0 (PERDOAZE_NONE), and these functions alone change it.
 * It may be moved, but never copied: perdoaze_dup makes a second transform under the same key. perdoaze_free frees what it holds.
 * A struct that was never begun, was copied, or is used after its bytes were changed can't be told from another: the call's
 * behaviour is then undefined. What is passed to a call isn't kept, but for a copy of the key.
 *
 * SIZES OF STRUCTS. A struct that begins with `size` may grow. The caller sets that to `sizeof` of the struct. -EINVAL: it is less than in
 * this header. -E2BIG (7): it is more, so the header is newer than the library. Nothing happened then.
 *
 * THREADS. Calls on different structs may run at a time, also where one was made of the other by perdoaze_dup. Two calls on one
 * struct may not. A struct may go from a thread to another through a lock, or a thread's start or join. No call blocks, starts a
 * thread or aborts.
 *
 * MEMORY, SIGNALS, FORK. The calls whose comment has -ENOMEM, and those that free, use malloc and free. These may be made where
 * malloc may: not from a signal handler, nor in a forked child of a process with threads, but where the system's malloc allows it.
 * All other calls take no memory and may be made there too, on structs that no call which was interrupted is changing. A call
 * takes at most PERDOAZE_STACK_SIZE bytes of stack; perdoaze_setkey at most PERDOAZE_SETKEY_STACK_SIZE.
 *
 * SECRETS. Keys, and what is made of them, lie in blocks of malloc that are wiped before they are freed. The stack is wiped by
 * perdoaze_wipe_stack alone, since that takes longer than a short request. Registers and swapped pages aren't wiped.
 *
 * NONCES. Never encrypt two texts under one key and one IV with CTR, RFC 3686, GCM, RFC 4106 or CCM.
 */
#ifndef PERDOAZE_H
#define PERDOAZE_H

#include <stdbool.h>
#include <stddef.h>
#include <stdint.h>
#include <sys/uio.h>

#ifdef __cplusplus
extern "C" {
#endif

/** What the library exports. */
#define PERDOAZE_API __attribute__((visibility("default")))

/** The version of this header: 10000 times its first number, 100 times its second, and its third. A program that was compiled with a
 *  header runs with each library of the same first number that isn't older. */
#define PERDOAZE_VERSION 10000

/** PERDOAZE_VERSION of the library that the program runs with. */
PERDOAZE_API uint32_t perdoaze_version(void);

/* Linux's error numbers, also where errno.h has others. */
#define PERDOAZE_ENOENT 2
#define PERDOAZE_E2BIG 7
#define PERDOAZE_EAGAIN 11
#define PERDOAZE_ENOMEM 12
#define PERDOAZE_EBUSY 16
#define PERDOAZE_EINVAL 22
#define PERDOAZE_ENOSPC 28
#define PERDOAZE_EBADMSG 74
#define PERDOAZE_EOVERFLOW 75
#define PERDOAZE_EINPROGRESS 115
#define PERDOAZE_ECANCELED 125
#define PERDOAZE_ENOKEY 126

/** What a result means, in English, for a number or its negative. Never NULL. */
PERDOAZE_API const char *perdoaze_strerror(int result);

/** A place for a transform. Its fields are private. */
struct perdoaze {
	bool full_;
	void *at_;
};

/** A place that has none. */
#define PERDOAZE_NONE { false, NULL }

/** The most pieces that a text may lie in. readv has the same limit. */
#define PERDOAZE_MAX_PIECES 1024

/** Several pieces of at most so many bytes together are changed in their place without memory of malloc. One piece never takes any. */
#define PERDOAZE_ON_STACK 4160

/** The most bytes of stack that a call takes, and that perdoaze_setkey takes. */
#define PERDOAZE_STACK_SIZE 16384
#define PERDOAZE_SETKEY_STACK_SIZE 49152

/** The bytes of a name in struct perdoaze_info, with a zero at least behind it. */
#define PERDOAZE_NAME_SIZE 128

/** Sizes in bytes, also told by perdoaze_get_info: the longest IV and tag, of any transform; AES's block; the IV and the longest tag
 *  of each cipher; and a MAC's. */
#define PERDOAZE_MAX_IV_SIZE 16
#define PERDOAZE_MAX_TAG_SIZE 32
#define PERDOAZE_BLOCK_SIZE 16
#define PERDOAZE_CBC_IV_SIZE 16
#define PERDOAZE_CTR_IV_SIZE 16
#define PERDOAZE_RFC3686_IV_SIZE 8
#define PERDOAZE_XTS_IV_SIZE 16
#define PERDOAZE_GCM_IV_SIZE 12
#define PERDOAZE_GCM_TAG_SIZE 16
#define PERDOAZE_RFC4106_IV_SIZE 8
#define PERDOAZE_RFC4106_TAG_SIZE 16
#define PERDOAZE_CCM_IV_SIZE 16
#define PERDOAZE_CCM_TAG_SIZE 16
#define PERDOAZE_HMAC_SHA256_SIZE 32
#define PERDOAZE_CMAC_SIZE 16

/** What a transform computes: a cipher without a tag, a cipher with a tag, a MAC. */
#define PERDOAZE_SKCIPHER 1
#define PERDOAZE_AEAD 2
#define PERDOAZE_MAC 3

/** What a request asks for. */
#define PERDOAZE_ENCRYPT 1
#define PERDOAZE_DECRYPT 2
#define PERDOAZE_DIGEST 3

/** A transform, as /proc/crypto shows one. */
struct perdoaze_info {
	size_t size;                     /**< of this struct in bytes: the caller sets it */
	char name[PERDOAZE_NAME_SIZE];   /**< of the algorithm: ASCII, with zeros behind it */
	char driver[PERDOAZE_NAME_SIZE]; /**< of the driver: ASCII, with zeros behind it */
	uint32_t priority;               /**< of two drivers of an algorithm, the one with more is taken */
	uint32_t kind;                   /**< PERDOAZE_SKCIPHER, PERDOAZE_AEAD or PERDOAZE_MAC */
	uint32_t block_size;             /**< in bytes: 1 where texts of every length are taken in pieces of any length */
	uint32_t iv_size;                /**< in bytes */
	uint32_t max_tag_size;           /**< in bytes: the greatest tag, of a MAC its MAC, and 0 without a tag */
	uint32_t min_key_size;           /**< in bytes */
	uint32_t max_key_size;           /**< in bytes: UINT32_MAX where there is no limit */
	uint32_t tag_size;               /**< in bytes: what was set, and max_tag_size where nothing was */
};

/** What a struct perdoaze_info begins with. */
#define PERDOAZE_INFO { sizeof(struct perdoaze_info), "", "", 0, 0, 0, 0, 0, 0, 0, 0 }

/** A request of perdoaze_encrypt_many: what perdoaze_encrypt_in_place is passed, and what it answers. */
struct perdoaze_request {
	size_t size; /**< of this struct in bytes: the caller sets it */
	const void *iv;
	size_t iv_len;
	const void *aad;
	size_t aad_len;
	void *buffer; /**< its first `n` bytes are the text */
	size_t buffer_len;
	size_t n;
	size_t written; /**< is set: the number of bytes of the ciphertext and the tag */
	int status;     /**< is set: 0, or why the request failed */
};

/** Makes the transform of that name, with no key and the greatest tag, in the place of the one that was there. By the name of an
 *  algorithm it is that of the driver of greatest priority, whose memory accesses depend on no key and no text. By the name of a
 *  driver it is exactly that one. `pcrypt(X)`, `cryptd(X)` and `cryptd(pcrypt(X))` are X. -ENOENT: no driver has the name. -EINVAL:
 *  `name` is NULL, or no name of at most 127 bytes, 8 levels and 4 arguments. -ENOMEM. Where the call fails, the place has none. */
PERDOAZE_API int perdoaze_init(struct perdoaze *tfm, const char *name);

/** Sets the key. -EINVAL: the transform doesn't take it, or the place has none. -ENOMEM. */
PERDOAZE_API int perdoaze_setkey(struct perdoaze *tfm, const void *key, size_t key_len);

/** Sets the tag size in bytes. -EINVAL: the transform doesn't take it, or the place has none. GCM takes 4, 8 and 12 to 16, RFC 4106
 *  8, 12 and 16, CCM 4, 6, 8, 10, 12, 14 and 16, authenc 1 to 32. Tags of 4 bytes are weak. */
PERDOAZE_API int perdoaze_setauthsize(struct perdoaze *tfm, uint32_t authsize);

/** Encrypts the first `n` bytes of `buffer` in their place. With a tag, it goes behind the ciphertext. `*written` is the number of
 *  bytes of both. -EOVERFLOW: `buffer` has fewer than these bytes. -ENOKEY. -EINVAL: the place has no transform, or that doesn't
 *  encrypt; the IV has a wrong length, or CCM's first byte isn't 1 to 7; there are associated bytes and no tag; the text isn't taken
 *  (CBC takes whole blocks, XTS 16 bytes and more, CCM fewer than 65,536); RFC 4106's associated bytes aren't 16 or 20, CCM's aren't
 *  fewer than 65,280; or `aad` or the text has 2^32 bytes or more. Where the call fails, `buffer` is as it was. */
PERDOAZE_API int perdoaze_encrypt_in_place(struct perdoaze *tfm, const void *iv, size_t iv_len, const void *aad,
					   size_t aad_len, void *buffer, size_t buffer_len, size_t n, size_t *written);

/** Decrypts the first `n` bytes of `buffer` in their place, of which the last are the tag, where there is one. `*written` is the
 *  number of bytes of the plaintext. -EBADMSG: the tag is wrong. -EOVERFLOW: `buffer` has fewer than `n` bytes. -ENOKEY. -EINVAL as
 *  perdoaze_encrypt_in_place has it, and where `n` is less than the tag size. Where the call fails, `buffer` is as it was. */
PERDOAZE_API int perdoaze_decrypt_in_place(struct perdoaze *tfm, const void *iv, size_t iv_len, const void *aad,
					   size_t aad_len, void *buffer, size_t buffer_len, size_t n, size_t *written);

/** Encrypts `text` into `out`. With a tag, it goes behind the ciphertext. `*written` is the number of bytes of both. Errors as
 *  perdoaze_encrypt_in_place has them. `out` is other memory than `text`, or begins where `text` does: the text is then encrypted
 *  in its place. Where the call fails, `out` is as it was, or its first `text_len` bytes are 0. */
PERDOAZE_API int perdoaze_encrypt(struct perdoaze *tfm, const void *iv, size_t iv_len, const void *aad, size_t aad_len,
				  const void *text, size_t text_len, void *out, size_t out_len, size_t *written);

/** Decrypts `text` into `out`. With a tag, it is the last bytes of `text`. `*written` is the number of bytes of the plaintext.
 *  Errors as perdoaze_decrypt_in_place has them, but -EOVERFLOW: `out` has no room for the plaintext. `out` is other memory than
 *  `text`, or begins where `text` does and has `text_len` bytes at least: the text is then decrypted in its place. Where the call
 *  fails, `out` is as it was, or its front is 0, and it has no byte of the plaintext. */
PERDOAZE_API int perdoaze_decrypt(struct perdoaze *tfm, const void *iv, size_t iv_len, const void *aad, size_t aad_len,
				  const void *text, size_t text_len, void *out, size_t out_len, size_t *written);

/** Writes the MAC of `text` into `out`: 32 bytes of HMAC with SHA-256, 16 of CMAC. -EINVAL: the place has no MAC, or the text has
 *  2^32 bytes or more. -EOVERFLOW: `out` has no room. -ENOKEY. Where the call fails, `out` is as it was. */
PERDOAZE_API int perdoaze_digest(struct perdoaze *tfm, const void *text, size_t text_len, void *out, size_t out_len,
				 size_t *written);

/** As perdoaze_encrypt, of a text in pieces, PERDOAZE_MAX_PIECES at most. A piece of 0 bytes may be NULL. No piece lies in `out`.
 *  -ENOMEM: a piece is NULL, more than 32 aren't, and malloc gave nothing for a list of these. */
PERDOAZE_API int perdoaze_encryptv(struct perdoaze *tfm, const void *iv, size_t iv_len, const void *aad, size_t aad_len,
				   const struct iovec *text, size_t pieces, void *out, size_t out_len, size_t *written);

/** As perdoaze_decrypt, of a text in pieces as perdoaze_encryptv takes them. -ENOMEM as there. */
PERDOAZE_API int perdoaze_decryptv(struct perdoaze *tfm, const void *iv, size_t iv_len, const void *aad, size_t aad_len,
				   const struct iovec *text, size_t pieces, void *out, size_t out_len, size_t *written);

/** As perdoaze_encrypt_in_place, where the buffer lies in pieces: its first `n` bytes are encrypted, and the tag goes behind them. No two
 *  pieces have a byte in common. One piece is worked where it lies. Several are copied, and copied back: to the stack where they have at
 *  most PERDOAZE_ON_STACK bytes together. Where they have more, GCM, RFC 4106, CTR, RFC 3686, CBC, and authenc over the last three,
 *  go over them where they lie. -ENOMEM: CCM, XTS, authenc over it, or a request that isn't taken, and malloc gave nothing for the copy;
 *  or as perdoaze_encryptv has it. */
PERDOAZE_API int perdoaze_encryptv_in_place(struct perdoaze *tfm, const void *iv, size_t iv_len, const void *aad,
					    size_t aad_len, const struct iovec *buffer, size_t pieces, size_t n,
					    size_t *written);

/** As perdoaze_decrypt_in_place, where the buffer lies in pieces. -ENOMEM as perdoaze_encryptv_in_place has it. */
PERDOAZE_API int perdoaze_decryptv_in_place(struct perdoaze *tfm, const void *iv, size_t iv_len, const void *aad,
					    size_t aad_len, const struct iovec *buffer, size_t pieces, size_t n,
					    size_t *written);

/** Calls perdoaze_encrypt_in_place for each request in turn, and sets its `written` and `status`. The first status that isn't 0, or 0
 *  where there is none. -EINVAL: `requests` is NULL, and `count` isn't 0. Under CBC, and authenc over it, eight requests at a time are
 *  encrypted side by side, which is faster. They go one after another where one of the eight isn't taken, or where one's buffer overlaps
 *  what another one has. */
PERDOAZE_API int perdoaze_encrypt_many(struct perdoaze *tfm, struct perdoaze_request *requests, size_t count);

/** As perdoaze_digest, of a text in pieces as perdoaze_encryptv takes them. They are read where they lie. -ENOMEM as there. */
PERDOAZE_API int perdoaze_digestv(struct perdoaze *tfm, const struct iovec *text, size_t pieces, void *out,
				  size_t out_len, size_t *written);

/** Makes a second transform, of the same driver, tag size and key, in the place `into`, in the place of the one that was there. Both
 *  share the key, and may be used by two threads at a time. -EINVAL: `from` has none; or both are one place or one is NULL, and nothing
 *  happened. -ENOMEM. Where the call fails otherwise, `into` has none. */
PERDOAZE_API int perdoaze_dup(struct perdoaze *from, struct perdoaze *into);

/** Tells of the transform. -EINVAL: the place has none. Where the call fails, `*info` is as it was. */
PERDOAZE_API int perdoaze_get_info(struct perdoaze *tfm, struct perdoaze_info *info);

/** Tells of the driver at a place of the list of all drivers, from 0 on: an algorithm's drivers stand together, those of greatest
 *  priority first. Of these `tag_size` is the greatest. -ENOENT: behind the end of the list. Where the call fails, `*info` is as it
 *  was. */
PERDOAZE_API int perdoaze_list(size_t index, struct perdoaze_info *info);

/** How many bytes of an answer a request needs room for: PERDOAZE_ENCRYPT and PERDOAZE_DECRYPT of a text of `n` bytes, of which to decrypt
 *  the last are the tag; or PERDOAZE_DIGEST, of a text of any length. -EINVAL: the place has none, the transform doesn't answer such
 *  requests, to decrypt `n` is less than the tag size, or to encrypt the bytes are 2^63 or more; `*len` is then 0. Whether a text of
 *  that length is taken is told by the request alone. */
PERDOAZE_API int perdoaze_outlen(struct perdoaze *tfm, uint32_t what, size_t n, size_t *len);

/** Frees the transform, and leaves none. A place that has none may be freed again, and so may NULL. */
PERDOAZE_API void perdoaze_free(struct perdoaze *tfm);

/* ---- pipes: requests that run beside one another and come back in order
 *
 * A pipe takes requests to any transforms. Workers take them as jobs, run them beside one another without any lock, and finish them.
 * The pipe tells that they are complete in the order in which it took them. It has no threads of its own: examples/c/perdoaze_threads.c has.
 *
 * KINDS. PERDOAZE_PCRYPT: jobs run in any order (padata). PERDOAZE_CRYPTD: a queue with a bound and a backlog, whose jobs run one at a time
 * (cryptd). PERDOAZE_CRYPTD_PCRYPT: such a queue in front of such jobs.
 *
 * THREADS. Two calls on one pipe may not run at a time: the caller's mutex sees to that, and to a job's place within perdoaze_pipe_take and
 * perdoaze_pipe_finish. perdoaze_job_run and perdoaze_jobs_run want no lock: they use the jobs' places alone.
 *
 * NUMBERS. Requests are numbered from 0 as a pipe accepts them. A pipe accepts at most 2^20 requests, whose IVs, associated bytes and texts
 * have at most 2^26 bytes together, and keeps them. Beyond that it answers -E2BIG. perdoaze_pipe_init begins it anew.
 *
 * More results: -EINPROGRESS (115), -EBUSY (16), -ENOSPC (28), -E2BIG (7). */

/** A place for a pipe. Its fields are private. It begins with PERDOAZE_NONE, as a struct perdoaze. */
struct perdoaze_pipe {
	bool full_;
	void *at_;
};

/** A place for a job. Its fields are private. It begins with PERDOAZE_NONE. A job may go from a thread to another through a lock. */
struct perdoaze_job {
	bool full_;
	void *at_;
};

/** The kind of a pipe. */
#define PERDOAZE_PCRYPT 1
#define PERDOAZE_CRYPTD 2
#define PERDOAZE_CRYPTD_PCRYPT 3

/** With one of these by `|`: the request may wait in the backlog of a queue that is full. */
#define PERDOAZE_MAY_BACKLOG 0x100

/** The most workers of a pipe. */
#define PERDOAZE_MAX_WORKERS 16

/** What a pipe tells of a request: it left the backlog, and is among those that the queue has room for; it is complete. */
#define PERDOAZE_STARTED 1
#define PERDOAZE_COMPLETE 2

/** What became of a request. */
struct perdoaze_event {
	uint64_t number; /**< the request's */
	size_t size;     /**< in bytes, of its answer */
	uint32_t kind;   /**< PERDOAZE_STARTED or PERDOAZE_COMPLETE */
	int32_t status;  /**< of a request that is complete: 0, -EBADMSG where the tag is wrong, or -EINVAL */
};

/** Begins a pipe in the place, in the place of the one that was there. Of a queue `max` requests wait before its backlog begins, at least 1:
 *  PERDOAZE_PCRYPT reads no `max`. The workers 1 to `workers`, at most PERDOAZE_MAX_WORKERS, take from it: from PERDOAZE_CRYPTD, which reads no
 *  `workers`, any worker. -EINVAL: no such kind, or a number isn't taken. -ENOMEM. Where the call fails, the place has none. */
PERDOAZE_API int perdoaze_pipe_init(struct perdoaze_pipe *pipe, uint32_t kind, uint32_t max, uint32_t workers);

/** Asks the transform, under the key and the tag size that it has now, for PERDOAZE_ENCRYPT, PERDOAZE_DECRYPT or PERDOAZE_DIGEST, the last
 *  without `iv` and `aad`. All bytes are copied, and the transform may then be freed. -EINPROGRESS: it was accepted, as `*number`. -EBUSY: it
 *  was accepted so into the backlog, under PERDOAZE_MAY_BACKLOG; the pipe tells PERDOAZE_STARTED once it leaves that, and the caller is to wait
 *  for it. -ENOSPC: the queue is full, and it wasn't accepted. -E2BIG. -ENOKEY. -EINVAL: a place has none, the request isn't taken, or the
 *  pipe's mask is 0. -ENOMEM. */
PERDOAZE_API int perdoaze_pipe_submit(struct perdoaze_pipe *pipe, struct perdoaze *tfm, uint32_t what, const void *iv,
				      size_t iv_len, const void *aad, size_t aad_len, const void *text, size_t text_len,
				      uint64_t *number);

/** Hands a job to the worker, 1 to PERDOAZE_MAX_WORKERS. 1: there is one, in the place `job`, which had none. 0: there is none for it now.
 *  Where there is none, a request of PERDOAZE_CRYPTD_PCRYPT leaves the queue, if one may: it is then a job for the pipe's workers.
 *  -EBUSY: this worker has a job of this pipe that isn't finished. -EINVAL: no worker has the number, a place has no pipe, or the
 *  other has a job. -ENOMEM. */
PERDOAZE_API int perdoaze_pipe_take(struct perdoaze_pipe *pipe, uint32_t worker, struct perdoaze_job *job);

/** Hands jobs to the workers `worker`, `worker + 1` and so on, one each by perdoaze_pipe_take, into the places from `jobs` on, until there is
 *  none or `count` are taken. How many were taken; where none was, what perdoaze_pipe_take answered. -EINVAL: `jobs` is NULL, and `count`
 *  isn't 0. So one thread may hold several jobs: those of its workers. */
PERDOAZE_API int perdoaze_pipe_take_many(struct perdoaze_pipe *pipe, uint32_t worker, struct perdoaze_job *jobs,
					 uint32_t count);

/** Does the work of the job. It needs no lock, and takes no memory. -EINVAL: there is no job, or it was run. */
PERDOAZE_API int perdoaze_job_run(struct perdoaze_job *job);

/** Does the work of each job as perdoaze_job_run does. It needs no lock, and takes no memory. Eight places at a time, as they stand: where
 *  all of their jobs seal under one key by CBC, or by authenc over it, these are run side by side, which is faster. A place that has no job
 *  to be run stays as it is. -EINVAL: `jobs` is NULL, and `count` isn't 0. Each job is finished by itself. */
PERDOAZE_API int perdoaze_jobs_run(struct perdoaze_job *jobs, size_t count);

/** Gives a job that was run back to its pipe; the place has none then. -EINVAL: a place has none, or the job is another pipe's, wasn't run,
 *  or was finished: nothing happened then. */
PERDOAZE_API int perdoaze_pipe_finish(struct perdoaze_pipe *pipe, struct perdoaze_job *job);

/** The next that the pipe tells, in its order: requests are complete in the order of their numbers. 1: there is one, in `*event`, and the
 *  answer of a request that is complete in the first `event->size` bytes of `out`. 0: there is none now. -EOVERFLOW: `out` has no room for
 *  these; `*event` is set, and the next call tells the same. -EINVAL: the place has none. -ENOMEM. PERDOAZE_STARTED comes before the
 *  request is complete. */
PERDOAZE_API int perdoaze_pipe_poll(struct perdoaze_pipe *pipe, struct perdoaze_event *event, void *out,
				    size_t out_len);

/** 1: each request that was accepted is complete, and perdoaze_pipe_poll handed out all that the pipe tells. 0: not yet. -EINVAL: the place has
 *  none. -ENOMEM. */
PERDOAZE_API int perdoaze_pipe_drained(struct perdoaze_pipe *pipe);

/** From now on no request of the queue is run, or leaves it, until perdoaze_pipe_go. -EINVAL: the place has none, or PERDOAZE_PCRYPT, which has
 *  no queue. -ENOMEM: nothing happened. */
PERDOAZE_API int perdoaze_pipe_hold(struct perdoaze_pipe *pipe);

/** The queue's requests are run again. Errors as perdoaze_pipe_hold has them. */
PERDOAZE_API int perdoaze_pipe_go(struct perdoaze_pipe *pipe);

/** From now on the workers whose bits are set take from a PERDOAZE_PCRYPT: bit i stands for worker i + 1. Under 0 it accepts nothing; what it
 *  accepted waits. -EINVAL: the place has none or another kind, or a bit stands above the pipe's workers. -ENOMEM: nothing happened. */
PERDOAZE_API int perdoaze_pipe_mask(struct perdoaze_pipe *pipe, uint32_t bits);

/** Frees the pipe with all that it holds, and leaves none. Jobs that workers hold stay theirs, and no pipe takes them back. */
PERDOAZE_API void perdoaze_pipe_free(struct perdoaze_pipe *pipe);

/** Frees a job's place. A job that wasn't finished is lost: its pipe waits for it, and its worker takes no other. */
PERDOAZE_API void perdoaze_job_free(struct perdoaze_job *job);

/* ---- secrets */

/** 0: the `n` bytes at `a` and at `b` are the same. -EBADMSG: they aren't. Each byte is compared, wherever the first difference is.
 *  -EINVAL: no such bytes. */
PERDOAZE_API int perdoaze_compare(const void *a, const void *b, size_t n);

/** Overwrites the bytes with zeros, also where they aren't read again. */
PERDOAZE_API void perdoaze_wipe(void *bytes, size_t n);

/** Overwrites PERDOAZE_SETKEY_STACK_SIZE bytes of the stack below its caller's frame. Made by the function that made other calls of the library,
 *  it leaves nothing there of what these computed with. Registers aren't wiped. */
PERDOAZE_API void perdoaze_wipe_stack(void);

#ifdef __cplusplus
}
#endif
#endif
