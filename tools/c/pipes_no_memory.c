/* Each malloc failing in turn, over the calls on pipes of each kind: the call answers -ENOMEM and changes nothing, and the next works.
 * Linked with --wrap=malloc. */
#include <errno.h>
#include <perdoaze.h>
#include <stdio.h>
#include <stdlib.h>
#include <string.h>

void *__real_malloc(size_t n);
void *__wrap_malloc(size_t n);

static long left = -1;

void *__wrap_malloc(size_t n)
{
	return left >= 0 && left-- == 0 ? NULL : __real_malloc(n);
}

static struct perdoaze gcm = PERDOAZE_NONE;
static struct perdoaze_pipe pipe_ = PERDOAZE_NONE;
static struct perdoaze_job job = PERDOAZE_NONE;
static struct perdoaze_event event;
static uint64_t number;
static uint32_t kind;
static const uint8_t iv[12] = { 1 }, text[64] = { 2 };
static uint8_t out[80], want[80];

static int init(void)
{
	return perdoaze_pipe_init(&pipe_, kind, 1, 2);
}

static int submit(void)
{
	number = UINT64_MAX;
	return perdoaze_pipe_submit(&pipe_, &gcm, PERDOAZE_ENCRYPT | PERDOAZE_MAY_BACKLOG, iv, 12, text, 20, text, 64, &number);
}

static int take(void)
{
	return perdoaze_pipe_take(&pipe_, 1, &job);
}

static int finish(void)
{
	return perdoaze_jobs_run(&job, 1) ? -EINVAL : perdoaze_pipe_finish(&pipe_, &job);
}

static int poll(void)
{
	return perdoaze_pipe_poll(&pipe_, &event, out, sizeof out);
}

static int drained(void)
{
	return perdoaze_pipe_drained(&pipe_);
}

static int hold(void)
{
	return perdoaze_pipe_hold(&pipe_);
}

static int go(void)
{
	return perdoaze_pipe_go(&pipe_);
}

static int mask(void)
{
	return perdoaze_pipe_mask(&pipe_, 3);
}

/* Lets each malloc of a call fail in turn, until none does. What the call answers then, and how many mallocs it made. */
static int each(int (*call)(void), long *mallocs)
{
	for (long i = 0;; i++) {
		int got;

		left = i;
		got = call();
		if (left >= 0) {
			left = -1;
			*mallocs += i;
			return got;
		}
		left = -1;
		if (got != -ENOMEM)
			return -EPERM;
	}
}

static int fail(const char *what, int got)
{
	printf("kind %u: %s answers %d\n", kind, what, got);
	return 1;
}

#define WANT(call, holds) \
	do { \
		int got = each(call, &mallocs[kind]); \
		if (!(holds)) \
			return fail(#call, got); \
	} while (0)

static long mallocs[4];

/* Three requests from their submission to their completion. */
static int walk(void)
{
	bool is_pad = kind == PERDOAZE_PCRYPT;

	WANT(init, !got);
	WANT(hold, got == (is_pad ? -EINVAL : 0));
	WANT(mask, got == (is_pad ? 0 : -EINVAL));
	for (uint64_t n = 0; n < 3; n++)
		WANT(submit, (got == (is_pad || !n ? -EINPROGRESS : -EBUSY)) && number == n);
	WANT(go, got == (is_pad ? -EINVAL : 0));
	for (uint64_t n = 0, done = 0; done < 3;) {
		if (n++ < 3) {
			WANT(drained, !got);
			WANT(take, got == 1);
			WANT(finish, !got);
		}
		WANT(poll, got == 1);
		if (event.kind == PERDOAZE_STARTED)
			continue;
		if (event.number != done++ || event.status || event.size != 80 || memcmp(out, want, 80))
			return fail("event", (int)event.number);
	}
	WANT(take, !got);
	WANT(poll, !got);
	WANT(drained, got == 1);
	perdoaze_pipe_free(&pipe_);
	perdoaze_job_free(&job);
	return 0;
}

int main(void)
{
	if (perdoaze_init(&gcm, "gcm(aes)") || perdoaze_setkey(&gcm, "0123456789abcdef", 16)
	    || perdoaze_encrypt(&gcm, iv, 12, text, 20, text, 64, want, sizeof want, NULL))
		return 1;
	for (kind = PERDOAZE_PCRYPT; kind <= PERDOAZE_CRYPTD_PCRYPT; kind++)
		if (walk())
			return 1;
	perdoaze_free(&gcm);
	printf("mallocs on pipes: pcrypt %ld, cryptd %ld, cryptd(pcrypt) %ld\n", mallocs[1], mallocs[2], mallocs[3]);
	return 0;
}
