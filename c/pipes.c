/* Pipes, and their jobs. */
#include "checks.h"
#include <string.h>

/* How many jobs go to the proved code at once. */
#define GROUP 8

/* The number of each pipe of a process, by which it knows its own jobs. */
static uint64_t next_pipe(void)
{
	static uint64_t pipes;

	return __atomic_add_fetch(&pipes, 1, __ATOMIC_RELAXED);
}

int perdoaze_pipe_init(struct perdoaze_pipe *pipe, uint32_t kind, uint32_t max, uint32_t workers)
{
	return pipe ? perdoaze_raw_pipe_init(pipe, next_pipe(), kind, max, workers) : -PERDOAZE_EINVAL;
}

int perdoaze_pipe_submit(struct perdoaze_pipe *pipe, struct perdoaze *tfm, uint32_t what, const void *iv, size_t iv_len, const void *aad,
			 size_t aad_len, const void *text, size_t text_len, uint64_t *number)
{
	const uint8_t other = 0;
	uint64_t unread = 0;

	if (!pipe || !tfm || bad_bytes(iv, iv_len) || bad_bytes(aad, aad_len) || bad_bytes(text, text_len))
		return -PERDOAZE_EINVAL;
	return perdoaze_raw_pipe_submit(pipe, tfm, what & ~(uint32_t)PERDOAZE_MAY_BACKLOG, (what & PERDOAZE_MAY_BACKLOG) != 0,
					or_other(iv, &other), iv_len, or_other(aad, &other), aad_len,
					or_other(text, &other), text_len, number ? number : &unread);
}

int perdoaze_pipe_take(struct perdoaze_pipe *pipe, uint32_t worker, struct perdoaze_job *job)
{
	return pipe && job ? perdoaze_raw_pipe_take(pipe, worker, job) : -PERDOAZE_EINVAL;
}

int perdoaze_pipe_take_many(struct perdoaze_pipe *pipe, uint32_t worker, struct perdoaze_job *jobs, uint32_t count)
{
	if (!jobs && count)
		return -PERDOAZE_EINVAL;
	for (uint32_t n = 0; n < count; n++) {
		int took = perdoaze_pipe_take(pipe, worker + n, &jobs[n]);
		if (took != 1)
			return n ? (int)n : took;
	}
	return (int)count;
}

int perdoaze_job_run(struct perdoaze_job *job)
{
	return job ? perdoaze_raw_job_run(job) : -PERDOAZE_EINVAL;
}

int perdoaze_jobs_run(struct perdoaze_job *jobs, size_t count)
{
	if (!jobs && count)
		return -PERDOAZE_EINVAL;
	for (size_t at = 0, n; at < count; at += n) {
		struct perdoaze_job group[GROUP];
		n = count - at < GROUP ? count - at : GROUP;
		memset(group, 0, sizeof group);
		memcpy(group, jobs + at, n * sizeof *jobs);
		perdoaze_raw_jobs_run(group);
		memcpy(jobs + at, group, n * sizeof *jobs);
	}
	return 0;
}

int perdoaze_pipe_finish(struct perdoaze_pipe *pipe, struct perdoaze_job *job)
{
	return pipe && job ? perdoaze_raw_pipe_finish(pipe, job) : -PERDOAZE_EINVAL;
}

int perdoaze_pipe_poll(struct perdoaze_pipe *pipe, struct perdoaze_event *event, void *out, size_t out_len)
{
	uint8_t other = 0;

	if (!pipe || !event || bad_bytes(out, out_len))
		return -PERDOAZE_EINVAL;
	return perdoaze_raw_pipe_poll(pipe, event, or_other_out(out, &other), out_len);
}

int perdoaze_pipe_drained(struct perdoaze_pipe *pipe)
{
	return pipe ? perdoaze_raw_pipe_drained(pipe) : -PERDOAZE_EINVAL;
}

int perdoaze_pipe_hold(struct perdoaze_pipe *pipe)
{
	return pipe ? perdoaze_raw_pipe_hold(pipe) : -PERDOAZE_EINVAL;
}

int perdoaze_pipe_go(struct perdoaze_pipe *pipe)
{
	return pipe ? perdoaze_raw_pipe_go(pipe) : -PERDOAZE_EINVAL;
}

int perdoaze_pipe_mask(struct perdoaze_pipe *pipe, uint32_t bits)
{
	return pipe ? perdoaze_raw_pipe_mask(pipe, bits) : -PERDOAZE_EINVAL;
}

void perdoaze_pipe_free(struct perdoaze_pipe *pipe)
{
	if (pipe)
		perdoaze_raw_pipe_free(pipe);
}

void perdoaze_job_free(struct perdoaze_job *job)
{
	if (job)
		perdoaze_raw_job_free(job);
}
