/* A crew: threads that work for a pipe of perdoaze, and tell what it tells, in its order. Part of a program, not of the library: it is
 * tested, and not proved. The order is: the pipe's own. */
#ifndef PERDOAZE_THREADS_H
#define PERDOAZE_THREADS_H

#include <perdoaze.h>
#include <pthread.h>

#ifdef __cplusplus
extern "C" {
#endif

/* Told of each event of the pipe, one at a time and in its order, by some thread of the crew or the one that drains it. `bytes` are the answer
 * of a request that is complete, and lie there for the call's time alone. It makes no call on the crew. */
typedef void perdoaze_told(void *user, const struct perdoaze_event *event, const uint8_t *bytes);

/* The most jobs that a thread takes at a time. */
#define PERDOAZE_CREW_JOBS 8

/* Its fields are private. A thread stands for `each` of the pipe's workers, and has as many jobs at most. */
struct perdoaze_crew {
	pthread_mutex_t lock;
	pthread_cond_t work, idle;
	struct perdoaze_pipe pipe;
	pthread_t threads[PERDOAZE_MAX_WORKERS];
	perdoaze_told *told;
	void *user;
	uint8_t *bytes;
	size_t room;
	uint64_t before, accepted, taken, complete;
	uint32_t kind, max, workers, each, next;
	int error;
	bool is_telling, is_ending;
};

/* Starts so many threads, 1 to PERDOAZE_MAX_WORKERS, for a pipe of that kind and bound. Errors as perdoaze_pipe_init has them, and
 * pthread_create's. */
int perdoaze_crew_start(struct perdoaze_crew *crew, uint32_t kind, uint32_t max, uint32_t workers, perdoaze_told *told, void *user);

/* As perdoaze_pipe_submit, from any thread, under a lock of `tfm` where others use that too. Where the pipe answers -E2BIG, it waits until all
 * is told, and begins the pipe anew; the numbers go on. */
int perdoaze_crew_submit(struct perdoaze_crew *crew, struct perdoaze *tfm, uint32_t what, const void *iv, size_t iv_len,
			 const void *aad, size_t aad_len, const void *text, size_t text_len, uint64_t *number);

/* Waits until each request is complete and told. -ENOMEM: malloc gave nothing for an answer. */
int perdoaze_crew_drain(struct perdoaze_crew *crew);

/* Drains the crew, ends its threads, and frees its pipe. */
int perdoaze_crew_stop(struct perdoaze_crew *crew);

#ifdef __cplusplus
}
#endif
#endif
