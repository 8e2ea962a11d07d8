/* for a lock that spins before it sleeps */
#define _GNU_SOURCE
#include "perdoaze_threads.h"

#include <errno.h>
#include <stdlib.h>
#include <string.h>
#include <time.h>

/* The functions before `work` are called under the crew's lock. */

/* Room for an answer of so many bytes. */
static bool has_room(struct perdoaze_crew *crew, size_t size)
{
	uint8_t *bytes = size > crew->room ? realloc(crew->bytes, size) : crew->bytes;

	if (size > crew->room && !bytes)
		return false;
	crew->bytes = bytes;
	crew->room = size > crew->room ? size : crew->room;
	return true;
}

/* Tells all that the pipe tells, without the lock meanwhile. One thread at a time does: so its order stays. */
static void tell_all(struct perdoaze_crew *crew)
{
	struct perdoaze_event event;
	int polled;

	if (crew->is_telling)
		return;
	crew->is_telling = true;
	while ((polled = perdoaze_pipe_poll(&crew->pipe, &event, crew->bytes, crew->room))) {
		if (polled == -EOVERFLOW && has_room(crew, event.size))
			continue;
		if (polled < 0) {
			crew->error = -ENOMEM;
			break;
		}
		event.number += crew->before;
		crew->complete += event.kind == PERDOAZE_COMPLETE;
		pthread_mutex_unlock(&crew->lock);
		crew->told(crew->user, &event, crew->bytes);
		pthread_mutex_lock(&crew->lock);
	}
	crew->is_telling = false;
	if (crew->complete == crew->accepted || crew->error)
		pthread_cond_broadcast(&crew->idle);
}

/* Waits until each request is complete, and all is told. */
static int drain(struct perdoaze_crew *crew)
{
	for (;;) {
		int drained = 0;

		tell_all(crew);
		if (crew->error)
			return crew->error;
		if (!crew->is_telling)
			drained = perdoaze_pipe_drained(&crew->pipe);
		if (drained)
			return drained == 1 ? 0 : drained;
		pthread_cond_wait(&crew->idle, &crew->lock);
	}
}

/* Begins the pipe anew, once all is told. */
static int begin_anew(struct perdoaze_crew *crew)
{
	int err = drain(crew);

	if (err)
		return err;
	crew->before += crew->accepted;
	crew->accepted = 0;
	crew->taken = 0;
	crew->complete = 0;
	return perdoaze_pipe_init(&crew->pipe, crew->kind, crew->max, crew->workers * crew->each);
}

static void wait_a_moment(struct perdoaze_crew *crew)
{
	const struct timespec moment = { 0, 1000000 };

	pthread_mutex_unlock(&crew->lock);
	nanosleep(&moment, NULL);
	pthread_mutex_lock(&crew->lock);
}

/* How many jobs a thread takes: its share of those that wait, so that the other threads have theirs. */
static uint32_t share(const struct perdoaze_crew *crew)
{
	uint64_t waiting = crew->accepted - crew->taken, part = 1 + waiting / (crew->workers + 1);

	return part < crew->each ? (uint32_t)part : crew->each;
}

static void *work(void *given)
{
	struct perdoaze_crew *crew = given;
	struct perdoaze_job jobs[PERDOAZE_CREW_JOBS];
	uint32_t first;

	memset(jobs, 0, sizeof jobs);
	pthread_mutex_lock(&crew->lock);
	first = 1 + crew->each * crew->next++;
	for (;;) {
		int took = perdoaze_pipe_take_many(&crew->pipe, first, jobs, share(crew));

		if (took > 0) {
			crew->taken += (uint32_t)took;
			pthread_mutex_unlock(&crew->lock);
			perdoaze_jobs_run(jobs, (size_t)took);
			pthread_mutex_lock(&crew->lock);
			for (int i = 0; i < took; i++)
				perdoaze_pipe_finish(&crew->pipe, &jobs[i]);
			tell_all(crew);
		} else if (took == -ENOMEM) {
			wait_a_moment(crew);
		} else if (crew->is_ending) {
			break;
		} else {
			pthread_cond_wait(&crew->work, &crew->lock);
		}
	}
	pthread_mutex_unlock(&crew->lock);
	for (int i = 0; i < PERDOAZE_CREW_JOBS; i++)
		perdoaze_job_free(&jobs[i]);
	return NULL;
}

static void end(struct perdoaze_crew *crew, uint32_t started)
{
	pthread_mutex_lock(&crew->lock);
	crew->is_ending = true;
	pthread_cond_broadcast(&crew->work);
	pthread_mutex_unlock(&crew->lock);
	for (uint32_t i = 0; i < started; i++)
		pthread_join(crew->threads[i], NULL);
	perdoaze_pipe_free(&crew->pipe);
	pthread_cond_destroy(&crew->work);
	pthread_cond_destroy(&crew->idle);
	pthread_mutex_destroy(&crew->lock);
	free(crew->bytes);
}

int perdoaze_crew_start(struct perdoaze_crew *crew, uint32_t kind, uint32_t max, uint32_t workers, perdoaze_told *told, void *user)
{
	pthread_mutexattr_t spins;
	int err;

	memset(crew, 0, sizeof *crew);
	crew->kind = kind;
	crew->max = max;
	crew->workers = workers;
	crew->told = told;
	crew->user = user;
	if (!workers || workers > PERDOAZE_MAX_WORKERS)
		return -EINVAL;
	crew->each = PERDOAZE_MAX_WORKERS / workers;
	if (crew->each > PERDOAZE_CREW_JOBS)
		crew->each = PERDOAZE_CREW_JOBS;
	err = perdoaze_pipe_init(&crew->pipe, kind, max, workers * crew->each);
	if (err)
		return err;
	pthread_mutexattr_init(&spins);
	pthread_mutexattr_settype(&spins, PTHREAD_MUTEX_ADAPTIVE_NP);
	pthread_mutex_init(&crew->lock, &spins);
	pthread_mutexattr_destroy(&spins);
	pthread_cond_init(&crew->work, NULL);
	pthread_cond_init(&crew->idle, NULL);
	for (uint32_t i = 0; i < workers && !err; i++) {
		err = -pthread_create(&crew->threads[i], NULL, work, crew);
		if (err)
			end(crew, i);
	}
	return err;
}

int perdoaze_crew_submit(struct perdoaze_crew *crew, struct perdoaze *tfm, uint32_t what, const void *iv, size_t iv_len,
			 const void *aad, size_t aad_len, const void *text, size_t text_len, uint64_t *number)
{
	uint64_t n = 0;
	int err;

	pthread_mutex_lock(&crew->lock);
	do
		err = perdoaze_pipe_submit(&crew->pipe, tfm, what, iv, iv_len, aad, aad_len, text, text_len, &n);
	while (err == -E2BIG && crew->accepted && !begin_anew(crew));
	if (err == -EINPROGRESS || err == -EBUSY) {
		crew->accepted = n + 1;
		if (number)
			*number = crew->before + n;
		pthread_cond_signal(&crew->work);
	}
	pthread_mutex_unlock(&crew->lock);
	return err;
}

int perdoaze_crew_drain(struct perdoaze_crew *crew)
{
	int err;

	pthread_mutex_lock(&crew->lock);
	err = drain(crew);
	pthread_mutex_unlock(&crew->lock);
	return err;
}

int perdoaze_crew_stop(struct perdoaze_crew *crew)
{
	int err = perdoaze_crew_drain(crew);

	end(crew, crew->workers);
	return err;
}
