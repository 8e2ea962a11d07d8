/* Random calls on five pipes of each kind by eight threads: each pipe tells in order, with the values of each request, whatever else
 * is tried: jobs finished on another pipe, twice, or before they were run, transforms that are freed while their jobs run, queues that
 * are held, and masks. Of a request that waited in a backlog it tells once that it started, before it is complete.
 *
 * usage: pipes CALLS SEED */
#include <errno.h>
#include <perdoaze.h>
#include <pthread.h>
#include <stdio.h>
#include <stdlib.h>
#include <string.h>

#define THREADS 8
#define PIPES 5
#define BOUND 4
#define LONGEST 80
#define MOST (1 << 20)
#define FULL_MASK ((1u << THREADS) - 1)

/* `late` says of each request whether it waits in the backlog, until it started. */
struct line {
	pthread_mutex_t lock;
	struct perdoaze_pipe pipe;
	uint64_t next, accepted;
	uint32_t *seeds, kind, mask;
	bool *late, is_held;
};

static struct line lines[PIPES];
static struct perdoaze first = PERDOAZE_NONE;
static long calls;
static unsigned seed;

struct worker {
	pthread_t thread;
	struct perdoaze own;
	uint64_t state;
	uint32_t number;
	long told, crossed, started, refused;
	int line;
};

#define CHECK(worker, holds) \
	do { \
		if (!(holds)) { \
			(worker)->line = __LINE__; \
			return false; \
		} \
	} while (0)

static uint32_t draw(struct worker *w, uint32_t below)
{
	w->state = w->state * 6364136223846793005u + 1442695040888963407u;
	return (uint32_t)(w->state >> 33) % below;
}

/* The request of a seed: how many bytes its text has. */
static size_t request_of(uint32_t of, uint8_t *iv, uint8_t *text)
{
	size_t n = of % (LONGEST + 1);

	memset(iv, 0, 12);
	memcpy(iv, &of, sizeof of);
	for (size_t i = 0; i < n; i++)
		text[i] = (uint8_t)(of + i * 7);
	return n;
}

/* Submits under the line's lock, sometimes by a transform that is freed at once. */
static bool submit(struct worker *w, struct line *l)
{
	struct perdoaze brief = PERDOAZE_NONE, *tfm = &w->own;
	uint32_t of = draw(w, UINT32_MAX >> 2);
	uint8_t iv[12], text[LONGEST];
	size_t n = request_of(of, iv, text);
	uint64_t number = UINT64_MAX;
	bool may_wait = draw(w, 2) == 0;
	int err;

	if (draw(w, 8) == 0) {
		CHECK(w, !perdoaze_dup(&w->own, &brief));
		tfm = &brief;
	}
	err = perdoaze_pipe_submit(&l->pipe, tfm, PERDOAZE_ENCRYPT | (may_wait ? PERDOAZE_MAY_BACKLOG : 0), iv, 12, iv, 4, text, n, &number);
	perdoaze_free(&brief);
	if (err != -EINPROGRESS && err != -EBUSY) {
		CHECK(w, number == UINT64_MAX);
		CHECK(w, err == -E2BIG || (err == -ENOSPC && l->kind != PERDOAZE_PCRYPT && !may_wait) || (err == -EINVAL && !l->mask));
		w->refused++;
		return true;
	}
	CHECK(w, number == l->accepted && number < MOST && l->mask);
	CHECK(w, err == -EINPROGRESS || (may_wait && l->kind != PERDOAZE_PCRYPT));
	l->late[l->accepted] = err == -EBUSY;
	l->seeds[l->accepted++] = of;
	return true;
}

/* Takes, runs and finishes a job, and tries what must be refused. */
static bool work(struct worker *w, struct line *l, struct line *other)
{
	struct perdoaze_job job = PERDOAZE_NONE;
	bool is_bad = draw(w, 4) == 0;
	int took;

	pthread_mutex_lock(&l->lock);
	took = perdoaze_pipe_take(&l->pipe, w->number, &job);
	if (took == 1 && ((l->is_held && l->kind == PERDOAZE_CRYPTD) || !(l->mask >> (w->number - 1) & 1)))
		took = -EPERM;
	if (took == 1 && is_bad)
		is_bad = perdoaze_pipe_finish(&l->pipe, &job) != -EINVAL || perdoaze_pipe_take(&l->pipe, w->number, &job) != -EINVAL;
	pthread_mutex_unlock(&l->lock);
	CHECK(w, !is_bad || took != 1);
	if (took != 1) {
		CHECK(w, took == 0);
		perdoaze_job_free(&job);
		return true;
	}
	CHECK(w, !(draw(w, 2) ? perdoaze_job_run(&job) : perdoaze_jobs_run(&job, 1)) && perdoaze_job_run(&job) == -EINVAL);
	pthread_mutex_lock(&other->lock);
	took = perdoaze_pipe_finish(&other->pipe, &job);
	pthread_mutex_unlock(&other->lock);
	CHECK(w, took == -EINVAL);
	w->crossed++;
	pthread_mutex_lock(&l->lock);
	took = perdoaze_pipe_finish(&l->pipe, &job);
	if (!took)
		took = perdoaze_pipe_finish(&l->pipe, &job) == -EINVAL ? 0 : 1;
	pthread_mutex_unlock(&l->lock);
	CHECK(w, took == 0);
	perdoaze_job_free(&job);
	return true;
}

/* Polls under the line's lock: the next number, with its value. */
static bool poll(struct worker *w, struct line *l)
{
	struct perdoaze_event event;
	uint8_t iv[12], text[LONGEST], want[LONGEST + 16], out[LONGEST + 16];
	size_t n, made = 0;
	int polled = perdoaze_pipe_poll(&l->pipe, &event, out, draw(w, 4) ? sizeof out : 1);

	if (polled == -EOVERFLOW)
		polled = perdoaze_pipe_poll(&l->pipe, &event, out, sizeof out);
	CHECK(w, polled == 0 || polled == 1);
	if (!polled)
		return true;
	CHECK(w, event.number < l->accepted && !event.status);
	if (event.kind == PERDOAZE_STARTED) {
		CHECK(w, event.number >= l->next && l->late[event.number] && !event.size);
		l->late[event.number] = false;
		w->started++;
		return true;
	}
	CHECK(w, event.kind == PERDOAZE_COMPLETE && event.number == l->next && !l->late[l->next]);
	n = request_of(l->seeds[l->next++], iv, text);
	CHECK(w, !perdoaze_encrypt(&w->own, iv, 12, iv, 4, text, n, want, sizeof want, &made));
	CHECK(w, made == event.size && !memcmp(want, out, made));
	w->told++;
	return true;
}

/* Holds the queue or lets it go, or masks the pad. */
static bool steer(struct worker *w, struct line *l, bool hold, uint32_t mask)
{
	bool is_pad = l->kind == PERDOAZE_PCRYPT;
	int held = hold ? perdoaze_pipe_hold(&l->pipe) : perdoaze_pipe_go(&l->pipe);

	CHECK(w, held == (is_pad ? -EINVAL : 0));
	CHECK(w, perdoaze_pipe_mask(&l->pipe, mask) == (is_pad ? 0 : -EINVAL) && perdoaze_pipe_mask(&l->pipe, 1u << THREADS) == -EINVAL);
	l->is_held = hold && !is_pad;
	l->mask = is_pad ? mask : FULL_MASK;
	return true;
}

/* Whether it is drained, which is so where all is told. Then it begins anew now and then. */
static bool manage(struct worker *w, struct line *l)
{
	int drained = perdoaze_pipe_drained(&l->pipe);

	CHECK(w, drained == (l->next == l->accepted));
	if (drained && draw(w, 64) == 0) {
		CHECK(w, !perdoaze_pipe_init(&l->pipe, l->kind, BOUND, THREADS));
		l->next = l->accepted = 0;
		l->mask = FULL_MASK;
		l->is_held = false;
	}
	if (draw(w, 32) == 0)
		return steer(w, l, draw(w, 4) == 0, draw(w, 8) ? draw(w, FULL_MASK) + 1 : 0);
	return true;
}

static bool call(struct worker *w)
{
	uint32_t which = draw(w, PIPES), kind = draw(w, 16);
	struct line *l = &lines[which];
	bool holds;

	if (kind < 6)
		return work(w, l, &lines[(which + 1) % PIPES]);
	pthread_mutex_lock(&l->lock);
	holds = kind < 10 ? submit(w, l) : kind < 15 ? poll(w, l) : manage(w, l);
	pthread_mutex_unlock(&l->lock);
	return holds;
}

static void *run(void *given)
{
	struct worker *w = given;

	for (long i = 0; i < calls / THREADS && call(w); i++)
		;
	return NULL;
}

/* All that is left is done by one thread. */
static bool end(struct worker *w, struct line *l)
{
	struct perdoaze_job job = PERDOAZE_NONE;

	CHECK(w, steer(w, l, false, FULL_MASK));
	while (l->next < l->accepted) {
		CHECK(w, work(w, l, l == lines ? lines + 1 : lines));
		CHECK(w, poll(w, l) && poll(w, l));
	}
	CHECK(w, perdoaze_pipe_drained(&l->pipe) == 1);
	perdoaze_pipe_free(&l->pipe);
	CHECK(w, perdoaze_pipe_take(&l->pipe, 1, &job) == -EINVAL);
	return true;
}

int main(int count, char **words)
{
	struct worker workers[THREADS];
	long told = 0, crossed = 0, started = 0, refused = 0;
	int bad = 0;

	calls = count > 1 ? atol(words[1]) : 100000;
	seed = count > 2 ? (unsigned)atol(words[2]) : 1;
	memset(workers, 0, sizeof workers);
	if (perdoaze_init(&first, "gcm(aes)") || perdoaze_setkey(&first, "0123456789abcdef", 16))
		return 1;
	for (uint32_t i = 0; i < PIPES; i++) {
		pthread_mutex_init(&lines[i].lock, NULL);
		lines[i].seeds = calloc(MOST, sizeof *lines[i].seeds);
		lines[i].late = calloc(MOST, sizeof *lines[i].late);
		lines[i].kind = PERDOAZE_PCRYPT + i % 3;
		lines[i].mask = FULL_MASK;
		if (!lines[i].seeds || !lines[i].late || perdoaze_pipe_init(&lines[i].pipe, lines[i].kind, BOUND, THREADS))
			return 1;
	}
	for (uint32_t i = 0; i < THREADS; i++) {
		workers[i].number = i + 1;
		workers[i].state = seed * 1000003u + i;
		if (perdoaze_dup(&first, &workers[i].own))
			return 1;
	}
	perdoaze_free(&first);
	for (int i = 0; i < THREADS; i++)
		if (pthread_create(&workers[i].thread, NULL, run, &workers[i]))
			return 1;
	for (int i = 0; i < THREADS; i++)
		pthread_join(workers[i].thread, NULL);
	for (int i = 0; i < PIPES && !workers[0].line; i++)
		end(&workers[0], &lines[i]);
	for (int i = 0; i < THREADS; i++) {
		if (workers[i].line)
			bad = printf("worker %d: line %d\n", i + 1, workers[i].line);
		told += workers[i].told;
		crossed += workers[i].crossed;
		started += workers[i].started;
		refused += workers[i].refused;
		perdoaze_free(&workers[i].own);
	}
	for (int i = 0; i < PIPES; i++) {
		free(lines[i].seeds);
		free(lines[i].late);
	}
	printf("%ld calls: %ld requests complete in order, %ld started, %ld refused, %ld jobs refused by another pipe\n", calls, told, started,
	       refused, crossed);
	return bad || !told || !crossed || !started || !refused;
}
