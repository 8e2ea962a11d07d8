/* perdoaze_jobs_run beside perdoaze_encrypt: jobs that several workers of one pipe hold, run side by side and one after another, under one
 * key and under several, and places that have none. */
#include <errno.h>
#include <perdoaze.h>
#include <stdio.h>
#include <string.h>

#define MOST PERDOAZE_MAX_WORKERS
#define LONGEST 1600
#define ROUNDS 3000
#define KINDS 5

struct request {
	uint8_t iv[16], aad[16], text[LONGEST];
	size_t iv_len, aad_len, n;
	uint32_t what;
	struct perdoaze *tfm;
};

static const char *const names[KINDS] = { "authenc(hmac(sha256),cbc(aes))", "authenc(hmac(sha256),cbc(aes))", "cbc(aes)", "gcm(aes)", "hmac(sha256)" };
static struct perdoaze tfms[KINDS];
static struct request asked[MOST];
static unsigned long seed = 1, jobs_run, together;

static unsigned draw(unsigned n)
{
	seed = seed * 6364136223846793005u + 1442695040888963407u;
	return (unsigned)(seed >> 33) % n;
}

static int begin(void)
{
	uint8_t blob[40] = { 8, 0, 1, 0, 0, 0, 0, 16 };

	for (int i = 0; i < KINDS; i++) {
		blob[8] = (uint8_t)i;
		if (perdoaze_init(&tfms[i], names[i]) || perdoaze_setkey(&tfms[i], i < 2 ? blob : blob + 8, i < 2 ? 40 : 16))
			return printf("%s: isn't made\n", names[i]);
	}
	return perdoaze_setauthsize(&tfms[1], 12);
}

/* A request of that kind. Some are to be decrypted, and have no right tag. */
static void make(struct request *r, int kind)
{
	*r = (struct request){ .tfm = &tfms[kind], .what = draw(9) ? PERDOAZE_ENCRYPT : PERDOAZE_DECRYPT, .n = 16 * draw(draw(3) ? 8 : 100) };
	r->iv_len = kind == 3 ? 12 : 16;
	r->aad_len = kind == 2 ? 0 : draw(17);
	if (kind == 4) {
		r->what = PERDOAZE_DIGEST;
		r->iv_len = r->aad_len = 0;
	}
	for (size_t i = 0; i < r->n; i++)
		r->text[i] = (uint8_t)draw(256);
	for (int i = 0; i < 16; i++) {
		r->iv[i] = (uint8_t)draw(256);
		r->aad[i] = (uint8_t)draw(256);
	}
}

static int submit(struct perdoaze_pipe *pipe, const struct request *r)
{
	return perdoaze_pipe_submit(pipe, r->tfm, r->what, r->iv, r->iv_len, r->aad, r->aad_len, r->text, r->n, NULL);
}

/* What the request comes to by itself. */
static int by_itself(const struct request *r, uint8_t *out, size_t room, size_t *made)
{
	if (r->what == PERDOAZE_DIGEST)
		return perdoaze_digest(r->tfm, r->text, r->n, out, room, made);
	if (r->what == PERDOAZE_DECRYPT)
		return perdoaze_decrypt(r->tfm, r->iv, r->iv_len, r->aad, r->aad_len, r->text, r->n, out, room, made);
	return perdoaze_encrypt(r->tfm, r->iv, r->iv_len, r->aad, r->aad_len, r->text, r->n, out, room, made);
}

/* Whether the pipe tells the requests in order, as each comes to by itself. */
static int compare(struct perdoaze_pipe *pipe, unsigned count)
{
	static uint8_t out[LONGEST + 64], want[LONGEST + 64];
	struct perdoaze_event event;

	for (unsigned i = 0; i < count; i++) {
		size_t made = 0;
		int got = perdoaze_pipe_poll(pipe, &event, out, sizeof out), wanted = by_itself(&asked[i], want, sizeof want, &made);

		if (got != 1 || event.status != wanted || event.size != made || memcmp(out, want, made))
			return printf("request %u of %u: %d and %zu bytes, and not %d and %zu\n", i, count, event.status, event.size, wanted, made);
	}
	return perdoaze_pipe_poll(pipe, &event, out, sizeof out);
}

/* Requests of one kind, or of any, taken by several workers at once. Some jobs were run before. */
static int try_round(void)
{
	struct perdoaze_pipe pipe = PERDOAZE_NONE;
	struct perdoaze_job jobs[MOST];
	unsigned count = 0, most = 1 + draw(MOST), same = draw(2);
	int kind = (int)draw(KINDS), took;

	memset(jobs, 0, sizeof jobs);
	if (perdoaze_pipe_init(&pipe, PERDOAZE_PCRYPT, 0, MOST))
		return printf("no pipe\n");
	while (count < most) {
		make(&asked[count], same ? kind : (int)draw(KINDS));
		if (submit(&pipe, &asked[count]) == -EINPROGRESS)
			count++;
	}
	took = perdoaze_pipe_take_many(&pipe, 1, jobs, MOST);
	if (took != (int)count || perdoaze_pipe_take_many(&pipe, 1, jobs, MOST) != -EINVAL)
		return printf("%d of %u jobs\n", took, count);
	if (draw(3) == 0 && perdoaze_job_run(&jobs[draw(count)]))
		return printf("a job isn't run\n");
	if (perdoaze_jobs_run(jobs, draw(2) ? count : MOST))
		return printf("no jobs\n");
	for (unsigned i = 0; i < count; i++)
		if (perdoaze_job_run(&jobs[i]) != -EINVAL || perdoaze_pipe_finish(&pipe, &jobs[i]) || perdoaze_pipe_finish(&pipe, &jobs[i]) != -EINVAL)
			return printf("job %u of %u wasn't run\n", i, count);
	jobs_run += count;
	together += same && kind < 3;
	for (unsigned i = 0; i < MOST; i++)
		perdoaze_job_free(&jobs[i]);
	if (compare(&pipe, count) || perdoaze_pipe_drained(&pipe) != 1)
		return 1;
	perdoaze_pipe_free(&pipe);
	return 0;
}

static int refused(void)
{
	struct perdoaze_pipe pipe = PERDOAZE_NONE;
	struct perdoaze_job job = PERDOAZE_NONE;

	return perdoaze_jobs_run(NULL, 1) != -EINVAL || perdoaze_jobs_run(NULL, 0) || perdoaze_jobs_run(&job, 1)
	       || perdoaze_pipe_take_many(&pipe, 1, &job, 1) != -EINVAL || perdoaze_pipe_take_many(NULL, 1, &job, 1) != -EINVAL
	       || perdoaze_pipe_take_many(&pipe, 1, NULL, 1) != -EINVAL || perdoaze_pipe_take_many(&pipe, 1, NULL, 0);
}

int main(void)
{
	if (begin())
		return 1;
	for (int round = 0; round < ROUNDS; round++)
		if (try_round())
			return printf("round %d\n", round);
	if (refused())
		return printf("what must be refused isn't\n");
	for (int i = 0; i < KINDS; i++)
		perdoaze_free(&tfms[i]);
	printf("perdoaze_jobs_run: %lu jobs, %lu times under one key\n", jobs_run, together);
	return 0;
}
