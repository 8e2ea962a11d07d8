/* Eight threads under one key without a lock, each with a struct of its own by perdoaze_dup; and one struct under a lock. */
#include <perdoaze.h>
#include <pthread.h>
#include <stdio.h>
#include <string.h>

#define THREADS 8
#define ROUNDS 200

static struct perdoaze first = PERDOAZE_NONE, shared = PERDOAZE_NONE;
static pthread_mutex_t lock = PTHREAD_MUTEX_INITIALIZER;

struct part {
	struct perdoaze own;
	uint8_t number;
	int line;
};

#define CHECK(part, holds) \
	do { \
		if (!(holds)) { \
			(part)->line = __LINE__; \
			return NULL; \
		} \
	} while (0)

static void *work(void *given)
{
	struct part *part = given;
	uint8_t iv[12] = { 0 }, text[1400], sealed[1416], again[1416], opened[1400];
	size_t n = 0, m = 0;

	memset(text, part->number, sizeof text);
	iv[0] = part->number;
	for (int i = 0; i < ROUNDS; i++) {
		iv[1] = (uint8_t)i;
		CHECK(part, !perdoaze_encrypt(&part->own, iv, 12, iv, 12, text, sizeof text, sealed, sizeof sealed, &n) && n == 1416);
		CHECK(part, !perdoaze_decrypt(&part->own, iv, 12, iv, 12, sealed, n, opened, sizeof opened, &m) && !memcmp(opened, text, m));
		pthread_mutex_lock(&lock);
		int err = perdoaze_encrypt(&shared, iv, 12, iv, 12, text, sizeof text, again, sizeof again, &n);
		pthread_mutex_unlock(&lock);
		CHECK(part, !err && !memcmp(sealed, again, n));
	}
	perdoaze_free(&part->own);
	return NULL;
}

int main(void)
{
	struct part parts[THREADS];
	pthread_t threads[THREADS];
	int bad = 0;

	memset(parts, 0, sizeof parts);
	if (perdoaze_init(&first, "gcm(aes)") || perdoaze_setkey(&first, "0123456789abcdef", 16) || perdoaze_dup(&first, &shared))
		return 1;
	for (int i = 0; i < THREADS; i++) {
		parts[i].number = (uint8_t)(i + 1);
		if (perdoaze_dup(&first, &parts[i].own) || pthread_create(&threads[i], NULL, work, &parts[i]))
			return 1;
	}
	perdoaze_free(&first);
	for (int i = 0; i < THREADS; i++) {
		pthread_join(threads[i], NULL);
		if (parts[i].line)
			bad = printf("thread %d: line %d\n", i, parts[i].line);
	}
	perdoaze_free(&shared);
	return bad ? 1 : 0;
}
