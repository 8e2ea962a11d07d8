/* Packets of 1,400 bytes under GCM, or with the word `authenc` of 1,392 bytes under authenc(hmac(sha256),cbc(aes)), beside 1, 2 and 4
 * workers of a crew (examples/c/perdoaze_threads.c).
 *
 * It prints a line for each number of workers: the number; millions of packets a second by so many threads at once, each by itself with
 * perdoaze_encrypt; by a crew of so many; and by the crew, whose jobs were all submitted before the clock begins. The last line
 * has one thread's of OpenSSL under GCM, which uses the processor's instructions unless OPENSSL_ia32cap forbids it. */
#include "../../examples/c/perdoaze_threads.c"

#include <errno.h>
#include <openssl/evp.h>
#include <stdio.h>
#include <stdlib.h>
#include <string.h>
#include <time.h>

#define MOST_SIZE 1400
#define PACKETS 30000
#define ROUNDS 5
#define MOST 4

static const uint8_t key[40] = { 8, 0, 1, 0, 0, 0, 0, 16 }, aad[16] = { 8 };
static uint8_t text[MOST_SIZE];
static size_t size = MOST_SIZE, iv_len = 12;
static struct perdoaze tfm = PERDOAZE_NONE;
static uint64_t told_bytes;
static volatile uint64_t told_count;

static double now(void)
{
	struct timespec t;

	clock_gettime(CLOCK_MONOTONIC, &t);
	return (double)t.tv_sec + (double)t.tv_nsec * 1e-9;
}

static void die(const char *what)
{
	fprintf(stderr, "pipes_speed: %s\n", what);
	exit(1);
}

/* All packets by one thread. */
static void *seal_all(void *given)
{
	struct perdoaze *own = given;
	uint8_t out[MOST_SIZE + 32];
	uint32_t nonce[4] = { 0 };
	size_t n;

	for (uint32_t i = 0; i < PACKETS; i++) {
		nonce[0] = i;
		if (perdoaze_encrypt(own, nonce, iv_len, aad, sizeof aad, text, size, out, sizeof out, &n))
			die("no answer");
	}
	return NULL;
}

/* The seconds of so many threads, each with all packets. */
static double at_once(uint32_t threads)
{
	struct perdoaze own[MOST];
	pthread_t ids[MOST];
	double begin;

	memset(own, 0, sizeof own);
	for (uint32_t i = 0; i < threads; i++)
		if (perdoaze_dup(&tfm, &own[i]))
			die("no memory");
	begin = now();
	for (uint32_t i = 0; i < threads; i++)
		if (pthread_create(&ids[i], NULL, seal_all, &own[i]))
			die("no thread");
	for (uint32_t i = 0; i < threads; i++)
		pthread_join(ids[i], NULL);
	begin = now() - begin;
	for (uint32_t i = 0; i < threads; i++)
		perdoaze_free(&own[i]);
	return begin;
}

static void told(void *user, const struct perdoaze_event *event, const uint8_t *bytes)
{
	(void)user;
	told_bytes += event->size + bytes[0];
	told_count++;
}

/* The seconds of a crew with all packets: from the first that is submitted on, or from where all are. */
static double by_crew(uint32_t workers, bool before)
{
	struct perdoaze_crew crew;
	uint32_t nonce[4] = { 0 };
	double begin;

	told_count = 0;
	if (perdoaze_crew_start(&crew, PERDOAZE_PCRYPT, 0, workers, told, NULL))
		die("no crew");
	if (before)
		pthread_mutex_lock(&crew.lock);
	begin = now();
	for (uint32_t i = 0; i < PACKETS; i++) {
		uint64_t number;
		int err;

		nonce[0] = i;
		err = before ? perdoaze_pipe_submit(&crew.pipe, &tfm, PERDOAZE_ENCRYPT, nonce, iv_len, aad, sizeof aad, text, size, &number)
			     : perdoaze_crew_submit(&crew, &tfm, PERDOAZE_ENCRYPT, nonce, iv_len, aad, sizeof aad, text, size, &number);
		if (err != -EINPROGRESS)
			die("not accepted");
	}
	if (before) {
		crew.accepted = PACKETS;
		begin = now();
		pthread_cond_broadcast(&crew.work);
		pthread_mutex_unlock(&crew.lock);
	}
	if (perdoaze_crew_stop(&crew) || told_count != PACKETS)
		die("not told");
	return now() - begin;
}

/* The seconds of one thread of OpenSSL. */
static double openssl(void)
{
	EVP_CIPHER_CTX *context = EVP_CIPHER_CTX_new();
	uint8_t out[MOST_SIZE + 16];
	uint32_t nonce[3] = { 0 };
	double begin;
	int made;

	if (!context || !EVP_EncryptInit_ex(context, EVP_aes_128_gcm(), NULL, key, NULL))
		die("no OpenSSL");
	begin = now();
	for (uint32_t i = 0; i < PACKETS; i++) {
		nonce[0] = i;
		if (!EVP_EncryptInit_ex(context, NULL, NULL, NULL, (const uint8_t *)nonce) || !EVP_EncryptUpdate(context, NULL, &made, aad, sizeof aad)
		    || !EVP_EncryptUpdate(context, out, &made, text, MOST_SIZE) || !EVP_EncryptFinal_ex(context, out + made, &made)
		    || !EVP_CIPHER_CTX_ctrl(context, EVP_CTRL_AEAD_GET_TAG, 16, out + MOST_SIZE))
			die("no OpenSSL");
	}
	begin = now() - begin;
	EVP_CIPHER_CTX_free(context);
	return begin;
}

static double least(double a, double b)
{
	return a < b ? a : b;
}

/* The transform that the word names. */
static void begin(bool is_gcm)
{
	size = is_gcm ? MOST_SIZE : 1392;
	iv_len = is_gcm ? 12 : 16;
	if (perdoaze_init(&tfm, is_gcm ? "gcm(aes)" : "authenc(hmac(sha256),cbc(aes))") || perdoaze_setkey(&tfm, key, is_gcm ? 16 : sizeof key))
		die("no transform");
}

int main(int count, char **words)
{
	bool is_gcm = count < 2 || strcmp(words[1], "authenc") != 0;
	double alone[MOST + 1], crew[MOST + 1], jobs[MOST + 1], theirs = 1e9;

	begin(is_gcm);
	for (uint32_t k = 1; k <= MOST; k++)
		alone[k] = crew[k] = jobs[k] = 1e9;
	for (int round = 0; round < ROUNDS; round++) {
		for (uint32_t k = 1; k <= MOST; k *= 2) {
			alone[k] = least(alone[k], at_once(k));
			crew[k] = least(crew[k], by_crew(k, false));
			jobs[k] = least(jobs[k], by_crew(k, true));
		}
		theirs = least(theirs, is_gcm ? openssl() : 1e9);
	}
	for (uint32_t k = 1; k <= MOST; k *= 2)
		printf("%u\t%.4f\t%.4f\t%.4f\n", k, k * PACKETS / alone[k] * 1e-6, PACKETS / crew[k] * 1e-6, PACKETS / jobs[k] * 1e-6);
	printf("openssl\t%.4f\n", PACKETS / theirs * 1e-6);
	perdoaze_free(&tfm);
	return told_bytes == 0;
}
