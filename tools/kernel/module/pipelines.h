/* Runs of the kernel's queues and pipelines: each is asked for by a line, and answers one. */
#ifndef PIPELINES_H
#define PIPELINES_H

#include <linux/types.h>

/* An answer that grows up to its room. */
struct answer {
	char *text;
	size_t length;
	size_t room;
};

__printf(2, 3) void say(struct answer *answer, const char *format, ...);
void say_hex(struct answer *answer, const u8 *bytes, size_t length);
void say_error(struct answer *answer, int error);

/* `BOUND STEPS`: crypto_enqueue_request and crypto_dequeue_request, on a queue of this length. */
void run_queue(char *line, struct answer *answer);

/*
 * `NAME TAG KEY HOW REQUEST..`: requests to a transform of cryptd's or pcrypt's. HOW is `free`; or `held`: nothing is
 * done before all are handed in; or `shared`: the same, and every other request goes to a second transform.
 */
void run_aead(char *line, struct answer *answer);

#endif
