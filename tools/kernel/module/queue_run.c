/* A queue of crypto/algapi.c by itself. */
#include <crypto/algapi.h>
#include <linux/slab.h>

#include "pipelines.h"

#define MAX_REQUESTS 64

static void tell_nobody(struct crypto_async_request *request, int error)
{
}

/* Takes one request out, and tells before it who leaves the backlog then, as cryptd's worker does. */
static void take_one(struct crypto_queue *queue, struct crypto_async_request *requests, struct answer *answer)
{
	struct crypto_async_request *started = crypto_get_backlog(queue);
	struct crypto_async_request *taken = crypto_dequeue_request(queue);

	if (!taken) {
		say(answer, " empty");
		return;
	}
	if (started)
		say(answer, " %ld:started", (long)(started - requests));
	say(answer, " %ld:taken", (long)(taken - requests));
}

/* In the steps `n` is a request, `b` one that may wait in the backlog, and `d` takes one out. */
void run_queue(char *line, struct answer *answer)
{
	struct crypto_async_request *requests = kcalloc(MAX_REQUESTS, sizeof(*requests), GFP_KERNEL);
	struct crypto_queue queue;
	unsigned int bound, count = 0;
	char *step;

	if (!requests || kstrtouint(strsep(&line, " "), 10, &bound) || !line) {
		say_error(answer, -EINVAL);
		kfree(requests);
		return;
	}
	crypto_init_queue(&queue, bound);
	for (step = line; *step; step++) {
		if (*step == 'd') {
			take_one(&queue, requests, answer);
			continue;
		}
		if (count == MAX_REQUESTS)
			break;
		requests[count].flags = *step == 'b' ? CRYPTO_TFM_REQ_MAY_BACKLOG : 0;
		requests[count].complete = tell_nobody;
		say(answer, " %u=", count);
		say_error(answer, crypto_enqueue_request(&queue, &requests[count]));
		count++;
	}
	kfree(requests);
}
