/* Requests to transforms of cryptd and pcrypt, and what is told of each, in order. */
#include <crypto/aead.h>
#include <linux/completion.h>
#include <linux/kernel.h>
#include <linux/scatterlist.h>
#include <linux/slab.h>
#include <linux/vmalloc.h>

#include "pipelines.h"

#define MAX_REQUESTS 128
#define LARGEST_TAG 32
#define SECONDS 600

struct request {
	struct aead_request *asked;
	struct scatterlist pieces[1];
	u8 *bytes;
	u8 iv[16];
	unsigned int aad;
	unsigned int text;
	bool encrypts;
	bool may_wait;
	int answer;
	int outcome;
	struct run *run;
};

/* A request that is told of, and whether that it is started. */
struct event {
	unsigned int number;
	bool started;
};

struct run {
	/* the second one for every other request, where they are shared out */
	struct crypto_aead *transforms[2];
	bool shares;
	bool held;
	unsigned int tag;
	unsigned int count;
	unsigned int told;
	unsigned int done;
	unsigned int accepted;
	spinlock_t lock;
	struct completion all_done;
	struct request requests[MAX_REQUESTS];
	struct event events[2 * MAX_REQUESTS];
};

/* Notes what is told, in order. Whoever submits counts the accepted ones afterwards. */
static void note(struct crypto_async_request *asked, int error)
{
	struct request *request = asked->data;
	struct run *run = request->run;
	unsigned long flags;

	spin_lock_irqsave(&run->lock, flags);
	if (run->told < ARRAY_SIZE(run->events)) {
		run->events[run->told].number = request - run->requests;
		run->events[run->told++].started = error == -EINPROGRESS;
	}
	if (error != -EINPROGRESS) {
		request->outcome = error;
		run->done++;
		if (run->done == run->accepted)
			complete(&run->all_done);
	}
	spin_unlock_irqrestore(&run->lock, flags);
}

/* Reads digits, of which `-` is none, to a place with so much room; or a negative number. */
static int read_digits(const char *digits, u8 *to, size_t room)
{
	size_t length;

	if (!digits)
		return -EINVAL;
	if (!strcmp(digits, "-"))
		return 0;
	length = strlen(digits) / 2;
	return length > room || hex2bin(to, digits, length) ? -EINVAL : (int)length;
}

/* Reads `e`, `d`, `eb` or `db`, the IV, the associated bytes and the text, with colons between them. */
static int read_request(struct run *run, char *word)
{
	struct request *request = &run->requests[run->count];
	size_t room = strlen(word) / 2 + LARGEST_TAG;
	char *direction = strsep(&word, ":");
	int aad, text;

	request->bytes = kzalloc(room, GFP_KERNEL);
	request->asked = aead_request_alloc(run->transforms[run->shares ? run->count % 2 : 0], GFP_KERNEL);
	run->count++;
	if (!request->bytes || !request->asked)
		return -ENOMEM;
	request->run = run;
	request->encrypts = direction[0] == 'e';
	request->may_wait = direction[1] == 'b';
	if (read_digits(strsep(&word, ":"), request->iv, sizeof(request->iv)) < 0)
		return -EINVAL;
	aad = read_digits(strsep(&word, ":"), request->bytes, room);
	if (aad < 0)
		return aad;
	text = read_digits(word, request->bytes + aad, room - aad);
	if (text < 0)
		return text;
	request->aad = aad;
	request->text = text;
	sg_init_one(request->pieces, request->bytes, room);
	aead_request_set_callback(request->asked, request->may_wait ? CRYPTO_TFM_REQ_MAY_BACKLOG : 0, note, request);
	aead_request_set_ad(request->asked, aad);
	aead_request_set_crypt(request->asked, request->pieces, request->pieces, text, request->iv);
	return 0;
}

/* Hands all requests in. While one is held this processor runs nothing else, so nothing leaves its queue. */
static void submit_all(struct run *run)
{
	unsigned long flags;
	unsigned int at, accepted = 0;

	if (run->held)
		preempt_disable();
	for (at = 0; at < run->count; at++) {
		struct request *request = &run->requests[at];

		request->answer = request->encrypts ? crypto_aead_encrypt(request->asked) : crypto_aead_decrypt(request->asked);
		accepted += request->answer == -EINPROGRESS || request->answer == -EBUSY;
	}
	if (run->held)
		preempt_enable();
	spin_lock_irqsave(&run->lock, flags);
	run->accepted = accepted;
	if (run->done == accepted)
		complete(&run->all_done);
	spin_unlock_irqrestore(&run->lock, flags);
}

static void tell_outcome(struct run *run, struct request *request, struct answer *answer)
{
	unsigned int length = request->encrypts ? request->text + run->tag : request->text - run->tag;

	if (request->outcome) {
		say(answer, "fail:");
		say_error(answer, request->outcome);
	} else {
		say(answer, "done:");
		say_hex(answer, request->bytes + request->aad, length);
	}
}

static void tell(struct run *run, struct answer *answer)
{
	unsigned int at;

	for (at = 0; at < run->count; at++) {
		say(answer, " %u=", at);
		say_error(answer, run->requests[at].answer);
	}
	for (at = 0; at < run->told; at++) {
		say(answer, " %u:", run->events[at].number);
		if (run->events[at].started)
			say(answer, "started");
		else
			tell_outcome(run, &run->requests[run->events[at].number], answer);
	}
}

static int set_up_transforms(struct run *run, const char *name, const u8 *key, unsigned int length)
{
	unsigned int at;
	int error;

	for (at = 0; at < ARRAY_SIZE(run->transforms); at++) {
		struct crypto_aead *transform = crypto_alloc_aead(name, 0, 0);

		if (IS_ERR(transform))
			return PTR_ERR(transform);
		run->transforms[at] = transform;
		error = crypto_aead_setkey(transform, key, length);
		if (!error)
			error = crypto_aead_setauthsize(transform, run->tag);
		if (error)
			return error;
	}
	return 0;
}

static int set_up(struct run *run, char *line)
{
	char *name = strsep(&line, " ");
	char *word;
	u8 key[256];
	int length, error;

	if (!line || kstrtouint(strsep(&line, " "), 10, &run->tag) || !line)
		return -EINVAL;
	length = read_digits(strsep(&line, " "), key, sizeof(key));
	if (length < 0 || !line)
		return -EINVAL;
	error = set_up_transforms(run, name, key, length);
	word = strsep(&line, " ");
	run->shares = !strcmp(word, "shared");
	run->held = run->shares || !strcmp(word, "held");
	while (!error && (word = strsep(&line, " ")))
		error = run->count == MAX_REQUESTS ? -E2BIG : read_request(run, word);
	return error;
}

static void tear_down(struct run *run)
{
	unsigned int at;

	for (at = 0; at < run->count; at++) {
		aead_request_free(run->requests[at].asked);
		kfree(run->requests[at].bytes);
	}
	for (at = 0; at < ARRAY_SIZE(run->transforms); at++)
		if (run->transforms[at])
			crypto_free_aead(run->transforms[at]);
	vfree(run);
}

void run_aead(char *line, struct answer *answer)
{
	struct run *run = vzalloc(sizeof(*run));
	int error;

	if (!run)
		return;
	run->accepted = UINT_MAX;
	spin_lock_init(&run->lock);
	init_completion(&run->all_done);
	error = set_up(run, line);
	if (error) {
		say_error(answer, error);
		tear_down(run);
		return;
	}
	submit_all(run);
	if (wait_for_completion_timeout(&run->all_done, SECONDS * HZ)) {
		tell(run, answer);
		tear_down(run);
	} else {
		/* what still runs may not be let go */
		say_error(answer, -ETIMEDOUT);
	}
}
