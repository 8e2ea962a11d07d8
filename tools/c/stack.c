/* Makes each call, under each driver, on a stack of its own, and looks at it afterwards: no call reaches deeper than the header says, and
 * perdoaze_wipe_stack leaves none of what lay there. With the word "table" it prints how deep each call reaches. */
#define _DEFAULT_SOURCE
#include <perdoaze.h>
#include <stdio.h>
#include <string.h>
#include <ucontext.h>

#define SIZE (1 << 18)
#define PAINT 0x5a
/* as many bytes of text as go by lanes, by tables, by pieces on the stack and by pieces where they lie */
#define LONG 16384
#define SHORT 1024
#define PIECES PERDOAZE_MAX_PIECES

static uint8_t stack[SIZE], text[LONG + 64], out[LONG + 64], iv[16] = { 1 }, key[64], many_out[8][96];
static struct iovec pieces[PIECES], two[2];
static struct perdoaze_info info = PERDOAZE_INFO;
static struct perdoaze tfm = PERDOAZE_NONE, second = PERDOAZE_NONE;
static ucontext_t here, there;
static const struct call *made;
static bool wipes;
static size_t frame, key_len, aad_len, sealed;
static int status;

/* What a call must answer: 0 from ciphers, from MACs, from both, or anything. */
enum kind { CIPHER, MAC, BOTH, ANY };

struct call {
	const char *name;
	enum kind kind;
	int (*make)(void);
	size_t deepest;
};

static int init(void) { return perdoaze_init(&second, info.driver); }
static int by_name(void) { return perdoaze_init(&second, info.name); }
static int setkey(void) { return perdoaze_setkey(&tfm, key, key_len); }
static int setauthsize(void) { return perdoaze_setauthsize(&tfm, info.max_tag_size); }
static int dup(void) { return perdoaze_dup(&tfm, &second); }
static int free_it(void) { perdoaze_free(&second); return 0; }
static int get_info(void) { return perdoaze_get_info(&tfm, &info); }
static int outlen(void) { size_t n; return perdoaze_outlen(&tfm, info.kind == PERDOAZE_MAC ? PERDOAZE_DIGEST : PERDOAZE_ENCRYPT, LONG, &n); }
static int compare(void) { return perdoaze_compare(text, text, LONG); }
static int list(void) { struct perdoaze_info one = PERDOAZE_INFO; return perdoaze_list(7, &one); }
static int strerror_it(void) { return !perdoaze_strerror(-22); }

static int encrypt(void) { return perdoaze_encrypt(&tfm, iv, info.iv_size, iv, aad_len, text, LONG, out, sizeof out, &sealed); }
static int encrypt_short(void) { return perdoaze_encrypt(&tfm, iv, info.iv_size, iv, aad_len, text, SHORT, out, sizeof out, &sealed); }
static int encrypt_in_place(void) { return perdoaze_encrypt_in_place(&tfm, iv, info.iv_size, iv, aad_len, out, sizeof out, LONG, &sealed); }
static int decrypt(void) { return perdoaze_decrypt(&tfm, iv, info.iv_size, iv, aad_len, out, sealed, text, sizeof text, NULL); }
static int decrypt_in_place(void) { return perdoaze_decrypt_in_place(&tfm, iv, info.iv_size, iv, aad_len, out, sealed, sealed, NULL); }
static int encryptv(void) { return perdoaze_encryptv(&tfm, iv, info.iv_size, iv, aad_len, pieces, PIECES, out, sizeof out, &sealed); }
static int encryptv_two(void) { return perdoaze_encryptv(&tfm, iv, info.iv_size, iv, aad_len, two, 2, out, sizeof out, &sealed); }
static int digest(void) { return perdoaze_digest(&tfm, text, LONG, out, sizeof out, NULL); }
static int digestv(void) { return perdoaze_digestv(&tfm, pieces, PIECES, out, sizeof out, NULL); }
static int digestv_two(void) { return perdoaze_digestv(&tfm, two, 2, out, sizeof out, NULL); }

/* What `out` has, in two pieces. */
static const struct iovec *halves(size_t n)
{
	two[0] = (struct iovec){ .iov_base = out, .iov_len = 96 };
	two[1] = (struct iovec){ .iov_base = out + 96, .iov_len = n - 96 };
	return two;
}

static int decryptv(void) { return perdoaze_decryptv(&tfm, iv, info.iv_size, iv, aad_len, halves(sealed), 2, text, sizeof text, NULL); }
static int encryptv_few(void) { return perdoaze_encryptv_in_place(&tfm, iv, info.iv_size, iv, aad_len, halves(SHORT + 64), 2, SHORT, &sealed); }
static int decryptv_few(void) { return perdoaze_decryptv_in_place(&tfm, iv, info.iv_size, iv, aad_len, halves(SHORT + 64), 2, sealed, NULL); }
static int encryptv_over(void) { return perdoaze_encryptv_in_place(&tfm, iv, info.iv_size, iv, aad_len, halves(LONG + 64), 2, LONG, &sealed); }
static int decryptv_over(void) { return perdoaze_decryptv_in_place(&tfm, iv, info.iv_size, iv, aad_len, halves(sealed), 2, sealed, NULL); }

/* From the last piece to the first, so that they are sorted. */
static int encryptv_sorted(void)
{
	static struct iovec backwards[PIECES];

	for (size_t i = 0; i < PIECES; i++)
		backwards[i] = pieces[PIECES - 1 - i];
	return perdoaze_encryptv_in_place(&tfm, iv, info.iv_size, key, aad_len, backwards, PIECES, LONG - 64, &sealed);
}

static int many(void)
{
	static struct perdoaze_request eight[8];

	for (size_t i = 0; i < 8; i++)
		eight[i] = (struct perdoaze_request){ .size = sizeof *eight, .iv = iv, .iv_len = info.iv_size, .aad = key, .aad_len = aad_len,
						      .buffer = many_out[i], .buffer_len = 96, .n = 64 };
	return perdoaze_encrypt_many(&tfm, eight, 8);
}

/* Where perdoaze_setkey stands in the list. */
#define SETKEY 2

/* In such an order that a call finds what it needs. */
static struct call calls[] = {
	{ "perdoaze_init, by a driver's name", BOTH, init, 0 },
	{ "perdoaze_init, by an algorithm's name", BOTH, by_name, 0 },
	{ "perdoaze_setkey", BOTH, setkey, 0 },
	{ "perdoaze_setauthsize", ANY, setauthsize, 0 },
	{ "perdoaze_dup", BOTH, dup, 0 },
	{ "perdoaze_free", BOTH, free_it, 0 },
	{ "perdoaze_get_info", BOTH, get_info, 0 },
	{ "perdoaze_list", BOTH, list, 0 },
	{ "perdoaze_outlen", BOTH, outlen, 0 },
	{ "perdoaze_compare", BOTH, compare, 0 },
	{ "perdoaze_strerror", BOTH, strerror_it, 0 },
	{ "perdoaze_encrypt", CIPHER, encrypt, 0 },
	{ "perdoaze_decrypt", CIPHER, decrypt, 0 },
	{ "perdoaze_encrypt_in_place", CIPHER, encrypt_in_place, 0 },
	{ "perdoaze_decrypt_in_place", CIPHER, decrypt_in_place, 0 },
	{ "perdoaze_encrypt, 1,024 bytes", CIPHER, encrypt_short, 0 },
	{ "perdoaze_encryptv, 2 pieces", CIPHER, encryptv_two, 0 },
	{ "perdoaze_encryptv, 1,024 pieces", CIPHER, encryptv, 0 },
	{ "perdoaze_decryptv", CIPHER, decryptv, 0 },
	{ "perdoaze_encryptv_in_place, few bytes", CIPHER, encryptv_few, 0 },
	{ "perdoaze_decryptv_in_place, few bytes", CIPHER, decryptv_few, 0 },
	{ "perdoaze_encryptv_in_place, many bytes", CIPHER, encryptv_over, 0 },
	{ "perdoaze_decryptv_in_place, many bytes", CIPHER, decryptv_over, 0 },
	{ "perdoaze_encryptv_in_place, sorted pieces", CIPHER, encryptv_sorted, 0 },
	{ "perdoaze_encrypt_many", CIPHER, many, 0 },
	{ "perdoaze_digest", MAC, digest, 0 },
	{ "perdoaze_digestv, 2 pieces", MAC, digestv_two, 0 },
	{ "perdoaze_digestv, 1,024 pieces", MAC, digestv, 0 },
};

static void run(void)
{
	volatile uint8_t local = 0;

	frame = (size_t)((const volatile uint8_t *)&local - stack);
	status = made->make();
	if (wipes)
		perdoaze_wipe_stack();
}

/* How deep the call reached below the frame that made it, and how many bytes below that it left. */
static size_t look(const struct call *call, bool wiping, size_t *left)
{
	size_t low = 0;

	made = call;
	wipes = wiping;
	memset(stack, PAINT, SIZE);
	getcontext(&there);
	there.uc_stack.ss_sp = stack;
	there.uc_stack.ss_size = SIZE;
	there.uc_link = &here;
	makecontext(&there, run, 0);
	swapcontext(&here, &there);
	while (low < SIZE && stack[low] == PAINT)
		low++;
	*left = 0;
	/* without the frame of `run` itself, and what the wiping call puts above and below what it wipes */
	for (size_t i = frame - PERDOAZE_SETKEY_STACK_SIZE + 512; i < frame - 512; i++)
		*left += stack[i] != 0 && stack[i] != PAINT;
	return frame - low;
}

/* Whether the call is made under this driver. */
static bool fits(const struct call *call)
{
	return call->kind == BOTH || call->kind == ANY || (call->kind == MAC) == (info.kind == PERDOAZE_MAC);
}

/* Makes each call under a driver. How many bytes they left without wiping, or -1 where a call failed or some were left with it. */
static long under_driver(void)
{
	size_t left, kept = 0;

	key_len = info.min_key_size ? info.min_key_size : 40;
	memset(key, 0xa5, sizeof key);
	memcpy(key, (const uint8_t[]){ 8, 0, 1, 0, 0, 0, 0, (uint8_t)(key_len - 8) }, 8);
	aad_len = info.kind == PERDOAZE_AEAD ? 16 : 0;
	if (perdoaze_init(&tfm, info.driver))
		return -1;
	for (size_t i = 0; i < sizeof calls / sizeof *calls; i++) {
		struct call *call = &calls[i];
		size_t depth;

		if (!fits(call))
			continue;
		two[0] = (struct iovec){ .iov_base = text, .iov_len = 1024 };
		two[1] = (struct iovec){ .iov_base = text + 1024, .iov_len = 3072 };
		depth = look(call, false, &left);
		kept += left;
		if (depth > call->deepest)
			call->deepest = depth;
		if (status && call->kind != ANY) {
			printf("%s: %s answered %d\n", info.driver, call->name, status);
			return -1;
		}
	}
	if (look(&calls[SETKEY], true, &left), left) {
		printf("%s: %zu bytes are left\n", info.driver, left);
		return -1;
	}
	perdoaze_free(&tfm);
	perdoaze_free(&second);
	return (long)kept;
}

int main(int words, char **word)
{
	size_t deepest = 0;
	long kept = 0;

	for (size_t i = 0; i < PIECES; i++)
		pieces[i] = (struct iovec){ .iov_base = text + 16 * i, .iov_len = 16 };
	for (size_t i = 0; perdoaze_list(i, &info) == 0; i++) {
		long left = under_driver();

		if (left < 0)
			return 1;
		kept += left;
	}
	for (size_t i = 0; i < sizeof calls / sizeof *calls; i++) {
		if (i != SETKEY && calls[i].deepest > deepest)
			deepest = calls[i].deepest;
		if (words > 1 && !strcmp(word[1], "table"))
			printf("| %s | %zu |\n", calls[i].name, calls[i].deepest);
	}
	printf("perdoaze_setkey reaches %zu bytes deep, other calls %zu; %ld bytes left without perdoaze_wipe_stack, none with it\n",
	       calls[SETKEY].deepest, deepest, kept);
	return calls[SETKEY].deepest > PERDOAZE_SETKEY_STACK_SIZE || deepest > PERDOAZE_STACK_SIZE || !kept;
}
