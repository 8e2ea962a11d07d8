/* Answers rows from standard input through each form of each call, and compares.
 *
 * A row is: a driver, a key, a tag size, enc, dec or mac, an IV, associated bytes, a text, and what comes of these. Bytes are in
 * hexadecimal, and - is none; `invalid`, `not-taken` and `bad-message` are refusals, and so are `no-key` and `no-tag-size`, of the key
 * and of the tag size. */
#define _DEFAULT_SOURCE
#include <errno.h>
#include <perdoaze.h>
#include <stdio.h>
#include <stdlib.h>
#include <string.h>

#define FIELDS 8
#define SPARE 5
#define SEVERAL 9

struct bytes {
	uint8_t *at;
	size_t n;
};

struct row {
	struct bytes iv, aad, text, want;
	int status;
	char dir;
};

static size_t line_number, calls;

static void fail(const char *what, int got)
{
	fprintf(stderr, "row %zu: %s: %d\n", line_number, what, got);
	exit(1);
}

static int digit(char c)
{
	return c <= '9' ? c - '0' : (c | 32) - 'a' + 10;
}

static struct bytes unhex(const char *text)
{
	struct bytes made = { malloc(strlen(text) / 2 + 1), 0 };

	if (!made.at)
		exit(2);
	if (strcmp(text, "-"))
		for (; text[0] && text[1]; text += 2)
			made.at[made.n++] = (uint8_t)(digit(text[0]) << 4 | digit(text[1]));
	return made;
}

static int status_of(const char *text)
{
	if (!strncmp(text, "no-", 3))
		return -EINVAL;
	if (!strcmp(text, "bad-message"))
		return -EBADMSG;
	return !strcmp(text, "invalid") || !strcmp(text, "not-taken") ? -EINVAL : 0;
}

/* What a call gave, where it had `size` bytes of room and SPARE behind these. */
static void see(const char *form, const struct row *row, int got, const uint8_t *out, size_t size, size_t written)
{
	calls++;
	if (got != row->status)
		fail(form, got);
	if (written != (got ? 0 : row->want.n))
		fail(form, -1);
	if (!got && memcmp(out, row->want.at, row->want.n))
		fail(form, -2);
	for (size_t i = got ? size : written; i < size + SPARE; i++)
		if (out[i] != 0x5a && (got || i >= size))
			fail(form, -3);
}

static void whole(struct perdoaze *tfm, const struct row *row, uint8_t *out, size_t size)
{
	size_t n = 7;
	int got;

	memset(out, 0x5a, size + SPARE);
	if (row->dir == 'm')
		got = perdoaze_digest(tfm, row->text.at, row->text.n, out, size, &n);
	else if (row->dir == 'e')
		got = perdoaze_encrypt(tfm, row->iv.at, row->iv.n, row->aad.at, row->aad.n, row->text.at, row->text.n, out, size, &n);
	else
		got = perdoaze_decrypt(tfm, row->iv.at, row->iv.n, row->aad.at, row->aad.n, row->text.at, row->text.n, out, size, &n);
	see("whole", row, got, out, size, n);
}

static void in_place(struct perdoaze *tfm, const struct row *row, uint8_t *out, size_t size)
{
	size_t n = 7;
	int got;

	memset(out, 0x5a, size + SPARE);
	memcpy(out, row->text.at, row->text.n);
	if (row->dir == 'e')
		got = perdoaze_encrypt(tfm, row->iv.at, row->iv.n, row->aad.at, row->aad.n, out, row->text.n, out, size, &n);
	else
		got = perdoaze_decrypt(tfm, row->iv.at, row->iv.n, row->aad.at, row->aad.n, out, row->text.n, out, size, &n);
	if (got && memcmp(out, row->text.at, row->text.n))
		fail("in place, refused: the buffer changed", got);
	see("in place", row, got, out, size, n);
}

/* The text in four pieces, of which two have no bytes. */
static void in_pieces(struct perdoaze *tfm, const struct row *row, uint8_t *out, size_t size)
{
	size_t n = 7, third = row->text.n / 3;
	const struct iovec text[4] = { { row->text.at, third }, { row->text.at, 0 }, { NULL, 0 }, { row->text.at + third, row->text.n - third } };
	int got;

	memset(out, 0x5a, size + SPARE);
	if (row->dir == 'm')
		got = perdoaze_digestv(tfm, text, 4, out, size, &n);
	else if (row->dir == 'e')
		got = perdoaze_encryptv(tfm, row->iv.at, row->iv.n, row->aad.at, row->aad.n, text, 4, out, size, &n);
	else
		got = perdoaze_decryptv(tfm, row->iv.at, row->iv.n, row->aad.at, row->aad.n, text, 4, out, size, &n);
	see("in pieces", row, got, out, size, n);
}

/* The buffer in three pieces. */
static void in_place_in_pieces(struct perdoaze *tfm, const struct row *row, uint8_t *out, size_t size)
{
	size_t n = 7, third = row->text.n / 3;
	const struct iovec buffer[3] = { { out, third }, { out + third, 7 }, { out + third + 7, size - third - 7 } };
	int got;

	memset(out, 0x5a, size + SPARE);
	memcpy(out, row->text.at, row->text.n);
	if (row->dir == 'e')
		got = perdoaze_encryptv_in_place(tfm, row->iv.at, row->iv.n, row->aad.at, row->aad.n, buffer, 3, row->text.n, &n);
	else
		got = perdoaze_decryptv_in_place(tfm, row->iv.at, row->iv.n, row->aad.at, row->aad.n, buffer, 3, row->text.n, &n);
	if (got && memcmp(out, row->text.at, row->text.n))
		fail("in place in pieces, refused: the buffer changed", got);
	see("in place in pieces", row, got, out, size, n);
}

/* The same request so many times at one call, each in a buffer of its own. */
static void many(struct perdoaze *tfm, const struct row *row, size_t size)
{
	struct perdoaze_request requests[SEVERAL];
	uint8_t *room = malloc(SEVERAL * (size + SPARE));
	int first;

	if (!room)
		exit(2);
	memset(room, 0x5a, SEVERAL * (size + SPARE));
	for (size_t i = 0; i < SEVERAL; i++) {
		requests[i] = (struct perdoaze_request){ sizeof *requests, row->iv.at, row->iv.n, row->aad.at, row->aad.n, room + i * (size + SPARE), size,
							 row->text.n, 7, 7 };
		memcpy(requests[i].buffer, row->text.at, row->text.n);
	}
	first = perdoaze_encrypt_many(tfm, requests, SEVERAL);
	if (first != row->status)
		fail("many", first);
	for (size_t i = 0; i < SEVERAL; i++) {
		if (first && memcmp(requests[i].buffer, row->text.at, row->text.n))
			fail("many, refused: the buffer changed", first);
		see("many", row, requests[i].status, requests[i].buffer, size, requests[i].written);
	}
	free(room);
}

/* With a byte less than the answer has. */
static void without_room(struct perdoaze *tfm, const struct row *row, uint8_t *out)
{
	struct row short_row = *row;
	size_t n = 7, size = row->want.n - 1;
	int got;

	short_row.status = -EOVERFLOW;
	memset(out, 0x5a, size + SPARE);
	if (row->dir == 'm')
		got = perdoaze_digest(tfm, row->text.at, row->text.n, out, size, &n);
	else if (row->dir == 'e')
		got = perdoaze_encrypt(tfm, row->iv.at, row->iv.n, row->aad.at, row->aad.n, row->text.at, row->text.n, out, size, &n);
	else
		got = perdoaze_decrypt(tfm, row->iv.at, row->iv.n, row->aad.at, row->aad.n, row->text.at, row->text.n, out, size, &n);
	see("without room", &short_row, got, out, 0, n);
}

/* Makes the row's transform. Whether its key and its tag size are taken, as the row says. */
static bool begin(struct perdoaze *tfm, char **fields)
{
	struct bytes key = unhex(fields[1]);
	struct perdoaze_info info = PERDOAZE_INFO;
	int got = perdoaze_init(tfm, fields[0]);

	if (got)
		fail(fields[0], got);
	got = perdoaze_setkey(tfm, key.at, key.n);
	free(key.at);
	calls++;
	if (got != (strcmp(fields[7], "no-key") ? 0 : -EINVAL))
		fail("setkey", got);
	if (got)
		return false;
	got = perdoaze_get_info(tfm, &info);
	if (got || strcmp((char *)info.driver, fields[0]))
		fail("info", got);
	if (info.kind == PERDOAZE_AEAD || !strcmp(fields[7], "no-tag-size"))
		got = perdoaze_setauthsize(tfm, (uint32_t)atoi(fields[2]));
	if (got != (strcmp(fields[7], "no-tag-size") ? 0 : -EINVAL))
		fail("setauthsize", got);
	return !got;
}

static void answer(char **fields)
{
	struct perdoaze tfm = PERDOAZE_NONE, second = PERDOAZE_NONE;
	struct row row = { unhex(fields[4]), unhex(fields[5]), unhex(fields[6]), { NULL, 0 }, status_of(fields[7]), fields[3][0] };
	size_t size = row.text.n + 64;
	uint8_t *out = malloc(size + SPARE);

	row.want = unhex(row.status ? "-" : fields[7]);
	if (!out)
		exit(2);
	/* perdoaze_digest has no IV and no associated bytes */
	if (begin(&tfm, fields) && (row.dir != 'm' || (!row.iv.n && !row.aad.n))) {
		if (perdoaze_dup(&tfm, &second))
			fail("dup", 0);
		whole(&tfm, &row, out, size);
		whole(&second, &row, out, size);
		in_pieces(&second, &row, out, size);
		if (row.dir != 'm') {
			in_place(&tfm, &row, out, size);
			in_place_in_pieces(&second, &row, out, size);
		}
		if (row.dir == 'e') {
			many(&tfm, &row, size);
		}
		if (!row.status && row.want.n)
			without_room(&second, &row, out);
	}
	perdoaze_free(&second);
	perdoaze_free(&tfm);
	free(out);
	free(row.iv.at);
	free(row.aad.at);
	free(row.text.at);
	free(row.want.at);
}

int main(void)
{
	char *line = NULL, *fields[FIELDS];
	size_t room = 0;

	while (getline(&line, &room, stdin) > 0) {
		char *rest = line;

		line_number++;
		for (int i = 0; i < FIELDS; i++)
			if (!(fields[i] = strsep(&rest, " \n")))
				fail("fields", i);
		answer(fields);
	}
	free(line);
	printf("%zu rows, %zu calls\n", line_number, calls);
	return line_number ? 0 : 1;
}
