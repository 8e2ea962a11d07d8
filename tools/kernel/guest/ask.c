#define _GNU_SOURCE
#include "ask.h"

#include <errno.h>
#include <fcntl.h>
#include <linux/if_alg.h>
#include <stdlib.h>
#include <string.h>
#include <sys/socket.h>
#include <sys/uio.h>
#include <unistd.h>

#include "words.h"

#define PAGE 4096
#define LARGEST_TAG 64

/* linux/if_alg.h has 64 bytes for a name; the kernel takes as many as an address may have. */
struct address {
    unsigned short family;
    unsigned char type[14];
    unsigned int feat;
    unsigned int mask;
    char name[104];
};

struct request {
    int encrypts;
    struct text iv;
    struct text aad;
    struct text text;
};

/* Each part of a text lies in pages of its own, at a place that no block begins at. */
static unsigned char segments[MAX_PARTS + 1][MAX_BYTES + PAGE] __attribute__((aligned(PAGE)));
static unsigned char received[2 * MAX_BYTES + LARGEST_TAG + 8];

static int bind_transform(const char *kind, const char *name)
{
    struct address address = { .family = AF_ALG };
    int transform = socket(AF_ALG, SOCK_SEQPACKET, 0);

    if (transform < 0)
        return -1;
    if (strlen(name) >= sizeof(address.name)) {
        close(transform);
        errno = ENAMETOOLONG;
        return -1;
    }
    memcpy(address.type, kind, strnlen(kind, sizeof(address.type)));
    strcpy(address.name, name);
    if (bind(transform, (struct sockaddr *)&address, sizeof(address))) {
        int error = errno;
        close(transform);
        errno = error;
        return -1;
    }
    return transform;
}

static void set_each(int transform, char *words, int option, FILE *out)
{
    static struct text key;
    char *word;

    fputc(' ', out);
    if (!strcmp(words, "none")) {
        fputs("none", out);
        return;
    }
    for (const char *comma = ""; (word = strsep(&words, ",")); comma = ",") {
        int refused;
        if (option == ALG_SET_KEY) {
            read_text(word, &key);
            refused = setsockopt(transform, SOL_ALG, option, key.bytes, key.length);
        } else {
            refused = setsockopt(transform, SOL_ALG, option, NULL, atoi(word));
        }
        fprintf(out, "%s%s", comma, refused ? error_name(errno) : "ok");
    }
}

/* Says direction, IV and how many associated bytes there are. */
static int send_control(int operation, const struct request *request, int flags)
{
    static char control[CMSG_SPACE(4) + CMSG_SPACE(4 + MAX_BYTES) + CMSG_SPACE(4)];
    struct msghdr message = { .msg_control = control };
    struct cmsghdr *header;
    struct af_alg_iv *iv;

    memset(control, 0, sizeof(control));
    message.msg_controllen = CMSG_SPACE(4) + CMSG_SPACE(4 + request->iv.length) + CMSG_SPACE(4);
    header = CMSG_FIRSTHDR(&message);
    header->cmsg_level = SOL_ALG;
    header->cmsg_type = ALG_SET_OP;
    header->cmsg_len = CMSG_LEN(4);
    *(unsigned int *)CMSG_DATA(header) = request->encrypts ? ALG_OP_ENCRYPT : ALG_OP_DECRYPT;
    header = CMSG_NXTHDR(&message, header);
    header->cmsg_level = SOL_ALG;
    header->cmsg_type = ALG_SET_IV;
    header->cmsg_len = CMSG_LEN(4 + request->iv.length);
    iv = (void *)CMSG_DATA(header);
    iv->ivlen = request->iv.length;
    memcpy(iv->iv, request->iv.bytes, request->iv.length);
    header = CMSG_NXTHDR(&message, header);
    header->cmsg_level = SOL_ALG;
    header->cmsg_type = ALG_SET_AEAD_ASSOCLEN;
    header->cmsg_len = CMSG_LEN(4);
    *(unsigned int *)CMSG_DATA(header) = request->aad.length;
    return sendmsg(operation, &message, flags) < 0 ? -1 : 0;
}

/* Hands a part over as pages, so that it is an entry of the kernel's scatterlist by itself. */
static int splice_part(int operation, int *pipes, unsigned char *bytes, size_t length, int more)
{
    struct iovec piece = { bytes, length };

    if (vmsplice(pipes[1], &piece, 1, 0) != (ssize_t)length)
        return -1;
    while (length) {
        ssize_t moved = splice(pipes[0], NULL, operation, NULL, length, more ? SPLICE_F_MORE : 0);
        if (moved <= 0)
            return -1;
        length -= moved;
    }
    return 0;
}

static int send_parts(int operation, const struct text *text)
{
    const unsigned char *from = text->bytes;
    int pipes[2];
    int refused = 0;

    if (pipe(pipes))
        return -1;
    for (int part = 0; part < text->parts && !refused; part++) {
        unsigned char *place = segments[part] + (part * 37 + 5) % 61;
        memcpy(place, from, text->part[part]);
        from += text->part[part];
        refused = splice_part(operation, pipes, place, text->part[part], part + 1 < text->parts);
    }
    int error = errno;
    close(pipes[0]);
    close(pipes[1]);
    errno = error;
    return refused;
}

static int send_text(int operation, const struct text *text)
{
    if (text->parts > 1)
        return send_parts(operation, text);
    return text->length && send(operation, text->bytes, text->length, 0) < 0 ? -1 : 0;
}

static int send_request(int operation, const struct request *request)
{
    int has_aad = request->aad.length > 0;
    int has_text = request->text.length > 0;

    if (send_control(operation, request, has_aad || has_text ? MSG_MORE : 0))
        return -1;
    if (has_aad && send(operation, request->aad.bytes, request->aad.length, has_text ? MSG_MORE : 0) < 0)
        return -1;
    return send_text(operation, &request->text);
}

/* Receives in as many pieces as were sent, and room for a tag. */
static ssize_t receive(int operation, const struct request *request)
{
    struct iovec pieces[MAX_PARTS + 2];
    struct msghdr message = { .msg_iov = pieces };
    unsigned char *at = received + 3;

    if (request->aad.length) {
        pieces[message.msg_iovlen++] = (struct iovec){ at, request->aad.length };
        at += request->aad.length;
    }
    for (int part = 0; part < request->text.parts; part++) {
        pieces[message.msg_iovlen++] = (struct iovec){ at, request->text.part[part] };
        at += request->text.part[part];
    }
    pieces[message.msg_iovlen++] = (struct iovec){ at, LARGEST_TAG };
    return recvmsg(operation, &message, MSG_DONTWAIT);
}

static void write_outcome(ssize_t count, const struct request *request, FILE *out)
{
    size_t aad = request->aad.length;

    fputc(' ', out);
    if (count < 0)
        fputs(error_name(errno), out);
    else if ((size_t)count < aad || memcmp(received + 3, request->aad.bytes, aad))
        fputs("associated-bytes-changed", out);
    else
        write_hex(out, received + 3 + aad, count - aad);
}

static void operate(int transform, const char *kind, struct request *request, FILE *out)
{
    int operation = accept(transform, NULL, 0);
    int refused;

    if (operation < 0) {
        write_outcome(-1, request, out);
        return;
    }
    if (!strcmp(kind, "hash"))
        refused = send_text(operation, &request->text);
    else
        refused = send_request(operation, request);
    write_outcome(refused ? -1 : receive(operation, request), request, out);
    close(operation);
}

void ask(char *line, FILE *out)
{
    static struct request request;
    char *kind = next_word(&line);
    int transform = bind_transform(kind, next_word(&line));

    if (transform < 0) {
        fputs(error_name(errno), out);
        return;
    }
    fputs("ok", out);
    set_each(transform, next_word(&line), ALG_SET_KEY, out);
    set_each(transform, next_word(&line), ALG_SET_AEAD_AUTHSIZE, out);
    request.encrypts = !strcmp(next_word(&line), "enc");
    read_text(next_word(&line), &request.iv);
    read_text(next_word(&line), &request.aad);
    read_text(next_word(&line), &request.text);
    operate(transform, kind, &request, out);
    close(transform);
}
