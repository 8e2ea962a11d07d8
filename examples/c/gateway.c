/* A gateway: ESP packets (RFC 4303) in, sealed or opened by a crew of threads, and out in the order in which they came.
 *
 *     gateway seal|open WORKERS INDEX=NAME=KEY[=TAG] ..
 *
 * A tunnel is the index (SPI) of its packets, eight digits, the name of its transform, as "rfc4106(gcm(aes))" or
 * "authenc(hmac(sha256),cbc(aes))", its key and the bytes of its tag. Numbers are hexadecimal, but for WORKERS and TAG.
 * Standard input is a pcap file of Ethernet or of IPv4 alone, or packets of ESP, each behind its length in 4 bytes, the first the greatest.
 * The packets are ESP's header of 8 bytes, the IV and the text: a plaintext with ESP's trailer, or a ciphertext and its tag.
 * Standard output has the replies, each behind its length: header, IV and the other text; or the length 0, where a packet is refused.
 *
 *     cc -std=c11 -D_POSIX_C_SOURCE=200809L gateway.c perdoaze_threads.c $(pkg-config --cflags --libs perdoaze) -pthread */
#include "perdoaze_threads.h"

#include <errno.h>
#include <stdio.h>
#include <stdlib.h>
#include <string.h>

#define TUNNELS 64
#define LONGEST (1 << 20)
#define HEADER 8
#define MOST_FRONT (HEADER + 16)

struct tunnel {
	uint8_t index[4];
	struct perdoaze tfm;
	size_t iv_size;
};

/* A packet that was read: it waits for its answer, or was refused; and what stands in front of its text. */
struct packet {
	bool waits;
	size_t front_size;
	uint8_t front[MOST_FRONT];
};

static struct tunnel tunnels[TUNNELS];
static size_t tunnel_count;
static struct packet *packets;
static size_t packet_count, packet_room, written;
static pthread_mutex_t lock = PTHREAD_MUTEX_INITIALIZER;

static void die(const char *what)
{
	fprintf(stderr, "gateway: %s\n", what);
	exit(2);
}

/* ---- replies */

static void write_length(size_t n)
{
	const uint8_t bytes[4] = { (uint8_t)(n >> 24), (uint8_t)(n >> 16), (uint8_t)(n >> 8), (uint8_t)n };

	fwrite(bytes, 1, 4, stdout);
}

static void write_refused(void)
{
	for (; written < packet_count && !packets[written].waits; written++)
		write_length(0);
}

/* The next packet that waits is complete: the crew tells them in their order. */
static void told(void *user, const struct perdoaze_event *event, const uint8_t *bytes)
{
	const struct packet *packet;

	(void)user;
	if (event->kind != PERDOAZE_COMPLETE)
		return;
	pthread_mutex_lock(&lock);
	write_refused();
	packet = &packets[written++];
	write_length(event->status ? 0 : packet->front_size + event->size);
	if (!event->status) {
		fwrite(packet->front, 1, packet->front_size, stdout);
		fwrite(bytes, 1, event->size, stdout);
	}
	pthread_mutex_unlock(&lock);
}

/* ---- packets */

static struct tunnel *tunnel_of(const uint8_t *packet)
{
	for (size_t i = 0; i < tunnel_count; i++)
		if (!memcmp(tunnels[i].index, packet, 4))
			return &tunnels[i];
	return NULL;
}

/* Notes a packet before it is submitted, since its answer may come at once. */
static void note(bool waits, const uint8_t *front, size_t front_size)
{
	pthread_mutex_lock(&lock);
	if (packet_count == packet_room) {
		packet_room = packet_room ? 2 * packet_room : 1024;
		packets = realloc(packets, packet_room * sizeof *packets);
		if (!packets)
			die("no memory");
	}
	packets[packet_count].waits = waits;
	packets[packet_count].front_size = front_size;
	if (waits)
		memcpy(packets[packet_count].front, front, front_size);
	packet_count++;
	pthread_mutex_unlock(&lock);
}

/* The last packet was refused after all. */
static void refuse_last(void)
{
	pthread_mutex_lock(&lock);
	packets[packet_count - 1].waits = false;
	pthread_mutex_unlock(&lock);
}

static void submit(struct perdoaze_crew *crew, uint32_t direction, const uint8_t *packet, size_t n)
{
	struct tunnel *tunnel = n < HEADER ? NULL : tunnel_of(packet);
	size_t front = tunnel ? HEADER + tunnel->iv_size : 0;
	int err;

	if (!tunnel || n < front) {
		note(false, NULL, 0);
		return;
	}
	note(true, packet, front);
	err = perdoaze_crew_submit(crew, &tunnel->tfm, direction, packet + HEADER, tunnel->iv_size, packet, front, packet + front, n - front,
				   NULL);
	if (err == -ENOMEM)
		die("no memory");
	if (err != -EINPROGRESS)
		refuse_last();
}

/* ---- input */

static uint32_t number_at(const uint8_t *bytes, bool is_little)
{
	return is_little ? (uint32_t)bytes[3] << 24 | (uint32_t)bytes[2] << 16 | (uint32_t)bytes[1] << 8 | bytes[0]
			 : (uint32_t)bytes[0] << 24 | (uint32_t)bytes[1] << 16 | (uint32_t)bytes[2] << 8 | bytes[3];
}

static bool has_read(uint8_t *bytes, size_t n)
{
	size_t got = fread(bytes, 1, n, stdin);

	if (got && got < n)
		die("the input ends within a packet");
	return got == n;
}

/* ESP in a frame: what lies behind the header of IPv4 whose protocol is 50, and NULL where there is none. */
static const uint8_t *esp_in(const uint8_t *frame, size_t *n, uint32_t link)
{
	size_t at = link == 1 ? 14 : 0, total;

	if (link == 1 && (*n < at || frame[12] != 8 || frame[13] != 0))
		return NULL;
	if (*n < at + 20 || frame[at] >> 4 != 4 || frame[at + 9] != 50)
		return NULL;
	total = (size_t)frame[at + 2] << 8 | frame[at + 3];
	if (total > *n - at || total < (size_t)(frame[at] & 15) * 4)
		return NULL;
	*n = total - (size_t)(frame[at] & 15) * 4;
	return frame + at + (size_t)(frame[at] & 15) * 4;
}

static void read_pcap(struct perdoaze_crew *crew, uint32_t direction, uint8_t *bytes, bool is_little)
{
	uint32_t link;

	if (!has_read(bytes, 20))
		die("the input ends within its header");
	link = number_at(bytes + 16, is_little);
	if (link != 1 && link != 101 && link != 228)
		die("the pcap file has neither Ethernet nor IPv4");
	while (has_read(bytes, 16)) {
		size_t n = number_at(bytes + 8, is_little);
		const uint8_t *esp;

		if (n > LONGEST || (n && !has_read(bytes, n)))
			die("a packet is too long");
		esp = esp_in(bytes, &n, link);
		submit(crew, direction, esp, esp ? n : 0);
	}
}

static void read_packets(struct perdoaze_crew *crew, uint32_t direction)
{
	static uint8_t bytes[LONGEST];

	if (!has_read(bytes, 4))
		return;
	if (number_at(bytes, true) == 0xa1b2c3d4 || number_at(bytes, false) == 0xa1b2c3d4) {
		read_pcap(crew, direction, bytes, number_at(bytes, true) == 0xa1b2c3d4);
		return;
	}
	do {
		size_t n = number_at(bytes, false);

		if (n > LONGEST || (n && !has_read(bytes, n)))
			die("a packet is too long");
		submit(crew, direction, bytes, n);
	} while (has_read(bytes, 4));
}

/* ---- tunnels */

/* Hexadecimal digits up to the end of a word, or to the next `=`. How many bytes they are. */
static size_t read_hex(const char *digits, uint8_t *into, size_t most)
{
	size_t n = 0;
	unsigned byte;

	for (; digits[0] && digits[0] != '='; digits += 2, n++) {
		if (n == most || sscanf(digits, "%2x", &byte) != 1 || !digits[1])
			die("these are no bytes");
		into[n] = (uint8_t)byte;
	}
	return n;
}

static void add_tunnel(const char *word)
{
	struct tunnel *tunnel = &tunnels[tunnel_count];
	const char *name = strchr(word, '='), *key = name ? strchr(name + 1, '=') : NULL, *tag = key ? strchr(key + 1, '=') : NULL;
	char text[128] = { 0 };
	uint8_t bytes[512];
	struct perdoaze_info info = PERDOAZE_INFO;
	size_t n;

	if (!key || tunnel_count == TUNNELS || (size_t)(key - name) > sizeof text || read_hex(word, tunnel->index, 4) != 4)
		die("a tunnel is INDEX=NAME=KEY[=TAG]");
	memcpy(text, name + 1, (size_t)(key - name) - 1);
	n = read_hex(key + 1, bytes, sizeof bytes);
	if (perdoaze_init(&tunnel->tfm, text) || perdoaze_setkey(&tunnel->tfm, bytes, n)
	    || (tag && perdoaze_setauthsize(&tunnel->tfm, (uint32_t)strtoul(tag + 1, NULL, 10))) || perdoaze_get_info(&tunnel->tfm, &info)
	    || HEADER + info.iv_size > MOST_FRONT)
		die("the tunnel's name, key or tag isn't taken");
	tunnel->iv_size = info.iv_size;
	tunnel_count++;
}

int main(int count, char **words)
{
	struct perdoaze_crew crew;

	if (count < 4 || (strcmp(words[1], "seal") && strcmp(words[1], "open")))
		die("usage: gateway seal|open WORKERS INDEX=NAME=KEY[=TAG] ..");
	for (int i = 3; i < count; i++)
		add_tunnel(words[i]);
	if (perdoaze_crew_start(&crew, PERDOAZE_PCRYPT, 0, (uint32_t)strtoul(words[2], NULL, 10), told, NULL))
		die("no crew");
	read_packets(&crew, words[1][0] == 's' ? PERDOAZE_ENCRYPT : PERDOAZE_DECRYPT);
	if (perdoaze_crew_stop(&crew))
		die("no memory");
	write_refused();
	for (size_t i = 0; i < tunnel_count; i++)
		perdoaze_free(&tunnels[i].tfm);
	free(packets);
	return fflush(stdout) ? 2 : 0;
}
