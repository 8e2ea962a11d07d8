/* Seals a text with AES-128-GCM, opens it again, and sees that a changed one is refused. */
#include <errno.h>
#include <stdio.h>

#include <perdoaze.h>

int main(void)
{
	const uint8_t key[16] = "0123456789abcde", nonce[12] = { 1 };
	const char text[] = "attack at dawn", header[] = "to: all";
	uint8_t sealed[sizeof text + 16], opened[sizeof text];
	struct perdoaze gcm = PERDOAZE_NONE;
	size_t n, m;
	int err = perdoaze_init(&gcm, "gcm(aes)");

	if (!err)
		err = perdoaze_setkey(&gcm, key, sizeof key);
	if (!err)
		err = perdoaze_encrypt(&gcm, nonce, 12, header, sizeof header, text, sizeof text, sealed, sizeof sealed, &n);
	if (!err)
		err = perdoaze_decrypt(&gcm, nonce, 12, header, sizeof header, sealed, n, opened, sizeof opened, &m);
	if (!err)
		printf("%zu bytes sealed, opened: %s\n", n, (const char *)opened);
	sealed[0] ^= 1;
	if (!err && perdoaze_decrypt(&gcm, nonce, 12, header, sizeof header, sealed, n, opened, sizeof opened, &m) != -EBADMSG)
		err = -EBADMSG;
	perdoaze_free(&gcm);
	return err ? 1 : 0;
}
