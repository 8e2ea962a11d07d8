/* Overwrites the stack below its caller's frame, where calls of the library have been: as far as the deepest of them reaches. */
#define _DEFAULT_SOURCE
#include <perdoaze.h>
#include <string.h>

__attribute__((noinline)) void perdoaze_wipe_stack(void)
{
	uint8_t below[PERDOAZE_SETKEY_STACK_SIZE];

	explicit_bzero(below, sizeof below);
}
