/* The library's heap: malloc and free, and each block is wiped before it is freed. It takes the place of the kit's heap.c. */
#define _DEFAULT_SOURCE
#include <malloc.h>
#include <stdbool.h>
#include <stdlib.h>
#include <string.h>

struct tried {
	bool ok;
	void *block;
};

static char nothing;

static struct tried given(void *block)
{
	return (struct tried){ block != NULL, block ? block : &nothing };
}

struct tried rattle_alloc(size_t size, size_t align);
struct tried rattle_realloc(void *block, size_t kept, size_t size, size_t align);
void rattle_dealloc(void *block);

struct tried rattle_alloc(size_t size, size_t align)
{
	return given(malloc(size ? size : align));
}

void rattle_dealloc(void *block)
{
	explicit_bzero(block, malloc_usable_size(block));
	free(block);
}

/* Never realloc, which may leave the old bytes behind. */
struct tried rattle_realloc(void *block, size_t kept, size_t size, size_t align)
{
	struct tried moved = rattle_alloc(size, align);

	if (moved.ok) {
		memcpy(moved.block, block, kept < size ? kept : size);
		rattle_dealloc(block);
	}
	return moved;
}
