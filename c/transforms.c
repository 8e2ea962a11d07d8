/* Transforms: how they are made, keyed, told of and freed. */
#include "checks.h"
#include <string.h>

int perdoaze_init(struct perdoaze *tfm, const char *name)
{
	size_t n = name ? strlen(name) : 0;

	if (!tfm || n > PTRDIFF_MAX)
		return -PERDOAZE_EINVAL;
	return perdoaze_raw_init(tfm, (const uint8_t *)(name ? name : ""), n);
}

int perdoaze_setkey(struct perdoaze *tfm, const void *key, size_t key_len)
{
	const uint8_t other = 0;

	if (!tfm || bad_bytes(key, key_len))
		return -PERDOAZE_EINVAL;
	return perdoaze_raw_setkey(tfm, or_other(key, &other), key_len);
}

int perdoaze_setauthsize(struct perdoaze *tfm, uint32_t authsize)
{
	return tfm ? perdoaze_raw_setauthsize(tfm, authsize) : -PERDOAZE_EINVAL;
}

int perdoaze_dup(struct perdoaze *from, struct perdoaze *into)
{
	return from && into && from != into ? perdoaze_raw_dup(from, into) : -PERDOAZE_EINVAL;
}

void perdoaze_free(struct perdoaze *tfm)
{
	if (tfm)
		perdoaze_raw_free(tfm);
}

/* 0 where the caller's struct may be filled. */
static int info_status(const struct perdoaze_info *info)
{
	return info ? size_status(info->size, sizeof *info) : -PERDOAZE_EINVAL;
}

static void fill_info(struct perdoaze_info *info, const struct perdoaze_raw_info *told)
{
	memcpy(info->name, told->name, sizeof info->name);
	memcpy(info->driver, told->driver, sizeof info->driver);
	info->priority = told->priority;
	info->kind = told->kind;
	info->block_size = told->block_size;
	info->iv_size = told->iv_size;
	info->max_tag_size = told->max_tag_size;
	info->min_key_size = told->min_key_size;
	info->max_key_size = told->max_key_size;
	info->tag_size = told->tag_size;
}

int perdoaze_get_info(struct perdoaze *tfm, struct perdoaze_info *info)
{
	struct perdoaze_raw_info told = { .priority = 0 };
	int status = tfm ? info_status(info) : -PERDOAZE_EINVAL;

	if (!status)
		status = perdoaze_raw_get_info(tfm, &told);
	if (!status)
		fill_info(info, &told);
	return status;
}

int perdoaze_list(size_t index, struct perdoaze_info *info)
{
	struct perdoaze_raw_info told = { .priority = 0 };
	int status = info_status(info);

	if (!status)
		status = perdoaze_raw_list(index, &told);
	if (!status)
		fill_info(info, &told);
	return status;
}

int perdoaze_outlen(struct perdoaze *tfm, uint32_t what, size_t n, size_t *len)
{
	struct perdoaze_info info = { .size = sizeof info };
	bool is_mac;
	int status;

	if (!len)
		return -PERDOAZE_EINVAL;
	*len = 0;
	status = perdoaze_get_info(tfm, &info);
	if (status)
		return status;
	is_mac = info.kind == PERDOAZE_MAC;
	if (what == PERDOAZE_DIGEST && is_mac)
		*len = info.tag_size;
	else if (what == PERDOAZE_ENCRYPT && !is_mac && n <= (size_t)PTRDIFF_MAX - info.tag_size)
		*len = n + info.tag_size;
	else if (what == PERDOAZE_DECRYPT && !is_mac && n >= info.tag_size && n <= PTRDIFF_MAX)
		*len = n - info.tag_size;
	else
		return -PERDOAZE_EINVAL;
	return 0;
}
