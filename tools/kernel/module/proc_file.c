/* /proc/pipelines: a line that is written is a run, and what is read then is its answer. One run at a time. */
#include <linux/err.h>
#include <linux/module.h>
#include <linux/proc_fs.h>
#include <linux/slab.h>
#include <linux/uaccess.h>
#include <linux/vmalloc.h>

#include "pipelines.h"

#define ROOM (1 << 20)

static struct answer last;

void say(struct answer *answer, const char *format, ...)
{
	va_list words;

	va_start(words, format);
	answer->length += vscnprintf(answer->text + answer->length, answer->room - answer->length, format, words);
	va_end(words);
}

void say_hex(struct answer *answer, const u8 *bytes, size_t length)
{
	size_t at;

	if (!length)
		say(answer, "-");
	for (at = 0; at < length; at++)
		say(answer, "%02x", bytes[at]);
}

void say_error(struct answer *answer, int error)
{
	char name[32];

	/* with a sign in front */
	snprintf(name, sizeof(name), "%pe", ERR_PTR(error));
	say(answer, "%s", error ? name + 1 : "ok");
}

static void run(char *line)
{
	char *kind = strsep(&line, " ");

	last.length = 0;
	if (!strcmp(kind, "queue") && line)
		run_queue(line, &last);
	else if (!strcmp(kind, "aead") && line)
		run_aead(line, &last);
	else
		say_error(&last, -EINVAL);
}

static ssize_t write_line(struct file *file, const char __user *from, size_t length, loff_t *at)
{
	char *line;

	if (length >= ROOM)
		return -E2BIG;
	line = vmalloc(length + 1);
	if (!line)
		return -ENOMEM;
	if (copy_from_user(line, from, length)) {
		vfree(line);
		return -EFAULT;
	}
	line[length] = 0;
	run(line);
	vfree(line);
	return length;
}

static ssize_t read_answer(struct file *file, char __user *to, size_t length, loff_t *at)
{
	return simple_read_from_buffer(to, length, at, last.text, last.length);
}

static const struct proc_ops calls = {
	.proc_write = write_line,
	.proc_read = read_answer,
	.proc_lseek = default_llseek,
};

static int __init begin(void)
{
	last.room = ROOM;
	last.text = vmalloc(ROOM);
	if (!last.text)
		return -ENOMEM;
	if (!proc_create("pipelines", 0600, NULL, &calls)) {
		vfree(last.text);
		return -ENOMEM;
	}
	return 0;
}

static void __exit end(void)
{
	remove_proc_entry("pipelines", NULL);
	vfree(last.text);
}

module_init(begin);
module_exit(end);
MODULE_DESCRIPTION("Runs of the crypto queues, cryptd and pcrypt");
/* what a module has to say to be let call crypto_enqueue_request and crypto_alloc_aead */
MODULE_LICENSE("GPL");
