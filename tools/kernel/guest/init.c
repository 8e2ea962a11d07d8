/*
 * The one program of the guest: answers each line of /list, and switches the machine off.
 *
 *   ask ..                                          a transform by AF_ALG (ask.h)
 *   run ..                                          a run of our module (../module/pipelines.h)
 *   load MODULE WORDS, unload MODULE, put PATH TEXT `ok`, or an error number's name
 *   rows                                            names, drivers and priorities of /proc/crypto
 */
#define _GNU_SOURCE
#include <errno.h>
#include <fcntl.h>
#include <sched.h>
#include <stdio.h>
#include <stdlib.h>
#include <string.h>
#include <sys/mount.h>
#include <sys/reboot.h>
#include <sys/stat.h>
#include <sys/syscall.h>
#include <unistd.h>

#include "ask.h"
#include "words.h"

static void fail(const char *what)
{
    printf("guest: %s: %s\n", what, error_name(errno));
    fflush(stdout);
    sync();
    reboot(RB_POWER_OFF);
}

static int load(const char *module, const char *arguments)
{
    char path[256];
    snprintf(path, sizeof(path), "/modules/%s.ko", module);
    int file = open(path, O_RDONLY | O_CLOEXEC);
    if (file < 0)
        return -1;
    int refused = syscall(SYS_finit_module, file, arguments, 0);
    int error = errno;
    close(file);
    errno = error;
    return refused;
}

/* The modules without which nothing can be asked. */
static void load_all(void)
{
    char name[128];
    FILE *names = fopen("/modules/order", "r");

    if (!names)
        fail("/modules/order");
    while (fscanf(names, "%127s", name) == 1)
        if (load(name, ""))
            fail(name);
    fclose(names);
}

static FILE *open_answers(void)
{
    for (int tries = 0; tries < 500; tries++) {
        FILE *out = fopen("/dev/vport0p1", "w");
        if (out) {
            setvbuf(out, NULL, _IOFBF, 1 << 16);
            return out;
        }
        usleep(10000);
    }
    fail("/dev/vport0p1");
    return NULL;
}

static int put(const char *path, const char *text)
{
    int file = open(path, O_WRONLY | O_CLOEXEC);
    if (file < 0)
        return -1;
    int refused = write(file, text, strlen(text)) < 0 ? -1 : 0;
    int error = errno;
    close(file);
    errno = error;
    return refused;
}

static void answer(int refused, FILE *out)
{
    fputs(refused ? error_name(errno) : "ok", out);
}

/* Has our module do a run, and copies what it says, which is one line. */
static void run(const char *words, FILE *out)
{
    static char piece[1 << 16];
    ssize_t count;
    int file = open("/proc/pipelines", O_RDWR | O_CLOEXEC);

    if (file < 0 || write(file, words, strlen(words)) < 0) {
        answer(-1, out);
    } else {
        lseek(file, 0, SEEK_SET);
        while ((count = read(file, piece, sizeof(piece))) > 0)
            fwrite(piece, 1, count, out);
    }
    if (file >= 0)
        close(file);
}

/* The names, drivers and priorities of /proc/crypto. */
static void write_rows(FILE *out)
{
    char line[512], value[256];
    FILE *rows = fopen("/proc/crypto", "r");

    while (rows && fgets(line, sizeof(line), rows)) {
        if (sscanf(line, "name : %255s", value) == 1)
            fprintf(out, "%s", value);
        else if (sscanf(line, "driver : %255s", value) == 1)
            fprintf(out, ":%s", value);
        else if (sscanf(line, "priority : %255s", value) == 1)
            fprintf(out, ":%s ", value);
    }
    if (rows)
        fclose(rows);
}

static void answer_line(char *line, FILE *out)
{
    char *verb = next_word(&line);

    if (!strcmp(verb, "ask")) {
        ask(line, out);
    } else if (!strcmp(verb, "run")) {
        run(line, out);
    } else if (!strcmp(verb, "load")) {
        char *module = next_word(&line);
        answer(load(module, line ? line : ""), out);
    } else if (!strcmp(verb, "unload")) {
        answer(syscall(SYS_delete_module, line, O_NONBLOCK), out);
    } else if (!strcmp(verb, "put")) {
        char *path = next_word(&line);
        answer(put(path, line), out);
    } else if (!strcmp(verb, "rows")) {
        write_rows(out);
    }
}

static void answer_list(FILE *out)
{
    char *line = NULL;
    size_t room = 0;
    ssize_t length;
    FILE *list = fopen("/list", "r");

    if (!list)
        fail("/list");
    for (int number = 1; (length = getline(&line, &room, list)) > 0; number++) {
        if (line[length - 1] == '\n')
            line[length - 1] = 0;
        fprintf(out, "%d ", number);
        answer_line(line, out);
        fputc('\n', out);
    }
    fputs("end\n", out);
    fclose(list);
}

/* The first processor alone: a queue of cryptd is one processor's. */
static void stay_on_one_processor(void)
{
    cpu_set_t first;
    CPU_ZERO(&first);
    CPU_SET(0, &first);
    if (sched_setaffinity(0, sizeof(first), &first))
        fail("sched_setaffinity");
}

int main(void)
{
    mkdir("/proc", 0755);
    mkdir("/sys", 0755);
    if (mount("none", "/dev", "devtmpfs", 0, NULL) || mount("none", "/proc", "proc", 0, NULL))
        fail("mount");
    if (mount("none", "/sys", "sysfs", 0, NULL))
        fail("mount");
    /* nobody else may bring a module in */
    put("/proc/sys/kernel/modprobe", "\n");
    stay_on_one_processor();
    load_all();
    FILE *out = open_answers();
    answer_list(out);
    if (fclose(out))
        fail("answers");
    sync();
    reboot(RB_POWER_OFF);
}
