/* Preloaded into a built program: reads and writes of few bytes each, of which one fails, and a clock that can't be read.
   FAIL_ROOM is the folder whose files are meant, beside standard input, which is named `-`; FAIL_MOST the most bytes of a
   read of these and of a write to standard output. The read FAIL_AT, from 1, of the file FAIL_FILE fails, or with no
   FAIL_FILE the write FAIL_AT to standard output, which takes no byte where FAIL_NONE is set. How often it was called,
   that file or standard output, stands in the file FAIL_COUNT, 8 bytes as the machine has them. Where FAIL_CLOCK is set no
   clock can be read. */
#define _GNU_SOURCE
#include <dlfcn.h>
#include <errno.h>
#include <fcntl.h>
#include <stdatomic.h>
#include <stdio.h>
#include <stdlib.h>
#include <string.h>
#include <sys/mman.h>
#include <time.h>
#include <unistd.h>

static _Atomic long none;
static _Atomic long *called = &none;
static const char *room, *file;
static long fail_at;
static size_t most;
static int takes_none, no_clock;
static ssize_t (*real_read)(int, void *, size_t);
static ssize_t (*real_write)(int, const void *, size_t);
static int (*real_clock_gettime)(clockid_t, struct timespec *);

__attribute__((constructor)) static void begin(void) {
    real_read = (ssize_t (*)(int, void *, size_t))dlsym(RTLD_NEXT, "read");
    real_write = (ssize_t (*)(int, const void *, size_t))dlsym(RTLD_NEXT, "write");
    real_clock_gettime = (int (*)(clockid_t, struct timespec *))dlsym(RTLD_NEXT, "clock_gettime");
    room = getenv("FAIL_ROOM");
    file = getenv("FAIL_FILE");
    most = getenv("FAIL_MOST") ? strtoul(getenv("FAIL_MOST"), NULL, 10) : 0;
    fail_at = getenv("FAIL_AT") ? atol(getenv("FAIL_AT")) : 0;
    takes_none = getenv("FAIL_NONE") != NULL;
    no_clock = getenv("FAIL_CLOCK") != NULL;
    int count = open(getenv("FAIL_COUNT"), O_RDWR | O_CREAT | O_TRUNC, 0644);
    if (count < 0 || ftruncate(count, sizeof(long)) != 0) return;
    void *shared = mmap(NULL, sizeof(long), PROT_READ | PROT_WRITE, MAP_SHARED, count, 0);
    close(count);
    if (shared != MAP_FAILED) called = shared;
}

/* The name of a file of the folder, or of standard input, that is open here; else nothing. */
static const char *name_of(int fd, char *path, size_t size) {
    char link[64];
    if (fd == 0) return "-";
    snprintf(link, sizeof link, "/proc/self/fd/%d", fd);
    ssize_t length = readlink(link, path, size - 1);
    if (length < 0 || !room) return NULL;
    path[length] = 0;
    char *slash = strrchr(path, '/');
    if (!slash || (size_t)(slash - path) != strlen(room) || strncmp(path, room, strlen(room)) != 0) return NULL;
    return slash + 1;
}

static size_t few(size_t size) { return most && most < size ? most : size; }

static int fails(void) { return atomic_fetch_add(called, 1) + 1 == fail_at; }

ssize_t read(int fd, void *bytes, size_t size) {
    char path[4096];
    const char *name = name_of(fd, path, sizeof path);
    if (!name) return real_read(fd, bytes, size);
    if (file && strcmp(name, file) == 0 && fails()) {
        errno = EIO;
        return -1;
    }
    return real_read(fd, bytes, few(size));
}

ssize_t write(int fd, const void *bytes, size_t size) {
    if (fd != 1) return real_write(fd, bytes, size);
    if (!file && fails()) {
        if (takes_none) return 0;
        errno = EIO;
        return -1;
    }
    return real_write(fd, bytes, few(size));
}

int clock_gettime(clockid_t clock, struct timespec *time) {
    if (!no_clock) return real_clock_gettime(clock, time);
    errno = EINVAL;
    return -1;
}
