/* Stops the process at one call that changes a file: that of the number in STOP_AT, counted from 1 over write, ftruncate, fsync and fdatasync
   on handles above 2. Of a write half of the bytes are written by then. Where STOP_FAILS is set, the call fails in place of it, and so does each
   one behind it. */
#define _GNU_SOURCE
#include <errno.h>
#include <stdlib.h>
#include <sys/syscall.h>
#include <unistd.h>

static unsigned long count, stop_at;
static int fails;

__attribute__((constructor)) static void begin(void) {
    const char *at = getenv("STOP_AT");
    stop_at = at ? strtoul(at, NULL, 10) : 0;
    fails = getenv("STOP_FAILS") != NULL;
}

/* Whether the call is the one, or behind it. */
static int stops(int file) {
    if (file <= 2 || !stop_at)
        return 0;
    count++;
    return count >= stop_at;
}

static long stopped(void) {
    if (!fails)
        _exit(99);
    errno = EIO;
    return -1;
}

ssize_t write(int file, const void *bytes, size_t length) {
    if (!stops(file))
        return syscall(SYS_write, file, bytes, length);
    if (count == stop_at)
        syscall(SYS_write, file, bytes, length / 2);
    return stopped();
}

ssize_t __write(int file, const void *bytes, size_t length) { return write(file, bytes, length); }

int ftruncate(int file, off_t length) { return stops(file) ? stopped() : syscall(SYS_ftruncate, file, length); }

int fsync(int file) { return stops(file) ? stopped() : syscall(SYS_fsync, file); }

int fdatasync(int file) { return stops(file) ? stopped() : syscall(SYS_fdatasync, file); }
