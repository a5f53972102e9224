/* Loaded before libc: every read and write of canon is interrupted once, and then moves seven bytes at most. At the end the
   number of interrupted calls goes into the file that INTERRUPTED names. Other programs are left alone. */
#define _GNU_SOURCE
#include <errno.h>
#include <fcntl.h>
#include <stdio.h>
#include <stdlib.h>
#include <string.h>
#include <sys/syscall.h>
#include <unistd.h>

static unsigned long calls, interrupted;

static int canon(void) { return strcmp(program_invocation_short_name, "canon") == 0; }

static ssize_t call(long number, int file, unsigned long bytes, size_t count) {
    if (canon()) {
        if (calls++ % 2 == 0) {
            interrupted++;
            errno = EINTR;
            return -1;
        }
        if (count > 7) count = 7;
    }
    return syscall(number, file, bytes, count);
}

ssize_t read(int file, void *into, size_t count) { return call(SYS_read, file, (unsigned long)into, count); }

ssize_t write(int file, const void *from, size_t count) { return call(SYS_write, file, (unsigned long)from, count); }

__attribute__((destructor)) static void end(void) {
    const char *name = getenv("INTERRUPTED");
    if (!canon() || !name) return;
    char line[32];
    int length = snprintf(line, sizeof line, "%lu\n", interrupted);
    int file = open(name, O_WRONLY | O_CREAT | O_TRUNC, 0644);
    if (file >= 0) syscall(SYS_write, file, line, (size_t)length);
}
