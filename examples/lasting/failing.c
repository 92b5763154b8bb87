// Loaded before the C library (LD_PRELOAD): calls of a program on its files fail. The first of main is 1.
//   FAIL_WRITE=N    the Nth write to a file writes half of its bytes, and each later one fails
//   FAIL_SYNC=N     the Nth sync fails
//   FAIL_OUTPUT=N   the Nth write to the standard output fails
#define _GNU_SOURCE
#include <errno.h>
#include <stdlib.h>
#include <sys/syscall.h>
#include <unistd.h>

static unsigned long write_at, sync_at, output_at, writes, syncs, outputs;

static unsigned long number(const char *name) {
    const char *found = getenv(name);
    return found ? strtoul(found, NULL, 10) : 0;
}

__attribute__((constructor)) static void begin(void) {
    write_at = number("FAIL_WRITE");
    sync_at = number("FAIL_SYNC");
    output_at = number("FAIL_OUTPUT");
}

static int failed(int error) {
    errno = error;
    return -1;
}

ssize_t write(int file, const void *from, size_t size) {
    if (file == 1 && ++outputs == output_at) return failed(EIO);
    if (file > 2 && write_at && ++writes >= write_at) {
        if (writes > write_at) return failed(ENOSPC);
        size = (size + 1) / 2;
    }
    return syscall(SYS_write, file, from, size);
}

int fsync(int file) { return ++syncs == sync_at ? failed(EIO) : (int)syscall(SYS_fsync, file); }

int fdatasync(int file) { return ++syncs == sync_at ? failed(EIO) : (int)syscall(SYS_fdatasync, file); }
