// Loaded before the C library (LD_PRELOAD): refuses calls of a program by their number. The first of main is 1.
//   REFUSE_AT=N         the Nth allocation is refused
//   REFUSE_THREAD=N     the Nth thread is refused
//   REFUSE_READ=N       the Nth read of the standard input fails
//   REFUSE_WRITE=N      the Nth write to the standard output fails
//   REFUSE_QUIETLY=1    it doesn't fail, but moves no byte
//   REFUSE_BYTES=1      each of these moves one byte at most
//   REFUSE_EACH=K/M     at each Nth allocation with N mod M = K a copy of the program is made, unless another thread
//                       runs: the copy meets a refusal and goes on to its end, and then the program goes on
//   REFUSE_EVER=1       what comes after the one that is refused is refused too
//   REFUSE_TEXT=FILE    what a copy prints is compared with this file
//   REFUSE_REPORT=FD    where it is told: of each copy `copy N STATUS LENGTH SAME`, where a status above 128 is a
//                       signal and SAME is 1 or 0, and at the end `end ALLOCATIONS THREADS BESIDE`: how many there were,
//                       and at how many of the chosen ones no copy was made, as another thread ran
#define _GNU_SOURCE
#include <dlfcn.h>
#include <errno.h>
#include <fcntl.h>
#include <pthread.h>
#include <stdio.h>
#include <stdlib.h>
#include <string.h>
#include <sys/mman.h>
#include <sys/stat.h>
#include <sys/single_threaded.h>
#include <sys/syscall.h>
#include <sys/wait.h>
#include <unistd.h>

void *__libc_malloc(size_t size);
void *__libc_calloc(size_t count, size_t size);
void *__libc_realloc(void *old, size_t size);

static unsigned long at, thread_at, read_at, write_at, rest, many, beside;
static unsigned long allocations, threads, reads, writes;
static int report = -1, counting, ever, quietly, bytes, is_copy;
static const char *text;
static size_t text_length;

static unsigned long number(const char *name) {
    const char *found = getenv(name);
    return found ? strtoul(found, NULL, 10) : 0;
}

__attribute__((constructor)) static void begin(void) {
    at = number("REFUSE_AT");
    thread_at = number("REFUSE_THREAD");
    read_at = number("REFUSE_READ");
    write_at = number("REFUSE_WRITE");
    quietly = number("REFUSE_QUIETLY") != 0;
    bytes = number("REFUSE_BYTES") != 0;
    ever = number("REFUSE_EVER") != 0;
    report = getenv("REFUSE_REPORT") ? (int)number("REFUSE_REPORT") : -1;
    if (getenv("REFUSE_EACH")) sscanf(getenv("REFUSE_EACH"), "%lu/%lu", &rest, &many);
    if (getenv("REFUSE_TEXT")) {
        int file = open(getenv("REFUSE_TEXT"), O_RDONLY);
        struct stat about;
        if (file >= 0 && fstat(file, &about) == 0) {
            text_length = about.st_size;
            text = mmap(NULL, text_length + 1, PROT_READ, MAP_PRIVATE, file, 0);
        }
        close(file);
    }
    unsetenv("LD_PRELOAD");
    counting = 1;
}

// Ends the process at once: something is wrong with these trials.
__attribute__((noreturn)) static void stop(int status) {
    syscall(SYS_exit_group, status);
    __builtin_unreachable();
}

static void tell(const char *line, int length) {
    if (report >= 0 && syscall(SYS_write, report, line, length) != length) stop(99);
}

// (the program ends by this call)
void _exit(int status) {
    char line[100];
    if (counting && !is_copy) tell(line, sprintf(line, "end %lu %lu %lu\n", allocations, threads, beside));
    stop(status);
}

// Whether no other thread of the process runs.
static int is_alone(void) {
    struct stat about;
    return __libc_single_threaded || (stat("/proc/self/task", &about) == 0 && about.st_nlink == 3);
}

// Whether the file holds the text.
static int is_text(int file, size_t length) {
    static char buffer[1 << 16];
    size_t place = 0;
    if (length != text_length) return 0;
    while (place < length) {
        ssize_t count = pread(file, buffer, sizeof buffer, place);
        if (count <= 0 || memcmp(buffer, text + place, count) != 0) return 0;
        place += count;
    }
    return 1;
}

// Makes a copy, which is told 1; the program waits for its end, and is told 0.
static int copy_refused(unsigned long n) {
    int output = memfd_create("output", 0), status;
    pid_t copy = output < 0 ? -1 : fork();
    struct stat about;
    char line[100];
    if (copy < 0) stop(98);
    if (copy == 0) {
        // (its place in the standard input is its own)
        off_t place = lseek(0, 0, SEEK_CUR);
        int input = open("/proc/self/fd/0", O_RDONLY);
        is_copy = 1;
        if (input < 0 || lseek(input, place < 0 ? 0 : place, SEEK_SET) < 0 || dup2(input, 0) < 0) stop(97);
        if (dup2(output, 1) < 0) stop(96);
        alarm(60);
        return 1;
    }
    if (waitpid(copy, &status, 0) != copy || fstat(output, &about) != 0) stop(95);
    status = WIFSIGNALED(status) ? 128 + WTERMSIG(status) : WEXITSTATUS(status);
    tell(line, sprintf(line, "copy %lu %d %ld %d\n", n, status, (long)about.st_size, is_text(output, about.st_size)));
    close(output);
    return 0;
}

static int is_refused(void) {
    if (!counting) return 0;
    if (is_copy) return ever;
    unsigned long n = __atomic_add_fetch(&allocations, 1, __ATOMIC_RELAXED);
    if (at) return n == at || (ever && n > at);
    if (!many || n % many != rest) return 0;
    if (is_alone()) return copy_refused(n);
    __atomic_add_fetch(&beside, 1, __ATOMIC_RELAXED);
    return 0;
}

static void *refusal(void) {
    errno = ENOMEM;
    return NULL;
}

void *malloc(size_t size) { return is_refused() ? refusal() : __libc_malloc(size); }
void *calloc(size_t count, size_t size) { return is_refused() ? refusal() : __libc_calloc(count, size); }
void *realloc(void *old, size_t size) { return is_refused() ? refusal() : __libc_realloc(old, size); }

int pthread_create(pthread_t *thread, const pthread_attr_t *how, void *(*run)(void *), void *with) {
    static int (*create)(pthread_t *, const pthread_attr_t *, void *(*)(void *), void *);
    unsigned long n = __atomic_add_fetch(&threads, 1, __ATOMIC_RELAXED);
    if (thread_at && (n == thread_at || (ever && n > thread_at))) return EAGAIN;
    if (!create) create = (int (*)(pthread_t *, const pthread_attr_t *, void *(*)(void *), void *))dlsym(RTLD_NEXT, "pthread_create");
    return create(thread, how, run, with);
}

// How many bytes a call may move, or 0 where it is refused.
static size_t moved(unsigned long number, unsigned long at, size_t size) {
    if (number == at) return 0;
    return bytes && size > 1 ? 1 : size;
}

ssize_t read(int file, void *into, size_t size) {
    size_t most = file == 0 && counting ? moved(++reads, read_at, size) : size;
    if (most == 0 && size > 0 && !quietly) errno = EIO;
    return most == 0 && size > 0 ? (quietly ? 0 : -1) : syscall(SYS_read, file, into, most);
}

ssize_t write(int file, const void *from, size_t size) {
    size_t most = file == 1 && counting ? moved(++writes, write_at, size) : size;
    if (most == 0 && size > 0 && !quietly) errno = ENOSPC;
    return most == 0 && size > 0 ? (quietly ? 0 : -1) : syscall(SYS_write, file, from, most);
}
