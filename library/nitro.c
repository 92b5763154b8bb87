/* The table of handles, and what is done with the state file. What is written, and when, is proved: crates/nitro_library.
 *
 * What the proofs ask of this file:
 * - A slot is zeros before `begin`. `take`, `give` and `end` get a slot only after a `begin` that returned 0, and before `end`.
 * - No slot is in two calls at a time. Calls in different threads are ordered by a flag of its entry, which is a sequentially
 *   consistent atomic. That a slot may go from one thread to another is proved (`Send`).
 * - `begin` gets all bytes of the file, which is open and locked, and the number of its inode. What it says of the file is done
 *   and synced before anything else: begun with `head`, or cut.
 * - The row that `take` gives is appended and synced before `give` is called. If that fails, nothing is given any more.
 * - Each pointer has as many bytes behind it as its length says, and lengths are at most PTRDIFF_MAX. No two overlap.
 */
#define _GNU_SOURCE
#include "nitro.h"

#include <errno.h>
#include <fcntl.h>
#include <limits.h>
#include <stdatomic.h>
#include <stdbool.h>
#include <stdlib.h>
#include <string.h>
#include <sys/file.h>
#include <sys/stat.h>
#include <unistd.h>

/* ---- what is proved, as C sees it */

struct slot {
    void *core;
};

struct opened_file {
    uint64_t inode;
    uint64_t after;
    bool answered;
    bool moved;
};

/* Room for the first line of a file, and for what a row has besides its line. */
enum { HEAD_ROOM = 256, ROW_ROOM = 128 };

/* A status of `begin` alone: the file has to be cut after `count` bytes. */
enum { TORN = 20 };

uint8_t nitro_rt_ledger_begin(
    struct slot *, const struct opened_file *, const uint8_t *bytes, size_t, uint8_t *head, size_t, size_t *count);
uint8_t nitro_rt_ledger_take(struct slot *, const uint8_t *line, size_t, uint8_t *row, size_t, size_t *count);
uint8_t nitro_rt_ledger_give(struct slot *, uint8_t *text, size_t, size_t *count);
void nitro_rt_ledger_end(struct slot *);
uint8_t nitro_rt_node_begin(
    struct slot *, const struct opened_file *, const uint8_t *bytes, size_t, const uint8_t *seed, size_t, uint8_t height,
    uint8_t *head, size_t, size_t *count);
uint8_t nitro_rt_node_take(struct slot *, const uint8_t *line, size_t, uint8_t *row, size_t, size_t *count);
uint8_t nitro_rt_node_give(struct slot *, uint8_t *text, size_t, size_t *count);
void nitro_rt_node_end(struct slot *);

/* ---- words */

const char *nitro_version(void) {
    return "1";
}

const char *nitro_words(int32_t status) {
    switch (status) {
    case NITRO_OK: return "done";
    case NITRO_OUT_OF_MEMORY: return "out of memory";
    case NITRO_ARGUMENT: return "a pointer is null, or a length is too large";
    case NITRO_KEY: return "the height is none of 5, 10 and 15";
    case NITRO_LINE: return "the line is too long, or has the byte 10 or 30";
    case NITRO_FILE: return "the state file can't be opened, read or written";
    case NITRO_IN_USE: return "the state file is open elsewhere";
    case NITRO_DAMAGED: return "a record of the state file is wrong, and a later one follows it";
    case NITRO_FOREIGN: return "the state file is of another key, program or version, or is a copy";
    case NITRO_BEHIND: return "the state file has fewer records than were to be left out";
    case NITRO_ENTRIES: return "the reply of an entry isn't the adjudicator's";
    case NITRO_ROOM: return "the answer takes more room, and is kept";
    case NITRO_KEPT: return "an answer is kept, and has to be taken first";
    case NITRO_ENDED: return "an earlier step ended the handle";
    case NITRO_HANDLE: return "no such handle is open";
    case NITRO_BUSY: return "another thread is in a call with the handle";
    case NITRO_FULL: return "too many handles are open";
    default: return "no status";
    }
}

/* ---- the table of handles */

enum kind { NODE = 1, LEDGER = 2 };

/* One place of the table. Whoever set `busy` may use the others. */
struct entry {
    atomic_bool busy;
    /* 0 where the place is free. It is read without `busy` too. */
    _Atomic uint64_t handle;
    enum kind kind;
    struct slot slot;
    int descriptor;
    /* Whether a row couldn't be appended or synced. */
    bool is_over;
};

static struct entry table[NITRO_MOST_HANDLES];

/* How many handles were given. */
static _Atomic uint64_t given;

/* A free place, with `busy` set, or null. */
static struct entry *free_place(void) {
    for (size_t place = 0; place < NITRO_MOST_HANDLES; place++) {
        struct entry *entry = &table[place];
        if (atomic_load(&entry->handle) != 0 || atomic_exchange(&entry->busy, true)) {
            continue;
        }
        if (atomic_load(&entry->handle) == 0) {
            return entry;
        }
        atomic_store(&entry->busy, false);
    }
    return NULL;
}

/* The place of a handle, with `busy` set, or why not. */
static int32_t place_of(uint64_t handle, enum kind kind, struct entry **found) {
    struct entry *entry = &table[handle % NITRO_MOST_HANDLES];
    if (handle == 0 || atomic_load(&entry->handle) != handle) {
        return NITRO_HANDLE;
    }
    if (atomic_exchange(&entry->busy, true)) {
        return NITRO_BUSY;
    }
    if (atomic_load(&entry->handle) != handle || entry->kind != kind) {
        atomic_store(&entry->busy, false);
        return NITRO_HANDLE;
    }
    *found = entry;
    return NITRO_OK;
}

/* ---- the state file */

/* What the folder of a path says of its name survives a crash. */
static int32_t sync_folder(const char *path) {
    char *whole = realpath(path, NULL);
    if (whole == NULL) {
        return errno == ENOMEM ? NITRO_OUT_OF_MEMORY : NITRO_FILE;
    }
    char *end = strrchr(whole, '/');
    end[end == whole ? 1 : 0] = 0;
    int folder = open(whole, O_RDONLY | O_DIRECTORY | O_CLOEXEC);
    free(whole);
    if (folder < 0) {
        return NITRO_FILE;
    }
    int synced = fsync(folder);
    close(folder);
    return synced == 0 ? NITRO_OK : NITRO_FILE;
}

/* Opens a file and locks it. It is a regular file with one name, which its owner alone may use if it is made here. */
static int32_t open_locked(const char *path, int *descriptor, uint64_t *inode) {
    int opened = open(path, O_RDWR | O_APPEND | O_CREAT | O_CLOEXEC, 0600);
    if (opened < 0) {
        return NITRO_FILE;
    }
    /* Nothing that is meant for a standard stream that was closed may land in it. */
    if (opened <= 2) {
        int other = fcntl(opened, F_DUPFD_CLOEXEC, 3);
        close(opened);
        if (other < 0) {
            return NITRO_FILE;
        }
        opened = other;
    }
    struct stat found;
    int32_t status = NITRO_OK;
    if (fstat(opened, &found) != 0 || !S_ISREG(found.st_mode) || found.st_nlink != 1) {
        status = NITRO_FILE;
    } else if (flock(opened, LOCK_EX | LOCK_NB) != 0) {
        status = errno == EWOULDBLOCK ? NITRO_IN_USE : NITRO_FILE;
    } else if (fsync(opened) != 0) {
        status = NITRO_FILE;
    } else {
        status = sync_folder(path);
    }
    if (status != NITRO_OK) {
        close(opened);
        return status;
    }
    *descriptor = opened;
    *inode = (uint64_t)found.st_ino;
    return NITRO_OK;
}

/* All bytes of a file, in memory of `malloc`. */
static int32_t read_whole(int descriptor, uint8_t **bytes, size_t *length) {
    size_t room = 65536, count = 0;
    uint8_t *read_bytes = malloc(room);
    while (read_bytes != NULL) {
        ssize_t more = pread(descriptor, read_bytes + count, room - count, (off_t)count);
        if (more < 0 && errno == EINTR) {
            continue;
        }
        if (more < 0) {
            free(read_bytes);
            return NITRO_FILE;
        }
        if (more == 0) {
            *bytes = read_bytes;
            *length = count;
            return NITRO_OK;
        }
        count += (size_t)more;
        if (count == room) {
            uint8_t *larger = room > PTRDIFF_MAX / 2 ? NULL : realloc(read_bytes, room * 2);
            if (larger == NULL) {
                break;
            }
            read_bytes = larger;
            room *= 2;
        }
    }
    free(read_bytes);
    return NITRO_OUT_OF_MEMORY;
}

/* Appends bytes and syncs them. */
static int32_t append(int descriptor, const uint8_t *bytes, size_t length) {
    while (length > 0) {
        ssize_t count = write(descriptor, bytes, length);
        if (count < 0 && errno == EINTR) {
            continue;
        }
        if (count <= 0) {
            return NITRO_FILE;
        }
        bytes += count;
        length -= (size_t)count;
    }
    return fdatasync(descriptor) == 0 ? NITRO_OK : NITRO_FILE;
}

/* Cuts a file after so many bytes, and syncs it. */
static int32_t cut(int descriptor, size_t length) {
    return ftruncate(descriptor, (off_t)length) == 0 && fsync(descriptor) == 0 ? NITRO_OK : NITRO_FILE;
}

/* ---- open, step and close, of both kinds */

static void end(struct entry *entry) {
    if (entry->kind == NODE) {
        nitro_rt_node_end(&entry->slot);
    } else {
        nitro_rt_ledger_end(&entry->slot);
    }
}

/* Begins a core over the bytes of a file, and does what it says of the file. */
static int32_t begin_over(
    struct entry *entry, const struct opened_file *file, const uint8_t *bytes, size_t *length, const uint8_t *seed, uint8_t height) {
    uint8_t head[HEAD_ROOM];
    size_t count = 0;
    int32_t status;
    entry->slot.core = NULL;
    if (entry->kind == NODE) {
        status = nitro_rt_node_begin(&entry->slot, file, bytes, *length, seed, 32, height, head, sizeof head, &count);
    } else {
        status = nitro_rt_ledger_begin(&entry->slot, file, bytes, *length, head, sizeof head, &count);
    }
    if (status == NITRO_OK && count > 0) {
        status = cut(entry->descriptor, 0);
        if (status == NITRO_OK) {
            status = append(entry->descriptor, head, count);
        }
        if (status != NITRO_OK) {
            end(entry);
        }
    } else if (status == TORN && count <= *length) {
        *length = count;
    }
    return status;
}

/* Begins a core over an open file in a place of the table. A torn record is cut off first. */
static int32_t begin(
    struct entry *entry, enum kind kind, uint64_t inode, const struct nitro_start *start, const uint8_t *seed, uint8_t height) {
    uint8_t *bytes = NULL;
    size_t length = 0;
    struct opened_file file = {
        .inode = inode,
        .after = start == NULL ? 0 : start->after,
        .answered = start != NULL && start->again != 0,
        .moved = start != NULL && start->moved != 0,
    };
    int32_t status = read_whole(entry->descriptor, &bytes, &length);
    if (status != NITRO_OK) {
        return status;
    }
    entry->kind = kind;
    entry->is_over = false;
    status = begin_over(entry, &file, bytes, &length, seed, height);
    if (status == TORN) {
        status = cut(entry->descriptor, length);
        if (status == NITRO_OK) {
            status = begin_over(entry, &file, bytes, &length, seed, height);
        }
    }
    free(bytes);
    return status == TORN ? NITRO_DAMAGED : status;
}

static int32_t open_handle(
    enum kind kind, const char *path, const uint8_t *seed, uint8_t height, const struct nitro_start *start, uint64_t *handle) {
    if (path == NULL || handle == NULL || (kind == NODE && seed == NULL)) {
        return NITRO_ARGUMENT;
    }
    *handle = 0;
    /* `begin` says so too, but a file would be made first. */
    if (kind == NODE && height != 5 && height != 10 && height != 15) {
        return NITRO_KEY;
    }
    struct entry *entry = free_place();
    if (entry == NULL) {
        return NITRO_FULL;
    }
    uint64_t inode = 0;
    int32_t status = open_locked(path, &entry->descriptor, &inode);
    if (status == NITRO_OK) {
        status = begin(entry, kind, inode, start, seed, height);
        if (status == NITRO_OK) {
            *handle = (atomic_fetch_add(&given, 1) + 1) * NITRO_MOST_HANDLES + (uint64_t)(entry - table);
            atomic_store(&entry->handle, *handle);
        } else {
            close(entry->descriptor);
        }
    }
    atomic_store(&entry->busy, false);
    return status;
}

static int32_t give(struct entry *entry, uint8_t *text, size_t room, size_t *count) {
    if (entry->kind == NODE) {
        return nitro_rt_node_give(&entry->slot, text, room, count);
    }
    return nitro_rt_ledger_give(&entry->slot, text, room, count);
}

/* Takes a line, and has its row on the disk. */
static int32_t take(struct entry *entry, const uint8_t *line, size_t length) {
    if (length > NITRO_LINE_LIMIT) {
        return NITRO_LINE;
    }
    size_t count = 0;
    uint8_t *row = malloc(length + ROW_ROOM);
    if (row == NULL) {
        return NITRO_OUT_OF_MEMORY;
    }
    int32_t status;
    if (entry->kind == NODE) {
        status = nitro_rt_node_take(&entry->slot, line, length, row, length + ROW_ROOM, &count);
    } else {
        status = nitro_rt_ledger_take(&entry->slot, line, length, row, length + ROW_ROOM, &count);
    }
    if (status == NITRO_OK && count > 0) {
        status = append(entry->descriptor, row, count);
        entry->is_over = status != NITRO_OK;
    }
    free(row);
    return status;
}

static int32_t step(
    enum kind kind, uint64_t handle, const uint8_t *line, size_t length, uint8_t *text, size_t room, size_t *count) {
    uint8_t nothing = 0;
    if (count == NULL) {
        return NITRO_ARGUMENT;
    }
    *count = 0;
    if ((line == NULL && length > 0) || (text == NULL && room > 0) || length > PTRDIFF_MAX || room > PTRDIFF_MAX) {
        return NITRO_ARGUMENT;
    }
    struct entry *entry = NULL;
    int32_t status = place_of(handle, kind, &entry);
    if (status != NITRO_OK) {
        return status;
    }
    if (entry->is_over) {
        status = NITRO_ENDED;
    } else if (length > 0) {
        status = take(entry, line, length);
    }
    if (status == NITRO_OK) {
        status = give(entry, text == NULL ? &nothing : text, room, count);
    } else if (status == NITRO_KEPT) {
        (void)give(entry, &nothing, 0, count);
    }
    atomic_store(&entry->busy, false);
    return status;
}

static int32_t close_handle(enum kind kind, uint64_t handle) {
    struct entry *entry = NULL;
    int32_t status = place_of(handle, kind, &entry);
    if (status != NITRO_OK) {
        return status;
    }
    atomic_store(&entry->handle, 0);
    end(entry);
    close(entry->descriptor);
    atomic_store(&entry->busy, false);
    return NITRO_OK;
}

/* ---- what the header declares */

int32_t nitro_node_open(const char *path, const uint8_t *seed, uint8_t height, nitro_node *node) {
    return open_handle(NODE, path, seed, height, NULL, node);
}

int32_t nitro_node_open_from(
    const char *path, const uint8_t *seed, uint8_t height, const struct nitro_start *start, nitro_node *node) {
    return open_handle(NODE, path, seed, height, start, node);
}

int32_t nitro_node_step(
    nitro_node node, const uint8_t *line, size_t length, uint8_t *text, size_t room, size_t *count) {
    return step(NODE, node, line, length, text, room, count);
}

int32_t nitro_node_close(nitro_node node) {
    return close_handle(NODE, node);
}

int32_t nitro_ledger_open(const char *path, nitro_ledger *ledger) {
    return open_handle(LEDGER, path, NULL, 0, NULL, ledger);
}

int32_t nitro_ledger_open_from(const char *path, const struct nitro_start *start, nitro_ledger *ledger) {
    return open_handle(LEDGER, path, NULL, 0, start, ledger);
}

int32_t nitro_ledger_step(
    nitro_ledger ledger, const uint8_t *line, size_t length, uint8_t *text, size_t room, size_t *count) {
    return step(LEDGER, ledger, line, length, text, room, count);
}

int32_t nitro_ledger_close(nitro_ledger ledger) {
    return close_handle(LEDGER, ledger);
}
