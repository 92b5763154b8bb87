/* The node and the ledger of `nitro` in the caller's process. C99 and C++17.
 *
 * A handle stands for one open state file. A step takes one line of `nitro node` or `nitro ledger`, without its line feed. It
 * gives the bytes that the process would write for it, and returns once the record of the line is on the disk.
 *
 * docs/USING.md has the lines, and what to do after a crash.
 *
 * Any thread may call with a handle, one at a time: a call beside another one gets NITRO_BUSY.
 *
 * What the caller has to see to, since nothing here can test it:
 * - A pointer that isn't null points to as many bytes as its length says, and a path ends with a zero byte. The memory stays
 *   as it is during the call, and the memory for results overlaps no other.
 * - No call is made in a signal handler, or in the child of a fork.
 * - `malloc`, `realloc` and `free` are of one allocator, and blocks are aligned to 16 bytes.
 * - A seed is 32 random bytes, and is used with one state file alone, which is never copied or set back. A copy that runs
 *   signs other messages with indices that were used, and then signatures can be forged.
 * - The disk keeps what `fsync` and `fdatasync` say that it keeps, and nobody else writes the state file.
 */
#ifndef NITRO_H
#define NITRO_H

#include <stddef.h>
#include <stdint.h>

#ifdef __cplusplus
extern "C" {
#endif

/* A handle is a number, and is never 0. A number that was closed isn't given again. */
typedef uint64_t nitro_node;
typedef uint64_t nitro_ledger;

/* The most bytes of a line. */
#define NITRO_LINE_LIMIT 1048576

/* The most handles that are open at a time. */
#define NITRO_MOST_HANDLES 256

/* What a call returns. Up to 12 the numbers are those of the statuses of the processes. */
enum {
    NITRO_OK = 0,
    /* There is no memory. A step that says so may have ended its handle. */
    NITRO_OUT_OF_MEMORY = 1,
    /* A pointer is null, or a length is above PTRDIFF_MAX. Nothing was done. */
    NITRO_ARGUMENT = 2,
    /* The height is none of 5, 10 and 15. */
    NITRO_KEY = 3,
    /* The line is longer than NITRO_LINE_LIMIT, or has the byte 10 or 30. It isn't taken. */
    NITRO_LINE = 4,
    /* The state file can't be opened, read or written. A step that says so ends its handle. */
    NITRO_FILE = 5,
    /* Another handle or process has the state file open. */
    NITRO_IN_USE = 8,
    /* A record of the state file is wrong, and a later one follows it. Nothing was cut. */
    NITRO_DAMAGED = 9,
    /* The file is another key's, another program's or another version's, or a copy of the file that was written. */
    NITRO_FOREIGN = 10,
    /* The state file has fewer records than were to be left out. */
    NITRO_BEHIND = 11,
    /* The reply of an entry isn't the adjudicator's: the entries aren't those of one ledger, or one is missing. A step that
     * says so ends its handle; the entry isn't kept. */
    NITRO_ENTRIES = 12,
    /* The answer takes more room. The line was taken and the answer is kept: take it by a step with no line. */
    NITRO_ROOM = 13,
    /* An answer is kept, and has to be taken first, by a step with no line. This line isn't taken. */
    NITRO_KEPT = 14,
    /* An earlier step ended the handle. Close it, and open the file again. */
    NITRO_ENDED = 15,
    /* No such handle is open. */
    NITRO_HANDLE = 16,
    /* Another thread is in a call with this handle. Nothing was done. */
    NITRO_BUSY = 17,
    /* NITRO_MOST_HANDLES are open. */
    NITRO_FULL = 18
};

/* How a file is opened. */
struct nitro_start {
    /* The responses to the records after this one are given again, if `again` isn't 0; else none are. */
    uint64_t after;
    int32_t again;
    /* Not 0: the file may be a copy, and the file that it was copied from is gone. */
    int32_t moved;
};

/* The version of this library, as text. */
const char *nitro_version(void);

/* A status in words. */
const char *nitro_words(int32_t status);

/* Opens the state file at a path, or makes it, and plays its records. `seed` has 32 bytes. On NITRO_OK there is a handle, and
 * the line `ready` is kept, after the responses that are given again: take it by a step with no line. On any other status no
 * handle is given. `start` may be null: then no response is given again, and a copy is refused. */
int32_t nitro_node_open(const char *path, const uint8_t *seed, uint8_t height, nitro_node *node);
int32_t nitro_node_open_from(
    const char *path, const uint8_t *seed, uint8_t height, const struct nitro_start *start, nitro_node *node);

/* Takes a line, and gives its answer: at most `room` bytes into `text`. `*count` is the length of the answer, also on
 * NITRO_ROOM and NITRO_KEPT, where the answer is kept, and else 0. With `length` 0 no line is taken, and what is kept is
 * given. `line` and `text` may be null if their lengths are 0. */
int32_t nitro_node_step(
    nitro_node node, const uint8_t *line, size_t length, uint8_t *text, size_t room, size_t *count);

/* Lets go of a handle and of its file. What is kept is lost, but the file has it: open it again from the record before. */
int32_t nitro_node_close(nitro_node node);

/* The same for a ledger. */
int32_t nitro_ledger_open(const char *path, nitro_ledger *ledger);
int32_t nitro_ledger_open_from(const char *path, const struct nitro_start *start, nitro_ledger *ledger);
int32_t nitro_ledger_step(
    nitro_ledger ledger, const uint8_t *line, size_t length, uint8_t *text, size_t room, size_t *count);
int32_t nitro_ledger_close(nitro_ledger ledger);

#ifdef __cplusplus
}
#endif

#endif
