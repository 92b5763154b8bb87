/* Threads that call the library at once: threads FOLDER
 *
 * Each opens a ledger of its own, and all step one ledger. A call finds it in use, or is done: as many records stand in the
 * file in the end as steps were done.
 */
#define _POSIX_C_SOURCE 200809L
#include "nitro.h"

#include <pthread.h>
#include <stdio.h>
#include <stdlib.h>
#include <string.h>

enum { THREADS = 4, STEPS = 200 };

static const char *folder;
static nitro_ledger shared;
static int done_by[THREADS];

static void expect(int32_t status, int32_t wanted) {
    if (status != wanted) {
        fprintf(stderr, "threads: %s\n", nitro_words(status));
        exit(1);
    }
}

static int32_t step(nitro_ledger ledger, const char *line) {
    uint8_t text[4096];
    size_t count = 0;
    return nitro_ledger_step(ledger, (const uint8_t *)line, strlen(line), text, sizeof text, &count);
}

static void *work(void *place) {
    int *done = place;
    char path[4096], line[64];
    nitro_ledger own = 0;
    snprintf(path, sizeof path, "%s/own-%d", folder, (int)(done - done_by));
    expect(nitro_ledger_open(path, &own), NITRO_OK);
    expect(step(own, ""), NITRO_OK);
    for (int i = 1; i <= STEPS; i++) {
        snprintf(line, sizeof line, "{\"do\":\"time\",\"to\":%d}", i);
        if (i % 10 == 0) {
            expect(step(own, line), NITRO_OK);
        }
        int32_t status = step(shared, line);
        if (status != NITRO_BUSY) {
            expect(status, NITRO_OK);
            ++*done;
        }
    }
    expect(nitro_ledger_close(own), NITRO_OK);
    expect(nitro_ledger_close(own), NITRO_HANDLE);
    return NULL;
}

int main(int count, char **words) {
    pthread_t threads[THREADS];
    char path[4096];
    if (count != 2) {
        return 2;
    }
    folder = words[1];
    snprintf(path, sizeof path, "%s/shared", folder);
    expect(nitro_ledger_open(path, &shared), NITRO_OK);
    expect(step(shared, ""), NITRO_OK);
    for (int i = 0; i < THREADS; i++) {
        if (pthread_create(&threads[i], NULL, work, &done_by[i]) != 0) {
            return 1;
        }
    }
    int done = 0;
    for (int i = 0; i < THREADS; i++) {
        pthread_join(threads[i], NULL);
        done += done_by[i];
    }
    expect(nitro_ledger_close(shared), NITRO_OK);
    /* The file has as many records, and no more. */
    struct nitro_start after = {(uint64_t)done, 1, 0}, behind = {(uint64_t)done + 1, 1, 0};
    expect(nitro_ledger_open_from(path, &behind, &shared), NITRO_BEHIND);
    expect(nitro_ledger_open_from(path, &after, &shared), NITRO_OK);
    expect(nitro_ledger_close(shared), NITRO_OK);
    return 0;
}
