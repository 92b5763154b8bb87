/* Two people pay each other over a ledger, with a node each, in one process: what examples/lasting/wallet.py does with
 * processes. wallet FOLDER
 *
 * Lines are texts of their own here, and values are cut out of answers by their keys. A wallet would use a JSON library.
 */
#define _POSIX_C_SOURCE 200809L
#include "nitro.h"

#include <stdbool.h>
#include <stdio.h>
#include <stdlib.h>
#include <string.h>

enum { LINE_ROOM = 1 << 20, MOST_ENTRIES = 64, MOST_LETTERS = 256 };

static void expect(int32_t status) {
    if (status != NITRO_OK) {
        fprintf(stderr, "wallet: %s\n", nitro_words(status));
        exit(1);
    }
}

static char *copy_of(const char *text, size_t length) {
    char *copy = malloc(length + 1);
    if (copy == NULL) {
        expect(NITRO_OUT_OF_MEMORY);
    }
    memcpy(copy, text, length);
    copy[length] = 0;
    return copy;
}

/* The text at a key of a line, up to the next quote, comma or brace, or null; the caller frees it. */
static char *value_at(const char *line, const char *key) {
    char name[64];
    snprintf(name, sizeof name, "\"%s\":", key);
    const char *end = strchr(line, '\n');
    const char *at = strstr(line, name);
    if (at == NULL || (end != NULL && at > end)) {
        return NULL;
    }
    at += strlen(name);
    if (*at == '"') {
        return copy_of(at + 1, strcspn(at + 1, "\""));
    }
    return copy_of(at, strcspn(at, ",}\n"));
}

static bool is_effect(const char *line, const char *word) {
    char *effect = value_at(line, "effect");
    bool same = effect != NULL && strcmp(effect, word) == 0;
    free(effect);
    return same;
}

/* ---- a ledger, and the entries that it made */

struct entry {
    char *line;
};

static nitro_ledger ledger;
static struct entry entries[MOST_ENTRIES];
static int entry_count;

static char line[LINE_ROOM], text[LINE_ROOM];

/* Takes what a handle keeps, or what it gives for the line, into `text`. */
static void step_ledger(void) {
    size_t count = 0;
    expect(nitro_ledger_step(ledger, (const uint8_t *)line, strlen(line), (uint8_t *)text, sizeof text - 1, &count));
    text[count] = 0;
}

static void enter(int by, const char *call) {
    snprintf(line, sizeof line, "{\"do\":\"enter\",\"by\":%d,\"call\":\"%s\"}", by, call);
    step_ledger();
    entries[entry_count++].line = copy_of(text, strcspn(text, "\n"));
}

/* ---- a person: a node that decides and signs, and this, which carries its messages and calls */

struct letter {
    char *to, *bytes;
};

struct wallet {
    int number;
    const char *path;
    uint8_t seed[32];
    nitro_node node;
    char *key, *name;
    struct letter sent[MOST_LETTERS];
    int sent_count, seen;
    uint64_t done;
};

/* Whether the ledger has a call, which is given again after a restart. */
static bool was_entered(const char *call) {
    bool found = false;
    for (int i = 0; i < entry_count; i++) {
        char *op = value_at(entries[i].line, "op");
        found = found || (op != NULL && strncmp(op, "01", 2) == 0 && strcmp(op + 2, call) == 0);
        free(op);
    }
    return found;
}

/* Does what an answer says: keeps messages, and enters calls. */
static void follow(struct wallet *wallet, const char *answer, bool again) {
    char *all = copy_of(answer, strlen(answer));
    for (char *effect = all; *effect != 0;) {
        char *end = strchr(effect, '\n');
        if (is_effect(effect, "send")) {
            wallet->sent[wallet->sent_count++] = (struct letter){value_at(effect, "to"), value_at(effect, "bytes")};
        } else if (is_effect(effect, "call")) {
            char *call = value_at(effect, "call");
            if (!again || !was_entered(call)) {
                enter(wallet->number, call);
            }
            free(call);
        } else if (is_effect(effect, "done")) {
            char *number = value_at(effect, "n");
            wallet->done = strtoull(number, NULL, 10);
            free(number);
        } else if (is_effect(effect, "ready")) {
            free(wallet->key);
            free(wallet->name);
            wallet->key = value_at(effect, "key");
            wallet->name = value_at(effect, "name");
        }
        effect = end == NULL ? effect + strlen(effect) : end + 1;
    }
    free(all);
}

/* Gives the line in `line` to the node. An answer that finds no room is taken by a second step. */
static void ask(struct wallet *wallet, bool again) {
    size_t count = 0;
    int32_t status = nitro_node_step(wallet->node, (const uint8_t *)line, strlen(line), (uint8_t *)text, 16, &count);
    if (status == NITRO_ROOM) {
        status = nitro_node_step(wallet->node, NULL, 0, (uint8_t *)text, sizeof text - 1, &count);
    }
    expect(status);
    text[count] = 0;
    follow(wallet, text, again);
}

/* Opens the node. After a crash it goes on, and gives again what it gave after record `done`. */
static void start(struct wallet *wallet) {
    struct nitro_start from = {wallet->done, 1, 0};
    expect(nitro_node_open_from(wallet->path, wallet->seed, 10, &from, &wallet->node));
    line[0] = 0;
    ask(wallet, true);
}

/* Shows the node what is new, and lets it act. */
static void act(struct wallet *wallet, struct letter *letters, int count) {
    for (; wallet->seen < entry_count; wallet->seen++) {
        const char *entry = entries[wallet->seen].line;
        char *number = value_at(entry, "number"), *by = value_at(entry, "by");
        char *op = value_at(entry, "op"), *reply = value_at(entry, "reply");
        snprintf(line, sizeof line, "{\"do\":\"entry\",\"number\":%s,\"by\":%s,\"op\":\"%s\",\"reply\":\"%s\"}", number, by, op, reply);
        free(number), free(by), free(op), free(reply);
        ask(wallet, false);
    }
    for (int i = 0; i < count; i++) {
        if (strcmp(letters[i].to, wallet->name) == 0) {
            snprintf(line, sizeof line, "{\"do\":\"message\",\"bytes\":\"%s\"}", letters[i].bytes);
            ask(wallet, false);
        }
        free(letters[i].to), free(letters[i].bytes);
    }
    strcpy(line, "{\"do\":\"tick\"}");
    ask(wallet, false);
}

static struct wallet alice = {.number = 1}, bob = {.number = 2};

static void rounds(int count) {
    static struct letter letters[MOST_LETTERS];
    for (int i = 0; i < 2 * count; i++) {
        struct wallet *one = i % 2 == 0 ? &alice : &bob, *other = i % 2 == 0 ? &bob : &alice;
        int sent = other->sent_count;
        memcpy(letters, other->sent, (size_t)sent * sizeof letters[0]);
        other->sent_count = 0;
        act(one, letters, sent);
    }
}

static void say(struct wallet *wallet, const char *words, const char *channel, const char *more) {
    snprintf(line, sizeof line, "{\"do\":\"%s\",\"channel\":\"%s\"%s}", words, channel, more);
    ask(wallet, false);
}

/* An entry in words, with C for the channel. */
static void print_entry(const char *entry, const char *channel) {
    char *number = value_at(entry, "number"), *by = value_at(entry, "by"), *words = value_at(entry, "text");
    printf("%s %s ", number, by);
    for (const char *at = words; *at != 0;) {
        bool is_name = strncmp(at, channel, strlen(channel)) == 0;
        putchar(is_name ? 'C' : *at);
        at += is_name ? strlen(channel) : 1;
    }
    putchar('\n');
    free(number), free(by), free(words);
}

/* ---- what comes back for each mistake */

static void refuse(int32_t status, int32_t wanted) {
    if (status != wanted) {
        fprintf(stderr, "wallet: '%s' in place of '%s'\n", nitro_words(status), nitro_words(wanted));
        exit(1);
    }
}

static void mistakes(void) {
    size_t count = 0;
    nitro_node node = 0;
    uint8_t bytes[4] = {'a', '\n', 'b', 30};
    refuse(nitro_node_open(NULL, alice.seed, 10, &node), NITRO_ARGUMENT);
    refuse(nitro_node_open("other", NULL, 10, &node), NITRO_ARGUMENT);
    refuse(nitro_node_open("other", alice.seed, 10, NULL), NITRO_ARGUMENT);
    refuse(nitro_node_open("other", alice.seed, 11, &node), NITRO_KEY);
    refuse(nitro_node_open(".", alice.seed, 10, &node), NITRO_FILE);
    refuse(nitro_node_open(alice.path, alice.seed, 10, &node), NITRO_IN_USE);
    refuse(nitro_node_step(0, bytes, 1, bytes, 1, &count), NITRO_HANDLE);
    refuse(nitro_node_step(ledger, bytes, 1, bytes, 1, &count), NITRO_HANDLE);
    refuse(nitro_node_step(alice.node, NULL, 1, bytes, 1, &count), NITRO_ARGUMENT);
    refuse(nitro_node_step(alice.node, bytes, 1, NULL, 1, &count), NITRO_ARGUMENT);
    refuse(nitro_node_step(alice.node, bytes, 1, bytes, 1, NULL), NITRO_ARGUMENT);
    refuse(nitro_node_step(alice.node, bytes, (size_t)-1, bytes, 1, &count), NITRO_ARGUMENT);
    refuse(nitro_node_step(alice.node, bytes, 2, bytes, 1, &count), NITRO_LINE);
    refuse(nitro_node_step(alice.node, bytes + 2, 2, bytes, 1, &count), NITRO_LINE);
    /* A line that isn't taken has an answer too, which is kept. */
    refuse(nitro_node_step(alice.node, bytes, 1, NULL, 0, &count), NITRO_ROOM);
    refuse(nitro_node_step(alice.node, bytes, 1, (uint8_t *)text, sizeof text - 1, &count), NITRO_KEPT);
    refuse(nitro_node_step(alice.node, NULL, 0, (uint8_t *)text, sizeof text - 1, &count), NITRO_OK);
    text[count] = 0;
    if (strcmp(text, "{\"effect\":\"error\",\"why\":\"json\"}\n") != 0) {
        refuse(NITRO_OK, NITRO_LINE);
    }
}

static void finish(void) {
    expect(nitro_ledger_close(ledger));
    refuse(nitro_ledger_close(ledger), NITRO_HANDLE);
    for (struct wallet *wallet = &alice; wallet != NULL; wallet = wallet == &alice ? &bob : NULL) {
        expect(nitro_node_close(wallet->node));
        refuse(nitro_node_close(wallet->node), NITRO_HANDLE);
        for (int i = 0; i < wallet->sent_count; i++) {
            free(wallet->sent[i].to), free(wallet->sent[i].bytes);
        }
        free(wallet->key), free(wallet->name);
    }
    for (int i = 0; i < entry_count; i++) {
        free(entries[i].line);
    }
}

int main(int count, char **words) {
    static char paths[3][4096];
    if (count != 2) {
        return 2;
    }
    const char *names[3] = {"ledger", "alice", "bob"};
    for (int i = 0; i < 3; i++) {
        snprintf(paths[i], sizeof paths[i], "%s/%s", words[1], names[i]);
    }
    expect(nitro_ledger_open(paths[0], &ledger));
    line[0] = 0;
    step_ledger();
    /* A seed is 32 random bytes, and is used with one state file alone. */
    memset(alice.seed, 0xa1, 32);
    memset(bob.seed, 0xb2, 32);
    alice.path = paths[1];
    bob.path = paths[2];
    start(&alice);
    start(&bob);
    mistakes();
    for (int i = 0; i < 2; i++) {
        snprintf(line, sizeof line,
            "{\"do\":\"open\",\"channel\":{\"people\":[\"%s\",\"%s\"],\"nonce\":1,\"app\":\"payment\",\"duration\":10},"
            "\"outcome\":[{\"asset\":0,\"items\":[[\"%s\",5],[\"%s\",3]]}]}", alice.key, bob.key, alice.key, bob.key);
        ask(i == 0 ? &alice : &bob, false);
    }
    strcpy(line, "{\"do\":\"plan\"}");
    ask(&alice, false);
    char *list = strchr(text, '[');
    char *channel = copy_of(list + 2, strcspn(list + 2, "\""));
    rounds(8);
    say(&alice, "pay", channel, ",\"asset\":0,\"amount\":2");
    rounds(1);
    expect(nitro_node_close(bob.node));
    start(&bob);
    say(&bob, "pay", channel, ",\"asset\":0,\"amount\":1");
    rounds(1);
    for (int i = 0; i < 2; i++) {
        struct wallet *wallet = i == 0 ? &alice : &bob;
        say(wallet, "balance", channel, "");
        char *items = strstr(text, "\"items\":");
        printf("balance %.*s\n", (int)(strstr(items, "]]") - items) - 6, items + 8);
        say(wallet, "close", channel, "");
    }
    rounds(6);
    for (int i = 0; i < entry_count; i++) {
        print_entry(entries[i].line, channel);
    }
    free(channel);
    finish();
    return 0;
}
