/* What stands in a node's file after a crash at each call of the system. A client and a server each take some steps over a file: a commit, a
 * message of many entries, an Upload of many changes. Every write and sync is noted. Then, for each of them,
 *
 * - a process is killed before it, after it, or in the middle of a write;
 * - the machine stops there: what was written since the last sync is on the disk, or isn't, or in part, or is anything
 *   (docs/FORMATS.md, "The disk").
 *
 * Opened again, the file has to be that from before the step or from after it, and that of each step which was answered. With the argument
 * `unsynced` no sync counts, which has to be found.
 *
 * Before that, outboxes that are drawn: each leaves the bytes that its writes make, in two writes for records that stand one behind the other,
 * and stroke by stroke where anything in one isn't exactly so. */
#define _DEFAULT_SOURCE
#include <fcntl.h>
#include <signal.h>
#include <stdbool.h>
#include <stdint.h>
#include <sys/types.h>
#include <sys/wait.h>
#include <unistd.h>

static off_t traced_lseek(int file, off_t place, int whence);
static ssize_t traced_write(int file, const void *bytes, size_t count);
static int traced_fsync(int file);
#define lseek(file, place, whence) traced_lseek(file, place, whence)
#define write(file, bytes, count) traced_write(file, bytes, count)
#define fsync(file) traced_fsync(file)
#include "realm_sync.h"
#undef lseek
#undef write
#undef fsync

enum { MOST_CALLS = 4096, MOST_STEPS = 32, BATCH = 40, IMAGES = 12 };

static void check(bool holds, const char *what) {
    if (holds) return;
    fprintf(stderr, "doesn't hold: %s\n", what);
    exit(1);
}

/* ---- the calls of the system */

typedef struct call {
    uint64_t place;
    size_t count; /* 0: a sync */
    uint8_t *bytes;
} call;

enum die { LIVES, BEFORE, MIDDLE, AFTER };

static call calls[MOST_CALLS];
static int made, die_at = -1;
static enum die die_how;
static bool is_traced, is_unsynced;
static off_t place_now;

static bool dies(enum die how) { return is_traced && made == die_at && die_how == how; }

static off_t traced_lseek(int file, off_t place, int whence) { return place_now = lseek(file, place, whence); }

/* Notes a call. */
static void note(const void *bytes, size_t count) {
    if (!is_traced) return;
    check(made < MOST_CALLS, "few calls");
    call *it = &calls[made++];
    free(it->bytes);
    it->place = (uint64_t)place_now;
    it->count = count;
    it->bytes = (uint8_t *)malloc(count + 1);
    check(it->bytes != NULL, "memory");
    if (count > 0) memcpy(it->bytes, bytes, count);
}

static ssize_t traced_write(int file, const void *bytes, size_t count) {
    if (dies(BEFORE)) raise(SIGKILL);
    if (dies(MIDDLE) && write(file, bytes, count / 2) >= 0) raise(SIGKILL);
    ssize_t done = write(file, bytes, count);
    if (dies(AFTER)) raise(SIGKILL);
    if (done > 0) note(bytes, (size_t)done);
    place_now += done;
    return done;
}

static int traced_fsync(int file) {
    if (dies(BEFORE)) raise(SIGKILL);
    int failed = fsync(file);
    if (dies(MIDDLE) || dies(AFTER)) raise(SIGKILL);
    note(NULL, 0);
    return failed;
}

/* ---- the steps */

/* Where a node stands, and its objects. */
typedef struct state {
    realm_place place;
    uint8_t *lines;
    size_t len;
} state;

static state states[MOST_STEPS];
static int ends[MOST_STEPS], steps;
static realm_node node, other, server;

static state state_of(realm_node *it) {
    state now;
    check(realm_standing(it, &now.place) == REALM_DONE && realm_dump(it) == REALM_DONE, "it stands");
    const uint8_t *lines = realm_bytes(it, &now.len);
    now.lines = (uint8_t *)malloc(now.len + 1);
    check(now.lines != NULL, "memory");
    memcpy(now.lines, lines, now.len);
    return now;
}

static bool is_same(const state *a, const state *b) {
    return memcmp(&a->place, &b->place, sizeof a->place) == 0 && a->len == b->len && memcmp(a->lines, b->lines, a->len) == 0;
}

/* A step was answered. */
static void answered(int status) {
    check(status == REALM_DONE && steps < MOST_STEPS, "a step");
    bool was_traced = is_traced;
    is_traced = false;
    ends[steps] = made;
    free(states[steps].lines);
    states[steps++] = state_of(&node);
    is_traced = was_traced;
}

static void add_one(realm_node *it, uint64_t ms) {
    check(realm_commit(it, ms, "[{\"op\":\"AddInteger\",\"table\":\"t\",\"key\":1,\"column\":\"n\",\"amount\":1}]") == REALM_DONE, "an addition");
}

static void make_table(realm_node *it, const char *uuid) {
    static const char edits[] =
        "[{\"op\":\"AddTable\",\"table\":\"t\",\"key\":\"Int\"},"
        "{\"op\":\"AddColumn\",\"table\":\"t\",\"column\":\"n\",\"kind\":\"Int\",\"nullable\":false,\"shape\":\"One\"},"
        "{\"op\":\"CreateObject\",\"table\":\"t\",\"key\":1}]";
    check(realm_born(it, uuid) == REALM_DONE && realm_upgrade(it) == REALM_DONE && realm_commit(it, 1, edits) == REALM_DONE, "a table");
}

/* Sends the next message of `from` to `to`, and takes the reply; where one of them is the node it is a step. */
static void pass(realm_node *from, realm_node *to) {
    size_t len;
    check(realm_next(from) == REALM_DONE, "a message");
    const uint8_t *bytes = realm_bytes(from, &len);
    int status = realm_take(to, bytes, len);
    uint8_t *reply = NULL;
    bytes = realm_bytes(to, &len);
    check(status == REALM_DONE && (reply = (uint8_t *)malloc(len + 1)) != NULL, "a reply");
    memcpy(reply, bytes, len);
    if (to == &node) answered(status);
    status = realm_take(from, reply, len);
    check(status == REALM_DONE, "it is taken");
    if (from == &node) answered(status);
    free(reply);
}

static void sync_all(realm_node *from, realm_node *to) {
    int rounds = 0;
    do {
        check(rounds++ < 100, "an end");
        pass(from, to);
    } while (!realm_is_current(from));
}

/* A client over the file takes many entries at once, commits, and gets its own back. */
static void run_client(const char *path) {
    check(realm_open_server(&server, NULL) == REALM_DONE && realm_open_client(&other, NULL) == REALM_DONE, "in memory");
    make_table(&other, "00000000-0000-4000-8000-000000000001");
    for (int i = 0; i < BATCH; i++) add_one(&other, 2);
    sync_all(&other, &server);
    is_traced = true;
    answered(realm_open_client(&node, path));
    answered(realm_born(&node, "00000000-0000-4000-8000-000000000002"));
    answered(realm_upgrade(&node));
    sync_all(&node, &server);
    for (int i = 0; i < 4; i++) {
        add_one(&node, 3);
        answered(REALM_DONE);
    }
    sync_all(&node, &server);
    is_traced = false;
}

/* A server over the file takes many changes at once, of two clients. */
static void run_server(const char *path) {
    check(realm_open_client(&other, NULL) == REALM_DONE && realm_open_client(&server, NULL) == REALM_DONE, "in memory");
    make_table(&other, "00000000-0000-4000-8000-000000000001");
    make_table(&server, "00000000-0000-4000-8000-000000000002");
    is_traced = true;
    answered(realm_open_server(&node, path));
    for (realm_node *from = &other;; from = &server) {
        is_traced = false;
        for (int i = 0; i < BATCH; i++) add_one(from, 2);
        is_traced = true;
        sync_all(from, &node);
        if (from == &server) break;
    }
    is_traced = false;
}

/* Runs all steps over a new file. */
static void run(void (*body)(const char *), const char *path) {
    unlink(path);
    made = steps = 0;
    body(path);
    realm_close(&node);
    realm_close(&other);
    realm_close(&server);
}

/* ---- what may stand after a crash */

static uint64_t seed = 1;

static uint32_t draw(uint32_t below) {
    seed = seed * 6364136223846793005u + 1442695040888963407u;
    return (uint32_t)(seed >> 33) % below;
}

/* The step in which the call of that number is made. */
static int step_of(int number) {
    int step = 0;
    while (step < steps - 1 && ends[step] <= number) step++;
    return step;
}

/* Opens the file, which has to be as before the step or after it. Before the first step it may be none, or begun. */
static void look(const char *path, char verb, int number, const char *what) {
    realm_node opened;
    int step = step_of(number);
    int status = realm_open(&opened, verb, path);
    check(status == REALM_DONE, what);
    state now = state_of(&opened);
    realm_close(&opened);
    bool holds = is_same(&now, &states[step]) || (step > 0 && is_same(&now, &states[step - 1]));
    if (!holds) fprintf(stderr, "call %d, step %d: cursor %u, last %u\n", number, step, now.place.cursor, now.place.last);
    free(now.lines);
    check(holds, what);
}

/* How much of what wasn't synced is on the disk: nothing, all, the first half; else each byte is the old one, the new one or any. */
static void spoil(uint8_t *image, const uint8_t *old, size_t old_len, const call *it, int how) {
    for (size_t i = 0; i < it->count; i++) {
        size_t at = (size_t)it->place + i;
        uint8_t before = at < old_len ? old[at] : (uint8_t)draw(256);
        bool is_new = how == 1 || (how == 2 && i < it->count / 2) || (how > 3 && draw(3) > 0);
        image[at] = is_new ? it->bytes[i] : how > 3 && draw(2) ? (uint8_t)draw(256) : before;
    }
}

/* Writes what the disk may hold where the machine stops behind so many calls. */
static void write_image(const char *path, int number, int how) {
    enum { ROOM = 1 << 17 };
    static uint8_t synced[ROOM], image[ROOM];
    size_t synced_len = 0, len = 0;
    int from = 0;
    for (int i = 0; i < number; i++) {
        if (calls[i].count == 0 && !is_unsynced) from = i;
    }
    for (int i = 0; i < number; i++) {
        const call *it = &calls[i];
        size_t end = (size_t)it->place + it->count;
        if (it->count == 0) continue;
        check(end <= ROOM, "a small file");
        if (i < from) memcpy(synced + it->place, it->bytes, it->count);
        if (i < from && end > synced_len) synced_len = end;
        if (end > len) len = end;
    }
    memcpy(image, synced, ROOM);
    for (int i = from; i < number; i++) spoil(image, synced, synced_len, &calls[i], how);
    if (how == 0) len = synced_len;
    if (how > 3 && len > synced_len) len = synced_len + draw((uint32_t)(len - synced_len) + 1);
    FILE *file = fopen(path, "wb");
    check(file && fwrite(image, 1, len, file) == len && fclose(file) == 0, "an image");
}

/* Runs the steps in a process that dies at a call. */
static void run_to_death(void (*body)(const char *), const char *path, int number, enum die how) {
    pid_t child = fork();
    check(child >= 0, "a process");
    if (child == 0) {
        die_at = number;
        die_how = how;
        run(body, path);
        _exit(0);
    }
    int status;
    check(waitpid(child, &status, 0) == child && WIFSIGNALED(status) && WTERMSIG(status) == SIGKILL, "a process is killed");
}

static void crash_everywhere(void (*body)(const char *), const char *path, char verb, const char *name) {
    run(body, path);
    int all = made, images = 0;
    for (int number = 0; number <= all; number++)
        for (int how = 0; how < IMAGES; how++, images++) {
            write_image(path, number, how);
            look(path, verb, number, "a stop of the machine leaves the file from before the step or after it");
        }
    for (int number = 0; number < all && !is_unsynced; number++)
        for (int how = BEFORE; how <= AFTER; how++) {
            run_to_death(body, path, number, (enum die)how);
            look(path, verb, number, "a killed process leaves the file from before the step or after it");
        }
    printf("%s: %d steps, %d writes and syncs, %d images, %d processes killed: as before the step or after it\n", name, steps, all, images, 3 * all);
}

/* ---- outboxes that are drawn */

enum { OUTBOXES = 400, GROUPS = 8, OUTBOX_ROOM = 4096 };

static uint8_t outbox[OUTBOX_ROOM], content[OUTBOX_ROOM];
static size_t outbox_len, content_len;

static void ask_sync(void) { outbox[outbox_len++] = 'S'; }

static void ask_write(uint64_t place, const uint8_t *bytes, size_t count) {
    outbox[outbox_len] = 'W';
    for (int i = 0; i < 8; i++) {
        outbox[outbox_len + 1 + (size_t)i] = (uint8_t)(place >> (8 * i));
        outbox[outbox_len + 9 + (size_t)i] = (uint8_t)((uint64_t)count >> (8 * i));
    }
    memcpy(outbox + outbox_len + REALM_WRITE_HEAD, bytes, count);
    outbox_len += REALM_WRITE_HEAD + count;
    memcpy(content + place, bytes, count);
    if (place + count > content_len) content_len = (size_t)place + count;
}

/* A record behind the gate, and the gate: as a journal asks for them, or otherwise in one thing. */
static void ask_record(uint64_t *gate, uint32_t otherwise) {
    uint8_t bytes[32], opened[2] = {REALM_GATE_OPEN, 7};
    size_t count = 5 + draw(24);
    for (size_t i = 0; i < count; i++) bytes[i] = (uint8_t)draw(256);
    bytes[count - 1] = otherwise == 1;
    if (otherwise == 2) opened[0] = 2;
    ask_write(*gate + 1, bytes, count);
    if (otherwise != 3) ask_sync();
    ask_write(otherwise == 4 ? 0 : *gate, opened, otherwise == 5 ? 2 : 1);
    if (otherwise != 6) ask_sync();
    *gate += count;
}

static void drawn_outbox(const char *path) {
    static const uint8_t head[] = "RSYNCJ01";
    uint64_t gate = 8;
    int writes = 0, found = 0;
    bool is_after = false;
    outbox_len = content_len = 0;
    if (draw(2)) ask_sync();
    ask_write(0, head, sizeof head);
    ask_sync();
    writes++;
    for (uint32_t left = draw(GROUPS); left > 0; left--) {
        uint32_t otherwise = draw(3) ? 0 : 1 + draw(7);
        /* One at the first gate again, which doesn't stand behind the one before it. */
        bool is_elsewhere = otherwise == 7;
        if (is_elsewhere) gate = 8;
        ask_record(&gate, is_elsewhere ? 0 : otherwise);
        if (otherwise || !is_after) writes += 2;
        is_after = !otherwise || is_elsewhere;
    }
    unlink(path);
    realm_file file;
    uint8_t *read = NULL;
    size_t len = 0;
    check(realm_file_open(path, &file) == REALM_NO_REASON, "a file");
    made = 0;
    is_traced = true;
    check(realm_do_strokes(file, outbox, outbox_len) == REALM_NO_REASON, "an outbox is done");
    is_traced = false;
    for (int i = 0; i < made; i++) found += calls[i].count > 0;
    check(found == writes, "records that stand one behind the other are written together, and no others");
    check(calls[made - 1].count == 0, "the last of it is a sync");
    check(realm_file_request(file, 'c', &read, &len) == REALM_NO_REASON, "the file is read");
    check(len == content_len + 1 && memcmp(read + 1, content, content_len) == 0, "the file has what was asked");
    free(read);
    realm_file_close(file);
}

int main(int count, char **words) {
    if (count < 2) return 2;
    for (int i = 0; i < OUTBOXES; i++) drawn_outbox(words[1]);
    printf("%d outboxes: each leaves what it asks for, and is synced\n", OUTBOXES);
    is_unsynced = count > 2 && strcmp(words[2], "unsynced") == 0;
    crash_everywhere(run_client, words[1], 'c', "client");
    crash_everywhere(run_server, words[1], 's', "server");
    for (int i = 0; i < MOST_CALLS; i++) free(calls[i].bytes);
    for (int i = 0; i < MOST_STEPS; i++) free(states[i].lines);
    unlink(words[1]);
    return 0;
}
