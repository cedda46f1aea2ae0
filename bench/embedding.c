/* Times the calls of the C library one by one: bench/embedding.py builds and runs it. A line for each call: its name, and the median, the
 * ninth decile and the least of so many runs in nanoseconds. Over a file also one message of 4,001 changes to a server, and the same entries to
 * a client: nanoseconds, and syncs. */
#define _DEFAULT_SOURCE
#include <time.h>
#include <unistd.h>

static unsigned syncs;
static int counted_fsync(int file);
#define fsync(file) counted_fsync(file)
#include "realm_sync.h"
#undef fsync

static int counted_fsync(int file) {
    syncs++;
    return fsync(file);
}

enum { RUNS = 20000, OBJECTS = 1000, MANY = 4000 };

static realm_node client, server;
static uint64_t times[RUNS];

static void expect(int status, const realm_node *node) {
    char text[256];
    if (status == REALM_DONE) return;
    fprintf(stderr, "%s\n", realm_words(node, status, text, sizeof text));
    exit(1);
}

static uint64_t now(void) {
    struct timespec time;
    clock_gettime(CLOCK_MONOTONIC, &time);
    return (uint64_t)time.tv_sec * 1000000000u + (uint64_t)time.tv_nsec;
}

static int by_size(const void *a, const void *b) {
    uint64_t x = *(const uint64_t *)a, y = *(const uint64_t *)b;
    return x < y ? -1 : x > y;
}

/* Times a call so many times. */
static void measure(const char *name, int runs, void (*call)(int)) {
    for (int i = 0; i < runs; i++) {
        uint64_t start = now();
        call(i);
        times[i] = now() - start;
    }
    qsort(times, (size_t)runs, sizeof times[0], by_size);
    printf("%s %" PRIu64 " %" PRIu64 " %" PRIu64 "\n", name, times[runs / 2], times[runs * 9 / 10], times[0]);
}

static void commit_one(int turn) {
    char edits[256];
    snprintf(edits, sizeof edits, "[{\"op\":\"Update\",\"table\":\"notes\",\"key\":%d,\"column\":\"text\",\"value\":\"buy %d\"}]", turn % OBJECTS, turn);
    expect(realm_commit(&client, 1700000000000u + (uint64_t)turn, edits), &client);
}

static void commit_four(int turn) {
    char edits[1024];
    snprintf(edits, sizeof edits,
             "[{\"op\":\"CreateObject\",\"table\":\"notes\",\"key\":%d},"
             "{\"op\":\"Update\",\"table\":\"notes\",\"key\":%d,\"column\":\"text\",\"value\":\"buy oat milk\"},"
             "{\"op\":\"AddInteger\",\"table\":\"notes\",\"key\":%d,\"column\":\"read\",\"amount\":1},"
             "{\"op\":\"SetInsert\",\"table\":\"notes\",\"key\":%d,\"column\":\"tags\",\"value\":\"shop\"}]",
             turn, turn, turn, turn);
    expect(realm_commit(&client, 1700000000000u + (uint64_t)turn, edits), &client);
}

static void read_object(int turn) {
    char name[64];
    snprintf(name, sizeof name, "{\"table\":\"notes\",\"key\":%d}", turn * 7 % OBJECTS);
    expect(realm_object(&client, name), &client);
}

static void stand(int turn) {
    realm_place place;
    (void)turn;
    expect(realm_standing(&client, &place), &client);
}

/* A round with nothing new: a question and an empty Download. */
static void sync_nothing(int turn) {
    size_t len;
    (void)turn;
    expect(realm_next(&client), &client);
    const uint8_t *message = realm_bytes(&client, &len);
    expect(realm_take(&server, message, len), &server);
    message = realm_bytes(&server, &len);
    expect(realm_take(&client, message, len), &client);
}

static void sync_all(void) {
    realm_place place;
    do {
        sync_nothing(0);
        expect(realm_standing(&client, &place), &client);
    } while (place.ident == 0 || place.unsent > 0);
}

/* The client's next message to the server, and the reply; how long each took, where it has a name. */
static void pass_timed(realm_node *from, realm_node *to, const char *there, const char *back) {
    size_t len;
    expect(realm_next(from), from);
    const uint8_t *message = realm_bytes(from, &len);
    unsigned before = syncs;
    uint64_t start = now();
    expect(realm_take(to, message, len), to);
    if (there) printf("%s %" PRIu64 " %u\n", there, now() - start, syncs - before);
    message = realm_bytes(to, &len);
    before = syncs;
    start = now();
    expect(realm_take(from, message, len), from);
    if (back) printf("%s %" PRIu64 " %u\n", back, now() - start, syncs - before);
}

/* One Upload of many changes to a server over a file, and one Download of them to a client over another one. */
static void measure_messages(const char *file) {
    static const char table[] =
        "[{\"op\":\"AddTable\",\"table\":\"t\",\"key\":\"Int\"},"
        "{\"op\":\"AddColumn\",\"table\":\"t\",\"column\":\"n\",\"kind\":\"Int\",\"nullable\":false,\"shape\":\"One\"},"
        "{\"op\":\"CreateObject\",\"table\":\"t\",\"key\":1}]";
    realm_node first, second, to;
    char name[512];
    snprintf(name, sizeof name, "%s.server", file);
    expect(realm_open_server(&to, name), &to);
    snprintf(name, sizeof name, "%s.second", file);
    expect(realm_open_client(&second, name), &second);
    expect(realm_open_client(&first, NULL), &first);
    expect(realm_born(&first, "00000000-0000-4000-8000-000000000002"), &first);
    expect(realm_born(&second, "00000000-0000-4000-8000-000000000003"), &second);
    expect(realm_commit(&first, 1, table), &first);
    for (int i = 0; i < MANY; i++)
        expect(realm_commit(&first, 2, "[{\"op\":\"AddInteger\",\"table\":\"t\",\"key\":1,\"column\":\"n\",\"amount\":1}]"), &first);
    pass_timed(&first, &to, NULL, NULL); /* its ident */
    pass_timed(&first, &to, NULL, NULL); /* a question */
    pass_timed(&first, &to, "upload", NULL);
    pass_timed(&second, &to, NULL, NULL);
    pass_timed(&second, &to, NULL, "download");
    realm_close(&first);
    realm_close(&second);
    realm_close(&to);
}

int main(int count, char **words) {
    const char *file = count > 1 ? words[1] : NULL;
    int runs = file ? 500 : RUNS;
    expect(realm_open_client(&client, file), &client);
    expect(realm_open_server(&server, NULL), &server);
    expect(realm_born(&client, "00000000-0000-4000-8000-000000000001"), &client);
    expect(realm_upgrade(&client), &client);
    expect(realm_commit(&client, 1,
                        "[{\"op\":\"AddTable\",\"table\":\"notes\",\"key\":\"Int\"},"
                        "{\"op\":\"AddColumn\",\"table\":\"notes\",\"column\":\"text\",\"kind\":\"Text\",\"nullable\":false,\"shape\":\"One\"},"
                        "{\"op\":\"AddColumn\",\"table\":\"notes\",\"column\":\"read\",\"kind\":\"Int\",\"nullable\":false,\"shape\":\"One\"},"
                        "{\"op\":\"AddColumn\",\"table\":\"notes\",\"column\":\"tags\",\"kind\":\"Text\",\"nullable\":false,\"shape\":\"Set\"}]"),
           &client);
    measure("commit-four", file ? OBJECTS : RUNS, commit_four);
    measure("commit-one", runs, commit_one);
    measure("object", RUNS, read_object);
    measure("standing", RUNS, stand);
    sync_all();
    measure("sync", RUNS, sync_nothing);
    if (file) measure_messages(file);
    realm_close(&client);
    realm_close(&server);
    return 0;
}
