/* Threads and nodes: each client and the server has a mutex of its own, and any thread uses any of them. A node isn't tied to the thread
 * that opened it; what it takes is one call at a time, and a lock that orders the calls of several threads. The answer of a call is valid
 * until the next call on that node, so it is read under the same lock.
 *
 * With the argument `unordered` two threads use one node one after the other without a lock: ThreadSanitizer and helgrind tell it. */
#include "realm_sync.h"
#include <pthread.h>
#include <time.h>

enum { THREADS = 4, CLIENTS = 6, TURNS = 40, MOST_ROUNDS = 10000 };

typedef struct shared_node {
    pthread_mutex_t lock;
    realm_node node;
} shared_node;

static shared_node clients[CLIENTS], server;
static pthread_barrier_t all_are_open;

static void expect(int status, const char *what, const realm_node *node) {
    char words[512];
    if (status == REALM_DONE) return;
    fprintf(stderr, "%s: %s\n", what, realm_words(node, status, words, sizeof words));
    exit(1);
}

/* Opens a client: any thread may. */
static void open_client(int number) {
    char uuid[37];
    shared_node *client = &clients[number];
    snprintf(uuid, sizeof uuid, "00000000-0000-4000-8000-%012d", number + 1);
    pthread_mutex_lock(&client->lock);
    expect(realm_open_client(&client->node, NULL), "open", &client->node);
    expect(realm_born(&client->node, uuid), "uuid", &client->node);
    expect(realm_upgrade(&client->node), "upgrade", &client->node);
    expect(realm_commit(&client->node, 1,
                        "[{\"op\":\"AddTable\",\"table\":\"t\",\"key\":\"Int\"},"
                        "{\"op\":\"AddColumn\",\"table\":\"t\",\"column\":\"n\",\"kind\":\"Int\",\"nullable\":false,\"shape\":\"One\"},"
                        "{\"op\":\"CreateObject\",\"table\":\"t\",\"key\":1}]"),
           "table", &client->node);
    pthread_mutex_unlock(&client->lock);
}

static void commit(shared_node *client) {
    pthread_mutex_lock(&client->lock);
    expect(realm_commit(&client->node, 2, "[{\"op\":\"AddInteger\",\"table\":\"t\",\"key\":1,\"column\":\"n\",\"amount\":1}]"), "commit", &client->node);
    pthread_mutex_unlock(&client->lock);
}

/* Hands the message that the client made to the server, and the reply to the client. Whoever needs two locks takes the client's first. */
static void pass_message(shared_node *client) {
    size_t len;
    const uint8_t *message = realm_bytes(&client->node, &len);
    pthread_mutex_lock(&server.lock);
    expect(realm_take(&server.node, message, len), "server", &server.node);
    const uint8_t *reply = realm_bytes(&server.node, &len);
    expect(realm_take(&client->node, reply, len), "client", &client->node);
    pthread_mutex_unlock(&server.lock);
}

static void sync_client(shared_node *client) {
    int rounds = 0;
    pthread_mutex_lock(&client->lock);
    do {
        if (++rounds > MOST_ROUNDS) exit(1);
        expect(realm_next(&client->node), "next message", &client->node);
        pass_message(client);
    } while (!realm_is_current(&client->node));
    pthread_mutex_unlock(&client->lock);
}

/* Opens some of the clients, and then uses all of them, whoever opened them. */
static void *work(void *number) {
    int own = *(const int *)number;
    for (int i = own; i < CLIENTS; i += THREADS) open_client(i);
    pthread_barrier_wait(&all_are_open);
    for (int turn = 0; turn < TURNS; turn++) {
        shared_node *client = &clients[(own + turn) % CLIENTS];
        commit(client);
        if (turn % 3 == own % 3) sync_client(client);
    }
    return NULL;
}

/* Whether the client has the same objects as the server. */
static bool is_equal(shared_node *client) {
    size_t len, server_len;
    expect(realm_dump(&client->node), "objects", &client->node);
    expect(realm_dump(&server.node), "objects", &server.node);
    const uint8_t *lines = realm_bytes(&client->node, &len);
    const uint8_t *server_lines = realm_bytes(&server.node, &server_len);
    return len == server_len && memcmp(lines, server_lines, len) == 0;
}

/* Uses the first client after so many milliseconds, with no lock. */
static void *use_unordered(void *milliseconds) {
    int wait = *(const int *)milliseconds;
    struct timespec time = {wait / 1000, wait % 1000 * 1000000L};
    realm_place place;
    nanosleep(&time, NULL);
    expect(realm_standing(&clients[0].node, &place), "standing", &clients[0].node);
    return NULL;
}

static void run_threads(int count, void *(*body)(void *), int *arguments) {
    pthread_t threads[THREADS];
    for (int i = 0; i < count; i++)
        if (pthread_create(&threads[i], NULL, body, &arguments[i]) != 0) exit(1);
    for (int i = 0; i < count; i++) pthread_join(threads[i], NULL);
}

int main(int count, char **words) {
    int numbers[THREADS] = {0, 1, 2, 3}, waits[] = {0, 1500}, equal = 0;
    bool unordered = count > 1 && strcmp(words[1], "unordered") == 0;
    for (int i = 0; i < CLIENTS; i++) pthread_mutex_init(&clients[i].lock, NULL);
    pthread_mutex_init(&server.lock, NULL);
    pthread_barrier_init(&all_are_open, NULL, THREADS);
    expect(realm_open_server(&server.node, NULL), "open", &server.node);
    if (unordered) {
        open_client(0);
        run_threads(2, use_unordered, waits);
        realm_close(&clients[0].node);
        realm_close(&server.node);
        return 0;
    }
    run_threads(THREADS, work, numbers);

    /* All of them are closed by a thread that didn't open them. */
    for (int i = 0; i < CLIENTS; i++) sync_client(&clients[i]);
    for (int i = 0; i < CLIENTS; i++) sync_client(&clients[i]);
    for (int i = 0; i < CLIENTS; i++) equal += is_equal(&clients[i]);
    size_t len;
    expect(realm_object(&server.node, "{\"table\":\"t\",\"key\":1}"), "object", &server.node);
    const uint8_t *line = realm_bytes(&server.node, &len);
    printf("%d threads, %d clients, %d equal to the server\n%.*s", THREADS, CLIENTS, equal, (int)len, (const char *)line);
    for (int i = 0; i < CLIENTS; i++) realm_close(&clients[i].node);
    realm_close(&server.node);
    return 0;
}
