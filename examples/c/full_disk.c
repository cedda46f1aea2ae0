/* What an application sees where a file may not grow: the call in which a write fails answers REALM_CLOSED, and so does each later one, with
 * the reason and the system's number. Opened again, the file has each transaction that was answered, and perhaps the one that wasn't. */
#include "realm_sync.h"
#include <signal.h>
#include <sys/resource.h>

#define ENOUGH 400 /* bytes that the file may have */

/* Commits empty transactions until one isn't answered by its number. */
static int commit_until_full(realm_node *client, uint32_t *last) {
    int status = REALM_DONE;
    while (status == REALM_DONE) {
        status = realm_commit(client, 1, "[]");
        if (status == REALM_DONE) *last = realm_number(client);
    }
    return status;
}

static void print(const char *what, const realm_node *node, int status) {
    char words[512];
    printf("%s: %d %s\n", what, status, realm_words(node, status, words, sizeof words));
}

int main(int count, char **words) {
    if (count < 2) return 2;
    realm_node client, other;
    uint32_t last = 0;
    struct rlimit usual, small;
    /* Else the system ends the process at such a write. */
    signal(SIGXFSZ, SIG_IGN);
    getrlimit(RLIMIT_FSIZE, &usual);
    small = usual;
    small.rlim_cur = ENOUGH;

    int status = realm_open_client(&client, words[1]);
    if (status == REALM_DONE) status = realm_born(&client, "00000000-0000-4000-8000-000000000001");
    print("opened", &client, status);
    setrlimit(RLIMIT_FSIZE, &small);
    status = commit_until_full(&client, &last);
    print("full", &client, status);
    printf("why: %s\n", realm_reason_of(&client) == REALM_FILE_LIMIT && realm_error_of(&client) == EFBIG ? "the file's limit" : "another");
    print("later", &client, realm_commit(&client, 1, "[]"));
    setrlimit(RLIMIT_FSIZE, &usual);

    /* The file is locked until it is closed. */
    print("busy", &other, realm_open_client(&other, words[1]));
    realm_close(&other);
    realm_close(&client);

    realm_place place;
    print("again", &client, realm_open_client(&client, words[1]));
    realm_standing(&client, &place);
    printf("answered: %s\n", place.last == last || place.last == last + 1 ? "all there" : "lost");
    realm_close(&client);
    return 0;
}
