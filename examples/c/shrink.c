/* A client's file that is written anew without what it needs no more: examples/c/killed_shrinks.py stops it at each call of the system.
 *
 *     shrink make FILE      a client with transactions, some of which a server has
 *     shrink FILE           puts the short file in its place
 *     shrink show FILE      its objects */
#include "realm_sync.h"

#include <string.h>

enum { TRANSACTIONS = 40, SENT = 30 };

static int complain(realm_node *node, int status) {
    char text[512];
    if (status != REALM_DONE) fprintf(stderr, "shrink: %s\n", realm_words(node, status, text, sizeof text));
    return status;
}

/* The client's next message goes to the server, and its answer back. */
static int speak(realm_node *phone, realm_node *server) {
    size_t len;
    int status = realm_next(phone);
    if (status != REALM_DONE) return status;
    const uint8_t *bytes = realm_bytes(phone, &len);
    status = realm_take(server, bytes, len);
    if (status != REALM_DONE) return status;
    bytes = realm_bytes(server, &len);
    return realm_take(phone, bytes, len);
}

static int make(realm_node *phone) {
    static const char *first = "[{\"op\":\"AddTable\",\"table\":\"t\",\"key\":\"Int\"},{\"op\":\"AddColumn\",\"table\":\"t\",\"column\":\"n\","
                               "\"kind\":\"Int\",\"nullable\":false,\"shape\":\"One\"},{\"op\":\"CreateObject\",\"table\":\"t\",\"key\":1}]";
    static const char *later = "[{\"op\":\"AddInteger\",\"table\":\"t\",\"key\":1,\"column\":\"n\",\"amount\":1}]";
    realm_node server;
    int status = realm_open_server(&server, NULL);
    if (status == REALM_DONE) status = realm_born(phone, "00000000-0000-4000-8000-000000000001");
    if (status == REALM_DONE) status = realm_commit(phone, 1, first);
    for (int i = 1; i < TRANSACTIONS && status == REALM_DONE; i++) {
        status = realm_commit(phone, (uint64_t)i + 1, later);
        if (i == SENT)
            for (int round = 0; round < 6 && status == REALM_DONE; round++) status = speak(phone, &server);
    }
    realm_close(&server);
    return status;
}

static int show(realm_node *phone) {
    size_t len;
    int status = realm_dump(phone);
    if (status != REALM_DONE) return status;
    const uint8_t *bytes = realm_bytes(phone, &len);
    fwrite(bytes, 1, len, stdout);
    realm_place at;
    status = realm_standing(phone, &at);
    printf("%u %u %u %u\n", (unsigned)at.ident, (unsigned)at.cursor, (unsigned)at.last, (unsigned)at.unsent);
    return status;
}

int main(int count, char **words) {
    const char *what = count == 3 ? words[1] : "shrink";
    realm_node phone;
    int status = realm_open_client(&phone, words[count - 1]);
    if (status == REALM_DONE) status = !strcmp(what, "make") ? make(&phone) : !strcmp(what, "show") ? show(&phone) : realm_shrink(&phone);
    complain(&phone, status);
    realm_close(&phone);
    return status;
}
