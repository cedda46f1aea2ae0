/* Two phones edit one note while they are offline, and sync with a server: over memory, or over the three files that it is given.
 * Between the nodes pass bytes alone, which an application sends over its own network. */
#include "realm_sync.h"

enum { MOST_ROUNDS = 10000 };

/* Ends the program where a call didn't answer as it should. */
static void expect(int status, const char *what, const realm_node *node) {
    char words[512];
    if (status == REALM_DONE) return;
    fprintf(stderr, "%s: %s\n", what, realm_words(node, status, words, sizeof words));
    exit(1);
}

/* Hands the message that the client made to the server, and the reply to the client. */
static void pass_message(realm_node *client, realm_node *server) {
    size_t len;
    const uint8_t *message = realm_bytes(client, &len);
    expect(realm_take(server, message, len), "server", server);
    const uint8_t *reply = realm_bytes(server, &len);
    expect(realm_take(client, reply, len), "client", client);
}

/* Sends what the server lacks, and takes what the client lacks, until a reply says that the client has all of the history. Each round brings
 * up to 4,096 entries; a history that grows faster than they are taken would never end. */
static void sync_with(realm_node *client, realm_node *server) {
    for (int rounds = 0; rounds < MOST_ROUNDS; rounds++) {
        expect(realm_next(client), "next message", client);
        pass_message(client, server);
        if (realm_is_current(client)) return;
    }
    fprintf(stderr, "sync: no end after %d rounds: sync again\n", MOST_ROUNDS);
    exit(1);
}

static void print_objects(const char *title, realm_node *node) {
    size_t len;
    expect(realm_dump(node), "objects", node);
    const uint8_t *lines = realm_bytes(node, &len);
    printf("%s:\n%.*s", title, (int)len, (const char *)lines);
}

static void new_phone(realm_node *phone, const char *path, const char *uuid) {
    expect(realm_open_client(phone, path), "open", phone);
    expect(realm_born(phone, uuid), "uuid", phone);
    expect(realm_upgrade(phone), "upgrade", phone);
}

/* What a user types becomes a JSON string by realm_quote. */
static void edit_note(realm_node *phone, uint64_t ms, const char *typed, const char *tag) {
    char text[256], tag_text[64], edits[1024];
    if (!realm_quote(text, sizeof text, typed) || !realm_quote(tag_text, sizeof tag_text, tag)) return;
    snprintf(edits, sizeof edits,
             "[{\"op\":\"Update\",\"table\":\"notes\",\"key\":1,\"column\":\"text\",\"value\":%s},"
             "{\"op\":\"SetInsert\",\"table\":\"notes\",\"key\":1,\"column\":\"tags\",\"value\":%s}]",
             text, tag_text);
    expect(realm_commit(phone, ms, edits), "edit", phone);
}

int main(int count, char **words) {
    realm_node first, second, server;
    new_phone(&first, count > 3 ? words[1] : NULL, "00000000-0000-4000-8000-000000000001");
    new_phone(&second, count > 3 ? words[2] : NULL, "00000000-0000-4000-8000-000000000002");
    expect(realm_open_server(&server, count > 3 ? words[3] : NULL), "open", &server);

    /* The first phone makes the table and a note. Both get them. */
    expect(realm_commit(&first, 1,
                        "[{\"op\":\"AddTable\",\"table\":\"notes\",\"key\":\"Int\"},"
                        "{\"op\":\"AddColumn\",\"table\":\"notes\",\"column\":\"text\",\"kind\":\"Text\",\"nullable\":false,\"shape\":\"One\"},"
                        "{\"op\":\"AddColumn\",\"table\":\"notes\",\"column\":\"tags\",\"kind\":\"Text\",\"nullable\":false,\"shape\":\"Set\"},"
                        "{\"op\":\"CreateObject\",\"table\":\"notes\",\"key\":1}]"),
           "table", &first);
    sync_with(&first, &server);
    sync_with(&second, &server);

    /* Offline, both edit it. */
    edit_note(&first, 10, "buy bread", "shop");
    edit_note(&second, 11, "buy oat milk", "today");
    print_objects("first phone, offline", &first);
    print_objects("second phone, offline", &second);

    /* A transaction that can't be is refused, and changes nothing. The enums say why, and realm_words says it in words. */
    char text[256];
    int status = realm_commit(&second, 12, "[{\"op\":\"CreateObject\",\"table\":\"none\",\"key\":1}]");
    if (status == REALM_REFUSED && realm_refusal(&second).number == REALM_BREAK)
        printf("refused: %s\n", realm_words(&second, status, text, sizeof text));

    sync_with(&first, &server);
    sync_with(&second, &server);
    sync_with(&first, &server);

    /* What the last message may have changed is what a screen draws anew. */
    size_t len;
    expect(realm_changed(&first), "changed", &first);
    const uint8_t *places = realm_bytes(&first, &len);
    printf("first phone, to draw anew:\n%.*s", (int)len, (const char *)places);
    print_objects("first phone, afterwards", &first);
    print_objects("second phone, afterwards", &second);
    print_objects("server", &server);

    /* One object is read by its table and key. */
    expect(realm_object(&first, "{\"table\":\"notes\",\"key\":1}"), "object", &first);
    const uint8_t *line = realm_bytes(&first, &len);
    printf("note 1: %.*s", (int)len, (const char *)line);
    if (realm_object(&first, "{\"table\":\"notes\",\"key\":2}") == REALM_ABSENT) printf("there is no note 2\n");

    realm_place place;
    expect(realm_standing(&first, &place), "standing", &first);
    printf("first phone: ident %u, cursor %u, last %u, unsent %u\n", place.ident, place.cursor, place.last, place.unsent);
    realm_close(&first);
    realm_close(&second);
    realm_close(&server);
    return 0;
}
