/* The whole life of a history through the door: a phone is given up and its heir saves what it had unsent, a server tells its history and its
 * clients and gives up what no client needs, and a new phone begins with the server's objects. Over memory: between the nodes pass bytes. */
#include "realm_sync.h"

enum { MOST_ROUNDS = 100, ALL = 1000 };

static void expect(int status, const char *what, const realm_node *node) {
    char words[512];
    if (status == REALM_DONE) return;
    fprintf(stderr, "%s: %s\n", what, realm_words(node, status, words, sizeof words));
    exit(1);
}

/* What the last call answered, kept beyond the next one. */
typedef struct kept {
    uint8_t *bytes;
    size_t len;
} kept;

static kept keep(const realm_node *node) {
    kept all = {NULL, 0};
    const uint8_t *bytes = realm_bytes(node, &all.len);
    all.bytes = (uint8_t *)malloc(all.len + 1);
    if (!all.bytes) exit(1);
    if (all.len > 0) memcpy(all.bytes, bytes, all.len);
    all.bytes[all.len] = 0;
    return all;
}

/* A round until a reply says that the client has all, and one more, by which it tells the server so. */
static void sync_with(realm_node *client, realm_node *server) {
    int ends = 0;
    for (int rounds = 0; rounds < MOST_ROUNDS && ends < 2; rounds++) {
        size_t len;
        expect(realm_next(client), "next message", client);
        const uint8_t *message = realm_bytes(client, &len);
        expect(realm_take(server, message, len), "server", server);
        const uint8_t *reply = realm_bytes(server, &len);
        expect(realm_take(client, reply, len), "client", client);
        if (realm_is_current(client)) ends++;
    }
    if (ends < 2) exit(1);
}

static void new_phone(realm_node *phone, const char *uuid) {
    expect(realm_open_client(phone, NULL), "open", phone);
    expect(realm_born(phone, uuid), "uuid", phone);
    expect(realm_upgrade(phone), "upgrade", phone);
}

/* A node over the bytes of a file, for a host that keeps them itself. */
static void open_bytes(realm_node *node, char verb, kept file) {
    realm_close(node);
    expect(realm_make(node, verb), "place", node);
    expect(realm_ask_of(node, verb, file.bytes, file.len), "file", node);
    free(file.bytes);
}

/* The heir takes a change, and tells what became of it. */
static void inherit(realm_node *heir, const realm_message *retired, const realm_change *change) {
    static const char *const words[] = {"is in the history", "was saved before", "is saved"};
    expect(realm_inherit(heir, retired, change), "inherit", heir);
    printf("change %u %s", change->number, words[realm_inherited_of(heir)]);
    if (realm_inherited_of(heir) == REALM_SAVED) printf(" as %u", realm_saved_as(heir));
    for (size_t i = 0; i < realm_dropped(heir); i++) {
        uint32_t code, place = realm_dropped_at(heir, i, &code);
        printf(", without its edit %u: %s", place, realm_text_of_code(code));
    }
    printf("\n");
}

/* The old phone is given up for its heir, which saves what the old one had unsent. */
static void recover(realm_node *old, realm_node *heir, realm_node *server, uint32_t ident) {
    size_t len;
    expect(realm_retire(heir, ident), "retire", heir);
    const uint8_t *bytes = realm_bytes(heir, &len);
    expect(realm_take(server, bytes, len), "server", server);
    kept answer = keep(server);
    realm_message retired;
    expect(realm_look(heir, answer.bytes, answer.len, &retired), "Retired", heir);
    printf("ident %u is given up for %u, after %u of its changes\n", retired.ident, retired.by, retired.first);
    expect(realm_upload(old, 0), "upload", old);
    kept upload = keep(old);
    expect(realm_borne(old, upload.bytes, upload.len), "changes", old);
    realm_change change;
    /* the old phone keeps the rows, since the heir alone is asked from here on */
    for (int again = 0; again < 2; again++) {
        for (size_t at = 0; realm_next_change(old, &at, &change);) inherit(heir, &retired, &change);
    }
    free(upload.bytes);
    free(answer.bytes);
}

static void print_history(realm_node *server, uint32_t version) {
    realm_change entry;
    int status = realm_entries(server, version, ALL);
    if (status == REALM_ABSENT) {
        printf("the history from version %u on is given up\n", version);
        return;
    }
    expect(status, "entries", server);
    for (size_t at = 0; realm_next_change(server, &at, &entry); version++) {
        /* of an entry: the ident that made it, and its number of that ident */
        printf("version %u: change %u of %u, at %u\n", version, entry.base, entry.number, (unsigned)entry.ms);
    }
}

static void print_clients(realm_node *server) {
    realm_known known;
    expect(realm_clients(server), "clients", server);
    printf("the history begins with version %u\n", realm_floor(server));
    for (uint32_t ident = 1; realm_known_at(server, ident, &known); ident++) {
        printf("client %u: uuid ..%02x, %u changes, has settled %u%s\n", ident, known.uuid[15], known.number, known.settled, known.given_up ? ", given up" : "");
    }
}

static void print_objects(realm_node *node) {
    size_t len;
    expect(realm_dump(node), "objects", node);
    const uint8_t *lines = realm_bytes(node, &len);
    printf("%.*s", (int)len, (const char *)lines);
    expect(realm_page(node, "{\"table\":\"notes\",\"key\":1}", 10), "page", node);
    lines = realm_bytes(node, &len);
    printf("behind note 1: %.*s", (int)len, (const char *)lines);
}

int main(void) {
    static const uint8_t fresh[16] = {0, 0, 0, 0, 0, 0, 0x40, 0, 0x80, 0, 0, 0, 0, 0, 0, 4};
    realm_node server, old, other, heir, late = {0};
    expect(realm_open_server(&server, NULL), "server", &server);
    new_phone(&old, "00000000-0000-4000-8000-000000000001");
    expect(realm_commit(&old, 1,
                        "[{\"op\":\"AddTable\",\"table\":\"notes\",\"key\":\"Int\"},"
                        "{\"op\":\"AddColumn\",\"table\":\"notes\",\"column\":\"text\",\"kind\":\"Text\",\"nullable\":false,\"shape\":\"One\"},"
                        "{\"op\":\"CreateObject\",\"table\":\"notes\",\"key\":1}]"),
           "commit", &old);
    sync_with(&old, &server);

    /* offline from here on; meanwhile another phone erases the note */
    expect(realm_commit(&old, 2, "[{\"op\":\"Update\",\"table\":\"notes\",\"key\":1,\"column\":\"text\",\"value\":\"late\"},{\"op\":\"CreateObject\",\"table\":\"notes\",\"key\":2}]"), "commit", &old);
    expect(realm_commit(&old, 3, "[{\"op\":\"Update\",\"table\":\"notes\",\"key\":2,\"column\":\"text\",\"value\":\"kept\"}]"), "commit", &old);
    new_phone(&other, "00000000-0000-4000-8000-000000000002");
    sync_with(&other, &server);
    expect(realm_commit(&other, 4, "[{\"op\":\"EraseObject\",\"table\":\"notes\",\"key\":1}]"), "commit", &other);
    sync_with(&other, &server);

    new_phone(&heir, "00000000-0000-4000-8000-000000000003");
    sync_with(&heir, &server);
    recover(&old, &heir, &server, 1);
    sync_with(&heir, &server);
    sync_with(&other, &server);
    print_history(&server, 0);
    print_clients(&server);
    print_objects(&heir);

    /* all that the clients settled is given up, and a new phone begins with the objects */
    expect(realm_trim(&server), "trim", &server);
    open_bytes(&server, 's', keep(&server));
    print_history(&server, 0);
    print_clients(&server);
    print_history(&server, realm_floor(&server));
    expect(realm_start(&server, fresh), "start", &server);
    open_bytes(&late, 'c', keep(&server));
    sync_with(&late, &server);
    print_clients(&server);
    print_objects(&late);

    realm_close(&server);
    realm_close(&old);
    realm_close(&other);
    realm_close(&heir);
    realm_close(&late);
    return 0;
}
