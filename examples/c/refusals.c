/* Each refusal of a client and each status, reached by requests, with its number and its words. What must be answered is that of
 * docs/FORMATS.md: "Outcome lines", "Refusals by number" and "Messages". Two aren't here: NumbersFull, which takes 2^32 - 1
 * transactions, and out of memory. A full disk is in full_disk.c. */
#include "realm_sync.h"

#define BYTES(text) text, sizeof text - 1
#define UUID "\x0a\x0a\x0a\x0a\x0a\x0a\x0a\x0a\x0a\x0a\x0a\x0a\x0a\x0a\x0a\x0a"
#define BORN "{\"uuid\":\"0a0a0a0a-0a0a-0a0a-0a0a-0a0a0a0a0a0a\"}"
#define EDITS(list) BYTES("{\"ms\":1,\"edits\":[" list "]}")
#define ADD_TABLE(table) "{\"op\":\"AddTable\",\"table\":\"" table "\",\"key\":\"Int\"}"
#define ADD_COLUMN(column, kind, nullable, shape, more) \
    "{\"op\":\"AddColumn\",\"table\":\"t\",\"column\":\"" column "\",\"kind\":\"" kind "\",\"nullable\":" nullable ",\"shape\":\"" shape "\"" more "}"
#define CREATE(table, key) "{\"op\":\"CreateObject\",\"table\":\"" table "\",\"key\":" key "}"
#define UPDATE(key, column, value) \
    "{\"op\":\"Update\",\"table\":\"t\",\"key\":" key ",\"column\":\"" column "\",\"value\":" value "}"
/* The head of a Download for client 3 from version 0 with one entry, by the client of that ident as its number 1. */
#define ENTRY_BY(ident) "\x05\x03\x00\x01" ident "\x01\x00"

/* A request, and what is answered: a status, and of a refusal its number and the three beside it. */
typedef struct row {
    char verb;
    const char *body;
    size_t len;
    int status;
    realm_refused why;
} row;

#define DONE REALM_DONE, {0, 0, 0, 0}
#define STATUS(status) status, {0, 0, 0, 0}
#define WHY(number, first, second, third) REALM_REFUSED, {number, first, second, third}

static const row rows[] = {
    {'D', BYTES(""), STATUS(REALM_CLOSED)},

    /* Before and after the uuid and the ident. */
    {'c', BYTES(""), DONE},
    {'L', EDITS(""), WHY(REALM_NOT_BORN, 0, 0, 0)},
    {'L', BYTES(BORN), DONE},
    {'L', BYTES(BORN), WHY(REALM_ALREADY_BORN, 0, 0, 0)},
    {'A', BYTES(""), WHY(REALM_NOT_NAMED, 0, 0, 0)},

    /* Form 1 has no dictionaries. */
    {'L', EDITS(ADD_TABLE("t") "," ADD_COLUMN("d", "Int", "false", "Dict", "")), WHY(REALM_OLD_FORM, 1, 0, 0)},
    {'T', BYTES("\x02" UUID "\x03"), DONE},
    {'T', BYTES(ENTRY_BY("\x04") "\x12\x02\x03\x01t\x01\x64\x01\x61\x01\x0c\x00\x00\x02\x01\x02\x01\x01\x06"), WHY(REALM_OLD_ENTRY, 0, 0, 0)},
    {'L', BYTES("{\"upgrade\":2}"), DONE},

    /* Edits that don't act. */
    {'L', EDITS(ADD_TABLE("t") "," ADD_COLUMN("n", "Int", "false", "One", "") "," ADD_COLUMN("l", "Text", "false", "List", "") "," CREATE("t", "1")), DONE},
    {'L', EDITS(ADD_TABLE("t")), WHY(REALM_BREAK, 0, 10, 0)},
    {'L', EDITS(ADD_TABLE("u") "," CREATE("v", "1")), WHY(REALM_BREAK, 1, 11, 0)},
    {'L', EDITS(ADD_COLUMN("n", "Int", "false", "One", "")), WHY(REALM_BREAK, 0, 12, 0)},
    {'L', EDITS(ADD_COLUMN("k", "Link", "false", "One", ",\"target\":\"t\"")), WHY(REALM_BREAK, 0, 13, 0)},
    {'L', EDITS(UPDATE("1", "z", "5")), WHY(REALM_BREAK, 0, 14, 0)},
    {'L', EDITS(UPDATE("1", "l", "\"a\"")), WHY(REALM_BREAK, 0, 20, 0)},
    {'L', EDITS(UPDATE("1", "n", "\"a\"")), WHY(REALM_BREAK, 0, 21, 0)},
    {'L', EDITS("{\"op\":\"ListInsert\",\"table\":\"t\",\"key\":1,\"column\":\"l\",\"place\":0,\"prior\":5,\"value\":\"a\"}"), WHY(REALM_BREAK, 0, 23, 0)},
    {'L', EDITS(UPDATE("2", "n", "5")), WHY(REALM_BREAK, 0, 30, 0)},
    {'L', EDITS(UPDATE("\"a\"", "n", "5")), WHY(REALM_BREAK, 0, 31, 0)},

    /* Messages. */
    {'T', BYTES("\x02" "\x0b\x0b\x0b\x0b\x0b\x0b\x0b\x0b\x0b\x0b\x0b\x0b\x0b\x0b\x0b\x0b" "\x03"), WHY(REALM_NOT_MINE, 0, 0, 0)},
    {'T', BYTES("\x05\x09\x00\x00"), WHY(REALM_NOT_MINE, 0, 0, 0)},
    {'T', BYTES("\x02" UUID "\x04"), WHY(REALM_IDENT_DIFFERS, 3, 4, 0)},
    {'T', BYTES("\x05\x03\x05\x00"), WHY(REALM_GAP, 0, 5, 0)},
    {'T', BYTES(ENTRY_BY("\x04") "\x03\x03\x00\x00"), WHY(REALM_BAD_BODY, 0, 0, 41)},
    {'T', BYTES(ENTRY_BY("\x04") "\x08\x01\x01\x01t\x01\x01\x00\x01"), WHY(REALM_MISMATCH, 0, 1, 1)},
    {'T', BYTES(ENTRY_BY("\x04") "\x10\x01\x02\x01t\x01n\x02\x01\x00\x00\x02\x00\x01\x03\x00\x00"), WHY(REALM_MISMATCH, 0, 1, 2)},
    {'T', BYTES(ENTRY_BY("\x03") "\x03\x01\x00\x00"), WHY(REALM_FORKED, 1, 0, 0)},
    {'T', BYTES(ENTRY_BY("\x04") "\x09\x01\x01\x01q\x01\x03\x00\x00\x02"), WHY(REALM_NOT_APPLICABLE, 0, 0, 11)},
    {'T', BYTES("\x06\x03\x01\x02\x00"), WHY(REALM_WAS_REFUSED, 1, 2, 0)},
    {'T', BYTES("\x06\x03\x00\x3c\x00"), WHY(REALM_WAS_REFUSED, 0, 60, 0)},
    {'T', BYTES("\x06\x03\x01\x3d\x00"), WHY(REALM_WAS_REFUSED, 1, 61, 0)},
    {'T', BYTES("\x06\x03\x01\x44\x00"), WHY(REALM_WAS_REFUSED, 1, 68, 0)},
    {'T', BYTES("\x06\x03\x00\x47\x00"), WHY(REALM_WAS_REFUSED, 0, 71, 0)},

    /* A client of some tables. */
    {'c', BYTES(""), DONE},
    {'L', BYTES(BORN), DONE},
    {'L', BYTES("{\"tables\":[\"t\"]}"), DONE},
    {'L', BYTES("{\"tables\":[\"t\"]}"), WHY(REALM_SUBSCRIBED, 0, 0, 0)},
    {'L', EDITS(ADD_TABLE("t") "," ADD_TABLE("u") "," CREATE("u", "1")), WHY(REALM_NOT_SUBSCRIBED, 2, 0, 0)},
    {'c', BYTES(""), DONE},
    {'L', BYTES(BORN), DONE},
    {'L', EDITS(""), DONE},
    {'L', BYTES("{\"tables\":[\"t\"]}"), WHY(REALM_TOO_LATE, 0, 0, 0)},

    /* The other statuses. */
    {'O', BYTES("{\"table\":\"t\",\"key\":1}"), STATUS(REALM_ABSENT)},
    {'L', BYTES("no line"), STATUS(REALM_BAD_REQUEST)},
    {'T', BYTES("\x04\x00\x00\x00"), STATUS(REALM_BAD_REQUEST)},
    {'c', BYTES("RSYNCJ02\0\0"), STATUS(REALM_BAD_FILE)},
    {'D', BYTES(""), STATUS(REALM_CLOSED)},
};

static bool is_same(realm_refused a, realm_refused b) {
    return a.number == b.number && a.first == b.first && a.second == b.second && a.third == b.third;
}

/* Makes a request; false where it isn't answered so. A refusal or another status is printed with its words. */
static bool answers(realm_node *node, const row *want) {
    char words[512];
    int status = realm_ask_of(node, want->verb, want->body, want->len);
    realm_refused why = realm_refusal(node);
    bool is_right = status == want->status && is_same(why, want->why);
    if (status != REALM_DONE) printf("%d %2u %s\n", status, why.number, realm_words(node, status, words, sizeof words));
    if (!is_right) printf("wrong: status %d, refusal %u, %u, %u, %u\n", want->status, want->why.number, want->why.first, want->why.second, want->why.third);
    return is_right;
}

/* A transaction of so many edits, each of which carries the one byte of a name; and one edit that carries so many bytes. */
static char *edits_of(size_t count) {
    static const char edit[] = ADD_TABLE("t") ",";
    char *edits = (char *)malloc(count * (sizeof edit - 1) + 2), *end = edits;
    if (!edits) exit(1);
    *end++ = '[';
    for (size_t i = 0; i < count; i++, end += sizeof edit - 1) memcpy(end, edit, sizeof edit - 1);
    memcpy(end - 1, "]", 2);
    return edits;
}

static char *edit_of(size_t bytes) {
    static const char before[] = "[" "{\"op\":\"SetErase\",\"table\":\"t\",\"key\":1,\"column\":\"u\",\"value\":\"", after[] = "\"}]";
    char *edits = (char *)malloc(sizeof before + bytes + sizeof after);
    if (!edits) exit(1);
    memcpy(edits, before, sizeof before - 1);
    memset(edits + sizeof before - 1, 'x', bytes);
    memcpy(edits + sizeof before - 1 + bytes, after, sizeof after);
    return edits;
}

/* At a limit a transaction is refused for what it does, and behind it as too large. */
static bool is_refused_so(realm_node *node, char *edits, uint8_t number) {
    char words[512];
    int status = realm_commit(node, 1, edits);
    free(edits);
    bool is_right = status == REALM_REFUSED && realm_refusal(node).number == number;
    printf("%d %2u %s\n", status, realm_refusal(node).number, realm_words(node, status, words, sizeof words));
    return is_right;
}

int main(void) {
    realm_node node;
    bool is_right = true;
    if (realm_make(&node, 'c') != REALM_DONE) return 1;
    for (size_t i = 0; i < sizeof rows / sizeof rows[0]; i++) is_right = answers(&node, &rows[i]) && is_right;
    realm_close(&node);

    if (realm_open_client(&node, NULL) != REALM_DONE || realm_line(&node, BYTES(BORN)) != REALM_DONE) return 1;
    is_right = is_refused_so(&node, edits_of(65536), REALM_BREAK) && is_right;
    is_right = is_refused_so(&node, edits_of(65537), REALM_TOO_LARGE) && is_right;
    is_right = is_refused_so(&node, edit_of(4194304 - 2), REALM_BREAK) && is_right;
    is_right = is_refused_so(&node, edit_of(4194304 - 1), REALM_TOO_LARGE) && is_right;
    realm_close(&node);
    printf("%s\n", is_right ? "all as documented" : "wrong");
    return is_right ? 0 : 1;
}
