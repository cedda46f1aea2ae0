/* What an application sees of its files on Windows: each way in which one can't be used, with its reason in words, and that what was answered
 * is there when the file is opened again. The files go to a folder that is given. */
#include "realm_sync.h"

static const char *folder;
static int wrong;

static const char *path_of(const char *name) {
    static char path[4][512];
    static int turn;
    turn = (turn + 1) % 4;
    snprintf(path[turn], sizeof path[turn], "%s/%s", folder, name);
    return path[turn];
}

/* Opens a client, and tells what is answered. */
static void tell(const char *situation, const char *path, int status, int reason) {
    char words[512];
    realm_node node;
    int told = realm_open_client(&node, path);
    bool holds = told == status && (int)realm_reason_of(&node) == reason;
    if (holds) node.error = 0; /* the numbers of systems differ */
    printf("%s: %s\n", situation, realm_words(&node, told, words, sizeof words));
    if (!holds) printf("WRONG: %d, reason %d, error %d\n", told, (int)realm_reason_of(&node), realm_error_of(&node));
    wrong += !holds;
    realm_close(&node);
}

int main(int count, char **words) {
    realm_node phone;
    realm_place place;
    if (count < 2) return 2;
    folder = words[1];
    const char *path = path_of("phone");
    int status = realm_open_client(&phone, path);
    if (status == REALM_DONE) status = realm_born(&phone, "00000000-0000-4000-8000-000000000001");
    for (int i = 0; i < 10 && status == REALM_DONE; i++) status = realm_commit(&phone, 1, "[]");
    tell("another open", path, REALM_BUSY, REALM_HELD);
    bool is_kept = DeleteFileA(path) == 0 && MoveFileA(path, path_of("elsewhere")) == 0;
    printf("a file that is open: %s\n", is_kept ? "nobody takes it away, or renames it" : "WRONG");
    realm_close(&phone);
    if (status == REALM_DONE) status = realm_open_client(&phone, path);
    if (status == REALM_DONE) status = realm_standing(&phone, &place);
    printf("opened again: %s\n", status == REALM_DONE && place.last == 10 ? "all that was answered is there" : "WRONG");
    realm_close(&phone);
    tell("a missing folder", path_of("none/file"), REALM_CLOSED, REALM_NO_FOLDER);
    tell("a folder", folder, REALM_CLOSED, REALM_IS_A_FOLDER);
    tell("a name that there can't be", path_of("a|b"), REALM_CLOSED, REALM_BAD_NAME);
    tell("a name in other letters", path_of("\xc3\xa4\xe2\x82\xac"), REALM_DONE, REALM_NO_REASON);
    tell("bytes that aren't UTF-8", path_of("\xff"), REALM_CLOSED, REALM_BAD_NAME);
    printf("%s\n", wrong || !is_kept || status != REALM_DONE ? "WRONG" : "all as they should be");
    return wrong != 0;
}
