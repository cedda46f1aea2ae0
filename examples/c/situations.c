/* A shopping list on two phones, and what can happen to it: each line tells a situation and what the library answers. What must be answered
 * is checked here, and the words are those of situations.out. The files go to a folder that is given.
 *
 * What the library can't tell yet isn't here (docs/LIMITS.md): another server's history, and one that was restored and has grown since; an
 * element that two move, which stands twice; which table and column a refusal is about, and which edit and field a request. What more there
 * is: threads.c, crashes.c, refusals.c. */
#define _DEFAULT_SOURCE
#include <errno.h>
#include <fcntl.h>
#include <signal.h>
#include <stdbool.h>
#include <stdio.h>
#include <sys/file.h>
#include <sys/resource.h>
#include <sys/stat.h>
#include <sys/wait.h>
#include <unistd.h>

/* The calls of the system, of which one fails when it is told to. */
static int write_error, sync_error, lock_error, writes, syncs;
static const char *rename_from, *rename_to; /* done once, between an open and its lock */
static ssize_t failing_write(int file, const void *bytes, size_t count);
static int failing_fsync(int file);
static int failing_flock(int file, int how);
#define write(file, bytes, count) failing_write(file, bytes, count)
#define fsync(file) failing_fsync(file)
#define flock(file, how) failing_flock(file, how)
#include "realm_sync.h"
#undef write
#undef fsync
#undef flock

static ssize_t failing_write(int file, const void *bytes, size_t count) {
    writes++;
    errno = write_error;
    return write_error ? -1 : write(file, bytes, count);
}

static int failing_fsync(int file) {
    syncs++;
    errno = sync_error;
    return sync_error ? -1 : fsync(file);
}

static int failing_flock(int file, int how) {
    if (rename_from && rename(rename_from, rename_to) == 0) rename_from = NULL;
    errno = lock_error;
    return lock_error ? -1 : flock(file, how);
}

#define ADD "[{\"op\":\"AddInteger\",\"table\":\"items\",\"key\":1,\"column\":\"count\",\"amount\":1}]"

enum { MOST_ROUNDS = 100, LONG = 5000 };

static const char *folder;
static int wrong;

static void expect(bool holds, const char *what) {
    if (holds) return;
    wrong++;
    printf("WRONG: %s\n", what);
}

/* What a call answered, in words. */
static void tell(const char *situation, const realm_node *node, int status, int want) {
    char words[512];
    printf("%s: %s\n", situation, realm_words(node, status, words, sizeof words));
    expect(status == want, situation);
}

static const char *path_of(const char *name) {
    static char path[4][512];
    static int turn;
    turn = (turn + 1) % 4;
    snprintf(path[turn], sizeof path[turn], "%s/%s", folder, name);
    return path[turn];
}

/* A new file of that name. */
static const char *fresh(const char *name) {
    const char *path = path_of(name);
    unlink(path);
    return path;
}

static void must(int status, const realm_node *node) {
    char words[512];
    if (status == REALM_DONE) return;
    printf("WRONG: %s\n", realm_words(node, status, words, sizeof words));
    exit(1);
}

static void new_phone(realm_node *phone, const char *path, int number) {
    char uuid[64];
    snprintf(uuid, sizeof uuid, "00000000-0000-4000-8000-%012d", number);
    must(realm_open_client(phone, path), phone);
    must(realm_born(phone, uuid), phone);
    must(realm_upgrade(phone), phone);
}

static void make_list(realm_node *phone) {
    must(realm_commit(phone, 1,
                      "[{\"op\":\"AddTable\",\"table\":\"items\",\"key\":\"Int\"},"
                      "{\"op\":\"AddColumn\",\"table\":\"items\",\"column\":\"text\",\"kind\":\"Text\",\"nullable\":false,\"shape\":\"One\"},"
                      "{\"op\":\"AddColumn\",\"table\":\"items\",\"column\":\"count\",\"kind\":\"Int\",\"nullable\":false,\"shape\":\"One\"},"
                      "{\"op\":\"AddColumn\",\"table\":\"items\",\"column\":\"steps\",\"kind\":\"Text\",\"nullable\":false,\"shape\":\"List\"},"
                      "{\"op\":\"AddColumn\",\"table\":\"items\",\"column\":\"next\",\"kind\":\"Link\",\"nullable\":true,\"shape\":\"One\",\"target\":\"items\"},"
                      "{\"op\":\"CreateObject\",\"table\":\"items\",\"key\":1}]"),
         phone);
}

static void add_at(realm_node *phone, int times, uint64_t ms) {
    for (int i = 0; i < times; i++) must(realm_commit(phone, ms, ADD), phone);
}

static void add(realm_node *phone, int times) { add_at(phone, times, 2); }

/* One message there, and the reply. */
static int pass_message(realm_node *phone, realm_node *server) {
    size_t len;
    int status = realm_next(phone);
    if (status != REALM_DONE) return status;
    const uint8_t *message = realm_bytes(phone, &len);
    must(realm_take(server, message, len), server);
    message = realm_bytes(server, &len);
    return realm_take(phone, message, len);
}

/* Rounds until the phone has all, or until something is answered. */
static int sync_with(realm_node *phone, realm_node *server) {
    for (int rounds = 0; rounds < MOST_ROUNDS; rounds++) {
        int status = pass_message(phone, server);
        if (status != REALM_DONE || realm_is_current(phone)) return status;
    }
    expect(false, "a sync ends");
    return -1;
}

static realm_place standing(realm_node *node) {
    realm_place place;
    must(realm_standing(node, &place), node);
    return place;
}

/* Whether the line of item 1 has this text in it. */
static bool item_has(realm_node *node, const char *text) {
    char line[4096];
    size_t len;
    must(realm_object(node, "{\"table\":\"items\",\"key\":1}"), node);
    const uint8_t *bytes = realm_bytes(node, &len);
    if (len >= sizeof line) return false;
    memcpy(line, bytes, len);
    line[len] = 0;
    return strstr(line, text) != NULL;
}

static void copy_file(const char *from, const char *to) {
    static char bytes[1 << 20];
    FILE *in = fopen(from, "rb"), *out = fopen(to, "wb");
    size_t count = in ? fread(bytes, 1, sizeof bytes, in) : 0;
    if (!in || !out || fwrite(bytes, 1, count, out) != count) expect(false, "a copy");
    if (in) fclose(in);
    if (out) fclose(out);
}

/* ---- merging */

static void offline_edits(void) {
    realm_node ann, ben, server;
    must(realm_open_server(&server, NULL), &server);
    new_phone(&ann, NULL, 1);
    new_phone(&ben, NULL, 2);
    make_list(&ann);
    must(sync_with(&ann, &server), &ann);
    must(sync_with(&ben, &server), &ben);
    add(&ann, 3);
    add(&ben, 4);
    must(realm_commit(&ann, 5, "[{\"op\":\"Update\",\"table\":\"items\",\"key\":1,\"column\":\"text\",\"value\":\"earlier\"}]"), &ann);
    must(realm_commit(&ben, 6, "[{\"op\":\"Update\",\"table\":\"items\",\"key\":1,\"column\":\"text\",\"value\":\"later\"}]"), &ben);
    must(sync_with(&ann, &server), &ann);
    must(sync_with(&ben, &server), &ben);
    must(sync_with(&ann, &server), &ann);
    expect(item_has(&ann, "\"count\":7") && item_has(&ben, "\"count\":7") && item_has(&server, "\"count\":7"), "additions add up");
    expect(item_has(&ann, "\"later\"") && item_has(&ben, "\"later\""), "the later text stands");
    printf("both add and write while they are offline: additions add up, the later text stands, all agree\n");

    /* One erases the item that the other edits. */
    must(realm_commit(&ann, 7, "[{\"op\":\"EraseObject\",\"table\":\"items\",\"key\":1}]"), &ann);
    add(&ben, 1);
    must(sync_with(&ann, &server), &ann);
    must(sync_with(&ben, &server), &ben);
    tell("one erases what the other edits", &ben, realm_object(&ben, "{\"table\":\"items\",\"key\":1}"), REALM_ABSENT);
    realm_close(&ann);
    realm_close(&ben);
    realm_close(&server);
}

static void long_history(void) {
    realm_node ann, ben, server;
    must(realm_open_server(&server, NULL), &server);
    new_phone(&ann, NULL, 1);
    make_list(&ann);
    add(&ann, LONG);
    must(sync_with(&ann, &server), &ann);
    new_phone(&ben, NULL, 2);
    must(sync_with(&ben, &server), &ben);
    realm_place place = standing(&ben);
    printf("a new phone at a history of %d: takes %u\n", LONG + 1, place.cursor);
    expect(place.cursor == LONG + 1 && item_has(&ben, "\"count\":5000"), "all of it");

    /* A client of form 1 is told where the history needs form 2. */
    realm_node old;
    must(realm_open_client(&old, NULL), &old);
    must(realm_born(&old, "00000000-0000-4000-8000-000000000003"), &old);
    must(realm_commit(&ann, 9, "[{\"op\":\"Clear\",\"table\":\"items\",\"key\":1,\"column\":\"steps\"}]"), &ann);
    must(sync_with(&ann, &server), &ann);
    tell("a phone of form 1 at a history of form 2", &old, sync_with(&old, &server), REALM_REFUSED);
    must(realm_upgrade(&old), &old);
    must(sync_with(&old, &server), &old);
    expect(standing(&old).cursor == LONG + 2, "all of it, upgraded");
    realm_close(&ann);
    realm_close(&ben);
    realm_close(&old);
    realm_close(&server);
}

/* Two phones define a column otherwise. What one made before that is in the history all the same. */
static void definitions_differ(void) {
    static const char text[] = "[{\"op\":\"AddColumn\",\"table\":\"items\",\"column\":\"shop\",\"kind\":\"Text\",\"nullable\":false,\"shape\":\"One\"}]";
    static const char number[] = "[{\"op\":\"AddColumn\",\"table\":\"items\",\"column\":\"shop\",\"kind\":\"Int\",\"nullable\":false,\"shape\":\"One\"}]";
    realm_node ann, ben, server;
    const char *path = fresh("ben");
    must(realm_open_server(&server, NULL), &server);
    new_phone(&ann, NULL, 1);
    new_phone(&ben, path, 2);
    make_list(&ann);
    must(sync_with(&ann, &server), &ann);
    must(sync_with(&ben, &server), &ben);
    must(realm_commit(&ann, 5, text), &ann);
    must(sync_with(&ann, &server), &ann);
    add(&ben, 2);
    must(realm_commit(&ben, 5, number), &ben);

    /* Opened again it asks first, and can't take what it gets. Then it asks how many of its changes the server has, and uploads. */
    realm_close(&ben);
    must(realm_open_client(&ben, path), &ben);
    tell("two define a column otherwise", &ben, sync_with(&ben, &server), REALM_REFUSED);
    expect(realm_refusal(&ben).number == REALM_MISMATCH && item_has(&server, "\"count\":0"), "a mismatch");
    tell("  and again", &ben, sync_with(&ben, &server), REALM_REFUSED);
    expect(realm_refusal(&ben).number == REALM_WAS_REFUSED, "the server's word");
    expect(item_has(&server, "\"count\":2"), "what it made before is in the history");
    expect(sync_with(&ben, &server) == REALM_REFUSED && sync_with(&ben, &server) == REALM_REFUSED, "it is told each time");
    realm_close(&ann);
    realm_close(&ben);
    realm_close(&server);
}

/* ---- files that were copied or restored */

/* A phone syncs `before` times, its file is kept, and it goes on `after` times: then the kept file is put back. */
static void restore(const char *path, realm_node *server, int before, int after) {
    realm_node phone;
    new_phone(&phone, path, 1);
    make_list(&phone);
    add(&phone, before);
    must(sync_with(&phone, server), &phone);
    realm_close(&phone);
    const char *backup = fresh("backup");
    copy_file(path, backup);
    must(realm_open_client(&phone, path), &phone);
    add(&phone, after);
    must(sync_with(&phone, server), &phone);
    realm_close(&phone);
    copy_file(backup, path);
}

static void restored_file(int edits, const char *situation) {
    realm_node phone, server;
    const char *path = fresh("restored");
    must(realm_open_server(&server, NULL), &server);
    restore(path, &server, 2, 3);
    uint32_t length = standing(&server).cursor;
    must(realm_open_client(&phone, path), &phone);
    add_at(&phone, edits, 3);
    tell(situation, &phone, sync_with(&phone, &server), REALM_REFUSED);
    expect(realm_refusal(&phone).number == REALM_FORKED, "Forked");
    expect(standing(&server).cursor == length && standing(&phone).unsent == (uint32_t)edits, "nothing was sent, and nothing is lost");
    tell("  and from then on", &phone, sync_with(&phone, &server), REALM_STALE);
    realm_close(&phone);

    /* Opened again it asks first, and is told again. */
    must(realm_open_client(&phone, path), &phone);
    expect(sync_with(&phone, &server) == REALM_REFUSED && standing(&server).cursor == length, "told again");
    realm_close(&phone);
    realm_close(&server);
}

static void copied_file(void) {
    realm_node one, two, server;
    const char *path = fresh("one"), *copy = fresh("two");
    must(realm_open_server(&server, NULL), &server);
    new_phone(&one, path, 1);
    make_list(&one);
    must(sync_with(&one, &server), &one);
    copy_file(path, copy);
    must(realm_open_client(&two, copy), &two);
    add(&one, 1);
    must(sync_with(&one, &server), &one);
    add_at(&two, 1, 3);
    tell("one file on two phones: the second one", &two, sync_with(&two, &server), REALM_REFUSED);
    add(&one, 1);
    must(sync_with(&one, &server), &one);
    printf("  and the first one goes on\n");
    realm_close(&one);
    realm_close(&two);
    realm_close(&server);
}

/* The server's file is put back, and others haven't gone on yet. */
static void restored_server(void) {
    realm_node phone, server;
    const char *path = fresh("server"), *backup = fresh("backup");
    must(realm_open_server(&server, path), &server);
    new_phone(&phone, NULL, 1);
    make_list(&phone);
    must(sync_with(&phone, &server), &phone);
    copy_file(path, backup);
    add(&phone, 2);
    must(sync_with(&phone, &server), &phone);
    realm_close(&server);
    copy_file(backup, path);
    must(realm_open_server(&server, path), &server);
    tell("the server's file was restored", &phone, sync_with(&phone, &server), REALM_REFUSED);
    expect(realm_refusal(&phone).second == 63, "code 63");
    tell("  and from then on", &phone, sync_with(&phone, &server), REALM_STALE);
    realm_close(&phone);
    realm_close(&server);
}

/* Replies of a server that are made by hand. */
static void replies(void) {
    static const struct {
        const char *situation;
        uint8_t bytes[8];
        size_t len;
        int status;
        uint8_t stale;
    } rows[] = {
        {"a Stored above the last number", {7, 1, 9}, 3, REALM_DONE, REALM_STALE_FILE},
        {"a Stored of what it has", {7, 1, 1}, 3, REALM_DONE, REALM_NOT_STALE},
        {"code 61", {6, 1, 2, 61, 0}, 5, REALM_REFUSED, REALM_STALE_SERVER},
        {"code 62", {6, 1, 2, 62, 0}, 5, REALM_REFUSED, REALM_STALE_FILE},
        {"code 63", {6, 1, 0, 63, 0}, 5, REALM_REFUSED, REALM_STALE_SERVER},
        {"code 68", {6, 1, 2, 68, 1}, 5, REALM_REFUSED, REALM_STALE_IDENT},
        {"code 71", {6, 1, 0, 71, 4}, 5, REALM_REFUSED, REALM_STALE_HISTORY},
        {"code 2", {6, 1, 2, 2, 0}, 5, REALM_REFUSED, REALM_NOT_STALE},
        {"code 64", {6, 1, 2, 64, 0}, 5, REALM_REFUSED, REALM_NOT_STALE},
    };
    for (size_t i = 0; i < sizeof rows / sizeof rows[0]; i++) {
        realm_node phone, server;
        must(realm_open_server(&server, NULL), &server);
        new_phone(&phone, NULL, 1);
        make_list(&phone);
        must(sync_with(&phone, &server), &phone);
        add(&phone, 1);
        expect(realm_take(&phone, rows[i].bytes, rows[i].len) == rows[i].status && phone.stale == rows[i].stale, rows[i].situation);
        if (rows[i].stale) tell(rows[i].situation, &phone, realm_next(&phone), REALM_STALE);
        else must(realm_next(&phone), &phone);
        expect(realm_upload(&phone, 0) == REALM_DONE, "what is unsent can still be read");
        realm_close(&phone);
        realm_close(&server);
    }
}

/* ---- files that can't be used */

/* An open that fails, by its reason and the system's number. */
static void unopened(const char *situation, const char *path, int reason, int error) {
    realm_node node;
    tell(situation, &node, realm_open_client(&node, path), REALM_CLOSED);
    expect((int)realm_reason_of(&node) == reason && realm_error_of(&node) == error, situation);
    expect(realm_commit(&node, 1, "[]") == REALM_CLOSED, "nothing is asked of it");
    realm_close(&node);
}

static void paths(void) {
    realm_node node;
    char name[400];
    unopened("a missing folder", path_of("none/file"), REALM_NO_FOLDER, ENOENT);
    unopened("a folder", folder, REALM_IS_A_FOLDER, EISDIR);
    unopened("a device", "/dev/null", REALM_NO_PLAIN_FILE, 0);
    must(realm_open_client(&node, fresh("file")), &node);
    realm_close(&node);
    unopened("a file for a folder", path_of("file/file"), REALM_NOT_A_FOLDER, ENOTDIR);
    memset(name, 'x', sizeof name);
    name[sizeof name - 1] = 0;
    unopened("a name too long", path_of(name), REALM_LONG_PATH, ENAMETOOLONG);
    if (symlink(fresh("round"), path_of("round")) != 0) expect(false, "a link to itself");
    unopened("a link to itself", path_of("round"), REALM_LINKS_GO_ROUND, ELOOP);
    lock_error = ENOLCK;
    unopened("no locks", path_of("file"), REALM_NO_LOCKS, ENOLCK);
    lock_error = 0;

    /* As a user who may not everything. */
    bool is_root = geteuid() == 0;
    const char *shut = path_of("shut");
    if (mkdir(shut, 0555) != 0 && errno != EEXIST) expect(false, "a folder");
    if (chmod(path_of("file"), 0444) != 0 || (is_root && seteuid(65534) != 0)) expect(false, "a file that may be read");
    unopened("a read-only folder", path_of("shut/file"), REALM_NO_PERMISSION, EACCES);
    unopened("a read-only file", path_of("file"), REALM_READ_ONLY_FILE, EACCES);
    if ((is_root && seteuid(0) != 0) || chmod(path_of("file"), 0) != 0 || (is_root && seteuid(65534) != 0)) expect(false, "a file that may not be read");
    unopened("a file without permission", path_of("file"), REALM_NO_PERMISSION, EACCES);
    if (is_root && seteuid(0) != 0) expect(false, "root again");

    struct rlimit usual, few;
    getrlimit(RLIMIT_NOFILE, &usual);
    few = usual;
    few.rlim_cur = 3;
    setrlimit(RLIMIT_NOFILE, &few);
    unopened("too many files", fresh("file"), REALM_MANY_FILES, EMFILE);
    setrlimit(RLIMIT_NOFILE, &usual);
}

/* A disk on which a call fails while a phone commits: nothing that was answered is lost, and the phone goes on once it is opened again. */
static void failing(const char *situation, int *error, int number, int reason) {
    realm_node phone;
    const char *path = fresh("failing");
    new_phone(&phone, path, 1);
    make_list(&phone);
    add(&phone, 2);
    *error = number;
    tell(situation, &phone, realm_commit(&phone, 2, ADD), REALM_CLOSED);
    *error = 0;
    expect((int)realm_reason_of(&phone) == reason && realm_error_of(&phone) == number, situation);
    expect(realm_commit(&phone, 2, ADD) == REALM_CLOSED && (int)realm_reason_of(&phone) == reason, "the reason stays");
    realm_close(&phone);
    must(realm_open_client(&phone, path), &phone);
    uint32_t last = standing(&phone).last;
    expect(last == 3 || last == 4, "what was answered is there");
    add(&phone, 1);
    expect(standing(&phone).last == last + 1, "it goes on");
    realm_close(&phone);
}

static void disks(void) {
    failing("a full disk", &write_error, ENOSPC, REALM_DISK_FULL);
    failing("a user's share that is full", &write_error, EDQUOT, REALM_SHARE_FULL);
    failing("a file's limit", &write_error, EFBIG, REALM_FILE_LIMIT);
    failing("a write that fails", &write_error, EIO, REALM_WRITE_FAILED);
    failing("a sync that fails", &sync_error, EIO, REALM_SYNC_FAILED);
    failing("a sync without room", &sync_error, ENOSPC, REALM_SYNC_FAILED);
}

static void damaged(void) {
    realm_node phone;
    const char *path = fresh("damaged");
    new_phone(&phone, path, 1);
    make_list(&phone);
    realm_close(&phone);
    if (truncate(path, 60) != 0) expect(false, "a file that is cut");
    tell("a file that was cut", &phone, realm_open_client(&phone, path), REALM_BAD_FILE);
    expect(realm_bad_place(&phone) == 37, "the place of the gate");
    tell("  and from then on", &phone, realm_commit(&phone, 1, "[]"), REALM_CLOSED);
    expect(realm_reason_of(&phone) == REALM_WRONG_FILE, "the reason");
    realm_close(&phone);
}

static void renamed(void) {
    realm_node first, second;
    const char *path = fresh("renamed"), *elsewhere = fresh("elsewhere");
    new_phone(&first, path, 1);
    tell("another open", &second, realm_open_client(&second, path), REALM_BUSY);
    realm_close(&second);
    if (rename(path, elsewhere) != 0) expect(false, "a rename");
    new_phone(&second, path, 2);
    make_list(&first);
    realm_close(&first);
    must(realm_open_client(&first, elsewhere), &first);
    expect(standing(&first).last == 1 && standing(&second).last == 0, "each has its own file");
    printf("a file renamed while it is open: each open has the file that it locked\n");
    realm_close(&first);
    realm_close(&second);

    /* Between an open and its lock. */
    rename_from = elsewhere;
    rename_to = path;
    must(realm_open_client(&first, elsewhere), &first);
    expect(!rename_from && standing(&first).last == 0, "it began again, with a new file");
    must(realm_open_client(&second, path), &second);
    expect(standing(&second).last == 1, "the renamed one is free");
    printf("a file renamed while it is opened: the path is opened anew\n");
    realm_close(&first);
    realm_close(&second);
}

/* ---- nodes */

static void closing(void) {
    realm_node node;
    struct stat it;
    memset(&node, 0, sizeof node);
    tell("a call on a node that isn't open", &node, realm_commit(&node, 1, "[]"), REALM_CLOSED);
    expect(realm_reason_of(&node) == REALM_NOT_OPEN, "its reason");
    realm_close(&node);
    realm_close(&node);
    expect(fstat(0, &it) == 0, "standard input is open");

    /* Where standard input is closed a file is opened above it. */
    int input = dup(0);
    close(0);
    must(realm_open_client(&node, fresh("above")), &node);
    expect(node.file > 2, "above the standard files");
    realm_close(&node);
    realm_close(&node);
    dup2(input, 0);
    close(input);
    printf("a zeroed node is closed, and any node twice: nothing happens\n");
}

static void forked(void) {
    realm_node phone, own;
    const char *path = fresh("forked");
    new_phone(&phone, path, 1);
    make_list(&phone);
    fflush(stdout);
    int ends[2];
    uint8_t answers = 0;
    if (pipe(ends) != 0) expect(false, "a pipe");
    pid_t child = fork();
    if (child == 0) {
        for (int i = 0; i < 100; i++) answers += realm_commit(&phone, 2, ADD) == REALM_FORKED_PROCESS;
        answers += realm_next(&phone) == REALM_FORKED_PROCESS && phone.reply_len == 0;
        realm_close(&phone);
        answers += realm_open_client(&own, path) == REALM_BUSY;
        _exit(write(ends[1], &answers, 1) == 1 ? 0 : 1);
    }
    add(&phone, 100);
    expect(read(ends[0], &answers, 1) == 1 && answers == 102 && waitpid(child, NULL, 0) == child, "the child is told");
    close(ends[0]);
    close(ends[1]);
    tell("a node in another process than the one that opened it", &phone, REALM_FORKED_PROCESS, REALM_FORKED_PROCESS);
    tell("another open, once the other process has closed its copy", &own, realm_open_client(&own, path), REALM_BUSY);
    realm_close(&own);
    realm_close(&phone);
    must(realm_open_client(&phone, path), &phone);
    expect(standing(&phone).last == 101, "all that was answered is there, and nothing else");
    realm_close(&phone);
}

/* Several transactions at once: two writes and two syncs, a refusal that ends them, and a disk that fails. */
static void together(void) {
    realm_node phone;
    realm_transaction adds[100];
    size_t done;
    for (size_t i = 0; i < 100; i++) adds[i] = (realm_transaction){2, ADD};
    const char *path = fresh("together");
    new_phone(&phone, path, 1);
    make_list(&phone);
    writes = syncs = 0;
    must(realm_commit_all(&phone, adds, 100, &done), &phone);
    printf("100 transactions at once: %d writes and %d syncs\n", writes, syncs);
    expect(done == 100 && realm_number(&phone) == 101, "all are committed");
    adds[3].edits = "[{\"op\":\"EraseObject\",\"table\":\"items\",\"key\":9}]";
    tell("  one of them is refused", &phone, realm_commit_all(&phone, adds, 100, &done), REALM_REFUSED);
    expect(done == 3, "those before it are committed");
    adds[1].edits = "{}";
    tell("  one of them is none", &phone, realm_commit_all(&phone, adds, 100, &done), REALM_BAD_REQUEST);
    expect(done == 1 && standing(&phone).last == 105, "the one before it is committed");
    must(realm_commit_all(&phone, adds, 0, &done), &phone);
    realm_close(&phone);
    must(realm_open_client(&phone, path), &phone);
    expect(standing(&phone).last == 105, "all that was answered is there");
    write_error = ENOSPC;
    tell("  the disk is full", &phone, realm_commit_all(&phone, adds, 100, &done), REALM_CLOSED);
    write_error = 0;
    expect(done == 0, "none is committed");
    realm_close(&phone);
    must(realm_open_client(&phone, path), &phone);
    expect(standing(&phone).last == 105, "and none stands in the file");
    realm_close(&phone);
}

static off_t size_of(const char *path) {
    struct stat it;
    return stat(path, &it) == 0 ? it.st_size : 0;
}

/* A shorter file takes the place of the node's own, while it is open. */
static void shrunk(void) {
    realm_node phone, server, own = {0};
    const char *path = fresh("shrunk"), *kept = fresh("served");
    must(realm_open_server(&server, kept), &server);
    new_phone(&phone, path, 1);
    make_list(&phone);
    add(&phone, 300);
    for (int i = 0; i < 2; i++) must(sync_with(&phone, &server), &phone);
    add(&phone, 5);
    off_t before = size_of(path), served = size_of(kept);
    must(realm_shrink(&phone), &phone);
    must(realm_shrink(&server), &server);
    expect(size_of(path) * 10 < before && size_of(kept) * 10 < served, "both files are short");
    tell("another open of a file that was shrunk", &own, realm_open_client(&own, path), REALM_BUSY);
    realm_close(&own);
    expect(standing(&phone).unsent == 5 && standing(&phone).last == 306, "the phone is as it was");
    write_error = ENOSPC;
    tell("  no room for the shorter file", &phone, realm_shrink(&phone), REALM_NOT_SHRUNK);
    write_error = 0;
    add(&phone, 1);
    rename(path, path_of("moved"));
    tell("  the file was renamed", &phone, realm_shrink(&phone), REALM_NOT_SHRUNK);
    rename(path_of("moved"), path);
    must(sync_with(&phone, &server), &phone);
    realm_close(&phone);
    must(realm_open_client(&phone, path), &phone);
    must(sync_with(&phone, &server), &phone);
    expect(standing(&phone).unsent == 0 && item_has(&phone, "\"count\":306") && item_has(&server, "\"count\":306"), "nothing is lost");
    sync_error = EIO;
    tell("  a sync that fails", &phone, realm_shrink(&phone), REALM_NOT_SHRUNK);
    sync_error = 0;
    realm_close(&phone);
    must(realm_open_client(&phone, NULL), &phone);
    must(realm_shrink(&phone), &phone);
    realm_close(&phone);
    realm_close(&server);
}

static void requests(void) {
    realm_node phone, server;
    must(realm_open_server(&server, NULL), &server);
    must(realm_open_client(&phone, NULL), &phone);
    tell("a uuid that is none", &phone, realm_born(&phone, "mine"), REALM_BAD_REQUEST);
    tell("a uuid with a quote", &phone, realm_born(&phone, "\",\"upgrade\":2"), REALM_BAD_REQUEST);
    must(realm_born(&phone, "00000000-0000-4000-8000-000000000001"), &phone);
    tell("edits that are no list", &phone, realm_commit(&phone, 1, "{}"), REALM_BAD_REQUEST);
    tell("edits that are none", &phone, realm_commit(&phone, 1, "[{\"op\":\"Updte\"}]"), REALM_BAD_REQUEST);
    tell("a name that is none", &phone, realm_object(&phone, "items"), REALM_BAD_REQUEST);
    tell("a page that begins nowhere", &phone, realm_page(&phone, "{\"key\":1}", 10), REALM_BAD_REQUEST);
    tell("a message that is none", &phone, realm_take(&phone, "hello", 5), REALM_BAD_REQUEST);
    tell("a client's call on a server", &server, realm_commit(&server, 1, "[]"), REALM_BAD_REQUEST);
    tell("the ident 0", &phone, realm_retire(&phone, 0), REALM_BAD_REQUEST);
    expect(standing(&phone).last == 0, "nothing changed");
    realm_close(&phone);
    realm_close(&server);
}

int main(int count, char **words) {
    if (count < 2) return 2;
    folder = words[1];
    umask(022);
    offline_edits();
    long_history();
    definitions_differ();
    restored_file(0, "a phone restored from a backup");
    restored_file(5, "the same, and it edited before it synced");
    copied_file();
    restored_server();
    replies();
    paths();
    disks();
    damaged();
    renamed();
    closing();
    forked();
    together();
    shrunk();
    requests();
    printf("%s\n", wrong ? "WRONG" : "all as they should be");
    return wrong ? 1 : 0;
}
