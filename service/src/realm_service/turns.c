/* A batch of requests to a node in one call, and its outbox gathered: what a host needs in a language whose every call into C gives the
 * interpreter's lock away. It stands over `realm_node_turn` of include/realm_sync.h, which the caller hands in, and has no state. */
#include <stdbool.h>
#include <stddef.h>
#include <stdint.h>
#include <stdlib.h>
#include <string.h>

typedef size_t realm_turn(void *at, const uint8_t *request, size_t request_len, uint8_t *reply, size_t reply_len);

/* Bytes that grow: `len` of them are in use. */
typedef struct realm_buffer {
    uint8_t *bytes;
    size_t len;
    size_t room;
} realm_buffer;

enum { CLOSED = 5, NO_MEMORY = 7, FIRST_ROOM = 4096, STROKE_HEAD = 17 };

static uint64_t number_at(const uint8_t *bytes, int count) {
    uint64_t number = 0;
    while (count-- > 0) number = number << 8 | bytes[count];
    return number;
}

/* Room for that many bytes in all; what is there stays. */
static bool make_room(realm_buffer *buffer, size_t want) {
    if (buffer->bytes && want <= buffer->room) return true;
    size_t more = buffer->room < FIRST_ROOM ? FIRST_ROOM : buffer->room;
    while (more < want) more *= 2;
    uint8_t *made = realloc(buffer->bytes, more);
    if (!made) return false;
    buffer->bytes = made;
    buffer->room = more;
    return true;
}

/* Hands one request over and puts its reply behind those in `replies`. */
static bool one_turn(realm_turn *turn, void *at, const uint8_t *request, size_t count, realm_buffer *replies) {
    static const uint8_t again = 'R';
    if (!make_room(replies, replies->len + FIRST_ROOM)) return false;
    size_t start = replies->len + 4, room = replies->room - start;
    size_t told = turn(at, request, count, replies->bytes + start, room);
    if (told > room) {
        if (!make_room(replies, start + told)) return false;
        told = turn(at, &again, 1, replies->bytes + start, told);
    }
    for (int i = 0; i < 4; i++) replies->bytes[start - 4 + i] = (uint8_t)(told >> (8 * i));
    replies->len = start + told;
    return told == 0 || (replies->bytes[start] != CLOSED && replies->bytes[start] != NO_MEMORY);
}

/* Hands requests to a node, each behind its length in four bytes, the lowest first. The replies stand likewise in `replies`. Answers how
 * many were answered without closing the node; where one did, or memory ran out, the later ones weren't handed over. */
size_t realm_turns(realm_turn *turn, void *at, const uint8_t *requests, size_t len, realm_buffer *replies) {
    size_t answered = 0;
    replies->len = 0;
    for (size_t place = 0; len - place >= 4; answered++) {
        size_t count = number_at(requests + place, 4);
        place += 4;
        if (count > len - place || !one_turn(turn, at, requests + place, count, replies)) break;
        place += count;
    }
    return answered;
}

/* Asks for the outbox, whole. */
static bool ask_outbox(realm_turn *turn, void *at, realm_buffer *outbox) {
    static const uint8_t ask = 'W';
    if (!make_room(outbox, FIRST_ROOM)) return false;
    outbox->len = turn(at, &ask, 1, outbox->bytes, outbox->room);
    if (outbox->len <= outbox->room) return true;
    if (!make_room(outbox, outbox->len)) return false;
    outbox->len = turn(at, &ask, 1, outbox->bytes, outbox->room);
    return true;
}

/* Puts what a write leaves over `tail`, which is what the file has from `gate` on. False where it begins before that, or leaves a hole. */
static bool lay_over(realm_buffer *tail, uint64_t gate, uint64_t place, const uint8_t *bytes, size_t count) {
    if (place < gate || place - gate > tail->len) return false;
    size_t from = place - gate;
    if (!make_room(tail, from + count)) return false;
    memcpy(tail->bytes + from, bytes, count);
    if (from + count > tail->len) tail->len = from + count;
    return true;
}

/* What the strokes of the outbox leave of the file from the closed gate on, at `*gate`: all records that were added, and the new closed
 * gate. Nothing where no write stands there. False where they are no appends, or memory ran out. The outbox stays. */
bool realm_gather(realm_turn *turn, void *at, realm_buffer *outbox, realm_buffer *tail, uint64_t *gate) {
    bool is_first = true;
    tail->len = 0;
    *gate = 0;
    if (!ask_outbox(turn, at, outbox)) return false;
    for (size_t here = 0; here < outbox->len;) {
        const uint8_t *stroke = outbox->bytes + here;
        size_t left = outbox->len - here;
        if (stroke[0] == 'S') {
            here++;
            continue;
        }
        if (stroke[0] != 'W' || left < STROKE_HEAD) return false;
        uint64_t place = number_at(stroke + 1, 8), count = number_at(stroke + 9, 8);
        if (count > left - STROKE_HEAD) return false;
        if (is_first) {
            /* the first write is behind the closed gate, or makes the file */
            *gate = place == 0 ? 0 : place - 1;
            if (!make_room(tail, 1)) return false;
            tail->bytes[0] = 0;
            tail->len = 1;
            is_first = false;
        }
        if (!lay_over(tail, *gate, place, stroke + STROKE_HEAD, count)) return false;
        here += STROKE_HEAD + count;
    }
    return is_first || tail->bytes[tail->len - 1] == 0;
}

void realm_buffer_free(realm_buffer *buffer) {
    free(buffer->bytes);
    memset(buffer, 0, sizeof *buffer);
}
