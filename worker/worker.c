/*
 * The worker: answers requests on standard input with the calls of ring.h, on standard output, and keeps sheets, books and depots between requests. The Python
 * package drives it; any program may. docs/GUIDE.md says the frames word by word.
 *
 * A frame is 32-bit words, little-endian: `RING` as letters, a number that the answer repeats, the call, how many words follow, and these. An answer is the same
 * with a status for the call: a number of refusal of ring.h, 0 where it is served, or one of the faults below, with no words then. A number of 64 bits is two
 * words, the low one first. Sheets, books and depots go by handles, which the worker gives.
 *
 * Whatever comes, each frame that is there whole is answered, and a frame that is none of its calls changes nothing. Where the input is no frame, the worker says
 * so and ends with 3: what follows cannot be told apart. It ends with 0 where the input ends between two frames, and with 3 where it ends within one, or where it
 * cannot write.
 */
#include <stdlib.h>
#include <string.h>
#include <unistd.h>

#include "ring.h"

#define LETTERS 0x474e4952u
/* more words than this no frame has */
#define MOST (1u << 26)
#define HANDLES 4096

/* The faults of a frame: no such call; not as many words as the call takes; no such handle, or of another kind; no memory, or no handle left; no frame. */
enum { NO_CALL = 1001, NO_SHAPE = 1002, NO_HANDLE = 1003, NO_MEMORY = 1004, NO_FRAME = 1005 };

enum {
    HELLO = 1, SHEET, DROP, PACK, POINT, WALK, PAGE, OWN, PARTNERS, SHORTEST, NEAREST, MARKER, BOOK, NEXT, TAKE, SLOTS, STORED_BOOK, FORMS, DEPOT, GIVE, SHELF,
    STORED_DEPOT, HELD, POSITION, RUN, MANY, OWN_MANY, COUNT, OWN_COUNT, BUSIEST, BUSIEST_PUMPS, URGENT
};

/* How many words stand for a pair, a source, a page, a form, a rank and a visit. */
enum { PAIR = 4, SOURCE = 6, PAGED = SOURCE + 4 + 16 * PAIR, FORM = 9, RANK = 2, VISIT = PAIR + 2 };

/* What a handle stands for. */
enum { NOTHING = 0, A_SHEET, A_BOOK, A_DEPOT };
typedef struct Thing {
    int kind;
    size_t len;      /* of a sheet its words, of a book or a depot its slots */
    size_t n, m;     /* of a sheet its points and nodes */
    void *room;      /* the words, or the slots */
    RingBook book;
    RingDepot depot;
} Thing;

static Thing things[HANDLES];

/* The answer's words, and how many there are of how many that there is room for. */
static uint32_t *said;
static size_t said_len, said_room;

/* ---------------------------------------------------------------- words in and out */

static int grow(uint32_t **words, size_t *room, size_t len) {
    if (len <= *room) return 1;
    size_t more = *room < 1024 ? 1024 : *room;
    while (more < len) more *= 2;
    uint32_t *made = realloc(*words, more * sizeof(uint32_t));
    if (made == NULL) return 0;
    *words = made;
    *room = more;
    return 1;
}

/* Room for the answer's words; each call asks for as many as it says before it says them. */
static int may_say(size_t len) { return grow(&said, &said_room, said_len + len); }

static void say(uint32_t word) { said[said_len++] = word; }

static void say_long(uint64_t number) {
    say((uint32_t)number);
    say((uint32_t)(number >> 32));
}

static void say_pair(RingPair pair) {
    say(pair.q);
    say(pair.p);
    say_long(pair.size);
}

static void say_source(RingSource source) {
    say(source.p_edition);
    say(source.q_edition);
    say(source.terms.threshold);
    say(source.terms.contractor);
    say(source.terms.own);
    say(source.terms.grid);
}

static void say_form(RingForm form) {
    say(form.p_edition);
    say(form.q_edition);
    say(form.own);
    say(form.contractor);
    say(form.grid);
    say(form.q);
    say(form.p);
    say_long(form.size);
}

static uint64_t long_at(const uint32_t *words) { return words[0] | (uint64_t)words[1] << 32; }

static RingPair pair_at(const uint32_t *words) {
    RingPair pair = {words[0], words[1], long_at(words + 2)};
    return pair;
}

static RingSource source_at(const uint32_t *words) {
    RingSource source = {words[0], words[1], {words[2], words[3], words[4] != 0, words[5] != 0}};
    return source;
}

static RingPage page_at(const uint32_t *words) {
    RingPage page;
    page.source = source_at(words);
    words += SOURCE;
    page.key.q = words[0];
    page.key.p = words[1];
    page.count = words[2];
    page.end = words[3] != 0;
    for (size_t k = 0; k < 16; k++) page.pairs[k] = pair_at(words + 4 + PAIR * k);
    return page;
}

static RingForm form_at(const uint32_t *words) {
    RingForm form = {words[0], words[1], words[2] != 0, words[3], words[4] != 0, words[5], words[6], long_at(words + 7)};
    return form;
}

/* ---------------------------------------------------------------- what is kept */

static Thing *thing(uint32_t handle, int kind) {
    if (handle == 0 || handle > HANDLES || things[handle - 1].kind != kind) return NULL;
    return &things[handle - 1];
}

/* A handle for a thing with room for so many elements of so many bytes; 0 where there is none left, or no memory. */
static uint32_t made(int kind, size_t len, size_t bytes) {
    for (uint32_t k = 0; k < HANDLES; k++)
        if (things[k].kind == NOTHING) {
            void *room = calloc(len == 0 ? 1 : len, bytes);
            if (room == NULL) return 0;
            things[k].kind = kind;
            things[k].len = len;
            things[k].room = room;
            return k + 1;
        }
    return 0;
}

static void dropped(Thing *one) {
    free(one->room);
    memset(one, 0, sizeof *one);
}

/* Words and numbers that a call works on, as many as the largest sheet yet needs. */
static uint64_t *lent;
static size_t lent_len;
static int may_lend(size_t len) {
    if (len <= lent_len) return 1;
    uint64_t *more = realloc(lent, len * sizeof(uint64_t));
    if (more == NULL) return 0;
    lent = more;
    lent_len = len;
    return 1;
}

/* ---------------------------------------------------------------- the calls: each answers a status, and says its words where it is served */

static uint32_t hello(void) {
    if (!may_say(6)) return NO_MEMORY;
    say(RING_VERSION_MAJOR);
    say(RING_VERSION_MINOR);
    say(RING_VERSION_PATCH);
    say(sizeof(RingPair));
    say(sizeof(RingForm));
    say(sizeof(RingPage));
    return 0;
}

static uint32_t sheet(const uint32_t *words, size_t len) {
    RingHead head = ring_open((const int32_t *)words, len);
    if (head.number != 0) return head.number;
    uint32_t handle = made(A_SHEET, len, sizeof(int32_t));
    if (handle == 0 || !may_say(5)) return NO_MEMORY;
    Thing *kept = thing(handle, A_SHEET);
    memcpy(kept->room, words, len * sizeof(int32_t));
    kept->n = head.n;
    kept->m = head.m;
    say(handle);
    say((uint32_t)head.n);
    say((uint32_t)head.m);
    say(head.edition);
    say(head.form);
    return 0;
}

/* form, n, edition, how many point words, these, the order */
static uint32_t pack(const uint32_t *words, size_t len) {
    size_t n = words[1], points = words[3];
    if (points > len - 4) return NO_SHAPE;
    size_t order = len - 4 - points, out = ring_sheet_len(n);
    if (!may_say(out)) return NO_MEMORY;
    const int32_t *given = (const int32_t *)words + 4;
    uint32_t number = ring_pack(words[0], n, given, points, given + points, order, words[2], (int32_t *)said + said_len, out);
    if (number == 0) said_len += out;
    return number;
}

static uint32_t point(const Thing *s, uint32_t position) {
    RingPoint at = ring_point(s->room, s->len, position);
    if (at.number != 0) return at.number;
    if (!may_say(3)) return NO_MEMORY;
    say(at.id);
    say((uint32_t)at.x);
    say((uint32_t)at.y);
    return 0;
}

static uint32_t position(const Thing *s, uint32_t id) {
    RingPlaced at = ring_position(s->room, s->len, id);
    if (at.number != 0) return at.number;
    if (!may_say(1)) return NO_MEMORY;
    say((uint32_t)at.position);
    return 0;
}

static uint32_t walk(const Thing *p, const Thing *q, const uint32_t *words) {
    RingWalked walked = ring_pair_walk(p->room, p->len, q->room, q->len, words[0], words[1], words[2] != 0);
    if (walked.number != 0) return walked.number;
    if (!may_say(6)) return NO_MEMORY;
    say(walked.kind);
    say(walked.set);
    say(walked.side);
    say((uint32_t)walked.at);
    say_long(walked.opened);
    return 0;
}

static uint32_t say_paged(RingPaged paged) {
    if (paged.number != 0) return paged.number;
    if (!may_say(2 + PAGED)) return NO_MEMORY;
    say_long(paged.opened);
    say_source(paged.page.source);
    say(paged.page.key.q);
    say(paged.page.key.p);
    say((uint32_t)paged.page.count);
    say(paged.page.end);
    for (size_t k = 0; k < 16; k++) say_pair(paged.page.pairs[k]);
    return 0;
}

/* The owner bytes of as many words, to be freed, or NULL where there is no memory. A word that is no byte is handed on as one that is refused. */
static uint8_t *bytes_of(const uint32_t *words, size_t owners) {
    uint8_t *bytes = malloc(owners + 1);
    for (size_t k = 0; bytes != NULL && k < owners; k++) bytes[k] = words[k] > 255 ? 255 : (uint8_t)words[k];
    return bytes;
}

/* key, size, threshold, contractor, grid, then a word for each owner byte */
static uint32_t page(const Thing *p, const Thing *q, const uint32_t *words, size_t len) {
    size_t owners = len - 6;
    uint8_t *bytes = bytes_of(words + 6, owners);
    if (bytes == NULL || !may_lend(RING_WORDS(p->n))) {
        free(bytes);
        return NO_MEMORY;
    }
    RingRequest request = {{words[0], words[1]}, words[2], words[3], words[4], words[5] != 0};
    RingPaged paged = ring_page(p->room, p->len, q->room, q->len, bytes, owners, request, lent, RING_WORDS(p->n));
    free(bytes);
    return say_paged(paged);
}

static uint32_t own(const Thing *s, const uint32_t *words) {
    if (!may_lend(RING_WORDS(s->n))) return NO_MEMORY;
    RingKey key = {words[0], words[1]};
    return say_paged(ring_own_page(s->room, s->len, key, words[2], words[3] != 0, lent, RING_WORDS(s->n)));
}

static uint32_t partners(const Thing *p, const Thing *q, const uint32_t *words) {
    if (!may_lend(RING_WORDS(p->n)) || !may_say(2)) return NO_MEMORY;
    RingPartners found = ring_partners(p->room, p->len, q->room, q->len, words[0], words[1], lent, RING_WORDS(p->n));
    if (found.number != 0) return found.number;
    say((uint32_t)found.count);
    say(found.enough);
    return 0;
}

static uint32_t shortest(const Thing *p, const Thing *q, const uint32_t *words) {
    if (!may_lend(RING_WORDS(p->n)) || !may_say(1 + 16 * PAIR)) return NO_MEMORY;
    RingShortlist found = ring_shortest(p->room, p->len, q->room, q->len, words[0], lent, RING_WORDS(p->n));
    if (found.number != 0) return found.number;
    say((uint32_t)found.count);
    for (size_t k = 0; k < 16; k++) say_pair(found.pairs[k]);
    return 0;
}

static uint32_t nearest(const Thing *p, const Thing *q, const uint32_t *words) {
    if (!may_lend(p->n + p->m) || !may_say(1 + 16 * 3)) return NO_MEMORY;
    RingFound found = ring_nearest(p->room, p->len, q->room, q->len, words[0], words[1], lent, p->n + p->m);
    if (found.number != 0) return found.number;
    say((uint32_t)found.count);
    for (size_t k = 0; k < 16; k++) {
        say(found.points[k].id);
        say_long(found.points[k].distance);
    }
    return 0;
}

static uint32_t marker(const uint32_t *words) {
    RingMarker at = ring_marker((int32_t)words[0], (int32_t)words[1], (int32_t)words[2], (int32_t)words[3]);
    if (at.number != 0) return at.number;
    if (!may_say(4)) return NO_MEMORY;
    uint64_t x, y;
    memcpy(&x, &at.x, sizeof x);
    memcpy(&y, &at.y, sizeof y);
    say_long(x);
    say_long(y);
    return 0;
}

/* source, room */
static uint32_t book(const uint32_t *words) {
    RingBegun begun = ring_book_begin(source_at(words));
    if (begun.number != 0) return begun.number;
    uint32_t handle = made(A_BOOK, words[SOURCE], sizeof(RingPair));
    if (handle == 0 || !may_say(1)) return NO_MEMORY;
    thing(handle, A_BOOK)->book = begun.book;
    say(handle);
    return 0;
}

/* source, room, held, closed, the held pairs: a book as it was stored. Begun anew for its source, so that what no book can be of is refused, then put back. */
static uint32_t stored_book(const uint32_t *words, size_t len) {
    size_t room = words[SOURCE], held = words[SOURCE + 1];
    if (len != SOURCE + 3 + PAIR * held) return NO_SHAPE;
    if (held > room) return RING_BAD_HELD;
    uint32_t status = book(words);
    if (status != 0) return status;
    Thing *kept = thing(said[said_len - 1], A_BOOK);
    for (size_t k = 0; k < held; k++) ((RingPair *)kept->room)[k] = pair_at(words + SOURCE + 3 + PAIR * k);
    kept->book.held = held;
    kept->book.closed = words[SOURCE + 2] != 0;
    return 0;
}

static uint32_t next(const Thing *b) {
    RingNext asked = ring_book_next_key(b->book, b->room, b->len);
    if (asked.number != 0) return asked.number;
    if (!may_say(4)) return NO_MEMORY;
    say(asked.key.q);
    say(asked.key.p);
    say((uint32_t)b->book.held);
    say(b->book.closed);
    return 0;
}

static uint32_t take(Thing *b, const uint32_t *words) {
    if (!may_say(2)) return NO_MEMORY;
    RingTaken taken = ring_book_take(b->book, b->room, b->len, page_at(words));
    if (taken.number != 0) return taken.number;
    b->book = taken.book;
    say((uint32_t)b->book.held);
    say(b->book.closed);
    return 0;
}

/* from, how many: of the held ones only */
static uint32_t slots(const Thing *b, const uint32_t *words) {
    size_t from = words[0], to = from + words[1];
    if (to > b->book.held) return NO_SHAPE;
    if (!may_say(PAIR * (to - from))) return NO_MEMORY;
    for (size_t k = from; k < to; k++) say_pair(((RingPair *)b->room)[k]);
    return 0;
}

static uint32_t forms(const Thing *b) {
    RingForm *out = malloc((b->book.held + 1) * sizeof(RingForm));
    if (out == NULL || !may_say(FORM * b->book.held)) {
        free(out);
        return NO_MEMORY;
    }
    RingMade made = ring_forms(b->book, b->room, b->len, out, b->book.held);
    if (made.number == 0)
        for (size_t k = 0; k < made.count; k++) say_form(out[k]);
    free(out);
    return made.number;
}

static uint32_t depot(const uint32_t *words) {
    uint32_t handle = made(A_DEPOT, words[0], sizeof(RingForm));
    if (handle == 0 || !may_say(1)) return NO_MEMORY;
    thing(handle, A_DEPOT)->depot = ring_depot_begin();
    say(handle);
    return 0;
}

/* room, held, the held forms: a depot as it was stored */
static uint32_t stored_depot(const uint32_t *words, size_t len) {
    size_t room = words[0], held = words[1];
    if (len != 2 + FORM * held) return NO_SHAPE;
    if (held > room) return RING_BAD_HELD;
    uint32_t status = depot(words);
    if (status != 0) return status;
    Thing *kept = thing(said[said_len - 1], A_DEPOT);
    for (size_t k = 0; k < held; k++) ((RingForm *)kept->room)[k] = form_at(words + 2 + FORM * k);
    kept->depot.held = held;
    return 0;
}

static uint32_t give(Thing *d, const uint32_t *words) {
    if (!may_say(2)) return NO_MEMORY;
    RingStored stored = ring_depot_take(d->depot, d->room, d->len, form_at(words));
    if (stored.number != 0) return stored.number;
    d->depot = stored.depot;
    say(stored.issued);
    say((uint32_t)d->depot.held);
    return 0;
}

static uint32_t shelf(const Thing *d, const uint32_t *words) {
    size_t from = words[0], to = from + words[1];
    if (to > d->depot.held) return NO_SHAPE;
    if (!may_say(FORM * (to - from))) return NO_MEMORY;
    for (size_t k = from; k < to; k++) say_form(((RingForm *)d->room)[k]);
    return 0;
}

static uint32_t held(const Thing *d) {
    if (!may_say(1)) return NO_MEMORY;
    say((uint32_t)d->depot.held);
    return 0;
}

/* leaf, how many slots: the nodes opened, and as many pairs as there are */
static uint32_t run(const Thing *p, const Thing *q, const uint32_t *words) {
    size_t slots = words[1];
    /* more than an answer has room for nobody asks for */
    if (slots > (MOST - 2) / PAIR || !may_lend(16 * RING_WORDS(p->n))) return NO_MEMORY;
    RingPair *out = malloc((slots + 1) * sizeof(RingPair));
    if (out == NULL) return NO_MEMORY;
    RingRun found = ring_leaf_run(p->room, p->len, q->room, q->len, words[0], out, slots, lent, 16 * RING_WORDS(p->n));
    if (found.number == 0) {
        if (!may_say(2 + PAIR * found.count)) {
            free(out);
            return NO_MEMORY;
        }
        say_long(found.opened);
        for (size_t k = 0; k < found.count; k++) say_pair(out[k]);
    }
    free(out);
    return found.number;
}

/* Room for so many pairs and one more, to be freed, or NULL: more than an answer has room for nobody asks for. */
static RingPair *slots_for(size_t slots) { return slots > (MOST - 1) / PAIR ? NULL : malloc((slots + 1) * sizeof(RingPair)); }

/* whether more follow, and the pairs */
static uint32_t say_many(RingMany found, const RingPair *out) {
    if (found.number != 0) return found.number;
    if (!may_say(1 + PAIR * found.count)) return NO_MEMORY;
    say(found.more);
    for (size_t k = 0; k < found.count; k++) say_pair(out[k]);
    return 0;
}

/* key, largest, how many slots, threshold, contractor, grid, then a word for each owner byte */
static uint32_t many(const Thing *p, const Thing *q, const uint32_t *words, size_t len) {
    size_t slots = words[4], owners = len - 8;
    uint8_t *bytes = bytes_of(words + 8, owners);
    RingPair *out = slots_for(slots);
    uint32_t status = NO_MEMORY;
    if (bytes != NULL && out != NULL && may_lend(RING_WORDS(p->n))) {
        RingWanted wanted = {{words[0], words[1]}, long_at(words + 2), words[5], words[6], words[7] != 0};
        status = say_many(ring_pairs(p->room, p->len, q->room, q->len, bytes, owners, wanted, out, slots, lent, RING_WORDS(p->n)), out);
    }
    free(bytes);
    free(out);
    return status;
}

/* key, largest, how many slots, grid */
static uint32_t own_many(const Thing *s, const uint32_t *words) {
    RingKey key = {words[0], words[1]};
    RingPair *out = slots_for(words[4]);
    if (out == NULL || !may_lend(RING_WORDS(s->n))) {
        free(out);
        return NO_MEMORY;
    }
    uint32_t status = say_many(ring_own_pairs(s->room, s->len, key, long_at(words + 2), words[5] != 0, out, words[4], lent, RING_WORDS(s->n)), out);
    free(out);
    return status;
}

static uint32_t say_counted(RingCounted counted) {
    if (counted.number != 0) return counted.number;
    if (!may_say(2)) return NO_MEMORY;
    say_long(counted.count);
    return 0;
}

/* largest, threshold, contractor, grid, then a word for each owner byte */
static uint32_t count(const Thing *p, const Thing *q, const uint32_t *words, size_t len) {
    size_t owners = len - 5;
    uint8_t *bytes = bytes_of(words + 5, owners);
    if (bytes == NULL || !may_lend(RING_WORDS(p->n))) {
        free(bytes);
        return NO_MEMORY;
    }
    RingWhich which = {long_at(words), words[2], words[3], words[4] != 0};
    RingCounted counted = ring_count(p->room, p->len, q->room, q->len, bytes, owners, which, lent, RING_WORDS(p->n));
    free(bytes);
    return say_counted(counted);
}

/* largest, grid */
static uint32_t own_count(const Thing *s, const uint32_t *words) {
    if (!may_lend(RING_WORDS(s->n))) return NO_MEMORY;
    return say_counted(ring_own_count(s->room, s->len, long_at(words), words[2] != 0, lent, RING_WORDS(s->n)));
}

/* count, 16 times id and pairs */
static uint32_t say_busy(RingBusy busy) {
    if (busy.number != 0) return busy.number;
    if (!may_say(1 + 16 * RANK)) return NO_MEMORY;
    say((uint32_t)busy.count);
    for (size_t k = 0; k < 16; k++) {
        say(busy.rows[k].id);
        say(busy.rows[k].pairs);
    }
    return 0;
}

/* k, largest, contractor, grid */
static RingAsked asked_at(const uint32_t *words) {
    RingAsked asked = {words[0], long_at(words + 1), words[3], words[4] != 0};
    return asked;
}

/* what is asked, then a word for each owner byte */
static uint32_t busiest(const Thing *p, const Thing *q, const uint32_t *words, size_t len) {
    size_t owners = len - 5;
    uint8_t *bytes = bytes_of(words + 5, owners);
    if (bytes == NULL || !may_lend(RING_WORDS(p->n))) {
        free(bytes);
        return NO_MEMORY;
    }
    RingBusy busy = ring_busiest(p->room, p->len, q->room, q->len, bytes, owners, asked_at(words), lent, RING_WORDS(p->n));
    free(bytes);
    return say_busy(busy);
}

/* k, largest, grid: the kept sets are of chambers */
static uint32_t busiest_pumps(const Thing *p, const Thing *q, const uint32_t *words) {
    if (!may_lend(RING_WORDS(q->n))) return NO_MEMORY;
    return say_busy(ring_busiest_pumps(p->room, p->len, q->room, q->len, words[0], long_at(words + 1), words[3] != 0, lent, RING_WORDS(q->n)));
}

/* what is asked, how many owner bytes, how many scores of P, a word for each owner byte, the scores of P, and those of Q */
static uint32_t urgent(const Thing *p, const Thing *q, const uint32_t *words, size_t len) {
    size_t owners = words[5], scores = words[6];
    if (owners > len - 7 || scores > len - 7 - owners) return NO_SHAPE;
    uint8_t *bytes = bytes_of(words + 7, owners);
    if (bytes == NULL || !may_lend(RING_WORDS(p->n)) || !may_say(1 + 16 * VISIT)) {
        free(bytes);
        return NO_MEMORY;
    }
    const uint32_t *of_p = words + 7 + owners, *of_q = of_p + scores;
    RingUrgent found = ring_urgent(p->room, p->len, q->room, q->len, bytes, owners, of_p, scores, of_q, len - 7 - owners - scores, asked_at(words), lent, RING_WORDS(p->n));
    free(bytes);
    if (found.number != 0) return found.number;
    say((uint32_t)found.count);
    for (size_t k = 0; k < 16; k++) {
        say_pair(found.rows[k].pair);
        say_long(found.rows[k].score);
    }
    return 0;
}

/* What each call is given: how many handles and of what kind, then how many words at least, and whether more may follow. */
typedef struct Shape {
    int handles;
    int kind;
    size_t words;
    int more;
} Shape;

static const Shape shapes[] = {
    [HELLO] = {0, 0, 0, 0}, [SHEET] = {0, 0, 0, 1}, [DROP] = {0, 0, 1, 0}, [PACK] = {0, 0, 4, 1}, [POINT] = {1, A_SHEET, 1, 0}, [WALK] = {2, A_SHEET, 3, 0},
    [PAGE] = {2, A_SHEET, 6, 1}, [OWN] = {1, A_SHEET, 4, 0}, [PARTNERS] = {2, A_SHEET, 2, 0}, [SHORTEST] = {2, A_SHEET, 1, 0}, [NEAREST] = {2, A_SHEET, 2, 0},
    [MARKER] = {0, 0, 4, 0}, [BOOK] = {0, 0, SOURCE + 1, 0}, [NEXT] = {1, A_BOOK, 0, 0}, [TAKE] = {1, A_BOOK, PAGED, 0}, [SLOTS] = {1, A_BOOK, 2, 0},
    [STORED_BOOK] = {0, 0, SOURCE + 3, 1}, [FORMS] = {1, A_BOOK, 0, 0}, [DEPOT] = {0, 0, 1, 0}, [GIVE] = {1, A_DEPOT, FORM, 0}, [SHELF] = {1, A_DEPOT, 2, 0},
    [STORED_DEPOT] = {0, 0, 2, 1}, [HELD] = {1, A_DEPOT, 0, 0}, [POSITION] = {1, A_SHEET, 1, 0},
    [RUN] = {2, A_SHEET, 2, 0}, [MANY] = {2, A_SHEET, 8, 1}, [OWN_MANY] = {1, A_SHEET, 6, 0}, [COUNT] = {2, A_SHEET, 5, 1}, [OWN_COUNT] = {1, A_SHEET, 3, 0},
    [BUSIEST] = {2, A_SHEET, 5, 1}, [BUSIEST_PUMPS] = {2, A_SHEET, 4, 0}, [URGENT] = {2, A_SHEET, 7, 1},
};

static uint32_t answered(uint32_t call, const uint32_t *words, size_t len) {
    if (call < HELLO || call > URGENT) return NO_CALL;
    Shape shape = shapes[call];
    size_t least = (size_t)shape.handles + shape.words;
    if (len < least || (len > least && !shape.more)) return NO_SHAPE;
    Thing *a = NULL, *b = NULL;
    if (shape.handles > 0 && (a = thing(words[0], shape.kind)) == NULL) return NO_HANDLE;
    if (shape.handles > 1 && (b = thing(words[1], shape.kind)) == NULL) return NO_HANDLE;
    words += shape.handles;
    len -= (size_t)shape.handles;
    switch (call) {
    case HELLO: return hello();
    case SHEET: return sheet(words, len);
    case DROP:
        if (words[0] == 0 || words[0] > HANDLES || things[words[0] - 1].kind == NOTHING) return NO_HANDLE;
        dropped(&things[words[0] - 1]);
        return 0;
    case PACK: return pack(words, len);
    case POINT: return point(a, words[0]);
    case WALK: return walk(a, b, words);
    case PAGE: return page(a, b, words, len);
    case OWN: return own(a, words);
    case PARTNERS: return partners(a, b, words);
    case SHORTEST: return shortest(a, b, words);
    case NEAREST: return nearest(a, b, words);
    case MARKER: return marker(words);
    case BOOK: return book(words);
    case NEXT: return next(a);
    case TAKE: return take(a, words);
    case SLOTS: return slots(a, words);
    case STORED_BOOK: return stored_book(words, len);
    case FORMS: return forms(a);
    case DEPOT: return depot(words);
    case GIVE: return give(a, words);
    case SHELF: return shelf(a, words);
    case STORED_DEPOT: return stored_depot(words, len);
    case HELD: return held(a);
    case POSITION: return position(a, words[0]);
    case RUN: return run(a, b, words);
    case MANY: return many(a, b, words, len);
    case OWN_MANY: return own_many(a, words);
    case COUNT: return count(a, b, words, len);
    case OWN_COUNT: return own_count(a, words);
    case BUSIEST: return busiest(a, b, words, len);
    case BUSIEST_PUMPS: return busiest_pumps(a, b, words);
    default: return urgent(a, b, words, len);
    }
}

/* ---------------------------------------------------------------- frames */

/* So many bytes from standard input: 1, or 0 where it ends before the first, or -1 where it ends later or a read fails. */
static int got(void *to, size_t bytes) {
    size_t done = 0;
    while (done < bytes) {
        ssize_t now = read(0, (char *)to + done, bytes - done);
        if (now < 0) return -1;
        if (now == 0) return done == 0 ? 0 : -1;
        done += (size_t)now;
    }
    return 1;
}

static int put(const void *from, size_t bytes) {
    size_t done = 0;
    while (done < bytes) {
        ssize_t now = write(1, (const char *)from + done, bytes - done);
        if (now <= 0) return 0;
        done += (size_t)now;
    }
    return 1;
}

/* The answer, with the words that are said. */
static int answer(uint32_t number, uint32_t status) {
    uint32_t head[4] = {LETTERS, number, status, status == 0 ? (uint32_t)said_len : 0};
    return put(head, sizeof head) && put(said, head[3] * sizeof(uint32_t));
}

/* The worker's status where it ends for a ground, which is said on standard error. */
static int end(const char *ground) {
    write(2, ground, strlen(ground));
    return 3;
}

int main(void) {
    static uint32_t *words;
    static size_t room;
    for (;;) {
        uint32_t head[4];
        int begun = got(head, sizeof head);
        if (begun == 0) return 0;
        if (begun < 0) return end("worker: the input ends within a frame\n");
        if (head[0] != LETTERS || head[3] > MOST) {
            answer(head[1], NO_FRAME);
            return end("worker: the input is no frame\n");
        }
        /* room is made as the words come, so that a wrong number of them asks for no more than is there */
        for (size_t done = 0; done < head[3];) {
            size_t now = head[3] - done < 65536 ? head[3] - done : 65536;
            if (!grow(&words, &room, done + now)) return end("worker: no memory for a frame\n");
            if (got(words + done, now * sizeof(uint32_t)) != 1) return end("worker: the input ends within a frame\n");
            done += now;
        }
        said_len = 0;
        if (!answer(head[1], answered(head[2], words, head[3]))) return end("worker: its output cannot be written\n");
    }
}
