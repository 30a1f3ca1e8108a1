/*
 * A million deliveries in one process over the calls of ring.h: pages to order books and forms to a depot, lost, repeated, late and out of order, held to a plain
 * list after each. Town after town, each with three books: of the undivided list, of the chambers with two pump houses and more, and of a contractor.
 * Besides, a page comes to the book of another list, or from the town before.
 * Given the word `older`, it hands in an older state of a book now and then, which is ruled out (docs/DEMAND-3.md): that must be told.
 * Prints one line, and ends with 1 where a book or the depot is not what the plain list says.
 */
#include <stdio.h>
#include <string.h>

#include "ring.h"

#define DELIVERIES 1000000
#define PUMPS 14
#define CHAMBERS 24
#define MOST (PUMPS * CHAMBERS)
#define BOOKS 3
#define PAGES 48
#define FORMS 96
#define UNDIVIDED 2
#define LEN(a) (sizeof(a) / sizeof (a)[0])

static uint64_t seed = 88172645463325252ull;
static unsigned long pages_came, forms_came, pages_lost, forms_lost, taken_pages, numbers[RING_LAST_REFUSAL + 1], orders, known, lost, doubled, towns, wrong, first_wrong;

#define HOLD(test) ((test) ? (void)0 : (void)(wrong++ ? 0 : (first_wrong = __LINE__)))

static size_t below(size_t n) {
    seed ^= seed << 13;
    seed ^= seed >> 7;
    seed ^= seed << 17;
    return (size_t)((seed >> 11) % n);
}

/* ---- the town, and its lists by trying every pair against every record */

typedef struct {
    int32_t points[CHAMBERS][3], sheet[512];
    size_t n, len;
} Set;

static Set P, Q;
static uint8_t owners[CHAMBERS];
static uint64_t bits[RING_WORDS(PUMPS)];
static uint32_t p_edition, q_edition;

/* `x` lies on the circle that two ends span, or within it, and on the spot of neither */
static bool blocks(const int32_t *a, const int32_t *b, const int32_t *x) {
    int64_t product = (int64_t)(a[1] - x[1]) * (b[1] - x[1]) + (int64_t)(a[2] - x[2]) * (b[2] - x[2]);
    return product <= 0 && (x[1] != a[1] || x[2] != a[2]) && (x[1] != b[1] || x[2] != b[2]);
}

static bool blocked(const Set *s, const int32_t *a, const int32_t *b) {
    for (size_t k = 0; k < s->n; k++)
        if (s->points[k] != a && s->points[k] != b && blocks(a, b, s->points[k])) return true;
    return false;
}

static void drawn(Set *s, size_t most, uint32_t edition) {
    int32_t order[CHAMBERS], id = 0, wide = 4 + (int32_t)below(60);
    s->n = 1 + below(most);
    for (size_t k = 0; k < s->n; k++) {
        order[k] = (int32_t)k;
        id += 1 + (int32_t)below(9);
        s->points[k][0] = id;
        for (int axis = 1; axis < 3; axis++) s->points[k][axis] = (int32_t)below((size_t)wide) - wide / 2;
    }
    s->len = ring_sheet_len(s->n);
    HOLD(s->len <= LEN(s->sheet) && ring_pack(1, s->n, s->points[0], 3 * s->n, order, s->n, edition, s->sheet, s->len) == RING_SERVED);
}

/* ---- the books, each beside its plain list */

typedef struct {
    RingPair list[MOST], slots[MOST];
    size_t count, held;
    bool closed, came[MOST];
    RingBook book, before;
} Kept;

static Kept books[BOOKS];

static void listed(Kept *b, RingTerms terms) {
    b->count = 0;
    for (size_t j = 0; j < Q.n; j++) {
        size_t from = b->count;
        if (terms.contractor != UNDIVIDED && owners[j] != terms.contractor) continue;
        for (size_t i = 0; i < P.n; i++) {
            const int32_t *q = Q.points[j], *p = P.points[i];
            if (blocked(&Q, q, p) || blocked(&P, q, p)) continue;
            int64_t dx = q[1] - p[1], dy = q[2] - p[2];
            b->list[b->count++] = (RingPair){(uint32_t)q[0], (uint32_t)p[0], (uint64_t)(dx * dx + dy * dy)};
        }
        if (b->count - from < terms.threshold) b->count = from;
    }
}

static void begun(Kept *b, RingTerms terms) {
    RingBegun answer = ring_book_begin((RingSource){p_edition, q_edition, terms});
    HOLD(answer.number == RING_SERVED);
    listed(b, terms);
    memset(b->came, 0, sizeof b->came);
    b->held = 0, b->closed = false, b->book = b->before = answer.book;
}

static void drawn_town(void) {
    towns++;
    p_edition = 1 + (uint32_t)below(1000000000), q_edition = 1 + (uint32_t)below(1000000000);
    drawn(&P, PUMPS, p_edition);
    drawn(&Q, CHAMBERS, q_edition);
    for (size_t j = 0; j < Q.n; j++) owners[j] = (uint8_t)below(2);
    begun(&books[0], (RingTerms){0, UNDIVIDED, false, false});
    begun(&books[1], (RingTerms){2, UNDIVIDED, false, false});
    begun(&books[2], (RingTerms){0, (uint32_t)below(2), false, false});
}

static bool same_pairs(const RingPair *a, const RingPair *b, size_t count) { return memcmp(a, b, count * sizeof *a) == 0; }

/* ---- pages on their way */

static RingPage pages[PAGES];
static size_t pages_away;

static void ask(Kept *b) {
    RingTerms terms = b->book.source.terms;
    bool undivided = terms.contractor == UNDIVIDED;
    RingNext next = ring_book_next_key(b->book, b->slots, MOST);
    HOLD(next.number == RING_SERVED);
    RingRequest request = {next.key, 1 + below(below(4) ? 2 : 16), terms.threshold, terms.contractor, false};
    RingPaged answer = ring_page(P.sheet, P.len, Q.sheet, Q.len, undivided ? NULL : owners, undivided ? 0 : Q.n, request, bits, LEN(bits));
    HOLD(answer.number == RING_SERVED);
    if (below(4) == 0 || pages_away == PAGES) pages_lost++;
    else pages[pages_away++] = answer.page;
}

/* the number by which a book takes a page, of the plain list: the rules' order */
static uint32_t expected(const Kept *b, const RingPage *g) {
    RingSource mine = b->book.source, its = g->source;
    RingKey last = {b->held ? b->list[b->held - 1].q : 0, b->held ? b->list[b->held - 1].p : 0};
    if (b->closed) return RING_BOOK_CLOSED;
    if (mine.terms.contractor != its.terms.contractor) return RING_OTHER_CONTRACTOR;
    if (mine.p_edition != its.p_edition || mine.q_edition != its.q_edition) return RING_OTHER_EDITION;
    if (mine.terms.threshold != its.terms.threshold) return RING_OTHER_THRESHOLD;
    return last.q == g->key.q && last.p == g->key.p ? RING_SERVED : RING_OTHER_KEY;
}

static bool same_terms(RingTerms a, RingTerms b) { return a.threshold == b.threshold && a.contractor == b.contractor; }

static void deliver_page(bool older) {
    if (!pages_away) return;
    size_t k = below(pages_away);
    const RingPage g = pages[k];
    Kept *b = &books[0];
    for (size_t i = 0; i < BOOKS; i++)
        if (same_terms(books[i].book.source.terms, g.source.terms)) b = &books[i];
    if (below(16) == 0) b = &books[below(BOOKS)];
    uint32_t number = expected(b, &g);
    RingBook state = older && below(64) == 0 ? b->before : b->book;
    b->before = b->book;
    RingTaken answer = ring_book_take(state, b->slots, MOST, g);
    pages_came++;
    HOLD(answer.number == number);
    if (answer.number <= RING_LAST_REFUSAL) numbers[answer.number]++;
    if (number == RING_SERVED) b->held += g.count, b->closed = b->held == b->count && g.end, taken_pages++;
    b->book = answer.book;
    HOLD(b->held <= b->count && answer.book.held == b->held && answer.book.closed == b->closed);
    HOLD(same_pairs(b->slots, b->list, b->held <= b->count ? b->held : b->count));
    HOLD(!b->closed || b->held == b->count);
    if (below(2)) pages[k] = pages[--pages_away];
}

/* ---- forms on their way, and the depot beside a plain shelf */

static RingForm forms[FORMS], shelf[2 * MOST], plain[2 * MOST];
static size_t forms_away, stood;
static RingDepot depot;

static bool one_key(const RingForm *a, const RingForm *b) {
    return a->p_edition == b->p_edition && a->q_edition == b->q_edition && a->own == b->own && a->contractor == b->contractor && a->grid == b->grid && a->q == b->q && a->p == b->p;
}

static bool same_form(const RingForm *a, const RingForm *b) { return one_key(a, b) && a->size == b->size; }

static RingForm form_of(const Kept *b, size_t k) {
    return (RingForm){p_edition, q_edition, false, b->book.source.terms.contractor, false, b->list[k].q, b->list[k].p, b->list[k].size};
}

static void make_forms(Kept *b) {
    static RingForm made[MOST];
    RingMade answer = ring_forms(b->book, b->slots, MOST, made, MOST);
    HOLD(answer.number == RING_SERVED && answer.count == b->held);
    for (size_t k = 0; k < b->held; k++) {
        RingForm want = form_of(b, k);
        HOLD(same_form(&made[k], &want));
    }
    for (size_t turn = 0; b->held && turn < 8; turn++) {
        /* rather one that did not come yet */
        size_t k = below(b->held);
        while (k + 1 < b->held && b->came[k] && below(8)) k++;
        if (below(4) == 0 || forms_away == FORMS) forms_lost++;
        else forms[forms_away++] = made[k];
    }
}

static void deliver_form(void) {
    if (!forms_away) return;
    size_t k = below(forms_away), at = 0;
    const RingForm f = forms[k];
    while (at < stood && !one_key(&plain[at], &f)) at++;
    RingStored answer = ring_depot_take(depot, shelf, LEN(shelf), f);
    forms_came++;
    HOLD(answer.number == RING_SERVED && answer.issued == (at == stood));
    if (at == stood) plain[stood++] = f, orders++;
    else known++;
    depot = answer.depot;
    HOLD(depot.held == stood && same_form(&shelf[at], &plain[at]) && same_form(&shelf[stood - 1], &plain[stood - 1]));
    for (size_t i = 0; i < BOOKS; i++)
        for (size_t n = 0; n < books[i].count; n++) {
            RingForm want = form_of(&books[i], n);
            if (one_key(&want, &f)) books[i].came[n] = true;
        }
    if (below(2)) forms[k] = forms[--forms_away];
}

/* ---- a town from its begin to its end */

static bool done(void) {
    for (size_t i = 0; i < BOOKS; i++) {
        if (!books[i].closed) return false;
        for (size_t n = 0; n < books[i].count; n++)
            if (!books[i].came[n]) return false;
    }
    return true;
}

/* the depot holds every visit of every book of the town, each key once, and nothing else */
static void hold_depot(void) {
    size_t counted = books[0].count + books[2].count;
    HOLD(stood == counted && depot.held == counted);
    for (size_t at = 0; at < stood; at++) {
        HOLD(same_form(&shelf[at], &plain[at]));
        for (size_t other = 0; other < at; other++) HOLD(!one_key(&shelf[at], &shelf[other]));
    }
    for (size_t i = 0; i < BOOKS; i++)
        for (size_t n = 0; n < books[i].count; n++) {
            RingForm want = form_of(&books[i], n);
            size_t times = 0;
            for (size_t at = 0; at < depot.held; at++) times += same_form(&shelf[at], &want);
            if (times == 0) lost++;
            if (times > 1) doubled += times - 1;
            HOLD(times == 1);
        }
}

static void town(bool older) {
    drawn_town();
    stood = 0, forms_away = 0, depot = ring_depot_begin();
    while (!done() && !wrong) {
        Kept *b = &books[below(BOOKS)];
        switch (below(8)) {
        case 0:
        case 1:
            if (!b->closed) ask(b);
            break;
        case 2:
            make_forms(b);
            break;
        case 3:
            for (int turn = 0; turn < 4; turn++) deliver_form();
            break;
        default:
            for (int turn = 0; turn < 2; turn++) deliver_page(older);
        }
    }
    if (!wrong) hold_depot();
}

int main(int argc, char **argv) {
    bool older = argc == 2 && strlen(argv[1]) == 5 && memcmp(argv[1], "older", 5) == 0;
    while (pages_came + forms_came < DELIVERIES && !wrong) town(older);
    if (wrong) {
        printf("deliveries: wrong at line %lu, after %lu deliveries in %lu towns\n", first_wrong, pages_came + forms_came, towns);
        return 1;
    }
    printf("deliveries: %lu (%lu pages, %lu forms) to %lu books of %lu towns, %lu pages and %lu forms lost besides; pages: %lu taken, %lu not the next, %lu for a closed book, %lu of another list; "
           "forms: %lu issued, %lu known; lost %lu, doubled %lu\n",
           pages_came + forms_came, pages_came, forms_came, BOOKS * towns, towns, pages_lost, forms_lost, taken_pages, numbers[RING_OTHER_KEY], numbers[RING_BOOK_CLOSED],
           numbers[RING_OTHER_CONTRACTOR] + numbers[RING_OTHER_EDITION] + numbers[RING_OTHER_THRESHOLD], orders, known, lost, doubled);
    return numbers[RING_OTHER_KEY] && numbers[RING_BOOK_CLOSED] && numbers[RING_OTHER_CONTRACTOR] && numbers[RING_OTHER_EDITION] && numbers[RING_OTHER_THRESHOLD] ? 0 : 1;
}
