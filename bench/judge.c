/* The judge a second time, written from the paper: each order's fills added up in 128 bits and compared with what priority grants
 * it; and the lists of claims with which both judges are asked: right ones, nearly right ones, and random ones. */
#include "compare.h"
#include "runs.h"
#include <stdio.h>
#include <stdlib.h>
#include <string.h>

enum { PLACES = 4096, CLAIM_BYTES = 24, MOST_CLAIMS = LONGEST / CLAIM_BYTES };

struct seat {
    uint64_t side, left, price, number, granted;
    unsigned __int128 claimed;
};

struct claim {
    uint64_t shares, buyer, seller;
};

static struct seat seats[PLACES];
static size_t seat_count;

static int by_number(const void *a, const void *b) {
    const struct seat *x = a, *y = b;
    return (x->number > y->number) - (x->number < y->number);
}

/* Buys before sells, the better price first, then the lower number. */
static int by_priority(const void *a, const void *b) {
    const struct seat *x = a, *y = b;
    if (x->side != y->side) return x->side < y->side ? -1 : 1;
    if (x->price != y->price) return (x->price < y->price) == (x->side == 1) ? -1 : 1;
    return by_number(a, b);
}

/* The live orders of a sound book in priority, each with its part of the volume. */
static void grant_all(const struct lent *m, uint64_t volume) {
    uint64_t left[2] = {volume, volume};
    seat_count = 0;
    for (size_t p = 0; p < m->book_length / 40; p++) {
        struct seat s = {number_at(m->book, 5 * p), number_at(m->book, 5 * p + 2), number_at(m->book, 5 * p + 3), number_at(m->book, 5 * p + 4), 0, 0};
        if (s.number) seats[seat_count++] = s;
    }
    qsort(seats, seat_count, sizeof seats[0], by_priority);
    for (size_t i = 0; i < seat_count; i++) {
        uint64_t *rest = &left[seats[i].side];
        seats[i].granted = seats[i].left < *rest ? seats[i].left : *rest;
        *rest -= seats[i].granted;
    }
}

/* What the day would clear at now: 15, or price and volume. */
static uint64_t cleared(const struct lent *m, uint64_t *price, uint64_t *volume) {
    uint8_t told[32];
    struct lent asked = *m;
    asked.reply = told;
    asked.reply_length = sizeof told;
    uint64_t refusal = engine_report(&asked, NULL);
    *price = number_at(told, 1);
    *volume = number_at(told, 2);
    return refusal;
}

static struct claim claim_at(const struct lent *m, size_t i) {
    return (struct claim){number_at(m->list, 3 * i), number_at(m->list, 3 * i + 1), number_at(m->list, 3 * i + 2)};
}

static struct seat *of_number(uint64_t number, uint64_t side) {
    struct seat key = {.number = number};
    struct seat *s = bsearch(&key, seats, seat_count, sizeof seats[0], by_number);
    return s && s->side == side ? s : NULL;
}

static int agrees(const struct lent *m, uint64_t volume) {
    grant_all(m, volume);
    qsort(seats, seat_count, sizeof seats[0], by_number);
    for (size_t i = 0; i < m->list_length / CLAIM_BYTES; i++) {
        struct claim c = claim_at(m, i);
        struct seat *buyer = of_number(c.buyer, 0), *seller = of_number(c.seller, 1);
        if (!c.shares || !buyer || !seller) return 0;
        buyer->claimed += c.shares;
        seller->claimed += c.shares;
    }
    for (size_t i = 0; i < seat_count; i++)
        if (seats[i].claimed != seats[i].granted) return 0;
    return 1;
}

uint64_t engine_judge(struct lent *m, const uint64_t *asked) {
    uint64_t price, volume, refusal = cleared(m, &price, &volume);
    uint64_t yes = !refusal && asked[0] == price && agrees(m, volume);
    if (m->reply_length >= 8) put_number(m->reply, 0, refusal);
    if (m->reply_length >= 16) put_number(m->reply, 1, yes);
    return refusal;
}

/* ---- lists of claims */

static uint64_t (*chance)(uint64_t n);
static struct claim claims[MOST_CLAIMS];
static size_t count;

enum { RIGHT, CUT, TURNED, MOVED, EXCHANGED, NO_SHARES, DEAD, NUMBER_0, FEN_OFF, PRICE_0, WRAPS, SHORT, ANY, KINDS };

static const char *const kinds[KINDS] = {"right",          "right, a trade cut in two", "right, from the end", "one share moved",
                                         "fills exchanged", "a trade of 0 shares",       "a dead order",        "order 0",
                                         "one fen off",     "price 0",                   "sums that wrap",      "one trade too few",
                                         "anything"};

static uint64_t asked_of[KINDS], yes_to[KINDS], none_left;

/* What the granted parts come to, the heads of both sides taken off each other. */
static void right_claims(uint64_t volume) {
    grant_all(&lent, volume);
    size_t b = 0, s = 0;
    while (s < seat_count && seats[s].side == 0) s++;
    for (count = 0; volume; count++) {
        while (!seats[b].granted) b++;
        while (!seats[s].granted) s++;
        uint64_t q = seats[b].granted < seats[s].granted ? seats[b].granted : seats[s].granted;
        claims[count] = (struct claim){q, seats[b].number, seats[s].number};
        seats[b].granted -= q;
        seats[s].granted -= q;
        volume -= q;
    }
}

static struct claim any_claim(void) {
    uint64_t buyer = seat_count ? seats[chance(seat_count)].number : chance(9), seller = seat_count ? seats[chance(seat_count)].number : chance(9);
    return (struct claim){chance(3) ? 1 + chance(2000) : UINT64_MAX - chance(3), buyer, seller};
}

/* Makes the list one of that kind; returns 0 where it has not the claims for it. */
static int spoil(int kind, uint64_t *price) {
    size_t i = count ? chance(count) : 0, j = count ? chance(count) : 0;
    switch (kind) {
    case RIGHT: return 1;
    case CUT:
        if (!count || claims[i].shares < 2) return 0;
        claims[count] = claims[i];
        claims[count].shares = 1 + chance(claims[i].shares - 1);
        claims[i].shares -= claims[count++].shares;
        return 1;
    case TURNED:
        for (size_t k = 0; k < count / 2; k++) {
            struct claim c = claims[k];
            claims[k] = claims[count - 1 - k];
            claims[count - 1 - k] = c;
        }
        return 1;
    case MOVED:
        if (!count || claims[i].buyer == claims[j].buyer) return 0;
        claims[i].shares--;
        claims[j].shares++;
        return 1;
    case EXCHANGED:
        if (!count || claims[i].shares == claims[j].shares || claims[i].buyer == claims[j].buyer) return 0;
        {
            uint64_t buyer = claims[i].buyer;
            claims[i].buyer = claims[j].buyer;
            claims[j].buyer = buyer;
        }
        return 1;
    case NO_SHARES:
        if (!count) return 0;
        claims[count] = claims[i];
        claims[count++].shares = 0;
        return 1;
    case DEAD:
        if (!count) return 0;
        claims[i].seller = chance(2) ? 1000000 + chance(5) : claims[i].buyer;
        return 1;
    case NUMBER_0:
        if (!count) return 0;
        claims[i].buyer = 0;
        return 1;
    case FEN_OFF: *price += chance(2) || !*price ? 1 : UINT64_MAX; return 1;
    case PRICE_0: return *price ? (*price = 0, 1) : 0;
    case WRAPS:
        if (!count) return 0;
        claims[count] = claims[count + 1] = claims[i];
        claims[count].shares = claims[count + 1].shares = UINT64_C(1) << 63;
        count += 2;
        return 1;
    case SHORT: return count ? (count--, 1) : 0;
    default:
        count = chance(4);
        for (size_t k = 0; k < count; k++) claims[k] = any_claim();
        return 1;
    }
}

static void ask(uint64_t seed, int kind, uint64_t price) {
    for (size_t i = 0; i < count; i++) {
        put_number(lent.list, 3 * i, claims[i].shares);
        put_number(lent.list, 3 * i + 1, claims[i].buyer);
        put_number(lent.list, 3 * i + 2, claims[i].seller);
    }
    lend(lent.day_length, lent.book_length, CLAIM_BYTES * count + chance(CLAIM_BYTES), 16 + chance(9));
    uint64_t asked[ASKED] = {price};
    if (compare(seed, JUDGE, asked)) return;
    uint64_t yes = number_at(lent.reply, 1);
    asked_of[kind]++;
    yes_to[kind] += yes;
    if (kind <= TURNED) expect(kinds[kind], yes, 1);
    if (kind > TURNED && kind < ANY) expect(kinds[kind], yes, 0);
}

void judge_lists(uint64_t seed, uint64_t (*draw)(uint64_t n)) {
    uint64_t price, volume;
    chance = draw;
    keep_memory();
    if (!cleared(&lent, &price, &volume)) {
        none_left += !price;
        for (int kind = 0; kind < KINDS; kind++) {
            uint64_t claimed = price;
            right_claims(volume);
            if (spoil(kind, &claimed)) ask(seed, kind, claimed);
        }
    }
    restore_memory();
}

void print_judged(void) {
    for (int kind = 0; kind < KINDS; kind++)
        printf("judged, %s: %llu lists, %llu yes\n", kinds[kind], (unsigned long long)asked_of[kind], (unsigned long long)yes_to[kind]);
    printf("judged with no price left: %llu books\n", (unsigned long long)none_left);
    int every = none_left > 0;
    for (int kind = 0; kind < KINDS; kind++) every = every && asked_of[kind];
    expect("every kind of list was judged", (uint64_t)every, 1);
}
