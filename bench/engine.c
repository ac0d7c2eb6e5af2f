/* The independent engine: see engine.h. Every call reads day and book into the tables below, decides, and writes them back. */
#include "engine.h"
#include <stdbool.h>
#include <stdlib.h>
#include <string.h>

enum { PLACES = 4096, TOP_PRICE = 999999, SLOTS = 16384, SMALL = 8, SHOWN = 5 };

struct row {
    uint64_t price, shares;
};

/* The public screen. Signed numbers stand in their two's complement. */
struct screen {
    uint64_t last, high, low, shares, turnover;
    struct row rows[2][SHOWN]; /* buys, then sells, best price first */
    uint64_t price, volume, surplus;
};

struct day {
    uint64_t close, limited, time, issued, shares, turnover, first, last;
    struct screen screen;
    uint64_t halt_end, used_30, used_60; /* a halt's end, 0 while none runs, and the thresholds that have had their turn */
    uint64_t fixed_issued, fixed_shares, fixed_money, blocks_issued, blocks_shares; /* of the other two lists */
};

enum { DAY_NUMBERS = DAY_BYTES / 8 };

struct order {
    uint64_t side, account, left, price, number;
};

struct trade {
    uint64_t price, quantity, buyer, seller, buyer_left, seller_left;
};

/* The orders of one side at one price, oldest number first. */
struct level {
    uint64_t price, shares;
    int first, count; /* in the side's queue */
};

static struct day day;
static struct order places[PLACES];
static size_t place_count;
static struct level levels[2][PLACES]; /* best first */
static int level_count[2];
static int queue[2][PLACES]; /* places in priority */
static int queue_count[2];
static int slots[SLOTS]; /* place + 1 by order number */
static struct trade made[2 * PLACES];
static size_t made_count;

uint64_t engine_tries_left, engine_tries_differed, engine_undecided;

/* ---- bytes */

uint64_t number_at(const uint8_t *b, size_t i) {
    uint64_t v = 0;
    for (int k = 7; k >= 0; k--) v = v << 8 | b[8 * i + (size_t)k];
    return v;
}

void put_number(uint8_t *b, size_t i, uint64_t value) {
    for (size_t k = 0; k < 8; k++) b[8 * i + k] = (uint8_t)(value >> 8 * k);
}

/* No record has more numbers than the day. */
static void read_numbers(const uint8_t *b, size_t at, void *record, size_t count) {
    uint64_t numbers[DAY_NUMBERS];
    for (size_t i = 0; i < count; i++) numbers[i] = number_at(b, at + i);
    memcpy(record, numbers, count * sizeof numbers[0]);
}

static void write_numbers(uint8_t *b, size_t at, const void *record, size_t count) {
    uint64_t numbers[DAY_NUMBERS];
    memcpy(numbers, record, count * sizeof numbers[0]);
    for (size_t i = 0; i < count; i++) put_number(b, at + i, numbers[i]);
}

static void read_book(const uint8_t *b) {
    for (size_t p = 0; p < place_count; p++) read_numbers(b, 5 * p, &places[p], 5);
}

static void write_day(uint8_t *b) { write_numbers(b, 0, &day, DAY_NUMBERS); }


/* The refusal, and count values behind it (zeros where it refuses), as many whole numbers as the buffer holds. */
static uint64_t answer(struct lent *m, uint64_t refusal, const uint64_t *values, size_t count) {
    size_t room = m->reply_length / 8;
    for (size_t i = 0; i < room && i <= count; i++) put_number(m->reply, i, i == 0 ? refusal : refusal ? 0 : values[i - 1]);
    return refusal;
}

/* ---- the clock */

static int phase_at(uint64_t t) {
    if (t < 33300) return 0;
    if (t < 33600) return 1;
    if (t < 33900) return 2;
    if (t < 34200) return 3;
    if (t < 41400) return 4;
    if (t < 46800) return 5;
    if (t < 53820) return 4;
    if (t < 54000) return 6;
    return 0;
}

/* The phase of the day: continuous trading is phase 7 while a halt runs, the noon break stays what it is. */
static int phase_now(void) {
    int phase = phase_at(day.time);
    return phase == 4 && day.halt_end ? 7 : phase;
}

/* ---- numbers */

static uint64_t apart(uint64_t a, uint64_t b) { return a > b ? a - b : b - a; }

static bool is_price(uint64_t p) { return p >= 1 && p <= TOP_PRICE; }

static bool in_band(uint64_t p) { return 10 * p >= 7 * day.close && 10 * p <= 13 * day.close; }

/* ---- halts */

/* Ten minutes from a second on, but not past 14:57, and not into the noon break: such a halt ends at 13:00. */
static uint64_t halt_end_from(uint64_t second) {
    uint64_t end = second + 600;
    if (end > 53820) return 53820;
    return phase_at(end) == 5 ? 46800 : end;
}

/* At least so many per cent of the open above or below it. */
static bool is_away(uint64_t price, uint64_t percent) { return 100 * apart(price, day.first) >= percent * day.first; }

/* A trade at this price, at this second: each threshold that it reaches has its turn now, or has had it. */
static void look_at(uint64_t price, uint64_t second) {
    bool reaches_30 = is_away(price, 30), reaches_60 = is_away(price, 60);
    if (day.limited) return;
    if ((reaches_30 && !day.used_30) || (reaches_60 && !day.used_60)) day.halt_end = halt_end_from(second);
    if (reaches_30) day.used_30 = 1;
    if (reaches_60) day.used_60 = 1;
}

/* Some second of continuous trading up to now leads to the end that the day has. The latest are looked at first: mostly it is one
 * of them. */
static bool is_led_to(void) {
    for (uint64_t second = day.time + 1; second-- > 0;)
        if (phase_at(second) == 4 && halt_end_from(second) == day.halt_end) return true;
    return false;
}

static bool halts_sound(void) {
    if (day.used_30 > 1 || day.used_60 > 1 || (day.used_60 && !day.used_30)) return false;
    if (!day.halt_end && !day.used_30) return true;
    if (day.limited || !day.shares || !day.used_30) return false;
    return !day.halt_end || (day.halt_end > day.time && is_led_to());
}

/* ---- the hash of numbers */

static int *slot_of(uint64_t number) {
    size_t s = (size_t)(number * 11400714819323198485ull >> 50);
    while (slots[s] && places[slots[s] - 1].number != number) s = (s + 1) % SLOTS;
    return &slots[s];
}

/* ---- the order of the places */

/* Free places last, buys before sells; of a side the better price first, then the lower number. */
static int compare_orders(const void *a, const void *b) {
    const struct order *x = a, *y = b;
    if (!x->number || !y->number) return !x->number - !y->number;
    if (x->side != y->side) return x->side < y->side ? -1 : 1;
    if (x->price != y->price) return (x->price < y->price) == (x->side == 1) ? -1 : 1;
    return x->number < y->number ? -1 : x->number > y->number;
}

static void arrange(void) { qsort(places, place_count, sizeof places[0], compare_orders); }

/* Whether arranging has nothing to do. */
static bool in_order(void) {
    static struct order before[PLACES];
    memcpy(before, places, place_count * sizeof places[0]);
    arrange();
    return !memcmp(before, places, place_count * sizeof places[0]);
}

/* What an event leaves may stand anywhere in the tables: it is arranged when it is written. */
static void write_book(uint8_t *b) {
    arrange();
    for (size_t p = 0; p < place_count; p++) write_numbers(b, 5 * p, &places[p], 5);
}

void arrange_book(uint8_t *book, size_t count) {
    place_count = count;
    read_book(book);
    write_book(book);
}

/* ---- levels */

/* Of a book that is arranged. */
static void build_levels(void) {
    queue_count[0] = queue_count[1] = 0;
    for (size_t p = 0; p < place_count; p++)
        if (places[p].number && places[p].side <= 1) queue[places[p].side][queue_count[places[p].side]++] = (int)p;
    for (int s = 0; s < 2; s++) {
        level_count[s] = 0;
        for (int i = 0; i < queue_count[s]; i++) {
            const struct order *o = &places[queue[s][i]];
            if (!level_count[s] || levels[s][level_count[s] - 1].price != o->price)
                levels[s][level_count[s]++] = (struct level){o->price, 0, i, 0};
            levels[s][level_count[s] - 1].shares += o->left;
            levels[s][level_count[s] - 1].count++;
        }
    }
}

static uint64_t best(int side) { return level_count[side] ? levels[side][0].price : 0; }

/* ---- the auction's price */

/* Neighbouring prices that have the same demand and supply. */
struct stretch {
    uint64_t low, high, demand, supply;
    bool qualifies;
};

static struct stretch stretches[4 * PLACES + 2];
static int stretch_count;

static uint64_t shares_where(int side, uint64_t low, uint64_t high) {
    uint64_t sum = 0;
    for (int i = 0; i < queue_count[side]; i++) {
        const struct order *o = &places[queue[side][i]];
        if (o->price >= low && o->price <= high) sum += o->left;
    }
    return sum;
}

static uint64_t smaller(uint64_t a, uint64_t b) { return a < b ? a : b; }

static int compare_numbers(const void *a, const void *b) {
    uint64_t x = *(const uint64_t *)a, y = *(const uint64_t *)b;
    return x < y ? -1 : x > y;
}

/* Every price on an order is a stretch of its own, and so are the prices between two neighbours: nothing changes there. */
static void cut_stretches(void) {
    static uint64_t prices[2 * PLACES];
    size_t n = 0;
    for (int s = 0; s < 2; s++)
        for (int l = 0; l < level_count[s]; l++) prices[n++] = levels[s][l].price;
    qsort(prices, n, sizeof prices[0], compare_numbers);
    uint64_t next = 1;
    stretch_count = 0;
    for (size_t i = 0; i < n; i++) {
        if (i && prices[i] == prices[i - 1]) continue;
        if (next < prices[i]) stretches[stretch_count++] = (struct stretch){next, prices[i] - 1, 0, 0, false};
        stretches[stretch_count++] = (struct stretch){prices[i], prices[i], 0, 0, false};
        next = prices[i] + 1;
    }
    if (next <= TOP_PRICE) stretches[stretch_count++] = (struct stretch){next, TOP_PRICE, 0, 0, false};
}

/* Demand falls level by level as the price rises, and supply grows. */
static void fill_stretches(void) {
    uint64_t demand = shares_where(0, 1, TOP_PRICE), supply = 0;
    int buy = level_count[0] - 1, sell = 0;
    for (int k = 0; k < stretch_count; k++) {
        struct stretch *t = &stretches[k];
        while (buy >= 0 && levels[0][buy].price < t->low) {
            demand -= levels[0][buy].shares;
            buy--;
        }
        while (sell < level_count[1] && levels[1][sell].price <= t->low) {
            supply += levels[1][sell].shares;
            sell++;
        }
        t->demand = demand;
        t->supply = supply;
    }
}

static bool qualifies(uint64_t p, uint64_t most) {
    uint64_t above = shares_where(0, p + 1, TOP_PRICE), at_buy = shares_where(0, p, p);
    uint64_t below = p > 1 ? shares_where(1, 1, p - 1) : 0, at_sell = shares_where(1, p, p);
    uint64_t volume = smaller(above + at_buy, below + at_sell);
    if (volume < 1 || volume < most) return false;
    if (above > volume || below > volume) return false;
    return above + at_buy <= volume || below + at_sell <= volume;
}

static void try_all_prices(uint64_t most) {
    bool same = true;
    int k = 0;
    for (uint64_t p = 1; p <= TOP_PRICE; p++) {
        while (stretches[k].high < p) k++;
        if (smaller(shares_where(0, p, TOP_PRICE), shares_where(1, 1, p)) > most) same = false;
        if (qualifies(p, most) != stretches[k].qualifies) same = false;
    }
    engine_tries_left--;
    if (!same) engine_tries_differed++;
}

/* Finds the qualifying stretches. The most volume comes first: only where it is reached are the other conditions looked at. Returns
 * the most volume. */
static uint64_t find_stretches(void) {
    uint64_t most = 0;
    cut_stretches();
    fill_stretches();
    for (int k = 0; k < stretch_count; k++) {
        uint64_t v = smaller(stretches[k].demand, stretches[k].supply);
        if (v > most) most = v;
    }
    for (int k = 0; k < stretch_count; k++) {
        struct stretch *t = &stretches[k];
        t->qualifies = most && smaller(t->demand, t->supply) == most && qualifies(t->low, most);
    }
    return most;
}

/* The same, and on some small books every price is tried too. */
static void survey(void) {
    uint64_t most = find_stretches();
    if (queue_count[0] + queue_count[1] <= SMALL && engine_tries_left) try_all_prices(most);
}

static uint64_t gap(const struct stretch *t) { return apart(t->demand, t->supply); }

/* The price that the tie rules leave, 0 where none qualifies, and how many they leave. */
static uint64_t clearing_price(int *left, const struct stretch **at) {
    uint64_t least = UINT64_MAX, nearest = UINT64_MAX, price = 0, to = day.last ? day.last : day.close;
    *left = 0;
    *at = NULL;
    for (int k = 0; k < stretch_count; k++)
        if (stretches[k].qualifies && gap(&stretches[k]) < least) least = gap(&stretches[k]);
    for (int k = 0; k < stretch_count; k++) {
        const struct stretch *t = &stretches[k];
        if (!t->qualifies || gap(t) != least) continue;
        uint64_t p = to < t->low ? t->low : to > t->high ? t->high : to;
        if (apart(p, to) < nearest) {
            nearest = apart(p, to);
            *left = 0;
            *at = t;
            price = p;
        }
        if (apart(p, to) == nearest) ++*left;
    }
    return price;
}

/* The tie rules leave exactly one price wherever buys reach sells. */
static void count_undecided(int left) {
    if (best(0) && best(1) && best(0) >= best(1) && left != 1) engine_undecided++;
}

/* ---- the screen */

/* A fresh count over the levels and the day. What the highest and the lowest price were, book and day don't tell. */
static struct screen count_screen(uint64_t high, uint64_t low) {
    struct screen s = {.last = day.last, .high = high, .low = low, .shares = day.shares, .turnover = day.turnover};
    int phase = phase_now(), left;
    if (day.time >= 55800) s.shares += day.fixed_shares + day.blocks_shares, s.turnover += day.fixed_money;
    for (int side = 0; side < 2; side++)
        for (int l = 0; l < level_count[side] && l < SHOWN; l++)
            s.rows[side][l] = (struct row){levels[side][l].price, levels[side][l].shares};
    if (phase != 1 && phase != 2 && phase != 6) return s;
    const struct stretch *at;
    find_stretches();
    s.price = clearing_price(&left, &at);
    if (at) s.volume = smaller(at->demand, at->supply), s.surplus = at->demand - at->supply;
    return s;
}

static bool encloses(uint64_t low, uint64_t high, uint64_t price) { return low <= price && price <= high; }

static bool screen_sound(void) {
    const struct screen *s = &day.screen, counted = count_screen(s->high, s->low);
    if (memcmp(s, &counted, sizeof counted)) return false;
    if (!day.shares) return !s->high && !s->low;
    return encloses(s->low, s->high, day.first) && encloses(s->low, s->high, day.last);
}

/* After an event: the day's first trade begins high and low, each further one may move them. */
static void renew_screen(void) {
    uint64_t high = day.screen.high, low = day.screen.low;
    for (size_t t = 0; t < made_count; t++) {
        bool begins = t == 0 && !day.screen.last;
        if (begins || made[t].price > high) high = made[t].price;
        if (begins || made[t].price < low) low = made[t].price;
    }
    arrange();
    build_levels();
    day.screen = count_screen(high, low);
}

void mend_screen(uint8_t *of, const uint8_t *book, size_t count) {
    if (count > PLACES) return;
    place_count = count;
    read_numbers(of, 0, &day, DAY_NUMBERS);
    read_book(book);
    build_levels();
    uint64_t high = day.screen.high, low = day.screen.low;
    if (high < day.first) high = day.first;
    if (high < day.last) high = day.last;
    if (low > day.first) low = day.first;
    if (low > day.last) low = day.last;
    day.screen = day.shares ? count_screen(high, low) : count_screen(0, 0);
    write_day(of);
}

/* ---- soundness */

static bool place_sound(size_t p) {
    const struct order *o = &places[p];
    if (!o->side && !o->account && !o->left && !o->price && !o->number) return true;
    if (o->side > 1 || !o->account || o->left < 1 || o->left > 1000000) return false;
    if (!is_price(o->price) || (day.limited && !in_band(o->price))) return false;
    if (o->number < 1 || o->number > day.issued) return false;
    int *slot = slot_of(o->number);
    if (*slot) return false;
    *slot = (int)p + 1;
    return true;
}

static bool figures_sound(void) { return is_price(day.close) && day.limited <= 1 && day.time <= 86399 && day.issued <= 999999; }

/* What the day says of the other two lists. Nothing trades at the fixed price before 15:05, and all that does at the close. */
static bool evening_sound(void) {
    unsigned __int128 shares = day.fixed_shares, money = day.fixed_money;
    if (day.fixed_issued > 999999 || day.blocks_issued > 999999) return false;
    if (2 * shares > 1000000 * day.fixed_issued || day.blocks_shares > 50000000 * day.blocks_issued) return false;
    return money == shares * (day.last ? day.last : day.close) && (day.time >= 54300 || !shares);
}

static bool totals_sound(void) {
    unsigned __int128 resting = 0, shares = day.shares, turnover = day.turnover;
    for (size_t p = 0; p < place_count; p++) resting += places[p].left;
    if (2 * shares + resting > (unsigned __int128)1000000 * day.issued) return false;
    if (turnover < shares || turnover > TOP_PRICE * shares) return false;
    if (!day.shares) return !day.first && !day.last;
    return is_price(day.first) && is_price(day.last);
}

/* Reads day and book, and says whether they are sound. Builds levels and hash where they are. */
static bool load(const struct lent *m) {
    made_count = 0;
    place_count = m->book_length / 40;
    if (m->day_length != DAY_BYTES || place_count < 1 || place_count > PLACES) return false;
    read_numbers(m->day, 0, &day, DAY_NUMBERS);
    read_book(m->book);
    memset(slots, 0, sizeof slots);
    if (!figures_sound() || !halts_sound()) return false;
    for (size_t p = 0; p < place_count; p++)
        if (!place_sound(p)) return false;
    if (!in_order()) return false;
    build_levels();
    bool empty = !queue_count[0] && !queue_count[1];
    if ((day.time < 33300 || day.time >= 54000) && !empty) return false;
    bool may_cross = day.time < 33900 || day.time > 53819 || day.halt_end;
    if (!may_cross && best(0) && best(1) && best(0) >= best(1)) return false;
    return totals_sound() && evening_sound() && screen_sound();
}

/* ---- trades */

static void take_off(int place, uint64_t quantity) {
    places[place].left -= quantity;
    if (!places[place].left) memset(&places[place], 0, sizeof places[place]);
}

static void trade(struct trade t) {
    made[made_count++] = t;
    day.shares += t.quantity;
    day.turnover += t.price * t.quantity;
    day.last = t.price;
    if (!day.first) day.first = t.price;
}

/* What an accepted event leaves. */
static void write_all(struct lent *m) {
    renew_screen();
    write_day(m->day);
    write_book(m->book);
    for (size_t t = 0; t < made_count; t++) write_numbers(m->list, 6 * t, &made[t], 6);
}

static bool too_many_trades(const struct lent *m) { return made_count > m->list_length / TRADE_BYTES; }

/* ---- opening */

uint64_t engine_open(struct lent *m, const uint64_t *asked) {
    size_t count = m->book_length / 40;
    bool fits = m->day_length == DAY_BYTES && count >= 1 && count <= PLACES;
    if (!fits || !is_price(asked[0]) || asked[1] > 1) return answer(m, 14, NULL, 0);
    memset(m->book, 0, 40 * count);
    day = (struct day){.close = asked[0], .limited = asked[1]};
    write_day(m->day);
    return answer(m, 0, NULL, 0);
}

/* ---- orders */

struct wish {
    uint64_t side, kind, account, quantity, price, balance;
};

/* Who sells less than 100 shares sells all that the account has of them. Who buys has no balance to name. */
static bool quantity_passes(const struct wish *w) {
    if (w->side == 0 && w->balance) return false;
    if (w->quantity < 100) return w->side == 1 && w->quantity && w->quantity == w->balance;
    return w->quantity <= 1000000;
}

static bool in_range(const struct wish *w) {
    int own = (int)w->side, other = 1 - own;
    uint64_t base = best(other) ? best(other) : best(own) ? best(own) : day.last ? day.last : day.close;
    if (own == 0) return 100 * w->price <= 105 * base || w->price <= base + 10;
    return 100 * w->price >= 95 * base || w->price + 10 >= base;
}

/* A free place, whichever: the book is arranged afterwards. */
static int any_free(void) {
    for (size_t p = 0; p < place_count; p++)
        if (!places[p].number) return (int)p;
    return -1;
}

static uint64_t order_refusal(const struct wish *w) {
    int phase = phase_now();
    if (w->side > 1 || w->kind > 4) return 2;
    if (!w->account) return 3;
    if (phase != 1 && phase != 2 && phase != 4 && phase != 6 && phase != 7) return 4;
    if (w->kind && (phase != 4 || !day.limited)) return 5;
    if (!quantity_passes(w)) return 6;
    if (!is_price(w->price)) return 7;
    if (day.limited && !in_band(w->price)) return 8;
    if (!w->kind && phase == 4 && !in_range(w)) return 9;
    if (any_free() < 0) return 10;
    if (day.issued == 999999) return 11;
    return 0;
}

/* The less eager of two prices of a side: the lower for a buy, the higher for a sell. */
static uint64_t calmer(uint64_t side, uint64_t p, uint64_t q) { return (p < q) == (side == 0) ? p : q; }

/* Trades against the other side's levels, at most so many, up to a limit. Returns what is left. */
static uint64_t match(const struct wish *w, uint64_t limit, int most_levels, uint64_t *level_total) {
    int other = 1 - (int)w->side;
    uint64_t left = w->quantity;
    *level_total = 0;
    for (int l = 0; l < level_count[other] && l < most_levels && left; l++) {
        struct level *at = &levels[other][l];
        if (w->side == 0 ? at->price > limit : at->price < limit) break;
        ++*level_total;
        for (int i = at->first; i < at->first + at->count && left; i++) {
            int place = queue[other][i];
            struct order rests = places[place];
            uint64_t q = rests.left < left ? rests.left : left;
            left -= q;
            if (w->side == 0)
                trade((struct trade){at->price, q, day.issued, rests.number, left, rests.left - q});
            else
                trade((struct trade){at->price, q, rests.number, day.issued, rests.left - q, left});
            take_off(place, q);
        }
    }
    return left;
}

/* The price at which an order rests that has traded up to its limit, 0 where what is left is withdrawn. */
static uint64_t rest_price(const struct wish *w, uint64_t limit, uint64_t own_best) {
    if (w->kind == 3) return 0;
    if (w->kind != 4) return limit;
    if (made_count) return made[made_count - 1].price;
    return own_best ? calmer(w->side, own_best, w->price) : 0;
}

uint64_t engine_order(struct lent *m, const uint64_t *asked) {
    struct wish w = {asked[0], asked[1], asked[2], asked[3], asked[4], asked[5]};
    if (!load(m)) return answer(m, 15, NULL, 5);
    uint64_t refusal = order_refusal(&w);
    if (refusal) return answer(m, refusal, NULL, 5);
    uint64_t own_best = best((int)w.side), other_best = best(1 - (int)w.side);
    uint64_t limit = w.price, left = w.quantity, used = 0, resting = 0;
    bool goes = true;
    if (w.kind == 1 || w.kind == 2) {
        uint64_t aim = w.kind == 1 ? other_best : own_best;
        goes = aim != 0;
        if (goes) limit = calmer(w.side, aim, w.price);
    }
    day.issued++;
    if (goes && phase_now() == 4) left = match(&w, limit, w.kind >= 3 ? 5 : PLACES, &used);
    if (too_many_trades(m)) return answer(m, 13, NULL, 5);
    uint64_t price = goes ? rest_price(&w, limit, own_best) : 0;
    if (left && price) {
        resting = left;
        places[any_free()] = (struct order){w.side, w.account, left, price, day.issued};
    }
    for (size_t t = 0; t < made_count; t++) look_at(made[t].price, day.time);
    write_all(m);
    uint64_t values[] = {day.issued, w.quantity - left, resting, left - resting, used};
    return answer(m, 0, values, 5);
}

/* ---- cancels */

uint64_t engine_cancel(struct lent *m, const uint64_t *asked) {
    if (!load(m)) return answer(m, 15, NULL, 1);
    int phase = phase_now();
    if (phase != 1 && phase != 4 && phase != 7) return answer(m, 4, NULL, 1);
    int *slot = slot_of(asked[1]);
    if (!*slot || !asked[1] || places[*slot - 1].account != asked[0]) return answer(m, 12, NULL, 1);
    uint64_t shares = places[*slot - 1].left;
    memset(&places[*slot - 1], 0, sizeof places[0]);
    write_all(m);
    return answer(m, 0, &shares, 1);
}

/* ---- auctions that are held */

/* Both sides in priority, cut to the volume: the two heads trade the smaller remainder. */
static void pair(uint64_t price, uint64_t volume) {
    int b = 0, s = 0;
    while (volume) {
        int buy = queue[0][b], sell = queue[1][s];
        uint64_t buyer = places[buy].number, seller = places[sell].number;
        uint64_t q = smaller(volume, smaller(places[buy].left, places[sell].left));
        take_off(buy, q);
        take_off(sell, q);
        trade((struct trade){price, q, buyer, seller, places[buy].left, places[sell].left});
        if (!places[buy].left) b++;
        if (!places[sell].left) s++;
        volume -= q;
    }
}

/* Holds an auction on the loaded book. */
static void hold(void) {
    int left;
    const struct stretch *at;
    arrange();
    build_levels();
    survey();
    uint64_t price = clearing_price(&left, &at);
    count_undecided(left);
    if (price) pair(price, smaller(at->demand, at->supply));
}

/* The first second after this one at which something happens. */
static uint64_t next_stop(uint64_t after) {
    uint64_t stops[] = {33900, 54000, day.halt_end}, next = UINT64_MAX;
    for (int i = 0; i < 3; i++)
        if (stops[i] > after && stops[i] < next) next = stops[i];
    return next;
}

/* A halt is over before its auction is held; the auction's price may begin another, but not at 14:57. */
static void stop_at(uint64_t second) {
    size_t before = made_count;
    bool ends_halt = second == day.halt_end;
    if (ends_halt) day.halt_end = 0;
    hold();
    if (ends_halt && made_count > before && second != 53820) look_at(made[before].price, second);
    if (second == 54000) memset(places, 0, place_count * sizeof places[0]);
}

uint64_t engine_clock(struct lent *m, const uint64_t *asked) {
    uint64_t time = asked[0];
    if (!load(m)) return answer(m, 15, NULL, 2);
    if (time > 86399 || time < day.time) return answer(m, 1, NULL, 2);
    for (uint64_t stop; (stop = next_stop(day.time)) <= time; day.time = stop) stop_at(stop);
    if (too_many_trades(m)) return answer(m, 13, NULL, 2);
    day.time = time;
    write_all(m);
    uint64_t values[] = {(uint64_t)phase_now(), made_count};
    return answer(m, 0, values, 2);
}

uint64_t engine_report(struct lent *m, const uint64_t *asked) {
    (void)asked;
    int left;
    const struct stretch *at;
    if (!load(m)) return answer(m, 15, NULL, 3);
    survey();
    uint64_t price = clearing_price(&left, &at);
    count_undecided(left);
    uint64_t values[] = {price, at ? smaller(at->demand, at->supply) : 0, at ? at->demand - at->supply : 0};
    return answer(m, 0, values, 3);
}

uint64_t engine_list(struct lent *m, const uint64_t *asked) {
    if (!load(m)) return answer(m, 15, NULL, 2);
    survey();
    uint64_t room = m->list_length / 8, values[] = {0, 0};
    for (int k = 0; k < stretch_count && !values[1]; k++) {
        const struct stretch *t = &stretches[k];
        if (!t->qualifies) continue;
        for (uint64_t p = t->low < asked[0] ? asked[0] : t->low; p <= t->high; p++) {
            if (values[0] == room) {
                values[1] = p;
                break;
            }
            put_number(m->list, values[0]++, p);
        }
    }
    return answer(m, 0, values, 2);
}
