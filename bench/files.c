/* A day file read a second time, written from the paper: block after block, and the records of each as it says how many it has; and the
 * files with which both readers are asked: right ones, ones with one fault, and ones damaged anyhow, with lists of every length. The
 * file stands where the other calls have the book. */
#include "compare.h"
#include "runs.h"
#include <stdio.h>
#include <string.h>

enum { BLOCK = 512, RECORD = 20, FULL = 25, HEAD = 8, CHECKED = 508, MOST_RECORDS = LONGEST / BLOCK * FULL };

/* ---- the reader */

static uint64_t worth(const uint8_t *b, size_t n) { return n ? b[0] + 256 * worth(b + 1, n - 1) : 0; }

static uint64_t check_of(const uint8_t *block) {
    uint64_t sum = 0;
    for (uint64_t position = 1; position <= CHECKED; position++) sum += position * block[position - 1];
    return sum % 65521;
}

static int all_zero(const uint8_t *from, const uint8_t *to) {
    while (from < to && !*from) from++;
    return from == to;
}

/* How many of its four numbers a record of a kind uses. */
static const size_t used[5] = {0, 2, 1, 4, 2};

static int is_record(const uint8_t *r) {
    if (r[0] < 1 || r[0] > 4 || r[3]) return 0;
    if (r[0] != 3 && (r[1] || r[2])) return 0;
    return all_zero(r + 4 + 4 * used[r[0]], r + RECORD);
}

static size_t records_in(const uint8_t *block) { return worth(block + 4, 2); }

static uint64_t refusal_of(const uint8_t *block, size_t place, size_t whole) {
    size_t n = records_in(block);
    if (worth(block + CHECKED, 4) != check_of(block)) return 24;
    if (worth(block, 4) != place) return 25;
    if (n < 1 || n > FULL || (n < FULL && place < whole) || block[6] || block[7]) return 26;
    for (size_t i = 0; i < n; i++)
        if (!is_record(block + HEAD + RECORD * i)) return 26;
    return all_zero(block + HEAD + RECORD * n, block + CHECKED) ? 0 : 26;
}

/* Appends a block's records to the list while there is room for a whole one; returns how many it has. */
static size_t list_block(const uint8_t *block, uint8_t *list, size_t *filled, size_t length) {
    size_t n = records_in(block);
    for (size_t i = 0; i < n && *filled + RECORD <= length; i++, *filled += RECORD)
        memcpy(list + *filled, block + HEAD + RECORD * i, RECORD);
    return n;
}

uint64_t engine_read_file(struct lent *m, const uint64_t *asked) {
    (void)asked;
    size_t whole = m->book_length / BLOCK, filled = 0;
    uint64_t refusal = 0, records = 0;
    for (size_t p = 0; p < whole && !refusal; p++) refusal = refusal_of(m->book + BLOCK * p, p + 1, whole);
    if (!refusal && m->book_length % BLOCK) refusal = 26;
    for (size_t p = 0; p < whole && !refusal; p++) records += list_block(m->book + BLOCK * p, m->list, &filled, m->list_length);
    if (m->reply_length >= 8) put_number(m->reply, 0, refusal);
    if (m->reply_length >= 16) put_number(m->reply, 1, records);
    return refusal;
}

/* ---- files */

static uint64_t (*chance)(uint64_t n);
static uint8_t made[MOST_RECORDS * RECORD]; /* the records of the file that is lent, in a row */
static size_t count, length;                /* how many they are, and the file's bytes */

static void put_bytes(uint8_t *b, size_t n, uint64_t value) {
    for (size_t i = 0; i < n; i++, value /= 256) b[i] = (uint8_t)value;
}

static void seal(uint8_t *block) { put_bytes(block + CHECKED, 4, check_of(block)); }

static void make_record(uint8_t *r) {
    static const uint64_t edges[] = {0, 1, 100, 1000, 34200, 65536, UINT32_MAX};
    memset(r, 0, RECORD);
    r[0] = (uint8_t)(1 + chance(4));
    if (r[0] == 3) put_bytes(r + 1, 2, chance(65536));
    for (size_t i = 0; i < used[r[0]]; i++) put_bytes(r + 4 + 4 * i, 4, chance(2) ? edges[chance(7)] : chance(UINT32_MAX));
}

static uint8_t *block_at(size_t p) { return lent.book + BLOCK * p; }

static void make_file(size_t records) {
    count = records;
    length = (records + FULL - 1) / FULL * BLOCK;
    memset(lent.book, 0, length);
    for (size_t i = 0; i < records; i++) {
        uint8_t *block = block_at(i / FULL);
        make_record(made + RECORD * i);
        memcpy(block + HEAD + i % FULL * RECORD, made + RECORD * i, RECORD);
        put_bytes(block, 4, i / FULL + 1);
        put_bytes(block + 4, 2, i % FULL + 1);
    }
    for (size_t p = 0; p < length / BLOCK; p++) seal(block_at(p));
}

enum { RIGHT, BYTE, CHECK, NUMBER, EXCHANGED, LOST, NONE_IN, TOO_MANY, SHORT, HEAD_BYTE, NO_KIND, SIDE, BYTE_3, UNUSED, BEHIND, TAIL, CUT, ANY, FAULTS };

static const struct {
    const char *name;
    uint64_t refusal;
} faults[FAULTS] = {
    [RIGHT] = {"right", 0},
    [BYTE] = {"one byte changed", 24},
    [CHECK] = {"a check that is one off", 24},
    [NUMBER] = {"another block number", 25},
    [EXCHANGED] = {"two blocks exchanged", 25},
    [LOST] = {"a block lost", 25},
    [NONE_IN] = {"a block that says 0 records", 26},
    [TOO_MANY] = {"a block that says more than 25", 26},
    [SHORT] = {"a short block in between", 26},
    [HEAD_BYTE] = {"byte 6 or 7 not zero", 26},
    [NO_KIND] = {"a record of no kind", 26},
    [SIDE] = {"a side where there is no order", 26},
    [BYTE_3] = {"byte 3 of a record not zero", 26},
    [UNUSED] = {"a number that is not used", 26},
    [BEHIND] = {"a byte behind the last record", 26},
    [TAIL] = {"a tail", 26},
    [CUT] = {"the last block cut", 26},
    [ANY] = {"damaged anyhow", 0},
};

static uint8_t *any_record(uint8_t *block) { return block + HEAD + RECORD * chance(records_in(block)); }

/* Damages any bytes, with the checks made right again in about every other file. */
static void damage_anyhow(void) {
    for (uint64_t k = 1 + chance(4); k; k--) lent.book[chance(length)] = (uint8_t)chance(256);
    if (chance(2))
        for (size_t p = 0; p < length / BLOCK; p++) seal(block_at(p));
}

/* Gives the file a fault of that kind; returns 0 where it has not the blocks or records for it. */
static int spoil(int fault) {
    size_t blocks = length / BLOCK, last = blocks - 1;
    if (fault == RIGHT) return 1;
    if (fault == TAIL) {
        size_t more = 1 + chance(BLOCK - 1);
        if (length + more > LONGEST) return 0;
        memset(lent.book + length, chance(2) ? 0 : 1, more);
        length += more;
        return 1;
    }
    if (!blocks) return 0;
    size_t p = chance(blocks);
    uint8_t *block = block_at(p), *record = any_record(block);
    switch (fault) {
    case BYTE: lent.book[chance(length)] ^= (uint8_t)(1 + chance(255)); return 1;
    case CHECK: put_bytes(block + CHECKED, 4, worth(block + CHECKED, 4) + 1); return 1;
    case NUMBER: put_bytes(block, 4, chance(2) ? p : (p + 1) | UINT32_C(1) << 31); break;
    case EXCHANGED:
        if (!p) return 0;
        put_bytes(block, 4, p);
        put_bytes(block_at(p - 1), 4, p + 1);
        seal(block_at(p - 1));
        break;
    case LOST:
        if (p == last) return 0;
        memmove(block, block + BLOCK, length - BLOCK * (p + 1));
        length -= BLOCK;
        return 1;
    case NONE_IN:
        put_bytes(block + 4, 2, 0);
        memset(block + HEAD, 0, CHECKED - HEAD);
        break;
    case TOO_MANY: put_bytes(block + 4, 2, chance(2) ? FULL + 1 : 256 + records_in(block)); break;
    case SHORT:
        if (p == last) return 0;
        put_bytes(block + 4, 2, FULL - 1);
        memset(block + HEAD + RECORD * (FULL - 1), 0, RECORD);
        break;
    case HEAD_BYTE: block[6 + chance(2)] = (uint8_t)(1 + chance(255)); break;
    case NO_KIND: record[0] = (uint8_t)(chance(2) ? 0 : 5 + chance(251)); break;
    case SIDE:
        if (record[0] == 3) return 0;
        record[1 + chance(2)] = 1;
        break;
    case BYTE_3: record[3] = 1; break;
    case UNUSED:
        if (record[0] == 3) return 0;
        record[4 + 4 * used[record[0]] + chance(16 - 4 * used[record[0]])] = 1;
        break;
    case BEHIND:
        block = block_at(last);
        if (records_in(block) == FULL) return 0;
        block[HEAD + RECORD * records_in(block) + chance(RECORD * (FULL - records_in(block)))] = 1;
        break;
    case CUT: length -= 1 + chance(BLOCK - 1); return 1;
    default: damage_anyhow(); return 1;
    }
    seal(block);
    return 1;
}

/* ---- lists, and what is asked */

enum { JUST, BYTE_SHORT, BYTE_MORE, NOTHING, HALF, AMPLE, LISTS };

static const char *const lists[LISTS] = {"just long enough", "a byte too short", "a byte longer", "of less than a record", "for some of them", "longer"};

static size_t list_length(int list) {
    size_t all = RECORD * count;
    switch (list) {
    case JUST: return all;
    case BYTE_SHORT: return all ? all - 1 : 0;
    case BYTE_MORE: return all + 1;
    case NOTHING: return chance(RECORD);
    case HALF: return chance(all + 1);
    default: return all + chance(200);
    }
}

static const size_t counts[] = {0, 1, 2, 24, 25, 26, 49, 50, 51, 75, 76, 250, MOST_RECORDS};
enum { COUNTS = sizeof counts / sizeof counts[0] };

static uint64_t asked_of[FAULTS], asked_with[LISTS], asked_for[COUNTS], refused[3];

static void ask(uint64_t seed, int fault, int list) {
    lend(0, length, list_length(list), chance(4) ? 16 + chance(9) : chance(16));
    for (size_t i = 0; i < lent.list_length; i++) lent.list[i] = (uint8_t)chance(256);
    uint64_t asked[ASKED] = {0}, refusal = compare(seed, READ_FILE, asked);
    asked_of[fault]++;
    if (refusal) refused[refusal - 24]++;
    if (fault != ANY) expect(faults[fault].name, refusal, faults[fault].refusal);
    if (fault != RIGHT) return;
    size_t fit = lent.list_length / RECORD < count ? lent.list_length / RECORD : count;
    asked_with[list]++;
    expect("the list has the records that were made", memcmp(lent.list, made, RECORD * fit) == 0, 1);
    if (lent.reply_length >= 16) expect("as many records as were made", number_at(lent.reply, 1), count);
}

void read_files(uint64_t seed, uint64_t (*draw)(uint64_t n)) {
    chance = draw;
    size_t which = chance(16) ? chance(COUNTS - 1) : COUNTS - 1;
    lend(0, 0, 0, 0);
    for (int list = 0; list < LISTS; list++) {
        make_file(counts[which]);
        ask(seed, RIGHT, list);
    }
    for (int fault = RIGHT + 1; fault < FAULTS; fault++) {
        make_file(counts[which]);
        if (spoil(fault)) ask(seed, fault, (int)chance(LISTS));
    }
    asked_for[which]++;
}

static int often(const char *what, const char *kind, uint64_t times, uint64_t least) {
    printf("%s, %s: %llu files\n", what, kind, (unsigned long long)times);
    return times >= least;
}

void print_files(void) {
    int enough = 1;
    char number[32];
    for (int fault = 0; fault < FAULTS; fault++) enough &= often("read", faults[fault].name, asked_of[fault], 200);
    for (int list = 0; list < LISTS; list++) enough &= often("into a list", lists[list], asked_with[list], 800);
    for (int i = 0; i < 3; i++) {
        snprintf(number, sizeof number, "with %d", 24 + i);
        enough &= often("refused", number, refused[i], 1000);
    }
    for (size_t i = 0; i < COUNTS; i++) {
        snprintf(number, sizeof number, "of %zu", counts[i]);
        enough &= often("records", number, asked_for[i], 20);
    }
    expect("every kind of file was read often enough", (uint64_t)enough, 1);
}
