/* The listing in plain C, written for speed from docs/REFERENCE.md. It judges all that the page says a step judges; nothing of it is proved. */
#include "twin.h"

#include <string.h>

enum { READ, WRITE, BARRIER, MTOC, CTOM, CTOC, DROP, ACQUIRE, RELEASE };

static inline unsigned le16(const uint8_t *at) { return at[0] | at[1] << 8; }

static inline uint32_t le32(const uint8_t *at) { return le16(at) | (uint32_t)le16(at + 2) << 16; }

void twin_fresh(struct twin_table *table, unsigned rule, unsigned boards, unsigned cells) {
    table->rule = rule;
    table->boards = boards;
    table->cells = cells;
    memset(table->copies, 0, sizeof *table->copies * boards * cells);
    memset(table->masks, 0, sizeof *table->masks * 3 * cells);
}

/* "A sound cell": the masks as whole words, then one pass over the copies. */
static inline int sound(unsigned rule, unsigned boards, uint32_t current, const uint32_t *copies, unsigned live, unsigned dirty, unsigned lock) {
    unsigned bad = (live | dirty | lock) >> boards | (dirty & ~live);
    if (rule >= 1) bad |= dirty & (dirty - 1);
    if (rule <= 2) bad |= lock;
    else bad |= (lock & (lock - 1)) | (lock ? live & ~lock : 0);
    if (rule == 4) bad |= dirty & ~lock;
    if (bad) return 0;
    uint32_t differs = 0;
    if (rule <= 1)
        for (unsigned p = 0; p < boards; p++) differs |= copies[p] & ((live >> p & 1) - 1);
    else
        for (unsigned p = 0; p < boards; p++) differs |= copies[p] ^ (live >> p & 1 ? current : 0);
    return differs == 0;
}

static inline struct twin_answer refused(unsigned number) { return (struct twin_answer){number, 0}; }

static inline struct twin_answer step(struct twin_table *table, struct twin_action action) {
    unsigned rule = table->rule, boards = table->boards, code = action.code, p = action.p, q = action.q, c = action.cell;
    if (code > 8 || (code != CTOC && q != 0) || (code != WRITE && action.value != 0)) return refused(3);
    if (code == BARRIER ? rule != 0 : code >= ACQUIRE && rule <= 2) return refused(4);
    if (p >= boards || q >= boards) return refused(5); /* q is 0 here under any code but CtoC */
    if (c >= table->cells) return refused(6);

    uint32_t *main = table->main + c, *copies = table->copies + c * boards;
    uint16_t *masks = table->masks + 3 * c;
    unsigned live = masks[0], dirty = masks[1], lock = masks[2], board = 1u << p;
    uint32_t current = dirty ? copies[__builtin_ctz(dirty)] : *main;
    if (!sound(rule, boards, current, copies, live, dirty, lock)) return refused(7);

    switch (code) {
    case READ:
        if (!(live & board)) return refused(8);
        if (rule == 1 && copies[p] != current) return refused(15);
        return (struct twin_answer){0, copies[p]};
    case WRITE:
        if (rule == 1 && !(dirty & board) && dirty) return refused(11);
        if (rule == 2 && live & ~board) return refused(12);
        if (rule >= 3 && !(lock & board)) return refused(14);
        copies[p] = action.value;
        masks[0] = live | board;
        masks[1] = dirty | board;
        break;
    case BARRIER:
        if (live & board) return refused(16);
        break;
    case MTOC:
        if (dirty & board) return refused(9);
        if ((rule == 2 || rule == 3) && dirty) return refused(11); /* p is not dirty here, so another board is */
        if (rule >= 3 && lock & ~board) return refused(13);
        copies[p] = *main;
        masks[0] = live | board;
        break;
    case CTOM:
        if (!(dirty & board)) return refused(10);
        *main = copies[p];
        masks[1] = dirty & ~board;
        break;
    case CTOC:
        if (rule >= 3 && lock) return refused(13);
        if (dirty >> q & 1) return refused(9);
        if (!(live & board)) return refused(8);
        copies[q] = copies[p];
        masks[0] = live | 1u << q;
        break;
    case DROP:
        if (dirty & board) return refused(9);
        copies[p] = 0;
        masks[0] = live & ~board;
        break;
    case ACQUIRE:
        if (lock) return refused(13);
        if (live & ~board) return refused(12);
        masks[2] = lock | board;
        break;
    case RELEASE:
        if (rule == 4 && dirty & board) return refused(9);
        masks[2] = lock & ~board;
        break;
    }
    return refused(0); /* accepted, with the value 0 */
}

struct twin_answer twin_step(struct twin_table *table, struct twin_action action) { return step(table, action); }

/* "Reading": the number that refuses the file, or 0. */
static unsigned refusal(const uint8_t *file, size_t length) {
    if (length < HEAD) return 19;
    if (file[0] != 'C' || file[1] != 'C' || file[2] != 'S') return 17;
    if (le16(file + 3) != 1) return 18;
    unsigned boards = file[6], cells = le16(file + 7);
    if (boards < 1 || boards > BOARDS || cells < 1 || cells > CELLS) return 1;
    if (file[5] > 4) return 2;
    if (length < HEAD + 4 * cells) return 19;
    size_t behind = length - HEAD - 4 * cells;
    return behind % RECORD != 0 || behind > RECORD * RECORDS ? 19 : 0;
}

/* The decimal digits of `n` and one byte behind them; where that ends. */
static inline uint8_t *put(uint8_t *out, uint32_t n, uint8_t behind) {
    if (n < 10) {
        *out++ = '0' + n;
    } else {
        uint8_t digits[10];
        unsigned at = 10;
        do digits[--at] = '0' + n % 10;
        while (n /= 10);
        do *out++ = digits[at];
        while (++at < 10);
    }
    *out++ = behind;
    return out;
}

/* The listing at `out`, which has room for any; its length. */
static size_t list(const uint8_t *file, size_t length, uint8_t *out) {
    uint8_t *end = out;
    unsigned number = refusal(file, length);
    if (number) {
        memcpy(end, "refused ", 8);
        return put(end + 8, number, '\n') - out;
    }

    struct twin_table table;
    uint32_t latest[CELLS];
    unsigned rule = file[5], boards = file[6], cells = le16(file + 7);
    twin_fresh(&table, rule, boards, cells);
    for (unsigned c = 0; c < cells; c++) table.main[c] = latest[c] = le32(file + HEAD + 4 * c);
    end = put(put(put(end, rule, ' '), boards, ' '), cells, '\n');

    const uint8_t *record = file + HEAD + 4 * cells;
    unsigned records = (file + length - record) / RECORD, accepted = 0, stale = 0;
    for (unsigned i = 0; i < records; i++, record += RECORD) {
        struct twin_action action = {record[0], record[1], record[2], le16(record + 3), le32(record + 5)};
        struct twin_answer answer = step(&table, action);
        if (answer.number == 0) {
            accepted++;
            if (action.code == WRITE) latest[action.cell] = action.value;
        }
        end = put(put(put(put(end, i, ' '), action.code, ' '), answer.number, ' '), answer.value, '\n');
    }

    for (unsigned c = 0; c < cells; c++)
        for (unsigned live = table.masks[3 * c]; live; live &= live - 1)
            stale += table.copies[c * boards + __builtin_ctz(live)] != latest[c];
    return put(put(put(end, records, ' '), accepted, ' '), stale, '\n') - out;
}

size_t twin_list(const uint8_t *file, size_t file_length, uint8_t *out, size_t out_length) {
    if (out_length >= LONGEST_LISTING) return list(file, file_length, out);
    uint8_t room[LONGEST_LISTING];
    size_t length = list(file, file_length, room);
    if (length > out_length) return 0;
    memcpy(out, room, length);
    return length;
}
