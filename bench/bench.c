/* Checks that the listing and its C twin list every session alike, and prints how their times compare: see README.md.
   Arguments: session files to compare on, beside the made ones. */
#include "../include/tramusquet.h"
#include "twin.h"

#include <stdio.h>
#include <stdlib.h>
#include <string.h>
#include <time.h>

enum { RULES = 5, SIZES = 3, PASSES = 40, ROUNDS = 10, WRITE = 1, CTOC = 5 };

struct size {
    unsigned boards, cells;
};

static const struct size sizes[SIZES] = {{16, 512}, {16, 1}, {2, 512}};

struct file {
    uint8_t bytes[LONGEST_FILE + RECORD];
    size_t length;
};

typedef size_t lister(const uint8_t *, size_t, uint8_t *, size_t);

static uint8_t ours[LONGEST_LISTING], twins[LONGEST_LISTING];
static unsigned compared;

/* Numbers that are the same in every run: xorshift. */
static uint32_t seed = 2463534242u;

static uint32_t below(uint32_t n) {
    seed ^= seed << 13;
    seed ^= seed >> 17;
    seed ^= seed << 5;
    return seed % n;
}

/* Comparing */

static void differ(const char *name, const char *what) {
    fprintf(stderr, "bench: %s: the two %s\n", name, what);
    exit(1);
}

/* The whole listing, in all the room, in just enough and in one byte less, with nothing changed behind it. */
static void compare(const char *name, const struct file *file) {
    memset(ours, 1, sizeof ours);
    memset(twins, 1, sizeof twins);
    size_t length = tramusquet_list(file->bytes, file->length, ours, sizeof ours);
    if (length == 0 || length != twin_list(file->bytes, file->length, twins, sizeof twins)) differ(name, "differ in length");
    if (memcmp(ours, twins, sizeof ours) != 0) differ(name, "differ");
    memset(ours, 2, sizeof ours);
    memset(twins, 2, sizeof twins);
    for (size_t room = length - 1; room <= length; room++) {
        size_t said = room < length ? 0 : length;
        if (tramusquet_list(file->bytes, file->length, ours, room) != said) differ(name, "differ in room (ours)");
        if (twin_list(file->bytes, file->length, twins, room) != said) differ(name, "differ in room (twin)");
        if (memcmp(ours, twins, sizeof ours) != 0) differ(name, "differ in what they change");
    }
    compared++;
}

/* Making sessions */

static void begin(struct file *file, unsigned rule, struct size size, uint32_t values) {
    const uint8_t head[HEAD] = {'C', 'C', 'S', 1, 0, rule, size.boards, size.cells, size.cells >> 8};
    memcpy(file->bytes, head, HEAD);
    file->length = HEAD;
    for (unsigned i = 0; i < size.cells; i++, file->length += 4) {
        uint32_t v = below(values);
        const uint8_t value[4] = {v, v >> 8, v >> 16, v >> 24};
        memcpy(file->bytes + file->length, value, 4);
    }
}

static void append(struct file *file, struct twin_action a) {
    const uint8_t record[RECORD] = {a.code, a.p, a.q, a.cell, a.cell >> 8, a.value, a.value >> 8, a.value >> 16, a.value >> 24};
    memcpy(file->bytes + file->length, record, RECORD);
    file->length += RECORD;
}

/* Records as a program would make them, values below `values`: what would be refused is mostly tried again as another, and always where
   `all_accepted`. */
static void make(struct file *file, unsigned rule, struct size size, uint32_t values, int all_accepted) {
    static const uint8_t weighted[] = {0, 0, 0, 0, 0, 1, 1, 1, 2, 3, 3, 3, 4, 4, 5, 6, 7, 7, 8, 8};
    static struct twin_table table;
    begin(file, rule, size, values);
    twin_fresh(&table, rule, size.boards, size.cells);
    for (unsigned c = 0; c < size.cells; c++) {
        const uint8_t *at = file->bytes + HEAD + 4 * c;
        table.main[c] = at[0] | at[1] << 8 | at[2] << 16 | (uint32_t)at[3] << 24;
    }
    for (unsigned i = 0; i < RECORDS;) {
        struct twin_action a = {weighted[below(sizeof weighted)], below(size.boards), 0, below(size.cells), 0};
        if (a.code == CTOC) a.q = below(size.boards);
        if (a.code == WRITE) a.value = below(values);
        if (twin_step(&table, a).number != 0 && (all_accepted || below(8) != 0)) continue;
        append(file, a);
        i++;
    }
}

/* The same records with every one malformed, so that each is read, refused with 3 at its form, and listed. */
static void malform(struct file *malformed, const struct file *file, struct size size) {
    *malformed = *file;
    for (size_t at = HEAD + 4 * size.cells; at < file->length; at += RECORD) malformed->bytes[at + (file->bytes[at] == CTOC ? 5 : 2)] = 255;
}

/* Fields that are often out of range or not 0 where they must be. */
static void make_wild(struct file *file, unsigned rule, struct size size) {
    begin(file, rule, size, 4000000000u);
    for (unsigned i = 0; i < RECORDS; i++) {
        struct twin_action a = {below(8) ? below(9) : below(256), below(size.boards + 1), 0, below(size.cells + 1), 0};
        if (a.code == CTOC ? below(8) : below(8) == 0) a.q = below(size.boards + 1);
        if (a.code == WRITE ? below(8) : below(8) == 0) a.value = below(3);
        append(file, a);
    }
}

/* Files that are refused, or nearly. */
static void compare_damaged(struct file *file) {
    static const uint8_t bytes[] = {0, 1, 2, 3, 4, 5, 16, 17, 66, 67, 83, 255};
    size_t whole = file->length;
    for (file->length = 0; file->length < 40; file->length++) compare("a file cut short", file);
    for (file->length = whole - 20; file->length <= whole + RECORD; file->length++) compare("a file of another length", file);
    file->length = whole;
    for (unsigned at = 0; at < HEAD; at++)
        for (unsigned i = 0; i < sizeof bytes; i++) {
            uint8_t was = file->bytes[at];
            file->bytes[at] = bytes[i];
            compare("a file with another head", file);
            for (unsigned behind = at + 1; behind < HEAD; behind++) {
                uint8_t stood = file->bytes[behind];
                file->bytes[behind] = 200;
                compare("a file with two bytes of the head damaged", file);
                file->bytes[behind] = stood;
            }
            file->bytes[at] = was;
        }
}

static void compare_all(char **names) {
    static struct file file, malformed;
    for (; *names; names++) {
        FILE *in = fopen(*names, "rb");
        if (!in) {
            perror(*names);
            exit(1);
        }
        file.length = fread(file.bytes, 1, sizeof file.bytes, in);
        fclose(in);
        compare(*names, &file);
    }
    for (unsigned rule = 0; rule < RULES; rule++)
        for (unsigned boards = 1; boards <= BOARDS; boards++)
            for (unsigned cells = 1; cells <= CELLS; cells = cells < 3 ? cells + 1 : cells < 17 ? 17 : cells + 495) {
                struct size size = {boards, cells};
                make(&file, rule, size, 4000000000u, 0);
                compare("a made session", &file);
                make(&file, rule, size, 3, 1);
                compare("a session of small values", &file);
                malform(&malformed, &file, size);
                compare("a malformed session", &malformed);
                make_wild(&file, rule, size);
                compare("a wild session", &file);
            }
    compare_damaged(&file);
}

/* Measuring */

static double smaller(double a, double b) { return a < b ? a : b; }

static double larger(double a, double b) { return a > b ? a : b; }

/* Nanoseconds a record. */
static double once(lister *list, const struct file *file, uint8_t *out) {
    struct timespec from, to;
    clock_gettime(CLOCK_MONOTONIC, &from);
    list(file->bytes, file->length, out, LONGEST_LISTING);
    clock_gettime(CLOCK_MONOTONIC, &to);
    return ((to.tv_sec - from.tv_sec) * 1e9 + (to.tv_nsec - from.tv_nsec)) / RECORDS;
}

struct times {
    double ours, twin;
};

/* The best of these rounds and of those before, the two in turn. */
static void measure(const struct file *file, struct times *best) {
    for (unsigned i = 0; i < ROUNDS; i++) {
        best->ours = smaller(best->ours, once(tramusquet_list, file, ours));
        best->twin = smaller(best->twin, once(twin_list, file, twins));
    }
}

/* What is measured for a rule and a size: a session of any values, one of short values that is accepted throughout, and that one malformed. */
static struct place {
    struct file any, judged, malformed;
    struct times listing, judging, refusing;
} places[RULES][SIZES];

static void prepare(struct place *place, unsigned rule, struct size size) {
    static const struct times none = {1e9, 1e9};
    make(&place->any, rule, size, 4000000000u, 0);
    make(&place->judged, rule, size, 10, 1);
    malform(&place->malformed, &place->judged, size);
    place->listing = place->judging = place->refusing = none;
}

/* What judging a record to its end costs beyond refusing it at its form; the lines are as long. */
static struct times run_of(const struct place *place) {
    return (struct times){place->judging.ours - place->refusing.ours, place->judging.twin - place->refusing.twin};
}

static double ratio(struct times t) { return t.ours / t.twin; }

static void bar(const char *what, double worst, double bar) {
    printf("%s: at most %.2f, bar %.1f%s\n", what, worst, bar, worst > bar ? ", MISSED" : "");
}

#define EACH_PLACE for (unsigned rule = 0; rule < RULES; rule++) for (unsigned i = 0; i < SIZES; i++)

static void measure_all(void) {
    EACH_PLACE prepare(&places[rule][i], rule, sizes[i]);
    for (unsigned pass = 0; pass < PASSES; pass++)
        EACH_PLACE {
            struct place *at = &places[rule][i];
            measure(&at->any, &at->listing);
            measure(&at->judged, &at->judging);
            measure(&at->malformed, &at->refusing);
        }
}

static void print_all(void) {
    double worst_listing = 0, worst_run = 0, worst_flat = 0;
    printf("nanoseconds a record, best of %d rounds\n", PASSES * ROUNDS);
    printf("                  listing                    run\n");
    printf("rule  P   N    ours   twin  ratio    ours   twin  ratio\n");
    EACH_PLACE {
        struct times listing = places[rule][i].listing, run = run_of(&places[rule][i]);
        printf("%4u %2u %3u  %6.1f %6.1f %6.2f  %6.1f %6.1f %6.2f\n", rule, sizes[i].boards, sizes[i].cells, listing.ours, listing.twin,
               ratio(listing), run.ours, run.twin, ratio(run));
        worst_listing = larger(worst_listing, ratio(listing));
        if (sizes[i].boards == 16) worst_run = larger(worst_run, ratio(run));
    }
    printf("\nlisting at P 16, a record at N 512 to one at N 1\nrule   ours   twin\n");
    for (unsigned rule = 0; rule < RULES; rule++) {
        struct times many = places[rule][0].listing, one = places[rule][1].listing;
        printf("%4u %6.2f %6.2f\n", rule, many.ours / one.ours, many.twin / one.twin);
        worst_flat = larger(worst_flat, larger(many.ours / one.ours, one.ours / many.ours));
    }
    printf("\n");
    bar("run at P 16, ours to the twin", worst_run, 1.3);
    bar("listing, ours to the twin", worst_listing, 1.6);
    bar("N 512 to N 1 or N 1 to N 512, ours", worst_flat, 1.2);
}

int main(int count, char **names) {
    (void)count;
    compare_all(names + 1);
    printf("%u sessions listed alike\n\n", compared);
    measure_all();
    print_all();
    return 0;
}
