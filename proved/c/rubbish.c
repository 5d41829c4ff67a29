/* Calls every exported function with rubbish: tables of any length and contents, and counts, darts, dimensions, axes and sides up to the
   highest. Each call must return, answer by a number that documents 01 and 02 have for it, and write nothing but what it may write.
   A table ends where a page begins that can be neither read nor written, and stands behind a margin that is looked at afterwards. */
#define _GNU_SOURCE
#include <stdint.h>
#include <stdio.h>
#include <stdlib.h>
#include <string.h>
#include <sys/mman.h>
#include <unistd.h>

#include "laremban.h"

enum { TURNS = 100000, ROWS = 24, MARGIN = 64, REGION = 1 << 16, SECONDS = 60 };
enum { LINKS = LAREMBAN_LINKS, PLACES = LAREMBAN_COORDINATES, SPANS = LAREMBAN_SPAN_NUMBERS, OBJECTS = LAREMBAN_OBJECTS, WORK = LAREMBAN_WORK };
enum { DARTS = LAREMBAN_DARTS, PER_SPAN = (SPANS - 1) / LAREMBAN_SPANS };
enum { REPLY = LAREMBAN_REPLY_BYTES, INPUT = LAREMBAN_PROGRAM_BYTES, TEXT = LAREMBAN_TEXT_BYTES, COMMAND = LAREMBAN_COMMAND_NUMBERS };

/* ---- numbers */
static uint64_t seed = 1;

static uint64_t bits(void) { /* splitmix64 */
    uint64_t z = seed += 0x9e3779b97f4a7c15;
    z = (z ^ (z >> 30)) * 0xbf58476d1ce4e5b9;
    z = (z ^ (z >> 27)) * 0x94d049bb133111eb;
    return z ^ (z >> 31);
}

static size_t below(size_t n) { return n ? bits() % n : 0; }
static int chance(size_t percent) { return below(100) < percent; }

/* Mostly below n, and else a number at which sums and products wrap, or at which a limit lies. */
static size_t any(size_t n) {
    static const size_t high[] = {SIZE_MAX, SIZE_MAX - 1, SIZE_MAX / 2 + 1, SIZE_MAX / LINKS, SIZE_MAX / SPANS + 1, 65536, 65535, 16385, 16384};
    return chance(75) ? below(n) : chance(50) ? high[below(sizeof high / sizeof *high)] : bits() >> below(64);
}

static uint8_t any_byte(size_t n) { return (uint8_t)(chance(80) ? below(n) : bits()); }

/* ---- tables */
typedef struct { unsigned char *end, *start, *before; size_t size, length; } Table;
enum { LINK, PLACE, SPAN, WORKS, OL, OP, OO, V, OUT, MEMORY, BYTES, LIST, REPLIES, TEXTS, TABLES };
static Table table[TABLES];
static size_t turn;

static void fail(const char *what) {
    printf("rubbish: turn %zu: %s\n", turn, what);
    exit(1);
}

static void lend(Table *t, size_t size, size_t length) {
    if (!t->end) {
        unsigned char *region = mmap(NULL, REGION + getpagesize(), PROT_READ | PROT_WRITE, MAP_PRIVATE | MAP_ANONYMOUS, -1, 0);
        if (region == MAP_FAILED || mprotect(region + REGION, getpagesize(), PROT_NONE)) fail("no memory");
        t->end = region + REGION;
        t->before = malloc(REGION);
        if (!t->before) fail("no memory");
    }
    t->size = size, t->length = length, t->start = t->end - size * length;
    for (unsigned char *p = t->start - MARGIN; p < t->end; p++) *p = (unsigned char)bits();
}

static size_t any_length(size_t width) { return chance(60) ? width * below(ROWS + 1) : chance(50) ? below(4) : below(width * ROWS); }
static uint8_t *u8(int i) { return table[i].start; }
static uint16_t *u16(int i) { return (uint16_t *)table[i].start; }
static int32_t *i32(int i) { return (int32_t *)table[i].start; }
static size_t len(int i) { return table[i].length; }

static void copy_all(void) {
    for (int i = 0; i < TABLES; i++) memcpy(table[i].before, table[i].start - MARGIN, table[i].end - table[i].start + MARGIN);
}

/* From number `from` on, and in its margin, the table is as it was. */
static void kept(int i, size_t from, const char *what) {
    const Table *t = &table[i];
    size_t behind = MARGIN + from * t->size;
    if (memcmp(t->before, t->start - MARGIN, MARGIN)) fail("written before a table");
    if (memcmp(t->before + behind, t->start - MARGIN + behind, (t->length - from) * t->size)) fail(what);
}

/* A number of a row of spans by its place: how many, or ends in order, or any object, now and then one of more bits than an object has. */
static int32_t any_in_row(size_t place) {
    if (!place) return (int32_t)below(9);
    if (place % PER_SPAN) return (int32_t)(place * 3 + below(3));
    return chance(1) && chance(20) ? (int32_t)bits() : (int32_t)(bits() & 0xffff);
}

/* Darts at one place, with spans in order, free but for one axis; then some bytes are rubbish. */
static void make_plan(uint8_t *dimension, size_t *count) {
    for (size_t i = 0; i < len(LINK); i++) u16(LINK)[i] = (uint16_t)(i / LINKS);
    memset(table[PLACE].start, 0, len(PLACE) * 4);
    for (size_t i = 0; i < len(SPAN); i++) i32(SPAN)[i] = any_in_row(i % SPANS);
    size_t axis = below(LINKS);
    for (size_t d = 0; chance(90) && len(LINK) / LINKS > d + 1 && len(SPAN) / SPANS > d + 1; d += 2) { /* two darts with one row, linked along an axis */
        u16(LINK)[d * LINKS + axis] = (uint16_t)(d + 1), u16(LINK)[(d + 1) * LINKS + axis] = (uint16_t)d;
        memcpy(i32(SPAN) + (d + 1) * SPANS, i32(SPAN) + d * SPANS, SPANS * 4);
    }
    *count = below(ROWS);
    if (chance(80)) *dimension = (uint8_t)(1 + below(5));
    for (size_t n = chance(50) ? below(4) : 0; n; n--) {
        int i = (int)below(3);
        size_t d = below(len(LINK) / LINKS), e = below(len(LINK) / LINKS), j = below(LINKS);
        if (chance(40) && len(LINK) >= LINKS) u16(LINK)[d * LINKS + j] = (uint16_t)e, chance(60) ? u16(LINK)[e * LINKS + j] = (uint16_t)d : 0;
        else if (len(i)) table[i].start[below(len(i) * table[i].size)] = (unsigned char)bits();
    }
}

/* Commands with operands that are mostly small, from the start of the list, the last one cut off; or with rubbish or DARTs behind them. */
static void make_list(void) {
    static const size_t operands[] = {1, 0, 5, 3, 7, 10, 2, 0, 0, 2, 12};
    uint8_t *p = u8(LIST), *end = table[LIST].end;
    if (end - p >= 2) *p++ = 0x10, *p++ = (uint8_t)(1 + below(4));
    for (size_t n = below(6); n && p < end; n--) *p++ = 0x11;
    for (size_t n = below(60); n; n--) {
        size_t kind = below(sizeof operands / sizeof *operands);
        if (kind == 0 && chance(80)) kind = 1;
        if (p < end) *p++ = (uint8_t)(0x10 + kind);
        for (size_t i = operands[kind]; i && p < end; i--) *p++ = (uint8_t)(chance(97) ? i % 2 ? below(5) : 0 : bits());
    }
    if (chance(30)) memset(p, 0x11, (size_t)(end - p));
}

/* ---- answers */
static size_t met[24], lifts, replied[24], ended[24], texts;

static void number_in(uint8_t number, const char *allowed, const char *what) { /* allowed has 1 at each number that the call may answer by */
    if (number >= strlen(allowed) || allowed[number] != '1') fail(what);
    met[number]++;
}

static void plan_kept(void) {
    kept(LINK, 0, "links written"), kept(PLACE, 0, "places written"), kept(SPAN, 0, "spans written"), kept(WORKS, len(WORKS), "");
}

/* ---- calls: what is handed to all of them, and each with what it may answer and write */
static struct { uint8_t dimension, axis, side; size_t count, dart, at; } in;

#define RAW u16(LINK), len(LINK), i32(PLACE), len(PLACE), i32(SPAN), len(SPAN), u16(WORKS), len(WORKS), in.dimension, in.count

/* Refusals 6 to 11 tell a dart, and no other tells a value. */
static void value_of(LarembanAnswer a, const char *what) {
    if (a.number >= 6 && a.number <= 11 ? a.value >= in.count : a.number && a.value) fail(what);
}

static void draw(void) {
    static const size_t width[TABLES] = {LINKS, PLACES, SPANS, WORK, 16 * LINKS, 16 * PLACES, 16 * OBJECTS, 16 * WORK, 1, 2, 1, 16, 8, 16};
    static const size_t size[TABLES] = {2, 4, 4, 2, 2, 4, 2, 2, 2, 4, 1, 1, 1, 1};
    int whole = chance(60);
    for (int i = 0; i < TABLES; i++) lend(&table[i], size[i], whole && i < OL ? width[i] * ROWS : any_length(width[i]));
    if (chance(1)) lend(&table[LIST], 1, INPUT + below(2));
    if (chance(5)) lend(&table[TEXTS], 1, TEXT - chance(20) + below(3) * chance(50));
    if (chance(80)) make_list();
    in.dimension = any_byte(7), in.axis = any_byte(7), in.side = any_byte(3);
    in.count = any(ROWS + 1), in.dart = any(ROWS + 1), in.at = any(len(BYTES) + 2);
    if (chance(60)) make_plan(&in.dimension, &in.count);
    copy_all();
}

/* Nothing can be handed to it: whatever the calls before it met, it answers the same. */
static void call_version(void) {
    if (laremban_version() != LAREMBAN_VERSION) fail("version: another than the header's");
    for (int i = 0; i < TABLES; i++) kept(i, 0, "version: written");
}

static void call_row(void) {
    size_t copied = laremban_row(u16(LINK), len(LINK), u16(OL), len(OL), in.side, in.dart, u16(OUT), len(OUT));
    if (copied != 0 && copied != LINKS) fail("row: neither six numbers nor none");
    kept(OUT, copied, "row: written past the row"), kept(LINK, 0, "row: links written"), kept(OL, 0, "row: lifted links written");
}

static void call_looseness(void) {
    LarembanLooseness a = laremban_looseness(u16(LINK), len(LINK), in.dimension, in.dart);
    number_in(a.number, "10011", "looseness: a number that it has not");
    if (a.ones != (uint32_t)__builtin_popcount(a.bits) || (a.number && a.bits)) fail("looseness: bits");
    kept(LINK, 0, "looseness: links written");
}

static void call_decode(void) {
    size_t next = laremban_decode(table[BYTES].start, len(BYTES), in.at, i32(MEMORY), len(MEMORY));
    if (next > len(BYTES)) fail("decode: a place past the bytes");
    kept(MEMORY, len(MEMORY) < COMMAND ? 0 : COMMAND, "decode: written past five numbers"), kept(BYTES, 0, "decode: bytes written");
    copy_all();
}

static void call_check(void) {
    LarembanAnswer a = laremban_check(RAW);
    number_in(a.number, "100110111111", "check: a number that it has not");
    value_of(a, "check: value"), plan_kept(), kept(WORKS, 0, "check: work written");
}

static void call_pieces(void) {
    LarembanPairs a = laremban_pieces(RAW, in.dart, in.axis, i32(MEMORY), len(MEMORY));
    number_in(a.number, "100110111111000000001", "pieces: a number that it has not");
    if ((a.number && a.pairs) || a.pairs > len(MEMORY) / 2) fail("pieces: pairs");
    plan_kept(), kept(MEMORY, 2 * a.pairs, "pieces: written past the pairs");
}

static void call_lift(void) {
    LarembanAnswer a = laremban_lift(RAW, u16(OL), len(OL), i32(OP), len(OP), u16(OO), len(OO), u16(V), len(V));
    number_in(a.number, "10011011111100000000101", "lift: a number that it has not");
    value_of(a, "lift: value"), plan_kept(), kept(V, len(V), "");
    kept(OL, a.number ? 0 : len(OL), "lift: refused, and links written"), kept(OP, a.number ? 0 : len(OP), "lift: refused, and places written");
    kept(OO, a.number ? 0 : len(OO), "lift: refused, and objects written");
    if (!a.number && a.value * OBJECTS > len(OO)) fail("lift: more darts than objects");
    for (size_t i = a.value * OBJECTS; !a.number && i < len(OO); i++)
        if (u16(OO)[i]) fail("lift: an object past the last dart");
    lifts += !a.number && a.value;
}

static void call_cells(void) {
    LarembanAnswer a = laremban_cells(RAW, in.axis);
    number_in(a.number, "100110111111", "cells: a number that it has not");
    value_of(a, "cells: value"), plan_kept();
    if (!a.number && a.value > in.count) fail("cells: more than darts");
}

static void call_counts(void) {
    LarembanAnswer a = laremban_counts(RAW, u16(OUT), len(OUT));
    number_in(a.number, "100110111111000000001", "counts: a number that it has not");
    value_of(a, "counts: value"), plan_kept();
    if (!a.number && a.value != in.dimension + 1) fail("counts: not a number for each axis");
    kept(OUT, a.number ? 0 : a.value, "counts: written past the counts, or refused and written");
    for (size_t i = 0; !a.number && i < a.value; i++)
        if (u16(OUT)[i] > in.count) fail("counts: more than darts");
}

/* The replies are as many as commands were taken, and the numbers in them are counted as the run counts them. */
static void replies_of(LarembanEnded a) {
    size_t accepted = 0;
    for (size_t i = 0; i < a.taken; i++) {
        const uint8_t *reply = u8(REPLIES) + REPLY * i;
        if (*reply >= 23 || (*reply >= 6 && *reply <= 11)) fail("run: a number that no command is replied to by");
        if (*reply ? reply[1] || reply[2] : reply[1] * 256 + reply[2] > DARTS) fail("run: value");
        if ((*reply == 1 || *reply == 2) && (i + 1 < a.taken || *reply != a.number)) fail("run: goes on after 1 or 2");
        accepted += !*reply, replied[*reply]++;
    }
    if (accepted != a.accepted || a.refused != a.taken - accepted) fail("run: counts");
}

static void call_run(void) {
    LarembanEnded a = laremban_run(u8(LIST), len(LIST), u16(LINK), len(LINK), i32(PLACE), len(PLACE), i32(SPAN), len(SPAN), u16(WORKS), len(WORKS),
                           u16(OL), len(OL), i32(OP), len(OP), u16(OO), len(OO), u16(V), len(V), u8(REPLIES), len(REPLIES));
    if (a.number > 2 && a.number != 23) fail("run: a number that it has not");
    if (a.taken > len(REPLIES) / REPLY || a.taken > len(LIST)) fail("run: more commands than replies or bytes");
    if (a.number == 23 && a.taken != len(REPLIES) / REPLY) fail("run: 23 while there is room");
    ended[a.number]++, replies_of(a);
    for (int i = LINK; i <= V; i++) kept(i, len(i), "");
    kept(LIST, 0, "run: bytes written"), kept(REPLIES, REPLY * a.taken, "run: written past the replies");
}

static void call_liftrun(void) {
    size_t length = laremban_liftrun(u8(LIST), len(LIST), u8(TEXTS), len(TEXTS));
    if (length > len(TEXTS) || (length > 0) != (len(TEXTS) >= TEXT)) fail("liftrun: length");
    if (length && u8(TEXTS)[length - 1] != '\n') fail("liftrun: no line at the end");
    if (length && (len(LIST) > INPUT) != (length == 5 && !memcmp(u8(TEXTS), "long\n", 5))) fail("liftrun: long");
    texts += length > 0;
    kept(LIST, 0, "liftrun: bytes written"), kept(TEXTS, length, "liftrun: written past the text");
}

static void enough(const size_t *count, const int *numbers, size_t length) {
    for (size_t i = 0; i < length; i++)
        if (count[numbers[i]] < TURNS / 1000) fail("a number of a refusal is hardly met");
}

int main(void) {
    alarm(SECONDS);
    for (turn = 0; turn < TURNS; turn++) {
        draw(), call_version(), call_row(), call_looseness(), call_decode(), call_check(), call_pieces(), call_lift(), call_cells();
        call_counts(), call_liftrun(), call_run();
    }
    static const int numbers[] = {0, 3, 4, 6, 7, 8, 9, 10, 11, 20, 22};
    static const int replies[] = {0, 1, 2, 3, 4, 5, 12, 13, 14, 15, 16, 17, 18, 20, 21, 22};
    static const int ends[] = {0, 1, 2, 23};
    enough(met, numbers, sizeof numbers / sizeof *numbers);
    enough(replied, replies, sizeof replies / sizeof *replies);
    enough(ended, ends, sizeof ends / sizeof *ends);
    if (lifts < TURNS / 200) fail("hardly a lift is accepted");
    if (texts < TURNS / 200) fail("hardly a text is written");
    printf("rubbish: %d turns, every call returned; %zu lifts were accepted\n", TURNS, lifts);
    return 0;
}
