/* Uses every exported call in the ordinary way, as a program in C would, and tests what comes back. A square parcel with two storeys, of which the upper one
   belongs to an object, is built by a list of commands; then it is checked, counted, asked for its pieces and lifted by the calls. */
#include <stdio.h>
#include <stdlib.h>
#include <string.h>

#include "laremban.h"

enum { SIDES = 4, DARTS = 2 * SIDES, ROOM = 100, SOLID_DARTS = 96, FLAT = 2, SOLID = 3, OWNER = 0xBEEF };
enum { COMMANDS = 60, BYTES = 400, REPLIES = COMMANDS * LAREMBAN_REPLY_BYTES };

#define EXPECT(fact) expect(fact, #fact, __LINE__)

static void expect(int holds, const char *fact, int line) {
    if (holds) return;
    printf("uses: line %d: not so: %s\n", line, fact);
    exit(1);
}

/* ---- the tables */

static uint16_t links[DARTS * LAREMBAN_LINKS], work[DARTS * LAREMBAN_WORK];
static int32_t places[DARTS * LAREMBAN_COORDINATES], spans[DARTS * LAREMBAN_SPAN_NUMBERS];
static uint16_t lifted_links[ROOM * LAREMBAN_LINKS], lifted_objects[ROOM * LAREMBAN_OBJECTS], lifted_work[ROOM * LAREMBAN_WORK];
static int32_t lifted_places[ROOM * LAREMBAN_COORDINATES];
static const int32_t no_spans[ROOM * LAREMBAN_SPAN_NUMBERS] = {0};

#define LENGTH(table) (sizeof(table) / sizeof *(table))
#define LENT(table) table, LENGTH(table)
#define PLAN LENT(links), LENT(places), LENT(spans), LENT(work)
#define LIFTED LENT(lifted_links), LENT(lifted_places), LENT(lifted_objects), LENT(lifted_work)

/* ---- the list of commands */

static uint8_t list[BYTES];
static size_t list_length, commands;
#define LENT_LIST list, list_length

/* Adds a number of so many bytes, the highest first. */
static void put(uint32_t number, int bytes) {
    for (int i = bytes - 1; i >= 0; i--) list[list_length++] = (uint8_t)(number >> 8 * i);
}

static void command(uint8_t kind) { put(kind, 1), commands++; }
static void sew(uint8_t axis, uint16_t a, uint16_t b) { command(LAREMBAN_COMMAND_SEW), put(axis, 1), put(a, 2), put(b, 2); }
static void place(uint16_t dart, uint8_t axis, int32_t at) { command(LAREMBAN_COMMAND_PLACE), put(dart, 2), put(axis, 1), put((uint32_t)at, 4); }
static void ends(uint16_t dart, int32_t lo, int32_t hi) { put(dart, 2), put((uint32_t)lo, 4), put((uint32_t)hi, 4); }
static void span(uint16_t dart, int32_t lo, int32_t hi) { command(LAREMBAN_COMMAND_SPAN), ends(dart, lo, hi); }
static void span_of(uint16_t dart, int32_t lo, int32_t hi, uint16_t object) { command(LAREMBAN_COMMAND_SPAN_OF), ends(dart, lo, hi), put(object, 2); }

/* A square from (0, 0) to (8, 6). Darts 2e and 2e + 1 are the ends of side e, which begins at corner e. */
static void write_list(void) {
    command(LAREMBAN_COMMAND_NEW), put(FLAT, 1);
    for (int d = 0; d < DARTS; d++) command(LAREMBAN_COMMAND_DART);
    for (uint16_t e = 0; e < SIDES; e++) sew(0, (uint16_t)(2 * e), (uint16_t)(2 * e + 1));
    for (uint16_t e = 0; e < SIDES; e++) sew(1, (uint16_t)(2 * e + 1), (uint16_t)((2 * e + 2) % DARTS));
    place(2, 0, 8), place(4, 0, 8), place(4, 1, 6), place(6, 1, 6);
    span(0, -3, 0), span_of(0, 0, 3, OWNER);
}

/* ---- the calls */

static void version(void) { EXPECT(laremban_version() == LAREMBAN_VERSION); }

static void run(void) {
    static uint8_t replies[REPLIES];
    write_list();
    LarembanEnded ended = laremban_run(LENT_LIST, PLAN, LIFTED, LENT(replies));
    EXPECT(ended.number == LAREMBAN_ACCEPTED && ended.refused == 0);
    EXPECT(ended.taken == commands && ended.accepted == commands);
    const uint8_t *last = replies + LAREMBAN_REPLY_BYTES * (commands - 1);
    EXPECT(last[0] == LAREMBAN_ACCEPTED && last[1] * 256 + last[2] == DARTS);
    EXPECT(places[4 * LAREMBAN_COORDINATES] == 8 && places[4 * LAREMBAN_COORDINATES + 1] == 6);
    static const int32_t row[] = {2, -3, 0, 0, 0, 3, OWNER, 0};
    for (int d = 0; d < DARTS; d++) EXPECT(!memcmp(spans + d * LAREMBAN_SPAN_NUMBERS, row, sizeof row));
}

static void check(void) {
    LarembanAnswer answer = laremban_check(PLAN, FLAT, DARTS);
    EXPECT(answer.number == LAREMBAN_ACCEPTED && answer.value == 0);
    EXPECT(laremban_check(PLAN, FLAT, DARTS + 1).number == LAREMBAN_NO_SUCH_DART);
    links[0] = 3; /* dart 3 leads to dart 2, and no more back to dart 0 */
    answer = laremban_check(PLAN, FLAT, DARTS);
    EXPECT(answer.number == LAREMBAN_LINK_NOT_UNDONE && answer.value == 0);
    links[0] = 1;
    spans[6]++; /* rows that differ in an object alone */
    EXPECT(laremban_check(PLAN, FLAT, DARTS).number == LAREMBAN_ROWS_DIFFER);
    spans[6] = 0x10000; /* no object has more than 16 bits */
    EXPECT(laremban_check(PLAN, FLAT, DARTS).number == LAREMBAN_BAD_ROW);
    spans[6] = OWNER;
}

static void cells(void) {
    static const uint16_t wanted[FLAT + 1] = {SIDES, SIDES, 1};
    for (uint8_t axis = 0; axis <= FLAT; axis++) EXPECT(laremban_cells(PLAN, FLAT, DARTS, axis).value == wanted[axis]);
    EXPECT(laremban_cells(PLAN, FLAT, DARTS, SOLID).number == LAREMBAN_OUT_OF_RANGE);
}

static void counts(void) {
    static const uint16_t wanted[] = {SIDES, SIDES, 1, 77};
    uint16_t memory[] = {77, 77, 77, 77};
    EXPECT(laremban_counts(PLAN, FLAT, DARTS, memory, FLAT).number == LAREMBAN_TOO_LARGE && memory[0] == 77);
    LarembanAnswer answer = laremban_counts(PLAN, FLAT, DARTS, LENT(memory));
    EXPECT(answer.number == LAREMBAN_ACCEPTED && answer.value == FLAT + 1);
    EXPECT(!memcmp(memory, wanted, sizeof wanted));
}

static void pieces(void) {
    static const int32_t wanted[] = {-3, 0, 0, 3, 77};
    int32_t memory[] = {77, 77, 77, 77, 77};
    EXPECT(laremban_pieces(PLAN, FLAT, DARTS, 0, 0, memory, 3).number == LAREMBAN_TOO_LARGE);
    LarembanPairs answer = laremban_pieces(PLAN, FLAT, DARTS, 0, 0, LENT(memory));
    EXPECT(answer.number == LAREMBAN_ACCEPTED && answer.pairs == 2);
    EXPECT(!memcmp(memory, wanted, sizeof wanted));
}

/* Each lifted dart carries the object of its storey: of the four above a dart and a level, two are of the lower and two of the upper one. Past them is 0. */
static void objects(void) {
    static const uint16_t storeys[] = {0, 0, OWNER, OWNER};
    for (int d = 0; d < SOLID_DARTS; d++) EXPECT(lifted_objects[d] == storeys[d % 4]);
    for (int d = SOLID_DARTS; d < ROOM; d++) EXPECT(lifted_objects[d] == 0);
}

/* The lift is two boxes, one on the other. */
static void lift(void) {
    static const uint16_t wanted[SOLID + 1] = {12, 20, 11, 2};
    memset(lifted_objects, 7, sizeof lifted_objects);
    LarembanAnswer answer = laremban_lift(PLAN, FLAT, DARTS, LIFTED);
    EXPECT(answer.number == LAREMBAN_ACCEPTED && answer.value == SOLID_DARTS);
    objects();
    uint16_t memory[SOLID + 1];
    answer = laremban_counts(LENT(lifted_links), LENT(lifted_places), LENT(no_spans), LENT(lifted_work), SOLID, SOLID_DARTS, LENT(memory));
    EXPECT(answer.number == LAREMBAN_ACCEPTED && !memcmp(memory, wanted, sizeof wanted));
    EXPECT(laremban_lift(PLAN, FLAT, DARTS, lifted_links, (SOLID_DARTS - 1) * LAREMBAN_LINKS, LENT(lifted_places), LENT(lifted_objects), LENT(lifted_work))
               .number == LAREMBAN_TOO_LARGE);
    EXPECT(laremban_lift(PLAN, FLAT, DARTS, LENT(lifted_links), LENT(lifted_places), lifted_objects, (SOLID_DARTS - 1) * LAREMBAN_OBJECTS, LENT(lifted_work))
               .number == LAREMBAN_TOO_LARGE);
    objects();
}

static void row(void) {
    static const uint16_t flat[LAREMBAN_LINKS] = {1, 7, 0, 0, 0, 0}, solid[LAREMBAN_LINKS] = {1, 4, 84, 0, 0, 0};
    uint16_t out[LAREMBAN_LINKS];
    EXPECT(laremban_row(LENT(links), LENT(lifted_links), LAREMBAN_SIDE_PLAN, 0, LENT(out)) == LAREMBAN_LINKS);
    EXPECT(!memcmp(out, flat, sizeof flat));
    EXPECT(laremban_row(LENT(links), LENT(lifted_links), LAREMBAN_SIDE_LIFTED, 0, LENT(out)) == LAREMBAN_LINKS);
    EXPECT(!memcmp(out, solid, sizeof solid));
    EXPECT(laremban_row(LENT(links), LENT(lifted_links), LAREMBAN_SIDE_PLAN, DARTS, LENT(out)) == 0);
}

static void looseness(void) {
    LarembanLooseness answer = laremban_looseness(LENT(links), FLAT, 0);
    EXPECT(answer.number == LAREMBAN_ACCEPTED && answer.bits == 1 << 2 && answer.ones == 1);
    EXPECT(laremban_looseness(LENT(links), LAREMBAN_GREATEST_DIMENSION + 1, 0).number == LAREMBAN_OUT_OF_RANGE);
}

/* The list is read from command to command. */
static void decode(void) {
    int32_t out[LAREMBAN_COMMAND_NUMBERS];
    size_t at = 0, read = 0;
    for (; at < list_length; read++) {
        at = laremban_decode(LENT_LIST, at, LENT(out));
        if (!read) EXPECT(at == 2 && out[0] == LAREMBAN_COMMAND_NEW && out[1] == FLAT);
    }
    EXPECT(read == commands && at == list_length);
    EXPECT(out[0] == LAREMBAN_COMMAND_SPAN_OF && out[1] == 0 && out[2] == 0 && out[3] == 3 && out[4] == OWNER);
    EXPECT(laremban_decode(LENT_LIST, at, LENT(out)) == list_length && out[0] == 0 && out[1] == LAREMBAN_CUT_SHORT);
}

static void liftrun(void) {
    static uint8_t out[LAREMBAN_TEXT_BYTES];
    char end[40];
    int end_length = snprintf(end, sizeof end, "\nend 0 %zu %zu 0\n", commands, commands);
    size_t length = laremban_liftrun(LENT_LIST, LENT(out));
    EXPECT(length > (size_t)end_length && !memcmp(out + length - end_length, end, (size_t)end_length));
    EXPECT(laremban_liftrun(LENT_LIST, out, LAREMBAN_TEXT_BYTES - 1) == 0);
}

int main(void) {
    version(), run(), check(), cells(), counts(), pieces(), lift(), row(), looseness(), decode(), liftrun();
    printf("uses: every call gave what it should\n");
    return 0;
}
