/* A square parcel is built, lifted to a solid, and its cells are counted. */
#include <stdio.h>
#include "laremban.h"
#define LENT(table) table, sizeof table / sizeof *table
static uint16_t links[8 * LAREMBAN_LINKS], work[8 * LAREMBAN_WORK];
static int32_t places[8 * LAREMBAN_COORDINATES], spans[8 * LAREMBAN_SPAN_NUMBERS];
static uint16_t lifted_links[48 * LAREMBAN_LINKS], lifted_work[48 * LAREMBAN_WORK];
static int32_t lifted_places[48 * LAREMBAN_COORDINATES];
static uint16_t lifted_objects[48 * LAREMBAN_OBJECTS];
static uint8_t list[200], replies[40 * LAREMBAN_REPLY_BYTES];
static size_t length;
static void put(int number, int bytes) { /* the highest byte first */
    while (bytes-- > 0) list[length++] = (uint8_t)((uint32_t)number >> 8 * bytes);
}
static void sew(int axis, int a, int b) { put(LAREMBAN_COMMAND_SEW, 1), put(axis, 1), put(a, 2), put(b, 2); }
static void place(int dart, int axis, int at) { put(LAREMBAN_COMMAND_PLACE, 1), put(dart, 2), put(axis, 1), put(at, 4); }
int main(void) {
    if (laremban_version() != LAREMBAN_VERSION) return 1; /* the library is not the one of this header */
    put(LAREMBAN_COMMAND_NEW, 1), put(2, 1);
    for (int i = 0; i < 8; i++) put(LAREMBAN_COMMAND_DART, 1); /* two darts for each side, one at either end */
    for (int i = 0; i < 8; i += 2) sew(0, i, i + 1);
    for (int i = 1; i < 8; i += 2) sew(1, i, (i + 1) % 8);
    place(2, 0, 8), place(4, 0, 8), place(4, 1, 6), place(6, 1, 6);
    put(LAREMBAN_COMMAND_SPAN, 1), put(0, 2), put(0, 4), put(3, 4), put(LAREMBAN_COMMAND_LIFT, 1);
    for (int axis = 0; axis <= 3; axis++) put(LAREMBAN_COMMAND_COUNT, 1), put(LAREMBAN_SIDE_LIFTED, 1), put(axis, 1);
    LarembanEnded ended = laremban_run(list, length, LENT(links), LENT(places), LENT(spans), LENT(work), LENT(lifted_links),
                                       LENT(lifted_places), LENT(lifted_objects), LENT(lifted_work), LENT(replies));
    if (ended.number != LAREMBAN_ACCEPTED || ended.refused) return 1;
    printf("darts, corners, edges, faces, solids:");
    const uint8_t *reply = replies + LAREMBAN_REPLY_BYTES * (ended.taken - 5);
    for (int i = 0; i < 5; i++, reply += LAREMBAN_REPLY_BYTES) printf(" %d%s", reply[1] * 256 + reply[2], i < 4 ? "," : "\n");
}
