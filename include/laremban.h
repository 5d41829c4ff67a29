/* The lifter of generalised maps: the calls of the static library liblaremban.a, for C (from C11 on) and C++.

   A map is made of darts, numbered from 0. It stands in tables, one row a dart:

       links     LAREMBAN_LINKS numbers: the dart that it is linked to along each axis; axes above the dimension hold its own number
       places    LAREMBAN_COORDINATES numbers: as many coordinates as the map has dimensions, and 0 behind them
       spans     LAREMBAN_SPAN_NUMBERS numbers: how many spans, then for each its low end, its high end and the number of its object, 0 to 65535, and
                 0 behind them
       objects   LAREMBAN_OBJECTS number: the object of the span that covers the lifted dart's side of its height
       work      LAREMBAN_WORK numbers, for the calls to write to

   The plan has links, places, spans and work, the lifted side links, places, objects and work. A lifted map has no spans: its rows are empty. A side's
   capacity is its fewest whole rows in any of its four tables, at most LAREMBAN_DARTS.

   What a caller owes. A table is lent as a pointer and a length, in numbers and not in bytes.
     - The pointer is aligned and not null, also where the length is 0.
     - So many numbers may be read there, and written where the pointer is not to const.
     - Tables that are lent to one call do not overlap, unless none of the overlapping ones is written.
   Nothing else: the numbers in tables, lengths, counts, darts, dimensions, axes and sides may be any. What a call cannot use it refuses, by a
   number. What work holds is read and never matters: it may be fresh from malloc (valgrind tells then that it is looked at), and holds anything after a call that writes to it.

   The calls hold no state and allocate nothing, and may run on any threads at once. Each one ends, and writes nothing but what its comment says;
   that, its result and all that it writes are proved. */
#ifndef LAREMBAN_H
#define LAREMBAN_H

#include <stddef.h>
#include <stdint.h>

#ifdef __cplusplus
extern "C" {
#endif

/* ---- Version */

/* The version of all that this header says. A change of a width or a limit raises it, of a call's parameters or result, or of what a call, a byte or a number
   means; a call that comes beside the others does not. */
#define LAREMBAN_VERSION 3

/* Version: that of the library that was linked. A program whose tables or calls were made by another header must not go on, and is told so at its start:

       if (laremban_version() != LAREMBAN_VERSION) return fail("liblaremban.a is of another version than laremban.h");

   Reads, writes and refuses nothing. */
uint32_t laremban_version(void);

/* ---- Widths and limits */

#define LAREMBAN_GREATEST_DIMENSION 5     /* of a map; a plan that is lifted has at most one less */
#define LAREMBAN_GREATEST_NEW_DIMENSION 4 /* that the command NEW takes */
#define LAREMBAN_LINKS 6                  /* numbers in a row of links */
#define LAREMBAN_COORDINATES 5            /* numbers in a row of places */
#define LAREMBAN_SPANS 8                  /* the most spans in a row */
#define LAREMBAN_SPAN_NUMBERS 25          /* numbers in a row of spans */
#define LAREMBAN_OBJECTS 1                /* numbers in a row of objects */
#define LAREMBAN_WORK 4                   /* numbers in a row of work */
#define LAREMBAN_DARTS 16384              /* the most darts of a side */
#define LAREMBAN_REPLY_BYTES 3            /* bytes of a reply: its number, and its value with the higher byte first */
#define LAREMBAN_COMMAND_NUMBERS 5        /* numbers that a command is told by */
#define LAREMBAN_PROGRAM_PLAN 192         /* liftrun: the plan's capacity */
#define LAREMBAN_PROGRAM_LIFTED 512       /* liftrun: the lifted side's capacity */
#define LAREMBAN_PROGRAM_REPLY 3072       /* liftrun: bytes of reply memory */
#define LAREMBAN_PROGRAM_BYTES 2048       /* liftrun: the longest input that is run */
#define LAREMBAN_TEXT_BYTES 10311         /* liftrun: the longest text */

/* ---- Sides */

enum {
    LAREMBAN_SIDE_PLAN = 0,
    LAREMBAN_SIDE_LIFTED = 1
};

/* ---- Commands, by their bytes; operands are big-endian */

enum {
    LAREMBAN_COMMAND_NEW = 0x10,    /* dimension (1 byte) */
    LAREMBAN_COMMAND_DART = 0x11,
    LAREMBAN_COMMAND_SEW = 0x12,    /* axis (1), a (2), b (2) */
    LAREMBAN_COMMAND_UNSEW = 0x13,  /* axis (1), a (2) */
    LAREMBAN_COMMAND_PLACE = 0x14,  /* dart (2), axis (1), coordinate (4) */
    LAREMBAN_COMMAND_SPAN = 0x15,   /* dart (2), lo (4), hi (4): a span of object 0; it and those of its object that it overlaps become one */
    LAREMBAN_COMMAND_CLEAR = 0x16,  /* dart (2) */
    LAREMBAN_COMMAND_LIFT = 0x17,
    LAREMBAN_COMMAND_ADOPT = 0x18,
    LAREMBAN_COMMAND_COUNT = 0x19,  /* side (1), axis (1) */
    LAREMBAN_COMMAND_SPAN_OF = 0x1A /* dart (2), lo (4), hi (4), object (2): SPAN with an object */
};

/* ---- Numbers of answers and replies: 0, or why something is refused, by the names of crates/paper/specs/Refusal.antt */

enum {
    LAREMBAN_ACCEPTED = 0,
    LAREMBAN_UNKNOWN_COMMAND = 1,      /* the command byte is unknown; ends a run */
    LAREMBAN_CUT_SHORT = 2,            /* the bytes end before the command's operands do; ends a run */
    LAREMBAN_OUT_OF_RANGE = 3,         /* a dimension, an axis or a side is out of range */
    LAREMBAN_NO_SUCH_DART = 4,         /* a dart is not below the count, or a count is above the capacity of its tables */
    LAREMBAN_EMPTY_SPAN = 5,           /* the span's low end is not below its high end */
    LAREMBAN_LINK_BEYOND = 6,          /* a link is not below the count */
    LAREMBAN_LINK_NOT_UNDONE = 7,      /* a link, followed twice, does not lead back */
    LAREMBAN_PAIR_NOT_UNDONE = 8,      /* two links at least two axes apart, followed in turn twice, do not lead back */
    LAREMBAN_PLACES_DIFFER = 9,        /* a dart's place differs from that of the dart to which an axis from 1 on leads */
    LAREMBAN_BAD_ROW = 10,             /* a row of spans has a wrong count, an empty span, an overlap, a wrong order, or an object that is not 0 to 65535 */
    LAREMBAN_ROWS_DIFFER = 11,         /* a dart's row of spans, with their objects, differs from that of the dart to which an axis below the dimension leads */
    LAREMBAN_NO_PLAN = 12,             /* there is no plan yet */
    LAREMBAN_PLAN_FULL = 13,           /* the plan has no room for more darts */
    LAREMBAN_ALREADY_LINKED = 14,      /* a dart is linked along the axis already */
    LAREMBAN_NO_PAIRING = 15,          /* the darts around the two cannot be paired */
    LAREMBAN_PAIR_DISAGREES = 16,      /* places, or rows of spans with their objects, differ within a pair */
    LAREMBAN_ALREADY_FREE = 17,        /* the dart is free along the axis already */
    LAREMBAN_SPAN_OVERLAPS = 18,       /* the span overlaps one of another object in the row */
    LAREMBAN_ROW_FULL = 19,            /* the row would have more than eight spans, those that overlap joined */
    LAREMBAN_TOO_LARGE = 20,           /* the result is larger than the memory lent for it */
    LAREMBAN_NOTHING_LIFTED = 21,      /* nothing has been lifted yet */
    LAREMBAN_TOP_DIMENSION = 22,       /* a map of dimension 5 cannot be lifted */
    LAREMBAN_REPLIES_FULL = 23         /* fewer than three bytes are left for the reply; ends a run */
};

/* ---- Answers */

/* Of check, cells, counts and lift. Refused by 6 to 11 the value is the first dart at fault by that number, which is tried over all darts
   before the next one is; by another number 0. */
typedef struct {
    uint8_t number;
    uint16_t value;
} LarembanAnswer;

/* Of looseness: bit i of bits is set where the dart is free along axis i, and ones says how many are. Refused, both are 0. */
typedef struct {
    uint8_t number;
    uint8_t bits;
    uint32_t ones;
} LarembanLooseness;

/* Of pieces: how many pairs of ends were written. Refused, that is 0. */
typedef struct {
    uint8_t number;
    size_t pairs;
} LarembanPairs;

/* Of a run: the number that it ended by, 0 where no byte was left, and how many commands were taken, accepted and refused. */
typedef struct {
    uint8_t number;
    size_t taken;
    size_t accepted;
    size_t refused;
} LarembanEnded;

/* ---- Calls that look at links alone */

/* Row: the links of a dart of a side, LAREMBAN_SIDE_PLAN or LAREMBAN_SIDE_LIFTED.
   Reads plan and lifted, two link tables. Writes LAREMBAN_LINKS numbers to the start of out, which keeps what it held past them.
   Refuses nothing. Returns how many numbers were written: 0, and nothing is, for a dart beyond the rows of the side's table, for another side, and
   where out is shorter than a row. */
size_t laremban_row(const uint16_t *plan, size_t plan_length, const uint16_t *lifted, size_t lifted_length, uint8_t side, size_t dart,
                    uint16_t *out, size_t out_length);

/* Looseness: the axes up to the dimension along which a dart is free.
   Reads links. Writes nothing.
   Refuses by 3 a dimension that is not 1 to 5, then by 4 a dart beyond the rows. */
LarembanLooseness laremban_looseness(const uint16_t *links, size_t links_length, uint8_t dimension, size_t dart);

/* ---- Calls on a plan: its four tables, its dimension and its number of darts. Rows past the count, and numbers of a row that are not in use, are not
   looked at. All of them refuse, in this order: by 3 a dimension that is not 1 to 5, by 4 a count above the capacity, by 6 to 11 tables that hold no valid
   map. So the lifted side can be lent to them too, with spans of 0 for each dart. */

/* Check: whether the tables hold a valid map.
   Reads links, places and spans; of work only the length matters. Writes nothing.
   Returns number 0 and value 0 exactly where they do. */
LarembanAnswer laremban_check(const uint16_t *links, size_t links_length, const int32_t *places, size_t places_length, const int32_t *spans,
                              size_t spans_length, const uint16_t *work, size_t work_length, uint8_t dimension, size_t count);

/* Cells: the number of cells of an axis, 0 for corners, 1 for edges, and so on up to the dimension.
   Reads links, places and spans. Writes work.
   Refuses as said above, then by 3 an axis above the dimension. The value is the number of cells. */
LarembanAnswer laremban_cells(const uint16_t *links, size_t links_length, const int32_t *places, size_t places_length, const int32_t *spans,
                              size_t spans_length, uint16_t *work, size_t work_length, uint8_t dimension, size_t count, uint8_t axis);

/* Counts: the number of cells of each axis, from 0 to the dimension. The tables are checked once, where cells checks them for each axis.
   Reads links, places and spans. Writes work, and to the start of memory a number for each axis, dimension + 1 of them; past them memory keeps what it
   held. Refused, all of memory does.
   Refuses as said above, then by 20 where memory is shorter. The value is how many numbers were written. */
LarembanAnswer laremban_counts(const uint16_t *links, size_t links_length, const int32_t *places, size_t places_length, const int32_t *spans,
                               size_t spans_length, uint16_t *work, size_t work_length, uint8_t dimension, size_t count, uint16_t *memory,
                               size_t memory_length);

/* Pieces: the stretches of height between neighbouring ends that the spans around a dart's cell of an axis cover.
   Reads links, places and spans. Writes work, and to the start of memory two numbers for each piece, its low and its high end, ascending; past them memory
   keeps what it held. Refused, all of memory does.
   The darts of the cell are gone over once for each end: where thousands of parcels meet in a corner that takes seconds.
   Refuses as said above, then by 3 an axis above the dimension, by 4 a dart not below the count, by 20 more pieces than memory has room for. */
LarembanPairs laremban_pieces(const uint16_t *links, size_t links_length, const int32_t *places, size_t places_length, const int32_t *spans,
                              size_t spans_length, uint16_t *work, size_t work_length, uint8_t dimension, size_t count, size_t dart,
                              uint8_t axis, int32_t *memory, size_t memory_length);

/* Lift: the plan lifted along its spans, a map of one dimension more.
   Reads links, places and spans. Writes work and lifted_work, and all of lifted_links, lifted_places and lifted_objects: the lift row for row, and 0 past
   it to their ends. A lifted dart stands on a side of a height of its plan dart, and its object is that of the span of the plan dart's row that covers this
   side: all darts of a lifted top cell have the same. Lifted darts are numbered plan dart by plan dart, those of one by level from 0 up, those of a level
   by piece upwards, the foot of each before its head; docs/LIFT.md has the whole on a page.
   Refused, lifted_links, lifted_places and lifted_objects keep what they held, and work and lifted_work hold anything.
   Refuses as said above, but by 22 a dimension of 5 before 4; then by 20 a lift of more darts than the lifted side's capacity. The value is its number of
   darts. */
LarembanAnswer laremban_lift(const uint16_t *links, size_t links_length, const int32_t *places, size_t places_length, const int32_t *spans,
                             size_t spans_length, uint16_t *work, size_t work_length, uint8_t dimension, size_t count,
                             uint16_t *lifted_links, size_t lifted_links_length, int32_t *lifted_places, size_t lifted_places_length,
                             uint16_t *lifted_objects, size_t lifted_objects_length, uint16_t *lifted_work, size_t lifted_work_length);

/* ---- Commands */

/* Decode: the command at a place of some bytes, which may be past their end.
   Reads bytes. Writes LAREMBAN_COMMAND_NUMBERS numbers to the start of out, which keeps what it held past them: the command's byte and its operands in
   order, 0 where there is none. For an unreadable command they are 0, then 1 or 2 for why, then 0. Nothing is written where out is shorter.
   Refuses nothing. Returns the place of the byte after the command; the length of the bytes for an unreadable one. */
size_t laremban_decode(const uint8_t *bytes, size_t bytes_length, size_t at, int32_t *out, size_t out_length);

/* Run: takes commands from bytes until one ends it, and replies to each. Whatever the tables held, it begins with two blank maps.
   Reads bytes. Writes all tables: links, places and spans hold the plan that the run comes to, lifted_links, lifted_places and lifted_objects the lifted
   map, 0 past each to their ends; work and lifted_work hold anything. To the start of replies it writes LAREMBAN_REPLY_BYTES for each command taken, and
   past them replies keeps what it held.
   LIFT writes the objects as the lift call does. ADOPT takes none of them to the plan, whose rows are empty then, and leaves lifted_objects.
   A command that is refused changes neither map. The run ends by 0 where no byte is left, by 1 or 2 after an unreadable command, which counts as taken, and
   by 23 before a command for whose reply there is no room. */
LarembanEnded laremban_run(const uint8_t *bytes, size_t bytes_length, uint16_t *links, size_t links_length, int32_t *places,
                           size_t places_length, int32_t *spans, size_t spans_length, uint16_t *work, size_t work_length,
                           uint16_t *lifted_links, size_t lifted_links_length, int32_t *lifted_places, size_t lifted_places_length,
                           uint16_t *lifted_objects, size_t lifted_objects_length, uint16_t *lifted_work, size_t lifted_work_length,
                           uint8_t *replies, size_t replies_length);

/* The text that the program liftrun prints for an input, which is not ended by a zero byte.
   Reads bytes. Writes the text to the start of out, which keeps what it held past it; nothing where out is shorter than LAREMBAN_TEXT_BYTES.
   Refuses nothing: more than LAREMBAN_PROGRAM_BYTES give the text "long". Returns the length of the text, or 0 where out is too short. */
size_t laremban_liftrun(const uint8_t *bytes, size_t bytes_length, uint8_t *out, size_t out_length);

#ifdef __cplusplus
}
#endif

#endif
