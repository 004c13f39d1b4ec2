/*
 * Clearance surfaces over a lock survey: the proved library for C and C++.
 *
 * A survey is a cell table (an octree), a corner table (a sounding at every corner of every cell) and amendments to that (corners sounded again). At a
 * clearance, given by hand or by a calendar and a minute, the surface between wet and dry corners is drawn as points on the octree's edges and triangles
 * between them; the space inside is reckoned; and from corner to corner the way of fewest steps over wet ones is shown, for one boat or for a convoy. The
 * calls are those of document 01, the scope document, with what the requests of document 02 add and change; what they return, and what they write, is proved
 * equal to the documents' rules for every input.
 *
 * BUILDING
 *
 *     (cd crates/clearance && rt lib)
 *     cc -I include program.c crates/clearance/out/libclearance.a
 *
 * The archive is for x86-64 Linux and needs of the C library only memset and its like. examples/c/draw.c is a whole program.
 *
 * A header and an archive fit if CLEARANCE_VERSION is what clearance_version() returns. The linker does not see to that: a program that was compiled with
 * an older header may link and yet lend its slices in the wrong places. So compare the two once, before any other call.
 *
 * THE TABLES
 *
 * All are records of one size without a header, little-endian.
 *
 *   cell         4 bytes   0 for a leaf, else the record number of the first of eight children in a row
 *   corner      12 bytes   x, y, z (16 bits unsigned each), then the sounding (IEEE 754 binary32), then the number of its day (16 bits unsigned)
 *   amendment   12 bytes   as a corner
 *   calendar    12 bytes   from, until (minutes of the year, 32 bits unsigned each), then the clearance (IEEE 754 binary32)
 *
 * The box runs from 0 to 1,024 on x, y and z. Cell record 0 is the whole box, of depth 0; a cell of depth 10 is not split. The child in place i (0 to 7)
 * is in the upper half of x if bit 0 of i is set, of y for bit 1, of z for bit 2. If k split records come before a split record, its entry is 1 + 8k and
 * greater than its own record number. The table has 1 + 8 * (number of split records) records, at most 2,049.
 *
 * Corner records rise strictly by z, then y, then x. There is one for every corner of every cell and none else, at most 4,872. A corner is wet if its
 * sounding in force is greater than the clearance, else dry: ground exactly at the clearance, just awash, is dry. The two zeros are equal.
 *
 * AMENDMENTS
 *
 * A corner that was sounded again, after dredging say, need not be changed in the corner table. A record of its place, the new sounding and its day goes
 * into an amendment table, which is lent beside the corner table. It holds at most 1,000 records, in any order, and may have several for one corner. It may
 * be empty: then there are no amendments, and days mean nothing.
 *
 * For each corner one record is in force, the corner table's or an amendment: that of the highest day. Among equal days an amendment beats the corner table,
 * and a later amendment an earlier one. Every call answers for the survey so amended, as if each record in force stood in the corner table and there were
 * no amendments.
 *
 * An amendment must be at a corner of a cell even if it is not in force (15). But the sounding of a record that is not in force, in either table, may be
 * anything, not a number too: so an amendment can put right a corner table that would be refused for a sounding (7).
 *
 * Corner tables from before amendments have records of 10 bytes, without a day. The command-line tool converts them (clearance convert OLD NEW): all get
 * day 0, so that every amendment beats them.
 *
 * THE CALENDAR
 *
 * Where the clearance differs over the year, between the season, the winter stoppage and flood weeks say, a calendar can be lent in its place, with the
 * minute to draw for. A record is in force from the minute `from` up to, not including, the minute `until`. Minutes are counted from 0, so 1,440 is the
 * first minute of the second day and 527,040 the end of a year of 366 days.
 *
 * Each from is below its until, each until is at most 527,040, and no record begins before the one ahead of it has ended, though it may begin at that very
 * minute. A calendar in which any record breaks a rule, or which is not whole records, is refused at every minute (16).
 *
 * There may be gaps: a minute in no record is refused (17). So is every minute from 527,040 on; it does not start over with another year. An empty calendar
 * is lawful, and refused so at every minute.
 *
 * Only the clearance in force must be lawful (8). That of every other record may be anything, not a number too.
 *
 * THE CONVOY
 *
 * Boats of a convoy follow one another on one line, each with its own clearance. For 1 to 16 clearances, in any order and equal ones among them, one way is
 * shown for all: a corner is on it only if it is wet at every one of them. That is the way of one boat at the greatest of them, work slice included, and there
 * is none only where that boat has none.
 *
 * A convoy of no clearance or of more than 16 is refused (21), and nothing of it is read then. Every clearance must be lawful, not the greatest alone (8).
 *
 * WHAT THE CALLER LENDS
 *
 * A slice passes as a pointer and a number of elements (not bytes). It is lent for the call: nothing of it is kept, and it stays the caller's to free.
 *
 *   - Cell, corner and amendment tables and calendars are read only, may lie at any address, and may overlap each other.
 *   - The clearances of a convoy are read only, aligned to 4 bytes, and may overlap the tables.
 *   - Point and triangle slices are aligned to 4 bytes, way and work slices to 2, and each overlaps no other slice.
 *   - A slice of 0 elements may have any pointer, NULL too: it is not followed.
 *   - Nobody else writes to a slice while the call runs.
 *
 * No bytes in the tables and no number handed in, a clearance that is not a number and a record number that no corner has among them, can make a call
 * read or write outside what it was lent, or run on without end.
 *
 * A call allocates nothing and keeps nothing, so any number of threads may call at once. It needs less than 576 KiB of stack. Arithmetic is that of the
 * thread: it must be as a C program starts, rounding to nearest and with subnormal numbers kept, or what is drawn may differ. (GCC's -ffast-math, given
 * when a program is linked, makes it start otherwise.)
 *
 * REFUSALS
 *
 * What can't be drawn or shown is refused by a number, enum clearance_refusal below. Checks run in rising number, but for 12 and 13, which stand between 8
 * and 9, 14 and 15, which stand between 6 and 7, and 16, 17 and 21, which stand between 7 and 8; the first that applies is returned. A refused call has
 * written nothing, but for 20, with which the work slice is written, and it alone. In their order:
 *
 *   clearance_check              1 2 3 4 5 6 14 15 7
 *   clearance_enquire            1 2 3 4 5 6 14 15 7 8 11
 *   clearance_draw               1 2 3 4 5 6 14 15 7 8 12 9 10
 *   clearance_draw_by_calendar   1 2 3 4 5 6 14 15 7 16 17 8 12 9 10
 *   clearance_volume             1 2 3 4 5 6 14 15 7 8 12 13 9 10
 *   clearance_way                1 2 3 4 5 6 14 15 7 8 18 19 20
 *   clearance_convoy             1 2 3 4 5 6 14 15 7 21 8 18 19 20
 *
 * So a number's size does not tell what it means. A drawing is there to be had with 0, CLEARANCE_POINT_SLICE and CLEARANCE_TRIANGLE_SLICE, and with
 * nothing else: ask for these by name. A program that takes every number from CLEARANCE_POINT_SLICE on for a drawing takes a pool that is open at the
 * box (12), an amendment at no corner (15), or a minute in no record (17), for an empty one.
 */
#ifndef CLEARANCE_H
#define CLEARANCE_H

#include <stddef.h>
#include <stdint.h>

#ifdef __cplusplus
extern "C" {
#endif

/* The number of the calls below. It goes up by 1 with every change of what a call takes, returns or refuses, and with every call that is added. */
#define CLEARANCE_VERSION 3

/* The size of a corner record, and of an amendment, in bytes. */
#define CLEARANCE_CORNER_BYTES 12

/* The size of a calendar's record in bytes, and its greatest until. */
#define CLEARANCE_CALENDAR_BYTES 12
#define CLEARANCE_YEAR_END 527040

/* The longest tables that are not refused, in bytes. A calendar has no such limit. */
#define CLEARANCE_MOST_CELL_BYTES 8196
#define CLEARANCE_MOST_CORNER_BYTES 58464
#define CLEARANCE_MOST_AMENDMENT_BYTES 12000

/* The most clearances of a convoy. */
#define CLEARANCE_MOST_BOATS 16

/* The numbers returned: 0 if nothing is refused, else why. */
enum clearance_refusal {
    CLEARANCE_CELL_TABLE = 1, /* the cell table is empty, not whole records, or over 8,196 bytes */
    CLEARANCE_CORNER_TABLE = 2, /* the corner table is empty, not whole records, or over 58,464 bytes */
    CLEARANCE_CELL_ENTRY = 3, /* a cell entry or the record count breaks the rule of the cell table */
    CLEARANCE_TOO_DEEP = 4, /* a cell of depth 10 is split */
    CLEARANCE_CORNER_ORDER = 5, /* corner records don't rise strictly */
    CLEARANCE_CORNER_SET = 6, /* a cell's corner is missing, or a record is no cell's corner */
    CLEARANCE_SOUNDING = 7, /* a sounding in force is not finite or beyond ±1,048,576 */
    CLEARANCE_CLEARANCE = 8, /* the clearance is not finite or beyond ±1,048,576 */
    CLEARANCE_POINT_SLICE = 9, /* the point slice is too short */
    CLEARANCE_TRIANGLE_SLICE = 10, /* the triangle slice is too short */
    CLEARANCE_NO_EDGE = 11, /* no cell has this edge */
    CLEARANCE_OPEN_AT_BOX = 12, /* the pool runs out of the surveyed box (a corner on an outer face is wet) */
    CLEARANCE_REFERENCE = 13, /* a coordinate of the reference point is above 1,024 */
    CLEARANCE_AMENDMENT_TABLE = 14, /* the amendment table is not whole records or over 12,000 bytes */
    CLEARANCE_AMENDMENT_PLACE = 15, /* an amendment is at no cell's corner */
    CLEARANCE_CALENDAR = 16, /* the calendar is not whole records or breaks a rule of calendars */
    CLEARANCE_MINUTE = 17, /* the minute is in no record of the calendar */
    CLEARANCE_WAY_END = 18, /* the start or the end is no corner */
    CLEARANCE_WAY_SLICE = 19, /* the way slice or the work slice is shorter than the corner count */
    CLEARANCE_NO_WAY = 20, /* no way over wet corners leads from the start to the end */
    CLEARANCE_CONVOY = 21 /* the convoy has no clearance or more than 16 */
};

/* The words of a number that was returned: those beside it in enum clearance_refusal. */
static inline const char *clearance_words(uint32_t number)
{
    switch (number) {
    case 0: return "nothing is refused";
    case CLEARANCE_CELL_TABLE: return "the cell table is empty, not whole records, or over 8,196 bytes";
    case CLEARANCE_CORNER_TABLE: return "the corner table is empty, not whole records, or over 58,464 bytes";
    case CLEARANCE_CELL_ENTRY: return "a cell entry or the record count breaks the rule of the cell table";
    case CLEARANCE_TOO_DEEP: return "a cell of depth 10 is split";
    case CLEARANCE_CORNER_ORDER: return "corner records don't rise strictly";
    case CLEARANCE_CORNER_SET: return "a cell's corner is missing, or a record is no cell's corner";
    case CLEARANCE_SOUNDING: return "a sounding in force is not finite or beyond ±1,048,576";
    case CLEARANCE_CLEARANCE: return "the clearance is not finite or beyond ±1,048,576";
    case CLEARANCE_POINT_SLICE: return "the point slice is too short";
    case CLEARANCE_TRIANGLE_SLICE: return "the triangle slice is too short";
    case CLEARANCE_NO_EDGE: return "no cell has this edge";
    case CLEARANCE_OPEN_AT_BOX: return "the pool runs out of the surveyed box (a corner on an outer face is wet)";
    case CLEARANCE_REFERENCE: return "a coordinate of the reference point is above 1,024";
    case CLEARANCE_AMENDMENT_TABLE: return "the amendment table is not whole records or over 12,000 bytes";
    case CLEARANCE_AMENDMENT_PLACE: return "an amendment is at no cell's corner";
    case CLEARANCE_CALENDAR: return "the calendar is not whole records or breaks a rule of calendars";
    case CLEARANCE_MINUTE: return "the minute is in no record of the calendar";
    case CLEARANCE_WAY_END: return "the start or the end is no corner";
    case CLEARANCE_WAY_SLICE: return "the way slice or the work slice is shorter than the corner count";
    case CLEARANCE_NO_WAY: return "no way over wet corners leads from the start to the end";
    case CLEARANCE_CONVOY: return "the convoy has no clearance or more than 16";
    default: return "no refusal has this number";
    }
}

/* The number CLEARANCE_VERSION of the header that the archive belongs to. */
uint32_t clearance_version(void);

/*
 * Checks a survey by itself. Returns 0, or the first refusal that applies. A survey that passes may still be refused for drawing by 12: whether a corner
 * on an outer face is wet depends on the clearance.
 */
uint32_t clearance_check(const uint8_t *cells, size_t cells_length, const uint8_t *corners, size_t corners_length,
    const uint8_t *amendments, size_t amendments_length);

/* An edge to ask about. */
struct clearance_edge {
    uint32_t axis; /* along which it runs: 0, 1, 2 for x, y, z */
    uint32_t x; /* where its lower end is */
    uint32_t y;
    uint32_t z;
    uint32_t length;
};

/* The ends of an edge: the lower and the upper one on its axis. */
enum clearance_end {
    CLEARANCE_LOWER_END = 1,
    CLEARANCE_UPPER_END = 2
};

/* What the enquiry says of an edge. */
struct clearance_reply {
    uint32_t number; /* 0, or the first refusal that applies; then all else is 0 */
    uint32_t crossing; /* 1 if one end is wet and one is dry; 0 if the edge is even, and then all else is 0 */
    uint32_t point; /* the number of the edge's point among the survey's crossing points at this clearance, from 0; a drawing, if any (12), has this order */
    float x; /* where the point is */
    float y;
    float z;
    uint32_t wet_end; /* enum clearance_end: which end of the edge asked about is wet; the other one is dry */
};

/*
 * Asks about the edge of some cell. If it is divided and crossing, its point is that of the half that is crossing, and so on down. Numbers that are no
 * cell's edge are refused (11). A survey that is open at the box (12) is answered for as any other.
 */
struct clearance_reply clearance_enquire(const uint8_t *cells, size_t cells_length, const uint8_t *corners, size_t corners_length,
    const uint8_t *amendments, size_t amendments_length, float clearance, struct clearance_edge edge);

/* What drawing returns. */
struct clearance_counts {
    uint32_t number; /* 0 if drawn, else the first refusal that applies */
    uint32_t points; /* how many points and triangles the drawing has, not elements; with 9 and 10 both are what the drawing needs, */
    uint32_t triangles; /* with every other refusal both are 0 */
};

/*
 * Draws the surface of a survey at a clearance, from the front of both slices on: for each point x, y and z, for each triangle the numbers of its three
 * points, counted from 0. So `points` must have 3 elements for each point and `triangles` 3 for each triangle. Elements past the last are untouched.
 *
 * Points rise by the axis of their edge (x, y, z), then by its lower end's z, y, x. Triangles come by the record number of their leaf.
 *
 * A survey with a wet corner on an outer face of the box is refused (12), so that every drawing is closed: between any two points triangles run one way as
 * often as the other. This is proved.
 *
 * Each loop runs with wet corners on its right, seen from outside its leaf, so the surface as a whole turns counter-clockwise seen from the dry side, and
 * the signed volume inside is not negative. This is tested, not proved. A single triangle of the fan over a bent loop may turn the other way.
 *
 * To learn how long the slices must be, call with two slices of 0 elements: the result is 9 or 10 with both counts, 0 where there is nothing to draw, or
 * any other number where the survey is refused.
 */
struct clearance_counts clearance_draw(const uint8_t *cells, size_t cells_length, const uint8_t *corners, size_t corners_length,
    const uint8_t *amendments, size_t amendments_length, float clearance, float *points, size_t points_length, uint32_t *triangles, size_t triangles_length);

/*
 * Draws as clearance_draw does at the clearance in force at a minute of a calendar: the result, and the elements of both slices, are those of
 * clearance_draw at that clearance given by hand. This is proved. A calendar of any length is read once.
 */
struct clearance_counts clearance_draw_by_calendar(const uint8_t *cells, size_t cells_length, const uint8_t *corners, size_t corners_length,
    const uint8_t *amendments, size_t amendments_length, const uint8_t *calendar, size_t calendar_length, uint32_t minute, float *points,
    size_t points_length, uint32_t *triangles, size_t triangles_length);

/* A point of the box to reckon a volume from, in whole units. */
struct clearance_reference {
    uint32_t x;
    uint32_t y;
    uint32_t z;
};

/* What reckoning the volume returns. */
struct clearance_water {
    uint32_t number; /* 0 if drawn, else the first refusal that applies */
    uint32_t points; /* as in clearance_counts */
    uint32_t triangles;
    int64_t sixfold; /* six times the volume inside, in cubic sixteenths of a unit; 0 for an empty drawing and with every refusal */
};

/*
 * Draws as clearance_draw does, with the same counts and the same elements in both slices, and reckons the space inside the surface from a reference point.
 *
 * For this alone each coordinate of each point is taken down to a whole sixteenth. The sum over all triangles of the determinant of the three corners, in
 * their order, taken from the reference, is six times the volume. In cubic units the volume is sixfold / 24576.0, since a cubic unit has 4,096 cubic
 * sixteenths. With 9 and 10 there is a drawing to be had, but sixfold is 0.
 *
 * The sum counts as positive what lies behind triangles that turn counter-clockwise, which is the wet side. It was negative in no survey tested; this is
 * not proved.
 *
 * The sum is the same for every reference, and neither it nor any step on the way to it is too large for 64 bits. This is proved.
 */
struct clearance_water clearance_volume(const uint8_t *cells, size_t cells_length, const uint8_t *corners, size_t corners_length,
    const uint8_t *amendments, size_t amendments_length, float clearance, struct clearance_reference reference, float *points, size_t points_length,
    uint32_t *triangles, size_t triangles_length);

/* What a call that shows a way returns. */
struct clearance_passage {
    uint32_t number; /* 0 if shown, else the first refusal that applies */
    uint32_t corners; /* how many corners the way has; 0 with every refusal */
};

/*
 * Shows a way from the corner `start` to the corner `end`, both given by record number in the corner table, counted from 0: corners, each joined to the
 * next by an edge that is not divided, each wet in the survey as amended, with the fewest steps. Of equally short ways it is the one with the lowest
 * record number at the first place where they differ. A wet corner has a way of one corner to itself. A survey that is open at the box (12) is answered
 * for as any other.
 *
 * With 0 the first elements of `way` are the record numbers of the way's corners, from the start to the end. With 0 and 20 `work` holds for each corner, by
 * record number, its fewest steps from the start over wet corners plus one, or 0 if it is out of reach; all are 0 if the start is dry. Elements past these
 * are untouched, and so is all of `way` with 20. That is returned only if there is no way; there is none where the start or the end is dry.
 *
 * Both slices must have as many elements as the corner table has records, corners_length / CLEARANCE_CORNER_BYTES, however short the way is (19). So a
 * slice at NULL, which has 0 elements, is refused. A start or end that is not below this count is refused too (18), whatever its low 16 bits are.
 */
struct clearance_passage clearance_way(const uint8_t *cells, size_t cells_length, const uint8_t *corners, size_t corners_length,
    const uint8_t *amendments, size_t amendments_length, float clearance, uint32_t start, uint32_t end, uint16_t *way, size_t way_length, uint16_t *work,
    size_t work_length);

/*
 * Shows one way for the boats of a convoy: as clearance_way, but over corners that are wet at all of the clearances. With clearances that are not refused
 * (21, 8) the result, and the elements of both slices, are those of clearance_way at the greatest of them. This is proved. Where the greatest is zero, it
 * is the same whether +0 or -0 is taken.
 */
struct clearance_passage clearance_convoy(const uint8_t *cells, size_t cells_length, const uint8_t *corners, size_t corners_length,
    const uint8_t *amendments, size_t amendments_length, const float *clearances, size_t clearances_length, uint32_t start, uint32_t end, uint16_t *way,
    size_t way_length, uint16_t *work, size_t work_length);

#ifdef __cplusplus
}
#endif

#endif
