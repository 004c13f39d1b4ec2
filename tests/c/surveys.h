/*
 * Surveys to lend to the calls: a box of one leaf and one that is split once, with a sounding of one's choice and amendments. EXPECT stops at the first
 * condition that does not hold, and names its line.
 */
#ifndef SURVEYS_H
#define SURVEYS_H

#include <stdio.h>
#include <stdlib.h>
#include <string.h>

#include "clearance.h"

#define EXPECT(condition) expect((condition) != 0, #condition, __FILE__, __LINE__)

enum { RECORD = CLEARANCE_CORNER_BYTES, LEAF_BYTES = 8 * RECORD, SPLIT_BYTES = 27 * RECORD };

/* The tables of a survey to lend. */
struct survey {
    const uint8_t *cells;
    size_t cells_length;
    const uint8_t *corners;
    size_t corners_length;
    const uint8_t *amendments;
    size_t amendments_length;
};

static void expect(int holds, const char *condition, const char *file, int line)
{
    if (!holds) {
        fprintf(stderr, "%s:%d: not so: %s\n", file, line, condition);
        exit(EXIT_FAILURE);
    }
}

/* A box of one leaf, and one with eight children, which are leaves. */
static struct survey leaf(const uint8_t *corners)
{
    static const uint8_t cells[4] = {0};
    return (struct survey){cells, 4, corners, LEAF_BYTES, NULL, 0};
}

static struct survey split(const uint8_t *corners)
{
    static const uint8_t cells[36] = {1};
    return (struct survey){cells, 36, corners, SPLIT_BYTES, NULL, 0};
}

static struct survey amended(struct survey survey, const uint8_t *amendments, size_t length)
{
    survey.amendments = amendments;
    survey.amendments_length = length;
    return survey;
}

/* A corner record or an amendment. The high bytes of its coordinates are given; the low ones are 0. */
static void put_record(uint8_t *record, const uint8_t high[3], float sounding, uint16_t day)
{
    for (unsigned axis = 0; axis < 3; axis++) {
        record[2 * axis] = 0;
        record[2 * axis + 1] = high[axis];
    }
    memcpy(record + 6, &sounding, sizeof sounding);
    record[10] = day & 0xff;
    record[11] = day >> 8;
}

/* The corner in a place (0 to 7) of the box; its coordinates are 0 or 1,024. */
static void put_box_corner(uint8_t *record, unsigned place, float sounding)
{
    const uint8_t high[3] = {(place & 1) * 4, (place >> 1 & 1) * 4, (place >> 2 & 1) * 4};
    put_record(record, high, sounding, 0);
}

/* The corner in the middle of the box. */
static void put_middle(uint8_t *record, float sounding, uint16_t day)
{
    static const uint8_t high[3] = {2, 2, 2};
    put_record(record, high, sounding, day);
}

static uint8_t *allocated(size_t bytes)
{
    uint8_t *table = malloc(bytes);
    EXPECT(table != NULL);
    return table;
}

/* The corner table of one leaf: one sounding at (0, 0, 0), -1 elsewhere. The caller frees it. */
static uint8_t *leaf_corners(float sounding)
{
    uint8_t *corners = allocated(LEAF_BYTES);
    for (unsigned place = 0; place < 8; place++) {
        put_box_corner(corners + RECORD * place, place, place == 0 ? sounding : -1.0f);
    }
    return corners;
}

/* The corner table of the split box: one sounding in the middle, -1 elsewhere, all of one day. The caller frees it. */
static uint8_t *split_corners(float sounding, uint16_t day)
{
    uint8_t *corners = allocated(SPLIT_BYTES);
    for (unsigned number = 0; number < 27; number++) {
        const uint8_t high[3] = {number % 3 * 2, number / 3 % 3 * 2, number / 9 * 2};
        put_record(corners + RECORD * number, high, number == 13 ? sounding : -1.0f, day);
    }
    return corners;
}

#endif
