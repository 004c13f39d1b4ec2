/*
 * Ways from C, on one leaf and on the box that is split once: the way and the work slice, amendments, what is untouched, and the order of refusals, with
 * slices of no elements at NULL among them. Slices are exactly as long as they are said to be. Ends with status 1 and names the line of the first
 * difference. With an argument it lends a work slice that is shorter than it says, for valgrind to see.
 */
#include <stdio.h>
#include <stdlib.h>
#include <string.h>

#include "clearance.h"
#include "surveys.h"
#include "ways.h"

/* One leaf, all wet at a clearance of -2; at 0 only corner 0 is. It runs out of the box at both. */
static void on_one_leaf(struct survey survey)
{
    static const uint16_t across[4] = {0, 1, 3, 7}, from_0[8] = {1, 2, 2, 3, 2, 3, 3, 4};
    static const uint16_t back[4] = {7, 3, 1, 0}, from_7[8] = {4, 3, 3, 2, 3, 2, 2, 1};
    static const uint16_t itself[1] = {0}, alone[8] = {1}, dry[8] = {0};
    answered(survey, one_boat(-2.0f), (uint32_t[2]){0, 7}, across, 4, from_0, LEAF_CORNERS);
    answered(survey, one_boat(-2.0f), (uint32_t[2]){7, 0}, back, 4, from_7, LEAF_CORNERS);
    answered(survey, one_boat(-2.0f), (uint32_t[2]){0, 0}, itself, 1, from_0, LEAF_CORNERS);
    answered(survey, one_boat(0.0f), (uint32_t[2]){0, 0}, itself, 1, alone, LEAF_CORNERS);
    answered(survey, one_boat(0.0f), (uint32_t[2]){0, 1}, NULL, 0, alone, LEAF_CORNERS);
    answered(survey, one_boat(0.0f), (uint32_t[2]){1, 0}, NULL, 0, dry, LEAF_CORNERS);
    answered(survey, one_boat(0.0f), (uint32_t[2]){1, 1}, NULL, 0, dry, LEAF_CORNERS);
}

/* The split box, all wet at a clearance of -2: a step on one axis each, the lowest number first. At 0 only the middle is wet. */
static void on_split_box(struct survey survey)
{
    static const uint16_t through[7] = {0, 1, 2, 5, 8, 17, 26}, middle[1] = {13};
    uint16_t from_0[SPLIT_CORNERS], alone[SPLIT_CORNERS] = {0};
    for (unsigned number = 0; number < SPLIT_CORNERS; number++) {
        from_0[number] = (uint16_t)(number % 3 + number / 3 % 3 + number / 9 + 1);
    }
    alone[13] = 1;
    answered(survey, one_boat(-2.0f), (uint32_t[2]){0, 26}, through, 7, from_0, SPLIT_CORNERS);
    answered(survey, one_boat(0.0f), (uint32_t[2]){13, 13}, middle, 1, alone, SPLIT_CORNERS);
    answered(survey, one_boat(0.0f), (uint32_t[2]){13, 14}, NULL, 0, alone, SPLIT_CORNERS);
}

/* One leaf at a clearance of 0, at which corner 0 is wet: opened over corners 2 and 3 to 7, then shut again. */
static void resounded(struct survey survey)
{
    static const uint16_t around[4] = {0, 2, 3, 7}, opened[8] = {1, 0, 2, 3, 0, 0, 0, 4};
    static const uint16_t shut[8] = {1, 0, 2, 0, 0, 0, 0, 0};
    uint8_t *table = allocated(4 * RECORD);
    put_box_corner(table, 2, 1.0f);
    put_box_corner(table + RECORD, 3, 1.0f);
    put_box_corner(table + 2 * RECORD, 7, 1.0f);
    put_box_corner(table + 3 * RECORD, 3, 0.0f);
    answered(amended(survey, table, 3 * RECORD), one_boat(0.0f), (uint32_t[2]){0, 7}, around, 4, opened, LEAF_CORNERS);
    answered(amended(survey, table, 4 * RECORD), one_boat(0.0f), (uint32_t[2]){0, 7}, NULL, 0, shut, LEAF_CORNERS);
    refused(amended(survey, table, RECORD - 1), one_boat(2e6f), (struct question){8, 0, 0, 0}, CLEARANCE_AMENDMENT_TABLE);
    free(table);
}

/* The split box, all wet at a clearance of -2 but for its middle, which has silted up: from 12 to 14 on its two sides the way leads around it. */
static void around_the_middle(struct survey survey)
{
    static const uint16_t around[5] = {12, 3, 4, 5, 14};
    uint16_t from_12[SPLIT_CORNERS];
    uint8_t *amendment = allocated(RECORD);
    put_middle(amendment, -3.0f, 1);
    for (int number = 0; number < SPLIT_CORNERS; number++) {
        from_12[number] = (uint16_t)(number % 3 + abs(number / 3 % 3 - 1) + abs(number / 9 - 1) + 1);
    }
    from_12[13] = 0;
    from_12[14] = 5;
    answered(amended(survey, amendment, RECORD), one_boat(-2.0f), (uint32_t[2]){12, 14}, around, 5, from_12, SPLIT_CORNERS);
    free(amendment);
}

/* One leaf in which corner 0 alone is wet: ends that are no corner, then slices that are too short, before there is no way. */
static void order(struct survey survey)
{
    static const uint32_t beyond[4] = {LEAF_CORNERS, 65536, 65536 + 7, UINT32_MAX};
    static const size_t short_rooms[4][2] = {{0, 0}, {7, 8}, {8, 7}, {1, 8}};
    const struct survey empty = {NULL, 0, NULL, 0, NULL, 0};
    refused(empty, one_boat(2e6f), (struct question){0, 8, 0, 0}, CLEARANCE_CELL_TABLE);
    refused(survey, one_boat(2e6f), (struct question){0, 8, 0, 0}, CLEARANCE_CLEARANCE);
    for (unsigned n = 0; n < 4; n++) {
        const size_t *rooms = short_rooms[n];
        refused(survey, one_boat(0.0f), (struct question){0, beyond[n], 0, 0}, CLEARANCE_WAY_END);
        refused(survey, one_boat(0.0f), (struct question){beyond[n], 0, 8, 8}, CLEARANCE_WAY_END);
        refused(survey, one_boat(0.0f), (struct question){0, 0, rooms[0], rooms[1]}, CLEARANCE_WAY_SLICE);
        refused(survey, one_boat(0.0f), (struct question){1, 7, rooms[0], rooms[1]}, CLEARANCE_WAY_SLICE);
    }
}

/* Slices of no elements at NULL. */
static void at_null(struct survey s)
{
    struct clearance_passage passage = clearance_way(s.cells, s.cells_length, s.corners, s.corners_length, s.amendments, s.amendments_length, 0.0f, 0, 0,
        NULL, 0, NULL, 0);
    EXPECT(passage.number == CLEARANCE_WAY_SLICE && passage.corners == 0);
}

/* Lends a work slice with a length of one element more than it has. */
static void trespass(struct survey s)
{
    uint16_t *way = lent(LEAF_CORNERS), *work = lent(LEAF_CORNERS - 1);
    printf("%u\n", (unsigned)clearance_way(s.cells, s.cells_length, s.corners, s.corners_length, s.amendments, s.amendments_length, 0.0f, 0, 7, way,
        LEAF_CORNERS, work, LEAF_CORNERS).number);
    free(way);
    free(work);
}

int main(int count, char **arguments)
{
    (void)arguments;
    uint8_t *wet = leaf_corners(3.0f);
    uint8_t *middle_wet = split_corners(3.0f, 0);
    EXPECT(sizeof(struct clearance_passage) == 8);
    on_one_leaf(leaf(wet));
    on_split_box(split(middle_wet));
    resounded(leaf(wet));
    around_the_middle(split(middle_wet));
    order(leaf(wet));
    at_null(leaf(wet));
    if (count > 1) {
        trespass(leaf(wet));
    }
    free(wet);
    free(middle_wet);
    return EXIT_SUCCESS;
}
