/*
 * Convoys from C, on one leaf and on the box that is split once: the one way of boats that are barred by different corners, in any order of theirs, the two
 * zeros, amendments, and the order of refusals, with a convoy of none at NULL among them. Ends with status 1 and names the line of the first difference.
 * With an argument it lends fewer clearances than it says, for valgrind to see.
 */
#include <math.h>
#include <stdio.h>
#include <stdlib.h>

#include "clearance.h"
#include "surveys.h"
#include "ways.h"

enum { MOST = CLEARANCE_MOST_BOATS };

static const struct question lawful = {0, 3, LEAF_CORNERS, LEAF_CORNERS};

static struct boats convoy(const float *clearances, size_t count)
{
    return (struct boats){1, 0.0f, clearances, count};
}

/* What is due of a question. */
struct due {
    uint32_t ends[2];
    const uint16_t *way;
    uint32_t count;
    const uint16_t *work;
    size_t corners;
};

/* Lends the clearances on the heap, with each boat in turn at the head: what is due is given every time, and to one boat at the greatest clearance too. */
static void answered_in_turn(struct survey survey, const float *clearances, size_t count, float greatest, struct due due)
{
    float *turned = (float *)allocated(count * sizeof(float));
    for (size_t by = 0; by < count; by++) {
        for (size_t n = 0; n < count; n++) {
            turned[n] = clearances[(n + by) % count];
        }
        answered(survey, convoy(turned, count), due.ends, due.way, due.count, due.work, due.corners);
    }
    answered(survey, one_boat(greatest), due.ends, due.way, due.count, due.work, due.corners);
    free(turned);
}

/* Corner 1 of one leaf bars a boat of a clearance of 1.5 or more, corner 2 one of 2.5 or more, corner 3 one of 4 or more. */
static void put_bars(uint8_t *corners)
{
    static const float soundings[LEAF_CORNERS] = {9.0f, 1.5f, 2.5f, 4.0f, 9.0f, 9.0f, 9.0f, 9.0f};
    for (unsigned place = 0; place < LEAF_CORNERS; place++) {
        put_box_corner(corners + RECORD * place, place, soundings[place]);
    }
}

static void barred(struct survey survey)
{
    static const uint16_t straight[3] = {0, 1, 3}, all[8] = {1, 2, 2, 3, 2, 3, 3, 4};
    static const uint16_t over_2[3] = {0, 2, 3}, without_1[8] = {1, 0, 2, 3, 2, 3, 3, 4};
    static const uint16_t around[5] = {0, 4, 5, 7, 3}, without_1_2[8] = {1, 0, 0, 5, 2, 3, 3, 4};
    static const uint16_t without_3[8] = {1, 0, 0, 0, 2, 3, 3, 4};
    answered_in_turn(survey, (float[1]){1.0f}, 1, 1.0f, (struct due){{0, 3}, straight, 3, all, LEAF_CORNERS});
    answered_in_turn(survey, (float[2]){1.0f, 1.0f}, 2, 1.0f, (struct due){{0, 3}, straight, 3, all, LEAF_CORNERS});
    answered_in_turn(survey, (float[3]){1.0f, 2.0f, -7.0f}, 3, 2.0f, (struct due){{0, 3}, over_2, 3, without_1, LEAF_CORNERS});
    answered_in_turn(survey, (float[3]){1.0f, 3.0f, 2.0f}, 3, 3.0f, (struct due){{0, 3}, around, 5, without_1_2, LEAF_CORNERS});
    answered_in_turn(survey, (float[3]){1.0f, 3.0f, 5.0f}, 3, 5.0f, (struct due){{0, 3}, NULL, 0, without_3, LEAF_CORNERS});
}

/* Sixteen boats, of which one is barred by corner 1, or all but one are. */
static void sixteen(struct survey survey)
{
    static const uint16_t over_2[3] = {0, 2, 3}, without_1[8] = {1, 0, 2, 3, 2, 3, 3, 4};
    const struct due due = {{0, 3}, over_2, 3, without_1, LEAF_CORNERS};
    float one_high[MOST], one_low[MOST];
    for (unsigned n = 0; n < MOST; n++) {
        one_high[n] = n == 0 ? 2.0f : 1.0f;
        one_low[n] = n == 0 ? 1.0f : 2.0f;
    }
    answered_in_turn(survey, one_high, MOST, 2.0f, due);
    answered_in_turn(survey, one_low, MOST, 2.0f, due);
}

/* Corner 0 is sounded just above zero, which is wet by either zero; at one zero or the other it is dry by both. */
static void zeros(void)
{
    static const uint16_t itself[1] = {0}, alone[8] = {1}, dry[8] = {0};
    static const float soundings[3] = {1e-45f, 0.0f, -0.0f};
    for (unsigned n = 0; n < 3; n++) {
        uint8_t *corners = leaf_corners(soundings[n]);
        const struct due due = {{0, 0}, itself, n == 0, n == 0 ? alone : dry, LEAF_CORNERS};
        answered_in_turn(leaf(corners), (float[2]){0.0f, -0.0f}, 2, 0.0f, due);
        answered_in_turn(leaf(corners), (float[3]){-0.0f, -1.0f, 0.0f}, 3, -0.0f, due);
        free(corners);
    }
}

/* The split box, all at -1 but for its middle, which was sounded again: from 12 to 14 on its two sides the way leads over it, or around it for one boat. */
static void around_the_middle(struct survey survey)
{
    static const uint16_t over[3] = {12, 13, 14}, around[5] = {12, 3, 4, 5, 14};
    uint16_t from_12[SPLIT_CORNERS];
    uint8_t *amendment = allocated(RECORD);
    put_middle(amendment, -1.5f, 1);
    for (int number = 0; number < SPLIT_CORNERS; number++) {
        from_12[number] = (uint16_t)(number % 3 + abs(number / 3 % 3 - 1) + abs(number / 9 - 1) + 1);
    }
    answered_in_turn(amended(survey, amendment, RECORD), (float[2]){-2.0f, -3.0f}, 2, -2.0f, (struct due){{12, 14}, over, 3, from_12, SPLIT_CORNERS});
    from_12[13] = 0;
    from_12[14] = 5;
    answered_in_turn(amended(survey, amendment, RECORD), (float[2]){-2.0f, -1.25f}, 2, -1.25f,
        (struct due){{12, 14}, around, 5, from_12, SPLIT_CORNERS});
    free(amendment);
}

/* A convoy of none, at NULL too, and of more than 16, lawful ones or not: refused before any clearance is looked at, and after the survey. */
static void counted(struct survey survey, struct survey refused_by_7)
{
    static const size_t counts[5] = {MOST + 1, MOST + 2, 257, (size_t)UINT32_MAX + 2, SIZE_MAX / sizeof(float)};
    const struct question beyond = {8, 0, 0, 0};
    float many[MOST + 1];
    for (unsigned n = 0; n <= MOST; n++) {
        many[n] = NAN;
    }
    refused(survey, convoy(NULL, 0), lawful, CLEARANCE_CONVOY);
    refused(survey, convoy(many, 0), beyond, CLEARANCE_CONVOY);
    refused(survey, convoy(many, MOST + 1), beyond, CLEARANCE_CONVOY);
    refused(refused_by_7, convoy(NULL, 0), beyond, CLEARANCE_SOUNDING);
    refused(refused_by_7, convoy(many, MOST + 1), beyond, CLEARANCE_SOUNDING);
    float *one = (float *)allocated(sizeof(float));
    *one = 1.0f;
    for (unsigned n = 0; n < 5; n++) {
        refused(survey, convoy(one, counts[n]), lawful, CLEARANCE_CONVOY);
    }
    free(one);
}

/* One clearance that is out of range, in every place of a convoy of 16: refused before the ends and the slices are looked at, and where nothing else is. */
static void in_range(struct survey survey)
{
    const float unlawful[6] = {NAN, INFINITY, -INFINITY, 1048576.125f, -1048576.125f, 2e6f};
    const struct question beyond = {8, 0, 0, 0};
    float clearances[MOST];
    for (unsigned n = 0; n < 6 * MOST; n++) {
        for (unsigned boat = 0; boat < MOST; boat++) {
            clearances[boat] = boat == n % MOST ? unlawful[n / MOST] : 1.0f;
        }
        refused(survey, convoy(clearances, MOST), lawful, CLEARANCE_CLEARANCE);
        refused(survey, convoy(clearances, MOST), beyond, CLEARANCE_CLEARANCE);
    }
}

/* The ends, then the slices, are looked at last; those of no elements are at NULL. */
static void order(struct survey s)
{
    static const float clearances[2] = {1.0f, 5.0f};
    const struct survey empty = {NULL, 0, NULL, 0, NULL, 0};
    refused(empty, convoy(NULL, 0), lawful, CLEARANCE_CELL_TABLE);
    refused(s, convoy(clearances, 2), (struct question){0, 65536, 0, 0}, CLEARANCE_WAY_END);
    refused(s, convoy(clearances, 2), (struct question){0, 3, 8, 7}, CLEARANCE_WAY_SLICE);
    struct clearance_passage passage = clearance_convoy(s.cells, s.cells_length, s.corners, s.corners_length, s.amendments, s.amendments_length,
        clearances, 2, 0, 3, NULL, 0, NULL, 0);
    EXPECT(passage.number == CLEARANCE_WAY_SLICE && passage.corners == 0);
}

/* Lends one clearance less than it says. */
static void trespass(struct survey survey)
{
    float *clearances = (float *)allocated(sizeof(float));
    *clearances = 1.0f;
    struct answer answer = ask(survey, convoy(clearances, 2), lawful);
    printf("%u\n", (unsigned)answer.passage.number);
    release(answer);
    free(clearances);
}

int main(int count, char **arguments)
{
    (void)arguments;
    uint8_t *bars = leaf_corners(9.0f), *unsounded = leaf_corners(NAN), *level = split_corners(-1.0f, 0);
    put_bars(bars);
    EXPECT(MOST == 16 && CLEARANCE_CONVOY == 21);
    barred(leaf(bars));
    sixteen(leaf(bars));
    zeros();
    around_the_middle(split(level));
    counted(leaf(bars), leaf(unsounded));
    in_range(leaf(bars));
    order(leaf(bars));
    if (count > 1) {
        trespass(leaf(bars));
    }
    free(bars);
    free(unsounded);
    free(level);
    return EXIT_SUCCESS;
}
