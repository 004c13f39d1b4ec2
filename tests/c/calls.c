/*
 * The calls from C on a box of one leaf and on one that is split once, with slices of no elements at NULL among them: layouts of arguments and results,
 * every field, amendments, what is untouched, the version and the words. Ends with status 1 and names the line of the first difference. With an argument
 * it lends a call more bytes than there are, for valgrind to see.
 */
#include <stdio.h>
#include <stdlib.h>
#include <string.h>

#include "clearance.h"
#include "slices.h"
#include "surveys.h"

enum { MOST_AMENDMENTS = CLEARANCE_MOST_AMENDMENT_BYTES / RECORD };

static const struct clearance_reference origin = {0, 0, 0};
static const struct clearance_reference beyond_box = {1025, 0, 0};

/* The calls on a survey. Without slices they are lent NULL. */
static uint32_t check(struct survey s)
{
    return clearance_check(s.cells, s.cells_length, s.corners, s.corners_length, s.amendments, s.amendments_length);
}

static struct clearance_reply enquire(struct survey s, float clearance, struct clearance_edge edge)
{
    return clearance_enquire(s.cells, s.cells_length, s.corners, s.corners_length, s.amendments, s.amendments_length, clearance, edge);
}

static struct clearance_counts draw(struct survey s, float clearance, struct slices *slices, struct room room)
{
    return clearance_draw(s.cells, s.cells_length, s.corners, s.corners_length, s.amendments, s.amendments_length, clearance,
        slices == NULL ? NULL : slices->points, room.points, slices == NULL ? NULL : slices->triangles, room.triangles);
}

static struct clearance_water volume(struct survey s, float clearance, struct clearance_reference reference, struct slices *slices, struct room room)
{
    return clearance_volume(s.cells, s.cells_length, s.corners, s.corners_length, s.amendments, s.amendments_length, clearance, reference,
        slices == NULL ? NULL : slices->points, room.points, slices == NULL ? NULL : slices->triangles, room.triangles);
}

/* An edge along an axis from a corner where x and z are 0. */
static struct clearance_edge edge_from(uint32_t axis, uint32_t y, uint32_t length)
{
    return (struct clearance_edge){axis, 0, y, 0, length};
}

/* Whether a volume has this result and this sum. */
static int is_water(struct clearance_water water, struct clearance_counts counts, int64_t sixfold)
{
    return are_counts(counts, water.number, water.points, water.triangles) && water.sixfold == sixfold;
}

/* Whether a volume has this number and nothing else. */
static int holds_nothing(struct clearance_water water, uint32_t number)
{
    return is_water(water, (struct clearance_counts){number, 0, 0}, 0);
}

/* Whether a reply has this number and nothing else. */
static int is_number_alone(struct clearance_reply reply, uint32_t number)
{
    return reply.number == number && reply.crossing == 0 && reply.point == 0 && reply.x == 0.0f && reply.y == 0.0f && reply.z == 0.0f
        && reply.wet_end == 0;
}

/* All calls refuse a survey of no cells, or of no corners, at NULL. */
static void refused_by_all(struct survey survey, uint32_t number)
{
    EXPECT(check(survey) == number);
    EXPECT(is_number_alone(enquire(survey, 0.0f, edge_from(0, 0, 1024)), number));
    EXPECT(are_counts(draw(survey, 0.0f, NULL, none), number, 0, 0));
    EXPECT(holds_nothing(volume(survey, 0.0f, beyond_box, NULL, none), number));
}

static void empty_tables(const uint8_t *corners)
{
    refused_by_all((struct survey){NULL, 0, NULL, 0, NULL, 0}, CLEARANCE_CELL_TABLE);
    refused_by_all((struct survey){NULL, 0, corners, LEAF_BYTES, NULL, 0}, CLEARANCE_CELL_TABLE);
    struct survey without_corners = leaf(NULL);
    without_corners.corners_length = 0;
    refused_by_all(without_corners, CLEARANCE_CORNER_TABLE);
    refused_by_all(amended(without_corners, corners, LEAF_BYTES), CLEARANCE_CORNER_TABLE);
}

/* The survey is one that drawing refuses. */
static void enquiries(struct survey survey)
{
    struct clearance_reply crossing = enquire(survey, 0.0f, edge_from(1, 0, 1024));
    EXPECT(crossing.number == 0 && crossing.crossing == 1 && crossing.point == 1);
    EXPECT(crossing.x == 0.0f && crossing.y == 768.0f && crossing.z == 0.0f && crossing.wet_end == CLEARANCE_LOWER_END);
    EXPECT(is_number_alone(enquire(survey, 0.0f, edge_from(0, 1024, 1024)), 0));
    EXPECT(is_number_alone(enquire(survey, 0.0f, edge_from(0, 0, 512)), CLEARANCE_NO_EDGE));
    EXPECT(is_number_alone(enquire(survey, 2e6f, edge_from(0, 0, 1024)), CLEARANCE_CLEARANCE));
}

static int is_plus_zero(float value)
{
    uint32_t bits;
    memcpy(&bits, &value, sizeof bits);
    return bits == 0;
}

/* A sounding of one zero at a clearance of the same or the other is dry. Its edge to a wet corner has the point at this dry end, at a place of +0. */
static void ground_awash(float sounding, float clearance)
{
    uint8_t *corners = leaf_corners(sounding);
    EXPECT(is_number_alone(enquire(leaf(corners), clearance, edge_from(0, 0, 1024)), 0));
    EXPECT(are_counts(draw(leaf(corners), clearance, NULL, none), 0, 0, 0));
    put_box_corner(corners + RECORD, 1, 1.0f);
    struct clearance_reply at_end = enquire(leaf(corners), clearance, edge_from(0, 0, 1024));
    EXPECT(at_end.crossing == 1 && at_end.wet_end == CLEARANCE_UPPER_END);
    EXPECT(is_plus_zero(at_end.x) && is_plus_zero(at_end.y) && is_plus_zero(at_end.z));
    free(corners);
}

/* A drawing, and the volume from a reference in the box, are refused alike and leave the slices as they were. */
static void draw_refused(struct survey survey, float clearance, struct room room, struct clearance_counts expected)
{
    static const struct clearance_reference reference = {1024, 0, 512};
    struct slices slices, before;
    fill(&slices);
    fill(&before);
    struct clearance_counts refused = draw(survey, clearance, &slices, room);
    EXPECT(are_counts(refused, expected.number, expected.points, expected.triangles));
    EXPECT(is_water(volume(survey, clearance, reference, &slices, room), expected, 0));
    EXPECT(memcmp(&slices, &before, sizeof before) == 0);
}

/* Point and triangle slices of no elements, too few, and more than are needed, for the split box with 3 in the middle. */
static void drawings(struct survey survey)
{
    struct slices slices;
    fill(&slices);
    EXPECT(check(survey) == 0);
    EXPECT(are_counts(draw(survey, 0.0f, NULL, none), CLEARANCE_POINT_SLICE, 6, 8));
    EXPECT(are_counts(draw(survey, 0.0f, &slices, enough), 0, 6, 8) && are_drawn(&slices));
    draw_refused(survey, 2e6f, enough, (struct clearance_counts){CLEARANCE_CLEARANCE, 0, 0});
    draw_refused(survey, 0.0f, (struct room){17, TRIANGLE_ROOM}, (struct clearance_counts){CLEARANCE_POINT_SLICE, 6, 8});
    draw_refused(survey, 0.0f, (struct room){POINT_ROOM, 23}, (struct clearance_counts){CLEARANCE_TRIANGLE_SLICE, 6, 8});
}

/* An octahedron of 768 units across on each axis, 12,288 sixteenths: six times its volume is the product. It is the same from every reference. */
static void volumes(struct survey survey)
{
    static const struct clearance_reference in_box[4] = {{0, 0, 0}, {1024, 1024, 1024}, {1024, 0, 512}, {3, 1023, 77}};
    for (unsigned n = 0; n < 4; n++) {
        struct slices slices;
        fill(&slices);
        struct clearance_water water = volume(survey, 0.0f, in_box[n], &slices, enough);
        EXPECT(is_water(water, (struct clearance_counts){0, 6, 8}, INT64_C(12288) * 12288 * 12288));
        EXPECT((double)water.sixfold / 24576.0 == 75497472.0);
        EXPECT(are_drawn(&slices));
    }
}

/* References beyond the box on each axis, by 1 and as far as may be: refused before a slice that is too short, after the clearance. */
static void references_beyond_box(struct survey survey)
{
    static const struct clearance_reference beyond[6] = {{1025, 0, 0}, {0, 1025, 0}, {0, 0, 1025}, {UINT32_MAX, 1024, 1024}, {1024, UINT32_MAX, 1024},
        {1024, 1024, UINT32_MAX}};
    struct slices slices, before;
    fill(&slices);
    fill(&before);
    for (unsigned n = 0; n < 6; n++) {
        EXPECT(holds_nothing(volume(survey, 0.0f, beyond[n], &slices, enough), CLEARANCE_REFERENCE));
        EXPECT(holds_nothing(volume(survey, 0.0f, beyond[n], &slices, (struct room){17, TRIANGLE_ROOM}), CLEARANCE_REFERENCE));
        EXPECT(holds_nothing(volume(survey, 0.0f, beyond[n], &slices, (struct room){POINT_ROOM, 23}), CLEARANCE_REFERENCE));
        EXPECT(holds_nothing(volume(survey, 2e6f, beyond[n], &slices, enough), CLEARANCE_CLEARANCE));
    }
    EXPECT(memcmp(&slices, &before, sizeof before) == 0);
}

/* One leaf with a wet corner runs out of the box: refused for drawing whatever is lent, and lawful all the same. */
static void open_at_box(struct survey survey)
{
    const struct clearance_counts open = {CLEARANCE_OPEN_AT_BOX, 0, 0};
    EXPECT(check(survey) == 0);
    EXPECT(are_counts(draw(survey, 0.0f, NULL, none), CLEARANCE_OPEN_AT_BOX, 0, 0));
    EXPECT(holds_nothing(volume(survey, 0.0f, beyond_box, NULL, none), CLEARANCE_OPEN_AT_BOX));
    draw_refused(survey, 0.0f, enough, open);
    draw_refused(survey, 0.0f, (struct room){POINT_ROOM, 0}, open);
    EXPECT(draw(survey, -2e6f, NULL, none).number == CLEARANCE_CLEARANCE);
}

/* The split box, amended so that 3 is in force in the middle. */
static void deepened(struct survey survey)
{
    struct clearance_reply reply = enquire(survey, 0.0f, (struct clearance_edge){2, 512, 512, 0, 512});
    EXPECT(reply.number == 0 && reply.crossing == 1 && reply.point == 4 && reply.wet_end == CLEARANCE_UPPER_END);
    EXPECT(reply.x == 512.0f && reply.y == 512.0f && reply.z == 128.0f);
    drawings(survey);
    volumes(survey);
}

/* A survey that is refused for its amendments or a sounding in force, by all calls and ahead of whatever else is wrong. */
static void amended_refused(struct survey survey, uint32_t number)
{
    EXPECT(check(survey) == number);
    EXPECT(is_number_alone(enquire(survey, 2e6f, edge_from(3, 0, 0)), number));
    draw_refused(survey, 0.0f, enough, (struct clearance_counts){number, 0, 0});
    draw_refused(survey, 2e6f, none, (struct clearance_counts){number, 0, 0});
    EXPECT(holds_nothing(volume(survey, 2e6f, beyond_box, NULL, none), number));
}

/* Which record holds in the middle, where the corner table has not a number on day 300: the higher day; of equal days an amendment, and the later one. */
static void amendments(struct survey survey)
{
    static const uint8_t no_corner[3] = {1, 2, 2};
    uint8_t *table = allocated(4 * RECORD);
    put_middle(table, 3.0f, 300);
    put_middle(table + RECORD, 5.0f, 299);
    put_middle(table + 2 * RECORD, 5.0f, 511);
    put_middle(table + 3 * RECORD, 3.0f, 511);
    amended_refused(survey, CLEARANCE_SOUNDING);
    deepened(amended(survey, table, RECORD));
    deepened(amended(survey, table, 2 * RECORD));
    deepened(amended(survey, table, 4 * RECORD));
    amended_refused(amended(survey, table + RECORD, RECORD), CLEARANCE_SOUNDING);
    amended_refused(amended(survey, table, RECORD - 1), CLEARANCE_AMENDMENT_TABLE);
    put_record(table + RECORD, no_corner, 3.0f, 0);
    amended_refused(amended(survey, table, 2 * RECORD), CLEARANCE_AMENDMENT_PLACE);
    amended_refused(amended(survey, table, 2 * RECORD + 1), CLEARANCE_AMENDMENT_TABLE);
    free(table);
}

/* As many amendments as there may be, of one day, and one more. */
static void most_amendments(struct survey survey)
{
    uint8_t *table = allocated(CLEARANCE_MOST_AMENDMENT_BYTES + RECORD);
    for (unsigned number = 0; number <= MOST_AMENDMENTS; number++) {
        put_middle(table + RECORD * number, number == MOST_AMENDMENTS - 1 ? 3.0f : 5.0f, 300);
    }
    deepened(amended(survey, table, CLEARANCE_MOST_AMENDMENT_BYTES));
    amended_refused(amended(survey, table, CLEARANCE_MOST_AMENDMENT_BYTES + RECORD), CLEARANCE_AMENDMENT_TABLE);
    free(table);
}

/* Lends a table with a length of three bytes more than it has: a day, and a part of a sounding. */
static void trespass(const uint8_t *corners)
{
    uint8_t *short_table = allocated(LEAF_BYTES - 3);
    memcpy(short_table, corners, LEAF_BYTES - 3);
    printf("%u\n", (unsigned)check(leaf(short_table)));
    free(short_table);
}

/* The header and the archive fit, and each number has words of its own. */
static void version_and_words(void)
{
    EXPECT(clearance_version() == CLEARANCE_VERSION);
    EXPECT(strcmp(clearance_words(0), "nothing is refused") == 0);
    EXPECT(strcmp(clearance_words(CLEARANCE_CONVOY + 1), "no refusal has this number") == 0);
    EXPECT(strcmp(clearance_words(UINT32_MAX), "no refusal has this number") == 0);
    for (uint32_t number = 1; number <= CLEARANCE_CONVOY + 1; number++) {
        for (uint32_t before = 0; before < number; before++) {
            EXPECT(strcmp(clearance_words(number), clearance_words(before)) != 0);
        }
    }
}

static void layouts(void)
{
    EXPECT(sizeof(struct clearance_edge) == 20 && sizeof(struct clearance_reference) == 12);
    EXPECT(sizeof(struct clearance_counts) == 12 && sizeof(struct clearance_reply) == 28);
    EXPECT(sizeof(struct clearance_water) == 24 && offsetof(struct clearance_water, sixfold) == 16);
}

int main(int count, char **arguments)
{
    (void)arguments;
    float not_a_number;
    memset(&not_a_number, 0xff, sizeof not_a_number);
    uint8_t *wet = leaf_corners(3.0f);
    uint8_t *dry = leaf_corners(-3.0f);
    uint8_t *middle_wet = split_corners(3.0f, 0);
    uint8_t *middle_unsounded = split_corners(not_a_number, 300);
    version_and_words();
    layouts();
    empty_tables(wet);
    open_at_box(leaf(wet));
    enquiries(leaf(wet));
    ground_awash(0.0f, 0.0f);
    ground_awash(-0.0f, 0.0f);
    ground_awash(0.0f, -0.0f);
    ground_awash(-0.0f, -0.0f);
    drawings(split(middle_wet));
    volumes(split(middle_wet));
    references_beyond_box(split(middle_wet));
    amendments(split(middle_unsounded));
    most_amendments(split(middle_unsounded));
    if (count > 1) {
        trespass(wet);
    }
    struct clearance_reply rising = enquire(leaf(dry), -2.0f, edge_from(1, 0, 1024));
    EXPECT(rising.crossing == 1 && rising.y == 512.0f && rising.wet_end == CLEARANCE_UPPER_END);
    EXPECT(are_counts(draw(leaf(dry), 0.0f, NULL, none), 0, 0, 0));
    EXPECT(holds_nothing(volume(leaf(dry), 0.0f, origin, NULL, none), 0));
    EXPECT(holds_nothing(volume(leaf(dry), 0.0f, beyond_box, NULL, none), CLEARANCE_REFERENCE));
    free(wet);
    free(dry);
    free(middle_wet);
    free(middle_unsounded);
    return EXIT_SUCCESS;
}
