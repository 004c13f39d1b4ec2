/*
 * The drawing by calendar from C, on the box that is split once and on one leaf: the clearance in force at the first and the last minute of records, gaps,
 * the rules of calendars and the order of refusals, what is written and what is untouched. Calendars are exactly as long as they are said to be. Ends with
 * status 1 and names the line of the first difference. With an argument it lends a calendar that is shorter than it says, for valgrind to see.
 */
#include <stdio.h>
#include <stdlib.h>
#include <string.h>

#include "clearance.h"
#include "slices.h"
#include "surveys.h"

enum { ONE = CLEARANCE_CALENDAR_BYTES, THREE = 3 * ONE };

/* A calendar to lend. */
struct calendar {
    uint8_t *records;
    size_t length;
};

/* A record of a calendar. */
struct period {
    uint32_t from;
    uint32_t until;
    float clearance;
};

static void put_number(uint8_t *bytes, uint32_t number)
{
    for (unsigned n = 0; n < 4; n++) {
        bytes[n] = number >> 8 * n & 0xff;
    }
}

/* The first so many bytes of a calendar of three records. The caller frees it. */
static struct calendar calendar_of(const struct period periods[3], size_t length)
{
    uint8_t whole[THREE];
    for (unsigned n = 0; n < 3; n++) {
        uint8_t *record = whole + ONE * n;
        put_number(record, periods[n].from);
        put_number(record + 4, periods[n].until);
        memcpy(record + 8, &periods[n].clearance, sizeof periods[n].clearance);
    }
    struct calendar calendar = {allocated(length), length};
    memcpy(calendar.records, whole, length);
    return calendar;
}

/* The call on a survey. Without slices it is lent NULL. */
static struct clearance_counts draw(struct survey s, struct calendar c, uint32_t minute, struct slices *slices, struct room room)
{
    return clearance_draw_by_calendar(s.cells, s.cells_length, s.corners, s.corners_length, s.amendments, s.amendments_length, c.records, c.length, minute,
        slices == NULL ? NULL : slices->points, room.points, slices == NULL ? NULL : slices->triangles, room.triangles);
}

/* A drawing that is refused so and leaves the slices as they were. */
static void refused(struct survey survey, struct calendar calendar, uint32_t minute, struct room room, struct clearance_counts expected)
{
    struct slices slices, before;
    fill(&slices);
    fill(&before);
    EXPECT(are_counts(draw(survey, calendar, minute, &slices, room), expected.number, expected.points, expected.triangles));
    EXPECT(memcmp(&slices, &before, sizeof before) == 0);
}

/* A refusal without counts, whatever is lent. */
static void refused_by(struct survey survey, struct calendar calendar, uint32_t minute, uint32_t number)
{
    refused(survey, calendar, minute, enough, (struct clearance_counts){number, 0, 0});
    refused(survey, calendar, minute, none, (struct clearance_counts){number, 0, 0});
    EXPECT(are_counts(draw(survey, calendar, minute, NULL, none), number, 0, 0));
}

/* At this minute the clearance in force is 0. The survey is the split box with 3 in the middle. */
static void drawn(struct survey survey, struct calendar calendar, uint32_t minute)
{
    struct slices slices;
    fill(&slices);
    EXPECT(are_counts(draw(survey, calendar, minute, &slices, enough), 0, 6, 8) && are_drawn(&slices));
    EXPECT(are_counts(draw(survey, calendar, minute, NULL, none), CLEARANCE_POINT_SLICE, 6, 8));
    refused(survey, calendar, minute, (struct room){17, TRIANGLE_ROOM}, (struct clearance_counts){CLEARANCE_POINT_SLICE, 6, 8});
    refused(survey, calendar, minute, (struct room){POINT_ROOM, 23}, (struct clearance_counts){CLEARANCE_TRIANGLE_SLICE, 6, 8});
}

/* The minutes of a lawful calendar. Only what is in force is looked at: not a number is in force from 200 on, and 2,000,000 from 400 on. */
static void minutes(struct survey survey, float not_a_number)
{
    const struct period periods[3] = {{100, 200, 0.0f}, {200, 300, not_a_number}, {400, CLEARANCE_YEAR_END, 2e6f}};
    static const uint32_t in_none[7] = {0, 99, 300, 399, CLEARANCE_YEAR_END, CLEARANCE_YEAR_END + 150, UINT32_MAX};
    static const uint32_t unlawful[4] = {200, 299, 400, CLEARANCE_YEAR_END - 1};
    struct calendar calendar = calendar_of(periods, THREE);
    drawn(survey, calendar, 100);
    drawn(survey, calendar, 199);
    for (unsigned n = 0; n < 7; n++) {
        refused_by(survey, calendar, in_none[n], CLEARANCE_MINUTE);
    }
    for (unsigned n = 0; n < 4; n++) {
        refused_by(survey, calendar, unlawful[n], CLEARANCE_CLEARANCE);
    }
    free(calendar.records);
}

/* A calendar without records, at NULL and elsewhere. */
static void empty_calendars(struct survey survey)
{
    uint8_t byte = 0;
    refused_by(survey, (struct calendar){NULL, 0}, 0, CLEARANCE_MINUTE);
    refused_by(survey, (struct calendar){NULL, 0}, UINT32_MAX, CLEARANCE_MINUTE);
    refused_by(survey, (struct calendar){&byte, 0}, 100, CLEARANCE_MINUTE);
}

/* Calendars that break a rule, or are not whole records: refused at every minute, in the first record, in no record, and at any other. */
static void broken_calendar(struct survey survey, const struct period periods[3], size_t length)
{
    static const uint32_t asked[5] = {0, 100, 199, 350, UINT32_MAX};
    struct calendar calendar = calendar_of(periods, length);
    for (unsigned n = 0; n < 5; n++) {
        refused_by(survey, calendar, asked[n], CLEARANCE_CALENDAR);
    }
    free(calendar.records);
}

static void broken_calendars(struct survey survey)
{
    static const struct period lawful[3] = {{100, 200, 0.0f}, {300, 400, 0.0f}, {400, 500, 0.0f}};
    static const size_t parts[4] = {1, 11, 25, 35};
    static const struct period broken[5][3] = {
        {{100, 200, 0.0f}, {199, 400, 0.0f}, {400, 500, 0.0f}},
        {{100, 200, 0.0f}, {300, 400, 0.0f}, {399, 500, 0.0f}},
        {{100, 200, 0.0f}, {300, 300, 0.0f}, {400, 500, 0.0f}},
        {{100, 200, 0.0f}, {300, 400, 0.0f}, {500, 400, 0.0f}},
        {{100, 200, 0.0f}, {300, 400, 0.0f}, {400, CLEARANCE_YEAR_END + 1, 0.0f}},
    };
    for (unsigned n = 0; n < 4; n++) {
        broken_calendar(survey, lawful, parts[n]);
    }
    for (unsigned n = 0; n < 5; n++) {
        broken_calendar(survey, broken[n], THREE);
    }
}

/* The survey's own refusals come before the calendar's, and an open pool is refused after it. */
static void order(struct survey unsounded, struct survey open)
{
    static const struct period periods[3] = {{100, 200, 0.0f}, {199, 400, 0.0f}, {400, 500, 0.0f}};
    struct calendar broken = calendar_of(periods, THREE);
    struct calendar lawful = calendar_of(periods, ONE);
    const struct survey empty = {NULL, 0, NULL, 0, NULL, 0};
    refused_by(empty, broken, 100, CLEARANCE_CELL_TABLE);
    refused_by(unsounded, broken, 100, CLEARANCE_SOUNDING);
    refused_by(unsounded, lawful, 0, CLEARANCE_SOUNDING);
    refused_by(unsounded, lawful, 100, CLEARANCE_SOUNDING);
    refused_by(open, broken, 100, CLEARANCE_CALENDAR);
    refused_by(open, lawful, 200, CLEARANCE_MINUTE);
    refused_by(open, lawful, 199, CLEARANCE_OPEN_AT_BOX);
    free(broken.records);
    free(lawful.records);
}

/* An amendment puts right what the corner table has in the middle. */
static void amended_by_calendar(struct survey unsounded)
{
    static const struct period year[3] = {{0, CLEARANCE_YEAR_END, 0.0f}, {0, 0, 0.0f}, {0, 0, 0.0f}};
    struct calendar calendar = calendar_of(year, ONE);
    uint8_t *amendment = allocated(RECORD);
    put_middle(amendment, 3.0f, 300);
    drawn(amended(unsounded, amendment, RECORD), calendar, 0);
    drawn(amended(unsounded, amendment, RECORD), calendar, CLEARANCE_YEAR_END - 1);
    free(amendment);
    free(calendar.records);
}

/* Lends a calendar with a length of three bytes more than it has: a part of the clearance in force. */
static void trespass(struct survey survey)
{
    static const struct period year[3] = {{0, CLEARANCE_YEAR_END, 0.0f}, {0, 0, 0.0f}, {0, 0, 0.0f}};
    struct calendar calendar = calendar_of(year, ONE - 3);
    calendar.length += 3;
    printf("%u\n", (unsigned)draw(survey, calendar, 0, NULL, none).number);
    free(calendar.records);
}

int main(int count, char **arguments)
{
    (void)arguments;
    float not_a_number;
    memset(&not_a_number, 0xff, sizeof not_a_number);
    uint8_t *wet = leaf_corners(3.0f);
    uint8_t *middle_wet = split_corners(3.0f, 0);
    uint8_t *middle_unsounded = split_corners(not_a_number, 300);
    minutes(split(middle_wet), not_a_number);
    empty_calendars(split(middle_wet));
    broken_calendars(split(middle_wet));
    order(split(middle_unsounded), leaf(wet));
    amended_by_calendar(split(middle_unsounded));
    if (count > 1) {
        trespass(split(middle_wet));
    }
    free(wet);
    free(middle_wet);
    free(middle_unsounded);
    return EXIT_SUCCESS;
}
