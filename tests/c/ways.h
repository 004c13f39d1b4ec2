/*
 * Questions about ways, for one boat and for a convoy: slices that are exactly as long as they are said to be, what stands in them before and after, and
 * what a call returns.
 */
#ifndef WAYS_H
#define WAYS_H

#include <stdlib.h>

#include "clearance.h"
#include "surveys.h"

enum { LEAF_CORNERS = 8, SPLIT_CORNERS = 27 };

/* A question: from where to where, and how many elements the way slice and the work slice have. */
struct question {
    uint32_t start;
    uint32_t end;
    size_t way;
    size_t work;
};

/* Who asks: one boat, or the boats of a convoy, so many, each at its clearance. */
struct boats {
    int are_convoy;
    float alone;
    const float *clearances;
    size_t count;
};

static struct boats one_boat(float clearance)
{
    return (struct boats){0, clearance, NULL, 0};
}

/* What a call returned, and both slices afterwards. */
struct answer {
    struct clearance_passage passage;
    uint16_t *way;
    uint16_t *work;
};

/* What stands in a lent slice before: numbers of no corner. */
static uint16_t before(size_t at)
{
    return (uint16_t)(0x8000u | at);
}

static uint16_t *lent(size_t room)
{
    uint16_t *slice = (uint16_t *)allocated(room * sizeof(uint16_t) + (room == 0));
    for (size_t at = 0; at < room; at++) {
        slice[at] = before(at);
    }
    return slice;
}

/* The call on a survey. release() frees both slices. */
static struct answer ask(struct survey s, struct boats boats, struct question asked)
{
    struct answer answer = {{0, 0}, lent(asked.way), lent(asked.work)};
    if (boats.are_convoy) {
        answer.passage = clearance_convoy(s.cells, s.cells_length, s.corners, s.corners_length, s.amendments, s.amendments_length, boats.clearances,
            boats.count, asked.start, asked.end, answer.way, asked.way, answer.work, asked.work);
    } else {
        answer.passage = clearance_way(s.cells, s.cells_length, s.corners, s.corners_length, s.amendments, s.amendments_length, boats.alone, asked.start,
            asked.end, answer.way, asked.way, answer.work, asked.work);
    }
    return answer;
}

static void release(struct answer answer)
{
    free(answer.way);
    free(answer.work);
}

/* Whether a slice begins with these elements and is untouched behind them. */
static int begins(const uint16_t *slice, size_t room, const uint16_t *elements, size_t count)
{
    for (size_t at = 0; at < room; at++) {
        if (slice[at] != (at < count ? elements[at] : before(at))) {
            return 0;
        }
    }
    return count <= room;
}

/* A survey of so many corners has this way of so many corners, or with 0 none, and this in the work slice: with slices as long as need be, and longer. */
static void answered(struct survey survey, struct boats boats, const uint32_t ends[2], const uint16_t *way, uint32_t count, const uint16_t *work,
    size_t corners)
{
    for (size_t more = 0; more < 3; more++) {
        const struct question asked = {ends[0], ends[1], corners + more, corners + 2 * more};
        struct answer answer = ask(survey, boats, asked);
        EXPECT(answer.passage.number == (count == 0 ? CLEARANCE_NO_WAY : 0) && answer.passage.corners == count);
        EXPECT(begins(answer.way, asked.way, way, count));
        EXPECT(begins(answer.work, asked.work, work, corners));
        release(answer);
    }
}

/* A question that is refused without an element touched. */
static void refused(struct survey survey, struct boats boats, struct question asked, uint32_t number)
{
    struct answer answer = ask(survey, boats, asked);
    EXPECT(answer.passage.number == number && answer.passage.corners == 0);
    EXPECT(begins(answer.way, asked.way, NULL, 0) && begins(answer.work, asked.work, NULL, 0));
    release(answer);
}

#endif
