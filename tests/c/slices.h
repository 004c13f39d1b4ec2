/*
 * Slices to lend to a drawing of the split box, what stands in them before and after, and results.
 */
#ifndef SLICES_H
#define SLICES_H

#include <string.h>

#include "clearance.h"

enum { POINT_ROOM = 19, TRIANGLE_ROOM = 25 };

/* The drawing of the split box with 3 in the middle and -1 elsewhere: every point is a quarter of its edge from the dry end. */
static const float places[18] = {128.0f, 512.0f, 512.0f, 896.0f, 512.0f, 512.0f, 512.0f, 128.0f, 512.0f, 512.0f, 896.0f, 512.0f, 512.0f, 512.0f, 128.0f,
    512.0f, 512.0f, 896.0f};
static const uint32_t numbers[24] = {0, 4, 2, 1, 2, 4, 0, 3, 4, 1, 4, 3, 0, 2, 5, 1, 5, 2, 0, 5, 3, 1, 3, 5};

/* Slices to lend, one element longer than that drawing, and how many elements of each are lent. */
struct slices {
    float points[POINT_ROOM];
    uint32_t triangles[TRIANGLE_ROOM];
};
struct room {
    size_t points;
    size_t triangles;
};
static const struct room enough = {POINT_ROOM, TRIANGLE_ROOM};
static const struct room none = {0, 0};

static int are_counts(struct clearance_counts counts, uint32_t number, uint32_t points, uint32_t triangles)
{
    return counts.number == number && counts.points == points && counts.triangles == triangles;
}

/* What stands in lent slices before: NaNs, quiet and signalling, of both signs and many payloads, and numbers of no point. Bits are compared. */
static void fill(struct slices *slices)
{
    for (uint32_t n = 0; n < POINT_ROOM; n++) {
        uint32_t bits = (n + 1) * 0x9e3779b1u | 0x7f800001u;
        memcpy(slices->points + n, &bits, sizeof bits);
    }
    for (uint32_t n = 0; n < TRIANGLE_ROOM; n++) {
        slices->triangles[n] = (n + 1) * 0x9e3779b1u | 0x80000000u;
    }
}

/* Whether slices have the drawing of the split box and, behind it, what stood there before. */
static int are_drawn(const struct slices *slices)
{
    struct slices before;
    fill(&before);
    return memcmp(slices->points, places, sizeof places) == 0 && memcmp(slices->points + 18, before.points + 18, sizeof(float)) == 0
        && memcmp(slices->triangles, numbers, sizeof numbers) == 0 && slices->triangles[24] == before.triangles[24];
}

#endif
