/*
 * Draws the survey in a directory, and prints the listing of the documents' drawing program: points and triangles, or `refused` and a number, with its
 * words on standard error. The files are `cells`, `corners`, `amendments` and `clearance`; a missing file counts as empty, and one that can't be read ends
 * the program. The slices are as long as the drawing needs.
 *
 * The exit status is 0 if the survey is drawn and 1 if it is refused, or anything else is wrong. (The documents' program ends with 0 on refusals too.)
 *
 *     mkdir -p target
 *     cc -I include examples/c/draw.c crates/clearance/out/libclearance.a -o target/draw && target/draw examples/twin
 */
#include <errno.h>
#include <inttypes.h>
#include <math.h>
#include <stdio.h>
#include <stdlib.h>
#include <string.h>

#include "clearance.h"

/* A byte more than the longest that is not refused: a longer file is refused by its length, whatever else it holds. */
struct survey {
    uint8_t cells[CLEARANCE_MOST_CELL_BYTES + 1];
    size_t cells_length;
    uint8_t corners[CLEARANCE_MOST_CORNER_BYTES + 1];
    size_t corners_length;
    uint8_t amendments[CLEARANCE_MOST_AMENDMENT_BYTES + 1];
    size_t amendments_length;
    float clearance;
};

struct drawing {
    struct clearance_counts counts;
    float *points;
    uint32_t *triangles;
};

static void fail(const char *what)
{
    fprintf(stderr, "draw: %s\n", what);
    exit(EXIT_FAILURE);
}

/* Reads a file into a buffer as far as that goes, and returns how many bytes there were. */
static size_t read_file(const char *directory, const char *name, uint8_t *buffer, size_t room)
{
    char path[4096];
    int length = snprintf(path, sizeof path, "%s/%s", directory, name);
    if (length < 0 || (size_t)length >= sizeof path) {
        fail("the directory's name is too long");
    }
    FILE *file = fopen(path, "rb");
    if (file == NULL) {
        if (errno != ENOENT) {
            fail("a file can't be opened");
        }
        return 0;
    }
    size_t bytes = fread(buffer, 1, room, file);
    if (ferror(file)) {
        fail("a file can't be read");
    }
    fclose(file);
    return bytes;
}

/* A clearance file of another length is refused as a clearance that is no number. */
static float read_clearance(const char *directory)
{
    uint8_t bytes[sizeof(float) + 1];
    float clearance = NAN;
    if (read_file(directory, "clearance", bytes, sizeof bytes) == sizeof clearance) {
        memcpy(&clearance, bytes, sizeof clearance);
    }
    return clearance;
}

static struct clearance_counts draw_into(const struct survey *survey, float *points, size_t points_length, uint32_t *triangles, size_t triangles_length)
{
    return clearance_draw(survey->cells, survey->cells_length, survey->corners, survey->corners_length, survey->amendments, survey->amendments_length,
        survey->clearance, points, points_length, triangles, triangles_length);
}

/* Asks for the counts with slices of no elements, then draws into slices that are just long enough. */
static struct drawing draw(const struct survey *survey)
{
    struct drawing drawing = {draw_into(survey, NULL, 0, NULL, 0), NULL, NULL};
    uint32_t number = drawing.counts.number;
    if (number != CLEARANCE_POINT_SLICE && number != CLEARANCE_TRIANGLE_SLICE) {
        return drawing;
    }
    size_t points_length = 3 * (size_t)drawing.counts.points;
    size_t triangles_length = 3 * (size_t)drawing.counts.triangles;
    drawing.points = malloc(points_length * sizeof *drawing.points);
    drawing.triangles = malloc(triangles_length * sizeof *drawing.triangles);
    if (drawing.points == NULL || drawing.triangles == NULL) {
        fail("out of memory");
    }
    drawing.counts = draw_into(survey, drawing.points, points_length, drawing.triangles, triangles_length);
    return drawing;
}

static void print_point(const float *place)
{
    uint32_t bits[3];
    memcpy(bits, place, sizeof bits);
    printf("v %08" PRIx32 " %08" PRIx32 " %08" PRIx32 "\n", bits[0], bits[1], bits[2]);
}

static void print_points(const struct drawing *drawing)
{
    for (size_t n = 0; n < drawing->counts.points; n++) {
        print_point(drawing->points + 3 * n);
    }
}

static void print_triangles(const struct drawing *drawing)
{
    for (size_t n = 0; n < drawing->counts.triangles; n++) {
        const uint32_t *corners = drawing->triangles + 3 * n;
        printf("t %" PRIu32 " %" PRIu32 " %" PRIu32 "\n", corners[0], corners[1], corners[2]);
    }
}

static void print_listing(const struct drawing *drawing)
{
    if (drawing->counts.number != 0) {
        printf("refused %" PRIu32 "\n", drawing->counts.number);
        fprintf(stderr, "draw: %s\n", clearance_words(drawing->counts.number));
        return;
    }
    printf("%" PRIu32 " %" PRIu32 "\n", drawing->counts.points, drawing->counts.triangles);
    print_points(drawing);
    print_triangles(drawing);
}

int main(int count, char **arguments)
{
    if (clearance_version() != CLEARANCE_VERSION) {
        fail("the archive does not fit the header");
    }
    static struct survey survey;
    const char *directory = count > 1 ? arguments[1] : ".";
    survey.cells_length = read_file(directory, "cells", survey.cells, sizeof survey.cells);
    survey.corners_length = read_file(directory, "corners", survey.corners, sizeof survey.corners);
    survey.amendments_length = read_file(directory, "amendments", survey.amendments, sizeof survey.amendments);
    survey.clearance = read_clearance(directory);

    struct drawing drawing = draw(&survey);
    print_listing(&drawing);
    free(drawing.points);
    free(drawing.triangles);
    return drawing.counts.number == 0 ? EXIT_SUCCESS : EXIT_FAILURE;
}
