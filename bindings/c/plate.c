/* A perforated plate: an outline with rounded corners and a grid of holes, summed to the length that a cutter runs.
 * bindings/rust/examples/plate.rs draws the same plate and prints the same. */
#include "cornsunset.h"
#include <math.h>
#include <stdio.h>
#include <stdlib.h>

enum { COLUMNS = 12, ROWS = 7, CORNERS = 4, CURVES = 2 * CORNERS + COLUMNS * ROWS };

/* Millimetres. */
static const double LENGTH = 400, BREADTH = 250, CORNER = 12, HOLE = 5, MARGIN = 35, PITCH = 30;

/* A curve has at most three points of its own and two vertices; the first two points are the corners of the box. */
static double points[3 * (2 + 5 * CURVES)];
static uint32_t curves[3 * CURVES];
static double reals[2 * CURVES];
static cs_tables plate = {.points = points, .curves = curves, .reals = reals};

static uint32_t add_point(double x, double y, double z) {
    double *p = points + plate.points_len;
    p[0] = x, p[1] = y, p[2] = z;
    plate.points_len += 3;
    return (uint32_t)(plate.points_len / 3 - 1);
}

static uint32_t add_curve(uint32_t kind, uint32_t first, uint32_t count, double p) {
    uint32_t *row = curves + plate.curves_len;
    row[0] = kind, row[1] = first, row[2] = count;
    reals[plate.reals_len] = p;
    plate.curves_len += 3, plate.reals_len += 2;
    return (uint32_t)(plate.curves_len / 3 - 1);
}

static cs_edge edge_on(uint32_t curve, uint32_t start, uint32_t end, double lo, double hi) {
    cs_edge edge = {.curve = curve, .start = start, .end = end, .sense = 1, .lo = lo, .hi = hi, .low = 0, .high = 1};
    return edge;
}

/* A straight edge. Its line's first point is its start vertex too. */
static cs_edge side(double x0, double y0, double x1, double y1) {
    const uint32_t start = add_point(x0, y0, 0);
    add_point(x1 - x0, y1 - y0, 0);
    return edge_on(add_curve(CS_KIND_LINE, start, 2, 0), start, add_point(x1, y1, 0), 0, 1);
}

/* A circle about (x, y): axis and ref_dir are unit vectors at right angles. */
static uint32_t circle(double x, double y, double radius) {
    const uint32_t first = add_point(x, y, 0);
    add_point(0, 0, 1);
    add_point(1, 0, 0);
    return add_curve(CS_KIND_CIRCLE, first, 3, radius);
}

/* The quarter of the corner about (x, y), from so many degrees on. */
static cs_edge corner(double x, double y, double degrees, const double start[2], const double end[2]) {
    const uint32_t curve = circle(x, y, CORNER), from = add_point(start[0], start[1], 0), to = add_point(end[0], end[1], 0);
    return edge_on(curve, from, to, cs_degrees(degrees), cs_degrees(degrees + 90));
}

static cs_edge hole(double x, double y) {
    const uint32_t curve = circle(x, y, HOLE), vertex = add_point(x + HOLE, y, 0);
    return edge_on(curve, vertex, vertex, 0, cs_degrees(360));
}

/* Each corner and the side that leads on to the next. */
static void outline(cs_edge *edges) {
    const double l = LENGTH, b = BREADTH, r = CORNER;
    const double starts[CORNERS][2] = {{l - r, 0}, {l, b - r}, {r, b}, {0, r}};
    const double ends[CORNERS][2] = {{l, r}, {l - r, b}, {0, b - r}, {r, 0}};
    const double centres[CORNERS][2] = {{l - r, r}, {l - r, b - r}, {r, b - r}, {r, r}};
    for (int i = 0; i < CORNERS; i++) {
        const double *next = starts[(i + 1) % CORNERS];
        *edges++ = corner(centres[i][0], centres[i][1], 270 + 90 * i, starts[i], ends[i]);
        *edges++ = side(ends[i][0], ends[i][1], next[0], next[1]);
    }
}

static void holes(cs_edge *edges) {
    for (int j = 0; j < ROWS; j++) {
        for (int i = 0; i < COLUMNS; i++) *edges++ = hole(MARGIN + PITCH * i, MARGIN + PITCH * j);
    }
}

/* Ends the program with the refusal's sentence, if there is one. */
static void accept(uint32_t refusal) {
    if (refusal == CS_DRAWN) return;
    puts(cs_sentence(refusal));
    exit(1);
}

/* The distances from each point of a chain to its next. */
static double length_of(const double *chain, size_t count) {
    double sum = 0;
    for (const double *p = chain; p + CS_WIDTH < chain + CS_WIDTH * count; p += CS_WIDTH) {
        const double *q = p + CS_WIDTH;
        const double x = q[CS_X] - p[CS_X], y = q[CS_Y] - p[CS_Y], z = q[CS_Z] - p[CS_Z];
        sum += sqrt(x * x + y * y + z * z);
    }
    return sum;
}

/* The length of so many edges, and a line about them. */
static double cut(const char *name, const cs_edge *edges, size_t n, const cs_options *options) {
    enum { FLOATS = 256 * CS_WIDTH };
    double first[FLOATS], second[FLOATS], length = 0;
    size_t all = 0, count;
    uint32_t way;
    for (size_t i = 0; i < n; i++) {
        accept(cs_draw_over(&plate, &edges[i], options, first, FLOATS, second, FLOATS, &way, &count));
        length += length_of(cs_chain(way, first, second), count);
        all += count;
    }
    printf("%s: %zu edges, %zu points, %.9f mm\n", name, n, all, length);
    return length;
}

int main(void) {
    static cs_edge edges[CURVES];
    add_point(0, 0, 0);
    add_point(LENGTH, BREADTH, 0);
    outline(edges);
    holes(edges + 2 * CORNERS);
    accept(cs_check_tables(&plate));

    cs_options options = cs_options_default();
    options.scale = sqrt(LENGTH * LENGTH + BREADTH * BREADTH);
    double total = cut("outline", edges, 2 * CORNERS, &options);
    total += cut("holes", edges + 2 * CORNERS, CURVES - 2 * CORNERS, &options);
    const double turn = cs_degrees(360);
    const double truth = 2 * (LENGTH + BREADTH - 4 * CORNER) + turn * CORNER + COLUMNS * ROWS * turn * HOLE;
    printf("cut length: %.9f mm, %.3f %% under the true %.9f mm\n", total, 100 * (truth - total) / truth, truth);
    return 0;
}
