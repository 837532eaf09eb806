/* A hole of radius 2 in a part of size 4, drawn with a deflection of 2 % and an angle of 20 degrees, walked there and back. */
#include "cornsunset.h"
#include <stdio.h>

int main(void) {
    /* The circle's origin, axis and ref_dir; its vertex; the corners of the box. */
    const double points[] = {0, 0, 0, 0, 0, 1, 1, 0, 0, 2, 0, 0, -2, -2, 0, 2, 2, 0};
    const uint32_t curves[] = {CS_KIND_CIRCLE, 0, 3};
    const double reals[] = {2, 0};
    /* It has no segments: NULL and 0. */
    const cs_tables tables = {.points = points, .points_len = 18, .curves = curves, .curves_len = 3, .reals = reals, .reals_len = 2};
    const cs_edge edge = {.curve = 0, .start = 3, .end = 3, .sense = 1, .lo = 0, .hi = 6.283185307179586, .low = 4, .high = 5};
    cs_options options = cs_options_default();
    options.scale = 4;
    options.deflection = 0.02;
    options.angle = cs_angle_degrees(20);

    enum { LENGTH = CS_WIDTH * 256 };
    double first[LENGTH], second[LENGTH];
    uint32_t way;
    size_t count;
    const uint32_t refusal = cs_draw(&tables, &edge, &options, first, LENGTH, second, LENGTH, &way, &count);
    if (refusal != CS_DRAWN) {
        puts(cs_sentence(refusal));
        return 1;
    }
    const double *chain = cs_chain(way, first, second);
    printf("way %u, %zu points\n", way, count);
    double point[CS_WIDTH];
    for (int forward = 1; forward >= 0; forward--) {
        size_t at = cs_start(chain, CS_WIDTH * count, forward);
        while (cs_step(chain, CS_WIDTH * count, forward, &at, point)) {
            printf("%9.6f %9.6f %9.6f  t %.6f\n", point[CS_X], point[CS_Y], point[CS_Z], point[CS_T]);
        }
    }
    options.angle = cs_angle_radians(8);
    printf("8 radians are %s\n", cs_angle_is_clamped(options.angle) ? "clamped" : "kept");
    return 0;
}
