/* Reads parts that begin with the line `measure`, have lines of nine floats by their bits, a b p, and end with a line ====; prints
 * for each line the distance and the place for thinning, then those for bisection, as `oracle measure` does. It takes the parts'
 * layout for granted. */
#include "cornsunset.h"
#include <inttypes.h>
#include <math.h>
#include <stdio.h>
#include <stdlib.h>
#include <string.h>

static char line[4096];

static void demand(bool holds, const char *what) {
    if (!holds) {
        fprintf(stderr, "measure: %s\n", what);
        exit(1);
    }
}

/* The floats of the line that was read. */
static void read_floats(double v[9]) {
    char *at = line;
    for (int i = 0; i < 9; i++) {
        uint64_t bits;
        int read = 0;
        demand(sscanf(at, "%16" SCNx64 "%n", &bits, &read) == 1, "nine floats");
        memcpy(v + i, &bits, sizeof bits);
        at += read;
    }
    demand(strcmp(at, "\n") == 0, "no more than nine floats");
}

/* The bits of a float, those of any NaN as of one. */
static uint64_t plain(double x) {
    uint64_t bits = 0x7ff8000000000000;
    if (!isnan(x)) memcpy(&bits, &x, sizeof bits);
    return bits;
}

static void answer(const double v[9]) {
    const cs_measured t = cs_measure_for_thinning(v, v + 3, v + 6), b = cs_measure_for_bisection(v, v + 3, v + 6);
    printf("%016" PRIx64 " %016" PRIx64 " %016" PRIx64 " %016" PRIx64 "\n", plain(t.distance), plain(t.place), plain(b.distance),
           plain(b.place));
}

int main(void) {
    double v[9];
    while (fgets(line, sizeof line, stdin) != NULL) {
        if (strcmp(line, "====\n") == 0) {
            fputs(line, stdout);
        } else if (strcmp(line, "measure\n") != 0) {
            read_floats(v);
            answer(v);
        }
    }
    return 0;
}
