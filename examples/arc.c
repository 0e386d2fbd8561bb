/* The question of arc.txt, asked from C: prints the same seven lines as bin/gripcheck examples/arc.txt.
 *
 * Usage: arc [REVISION [NODES [cart]]]
 * REVISION is that of the arithmetic, as behind 'rev=' in a text; without it it is 1. NODES is 64 if not given. With the word cart the training cart is asked,
 * which takes 48 nodes at most and has a work area of its own. */
#include <inttypes.h>
#include <stdio.h>
#include <stdlib.h>
#include <string.h>

#include "puhlwazo.h"

static void print_bound(const char *name, int enclosed, double x)
{
    uint64_t bits;
    memcpy(&bits, &x, sizeof bits);
    if (enclosed)
        printf("%s=%016" PRIx64 "\n", name, bits);
    else
        printf("%s=-\n", name);
}

int main(int argc, char **argv)
{
    size_t rev = argc > 1 ? strtoul(argv[1], NULL, 10) : 1;
    size_t nodes = argc > 2 ? strtoul(argv[2], NULL, 10) : 64;
    int on_cart = argc > 3 && strcmp(argv[3], "cart") == 0;
    enum { DIM = 2, DEGREE = 2, COUNT = 3, KNOTS = COUNT + DEGREE + 1, POINTS = 2 * (DIM + 1) * COUNT, BOX = 2 * DIM };
    static const double knots[KNOTS] = {0, 0, 0, 1, 1, 1};
    static const double points[POINTS] = {
        0, 0, 0, 0, 1, 1, /* (0, 0), weight 1: lo and hi of each */
        2, 2, 4, 4, 1, 1, /* (2, 4) */
        4, 4, 0, 0, 1, 1, /* (4, 0) */
    };
    static const double box[BOX] = {1.9, 2.1, 1.9, 2.1};
    static const char *const words[] = {"none", "enclosed", "spent"};

    if (!puhlwazo_environment_ok()) {
        fputs("arc: the floating-point environment is not the one that the library needs (was this linked with -ffast-math?)\n", stderr);
        return 1;
    }
    uint64_t refusal, counts[PUHLWAZO_COUNTS];
    double bounds[2];
    if (on_cart) {
        refusal = puhlwazo_cart_could_contain(rev, DIM, DEGREE, COUNT, knots, KNOTS, points, POINTS, box, BOX, 0.001, nodes, counts, bounds);
    } else {
        size_t words_needed = puhlwazo_work_words(DIM, DEGREE, COUNT, nodes); /* 0 where the sizes are refused; the pointer must not be NULL then either */
        double *work = malloc((words_needed + 1) * sizeof *work);
        if (work == NULL)
            return 1;
        refusal = puhlwazo_curve_could_contain(rev, DIM, DEGREE, COUNT, knots, KNOTS, points, POINTS, box, BOX, 0.001, nodes, work, words_needed, counts, bounds);
        free(work);
    }

    if (refusal != 0)
        printf("result=refused-%" PRIu64 "\n", refusal);
    else
        printf("result=%s\n", words[counts[0]]);
    printf("visited=%" PRIu64 "\ncuts=%" PRIu64 "\ndepth=%" PRIu64 "\npending=%" PRIu64 "\n", counts[1], counts[3], counts[4], counts[2]);
    print_bound("lo", counts[0] == PUHLWAZO_ENCLOSED, bounds[0]);
    print_bound("hi", counts[0] == PUHLWAZO_ENCLOSED, bounds[1]);
    return 0;
}
