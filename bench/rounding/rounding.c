/* rounding (NAME ROUND_WEIGHT LIBRARY)...: of each pair of shared libraries, that of the crate round_weight and libayresokum.so, the
 * nanoseconds that one rounding of a float weight and one ayresokum_settle take, as a table in markdown. The pairs are timed in turn, each time
 * in a process of its own: in one process the second of two functions that are called from one place is slower than it is alone. Then every
 * 32-bit float is rounded by the last pair's function and by document 01's rule. */
#define _POSIX_C_SOURCE 200809L
#include <ayresokum.h>
#include <dlfcn.h>
#include <math.h>
#include <stdio.h>
#include <stdlib.h>
#include <string.h>
#include <sys/wait.h>
#include <time.h>
#include <unistd.h>

enum { ROUNDS = 15, TIMED = 3, ROUNDINGS = 1000000, SETTLES = 50000, WEIGHTS = 9, MOST_LIBRARIES = 4 };
enum { MATRICES = 5, RANGES = 2, LEAST_DEPTH = 10, MOST_DEPTH = 16, MOST_PRECISION = 13 };
enum { SETTINGS = MATRICES * RANGES * (MOST_DEPTH - LEAST_DEPTH + 1) * MOST_PRECISION };

typedef int32_t round_weight(float x);
typedef ayresokum_settled settle(ayresokum_settings settings);

typedef struct libraries {
    const char *name;
    round_weight *round;
    settle *settle;
} libraries;

/* Nanoseconds for a call; and how many settings the settles are of. */
typedef struct times {
    double weight, edge, settle, empty;
    size_t settings;
} times;

/* Document 01, Kr and Kb in ten-thousandths; Bt470_6 by document 02, Three. */
static const uint32_t ten_thousandths[MATRICES][2] = { { 2990, 1140 }, { 2126, 722 }, { 2627, 593 }, { 2120, 870 }, { 2990, 1140 } };

static const float edges[] = {
    0.0f, 0x1p-149f, 0x1p-126f, 0x1.fffffep-3f, 0x1.fffffep-2f, 0.5f, 0x1.000002p-1f, 1.0f, 1.4999999f, 1.5f, 2.5f, 3.4999998f, 3.5f, 4096.5f,
    4194303.5f, 8388607.5f, 8388608.0f, 8388609.0f, 16777215.0f, 16777216.0f, 0x1p27f, 0x1p30f, 2147483520.0f, 2147483648.0f, 0x1.fffffep127f, INFINITY, NAN
};
enum { EDGES = 2 * sizeof edges / sizeof *edges };

static float weights[SETTINGS * WEIGHTS];
static float edge_values[EDGES];
static ayresokum_settings accepted[SETTINGS];

/* The nearest whole number, a half away from zero, at most 2^31 - 1 in size; 0 for what is no number. In whole numbers alone. */
static int32_t rule(float x)
{
    uint32_t bits, exponent;
    uint64_t digits, size = 0;
    memcpy(&bits, &x, sizeof bits);
    exponent = bits >> 23 & 255; /* x is digits * 2^(exponent - 150) in size, from 2^-126 on */
    digits = (bits & 0x7fffff) | 0x800000;
    if (exponent == 255 && (bits & 0x7fffff) != 0)
        return 0;
    if (exponent >= 158)
        size = INT32_MAX;
    else if (exponent >= 150)
        size = digits << (exponent - 150);
    else if (exponent >= 126)
        size = (digits + ((uint64_t)1 << (149 - exponent))) >> (150 - exponent);
    return bits >> 31 ? -(int32_t)size : (int32_t)size;
}

/* The weights of get_forward_transform, in its order of 32-bit operations, times 2^P. */
static void put_weights(float *to, ayresokum_settings s)
{
    const float kr = (float)(ten_thousandths[s.matrix][0] / 10000.0), kb = (float)(ten_thousandths[s.matrix][1] / 10000.0), kg = 1.0f - kr - kb;
    const uint32_t m = ((uint32_t)1 << s.depth) - 1, unit = (uint32_t)1 << (s.depth - 8);
    const float rgba = (float)m, y = s.range == AYRESOKUM_FULL ? rgba : (float)(219 * unit), uv = s.range == AYRESOKUM_FULL ? rgba : (float)(224 * unit);
    const float scale = (float)((uint32_t)1 << s.precision);
    const float all[WEIGHTS] = {
        kr * y / rgba, kg * y / rgba, kb * y / rgba,
        -0.5f * kr / (1.0f - kb) * uv / rgba, -0.5f * kg / (1.0f - kb) * uv / rgba, 0.5f * uv / rgba,
        0.5f * uv / rgba, -0.5f * kg / (1.0f - kr) * uv / rgba, -0.5f * kb / (1.0f - kr) * uv / rgba
    };
    int i;
    for (i = 0; i < WEIGHTS; i++)
        to[i] = all[i] * scale;
}

static double nanoseconds(void)
{
    struct timespec now;
    clock_gettime(CLOCK_PROCESS_CPUTIME_ID, &now);
    return now.tv_sec * 1e9 + now.tv_nsec;
}

static volatile int32_t kept;

/* One pass over values, or over the accepted settings; the sum keeps the compiler from leaving a call out. */
typedef uint32_t pass_over(const libraries *of, const float *values, size_t count);

static uint32_t round_all(const libraries *of, const float *values, size_t count)
{
    round_weight *const round = of->round;
    uint32_t sum = 0;
    size_t i;
    for (i = 0; i < count; i++)
        sum += (uint32_t)round(values[i]);
    return sum;
}

static uint32_t settle_all(const libraries *of, const float *values, size_t count)
{
    settle *const settle = of->settle;
    uint32_t sum = 0;
    size_t i;
    (void)values;
    for (i = 0; i < count; i++)
        sum += (uint32_t)settle(accepted[i]).yg;
    return sum;
}

static double time_of_a_call(pass_over *pass, const libraries *of, const float *values, size_t count, size_t calls)
{
    const size_t passes = calls / count;
    const double before = nanoseconds();
    uint32_t sum = 0;
    size_t i;
    for (i = 0; i < passes; i++)
        sum += pass(of, values, count);
    kept = (int32_t)sum;
    return (nanoseconds() - before) / (double)(passes * count);
}

/* Whether the library's weights of settings are the rule's. */
static int same_weights(ayresokum_settled settled, const float *of)
{
    const int32_t all[WEIGHTS] = { settled.yr, settled.yg, settled.yb, settled.cb_r, settled.cb_g, settled.cb_b, settled.cr_r, settled.cr_g, settled.cr_b };
    int i;
    for (i = 0; i < WEIGHTS; i++)
        if (all[i] != rule(of[i]))
            return 0;
    return 1;
}

/* The weights of all settings with a named matrix, and those settings that are not refused; how many these are. */
static size_t prepare(const libraries *of)
{
    size_t count = 0, place = 0, i;
    ayresokum_settings s = { 0 };
    for (s.matrix = 0; s.matrix < MATRICES; s.matrix++)
        for (s.range = 0; s.range < RANGES; s.range++)
            for (s.depth = LEAST_DEPTH; s.depth <= MOST_DEPTH; s.depth++)
                for (s.precision = 1; s.precision <= MOST_PRECISION; s.precision++) {
                    const ayresokum_settled settled = of->settle(s);
                    put_weights(weights + place, s);
                    if (settled.refusal == AYRESOKUM_DONE) {
                        if (!same_weights(settled, weights + place)) {
                            fprintf(stderr, "%s: other weights than the rule's\n", of->name);
                            exit(1);
                        }
                        accepted[count++] = s;
                    }
                    place += WEIGHTS;
                }
    for (i = 0; i < EDGES; i++)
        edge_values[i] = i % 2 ? -edges[i / 2] : edges[i / 2];
    return count;
}

static void *symbol(const char *path, const char *name)
{
    void *library = dlopen(path, RTLD_NOW | RTLD_LOCAL), *found = library ? dlsym(library, name) : NULL;
    if (!found) {
        fprintf(stderr, "%s: %s\n", path, dlerror());
        exit(1);
    }
    return found;
}

static libraries load(char **names)
{
    libraries loaded;
    void *round = symbol(names[1], "round_weight"), *settle = symbol(names[2], "ayresokum_settle");
    loaded.name = names[0];
    memcpy(&loaded.round, &round, sizeof round);
    memcpy(&loaded.settle, &settle, sizeof settle);
    return loaded;
}

static int32_t nothing(float x)
{
    (void)x;
    return 0;
}

static void keep_least(double *least, double time)
{
    if (time < *least)
        *least = time;
}

static void keep_least_times(times *least, times other)
{
    keep_least(&least->weight, other.weight);
    keep_least(&least->edge, other.edge);
    keep_least(&least->settle, other.settle);
    keep_least(&least->empty, other.empty);
    least->settings = other.settings;
}

static times longest(void)
{
    const times all = { INFINITY, INFINITY, INFINITY, INFINITY, 0 };
    return all;
}

static times measure(char **names)
{
    const libraries of = load(names), empty = { NULL, nothing, NULL };
    const size_t settings = prepare(&of);
    times best = longest();
    int i;
    for (i = 0; i < TIMED; i++) {
        times one;
        one.weight = time_of_a_call(round_all, &of, weights, SETTINGS * WEIGHTS, ROUNDINGS);
        one.edge = time_of_a_call(round_all, &of, edge_values, EDGES, ROUNDINGS);
        one.settle = time_of_a_call(settle_all, &of, NULL, settings, SETTLES);
        one.empty = time_of_a_call(round_all, &empty, weights, SETTINGS * WEIGHTS, ROUNDINGS);
        one.settings = settings;
        keep_least_times(&best, one);
    }
    return best;
}

/* What a process of its own measures. */
static times measured_apart(char **names)
{
    times answer;
    int ends[2], status;
    pid_t child;
    if (pipe(ends) != 0 || (child = fork()) < 0) {
        perror("rounding");
        exit(1);
    }
    if (child == 0) {
        const times found = measure(names);
        _exit(write(ends[1], &found, sizeof found) == (ssize_t)sizeof found ? 0 : 1);
    }
    close(ends[1]);
    if (read(ends[0], &answer, sizeof answer) != (ssize_t)sizeof answer || waitpid(child, &status, 0) != child || status != 0)
        exit(1);
    close(ends[0]);
    return answer;
}

static void print_times(char **names, int count)
{
    times best[MOST_LIBRARIES];
    int round, i;
    for (i = 0; i < count; i++)
        best[i] = longest();
    for (round = 0; round < ROUNDS; round++)
        for (i = 0; i < count; i++)
            keep_least_times(&best[i], measured_apart(names + 3 * i));
    printf("Nanoseconds for a call, the best of %d rounds: a rounding, the mean over the %d weights of all settings with a named matrix and over %d edge\n", ROUNDS * TIMED, SETTINGS * WEIGHTS, (int)EDGES);
    printf("values in turn; a settle, the mean over the %d of those settings that are not refused.\n\n", (int)best[0].settings);
    printf("| | a weight | an edge value | a settle |\n|---|---|---|---|\n");
    for (i = 0; i < count; i++)
        printf("| %s | %.2f | %.2f | %.1f |\n", names[3 * i], best[i].weight, best[i].edge, best[i].settle);
    printf("| a function that returns 0 | %.2f | | |\n", best[0].empty);
    fflush(stdout);
}

static float float_of(uint32_t bits)
{
    float x;
    memcpy(&x, &bits, sizeof x);
    return x;
}

/* How many of the 32-bit floats, a NaN's patterns among them, are rounded otherwise than by the rule. */
static unsigned long try_every_float(round_weight *round)
{
    unsigned long differ = 0;
    uint32_t bits = 0;
    do
        differ += round(float_of(bits)) != rule(float_of(bits));
    while (++bits != 0);
    return differ;
}

/* The first float from 0 on whose whole part is another than the rule's number once a half is added in f32. */
static float first_wrong_half(void)
{
    uint32_t bits = 0;
    while ((int32_t)(float_of(bits) + 0.5f) == rule(float_of(bits)))
        bits++;
    return float_of(bits);
}

int main(int argc, char **argv)
{
    const int count = (argc - 1) / 3;
    float wrong;
    unsigned long differ;
    if (argc % 3 != 1 || count < 1 || count > MOST_LIBRARIES) {
        fprintf(stderr, "usage: rounding (NAME ROUND_WEIGHT LIBRARY)..., at most %d of them\n", (int)MOST_LIBRARIES);
        return 2;
    }
    print_times(argv + 1, count);
    wrong = first_wrong_half();
    printf("\nA half added in f32 first goes wrong at %.9g (%a): the sum is %.9g.\n", wrong, wrong, wrong + 0.5f);
    fflush(stdout);
    differ = try_every_float(load(argv + 1 + 3 * (count - 1)).round);
    printf("Of all 4294967296 floats %lu are rounded otherwise than by the rule.\n", differ);
    return differ != 0;
}
