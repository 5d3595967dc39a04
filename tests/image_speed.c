/* How long the check of an image takes beside the build from the same composed rows, and a walk for each letter; the
 * least of several turns, taken in turns. And how long the dearest image takes that is known. gcc -O2 -o target/image_speed tests/image_speed.c -Ltarget/staticlib -lcapi_image -lcapi_factor_build */
#define _POSIX_C_SOURCE 199309L
#include "../host/hypergroup.h"

#include <stdio.h>
#include <stdlib.h>
#include <time.h>

enum { MOST = 65535 };

static uint32_t rows[8 * MOST], key[MOST];
static int32_t number[1 << 24];
static uint8_t image[8 + 16 * MOST], letters[1 << 20];

static double seconds(void) {
    struct timespec t;
    clock_gettime(CLOCK_MONOTONIC, &t);
    return (double)t.tv_sec + 1e-9 * (double)t.tv_nsec;
}

/* Elements as keys: an index in each of the cyclic groups of these sizes, or a reflection and a turn of a polygon. */
static uint32_t turned(const uint32_t *sizes, uint32_t x, uint32_t g) {
    uint32_t i, stride = 1, digit;
    if (sizes[0] == 0) {
        uint32_t m = sizes[1], turn = x / 2, flip = x % 2;
        if (g == 1) turn = flip ? (turn + m - 1) % m : (turn + 1) % m;
        return 2 * turn + (1 - flip);
    }
    for (i = 0; i < g; i++) stride *= sizes[i];
    digit = x / stride % sizes[g];
    return x - digit * stride + (digit + 1) % sizes[g] * stride;
}

/* The image of the rows. */
static void write_image(uint32_t n, uint32_t count) {
    uint32_t i, rest = 4 + 2 * n * count;
    for (i = 0; i < 4; i++) image[i] = (uint8_t)(rest >> (24 - 8 * i));
    image[4] = 1, image[5] = (uint8_t)n, image[6] = (uint8_t)(count >> 8), image[7] = (uint8_t)count;
    for (i = 0; i < n * count; i++) image[8 + 2 * i] = (uint8_t)(rows[i] >> 8), image[9 + 2 * i] = (uint8_t)rows[i];
}

/* Numbers the elements by first appearance, into `rows` and `image`; how many there are. */
static uint32_t number_all(const uint32_t *sizes, uint32_t n) {
    uint32_t count = 1, e, g, i;
    for (i = 0; i < 1 << 24; i++) number[i] = -1;
    key[0] = 0, number[0] = 0;
    for (e = 0; e < count; e++)
        for (g = 0; g < n; g++) {
            uint32_t x = turned(sizes, key[e], g);
            if (number[x] < 0) key[count] = x, number[x] = (int32_t)count++;
            rows[e * n + g] = (uint32_t)number[x];
        }
    write_image(n, count);
    return count;
}

static void measure(const char *what, const uint32_t *sizes, uint32_t n) {
    uint32_t count = number_all(sizes, n), out[5], found = 0, x = 0;
    size_t cells = (size_t)count * (2 * n + 4), scratch = (size_t)count * (6 * n * n + 4 * n), bytes = (size_t)count * (32 * n * n + 100);
    uint32_t *table = malloc(4 * cells), *work = malloc(4 * scratch + 4);
    uint8_t *lent = malloc(bytes);
    double built = 1e9, checked = 1e9, walked = 1e9, a, b, c, d;
    int turn;
    for (turn = 0; turn < (1 << 20); turn++) letters[turn] = (uint8_t)(rand() % (int)n);
    for (turn = 0; turn < 7; turn++) {
        a = seconds();
        hg_composed(table, cells, 0, work, scratch, rows, (size_t)n * count, (uint8_t)n, count, out, 5);
        b = seconds();
        found = hg_image_check(image, 8 + 2 * (size_t)n * count, lent, bytes);
        c = seconds();
        x = hg_image_walk(image, 8 + 2 * (size_t)n * count, x, letters, 1 << 20);
        d = seconds();
        if (b - a < built) built = b - a;
        if (c - b < checked) checked = c - b;
        if (d - c < walked) walked = d - c;
    }
    printf("%s: %u elements, %u generators, answers %u %u; composed %.1f ms, checked %.1f ms, %.2f times as fast; %.1f ns a letter\n", what, (unsigned)count,
        (unsigned)n, (unsigned)out[0], (unsigned)found, 1e3 * built, 1e3 * checked, built / checked, 1e9 * walked / (1 << 20));
    free(table), free(work), free(lent);
}

/* Fills the places of column g that are free with the elements that it does not lead to, at random and to none from itself. */
static void fill(uint32_t n, uint32_t g) {
    static uint32_t from[MOST], to[MOST];
    static uint8_t led[MOST];
    uint32_t e, i, j, x, free_places = 0, free_elements = 0;
    for (e = 0; e < MOST; e++) led[e] = 0;
    for (e = 0; e < MOST; e++)
        if (rows[e * n + g] == MOST) from[free_places++] = e;
        else led[rows[e * n + g]] = 1;
    for (e = 0; e < MOST; e++)
        if (!led[e]) to[free_elements++] = e;
    for (i = free_elements; i > 1; i--) j = (uint32_t)rand() % i, x = to[i - 1], to[i - 1] = to[j], to[j] = x;
    for (i = 0; i < free_places; i++) {
        j = (i + 1) % free_places;
        if (to[i] == from[i]) x = to[i], to[i] = to[j], to[j] = x;
    }
    for (i = 0; i < free_places; i++) rows[from[i] * n + g] = to[i];
}

/* An image that no group has and whose words are nearly all as long as words may be: a chain of so many steps, an even number, by the first generator, along
 * which the others go to and fro, and all other elements in a tree behind it. No inverse comes from an earlier one, so that every word is walked. */
static void hostile(uint32_t n, uint32_t chain) {
    uint32_t e, g, count = 1, found, out[4];
    size_t length = 8 + 2 * (size_t)n * MOST, bytes = (size_t)MOST * (32 * n * n + 100);
    uint8_t *lent = malloc(bytes);
    clock_t began;
    for (e = 0; e < MOST; e++)
        for (g = 0; g < n; g++) rows[e * n + g] = e < chain && g > 0 ? e ^ 1 : count < MOST ? count++ : MOST;
    for (g = 0; g < n; g++) fill(n, g);
    write_image(n, MOST);
    began = clock();
    found = hg_image_verdict(image, length, lent, bytes, out, 4);
    began = clock() - began;
    printf("hostile, %u generators: %lu bytes, %lu of work, answers %u at %u %u %u; checked in %.2f s of processor time\n", (unsigned)n, (unsigned long)length, (unsigned long)bytes,
        (unsigned)found, (unsigned)out[1], (unsigned)out[2], (unsigned)out[3], (double)began / CLOCKS_PER_SEC);
    free(lent);
}

int main(void) {
    static const uint32_t polygon[] = {0, 4096}, abelian[] = {2, 2, 2, 2, 2, 2, 33, 31};
    measure("order 4,096", polygon, 2);
    measure("Z2^6 by Z33 by Z31", abelian, 8);
    hostile(2, 4080);
    hostile(8, 4090);
    return 0;
}
