/* The image's C functions as a C program calls them: document 01's images, each refusal's number, exact and short work,
 * margins, lists that end where the memory ends, and NULL with length 0. Last line 'N passed, M failed'. */
#include "guarded.h"

typedef struct {
    uint8_t bytes[4096];
    size_t length;
} Image;

static Image image_of(unsigned n, unsigned count, const unsigned *rows) {
    Image made;
    size_t rest = 4 + 2 * (size_t)n * count, i;
    made.length = rest + 4;
    for (i = 0; i < 4; i++) made.bytes[i] = (uint8_t)(rest >> (24 - 8 * i));
    made.bytes[4] = 1;
    made.bytes[5] = (uint8_t)n;
    made.bytes[6] = (uint8_t)(count >> 8);
    made.bytes[7] = (uint8_t)count;
    for (i = 0; i < (size_t)n * count; i++) {
        made.bytes[8 + 2 * i] = (uint8_t)(rows[i] >> 8);
        made.bytes[9 + 2 * i] = (uint8_t)rows[i];
    }
    return made;
}

static uint8_t *image_end, *work_end;

/* The image, so that its last byte is the memory's last. */
static const uint8_t *lend(const Image *image) {
    return memcpy(image_end - image->length, image->bytes, image->length);
}

static size_t need(const Image *image) {
    size_t n = image->bytes[5], count = 256 * (size_t)image->bytes[6] + image->bytes[7];
    return count * (32 * n * n + 100);
}

/* The number with exactly the work needed, with a margin before and after it, and with one byte less. */
static void checks_to(const Image *image, uint32_t number, bool started, const char *what) {
    size_t size = need(image), margin = 64;
    const uint8_t *bytes = lend(image);
    uint8_t *work = work_end - size;
    memset(work_end - AREA, 0xA5, AREA);
    expect(hg_image_check(bytes, image->length, work, size), number, what);
    expect(all(work, size, started ? 0 : 0xA5) && all(work - margin, margin, 0xA5), true, what);
    work -= margin;
    memset(work_end - AREA, 0xA5, AREA);
    expect(hg_image_check(bytes, image->length, work, size + margin), number, what);
    expect(all(work, size, started ? 0 : 0xA5) && all(work + size, margin, 0xA5), true, what);
    memset(work_end - AREA, 0xA5, AREA);
    expect(hg_image_check(bytes, image->length, work_end - size + 1, size - 1), started ? 4 : number, what);
    expect(all(work_end - AREA, AREA, 0xA5), true, what);
    expect(memcmp(bytes, image->bytes, image->length), 0, what);
}

/* A number that comes from the head only where it is 16 or 1. */
static void checks(const Image *image, uint32_t number, const char *what) {
    checks_to(image, number, number != 16 && number != 1, what);
}

static uint32_t walks(const Image *image, uint32_t start, const char *word) {
    size_t i, length = strlen(word);
    uint8_t *letters = work_end - length;
    for (i = 0; i < length; i++) letters[i] = (uint8_t)(word[i] - '0');
    return hg_image_walk(lend(image), image->length, start, letters, length);
}

static const unsigned z2[] = {1, 0}, s3[] = {1, 2, 0, 3, 4, 0, 5, 1, 2, 5, 3, 4}, gap[] = {1, 1}, stays[] = {0};
static const unsigned turned[] = {1, 2, 3, 3, 0, 0, 2, 1}, twice[] = {1, 1, 0, 0}, skips[] = {2, 1, 0}, more[] = {1, 2}, apart[] = {1, 0, 0};
static const unsigned crossed[] = {
    1,  2,  3, 4, 0,  5,  6, 7, 5,  0,  8, 9, 6,  8,  0, 10, 7, 9,  10, 0,  2, 1,  11, 12, 3, 12, 1, 13, 4, 11, 13, 1,
    11, 3,  2, 14, 12, 4, 14, 2, 13, 14, 4, 3, 8, 7,  5, 15, 9, 6,  15, 5, 10, 15, 7, 6,  15, 10, 9, 8, 14, 13, 12, 11,
};

static void known(void) {
    static const uint8_t z2_bytes[] = {0, 0, 0, 8, 1, 1, 0, 2, 0, 1, 0, 0}, one_bytes[] = {0, 0, 0, 4, 1, 0, 0, 1};
    Image a = image_of(1, 2, z2), b = image_of(0, 1, NULL), c = image_of(2, 6, s3), d = image_of(4, 16, crossed);
    expect(a.length == sizeof z2_bytes && memcmp(a.bytes, z2_bytes, sizeof z2_bytes) == 0, true, "the bytes of Z2");
    expect(b.length == sizeof one_bytes && memcmp(b.bytes, one_bytes, sizeof one_bytes) == 0, true, "no generators");
    checks(&a, 0, "Z2");
    checks(&b, 0, "no generators");
    checks(&c, 0, "S3");
    checks(&d, 12, "the crossed table");
    expect(walks(&c, 0, "010"), 5, "S3: 0,1,0");
    expect(walks(&c, 3, "10"), 0, "S3: 1,0 from 3");
    expect(walks(&c, 1, ""), 1, "S3: the empty word");
    expect(walks(&d, 0, "021"), 12, "crossed: 0,2,1");
    expect(walks(&d, 0, "012"), 11, "crossed: 0,1,2");
    expect(walks(&b, 0, ""), 0, "no generators: the empty word");
}

static void refusals(void) {
    Image gaps = image_of(1, 2, gap), fixed = image_of(1, 1, stays), ten = image_of(2, 4, turned), same = image_of(2, 2, twice);
    Image seven = image_of(1, 3, skips), five = image_of(1, 2, more), fewer = image_of(1, 3, apart), s = image_of(2, 6, s3);
    checks(&gaps, 8, "rows 1 / 1");
    checks(&fixed, 9, "row 0");
    checks(&ten, 10, "rows 1 2 / 3 3 / 0 0 / 2 1");
    checks(&same, 11, "rows 1 1 / 0 0");
    checks(&seven, 7, "2 at (0,0)");
    checks(&five, 5, "a third element in an image of two");
    checks_to(&fewer, 16, true, "an element that is not reached");
    expect(walks(&s, 6, ""), 65536 + 14, "no element 6");
    expect(walks(&s, 0, "012"), 65536 + 14, "no generator 2");
    s.bytes[9] = 6;
    expect(walks(&s, 0, "0"), 65536 + 17, "a number that is no element");
    expect(walks(&s, 0, "1"), 2, "a number that is not read");
}

static void heads(void) {
    size_t cut;
    Image s = image_of(2, 6, s3), damaged;
    for (cut = 0; cut < s.length; cut++) {
        expect(hg_image_check(lend(&s) + s.length - cut, cut, NULL, 0), 16, "the end of an image");
        expect(hg_image_walk(lend(&s), cut, 0, NULL, 0), 65536 + 16, "a cut image");
    }
    damaged = s, damaged.bytes[4] = 2;
    checks(&damaged, 16, "version 2");
    damaged = s, damaged.bytes[5] = 9;
    checks(&damaged, 1, "nine generators");
    damaged = s, damaged.bytes[5] = 9, damaged.bytes[4] = 0;
    checks(&damaged, 16, "nine generators in version 0");
    damaged = s, damaged.bytes[3]++;
    checks(&damaged, 16, "a length one more");
    damaged = s, damaged.bytes[7] = 5;
    checks(&damaged, 16, "five elements");
    damaged = s, damaged.bytes[7] = 0;
    expect(hg_image_check(lend(&damaged), damaged.length, NULL, 0), 16, "no elements");
}

static void nothing_lent(void) {
    Image s = image_of(2, 6, s3);
    expect(hg_image_check(NULL, 0, NULL, 0), 16, "no image, no work");
    expect(hg_image_check(lend(&s), s.length, NULL, 0), 4, "no work");
    expect(hg_image_walk(NULL, 0, 0, NULL, 0), 65536 + 16, "no image, no word");
    expect(hg_image_walk(lend(&s), s.length, 4, NULL, 0), 4, "no word");
}

/* The verdict is the check's number with its places, in work that is exactly as long, and what the head tells is what it needs. */
static void verdict_is(const Image *image, uint32_t number, uint32_t a, uint32_t b, uint32_t c, const char *what) {
    size_t size = need(image);
    uint32_t out[5] = {7, 7, 7, 7, 7};
    expect(hg_image_need(lend(image), image->length), size, what);
    expect(hg_image_verdict(lend(image), image->length, work_end - size, size, out, 5), number, what);
    expect(out[0] == number && out[1] == a && out[2] == b && out[3] == c && out[4] == 7, true, what);
    expect(hg_image_verdict(lend(image), image->length, work_end - size + 1, size - 1, out, 4), 4, what);
    expect(out[0] == 4 && out[1] == 0 && out[2] == 0 && out[3] == 0, true, what);
}

static void verdicts(void) {
    Image s = image_of(2, 6, s3), ten = image_of(2, 4, turned), alone = image_of(0, 1, NULL), many = image_of(0, 2, NULL);
    uint32_t out[4] = {7, 7, 7, 7};
    size_t length;
    verdict_is(&s, 0, 0, 0, 0, "S3");
    verdict_is(&ten, 10, 1, 2, 2, "the inverse of an inverse");
    verdict_is(&alone, 0, 0, 0, 0, "one element");
    expect(hg_image_need(lend(&many), many.length), (uint64_t)16 << 32, "two elements and no generator");
    many.bytes[5] = 9;
    expect(hg_image_need(lend(&many), many.length), ((uint64_t)1 << 32) + 9, "nine generators");
    expect(hg_image_verdict(lend(&many), many.length, NULL, 0, out, 4), 1, "nine generators");
    expect(out[0] == 1 && out[1] == 9 && out[2] == 0 && out[3] == 0, true, "how many");
    /* A list that is short for the answer: 4, whatever the image is, and nothing is touched. */
    out[0] = out[1] = out[2] = out[3] = 7;
    memset(work_end - AREA, 0xA5, AREA);
    for (length = 0; length < 4; length++) {
        expect(hg_image_verdict(lend(&s), s.length, work_end - need(&s), need(&s), length ? out : NULL, length), 4, "a short list");
        expect(hg_image_verdict(NULL, 0, NULL, 0, out, length), 4, "a short list and no image");
    }
    expect(out[0] == 7 && out[1] == 7 && out[2] == 7 && out[3] == 7 && all(work_end - AREA, AREA, 0xA5), true, "a short list");
    expect(hg_image_verdict(NULL, 0, NULL, 0, out, 4), 16, "no image");
    expect(hg_image_need(NULL, 0), (uint64_t)16 << 32, "no image");
}

/* An accepted image and the factor of the same rows: the turns one by one, and their product composed at once. Both archives in one program. */
static void beside_a_factor(void) {
    uint32_t rows[12], table[6 * 8], work[6 * 32], out[5], from, x, y;
    size_t i;
    Image s = image_of(2, 6, s3);
    for (i = 0; i < 12; i++) rows[i] = s3[i];
    expect(hg_composed(table, 48, 0, work, 192, rows, 12, 2, 6, NULL, 0), 4, "no list for the answer");
    expect(hg_composed(table, 48, 0, work, 192, rows, 12, 2, 6, out, 5), 0, "S3 composed");
    expect(out[0], 0, "S3 composed");
    expect(out[4], 6, "its elements");
    for (from = 0; from < 6; from++) {
        x = walks(&s, from, "0110100");
        y = (uint32_t)hg_compose(table, 48, 0, 6, 2, 6, from, walks(&s, 0, "0110100"));
        expect(x, y, "live and delayed");
    }
}

int main(void) {
    image_end = guarded();
    work_end = guarded();
    known();
    refusals();
    heads();
    nothing_lent();
    verdicts();
    beside_a_factor();
    return told();
}
