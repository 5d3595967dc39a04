/* Questions over lists as a C host asks them: every list ends where the memory ends, and each place is held to the single call. Both sides of 0 and 4,096 places,
 * lists of different lengths, the first refused place, a verdict that is too short or longer, and what each refusal leaves. Last line 'N passed, M failed'. */
#include "guarded.h"

static uint32_t *a_end, *b_end, *out_end, *told_end;
static int32_t *exponents_end;

enum { COMPOSE, INVERSE, POWI };
static uint32_t table[49], work[192], handles[10];
static uint32_t room = 6;

/* S3 behind one number of the table, and the product of two of it, which has 36 elements. */
static void make(void) {
    static const uint32_t rows[] = {1, 2, 0, 3, 4, 0, 5, 1, 2, 5, 3, 4}, handle[] = {1, 0, 6, 2, 6};
    uint32_t made[5];
    expect(hg_composed(table, 49, 1, work, 192, rows, 12, 2, 6, made, 5), HG_ACCEPTED, "S3");
    memcpy(handles, handle, sizeof handle);
    memcpy(handles + 5, handle, sizeof handle);
}

/* The question of that kind, with lists of these lengths. */
static uint32_t asks(bool product, int kind, size_t first, size_t second, size_t size, size_t told_len) {
    const uint32_t *a = a_end - first, *b = b_end - second;
    const int32_t *exponents = exponents_end - second;
    uint32_t *out = out_end - size, *told = told_end - told_len;
    memset((uint8_t *)out_end - AREA, 0xA5, AREA);
    memset((uint8_t *)told_end - AREA, 0xA5, AREA);
    handles[2] = room;
    if (product) switch (kind) {
        case COMPOSE: return hg_product_compose_each(table, 49, handles, 10, 2, a, first, b, second, out, size, told, told_len);
        case INVERSE: return hg_product_inverse_each(table, 49, handles, 10, 2, a, first, out, size, told, told_len);
        default: return hg_product_powi_each(table, 49, handles, 10, 2, a, first, exponents, second, out, size, told, told_len);
        }
    switch (kind) {
    case COMPOSE: return hg_compose_each(table, 49, 1, room, 2, 6, a, first, b, second, out, size, told, told_len);
    case INVERSE: return hg_inverse_each(table, 49, 1, room, 2, 6, a, first, out, size, told, told_len);
    default: return hg_powi_each(table, 49, 1, room, 2, 6, a, first, exponents, second, out, size, told, told_len);
    }
}

/* The single call at a place of lists with so many. */
static uint64_t single(bool product, int kind, size_t places, size_t i) {
    uint32_t a = (a_end - places)[i], b = (b_end - places)[i];
    int32_t exponent = (exponents_end - places)[i];
    if (product) switch (kind) {
        case COMPOSE: return hg_product_compose(table, 49, handles, 10, 2, a, b);
        case INVERSE: return hg_product_inverse(table, 49, handles, 10, 2, a);
        default: return hg_product_powi(table, 49, handles, 10, 2, a, exponent);
        }
    switch (kind) {
    case COMPOSE: return hg_compose(table, 49, 1, room, 2, 6, a, b);
    case INVERSE: return hg_inverse(table, 49, 1, room, 2, 6, a);
    default: return hg_product_powi(table, 49, handles, 5, 1, a, exponent);
    }
}

/* Whether the verdict is these five numbers, with nothing before or behind them, and the output as it was. */
static bool refuses(size_t told_len, uint32_t number, uint32_t a, uint32_t place) {
    const uint32_t five[] = {number, a, 0, 0, place}, *told = told_end - told_len;
    return memcmp(told, five, sizeof five) == 0 && all((const uint8_t *)(told + 5), 4 * (told_len - 5), 0xA5) &&
           all((const uint8_t *)told_end - AREA, AREA - 4 * told_len, 0xA5) && all((const uint8_t *)out_end - AREA, AREA, 0xA5);
}

static void fill(size_t places, uint32_t elements) {
    static const int32_t powers[] = {0, 1, -1, 2, -2, 3, 7, -100, INT32_MAX, INT32_MIN};
    size_t i;
    for (i = 0; i < places; i++) {
        (a_end - places)[i] = (uint32_t)(i * 7 + 3) % elements;
        (b_end - places)[i] = (uint32_t)(i * 11 + 5) % elements;
        (exponents_end - places)[i] = powers[i % 10];
    }
}

/* Right lists; then a refused place at the start, in the middle and at the end, with another behind the first; then lengths that differ. */
static void places(bool product, int kind, size_t k) {
    uint32_t elements = product ? 36 : 6;
    size_t i, told_len, wrong[3];
    bool right = true;
    fill(k, elements);
    for (told_len = 5; told_len < 8; told_len++) {
        const uint32_t none[5] = {0};
        expect(asks(product, kind, k, k, k, told_len), HG_ACCEPTED, "lists");
        for (i = 0; i < k; i++) right = right && single(product, kind, k, i) == (out_end - k)[i];
        expect(right && all((const uint8_t *)out_end - AREA, AREA - 4 * k, 0xA5), true, "each place");
        expect(memcmp(told_end - told_len, none, sizeof none) == 0 && all((const uint8_t *)(told_end - (told_len - 5)), 4 * (told_len - 5), 0xA5), true, "told");
    }
    for (told_len = 0; told_len < 5; told_len++) {
        expect(asks(product, kind, k, k, k, told_len), HG_BAD_ROOM, "a short verdict");
        expect(asks(product, kind, k, k, k + 1, told_len), HG_BAD_ROOM, "a short verdict");
        expect(all((const uint8_t *)told_end - AREA, AREA, 0xA5) && all((const uint8_t *)out_end - AREA, AREA, 0xA5), true, "a short verdict");
    }
    wrong[0] = 0, wrong[1] = k / 2, wrong[2] = k - 1;
    for (i = 0; i < 3 && k; i++) {
        (a_end - k)[wrong[i]] = elements;
        (a_end - k)[k - 1] = 0xFFFFFFFF;
        expect(asks(product, kind, k, k, k, 5), HG_OUT_OF_RANGE, "a refused place");
        expect(refuses(5, 14, 0, (uint32_t)wrong[i]), true, "a refused place");
        fill(k, elements);
    }
    if (kind == COMPOSE && k > 1) {
        /* The second list's element, before a wrong one of the first list. */
        (b_end - k)[k - 2] = elements, (a_end - k)[k - 1] = elements;
        expect(asks(product, kind, k, k, k, 7), HG_OUT_OF_RANGE, "the second list");
        expect(refuses(7, 14, 1, (uint32_t)k - 2), true, "the second list");
        fill(k, elements);
    }
    /* A handle that does not fit is refused at the first place, and no handle is looked at where there is none or the lists are refused. */
    room = 7;
    expect(asks(product, kind, k, k, k, 5), k ? HG_BAD_HANDLE : HG_ACCEPTED, "a handle that does not fit");
    expect(refuses(5, k ? 17 : 0, 0, 0), true, "a handle that does not fit");
    expect(asks(product, kind, k, k, k + 1, 5), HG_BAD_ROOM, "a longer output");
    expect(refuses(5, 4, 0, 0), true, "a longer output");
    if (k) expect(asks(product, kind, k, k, k - 1, 5) == HG_BAD_ROOM && refuses(5, 4, 0, 0), true, "a shorter output");
    if (kind != INVERSE) expect(asks(product, kind, k, k + 1, k, 6) == HG_BAD_ROOM && refuses(6, 4, 0, 0), true, "a longer list");
    if (kind != INVERSE && k) expect(asks(product, kind, k, k - 1, k, 6) == HG_BAD_ROOM && refuses(6, 4, 0, 0), true, "a shorter list");
    if (kind != INVERSE && k) expect(asks(product, kind, k - 1, k, k, 6) == HG_BAD_ROOM && refuses(6, 4, 0, 0), true, "a shorter first list");
    room = 6;
}

static void too_long(bool product, int kind) {
    size_t k;
    fill(HG_PLACES + 2, 6);
    for (k = HG_PLACES + 1; k <= HG_PLACES + 2; k++) {
        expect(asks(product, kind, k, k, k, HG_TOLD), HG_BAD_ROOM, "too many places");
        expect(refuses(HG_TOLD, 4, 0, 0), true, "too many places");
    }
}

static uint32_t told_here[HG_TOLD];

static uint32_t *fresh(void) {
    memset(told_here, 0xA5, sizeof told_here);
    return told_here;
}

static void no_list(uint32_t number) {
    expect(number, HG_ACCEPTED, "no list");
    expect(all((const uint8_t *)told_here, sizeof told_here, 0), true, "no list");
}

int main(void) {
    static const size_t lengths[] = {0, 1, 2, 3, 31, 32, 33, 63, 64, 65, 66, 255, 256, 257, 512, 513, 1000, HG_PLACES - 1, HG_PLACES};
    size_t i;
    int kind, product;
    a_end = (uint32_t *)guarded();
    b_end = (uint32_t *)guarded();
    exponents_end = (int32_t *)guarded();
    out_end = (uint32_t *)guarded();
    told_end = (uint32_t *)guarded();
    make();
    for (product = 0; product < 2; product++)
        for (kind = COMPOSE; kind <= POWI; kind++) {
            for (i = 0; i < sizeof lengths / sizeof *lengths; i++) places(product, kind, lengths[i]);
            too_long(product, kind);
        }
    /* Lists of no place are fine whatever they point to, and whatever the handle is. */
    no_list(hg_compose_each(NULL, 0, 0, 0, 0, 0, NULL, 0, NULL, 0, NULL, 0, fresh(), HG_TOLD));
    no_list(hg_inverse_each(NULL, 0, 0, 0, 0, 0, NULL, 0, NULL, 0, fresh(), HG_TOLD));
    no_list(hg_powi_each(NULL, 0, 0, 0, 0, 0, NULL, 0, NULL, 0, NULL, 0, fresh(), HG_TOLD));
    no_list(hg_product_compose_each(NULL, 0, NULL, 0, 9, NULL, 0, NULL, 0, NULL, 0, fresh(), HG_TOLD));
    no_list(hg_product_inverse_each(NULL, 0, NULL, 0, 9, NULL, 0, NULL, 0, fresh(), HG_TOLD));
    no_list(hg_product_powi_each(NULL, 0, NULL, 0, 9, NULL, 0, NULL, 0, NULL, 0, fresh(), HG_TOLD));
    expect(hg_product_inverse_each(NULL, 0, NULL, 0, 0, NULL, 0, NULL, 0, NULL, 0), HG_BAD_ROOM, "no verdict");
    return told();
}
