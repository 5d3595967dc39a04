/* Names as a C host has them: a record beside each handle, lists that end where the memory ends, the joined name of 0 to 8
 * factors on both sides of its length, and each refusal with what it leaves. Last line 'N passed, M failed'. */
#include "guarded.h"

static uint8_t *name_end, *names_end, *out_end;

/* The first bytes of a text, so that the last is the memory's last. */
static const uint8_t *lend(const char *text, size_t length) {
    return memcpy(name_end - length, text, length);
}

static const char long_name[] = "a name that has thirty-three byte";
static const uint32_t s3[] = {1, 2, 0, 3, 4, 0, 5, 1, 2, 5, 3, 4}, no_group[] = {1, 2, 0, 3, 3, 0, 4, 4, 2, 1};

enum { ROWS, ORDERS, BUILDER };
static uint32_t table[64], work[200];

/* S3, or a builder for it, by the call of that kind, with the first bytes of the long name; the record is at the end of memory. */
static uint32_t makes(int kind, size_t length, uint8_t n, uint32_t room, uint32_t *out, size_t out_len, size_t record_len) {
    static const uint32_t order[] = {3};
    const uint8_t *name = lend(long_name, length);
    uint8_t *record = out_end - record_len;
    memset(table, 0xA5, sizeof table);
    memset(work, 0xA5, sizeof work);
    memset(out_end - AREA, 0xA5, AREA);
    switch (kind) {
    case ROWS: return hg_composed_named(table, 64, 0, work, 200, s3, 12, n, room, name, length, out, out_len, record, record_len);
    case ORDERS: return hg_enumerate_named(table, 64, 0, work, 200, order, 1, n, room, name, length, out, out_len, record, record_len);
    default: return hg_begin_named(table, 64, 0, room, n, name, length, out, out_len, record, record_len);
    }
}

static bool untouched(void) {
    return all((uint8_t *)table, sizeof table, 0xA5) && all((uint8_t *)work, sizeof work, 0xA5) && all(out_end - AREA, AREA, 0xA5);
}

static void records(void) {
    uint32_t out[5];
    size_t length, short_len;
    int kind;
    for (kind = ROWS; kind <= BUILDER; kind++) {
        for (length = 0; length <= 32; length++) {
            hg_name name;
            expect(makes(kind, length, 2, 6, out, 5, HG_NAME), HG_ACCEPTED, "a name");
            expect(out[0] == 0 && out[4] == (kind == BUILDER ? 1 : 6), true, "what was made");
            memcpy(&name, out_end - HG_NAME, HG_NAME);
            expect(name.length, length, "its length");
            expect(memcmp(name.bytes, long_name, length) == 0 && all(name.bytes + length, 32 - length, 0), true, "its bytes");
            expect(all(out_end - AREA, AREA - HG_NAME, 0xA5), true, "around the record");
            if (kind != BUILDER) expect(hg_compose(table, 64, 0, 6, 2, 6, 1, 3), 2, "1 * 3");
        }
        expect(makes(kind, 33, 2, 6, out, 5, HG_NAME), HG_NAME_TOO_LONG, "33 bytes");
        expect(out[0] == 18 && out[1] == 0 && out[2] == 0 && out[3] == 0 && out[4] == 0 && untouched(), true, "33 bytes");
        expect(makes(kind, 33, 9, 6, out, 5, HG_NAME), HG_TOO_MANY_GENERATORS, "33 bytes and nine generators");
        expect(out[0] == 1 && out[1] == 9 && untouched(), true, "33 bytes and nine generators");
        expect(makes(kind, 33, 2, 0, out, 5, HG_NAME), HG_BAD_ROOM, "33 bytes and no room");
        expect(makes(kind, 2, 2, 0, out, 5, HG_NAME), HG_BAD_ROOM, "no room");
        expect(out[0] == 4 && untouched(), true, "no room");
        if (kind != BUILDER) expect(makes(kind, 2, 2, 5, out, 5, HG_NAME), HG_BEYOND_ROOM, "a small room");
        expect(all(out_end - AREA, AREA, 0xA5), true, "a refused build has no name");
        if (kind != BUILDER) expect(makes(kind, 33, 2, 5, out, 5, HG_NAME), HG_NAME_TOO_LONG, "33 bytes and a small room");
        for (short_len = 0; short_len < HG_NAME; short_len++) {
            expect(makes(kind, 33, 9, 0, out, 5, short_len), HG_BAD_ROOM, "a short record");
            expect(makes(kind, 2, 2, 6, out, 5, short_len), HG_BAD_ROOM, "a short record");
            expect(untouched(), true, "a short record");
        }
        expect(makes(kind, 2, 2, 6, out, 4, HG_NAME), HG_BAD_ROOM, "a short out");
        expect(untouched(), true, "a short out");
    }
    expect(hg_composed_named(table, 64, 0, work, 200, no_group, 10, 2, 5, lend("x", 1), 1, out, 5, out_end - HG_NAME, HG_NAME), HG_NO_GROUP, "no group");
    expect(all(out_end - AREA, AREA, 0xA5), true, "what is refused has no name");
    /* The empty name from no list. */
    expect(hg_composed_named(table, 64, 0, work, 200, s3, 12, 2, 6, NULL, 0, out, 5, out_end - HG_NAME, HG_NAME), HG_ACCEPTED, "no name");
    expect(all(out_end - HG_NAME, HG_NAME, 0), true, "no name");
}

/* A build by steps: the record that hg_begin_named filled is the name of what hg_build makes, and is the host's to keep. */
static void built(void) {
    uint32_t out[5];
    expect(makes(BUILDER, 6, 1, 2, out, 5, HG_NAME), HG_ACCEPTED, "begun");
    expect(hg_add(table, 64, 0, 2, 1, out[4], 0, 0, out, 5), HG_ACCEPTED, "added");
    expect(hg_set(table, 64, 0, 2, 1, 2, 1, 0, 0), 1, "set");
    expect(hg_build(table, 64, 0, 2, 1, 2, work, 200, out, 5), HG_ACCEPTED, "built");
    expect(memcmp(out_end - HG_NAME, "a name\0", 7), 0, "its name");
}

/* The names of `count` factors that are all S3, the first `length` bytes of the long name each, in a list that ends where the memory ends. */
static void joins(uint8_t count, uint8_t length) {
    uint32_t handles[40], out[5];
    size_t i, listed = (size_t)count * HG_NAME, whole = count ? (size_t)count * length + 3 * ((size_t)count - 1) : 0, size;
    char expected[HG_JOINED] = {0};
    expect(makes(ROWS, length, 2, 6, out, 5, HG_NAME), HG_ACCEPTED, "S3");
    for (i = 0; i < count; i++) {
        const uint32_t handle[] = {0, 0, 6, 2, 6};
        memcpy(handles + 5 * i, handle, sizeof handle);
        memcpy(names_end - listed + HG_NAME * i, out_end - HG_NAME, HG_NAME);
        if (i) memcpy(expected + i * (length + 3u) - 3, " x ", 3);
        memcpy(expected + i * (length + 3u), long_name, length);
    }
    for (size = whole ? whole - 1 : 0; size < whole + 3; size++) {
        uint8_t *shown = out_end - size;
        memset(out_end - AREA, 0xA5, AREA);
        if (size < whole) {
            expect(hg_joined(table, 64, handles, 5 * (size_t)count, count, names_end - listed, listed, shown, size), (uint64_t)HG_NAME_TOO_LONG << 32, "a byte less");
            expect(all(out_end - AREA, AREA, 0xA5), true, "a byte less");
        } else {
            expect(hg_joined(table, 64, handles, 5 * (size_t)count, count, names_end - listed, listed, shown, size), whole, "the joined name");
            expect(memcmp(shown, expected, whole) == 0 && all(shown + whole, size - whole, 0xA5), true, "the joined name");
        }
    }
    for (i = 0; i < whole + 2; i++)
        expect(hg_joined_part(table, 64, handles, 5 * (size_t)count, count, names_end - listed, listed, i), i < whole ? (uint8_t)expected[i] : 256 + whole, "a byte of it");
    memset(out_end - AREA, 0xA5, AREA);
    if (count) {
        /* A list that is a byte short, and a length that no name has, in the last record. */
        expect(hg_joined(table, 64, handles, 5 * (size_t)count, count, names_end - listed, listed - 1, out_end, 0), (uint64_t)HG_BAD_HANDLE << 32, "a short list");
        names_end[-1] = 33;
        expect(hg_joined(table, 64, handles, 5 * (size_t)count, count, names_end - listed, listed, out_end, 0), (uint64_t)HG_BAD_HANDLE << 32, "33");
        expect(hg_joined_part(table, 64, handles, 5 * (size_t)count, count, names_end - listed, listed, 0), 256, "33");
        names_end[-1] = length;
        handles[0]++;
        handles[2] = 8; /* a stretch that is not there */
        expect(hg_joined(table, 64, handles, 5 * (size_t)count, count, names_end - listed, listed, out_end - 300, 300), (uint64_t)HG_BAD_HANDLE << 32, "a handle that does not fit");
    }
    expect(all(out_end - AREA, AREA, 0xA5), true, "what is refused writes nothing");
}

static void joined(void) {
    uint8_t count, length;
    for (count = 0; count <= 8; count++)
        for (length = 0; length <= 32; length += length == 2 ? 28 : 1) joins(count, length);
    expect(hg_joined(NULL, 0, NULL, 0, 0, NULL, 0, NULL, 0), 0, "no factors, and no list");
    expect(hg_joined_part(NULL, 0, NULL, 0, 0, NULL, 0, 0), 256, "no factors, and no list");
}

int main(void) {
    name_end = guarded();
    names_end = guarded();
    out_end = guarded();
    expect(sizeof(hg_name), HG_NAME, "an hg_name");
    records();
    built();
    joined();
    return told();
}
