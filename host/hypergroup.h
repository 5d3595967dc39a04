/* hypergroup, proved: its calls for C and C++ on x86-64 Linux.
 *
 * `./archives` makes target/staticlib/libhypergroup.a, which has every function: cc host.c -Ihost
 * -Ltarget/staticlib -lhypergroup. Beside it each group of functions is in the archive that is named above
 * it: libcapi_image.a is enough for a host that has images checked and walked. They link in any order, one
 * or several in one program, and need nothing but memset and memcpy of the C library. No call allocates,
 * keeps a pointer, or has a state: any number of threads may call at once, each on buffers of its own.
 *
 * An example: a group with a name is built from pair orders in lent lists, and a product is asked of it; then
 * the name of two of them.
 *
 *     #include "hypergroup.h"
 *     #include <stdio.h>
 *
 *     enum { TURNS = 2, ROOM = 100, TABLE = HG_TABLE(TURNS, ROOM), WORK = HG_WORK(TURNS, ROOM) };
 *     static uint32_t table[TABLE], work[WORK];
 *
 *     int main(void) {
 *         // Two turns, each its own inverse; the one and then the other has order 3.
 *         const uint32_t orders[] = {3};
 *         const uint8_t called[] = {'S', '3'};
 *         uint32_t out[5];
 *         hg_name name;
 *         uint32_t refused = hg_enumerate_named(table, TABLE, 0, work, WORK, orders, 1, TURNS, ROOM, called, 2,
 *                                               out, 5, (uint8_t *)&name, HG_NAME);
 *         if (refused != HG_ACCEPTED) {
 *             printf("refused: %u, at %u, %u, %u\n", refused, out[1], out[2], out[3]);
 *             return 1;
 *         }
 *         // The handle of what was built: the start, the room, the generators, the elements.
 *         uint64_t product = hg_compose(table, TABLE, 0, ROOM, TURNS, out[4], 1, 3);
 *         if (HG_REFUSED(product)) return 1;
 *         printf("%u elements, and 1 * 3 is %u\n", out[4], HG_VALUE(product));
 *         // No question needs the name, but for the joined one of a list of handles.
 *         const uint32_t pair[] = {0, 0, ROOM, TURNS, out[4], 0, 0, ROOM, TURNS, out[4]};
 *         const hg_name names[] = {name, name};
 *         uint8_t shown[HG_JOINED];
 *         uint64_t length = hg_joined(table, TABLE, pair, 10, 2, (const uint8_t *)names, sizeof names,
 *                                     shown, HG_JOINED);
 *         if (HG_REFUSED(length)) return 1;
 *         printf("%.*s\n", (int)HG_VALUE(length), (const char *)shown);
 *         return 0;
 *     }
 *
 * What a caller owes
 * - A list is a pointer and a length: in bytes for uint8_t, in numbers for uint32_t and int32_t. All of it is
 *   readable (and writable where the pointer is not const), holds values, is aligned as its type
 *   asks, and stays so until the call returns. A length of 0 takes any pointer, NULL too.
 * - A list that a call writes overlaps no other list of that call. An image and its work are apart.
 *   Lists that are only read may overlap.
 * - Nothing else writes to a lent list, or reads one that is written, while the call runs.
 * - 64 KB of stack, which are enough for every call, whatever the word, the group and the lists.
 * That is all. Every other value of every argument is answered, or refused with a number.
 *
 * How long a list has to be, with n generators and the room R, which is how many elements the factor may
 * have; a longer one is taken, and what is beyond is as it was
 * - table: start + R(2n + 4), which is start + HG_TABLE(n, R). A factor may be built into any stretch of
 *   a table, from start on. The table is kept for the questions; work is needed while the call runs.
 * - work: R(6n^2 + 4n), HG_WORK. For an image N(32n^2 + 100) bytes, HG_IMAGE_WORK.
 * - rows, of hg_composed and hg_composed_named: Rn, element by element; those of elements that are not
 *   reached are not read.
 * - orders: n(n - 1)/2 exactly, for the pairs (0,1),(0,2),(1,2),(0,3),(1,3),(2,3),(0,4)..; each from 2 to
 *   32,767, the order of the one generator and then the other.
 * - For hg_product_flatten n is the generators of all factors together; for hg_image_read R is the N of
 *   the image.
 * - inn and outw, a subgroup's maps: as many as the overgroup has elements, and R. members: a byte for
 *   each element of the overgroup. For hg_subgroup n is how many elements gens has, for
 *   hg_subgroup_predicate 8, whatever comes out.
 * - out of a word: its length in bytes. hg_length tells it, at most 4,096; and hg_product_length, at most
 *   4,096 for each factor, which is 32,768 for eight. Of hg_product_split: as many as there are factors.
 *   Of hg_image_write: 8 + 2nN bytes, HG_IMAGE. Of hg_joined: what the names come to, which is at most
 *   HG_JOINED, eight names of 32 bytes and three between each two.
 * - name: 0 to 32 bytes, any bytes. record: 33, HG_NAME, which is an hg_name. names: 33 for each factor, as
 *   record gets them, in the order of the handles.
 * - a, b, exponents and out of hg_compose_each and the others that end in _each: one length, of at most
 *   4,096, HG_PLACES. told: 5, HG_TOLD.
 * - out of any other call: 4 numbers; 5 of hg_product and of whatever builds; 6 of hg_subgroup and
 *   hg_subgroup_predicate.
 *
 * What comes back
 * - hg_image_check: 0, or the refusal's number. n is byte 5 of the image and N the number in bytes 6 and
 *   7, the higher first. After a bad head (16, 1) or short work (4) the work is as it was; else the bytes
 *   that it needs are 0. For bytes from anyone ask hg_image_need first: it refuses what the head alone
 *   excludes, before any work is lent. An image that no group has may have all its words walked: the
 *   dearest known, of 262 KB, takes seconds. A server sets a limit on N.
 * - hg_image_walk: the element reached, below 65,536; or HG_WALK_REFUSED + the refusal's number.
 * - A question of a factor: the element or the count; or the refusal's number * 2^32 + its first place:
 *   HG_REFUSED and HG_VALUE. Refused, it writes nothing.
 * - A build, a check against orders, hg_product, hg_subgroup_left and hg_subgroup_right: each returns the
 *   refusal's number, 0 for accepted. out gets that number and its three places; after a build also the
 *   element count, as the fifth (0 where it is refused). An out too short for that is 4 before anything
 *   else is looked at, and no list is touched; in a longer one the rest is as it was. A handle is `start`,
 *   `room`, `n`, `count`.
 * - hg_image_verdict: what hg_image_check returns, with the places in out in the same way. hg_image_need:
 *   how many bytes of work both need, or a refusal as of a question.
 * - hg_composed_named, hg_enumerate_named and hg_begin_named: as the calls without a name, of a factor with
 *   one. Accepted, record gets the name as it is kept: its bytes, 0 up to the 32nd, and its length. Refused,
 *   record is as it was. A record that is too short is 4 as a short out is; a name that is too long is 18
 *   after the other 1 to 4 and before the build, with every list but out as it was. The factor that hg_build
 *   makes has the name that its build was begun with. What is built without a name, flattened, read from an
 *   image or a subgroup's has the empty one, 33 zeros.
 * - hg_joined: as a question; the names in their order with " x " between each two, an empty one too, at the
 *   start of out, and its length. A length above 32 in names, or a list that is too short for the factors, is
 *   17, as a handle that does not fit. hg_joined_part: one byte of it. No other question takes a name.
 * - hg_walk and hg_product_walk: as a question; the start is position 0 and the first turn position 1.
 *   Positions stop at 4,294,967,295: a turn that is further on is told as that one.
 * - hg_compose_each, hg_inverse_each, hg_powi_each and the same of a product: one call for all places of the
 *   lists. Each returns the refusal's number, 0 for accepted; out has then at each place what the single call
 *   answers there. told gets that number and its three places, as out of a build, and as the fifth the place
 *   of the lists that was refused, from 0 (0 where there is none). 4 is for the lists, before anything else,
 *   a bad handle too, and no single call gives it; then the first place that the single call refuses, with
 *   its refusal. out is as it was after every refusal. Empty lists are fine whatever the handle. A told too
 *   short is 4 before that, and no list is touched; in a longer one the rest is as it was.
 * - What a build leaves: refused before it starts (1 to 4, 14, 18, and 15 to 17 given then), every list but
 *   out as it was; refused later, 0 in all that it needs of table, work and maps; accepted, 0 in the
 *   work, and in table and maps beyond the last element.
 * - The builder: hg_begin and hg_add as a build, the fifth number being how many elements the builder
 *   knows, 0 where the build has ended; the second is the element that hg_add made. hg_set: 1 for a
 *   new step, 0 for a known one, or a refusal as of a question.
 * - A product is a list of handles, five numbers each (the lower and the higher half of `start`, then
 *   `room`, `n`, elements), and their count. hg_product: the verdict, and how many factors there are
 *   (1 after a refusal).
 * - A subgroup is 128 numbers: the handle of its factor, how many factors are below, over and above it,
 *   and 40 numbers of handles for each of these three. hg_subgroup and hg_subgroup_predicate: as a
 *   build, the sixth number being how many generators it has. hg_subgroup_back: HG_NOT_A_MEMBER where
 *   the element is not in the subgroup.
 */
#ifndef HYPERGROUP_H
#define HYPERGROUP_H

#include <stdbool.h>
#include <stddef.h>
#include <stdint.h>

#ifdef __cplusplus
extern "C" {
#endif

/* The refusals. In brackets: what its places are, which are 0 where none is said. */
enum {
    HG_ACCEPTED = 0,
    HG_TOO_MANY_GENERATORS = 1, /* more than 8 generators (how many) */
    HG_ORDER_COUNT = 2,         /* the list of orders is not n(n - 1)/2 long */
    HG_BAD_ORDER = 3,           /* an order outside 2 to 32,767 (its index in the list) */
    HG_BAD_ROOM = 4,            /* a room of 0 or above 65,535, or a lent list too short; or lists of places
                                   that differ in length or pass 4,096 */
    HG_BEYOND_ROOM = 5,         /* an element is needed beyond the room (element, generator) */
    HG_WORD_TOO_LONG = 6,       /* its word would pass 4,096 generators (element, generator) */
    HG_SKIPS_AHEAD = 7,         /* a composed number skips ahead (element, generator, number) */
    HG_MISSING_STEP = 8,        /* a successor or predecessor is missing (element, generator) */
    HG_FIXED_POINT = 9,         /* a fixed point, a wrong row (element, generator) or count (element, n) */
    HG_BAD_INVERSE = 10,        /* the inverse of the inverse differs (element, inverse, its inverse) */
    HG_IDENTITY_ROW = 11,       /* the identity's row is not 1 to n (generator) */
    HG_NO_GROUP = 12,           /* no group has these right steps */
    HG_RELATION_FAILS = 13,     /* a relation fails (element, generator, generator) */
    HG_OUT_OF_RANGE = 14,       /* an element, generator or factor out of range (which of these, from 0,
                                   each entry of a word or list counted; of a call that ends in _each
                                   as the single call has it, 0 or 1, and the place is told apart) */
    HG_TOO_LARGE = 15,          /* over 8 factors, 2^32 - 1 elements, or 65,535 in an overgroup; or a
                                   predicate that needs a ninth generator */
    HG_BAD_IMAGE = 16,          /* the image is malformed */
    HG_BAD_HANDLE = 17,         /* the handle does not fit its list, or a number read from it is out of
                                   range, or no power in a period walk is the identity; or a
                                   name's length is above 32, or it is not in its list */
    HG_NAME_TOO_LONG = 18       /* a name over 32 bytes, or a joined name longer than its buffer */
};

/* A name as it is kept: its bytes, 0 behind them, and how many they are. */
typedef struct {
    uint8_t bytes[32];
    uint8_t length;
} hg_name;

/* Of a question's answer: the refusal's number, 0 where it is none; and the element or the count. */
#define HG_REFUSED(answer) ((uint32_t)((answer) >> 32))
#define HG_VALUE(answer) ((uint32_t)((answer) & 0xffffffffu))

#define HG_WALK_REFUSED 65536u
#define HG_NOT_A_MEMBER 4294967295u

/* How many numbers a build needs of table and of work; how many bytes an image has, and its check needs. */
#define HG_TABLE(n, room) ((size_t)(room) * (2 * (size_t)(n) + 4))
#define HG_WORK(n, room) ((size_t)(room) * (6 * (size_t)(n) * (size_t)(n) + 4 * (size_t)(n)))
#define HG_IMAGE(n, elements) (8 + 2 * (size_t)(n) * (size_t)(elements))
#define HG_IMAGE_WORK(n, elements) ((size_t)(elements) * (32 * (size_t)(n) * (size_t)(n) + 100))

/* How many bytes an hg_name has, and the longest joined name. */
#define HG_NAME 33
#define HG_JOINED 277

/* How many places the lists of one call may have, and how many numbers tell its verdict. */
#define HG_PLACES 4096
#define HG_TOLD 5

/* The functions. tools/header.py writes them. */

/* libcapi_builder.a */

/* Begins a build in the stretch of table that starts at start. Refuses in this order: 4 for an
 * out shorter than 5, 1 for more than 8 generators, 4 for a room out of range or a short table. */
uint32_t hg_begin(uint32_t *table, size_t table_len, size_t start, uint32_t room, uint8_t n,
    uint32_t *out, size_t out_len);

/* Adds a new element, reached from e by g. Refuses in this order: 4 for an out shorter than 5,
 * 17 for a handle that does not fit, 14 for an element or a generator out of range, which touch
 * nothing; then 5 beyond the room, 17 for a length read that is over 4,096, 6 for a word that
 * would pass 4,096, which end the build. */
uint32_t hg_add(uint32_t *table, size_t table_len, size_t start, uint32_t room, uint8_t n,
    uint32_t count, uint32_t e, uint8_t g, uint32_t *out, size_t out_len);

/* Sets the step from e by g to x, both ways, and says whether the place was new. Refuses in this
 * order: 17 for a handle that does not fit, 14 for an element or a generator out of range, 17
 * for a stored step that is. */
uint64_t hg_set(uint32_t *table, size_t table_len, size_t start, uint32_t room, uint8_t n,
    uint32_t count, uint32_t e, uint8_t g, uint32_t x);

/* Reads the builder's steps, checks them and makes them a factor. Refuses in this order: 4 for
 * an out shorter than 5, 17 for a handle that does not fit, 4 for short work, 17, 7 or 6 while
 * it reads, then 8 to 12. */
uint32_t hg_build(uint32_t *table, size_t table_len, size_t start, uint32_t room, uint8_t n,
    uint32_t count, uint32_t *work, size_t work_len, uint32_t *out, size_t out_len);

/* libcapi_factor.a */

/* Answers how many elements the factor has. Refuses with 17 a handle that does not fit. */
uint64_t hg_count(const uint32_t *table, size_t table_len, size_t start, uint32_t room, uint8_t n,
    uint32_t count);

/* Answers the step from e by g. Refuses in this order: 17 for a handle that does not fit, 14 for
 * an element or a generator out of range, 17 for a number read that is out of range. */
uint64_t hg_step(const uint32_t *table, size_t table_len, size_t start, uint32_t room, uint8_t n,
    uint32_t count, uint32_t e, uint8_t g);

/* Answers the element that the generator g is. Refuses as hg_step does. */
uint64_t hg_generator(const uint32_t *table, size_t table_len, size_t start, uint32_t room,
    uint8_t n, uint32_t count, uint8_t g);

/* Answers a * b * a^-1. Refuses in this order: 17 for a handle that does not fit, 14 for an
 * element out of range, 17 for a number read that is out of range. */
uint64_t hg_conjugate(const uint32_t *table, size_t table_len, size_t start, uint32_t room,
    uint8_t n, uint32_t count, uint32_t a, uint32_t b);

/* Answers the inverse of a. Refuses as hg_conjugate does. */
uint64_t hg_inverse(const uint32_t *table, size_t table_len, size_t start, uint32_t room, uint8_t n,
    uint32_t count, uint32_t a);

/* Checks the factor against pair orders and writes the verdict into out. Refuses in this order:
 * 4 for an out shorter than 4, 17 for a handle that does not fit, 2 for a list of the wrong
 * length, 3 for the first order out of range, then 13 for a relation that fails or 17 for a
 * number read that is out of range, as met. */
uint32_t hg_check(const uint32_t *table, size_t table_len, size_t start, uint32_t room, uint8_t n,
    uint32_t count, const uint32_t *orders, size_t orders_len, uint32_t *out, size_t out_len);

/* libcapi_factor_build.a */

/* Builds a factor from composed rows, n numbers for each element. Refuses in this order: 4 for
 * an out shorter than 5, 1 for more than 8 generators, 4 for a room out of range or a short
 * buffer, 7, 5 or 6 while it reads, then 8 to 12. */
uint32_t hg_composed(uint32_t *table, size_t table_len, size_t start, uint32_t *work,
    size_t work_len, const uint32_t *rows, size_t rows_len, uint8_t n, uint32_t room, uint32_t *out,
    size_t out_len);

/* Builds the group that the pair orders present; they come in the order
 * (0,1),(0,2),(1,2),(0,3).. Refuses in this order: 4 for an out shorter than 5, 1 for more than
 * 8 generators, 2 for a list of the wrong length, 3 for the first order out of range, 4 for a
 * room out of range or a short buffer, 5 or 6 while it runs. No other refusal comes. */
uint32_t hg_enumerate(uint32_t *table, size_t table_len, size_t start, uint32_t *work,
    size_t work_len, const uint32_t *orders, size_t orders_len, uint8_t n, uint32_t room,
    uint32_t *out, size_t out_len);

/* libcapi_factor_compose.a */

/* Answers a * b. Refuses in this order: 17 for a handle that does not fit, 14 for an element out
 * of range, 17 for a number read that is out of range. */
uint64_t hg_compose(const uint32_t *table, size_t table_len, size_t start, uint32_t room, uint8_t n,
    uint32_t count, uint32_t a, uint32_t b);

/* libcapi_factor_words.a */

/* Answers how long the word of e is. Refuses in this order: 17 for a handle that does not fit,
 * 14 for an element out of range, 17 for a recorded length over 4,096. */
uint64_t hg_length(const uint32_t *table, size_t table_len, size_t start, uint32_t room, uint8_t n,
    uint32_t count, uint32_t e);

/* Writes the word of e to the start of out and answers its length. Refuses as hg_length does,
 * then with 4 a short out, then with 17 a cell of letters that is out of range. */
uint64_t hg_word(const uint32_t *table, size_t table_len, size_t start, uint32_t room, uint8_t n,
    uint32_t count, uint32_t e, uint8_t *out, size_t out_len);

/* Answers the k-th letter of the word of e or, from its end on, 256 and its length. A word that
 * hg_word refuses is empty here: the answer is 256. */
uint64_t hg_part(const uint32_t *table, size_t table_len, size_t start, uint32_t room, uint8_t n,
    uint32_t count, uint32_t e, size_t k);

/* libcapi_group.a */

/* Answers how many elements the product has. Refuses in this order: 17 for a handle that does
 * not fit, 15 for a product too large (more than 8 factors or 4,294,967,295 elements). */
uint64_t hg_product_count(const uint32_t *table, size_t table_len, const uint32_t *handles,
    size_t handles_len, uint8_t count);

/* Answers how many generators the factors have together. Refuses as hg_product_count does. */
uint64_t hg_product_generators(const uint32_t *table, size_t table_len, const uint32_t *handles,
    size_t handles_len, uint8_t count);

/* Answers the element that the generator x is. Refuses in this order: 17 for a handle that does
 * not fit, 14 for a generator out of range, 15 for a product too large, 17 for a number read
 * that is out of range. */
uint64_t hg_product_generator(const uint32_t *table, size_t table_len, const uint32_t *handles,
    size_t handles_len, uint8_t count, uint8_t x);

/* Answers the step from e by the generator x. Refuses in this order: 17 for a handle that does
 * not fit, 14 for an element or a generator out of range, 15 for a product too large, 17 for a
 * number read that is out of range. */
uint64_t hg_product_step(const uint32_t *table, size_t table_len, const uint32_t *handles,
    size_t handles_len, uint8_t count, uint32_t e, uint8_t x);

/* Answers the element that e has in the factor f. Refuses in this order: 17 for a handle that
 * does not fit, 14 for a factor or an element out of range, 15 for a product too large. */
uint64_t hg_product_project(const uint32_t *table, size_t table_len, const uint32_t *handles,
    size_t handles_len, uint8_t count, uint8_t f, uint32_t e);

/* Answers the element that is e in the factor f, and the identity in the others. Refuses as
 * hg_product_project does. */
uint64_t hg_product_inject(const uint32_t *table, size_t table_len, const uint32_t *handles,
    size_t handles_len, uint8_t count, uint8_t f, uint32_t e);

/* Answers a * b. Refuses in this order: 17 for a handle that does not fit, 14 for an element out
 * of range, 15 for a product too large, 17 for a number read that is out of range. */
uint64_t hg_product_compose(const uint32_t *table, size_t table_len, const uint32_t *handles,
    size_t handles_len, uint8_t count, uint32_t a, uint32_t b);

/* Answers the inverse of a. Refuses as hg_product_compose does. */
uint64_t hg_product_inverse(const uint32_t *table, size_t table_len, const uint32_t *handles,
    size_t handles_len, uint8_t count, uint32_t a);

/* Answers a * b * a^-1. Refuses as hg_product_compose does. */
uint64_t hg_product_conjugate(const uint32_t *table, size_t table_len, const uint32_t *handles,
    size_t handles_len, uint8_t count, uint32_t a, uint32_t b);

/* Answers the i-th power of a, the inverse's power where i is negative. Refuses as
 * hg_product_compose does. */
uint64_t hg_product_powi(const uint32_t *table, size_t table_len, const uint32_t *handles,
    size_t handles_len, uint8_t count, uint32_t a, int32_t i);

/* Answers the period of a, which is 1 for the identity. Refuses as hg_product_compose does, and
 * with 17 where a walk through the powers finds no identity. */
uint64_t hg_product_period(const uint32_t *table, size_t table_len, const uint32_t *handles,
    size_t handles_len, uint8_t count, uint32_t a);

/* libcapi_group_build.a */

/* Writes the verdict on the product of two into out, and how many factors it has: those of the
 * first and then those of the second. Refuses in this order: 4 for an out shorter than 5, 17 for
 * a handle that does not fit, 15 for more than 8 factors or more than 4,294,967,295 elements. */
uint32_t hg_product(const uint32_t *table, size_t table_len, const uint32_t *first,
    size_t first_len, uint8_t k, const uint32_t *second, size_t second_len, uint8_t m,
    uint32_t *out, size_t out_len);

/* Answers how long the word of e is. Refuses in this order: 17 for a handle that does not fit,
 * 14 for an element out of range, 15 for a product too large, 17 for a recorded length over
 * 4,096. */
uint64_t hg_product_length(const uint32_t *table, size_t table_len, const uint32_t *handles,
    size_t handles_len, uint8_t count, uint32_t e);

/* Writes the digits of e, its elements in each factor, to the start of out and answers how many
 * they are. Refuses in this order: 17 for a handle that does not fit, 14 for an element out of
 * range, 15 for a product too large, 4 for a short out. */
uint64_t hg_product_split(const uint32_t *table, size_t table_len, const uint32_t *handles,
    size_t handles_len, uint8_t count, uint32_t e, uint32_t *out, size_t out_len);

/* Answers the element whose digits the list starts with. Refuses in this order: 17 for a handle
 * that does not fit, 14 for the first digit out of range, 15 for a product too large, 4 for a
 * list with fewer digits than there are factors. */
uint64_t hg_product_join(const uint32_t *table, size_t table_len, const uint32_t *handles,
    size_t handles_len, uint8_t count, const uint32_t *digits, size_t digits_len);

/* Writes the word of e to the start of out and answers its length. Refuses as hg_product_length
 * does, then with 4 a short out, then with 17 a cell of letters that is out of range. */
uint64_t hg_product_word(const uint32_t *table, size_t table_len, const uint32_t *handles,
    size_t handles_len, uint8_t count, uint32_t e, uint8_t *out, size_t out_len);

/* Builds one factor that is the product, with its numbers. Refuses in this order: 4 for an out
 * shorter than 5, 17 for a handle that does not fit, 15 for a product too large, 1 for more than
 * 8 generators, 4 for a room out of range or a short buffer; then as hg_composed does while it
 * reads and after it, and with 17 a number read that is out of range. */
uint32_t hg_product_flatten(const uint32_t *from, size_t from_len, const uint32_t *handles,
    size_t handles_len, uint8_t count, uint32_t *table, size_t table_len, size_t start,
    uint32_t *work, size_t work_len, uint32_t room, uint32_t *out, size_t out_len);

/* libcapi_image.a */

/* Checks an image in lent bytes and answers the refusal's number, or 0. Refuses in this order:
 * 16 or 1 for the head, 4 for short work, 7, 5 or 6 while it reads, 16 for fewer elements than
 * the head says, then 8 to 12. */
uint32_t hg_image_check(const uint8_t *image, size_t image_len, uint8_t *work, size_t work_len);

/* Answers how many bytes of work a check of the image needs. Refuses what no work that is long
 * enough can change: 16 or 1 for the head, then 16 where there is no generator and more than one
 * element. */
uint64_t hg_image_need(const uint8_t *image, size_t image_len);

/* Checks an image in lent bytes as hg_image_check does, writes the verdict into out, its number
 * and three places, and hands the number back. Refuses with 4 an out shorter than 4, before
 * anything else. */
uint32_t hg_image_verdict(const uint8_t *image, size_t image_len, uint8_t *work, size_t work_len,
    uint32_t *out, size_t out_len);

/* Walks a word of generators from an element and answers the element reached, or 65,536 + the
 * refusal's number. Refuses in this order: 16 or 1 for the head, 14 for the start or a generator
 * out of range, 17 for a number read that is no element. */
uint32_t hg_image_walk(const uint8_t *image, size_t image_len, uint32_t start, const uint8_t *word,
    size_t word_len);

/* Writes the image of a factor to the start of out and answers its length. Refuses in this
 * order: 17 for a handle that does not fit, 4 for a short out, 17 for a step that is missing or
 * out of range. */
uint64_t hg_image_write(const uint32_t *table, size_t table_len, size_t start, uint32_t room,
    uint8_t n, uint32_t count, uint8_t *out, size_t out_len);

/* Builds the factor that an image stores. Refuses with 4 an out shorter than 5; then as
 * hg_image_check does, with the places, where 4 is for a short table or work. */
uint32_t hg_image_read(const uint8_t *bytes, size_t bytes_len, uint32_t *table, size_t table_len,
    size_t start, uint32_t *work, size_t work_len, uint32_t *out, size_t out_len);

/* libcapi_lists.a */

/* Writes to each place of out the inverse of the element of a there. Refuses as hg_compose_each
 * does, the places as hg_inverse. */
uint32_t hg_inverse_each(const uint32_t *table, size_t table_len, size_t start, uint32_t room,
    uint8_t n, uint32_t count, const uint32_t *a, size_t a_len, uint32_t *out, size_t out_len,
    uint32_t *told, size_t told_len);

/* Writes to each place of out the power of the element of a there by the exponent there, the
 * inverse's power where that is negative. Refuses as hg_compose_each does, the places as
 * hg_product_powi of the factor alone. */
uint32_t hg_powi_each(const uint32_t *table, size_t table_len, size_t start, uint32_t room,
    uint8_t n, uint32_t count, const uint32_t *a, size_t a_len, const int32_t *exponents,
    size_t exponents_len, uint32_t *out, size_t out_len, uint32_t *told, size_t told_len);

/* Writes to each place of out the product a * b of the elements there. Refuses as
 * hg_compose_each does, the places as hg_product_compose. */
uint32_t hg_product_compose_each(const uint32_t *table, size_t table_len, const uint32_t *handles,
    size_t handles_len, uint8_t count, const uint32_t *a, size_t a_len, const uint32_t *b,
    size_t b_len, uint32_t *out, size_t out_len, uint32_t *told, size_t told_len);

/* Writes to each place of out the inverse of the element of a there. Refuses as hg_compose_each
 * does, the places as hg_product_inverse. */
uint32_t hg_product_inverse_each(const uint32_t *table, size_t table_len, const uint32_t *handles,
    size_t handles_len, uint8_t count, const uint32_t *a, size_t a_len, uint32_t *out,
    size_t out_len, uint32_t *told, size_t told_len);

/* Writes to each place of out the power of the element of a there by the exponent there, the
 * inverse's power where that is negative. Refuses as hg_compose_each does, the places as
 * hg_product_powi. */
uint32_t hg_product_powi_each(const uint32_t *table, size_t table_len, const uint32_t *handles,
    size_t handles_len, uint8_t count, const uint32_t *a, size_t a_len, const int32_t *exponents,
    size_t exponents_len, uint32_t *out, size_t out_len, uint32_t *told, size_t told_len);

/* libcapi_lists_compose.a */

/* Writes to each place of out the product a * b of the elements there. Refuses in this order,
 * and leaves out as it was then: 4 for a told shorter than 5, which stays as it was too; 4 for
 * lists of different lengths or of more than 4,096 places; then the first place that hg_compose
 * refuses, as it does. */
uint32_t hg_compose_each(const uint32_t *table, size_t table_len, size_t start, uint32_t room,
    uint8_t n, uint32_t count, const uint32_t *a, size_t a_len, const uint32_t *b, size_t b_len,
    uint32_t *out, size_t out_len, uint32_t *told, size_t told_len);

/* libcapi_names.a */

/* Builds a factor with a name from composed rows, as hg_composed does. Refuses in this order: 4
 * for an out shorter than 5 or a record shorter than 33, 1 for more than 8 generators, 4 for a
 * room out of range or a short buffer, 18 for a name of more than 32 bytes; then as hg_composed
 * does. Where it refuses, the record stays as it was. */
uint32_t hg_composed_named(uint32_t *table, size_t table_len, size_t start, uint32_t *work,
    size_t work_len, const uint32_t *rows, size_t rows_len, uint8_t n, uint32_t room,
    const uint8_t *name, size_t name_len, uint32_t *out, size_t out_len, uint8_t *record,
    size_t record_len);

/* Builds the group that the pair orders present, with a name, as hg_enumerate does. Refuses in
 * this order: 4 for an out shorter than 5 or a record shorter than 33, 1 for more than 8
 * generators, 2 for a list of the wrong length, 3 for the first order out of range, 4 for a room
 * out of range or a short buffer, 18 for a name of more than 32 bytes, 5 or 6 while it runs.
 * Where it refuses, the record stays as it was. */
uint32_t hg_enumerate_named(uint32_t *table, size_t table_len, size_t start, uint32_t *work,
    size_t work_len, const uint32_t *orders, size_t orders_len, uint8_t n, uint32_t room,
    const uint8_t *name, size_t name_len, uint32_t *out, size_t out_len, uint8_t *record,
    size_t record_len);

/* Begins a build of a factor with a name, as hg_begin does. Refuses in this order: 4 for an out
 * shorter than 5 or a record shorter than 33, 1 for more than 8 generators, 4 for a room out of
 * range or a short table, 18 for a name of more than 32 bytes. Where it refuses, the record
 * stays as it was; else it belongs to the factor that hg_build makes. */
uint32_t hg_begin_named(uint32_t *table, size_t table_len, size_t start, uint32_t room, uint8_t n,
    const uint8_t *name, size_t name_len, uint32_t *out, size_t out_len, uint8_t *record,
    size_t record_len);

/* Writes the joined name of a product, the names of its factors with " x " between each two, to
 * the start of out and answers its length; names has 33 bytes for each factor, as a record gets
 * them. Refuses in this order, and writes nothing then: 17 for a handle that does not fit, a
 * length above 32 or a list of names too short, 15 for a product too large, 18 for an out
 * shorter than the joined name. */
uint64_t hg_joined(const uint32_t *table, size_t table_len, const uint32_t *handles,
    size_t handles_len, uint8_t count, const uint8_t *names, size_t names_len, uint8_t *out,
    size_t out_len);

/* Answers the k-th byte of the joined name or, from its end on, 256 and its length. A joined
 * name that hg_joined refuses is empty here: the answer is 256. No joined name is longer than
 * 277 bytes. */
uint64_t hg_joined_part(const uint32_t *table, size_t table_len, const uint32_t *handles,
    size_t handles_len, uint8_t count, const uint8_t *names, size_t names_len, size_t k);

/* libcapi_subgroup.a */

/* Builds the subgroup that the elements gens of a product generate; inn maps the overgroup to
 * it, outw back. Refuses in this order: 4 for an out shorter than 6, 17 for a handle that does
 * not fit, 14 for the first entry that is no element, 15 for an overgroup too large to number, 1
 * for more than 8 generators, 4 for a room out of range or a short buffer, 17, 5 or 6 while it
 * numbers, then 8 to 12. */
uint32_t hg_subgroup(const uint32_t *from, size_t from_len, const uint32_t *handles,
    size_t handles_len, uint8_t count, const uint32_t *gens, size_t gens_len, uint32_t *table,
    size_t table_len, size_t start, uint32_t *work, size_t work_len, uint32_t *inn, size_t inn_len,
    uint32_t *outw, size_t outw_len, uint32_t room, uint32_t *out, size_t out_len);

/* Builds the subgroup of a byte for each element of the product, not 0 for a member; table and
 * work are lent as for eight generators. Refuses in this order: 4 for an out shorter than 6, 17
 * for a handle that does not fit, 15 for an overgroup too large to number, 4 for a room out of
 * range, a short buffer or too few bytes; then the first refusal of a build, or 15 for a ninth
 * generator. */
uint32_t hg_subgroup_predicate(const uint32_t *from, size_t from_len, const uint32_t *handles,
    size_t handles_len, uint8_t count, const uint8_t *members, size_t members_len, uint32_t *table,
    size_t table_len, size_t start, uint32_t *work, size_t work_len, uint32_t *inn, size_t inn_len,
    uint32_t *outw, size_t outw_len, uint32_t room, uint32_t *out, size_t out_len);

/* Answers the element of the overgroup that the subgroup's e is. Refuses in this order: 17 for a
 * handle that does not fit or a short map, 14 for an element out of range, 15 for a side too
 * large, 17 for a number in the map that is no element. */
uint64_t hg_subgroup_over(const uint32_t *from, size_t from_len, const uint32_t *table,
    size_t table_len, const uint32_t *sub, size_t sub_len, const uint32_t *outw, size_t outw_len,
    uint32_t e);

/* Answers the element of the subgroup that the overgroup's x is, or 4,294,967,295 where it is
 * not in it. Refuses as hg_subgroup_over does. */
uint64_t hg_subgroup_back(const uint32_t *from, size_t from_len, const uint32_t *table,
    size_t table_len, const uint32_t *sub, size_t sub_len, const uint32_t *inn, size_t inn_len,
    uint32_t x);

/* Answers the subgroup's generator g as an element of the overgroup. Refuses in this order: 17
 * for a handle that does not fit or a short map, 14 for a generator out of range, 15 for a side
 * too large, 17 for a number read that is out of range. */
uint64_t hg_subgroup_generator(const uint32_t *from, size_t from_len, const uint32_t *table,
    size_t table_len, const uint32_t *sub, size_t sub_len, const uint32_t *outw, size_t outw_len,
    uint8_t g);

/* Answers how many generators the subgroup has, with those of the groups that were multiplied
 * on. Refuses in this order: 17 for a handle that does not fit, 15 for too many factors or
 * elements. */
uint64_t hg_subgroup_generators(const uint32_t *from, size_t from_len, const uint32_t *table,
    size_t table_len, const uint32_t *sub, size_t sub_len);

/* Writes into out whether a subgroup can have a product's factors below it: then these go in
 * front of those that it has below. Refuses in this order: 4 for an out shorter than 4, 17 for a
 * handle that does not fit, 15 for more than 8 factors or too many elements on a side. */
uint32_t hg_subgroup_left(const uint32_t *from, size_t from_len, const uint32_t *table,
    size_t table_len, const uint32_t *handles, size_t handles_len, uint8_t count,
    const uint32_t *sub, size_t sub_len, uint32_t *out, size_t out_len);

/* Writes into out whether a subgroup can have a product's factors above it: then these go behind
 * those that it has above. Refuses as hg_subgroup_left does. */
uint32_t hg_subgroup_right(const uint32_t *from, size_t from_len, const uint32_t *table,
    size_t table_len, const uint32_t *sub, size_t sub_len, const uint32_t *handles,
    size_t handles_len, uint8_t count, uint32_t *out, size_t out_len);

/* libcapi_walks.a */

/* Answers the element to which the generators of the word lead from the element `from`, one
 * after another; an empty word leads to `from` itself. Refuses in this order: 17 for a handle
 * that does not fit, 14 for `from` (place 0) or the first generator (the one at i has place i +
 * 1) out of range, 17 for a number read that is out of range. */
uint64_t hg_walk(const uint32_t *table, size_t table_len, size_t start, uint32_t room, uint8_t n,
    uint32_t count, uint32_t from, const uint8_t *word, size_t word_len);

/* The same in a product. Refuses in this order: 17 for a handle that does not fit, 14 for `from`
 * (place 0) or the first generator (the one at i has place i + 1) out of range, 15 for a product
 * too large, 17 for a number read that is out of range. */
uint64_t hg_product_walk(const uint32_t *table, size_t table_len, const uint32_t *handles,
    size_t handles_len, uint8_t count, uint32_t from, const uint8_t *word, size_t word_len);

/* End of the functions. */

#ifdef __cplusplus
}
#endif

#endif
