/* Tests of the C interface through include/goofs.h: all eighteen calls on volumes of both editions, every result number, every byte of
 * every buffer. What is expected is worked out from document 01 and stands here as plain numbers. Each call on an image is made on lent
 * sectors too, and must come to the same. The last line is 'N passed, M failed', where a test is one function of the tables at the end, on
 * one edition.
 *
 * The sample volume, F = 255 on 1,313 sectors, has N = 4 extents of S = 128 sectors (65,536 bytes) and T = 1, K = 1:
 *
 *     superblock 0, root 1, directory 2 to 256, journal 257 to 288, table 289, extents at 290, 418, 546 and 674, up to 801
 *
 * One extent stays free, and copies are staged in the highest free one: by these calls alone it is the last.
 *
 * The sectors 802 to 1,312 of the medium are no part of the volume.
 */
#define _DEFAULT_SOURCE /* MAP_ANONYMOUS, MAP_NORESERVE */

#include <inttypes.h>
#include <stdio.h>
#include <stdlib.h>
#include <string.h>
#include <sys/mman.h>

#include "goofs.h"

enum { SECTORS = 1313, IMAGE = SECTORS * 512, LONGEST = GOOFS_RENAME_SET_LIST };

/* Before anything is written, each byte of a medium and of a lent buffer has one of these values, so that stray bytes show. */
enum { MEDIUM = 0xA5, LENT = 0xC3 };

/* Numbers in which no two bytes are the same, so that an exchange of arguments, fields or bytes shows. */
#define ROOT_ID UINT64_C(0x1112131415161718)
#define ROOT_MODE UINT32_C(0x21222324)
#define ROOT_TIME UINT32_C(0x31323334)
#define BEAM_ID UINT64_C(0x4142434445464748)
#define BEAM_MODE UINT32_C(0x51525354)
#define GAIN_ID UINT64_C(0x6162636465666768)
#define GAIN_MODE UINT32_C(0x71727374)

/* -------------------- what a test compares with */

static unsigned long wrong; /* comparisons that failed in the test that runs */
static int from;            /* the line of the test that called a helper */

static void differs(int line, const char *what)
{
    wrong++;
    printf("interface.c:%d (from line %d): %s\n", line, from, what);
}

static void number(int line, const char *what, uint64_t got, uint64_t expected)
{
    if (got == expected)
        return;
    differs(line, what);
    printf("    gave %" PRIu64 ", expected %" PRIu64 "\n", got, expected);
}

static void bytes(int line, const char *what, const uint8_t *got, const uint8_t *expected, size_t length)
{
    size_t at = 0;

    while (at < length && got[at] == expected[at])
        at++;
    if (at == length)
        return;
    differs(line, what);
    printf("    byte %zu is %d, expected %d\n", at, got[at], expected[at]);
}

static void filled(int line, const char *what, const uint8_t *got, uint8_t expected, size_t length)
{
    size_t at = 0;

    while (at < length && got[at] == expected)
        at++;
    if (at == length)
        return;
    differs(line, what);
    printf("    stray byte %zu is %d, not %d\n", at, got[at], expected);
}

/* Results are structs of 8-byte numbers and have no bytes between them. */
static void result(int line, const char *what, const void *got, const void *expected, size_t size)
{
    uint64_t g[16], e[16];
    size_t i;

    if (memcmp(got, expected, size) == 0)
        return;
    differs(line, what);
    memcpy(g, got, size);
    memcpy(e, expected, size);
    printf("    gave    ");
    for (i = 0; i < size / 8; i++)
        printf(" %" PRIu64, g[i]);
    printf("\n    expected");
    for (i = 0; i < size / 8; i++)
        printf(" %" PRIu64, e[i]);
    printf("\n");
}

#define NUMBER(got, expected) number(__LINE__, #got, (got), (expected))

/* IS(result type, call, fields): the call gives these fields, and 0 in all others. */
#define IS(type, call, ...) \
    do { \
        type got_ = (call), expected_ = {__VA_ARGS__}; \
        result(__LINE__, #call, &got_, &expected_, sizeof got_); \
    } while (0)

/* -------------------- the buffers, guarded */

static struct {
    uint8_t before[512], bytes[IMAGE], after[512];
} medium, held;

/* The list of a changing call, or the output of another one; and the list beside an output. */
static struct buffer {
    uint8_t before[512], bytes[LONGEST + 512], after[512];
} lent, lent_list;

static void hold(void) { memcpy(&held, &medium, sizeof held); }

static void held_is(int line)
{
    bytes(line, "the image", (const uint8_t *)&medium, (const uint8_t *)&held, sizeof medium);
}

static void lend(void)
{
    memset(&lent, LENT, sizeof lent);
    memset(&lent_list, LENT, sizeof lent_list);
}

/* The buffer has these bytes at its start and is otherwise as it was. */
static void buffer_is(int line, const struct buffer *buffer, const uint8_t *expected, size_t length)
{
    filled(line, "before the buffer", buffer->before, LENT, sizeof buffer->before);
    if (length > 0)
        bytes(line, "the buffer", buffer->bytes, expected, length);
    filled(line, "past the answer", buffer->bytes + length, LENT, sizeof buffer->bytes - length);
    filled(line, "past the buffer", buffer->after, LENT, sizeof buffer->after);
}

static void lent_is(int line, const uint8_t *expected, size_t length) { buffer_is(line, &lent, expected, length); }

static void list_is(int line, const uint8_t *expected, size_t length) { buffer_is(line, &lent_list, expected, length); }

/* -------------------- the sectors as document 01 has them */

static struct {
    uint64_t edition, files, extents, extent_sectors, journal_at;
    uint64_t staging[5]; /* the first sectors of the K highest free extents, in rising order */
} volume;

/* Where the copy of target k goes. */
static uint64_t stage(size_t k) { return volume.staging[k / volume.extent_sectors] + k % volume.extent_sectors; }

/* On edition 2 each time is later by a number that has more than 32 bits. */
static uint64_t late(uint64_t time) { return volume.edition == 2 ? time + UINT64_C(0x8182838400000000) : time; }

/* Where a name stands in its entry, behind two times and its length, and how long it may be. */
static size_t name_at(void) { return volume.edition == 2 ? 44 : 36; }

static size_t longest_name(void) { return volume.edition == 2 ? 468 : 476; }

static void put(uint8_t *at, int width, uint64_t value)
{
    while (width-- > 0) {
        at[width] = (uint8_t)(value & 255);
        value >>= 8;
    }
}

static void superblock(uint8_t *sector, uint64_t journal_length)
{
    memset(sector, 0, 512);
    put(sector, 2, volume.files);
    put(sector + 2, 2, volume.extents);
    put(sector + 4, 4, volume.extent_sectors);
    memcpy(sector + 8, "/Goo/FS/", 8);
    put(sector + 16, 2, volume.edition);
    put(sector + 18, 2, journal_length);
}

/* The access time at this place and the change time behind it. */
static void times(uint8_t *at, uint64_t access_time, uint64_t change_time)
{
    int width = volume.edition == 2 ? 8 : 4;

    put(at, width, late(access_time));
    put(at + width, width, late(change_time));
}

static void root(uint8_t *sector, uint64_t version, uint64_t change_time)
{
    memset(sector, 0, 512);
    put(sector, 4, version);
    put(sector + 4, 8, ROOT_ID);
    put(sector + 12, 4, ROOT_MODE);
    times(sector + 16, ROOT_TIME, change_time);
}

struct entry {
    uint64_t size, version, id, mode, access_time, change_time;
    const char *name;
};

static void entry(uint8_t *sector, struct entry e)
{
    memset(sector, 0, 512);
    put(sector, 2, 65535);
    put(sector + 2, 8, e.size);
    put(sector + 10, 4, e.version);
    put(sector + 14, 8, e.id);
    put(sector + 22, 4, e.mode);
    times(sector + 26, e.access_time, e.change_time);
    put(sector + name_at() - 2, 2, strlen(e.name));
    memcpy(sector + name_at(), e.name, strlen(e.name));
}

/* The sample's table sector with its four entries, each a file index (high 16 bits) and an offset (low 16 bits). */
#define FREE UINT64_C(0xFFFFFFFF)
static void table(uint8_t *sector, uint64_t e0, uint64_t e1, uint64_t e2, uint64_t e3)
{
    memset(sector, 255, 512);
    put(sector, 4, e0);
    put(sector + 4, 4, e1);
    put(sector + 8, 4, e2);
    put(sector + 12, 4, e3);
}

/* The list that is expected. */
static struct {
    uint8_t bytes[LONGEST];
    size_t length;
} wanted;

static void want(uint64_t sector, const uint8_t *contents)
{
    if (wanted.length + 528 > sizeof wanted.bytes)
        abort();
    put(wanted.bytes + wanted.length, 8, wanted.length / 528);
    put(wanted.bytes + wanted.length + 8, 8, sector);
    memcpy(wanted.bytes + wanted.length + 16, contents, 512);
    wanted.length += 528;
}

static void want_barrier(void)
{
    static const uint8_t zeros[512];

    want(UINT64_MAX, zeros);
}

/* All of a list but its data sectors: copies, journal and a barrier; the start mark and a barrier; the targets and a barrier; the
 * end mark and a barrier. */
static void want_commit(size_t count, const uint64_t *targets, uint8_t (*contents)[512])
{
    uint8_t sector[512];
    size_t k, first;

    for (k = 0; k < count; k++)
        want(stage(k), contents[k]);
    for (first = 0; first < count; first += 32) {
        memset(sector, 0, 512);
        for (k = first; k < count && k < first + 32; k++) {
            put(sector + 16 * (k - first), 8, stage(k));
            put(sector + 16 * (k - first) + 8, 8, targets[k]);
        }
        want(volume.journal_at + first / 32, sector);
    }
    want_barrier();
    superblock(sector, count);
    want(0, sector);
    want_barrier();
    for (k = 0; k < count; k++)
        want(targets[k], contents[k]);
    want_barrier();
    superblock(sector, 0);
    want(0, sector);
    want_barrier();
}

/* The wanted list's first records, done on an image by this program itself. */
static void land(uint8_t *image, size_t records)
{
    static const uint8_t barrier[8] = {255, 255, 255, 255, 255, 255, 255, 255};
    size_t at, i, sector;

    for (at = 0; at < records * 528; at += 528) {
        if (memcmp(wanted.bytes + at + 8, barrier, 8) == 0)
            continue;
        sector = 0;
        for (i = 0; i < 8; i++)
            sector = sector << 8 | wanted.bytes[at + 8 + i];
        memcpy(image + sector * 512, wanted.bytes + at + 16, 512);
    }
}

/* -------------------- calls, with all they may touch */

enum kind { CREATE, DELETE, RENAME, RENAME_SET, RESIZE, WRITE };

struct change {
    enum kind kind;
    const char *name; /* of a set all its names, old and new in turn, with spaces between them */
    uint64_t id;
    uint32_t mode;
    uint64_t time, at; /* of a write the offset, of a resize the new size */
    const uint8_t *data;
    size_t data_length;
    const char *new_name;
    uint64_t place; /* of a set that is refused */
};

/* -------------------- the same on lent sectors */

/* The bytes before the data area of an image that has one; of others as many as the sample's, or all, so that refusal 1 stays. */
static size_t front_of(const uint8_t *image, size_t length)
{
    goofs_summary_result s = goofs_summary(image, length);
    size_t front = s.code == 0 ? GOOFS_FRONT_SECTORS(s.files, s.extents) * 512 : 290 * 512;

    return front < length && length % 512 == 0 ? front : length;
}

/* The image that is lent, and so the sectors that are supplied. */
static const uint8_t *lender = medium.bytes;
static size_t lender_length = IMAGE;

#define FRONT lender, front_of(lender, lender_length), lender_length / 512

/* The wanted sector at the end of 513 bytes, so that one byte too many can be supplied. */
static const uint8_t *supplied(uint64_t sector)
{
    static uint8_t bytes[513];

    if (sector >= lender_length / 512)
        abort();
    memset(bytes, LENT, sizeof bytes);
    memcpy(bytes, lender + sector * 512, 512);
    return bytes;
}

/* The buffer of a step, to see that nothing in it changes. */
static uint8_t kept[LONGEST + 512];

/* Counts of bytes that a step refuses. */
static const size_t wrong_counts[] = {0, 511, 513, 1};

/* The steps of a read to its end. Each sector is first supplied with a wrong count of bytes, and with an output that is too short. */
static goofs_read_result read_to_the_end(goofs_reading r, uint8_t *out, size_t room)
{
    while (r.code == 0 && r.wanted != 0) {
        const uint8_t *sector = supplied(r.wanted);
        goofs_reading same = r;
        size_t k;

        same.code = 8;
        memcpy(kept, out, room);
        for (k = 0; k < sizeof wrong_counts / sizeof *wrong_counts; k++) {
            goofs_reading got = goofs_read_step(r, k ? sector : NULL, wrong_counts[k], out, room);

            result(__LINE__, "a step with a wrong count", &got, &same, sizeof got);
        }
        IS(goofs_reading, goofs_read_step(r, sector, 512, out, (size_t)r.count - 1), .code = 8, .count = r.count, .length = r.length,
           .wanted = r.wanted, .skip = r.skip, .done = r.done, .edge = r.edge, .next = r.next);
        bytes(__LINE__, "the output of a refused step", out, kept, room);
        same.code = 0;
        r = goofs_read_step(same, sector, 512, out, room); /* after a refusal as before it */
    }
    if (r.code == 0 && r.count != 0) { /* no more is taken */
        goofs_reading same = r, got;

        same.code = 8;
        memcpy(kept, out, room);
        got = goofs_read_step(r, medium.bytes, 512, out, room);
        result(__LINE__, "a step behind the last", &got, &same, sizeof got);
        bytes(__LINE__, "the output of a step behind the last", out, kept, room);
    }
    return (goofs_read_result){r.code, r.fault, r.place, r.count, r.length};
}

static goofs_change_result write_to_the_end(goofs_writing w, uint8_t *list, size_t room)
{
    size_t steps = 0;

    while (w.code == 0 && w.wanted.sector != 0) {
        const uint8_t *sector = supplied(w.wanted.sector);
        goofs_writing same = w;
        size_t k;

        NUMBER(w.length, 0);
        same.code = 8;
        memcpy(kept, list, room);
        for (k = 0; k < sizeof wrong_counts / sizeof *wrong_counts; k++) {
            goofs_writing got = goofs_write_step(w, k ? sector : NULL, wrong_counts[k], list, room);

            result(__LINE__, "a step with a wrong count", &got, &same, sizeof got);
        }
        bytes(__LINE__, "the list of a refused step", list, kept, room);
        w = goofs_write_step(w, sector, 512, list, room);
        steps++;
    }
    if (steps > 2)
        differs(__LINE__, "more than two sectors were asked for");
    if (steps > 0) {
        goofs_writing same = w, got;

        same.code = 8;
        memcpy(kept, list, room);
        got = goofs_write_step(w, medium.bytes, 512, list, room);
        result(__LINE__, "a step behind the last", &got, &same, sizeof got);
        bytes(__LINE__, "the list of a step behind the last", list, kept, room);
    }
    return (goofs_change_result){w.code, w.fault, w.place, w.length};
}

static goofs_length_result recover_lent(uint8_t *list, size_t room)
{
    goofs_recovering v = goofs_recover_lent(FRONT, list, room);
    const size_t front = front_of(lender, lender_length);

    while (v.code == 0 && v.wanted != 0) {
        const uint8_t *sector = supplied(v.wanted);
        goofs_recovering same = v, got;
        size_t k;

        NUMBER(v.length, 0);
        same.code = 8;
        memcpy(kept, list, room);
        for (k = 0; k < sizeof wrong_counts / sizeof *wrong_counts; k++) {
            got = goofs_recover_step(v, lender, front, k ? sector : NULL, wrong_counts[k], list, room);
            result(__LINE__, "a step with a wrong count", &got, &same, sizeof got);
        }
        got = goofs_recover_step(v, lender, front - 512, sector, 512, list, room);
        result(__LINE__, "a step with a front that is too short", &got, &same, sizeof got);
        got = goofs_recover_step(v, lender, front, sector, 512, list, 4 * 528 - 1);
        result(__LINE__, "a step with a list that is too short", &got, &same, sizeof got);
        bytes(__LINE__, "the list of a refused step", list, kept, room);
        v = goofs_recover_step(v, lender, front, sector, 512, list, room);
    }
    return (goofs_length_result){v.code, v.length};
}

/* -------------------- changes, on the image and on lent sectors */

/* The names joined, and their lengths. */
static goofs_change_result call_set(const char *words, uint64_t time, uint8_t *list, size_t room, int is_lent)
{
    static uint8_t names[512];
    uint64_t lengths[24] = {0};
    size_t count = 1, length = 0;

    for (; *words; words++) {
        if (*words == ' ') {
            count++;
        } else {
            names[length++] = (uint8_t)*words;
            lengths[count - 1]++;
        }
    }
    if (is_lent)
        return goofs_rename_set_lent(FRONT, names, length, lengths, count, time, list, room);
    return goofs_rename_set(medium.bytes, IMAGE, names, length, lengths, count, time, list, room);
}

static goofs_change_result call_lent(const struct change *c, uint8_t *list, size_t room)
{
    static uint8_t new_name[512];
    const uint8_t *name = (const uint8_t *)c->name;
    size_t length = strlen(c->name), new_length = c->new_name ? strlen(c->new_name) : 0;
    uint64_t time = late(c->time);

    memcpy(new_name, c->new_name ? c->new_name : "", new_length);
    switch (c->kind) {
    case CREATE:
        return goofs_create_lent(FRONT, name, length, c->id, c->mode, time, list, room);
    case DELETE:
        return goofs_delete_lent(FRONT, name, length, time, list, room);
    case RENAME:
        return goofs_rename_lent(FRONT, name, length, new_name, new_length, time, list, room);
    case RENAME_SET:
        return call_set(c->name, time, list, room, 1);
    case RESIZE:
        return write_to_the_end(goofs_resize_lent(FRONT, name, length, c->at, time, list, room), list, room);
    default:
        return write_to_the_end(goofs_write_lent(FRONT, name, length, c->at, c->data, c->data_length, time, list, room), list, room);
    }
}

static goofs_change_result call(const struct change *c, uint8_t *list, size_t room)
{
    static uint8_t new_name[512]; /* a place of its own: slices of one call must not overlap */
    const uint8_t *name = (const uint8_t *)c->name;
    size_t length = strlen(c->name), new_length = c->new_name ? strlen(c->new_name) : 0;
    uint64_t time = late(c->time);

    memcpy(new_name, c->new_name ? c->new_name : "", new_length);
    switch (c->kind) {
    case CREATE:
        return goofs_create(medium.bytes, IMAGE, name, length, c->id, c->mode, time, list, room);
    case DELETE:
        return goofs_delete(medium.bytes, IMAGE, name, length, time, list, room);
    case RENAME:
        return goofs_rename(medium.bytes, IMAGE, name, length, new_name, new_length, time, list, room);
    case RENAME_SET:
        return call_set(c->name, time, list, room, 0);
    case RESIZE:
        return goofs_resize(medium.bytes, IMAGE, name, length, c->at, time, list, room);
    default:
        return goofs_write(medium.bytes, IMAGE, name, length, c->at, c->data, c->data_length, time, list, room);
    }
}

static size_t longest(enum kind kind)
{
    switch (kind) {
    case CREATE:
        return GOOFS_CREATE_LIST;
    case DELETE:
        return GOOFS_DELETE_LIST;
    case RENAME:
        return GOOFS_RENAME_LIST;
    case RENAME_SET:
        return GOOFS_RENAME_SET_LIST;
    case RESIZE:
        return GOOFS_RESIZE_LIST;
    default:
        return GOOFS_WRITE_LIST;
    }
}

typedef goofs_change_result caller(const struct change *c, uint8_t *list, size_t room);
static caller *const ways[] = {call, call_lent};
enum { WAYS = 2 };

/* Check with scratch says what check says, with scratch exactly long enough and longer; one number less and none get 14 where check
 * judges soundness. Only 0 and 7 may change it, and nothing behind it. The same on lent sectors. */
static void checked_with(const uint8_t *image, size_t length, uint64_t code, uint64_t fault, uint64_t place)
{
    static uint32_t scratch[GOOFS_SCRATCH(65535, 65535) + 8];
    goofs_summary_result s = goofs_summary(image, length);
    size_t needed = s.code ? 0 : GOOFS_SCRATCH(s.files, s.extents), i, k;
    const size_t numbers[] = {needed, needed + 7, needed ? needed - 1 : 0, 0}, front = front_of(image, length);
    int is_lent;

    for (is_lent = 0; is_lent < 2; is_lent++) {
        for (k = 0; k < sizeof numbers / sizeof *numbers; k++) {
            int judged = code == 0 || code == 7, enough = numbers[k] >= needed;
            goofs_check_result got, expected = {code, fault, place}, too_short = {.code = 14};
            uint32_t changed = 0;

            for (i = 0; i < needed + 8; i++)
                scratch[i] = 0xa5a55a5au + (uint32_t)i;
            got = is_lent ? goofs_check_with_lent(image, front, length / 512, scratch, numbers[k])
                          : goofs_check_with(image, length, scratch, numbers[k]);
            result(__LINE__, is_lent ? "check_with_lent" : "check_with", &got, judged && !enough ? &too_short : &expected, sizeof got);
            for (i = judged && enough ? numbers[k] : 0; i < needed + 8; i++)
                changed |= scratch[i] ^ (0xa5a55a5au + (uint32_t)i);
            NUMBER(changed, 0);
        }
    }
    IS(goofs_check_result, goofs_check_lent(image, front, length / 512), .code = code, .fault = fault, .place = place);
}

/* The change gives the wanted list, into a list that has just its length, and into one as long as the header's macro; one byte
 * less is 14, and so is no list at all. The image is only read. Then the list lands on it, which leaves a sound volume. */
static void gives(struct change c)
{
    size_t room[2];
    int i, w;

    hold();
    room[0] = wanted.length;
    room[1] = longest(c.kind);
    for (w = 0; w < WAYS; w++) {
        if (wanted.length > 0) {
            lend();
            IS(goofs_change_result, ways[w](&c, lent.bytes, wanted.length - 1), .code = 14);
            lent_is(__LINE__, NULL, 0);
            IS(goofs_change_result, ways[w](&c, NULL, 0), .code = 14);
        } else {
            IS(goofs_change_result, ways[w](&c, NULL, 0), .code = 0, .length = 0);
        }
        for (i = 0; i < 2; i++) {
            lend();
            IS(goofs_change_result, ways[w](&c, lent.bytes, room[i]), .code = 0, .length = wanted.length);
            lent_is(__LINE__, wanted.bytes, wanted.length);
        }
    }
    held_is(__LINE__);
    NUMBER(goofs_carry_out(medium.bytes, IMAGE, lent.bytes, wanted.length), 0);
    land(held.bytes, wanted.length / 528);
    held_is(__LINE__);
    IS(goofs_check_result, goofs_check(medium.bytes, IMAGE), .code = 0);
    checked_with(medium.bytes, IMAGE, 0, 0, 0);
}

/* The change is refused, with any list: 14 is the highest number and the lowest that holds is given. No byte changes. */
static void refused(uint64_t code, struct change c)
{
    int w;

    hold();
    lend();
    for (w = 0; w < WAYS; w++) {
        IS(goofs_change_result, ways[w](&c, lent.bytes, sizeof lent.bytes), .code = code, .place = c.place);
        IS(goofs_change_result, ways[w](&c, NULL, 0), .code = code, .place = c.place);
    }
    lent_is(__LINE__, NULL, 0);
    held_is(__LINE__);
}

/* Done without looking at the list: the way to a volume on which something else is tried. */
static void made(struct change c)
{
    goofs_change_result answer = call(&c, lent.bytes, sizeof lent.bytes);

    NUMBER(answer.code, 0);
    NUMBER(goofs_carry_out(medium.bytes, IMAGE, lent.bytes, (size_t)answer.length), 0);
}

#define GIVES(...) (from = __LINE__, gives((struct change){__VA_ARGS__}))
#define REFUSED(code, ...) (from = __LINE__, refused((code), (struct change){__VA_ARGS__}))
#define MADE(...) (from = __LINE__, made((struct change){__VA_ARGS__}))

/* The time of reads and lists, and the list of one: the sector of the image with the time at this place, and with no other byte
 * changed. 1 copy, a journal sector, 2 marks, 1 target, 4 barriers: 9 records. */
#define ACCESS_TIME UINT32_C(0x61626364)
enum { ACCESS_LIST = 4752 };

static const uint8_t *access_list(uint64_t sector, size_t at)
{
    static uint8_t list[ACCESS_LIST], kept[ACCESS_LIST];
    uint8_t contents[1][512];
    size_t length = wanted.length;

    memcpy(contents[0], medium.bytes + sector * 512, 512);
    put(contents[0] + at, volume.edition == 2 ? 8 : 4, late(ACCESS_TIME));
    memcpy(kept, wanted.bytes, sizeof kept);
    wanted.length = 0;
    want_commit(1, &sector, contents);
    NUMBER(wanted.length, sizeof list);
    memcpy(list, wanted.bytes, sizeof list);
    memcpy(wanted.bytes, kept, sizeof kept);
    wanted.length = length;
    return list;
}

/* The lengths of both buffers of a read or list. */
struct lending {
    size_t out, list;
};

static goofs_list_result list_call(uint64_t index, struct lending l)
{
    return goofs_list(medium.bytes, IMAGE, index, late(ACCESS_TIME), l.out ? lent.bytes : NULL, l.out, l.list ? lent_list.bytes : NULL,
                      l.list);
}

static goofs_read_result read_call(const char *name, uint64_t offset, uint64_t count, struct lending l)
{
    return goofs_read(medium.bytes, IMAGE, (const uint8_t *)name, strlen(name), offset, count, late(ACCESS_TIME),
                      l.out ? lent.bytes : NULL, l.out, l.list ? lent_list.bytes : NULL, l.list);
}

static goofs_list_result list_lent(uint64_t index, struct lending l)
{
    return goofs_list_lent(FRONT, index, late(ACCESS_TIME), l.out ? lent.bytes : NULL, l.out, l.list ? lent_list.bytes : NULL, l.list);
}

static goofs_read_result read_lent(const char *name, uint64_t offset, uint64_t count, struct lending l)
{
    goofs_reading r = goofs_read_lent(FRONT, (const uint8_t *)name, strlen(name), offset, count, late(ACCESS_TIME), l.out,
                                      l.list ? lent_list.bytes : NULL, l.list);

    return read_to_the_end(r, lent.bytes, l.out);
}

typedef goofs_list_result lister(uint64_t index, struct lending l);
typedef goofs_read_result reader(const char *name, uint64_t offset, uint64_t count, struct lending l);
static lister *const list_ways[] = {list_call, list_lent};
static reader *const read_ways[] = {read_call, read_lent};

static const struct lending much = {sizeof lent.bytes, sizeof lent_list.bytes}, nothing = {0, 0};

/* Find and list give the entry; its name is copied to an output that has just its length, and to a longer one. The list sets the
 * root's access time. */
static void entry_is(uint64_t index, struct entry e)
{
    const uint8_t *name = (const uint8_t *)e.name, *list;
    size_t length = strlen(e.name), more;
    int w;

    hold();
    IS(goofs_find_result, goofs_find(medium.bytes, IMAGE, name, length), .code = 0, .index = index, .size = e.size,
       .version = e.version, .id = e.id, .mode = e.mode, .access_time = late(e.access_time), .change_time = late(e.change_time),
       .name_length = length);
    IS(goofs_find_result, goofs_find_lent(FRONT, name, length), .code = 0, .index = index, .size = e.size, .version = e.version,
       .id = e.id, .mode = e.mode, .access_time = late(e.access_time), .change_time = late(e.change_time), .name_length = length);
    list = access_list(1, 16);
    for (w = 0; w < WAYS; w++) {
        lend();
        IS(goofs_list_result, list_ways[w](index, (struct lending){length - 1, ACCESS_LIST}), .code = 14);
        IS(goofs_list_result, list_ways[w](index, (struct lending){length, ACCESS_LIST - 1}), .code = 14);
        IS(goofs_list_result, list_ways[w](index, (struct lending){length, 0}), .code = 14);
        IS(goofs_list_result, list_ways[w](index, nothing), .code = 14);
        lent_is(__LINE__, NULL, 0);
        list_is(__LINE__, NULL, 0);
        for (more = 0; more <= 1; more++) {
            lend();
            IS(goofs_list_result, list_ways[w](index, (struct lending){length + more, ACCESS_LIST + more}), .code = 0, .size = e.size,
               .version = e.version, .id = e.id, .mode = e.mode, .access_time = late(e.access_time),
               .change_time = late(e.change_time), .name_length = length, .length = ACCESS_LIST);
            lent_is(__LINE__, name, length);
            list_is(__LINE__, list, ACCESS_LIST);
        }
    }
    held_is(__LINE__);
}

#define ENTRY_IS(index, ...) (from = __LINE__, entry_is((index), (struct entry){__VA_ARGS__}))

/* A read gives these bytes, into an output that has just their length, and into a longer one. The list sets the file's access time,
 * also where there are none. */
static void reads(const char *name, uint64_t offset, uint64_t count, const uint8_t *expected, size_t length)
{
    uint64_t index = goofs_find(medium.bytes, IMAGE, (const uint8_t *)name, strlen(name)).index;
    const uint8_t *list;
    size_t more;
    int w;

    hold();
    list = access_list(2 + index, 26);
    for (w = 0; w < WAYS; w++) {
        lend();
        if (length > 0)
            IS(goofs_read_result, read_ways[w](name, offset, count, (struct lending){length - 1, ACCESS_LIST}), .code = 14);
        IS(goofs_read_result, read_ways[w](name, offset, count, (struct lending){length, ACCESS_LIST - 1}), .code = 14);
        IS(goofs_read_result, read_ways[w](name, offset, count, (struct lending){length, 0}), .code = 14);
        IS(goofs_read_result, read_ways[w](name, offset, count, nothing), .code = 14);
        lent_is(__LINE__, NULL, 0);
        list_is(__LINE__, NULL, 0);
        for (more = 0; more <= 1; more++) {
            lend();
            IS(goofs_read_result, read_ways[w](name, offset, count, (struct lending){length + more, ACCESS_LIST + more}), .code = 0,
               .count = length, .length = ACCESS_LIST);
            lent_is(__LINE__, expected, length);
            list_is(__LINE__, list, ACCESS_LIST);
        }
    }
    held_is(__LINE__);
}

#define READS (from = __LINE__, reads)

static void read_refused(uint64_t code, const char *name, uint64_t offset, uint64_t count)
{
    int w;

    hold();
    lend();
    for (w = 0; w < WAYS; w++) {
        IS(goofs_read_result, read_ways[w](name, offset, count, much), .code = code);
        IS(goofs_read_result, read_ways[w](name, offset, count, nothing), .code = code);
    }
    lent_is(__LINE__, NULL, 0);
    list_is(__LINE__, NULL, 0);
    held_is(__LINE__);
}

#define READ_REFUSED (from = __LINE__, read_refused)

enum { NOT_THESE = 0, SUMMARY = 1, RECOVER = 2 };

/* The forms on lent sectors refuse them, as the calls below do. */
static void all_lent_refuse(int besides, const uint8_t *front, size_t length, uint64_t sectors, uint64_t code, uint64_t fault,
                            uint64_t place)
{
    static const uint8_t beam[] = "beam", created[] = "new", one[] = "1", both[] = "beamnew";
    static const uint64_t lengths[] = {4, 3};
    int bad;

    if (besides & SUMMARY)
        IS(goofs_summary_result, goofs_summary_lent(front, length, sectors), .code = code);
    IS(goofs_check_result, goofs_check_lent(front, length, sectors), .code = code, .fault = fault, .place = place);
    for (bad = 0; bad < 2; bad++) {
        const uint8_t *name = bad ? NULL : beam, *new_name = bad ? NULL : created, *data = bad ? NULL : one;
        size_t name_length = bad ? 0 : 4, new_length = bad ? 0 : 3, data_length = bad ? 0 : 1, room = bad ? 0 : sizeof lent.bytes;
        uint64_t number = bad ? UINT64_MAX : 0, time = number;
        uint8_t *out = bad ? NULL : lent.bytes, *list = bad ? NULL : lent_list.bytes;

        IS(goofs_find_result, goofs_find_lent(front, length, sectors, name, name_length), .code = code, .fault = fault, .place = place);
        IS(goofs_list_result, goofs_list_lent(front, length, sectors, number, time, out, room, list, room), .code = code,
           .fault = fault, .place = place);
        IS(goofs_reading, goofs_read_lent(front, length, sectors, name, name_length, number, number, time, room, list, room),
           .code = code, .fault = fault, .place = place);
        IS(goofs_change_result, goofs_create_lent(front, length, sectors, new_name, new_length, bad ? 0 : 99, 0, time, out, room),
           .code = code, .fault = fault, .place = place);
        IS(goofs_change_result, goofs_delete_lent(front, length, sectors, name, name_length, time, out, room), .code = code,
           .fault = fault, .place = place);
        IS(goofs_change_result,
           goofs_rename_lent(front, length, sectors, name, name_length, new_name, new_length, time, out, room), .code = code,
           .fault = fault, .place = place);
        IS(goofs_change_result,
           goofs_rename_set_lent(front, length, sectors, bad ? NULL : both, bad ? 0 : 7, bad ? NULL : lengths, bad ? 0 : 2, time, out,
                                 room),
           .code = code, .fault = fault, .place = place);
        IS(goofs_writing, goofs_resize_lent(front, length, sectors, name, name_length, number, time, out, room), .code = code,
           .fault = fault, .place = place);
        IS(goofs_writing, goofs_write_lent(front, length, sectors, name, name_length, number, data, data_length, time, out, room),
           .code = code, .fault = fault, .place = place);
        if (code != 7)
            IS(goofs_repair_result, goofs_repair_lent(front, length, sectors, out, room), .code = code);
        if (besides & RECOVER)
            IS(goofs_recovering, goofs_recover_lent(front, length, sectors, out, room), .code = code);
    }
}

/* check, find, list, read, create, delete, rename, a set of renames, resize and write, and those that are named besides, refuse the
 * image. Arguments that are bad in every other way change nothing, as the lowest number is given. */
static void all_refuse(int besides, const uint8_t *image, size_t length, uint64_t code, uint64_t fault, uint64_t place)
{
    static const uint8_t beam[] = "beam", created[] = "new", one[] = "1", both[] = "beamnew";
    static const uint64_t lengths[] = {4, 3};
    int bad;

    hold();
    lend();
    if (besides & SUMMARY)
        IS(goofs_summary_result, goofs_summary(image, length), .code = code);
    IS(goofs_check_result, goofs_check(image, length), .code = code, .fault = fault, .place = place);
    checked_with(image, length, code, fault, place);
    for (bad = 0; bad < 2; bad++) {
        const uint8_t *name = bad ? NULL : beam, *new_name = bad ? NULL : created, *data = bad ? NULL : one;
        size_t name_length = bad ? 0 : 4, new_length = bad ? 0 : 3, data_length = bad ? 0 : 1, room = bad ? 0 : sizeof lent.bytes;
        uint64_t number = bad ? UINT64_MAX : 0, time = number;
        uint8_t *out = bad ? NULL : lent.bytes, *list = bad ? NULL : lent_list.bytes;

        IS(goofs_find_result, goofs_find(image, length, name, name_length), .code = code, .fault = fault, .place = place);
        IS(goofs_list_result, goofs_list(image, length, number, time, out, room, list, room), .code = code, .fault = fault,
           .place = place);
        IS(goofs_read_result, goofs_read(image, length, name, name_length, number, number, time, out, room, list, room), .code = code,
           .fault = fault, .place = place);
        IS(goofs_change_result, goofs_create(image, length, new_name, new_length, bad ? 0 : 99, 0, time, out, room), .code = code,
           .fault = fault, .place = place);
        IS(goofs_change_result, goofs_delete(image, length, name, name_length, time, out, room), .code = code, .fault = fault,
           .place = place);
        IS(goofs_change_result, goofs_rename(image, length, name, name_length, new_name, new_length, time, out, room), .code = code,
           .fault = fault, .place = place);
        IS(goofs_change_result,
           goofs_rename_set(image, length, bad ? NULL : both, bad ? 0 : 7, bad ? NULL : lengths, bad ? 0 : 2, time, out, room),
           .code = code, .fault = fault, .place = place);
        IS(goofs_change_result, goofs_resize(image, length, name, name_length, number, time, out, room), .code = code, .fault = fault,
           .place = place);
        IS(goofs_change_result, goofs_write(image, length, name, name_length, number, data, data_length, time, out, room),
           .code = code, .fault = fault, .place = place);
        if (code != 7)
            IS(goofs_repair_result, goofs_repair(image, length, out, room), .code = code);
        if (besides & RECOVER)
            IS(goofs_length_result, goofs_recover(image, length, out, room), .code = code);
        if (besides & RECOVER)
            IS(goofs_slice_result, goofs_recover_slice(image, length, number, out, room), .code = code);
    }
    all_lent_refuse(besides, image, length, length / 512, code, fault, place);
    all_lent_refuse(besides, image, front_of(image, length), length / 512, code, fault, place);
    lent_is(__LINE__, NULL, 0);
    list_is(__LINE__, NULL, 0);
    held_is(__LINE__);
}

#define ALL_REFUSE (from = __LINE__, all_refuse)

/* The sample's summary, with this state. */
#define SAMPLE_IS(...) \
    do { \
        IS(goofs_summary_result, goofs_summary(medium.bytes, IMAGE), .files = 255, .extents = 4, .extent_sectors = 128, \
           .edition = volume.edition, __VA_ARGS__); \
        IS(goofs_summary_result, goofs_summary_lent(FRONT), .files = 255, .extents = 4, .extent_sectors = 128, \
           .edition = volume.edition, __VA_ARGS__); \
    } while (0)

/* -------------------- the volume to begin with */

/* The record of this position of the sample's format. */
static void want_format_record(uint64_t position)
{
    uint8_t sector[512];

    wanted.length = 0;
    if (position == 1 || position == 259 || position == 261) {
        want_barrier();
    } else if (position == 0 || position == 260) {
        superblock(sector, position == 0 ? 65535 : 0);
        want(0, sector);
    } else if (position == 2) {
        root(sector, 0, ROOT_TIME);
        want(1, sector);
    } else if (position < 258) { /* 255 directory sectors, from sector 2 on */
        memset(sector, 0, 512);
        want(position - 1, sector);
    } else {
        memset(sector, 255, 512);
        want(289, sector);
    }
    put(wanted.bytes, 8, position);
}

static goofs_length_result sample_record(uint64_t position, uint8_t *out, size_t room)
{
    return goofs_format_record(1313, 255, volume.edition, ROOT_ID, ROOT_MODE, late(ROOT_TIME), position, out, room);
}

static void blank_medium(void) { memset(&medium, MEDIUM, sizeof medium); }

static void sample(void)
{
    static uint8_t list[262 * 528]; /* all records of the format, joined */
    size_t position;

    volume.files = 255;
    volume.extents = 4;
    volume.extent_sectors = 128;
    volume.journal_at = 257;
    volume.staging[0] = 674;
    blank_medium();
    for (position = 0; position < 262; position++)
        NUMBER(sample_record(position, list + position * 528, 528).code, 0);
    NUMBER(goofs_carry_out(medium.bytes, IMAGE, list, sizeof list), 0);
}

/* 65,536 bytes, of which no sector is like another. */
static uint8_t data[GOOFS_LONGEST_TRANSFER + 1];

static void make_data(void)
{
    size_t i;

    for (i = 0; i < sizeof data; i++)
        data[i] = (uint8_t)((i * 7 + i / 512 * 3) & 255);
}

/* The sample with two files: "beam", 3,000 bytes in extent 0, and "gain", empty. */
static void two_files(void)
{
    sample();
    MADE(CREATE, "beam", .id = BEAM_ID, .mode = BEAM_MODE, .time = 1001);
    MADE(WRITE, "beam", .at = 0, .data = data, .data_length = 3000, .time = 1002);
    MADE(CREATE, "gain", .id = GAIN_ID, .mode = GAIN_MODE, .time = 1003);
}

/* -------------------- the tests */

static void sizes_of_results(void)
{
    NUMBER(sizeof(goofs_summary_result), 56); /* 7 numbers of 8 bytes */
    NUMBER(sizeof(goofs_check_result), 24);   /* 3 */
    NUMBER(sizeof(goofs_find_result), 88);    /* 11 */
    NUMBER(sizeof(goofs_list_result), 88);    /* 11 */
    NUMBER(sizeof(goofs_read_result), 40);    /* 5 */
    NUMBER(sizeof(goofs_change_result), 32);  /* 4 */
    NUMBER(sizeof(goofs_repair_result), 40);  /* 5 */
    NUMBER(sizeof(goofs_length_result), 16);  /* 2 */
    NUMBER(sizeof(goofs_slice_result), 24);   /* 3 */
    NUMBER(sizeof(goofs_reading), 80);        /* 10 */
    NUMBER(sizeof(goofs_part), 32);           /* 4 */
    NUMBER(sizeof(goofs_writing), 104);       /* 5 and two parts */
    NUMBER(sizeof(goofs_recovering), 40);     /* 5 */
}

static void macros(void)
{
    NUMBER(GOOFS_SECTOR, 512);
    NUMBER(GOOFS_RECORD, 528);
    NUMBER(GOOFS_POSITION, 0);
    NUMBER(GOOFS_NUMBER, 8);
    NUMBER(GOOFS_CONTENTS, 16);
    NUMBER(GOOFS_LONGEST_NAME, 476);
    NUMBER(GOOFS_LONGEST_NAME_2, 468);
    NUMBER(GOOFS_LATEST_TIME_1, 4294967295);
    NUMBER(GOOFS_LONGEST_TRANSFER, 65536);
    NUMBER(GOOFS_MOST_RENAMES, 8);
    NUMBER(GOOFS_BARRIER, UINT64_C(18446744073709551615));
    /* The names stand for the numbers of the rules. */
    NUMBER(GOOFS_DONE, 0);
    NUMBER(GOOFS_NOT_WHOLE_SECTORS, 1);
    NUMBER(GOOFS_NOT_A_VOLUME, 2);
    NUMBER(GOOFS_OUT_OF_BOUNDS, 3);
    NUMBER(GOOFS_UNFINISHED, 4);
    NUMBER(GOOFS_WAITING, 5);
    NUMBER(GOOFS_DAMAGED, 6);
    NUMBER(GOOFS_NOT_SOUND, 7);
    NUMBER(GOOFS_BAD_ARGUMENT, 8);
    NUMBER(GOOFS_NOT_THERE, 9);
    NUMBER(GOOFS_ALREADY_THERE, 10);
    NUMBER(GOOFS_DIRECTORY_FULL, 11);
    NUMBER(GOOFS_PAST_THE_END, 12);
    NUMBER(GOOFS_NO_ROOM, 13);
    NUMBER(GOOFS_BUFFER_TOO_SHORT, 14);
    NUMBER(GOOFS_FAULT_MARK, 21);
    NUMBER(GOOFS_FAULT_NAME_OR_SIZE, 22);
    NUMBER(GOOFS_FAULT_SAME_NAME, 23);
    NUMBER(GOOFS_FAULT_ID, 24);
    NUMBER(GOOFS_FAULT_TABLE, 25);
    NUMBER(GOOFS_FAULT_EXTENTS, 26);
    NUMBER(GOOFS_STATE_CLEAN, 0);
    NUMBER(GOOFS_STATE_WAITING, 1);
    NUMBER(GOOFS_STATE_DAMAGED, 2);
    NUMBER(GOOFS_STATE_UNFINISHED, 3);
    NUMBER(GOOFS_ACCESS_LIST, 4752);       /* 1 copy, journal, start mark, 1 target, end mark, 4 barriers: 9 records */
    NUMBER(GOOFS_CREATE_LIST, 5808);       /* 2 copies, journal, start mark, 2 targets, end mark, 4 barriers: 11 records */
    NUMBER(GOOFS_DELETE_LIST, 554928);     /* 514 copies, 17 journal sectors, 2 marks, 514 targets, 4 barriers: 1,051 */
    NUMBER(GOOFS_RENAME_LIST, 555984);     /* 515 copies, 17 journal sectors, 2 marks, 515 targets, 4 barriers: 1,053 */
    NUMBER(GOOFS_RENAME_SET_LIST, 570768); /* 529 copies, 17 journal sectors, 2 marks, 529 targets, 4 barriers: 1,081 */
    NUMBER(GOOFS_RESIZE_LIST, 553872);     /* 513 copies, 17 journal sectors, 2 marks, 513 targets, 4 barriers: 1,049 */
    NUMBER(GOOFS_WRITE_LIST, 73920);       /* 129 data sectors, 2 copies, journal, 2 marks, 2 targets, 4 barriers: 140 */
    NUMBER(GOOFS_REPAIR_LIST, 552288);     /* 512 copies, 16 journal sectors, 2 marks, 512 targets, 4 barriers: 1,046 */
    NUMBER(GOOFS_RECOVER_LIST, 542256);    /* 1,024 targets, end mark, 2 barriers: 1,027 */
    NUMBER(GOOFS_RESERVE(4, 128), 1);
    NUMBER(GOOFS_RESERVE(125 * 128, 128), 1);
    NUMBER(GOOFS_RESERVE(125 * 128 + 1, 128), 2);
    NUMBER(GOOFS_RESERVE(65535, 128), 5);
    NUMBER(GOOFS_RESERVE(65535, 256), 3);
}

/* The longest lists by geometry: the call, proved, and the macros, for buffers of a fixed length. */
static void longest_by_geometry(void)
{
    static const uint64_t shapes[][3] = {
        {255, 2, 128}, {255, 4, 128}, {255, 128, 128}, {255, 129, 128}, {1021, 4, 128}, {1022, 4, 128}, {1023, 4, 128}, {255, 8192, 128},
        {255, 8320, 128}, {255, 14208, 128}, {255, 14336, 128}, {255, 14336, 129}, {255, 15360, 136}, {255, 15360, 137}, {255, 16001, 128},
        {65535, 65535, 128}, {65535, 65535, 4294967295},
    };
    size_t k;

    for (k = 0; k < sizeof shapes / sizeof *shapes; k++) {
        const uint64_t f = shapes[k][0], n = shapes[k][1], s = shapes[k][2];

        from = (int)k;
        IS(goofs_length_result, goofs_longest_list(f, n, s, GOOFS_CALL_ACCESS), .code = 0, .length = GOOFS_ACCESS_LIST);
        IS(goofs_length_result, goofs_longest_list(f, n, s, GOOFS_CALL_CREATE), .code = 0, .length = GOOFS_CREATE_LIST);
        IS(goofs_length_result, goofs_longest_list(f, n, s, GOOFS_CALL_DELETE), .code = 0, .length = GOOFS_DELETE_LIST_ON(n));
        IS(goofs_length_result, goofs_longest_list(f, n, s, GOOFS_CALL_RENAME), .code = 0, .length = GOOFS_RENAME_LIST_ON(n));
        IS(goofs_length_result, goofs_longest_list(f, n, s, GOOFS_CALL_RENAME_SET), .code = 0, .length = GOOFS_RENAME_SET_LIST_ON(n, s));
        IS(goofs_length_result, goofs_longest_list(f, n, s, GOOFS_CALL_RESIZE), .code = 0, .length = GOOFS_RESIZE_LIST_ON(n));
        IS(goofs_length_result, goofs_longest_list(f, n, s, GOOFS_CALL_WRITE), .code = 0, .length = GOOFS_WRITE_LIST);
        IS(goofs_length_result, goofs_longest_list(f, n, s, GOOFS_CALL_REPAIR), .code = 0, .length = GOOFS_REPAIR_LIST_ON(n));
        IS(goofs_length_result, goofs_longest_list(f, n, s, GOOFS_CALL_RECOVER), .code = 0, .length = GOOFS_RECOVER_LIST_ON(f, n));
        IS(goofs_length_result, goofs_longest_list(f, n, s, GOOFS_CALL_RECOVER_SLICE), .code = 0,
           .length = GOOFS_SLICE_LIST(GOOFS_JOURNAL_TARGETS(f, n)));
    }
    /* The sample's, in plain numbers: 1, 2, 3, 4, 18 and 1 targets, 129 sectors of data, 257 sectors for a journal's targets. */
    IS(goofs_length_result, goofs_longest_list(255, 4, 128, 1), .length = 9 * 528);
    IS(goofs_length_result, goofs_longest_list(255, 4, 128, 2), .length = 11 * 528);
    IS(goofs_length_result, goofs_longest_list(255, 4, 128, 3), .length = 13 * 528);
    IS(goofs_length_result, goofs_longest_list(255, 4, 128, 4), .length = 15 * 528);
    IS(goofs_length_result, goofs_longest_list(255, 4, 128, 5), .length = 43 * 528);
    IS(goofs_length_result, goofs_longest_list(255, 4, 128, 6), .length = 140 * 528);
    IS(goofs_length_result, goofs_longest_list(255, 4, 128, 7), .length = 140 * 528);
    IS(goofs_length_result, goofs_longest_list(255, 4, 128, 8), .length = 9 * 528);
    IS(goofs_length_result, goofs_longest_list(255, 4, 128, 9), .length = 260 * 528);
    IS(goofs_length_result, goofs_longest_list(255, 4, 128, 10), .length = 258 * 528);
    IS(goofs_length_result, goofs_longest_list(255, 4, 128, 0), .code = 8);
    IS(goofs_length_result, goofs_longest_list(255, 4, 128, 11), .code = 8);
    IS(goofs_length_result, goofs_longest_list(254, 4, 128, 1), .code = 3);
    IS(goofs_length_result, goofs_longest_list(65536, 4, 128, 1), .code = 3);
    IS(goofs_length_result, goofs_longest_list(255, 1, 128, 1), .code = 3);
    IS(goofs_length_result, goofs_longest_list(255, 65536, 128, 1), .code = 3);
    IS(goofs_length_result, goofs_longest_list(255, 4, 127, 0), .code = 3); /* before 8 */
    IS(goofs_length_result, goofs_longest_list(255, 4, UINT64_C(4294967424), 1), .code = 3);
}

static void format_position_by_position(void)
{
    uint64_t position;

    sample(); /* sets the geometry */
    blank_medium();
    ALL_REFUSE(SUMMARY | RECOVER, medium.bytes, IMAGE, 2, 0, 0);
    hold();
    for (position = 0; position < 262; position++) { /* 1 + 1 + 1 + 255 + 1 + 1 + 1 + 1 records */
        want_format_record(position);
        lend();
        IS(goofs_length_result, sample_record(position, lent.bytes, 527), .code = 14);
        IS(goofs_length_result, sample_record(position, NULL, 0), .code = 14);
        lent_is(__LINE__, NULL, 0);
        IS(goofs_length_result, sample_record(position, lent.bytes, position % 2 == 0 ? 528 : sizeof lent.bytes), .code = 0,
           .length = 528);
        lent_is(__LINE__, wanted.bytes, 528);
        if (position > 0) { /* alone it is no list, until it is numbered anew */
            NUMBER(goofs_carry_out(medium.bytes, IMAGE, lent.bytes, 528), 8);
            held_is(__LINE__);
            put(lent.bytes, 8, 0);
        }
        NUMBER(goofs_carry_out(medium.bytes, IMAGE, lent.bytes, 528), 0);
        land(held.bytes, 1);
        held_is(__LINE__);
        if (position == 1 || position == 259) { /* from the first superblock on until the second, the volume is unfinished */
            SAMPLE_IS(.state = 3);
            ALL_REFUSE(RECOVER, medium.bytes, IMAGE, 4, 0, 0);
        }
    }
    lend();
    IS(goofs_length_result, sample_record(262, lent.bytes, sizeof lent.bytes), .code = 9);
    IS(goofs_length_result, sample_record(262, NULL, 0), .code = 9);
    IS(goofs_length_result, sample_record(UINT64_MAX, lent.bytes, sizeof lent.bytes), .code = 9);
    lent_is(__LINE__, NULL, 0);
    SAMPLE_IS(.state = 0);
    IS(goofs_check_result, goofs_check(medium.bytes, IMAGE), .code = 0);
    IS(goofs_length_result, goofs_recover(medium.bytes, IMAGE, NULL, 0), .code = 0);
    /* The journal (257 to 288), the data (from 290) and the tail were not written, as the format names them not. */
    filled(__LINE__, "the journal", medium.bytes + 257 * 512, MEDIUM, 32 * 512);
    filled(__LINE__, "the data and the tail", medium.bytes + 290 * 512, MEDIUM, (1313 - 290) * 512);
}

/* The geometry that a format gives, from its first record. */
static void geometry_is(uint64_t sectors, uint64_t files, uint64_t extents, uint64_t extent_sectors)
{
    volume.files = files;
    volume.extents = extents;
    volume.extent_sectors = extent_sectors;
    wanted.length = 0;
    want(0, (superblock(held.bytes, 65535), held.bytes));
    lend();
    IS(goofs_length_result, goofs_format_record(sectors, files, volume.edition, 0, 0, 0, 0, lent.bytes, 528), .code = 0, .length = 528);
    lent_is(__LINE__, wanted.bytes, 528);
}

static void no_geometry(uint64_t sectors, uint64_t files)
{
    lend();
    IS(goofs_length_result, goofs_format_record(sectors, files, volume.edition, 1, 0, 0, 0, lent.bytes, sizeof lent.bytes), .code = 8);
    IS(goofs_length_result, goofs_format_record(sectors, files, volume.edition, 1, 0, 0, UINT64_MAX, NULL, 0), .code = 8);
    lent_is(__LINE__, NULL, 0);
}

static void geometries(void)
{
    from = __LINE__;
    geometry_is(1057, 255, 2, 128);                                 /* P2 */
    no_geometry(1056, 255);                                         /* P3 */
    geometry_is(8389408, 255, 65535, 128);                          /* P4 */
    geometry_is(8389409, 255, 32768, 256);                          /* P5 */
    geometry_is(UINT64_C(140737488356128), 255, 65535, 2147483648); /* 2^47 + 800: G = 2^47 - 1, so S = 2^31 */
    no_geometry(UINT64_C(140737488356129), 255);                    /* G = 2^47: 65,536 extents of 2^31, the last S */
    geometry_is(1826, 1024, 2, 128);                                /* G = 1826 - 546 - 1024 = 256 */
    geometry_is(66337, 65535, 2, 128);                              /* G = 66337 - 546 - 65535 = 256 */
    no_geometry(66336, 65535);
    no_geometry(1313, 254);
    no_geometry(1000000, 65536);
    no_geometry(1313, UINT64_C(4294967551)); /* 2^32 + 255: not cut to 32 bits */
    no_geometry(0, 255);
    no_geometry(UINT64_MAX, 255);
}

static void first_create(void)
{
    static const uint64_t order[11] = {674, 675, 257, UINT64_MAX, 0, UINT64_MAX, 1, 2, UINT64_MAX, 0, UINT64_MAX}; /* P6 */
    uint8_t contents[2][512], front[16];
    size_t k;

    sample();
    wanted.length = 0;
    root(contents[0], 1, 1001);
    entry(contents[1], (struct entry){.id = BEAM_ID, .mode = BEAM_MODE, .access_time = 1001, .change_time = 1001, .name = "beam"});
    want_commit(2, (const uint64_t[]){1, 2}, contents);
    NUMBER(wanted.length, 5808);
    GIVES(CREATE, "beam", .id = BEAM_ID, .mode = BEAM_MODE, .time = 1001);
    for (k = 0; k < 11; k++) {
        put(front, 8, k);
        put(front + 8, 8, order[k]);
        bytes(__LINE__, "the position and sector of a record", lent.bytes + 528 * k, front, 16);
    }
    ENTRY_IS(0, .id = BEAM_ID, .mode = BEAM_MODE, .access_time = 1001, .change_time = 1001, .name = "beam");
    READS("beam", 0, 65536, NULL, 0);

    /* The second file takes the next entry, sector 3; the root is changed again. */
    wanted.length = 0;
    root(contents[0], 2, 1003);
    entry(contents[1], (struct entry){.id = GAIN_ID, .mode = GAIN_MODE, .access_time = 1003, .change_time = 1003, .name = "gain"});
    want_commit(2, (const uint64_t[]){1, 3}, contents);
    GIVES(CREATE, "gain", .id = GAIN_ID, .mode = GAIN_MODE, .time = 1003);
    ENTRY_IS(1, .id = GAIN_ID, .mode = GAIN_MODE, .access_time = 1003, .change_time = 1003, .name = "gain");

    REFUSED(10, CREATE, "beam", .id = 5); /* the name is there */
    REFUSED(10, CREATE, "new", .id = BEAM_ID);
    REFUSED(10, CREATE, "new", .id = ROOT_ID);
    REFUSED(8, CREATE, "new", .id = 0);
}

static void writes_and_reads(void)
{
    static uint8_t expected[3050];
    uint8_t contents[2][512], sector[512];
    size_t k;

    sample();
    MADE(CREATE, "beam", .id = BEAM_ID, .mode = BEAM_MODE, .time = 1001);

    /* 3,000 bytes: 5 whole sectors of extent 0 and 440 bytes of a sixth, whose other 72 stay. The entry and the table change.
     * 6 data sectors, 2 copies, a journal sector, 2 marks, 2 targets, 4 barriers: 17 records. */
    wanted.length = 0;
    for (k = 0; k < 6; k++) {
        memset(sector, MEDIUM, 512);
        memcpy(sector, data + 512 * k, k < 5 ? 512 : 440);
        want(290 + k, sector);
    }
    entry(contents[0], (struct entry){.size = 3000, .version = 1, .id = BEAM_ID, .mode = BEAM_MODE, .access_time = 1001,
                                      .change_time = 1002, .name = "beam"});
    table(contents[1], 0, FREE, FREE, FREE);
    want_commit(2, (const uint64_t[]){2, 289}, contents);
    NUMBER(wanted.length, 8976);
    GIVES(WRITE, "beam", .at = 0, .data = data, .data_length = 3000, .time = 1002);
    ENTRY_IS(0, .size = 3000, .version = 1, .id = BEAM_ID, .mode = BEAM_MODE, .access_time = 1001, .change_time = 1002,
             .name = "beam");

    /* 100 bytes at 2,950, all in the sixth sector, at its byte 390: no new extent, so the entry is the one target.
     * 1 data sector, a copy, a journal sector, 2 marks, a target, 4 barriers: 10 records. */
    wanted.length = 0;
    memcpy(sector + 390, data + 40000, 100);
    want(295, sector);
    entry(contents[0], (struct entry){.size = 3050, .version = 2, .id = BEAM_ID, .mode = BEAM_MODE, .access_time = 1001,
                                      .change_time = 900, .name = "beam"}); /* the clock may go back */
    want_commit(1, (const uint64_t[]){2}, contents);
    NUMBER(wanted.length, 5280);
    GIVES(WRITE, "beam", .at = 2950, .data = data + 40000, .data_length = 100, .time = 900);

    memcpy(expected, data, 2950);
    memcpy(expected + 2950, data + 40000, 100);
    READS("beam", 0, 65536, expected, 3050);
    READS("beam", 2940, 20, expected + 2940, 20);
    READS("beam", 3000, 65536, expected + 3000, 50); /* 3,050 - 3,000 */
    READS("beam", 3050, 1, NULL, 0);
    READS("beam", 0, 0, NULL, 0);
    READ_REFUSED(12, "beam", 3051, 0);
    READ_REFUSED(12, "beam", UINT64_C(4294967296), 1); /* 2^32, not cut to 32 bits */
    READ_REFUSED(12, "beam", UINT64_MAX, 65536);
    READ_REFUSED(8, "beam", 0, 65537);
    READ_REFUSED(8, "beam", 0, UINT64_C(4294967296));
    READ_REFUSED(9, "bea", 0, 1);

    wanted.length = 0; /* nothing to write: an empty list, and the entry stays */
    GIVES(WRITE, "beam", .at = 3050, .data = NULL, .data_length = 0, .time = 1009);
    ENTRY_IS(0, .size = 3050, .version = 2, .id = BEAM_ID, .mode = BEAM_MODE, .access_time = 1001, .change_time = 900,
             .name = "beam");
    REFUSED(12, WRITE, "beam", .at = 3051, .data = NULL, .data_length = 0);
    REFUSED(12, WRITE, "beam", .at = UINT64_C(4294967296), .data = data, .data_length = 1);
    REFUSED(8, WRITE, "beam", .at = 0, .data = data, .data_length = 65537); /* P7 */
    REFUSED(9, WRITE, "beams", .at = 0, .data = data, .data_length = 1);
}

/* The lists of a read, of no byte, and of a list, landed up to each record and recovered: the access time is the new one exactly if
 * the start mark, the fourth record, landed. No other byte has changed, but for what stages the change: the first sectors of journal
 * and reserve, and the superblock, which is as before. */
static void access_times(void)
{
    static const struct {
        uint64_t sector;
        size_t at;
    } target[] = {{2, 26}, {1, 16}};
    size_t k, records;

    for (k = 0; k < 2; k++) {
        for (records = 0; records <= 9; records++) {
            goofs_length_result recovered;

            two_files();
            hold();
            lend();
            if (k == 0)
                NUMBER(read_call("beam", 3000, 9, much).length, ACCESS_LIST);
            else
                NUMBER(list_call(1, much).length, ACCESS_LIST);
            memcpy(wanted.bytes, access_list(target[k].sector, target[k].at), ACCESS_LIST);
            wanted.length = ACCESS_LIST;
            list_is(__LINE__, wanted.bytes, ACCESS_LIST);
            land(medium.bytes, records);
            recovered = goofs_recover(medium.bytes, IMAGE, lent.bytes, sizeof lent.bytes);
            NUMBER(recovered.length, records >= 4 && records < 8 ? 4 * 528 : 0); /* the target, a mark and two barriers */
            NUMBER(goofs_carry_out(medium.bytes, IMAGE, lent.bytes, (size_t)recovered.length), 0);
            IS(goofs_check_result, goofs_check(medium.bytes, IMAGE), .code = 0);
            if (records >= 4)
                put(held.bytes + target[k].sector * 512 + target[k].at, volume.edition == 2 ? 8 : 4, late(ACCESS_TIME));
            memcpy(held.bytes + 257 * 512, medium.bytes + 257 * 512, 512);
            memcpy(held.bytes + 674 * 512, medium.bytes + 674 * 512, 512);
            held_is(__LINE__);
        }
        ENTRY_IS(0, .size = 3000, .version = 1, .id = BEAM_ID, .mode = BEAM_MODE, .access_time = k == 0 ? ACCESS_TIME : 1001,
                 .change_time = 1002, .name = "beam");
    }
}

static void longest_write(void)
{
    uint8_t contents[2][512], sector[512];
    size_t k;

    sample();
    MADE(CREATE, "gain", .id = GAIN_ID, .mode = GAIN_MODE, .time = 1003);

    /* P7: 128 data sectors, 2 copies, a journal sector, 2 marks, 2 targets, 4 barriers. */
    wanted.length = 0;
    for (k = 0; k < 128; k++)
        want(290 + k, data + 512 * k);
    entry(contents[0], (struct entry){.size = 65536, .version = 1, .id = GAIN_ID, .mode = GAIN_MODE, .access_time = 1003,
                                      .change_time = 1004, .name = "gain"});
    table(contents[1], 0, FREE, FREE, FREE);
    want_commit(2, (const uint64_t[]){2, 289}, contents);
    NUMBER(wanted.length, 139 * 528);
    GIVES(WRITE, "gain", .at = 0, .data = data, .data_length = 65536, .time = 1004);
    READS("gain", 0, 65536, data, 65536);

    /* The same at offset 1 reaches one byte into a second extent, which is extent 1 from sector 418 on with the offset 1 in the
     * file: 129 data sectors, so the longest list that a write gives. */
    wanted.length = 0;
    for (k = 0; k < 128; k++) {
        sector[0] = k == 0 ? data[0] : data[512 * k - 1];
        memcpy(sector + 1, data + 512 * k, 511);
        want(290 + k, sector);
    }
    memset(sector, MEDIUM, 512);
    sector[0] = data[65535];
    want(418, sector);
    entry(contents[0], (struct entry){.size = 65537, .version = 2, .id = GAIN_ID, .mode = GAIN_MODE, .access_time = 1003,
                                      .change_time = 1005, .name = "gain"});
    table(contents[1], 0, 1, FREE, FREE);
    want_commit(2, (const uint64_t[]){2, 289}, contents);
    NUMBER(wanted.length, 140 * 528);
    GIVES(WRITE, "gain", .at = 1, .data = data, .data_length = 65536, .time = 1005);
    READS("gain", 1, 65536, data, 65536); /* over the extents' edge */
}

static void no_free_extent(void)
{
    static const char *const names[3] = {"beam", "gain", "temperature"};
    uint32_t k;

    sample();
    for (k = 0; k < 3; k++) {
        MADE(CREATE, names[k], .id = 10 + k, .time = 1001);
        MADE(WRITE, names[k], .at = 0, .data = data, .data_length = 65536, .time = 1002);
    }
    REFUSED(13, WRITE, "gain", .at = 65536, .data = data, .data_length = 1); /* P8: one extent must stay free */
    REFUSED(13, RESIZE, "gain", .at = 65537);
    MADE(WRITE, "gain", .at = 65535, .data = data, .data_length = 1); /* needs no extent */
    MADE(DELETE, "beam", .time = 1003);
    MADE(WRITE, "gain", .at = 65536, .data = data, .data_length = 1); /* P9 */
    READS("temperature", 0, 65536, data, 65536);
}

static void resizes(void)
{
    uint8_t contents[2][512], zeros[512] = {0};
    static uint8_t expected[65536];
    size_t k;

    two_files();

    /* "gain" grows by 65,536: a write of zeros into extent 1, the lowest free, from sector 418 on. */
    wanted.length = 0;
    for (k = 0; k < 128; k++)
        want(418 + k, zeros);
    entry(contents[0], (struct entry){.size = 65536, .version = 1, .id = GAIN_ID, .mode = GAIN_MODE, .access_time = 1003,
                                      .change_time = 1004, .name = "gain"});
    table(contents[1], 0, UINT64_C(0x00010000), FREE, FREE);
    want_commit(2, (const uint64_t[]){3, 289}, contents);
    NUMBER(wanted.length, 139 * 528);
    GIVES(RESIZE, "gain", .at = 65536, .time = 1004);
    READS("gain", 0, 65536, expected, 65536);

    /* "beam" shrinks to 700 bytes, C stays 1: only the entry changes. A copy, a journal sector, 2 marks, a target, 4 barriers: 9
     * records. */
    wanted.length = 0;
    entry(contents[0], (struct entry){.size = 700, .version = 2, .id = BEAM_ID, .mode = BEAM_MODE, .access_time = 1001,
                                      .change_time = 1005, .name = "beam"});
    want_commit(1, (const uint64_t[]){2}, contents);
    NUMBER(wanted.length, 4752);
    GIVES(RESIZE, "beam", .at = 700, .time = 1005);
    READS("beam", 0, 65536, data, 700);

    /* To 0: its extent is freed. 2 copies, a journal sector, 2 marks, 2 targets, 4 barriers: 11 records. */
    wanted.length = 0;
    entry(contents[0], (struct entry){.size = 0, .version = 3, .id = BEAM_ID, .mode = BEAM_MODE, .access_time = 1001,
                                      .change_time = 1006, .name = "beam"});
    table(contents[1], FREE, UINT64_C(0x00010000), FREE, FREE);
    want_commit(2, (const uint64_t[]){2, 289}, contents);
    NUMBER(wanted.length, 5808);
    GIVES(RESIZE, "beam", .at = 0, .time = 1006);
    ENTRY_IS(0, .size = 0, .version = 3, .id = BEAM_ID, .mode = BEAM_MODE, .access_time = 1001, .change_time = 1006,
             .name = "beam");

    wanted.length = 0;
    GIVES(RESIZE, "gain", .at = 65536, .time = 1007); /* the same size */
    REFUSED(8, RESIZE, "beam", .at = 65537);
    REFUSED(8, RESIZE, "gain", .at = UINT64_C(4294967296)); /* 2^32 */
    REFUSED(9, RESIZE, "temperature", .at = 65537);
}

static void deletes(void)
{
    uint8_t contents[3][512];

    two_files();
    /* The root (its version raised the third time), the entry, the table. 3 copies, a journal sector, 2 marks, 3 targets,
     * 4 barriers: 13 records. */
    wanted.length = 0;
    root(contents[0], 3, 1004);
    memset(contents[1], 0, 512);
    table(contents[2], FREE, FREE, FREE, FREE);
    want_commit(3, (const uint64_t[]){1, 2, 289}, contents);
    NUMBER(wanted.length, 6864);
    GIVES(DELETE, "beam", .time = 1004);
    IS(goofs_find_result, goofs_find(medium.bytes, IMAGE, (const uint8_t *)"beam", 4), .code = 9);
    lend();
    IS(goofs_list_result, list_call(0, much), .code = 9); /* a free entry */
    IS(goofs_list_result, list_call(254, much), .code = 9);
    IS(goofs_list_result, list_call(255, much), .code = 8);
    IS(goofs_list_result, list_call(UINT64_C(4294967297), much), .code = 8); /* 2^32 + 1 is not entry 1 */
    lent_is(__LINE__, NULL, 0);
    list_is(__LINE__, NULL, 0);
    REFUSED(9, DELETE, "beam", .time = 1005);

    /* A file without extents: the table is no target. 2 copies: 11 records. The mode and the times of the root stay but one. */
    wanted.length = 0;
    root(contents[0], 4, 1005);
    want_commit(2, (const uint64_t[]){1, 3}, contents);
    NUMBER(wanted.length, 5808);
    GIVES(DELETE, "gain", .time = 1005);
}

/* "beam" is renamed: its size, id, mode and access time stay. Its name is 4 bytes long; behind it stands what must become 0. */
static void renames(void)
{
    uint8_t contents[4][512];

    two_files();
    memset(medium.bytes + 2 * 512 + name_at() + 4, 0x5A, 508 - name_at());
    /* To a shorter name: the root (its version raised the third time) and the entry. 2 copies: 11 records. */
    wanted.length = 0;
    root(contents[0], 3, 1004);
    entry(contents[1], (struct entry){.size = 3000, .version = 2, .id = BEAM_ID, .mode = BEAM_MODE, .access_time = 1001,
                                      .change_time = 1004, .name = "b"});
    want_commit(2, (const uint64_t[]){1, 2}, contents);
    NUMBER(wanted.length, 5808);
    GIVES(RENAME, "beam", .new_name = "b", .time = 1004);
    ENTRY_IS(0, .size = 3000, .version = 2, .id = BEAM_ID, .mode = BEAM_MODE, .access_time = 1001, .change_time = 1004,
             .name = "b");
    READS("b", 0, 65536, data, 3000);
    REFUSED(9, RENAME, "beam", .new_name = "c");

    /* Onto "gain", which has no extent: the root once, "b" in its slot, zeros in that of "gain". 3 copies: 13 records. The clock
     * may go back. */
    wanted.length = 0;
    root(contents[0], 4, 900);
    entry(contents[1], (struct entry){.size = 3000, .version = 3, .id = BEAM_ID, .mode = BEAM_MODE, .access_time = 1001,
                                      .change_time = 900, .name = "gain"});
    memset(contents[2], 0, 512);
    want_commit(3, (const uint64_t[]){1, 2, 3}, contents);
    NUMBER(wanted.length, 6864);
    GIVES(RENAME, "b", .new_name = "gain", .time = 900);
    ENTRY_IS(0, .size = 3000, .version = 3, .id = BEAM_ID, .mode = BEAM_MODE, .access_time = 1001, .change_time = 900,
             .name = "gain");
    lend();
    IS(goofs_list_result, list_call(1, much), .code = 9); /* free now */

    /* From an entry above onto one below, whose extent is freed: zeros, the renamed entry, the table. 4 copies: 15 records. The
     * versions of root and entry are followed by 0. */
    two_files();
    put(medium.bytes + 512, 4, UINT32_MAX);
    put(medium.bytes + 3 * 512 + 10, 4, UINT32_MAX);
    wanted.length = 0;
    root(contents[0], 0, 1004);
    memset(contents[1], 0, 512);
    entry(contents[2], (struct entry){.size = 0, .version = 0, .id = GAIN_ID, .mode = GAIN_MODE, .access_time = 1003,
                                      .change_time = 1004, .name = "beam"});
    table(contents[3], FREE, FREE, FREE, FREE);
    want_commit(4, (const uint64_t[]){1, 2, 3, 289}, contents);
    NUMBER(wanted.length, 7920);
    GIVES(RENAME, "gain", .new_name = "beam", .time = 1004);
    ENTRY_IS(1, .size = 0, .version = 0, .id = GAIN_ID, .mode = GAIN_MODE, .access_time = 1003, .change_time = 1004,
             .name = "beam");
    READS("beam", 0, 65536, NULL, 0);

    wanted.length = 0; /* to itself: an empty list, and the entry stays */
    GIVES(RENAME, "beam", .new_name = "beam", .time = 1009);
    ENTRY_IS(1, .size = 0, .version = 0, .id = GAIN_ID, .mode = GAIN_MODE, .access_time = 1003, .change_time = 1004,
             .name = "beam");
    REFUSED(8, RENAME, "", .new_name = "new");
    REFUSED(8, RENAME, "beam", .new_name = "");
    REFUSED(8, RENAME, "none", .new_name = ""); /* lower numbers first */
    REFUSED(9, RENAME, "none", .new_name = "new");
    REFUSED(9, RENAME, "none", .new_name = "none"); /* not there, so not done */
    REFUSED(9, RENAME, "none", .new_name = "beam");
    REFUSED(9, RENAME, "bea", .new_name = "beam");
}

/* A rename onto a file, of which any number of records landed in order: with the start mark, which is the seventh, it is done after
 * a recovery, and without it nothing has happened. */
static void renames_cut(void)
{
    static uint8_t list[7920];
    size_t landed;
    goofs_length_result recovery;

    two_files();
    IS(goofs_change_result,
       goofs_rename(medium.bytes, IMAGE, (const uint8_t *)"gain", 4, (const uint8_t *)"beam", 4, late(1004), list, sizeof list),
       .length = 7920); /* 4 copies, a journal sector, 2 marks, 4 targets, 4 barriers: 15 records */
    for (landed = 0; landed <= 15; landed++) {
        two_files();
        from = (int)landed;
        NUMBER(goofs_carry_out(medium.bytes, IMAGE, list, landed * 528), 0);
        recovery = goofs_recover(medium.bytes, IMAGE, lent.bytes, sizeof lent.bytes);
        NUMBER(recovery.code, 0);
        NUMBER(recovery.length, landed >= 7 && landed < 14 ? 7 * 528 : 0); /* 4 targets, the end mark, 2 barriers */
        NUMBER(goofs_carry_out(medium.bytes, IMAGE, lent.bytes, (size_t)recovery.length), 0);
        IS(goofs_check_result, goofs_check(medium.bytes, IMAGE), .code = 0);
        if (landed < 7) {
            ENTRY_IS(0, .size = 3000, .version = 1, .id = BEAM_ID, .mode = BEAM_MODE, .access_time = 1001, .change_time = 1002,
                     .name = "beam");
            ENTRY_IS(1, .id = GAIN_ID, .mode = GAIN_MODE, .access_time = 1003, .change_time = 1003, .name = "gain");
            READS("beam", 0, 65536, data, 3000);
        } else {
            ENTRY_IS(1, .version = 1, .id = GAIN_ID, .mode = GAIN_MODE, .access_time = 1003, .change_time = 1004, .name = "beam");
            IS(goofs_find_result, goofs_find(medium.bytes, IMAGE, (const uint8_t *)"gain", 4), .code = 9);
        }
    }
}

/* T-13: renames in order as one change. "beam" is in entry 0, version 1, "gain" in entry 1, version 0; the root's version is 2. */
static void rename_sets(void)
{
    uint8_t contents[4][512];

    /* A swap through a third name: the root's version rises by 3, that of "beam" by 2, that of "gain" by 1. 3 copies: 13 records. */
    two_files();
    memset(medium.bytes + 2 * 512 + name_at() + 4, 0x5A, 508 - name_at());
    wanted.length = 0;
    root(contents[0], 5, 1004);
    entry(contents[1], (struct entry){.size = 3000, .version = 3, .id = BEAM_ID, .mode = BEAM_MODE, .access_time = 1001,
                                      .change_time = 1004, .name = "gain"});
    entry(contents[2], (struct entry){.version = 1, .id = GAIN_ID, .mode = GAIN_MODE, .access_time = 1003, .change_time = 1004,
                                      .name = "beam"});
    want_commit(3, (const uint64_t[]){1, 2, 3}, contents);
    NUMBER(wanted.length, 6864);
    GIVES(RENAME_SET, "beam t gain beam t gain", .time = 1004);
    READS("gain", 0, 65536, data, 3000);
    READS("beam", 0, 65536, NULL, 0);

    /* No swap: "gain" is deleted by the first rename. */
    two_files();
    wanted.length = 0;
    root(contents[0], 4, 1004);
    entry(contents[1], (struct entry){.size = 3000, .version = 3, .id = BEAM_ID, .mode = BEAM_MODE, .access_time = 1001,
                                      .change_time = 1004, .name = "beam"});
    memset(contents[2], 0, 512);
    want_commit(3, (const uint64_t[]){1, 2, 3}, contents);
    GIVES(RENAME_SET, "beam gain gain beam", .time = 1004);
    IS(goofs_find_result, goofs_find(medium.bytes, IMAGE, (const uint8_t *)"gain", 4), .code = 9);

    /* Renamed away, then replaced: zeros, once, and its extent is freed. 4 copies: 15 records. */
    two_files();
    wanted.length = 0;
    root(contents[0], 4, 1004);
    memset(contents[1], 0, 512);
    entry(contents[2], (struct entry){.version = 1, .id = GAIN_ID, .mode = GAIN_MODE, .access_time = 1003, .change_time = 1004,
                                      .name = "t"});
    table(contents[3], FREE, FREE, FREE, FREE);
    want_commit(4, (const uint64_t[]){1, 2, 3, 289}, contents);
    NUMBER(wanted.length, 7920);
    GIVES(RENAME_SET, "beam t gain t", .time = 1004);

    /* Onto a name and away again: what was there is gone. */
    two_files();
    wanted.length = 0;
    root(contents[0], 4, 1004);
    entry(contents[2], (struct entry){.version = 2, .id = GAIN_ID, .mode = GAIN_MODE, .access_time = 1003, .change_time = 1004,
                                      .name = "t"});
    want_commit(4, (const uint64_t[]){1, 2, 3, 289}, contents);
    GIVES(RENAME_SET, "gain beam beam t", .time = 1004);

    /* Eight, away and back: versions that are 4,294,967,295 are followed by 0, 1 and so on up to 7. One to itself counts for none. */
    two_files();
    put(medium.bytes + 512, 4, UINT32_MAX);
    put(medium.bytes + 2 * 512 + 10, 4, UINT32_MAX);
    wanted.length = 0;
    root(contents[0], 7, 1004);
    entry(contents[1], (struct entry){.size = 3000, .version = 7, .id = BEAM_ID, .mode = BEAM_MODE, .access_time = 1001,
                                      .change_time = 1004, .name = "beam"});
    want_commit(2, (const uint64_t[]){1, 2}, contents);
    GIVES(RENAME_SET, "beam t t beam beam t t beam beam t t beam beam t t beam", .time = 1004);
    wanted.length = 0;
    root(contents[0], 8, 1005);
    entry(contents[1], (struct entry){.size = 3000, .version = 8, .id = BEAM_ID, .mode = BEAM_MODE, .access_time = 1001,
                                      .change_time = 1005, .name = "b"});
    want_commit(2, (const uint64_t[]){1, 2}, contents);
    GIVES(RENAME_SET, "gain gain beam b b b", .time = 1005);
    wanted.length = 0; /* all of them to itself */
    GIVES(RENAME_SET, "gain gain b b", .time = 1006);
    GIVES(RENAME_SET, "b b b b b b b b b b b b b b b b", .time = 1006);

    /* One is a rename. */
    two_files();
    wanted.length = 0;
    root(contents[0], 3, 1004);
    memset(contents[1], 0, 512);
    entry(contents[2], (struct entry){.version = 1, .id = GAIN_ID, .mode = GAIN_MODE, .access_time = 1003, .change_time = 1004,
                                      .name = "beam"});
    want_commit(4, (const uint64_t[]){1, 2, 3, 289}, contents);
    lend();
    IS(goofs_change_result,
       goofs_rename(medium.bytes, IMAGE, (const uint8_t *)"gain", 4, (const uint8_t *)"beam", 4, late(1004), lent.bytes, LONGEST),
       .length = 7920);
    lent_is(__LINE__, wanted.bytes, 7920);
    GIVES(RENAME_SET, "gain beam", .time = 1004);
}

/* The numbers of a set, and their places. */
static void rename_sets_refused(void)
{
    static const uint64_t ones[] = {1, 1, 1, 1, 1, 1, 1, 1, 1, 1, 1, 1, 1, 1, 1, 1, 1, 1};
    static const struct {
        size_t names, count;
        uint64_t lengths[4];
    } shapes[] = {
        {0, 0, {0}},
        {8, 0, {0}},
        {4, 1, {4}},
        {8, 1, {8}},
        {8, 3, {4, 4, 0}},
        {8, 2, {4, 3}},
        {8, 2, {4, 5}},
        {7, 2, {4, 4}},
        {0, 2, {4, 4}},
        /* these add up in 64 bits only */
        {8, 2, {UINT64_MAX, 9}},
        {8, 2, {9, UINT64_MAX}},
        {8, 4, {4, 4, UINT64_MAX, 1}},
        {8, 4, {4, 4, UINT64_C(1) << 63, UINT64_C(1) << 63}},
    };
    const uint8_t *names = (const uint8_t *)"beamgain", *many = (const uint8_t *)"bbbbbbbbbbbbbbbbbb";
    size_t k;

    two_files();
    hold();
    lend();
    for (k = 0; k < sizeof shapes / sizeof *shapes; k++) {
        from = (int)k;
        IS(goofs_change_result,
           goofs_rename_set(medium.bytes, IMAGE, shapes[k].names ? names : NULL, shapes[k].names,
                            shapes[k].count ? shapes[k].lengths : NULL, shapes[k].count, 7, lent.bytes, sizeof lent.bytes),
           .code = 8);
    }
    /* sixteen lengths are good: there is no file "b"; seventeen and eighteen are not looked at */
    IS(goofs_change_result, goofs_rename_set(medium.bytes, IMAGE, many, 16, ones, 16, 7, lent.bytes, sizeof lent.bytes), .code = 9);
    IS(goofs_change_result, goofs_rename_set(medium.bytes, IMAGE, many, 17, ones, 17, 7, lent.bytes, sizeof lent.bytes), .code = 8);
    IS(goofs_change_result, goofs_rename_set(medium.bytes, IMAGE, many, 18, ones, 18, 7, lent.bytes, sizeof lent.bytes), .code = 8);
    /* two names of no byte */
    IS(goofs_change_result, goofs_rename_set(medium.bytes, IMAGE, NULL, 0, (const uint64_t[]){0, 0}, 2, 7, NULL, 0), .code = 8);
    IS(goofs_change_result, goofs_rename_set(medium.bytes, IMAGE, names, 8, (const uint64_t[]){4, 4, 0, 0}, 4, 7, NULL, 0), .code = 8,
       .place = 1);
    lent_is(__LINE__, NULL, 0);
    held_is(__LINE__);

    REFUSED(9, RENAME_SET, "none x", .place = 0);
    REFUSED(9, RENAME_SET, "beam x none y a/b c", .place = 1); /* the first, though a later one has the lower number */
    REFUSED(8, RENAME_SET, "beam x x a/b none y", .place = 1);
    REFUSED(9, RENAME_SET, "beam x beam y", .place = 1); /* no more */
    REFUSED(9, RENAME_SET, "beam gain beam beam", .place = 1);
    REFUSED(9, RENAME_SET, "beam t t gain gain beam t x", .place = 3);
    REFUSED(9, RENAME_SET, "beam beam none none", .place = 1);
    REFUSED(9, RENAME_SET, "beam t t beam beam t t beam beam t t beam beam t none beam", .place = 7);
    IS(goofs_change_result, call_set("beam t t gain", late(7), NULL, 0, 0), .code = 14);
}

/* A swap of which any number of records landed in order: with the start mark, which is the sixth, both names are changed over after a
 * recovery, and without it neither is. */
static void rename_sets_cut(void)
{
    static uint8_t list[6864];
    size_t landed;
    goofs_length_result recovery;

    two_files();
    IS(goofs_change_result, call_set("beam t gain beam t gain", late(1004), list, sizeof list, 0), .length = 6864);
    for (landed = 0; landed <= 13; landed++) {
        two_files();
        from = (int)landed;
        NUMBER(goofs_carry_out(medium.bytes, IMAGE, list, landed * 528), 0);
        recovery = goofs_recover(medium.bytes, IMAGE, lent.bytes, sizeof lent.bytes);
        NUMBER(recovery.code, 0);
        NUMBER(recovery.length, landed >= 6 && landed < 12 ? 6 * 528 : 0); /* 3 targets, the end mark, 2 barriers */
        NUMBER(goofs_carry_out(medium.bytes, IMAGE, lent.bytes, (size_t)recovery.length), 0);
        IS(goofs_check_result, goofs_check(medium.bytes, IMAGE), .code = 0);
        IS(goofs_find_result, goofs_find(medium.bytes, IMAGE, (const uint8_t *)"t", 1), .code = 9);
        if (landed < 6) {
            ENTRY_IS(0, .size = 3000, .version = 1, .id = BEAM_ID, .mode = BEAM_MODE, .access_time = 1001, .change_time = 1002,
                     .name = "beam");
            ENTRY_IS(1, .id = GAIN_ID, .mode = GAIN_MODE, .access_time = 1003, .change_time = 1003, .name = "gain");
        } else {
            ENTRY_IS(0, .size = 3000, .version = 3, .id = BEAM_ID, .mode = BEAM_MODE, .access_time = 1001, .change_time = 1004,
                     .name = "gain");
            ENTRY_IS(1, .version = 1, .id = GAIN_ID, .mode = GAIN_MODE, .access_time = 1003, .change_time = 1004, .name = "beam");
        }
    }
}

/* Group A alone landed, which is all before the first barrier: nothing has happened. */
static void cut_before_the_start_mark(void)
{
    uint8_t contents[2][512];

    two_files();
    wanted.length = 0;
    root(contents[0], 3, 1004);
    entry(contents[1], (struct entry){.id = 77, .access_time = 1004, .change_time = 1004, .name = "new"});
    want_commit(2, (const uint64_t[]){1, 4}, contents);
    NUMBER(goofs_carry_out(medium.bytes, IMAGE, wanted.bytes, 4 * 528), 0); /* 2 copies, journal, barrier */
    SAMPLE_IS(.state = 0);
    IS(goofs_check_result, goofs_check(medium.bytes, IMAGE), .code = 0);
    lend();
    IS(goofs_length_result, goofs_recover(medium.bytes, IMAGE, NULL, 0), .code = 0, .length = 0);
    IS(goofs_length_result, goofs_recover(medium.bytes, IMAGE, lent.bytes, sizeof lent.bytes), .code = 0, .length = 0);
    IS(goofs_recovering, goofs_recover_lent(FRONT, NULL, 0), .code = 0, .length = 0);
    IS(goofs_recovering, goofs_recover_lent(FRONT, lent.bytes, sizeof lent.bytes), .code = 0, .length = 0);
    lent_is(__LINE__, NULL, 0);
    IS(goofs_find_result, goofs_find(medium.bytes, IMAGE, (const uint8_t *)"new", 3), .code = 9);
    GIVES(CREATE, "new", .id = 77, .time = 1004); /* the same list once more, now whole */
}

/* A delete of "beam" whose groups A and B landed. */
static void cut_after_the_start_mark(void)
{
    static uint8_t whole[IMAGE], tail[3168];
    uint8_t contents[3][512];
    int landed;

    two_files();
    wanted.length = 0;
    root(contents[0], 3, 1004);
    memset(contents[1], 0, 512);
    table(contents[2], FREE, FREE, FREE, FREE);
    want_commit(3, (const uint64_t[]){1, 2, 289}, contents);
    lend();
    IS(goofs_change_result, goofs_delete(medium.bytes, IMAGE, (const uint8_t *)"beam", 4, late(1004), lent.bytes, 6864), .length = 6864);
    lent_is(__LINE__, wanted.bytes, 6864);
    memcpy(whole, medium.bytes, IMAGE);
    land(whole, 13);

    /* 3 copies, a journal sector, a barrier, the start mark, a barrier: 7 records landed. The other 6, which are 3 targets, a
     * barrier, the end mark and a barrier, are what recovery gives: 3,168 bytes. */
    memcpy(tail, wanted.bytes + 7 * 528, 3168);
    for (landed = 0; landed < 6; landed++)
        put(tail + landed * 528, 8, (uint64_t)landed);
    for (landed = 0; landed <= 3; landed++) { /* so many targets too, of the change or of a recovery that was cut */
        NUMBER(goofs_carry_out(medium.bytes, IMAGE, wanted.bytes, (size_t)(7 + landed) * 528), 0);
        SAMPLE_IS(.state = 1, .entries = 3);
        ALL_REFUSE(NOT_THESE, medium.bytes, IMAGE, 5, 0, 0);
        hold();
        lend();
        IS(goofs_length_result, goofs_recover(medium.bytes, IMAGE, lent.bytes, 3167), .code = 14);
        IS(goofs_length_result, goofs_recover(medium.bytes, IMAGE, NULL, 0), .code = 14);
        lent_is(__LINE__, NULL, 0);
        IS(goofs_length_result, goofs_recover(medium.bytes, IMAGE, lent.bytes, 3168), .code = 0, .length = 3168);
        lent_is(__LINE__, tail, 3168);
        lend();
        IS(goofs_length_result, goofs_recover(medium.bytes, IMAGE, lent.bytes, GOOFS_RECOVER_LIST), .code = 0, .length = 3168);
        lent_is(__LINE__, tail, 3168);
        lend();
        IS(goofs_length_result, recover_lent(lent.bytes, 3167), .code = 14);
        lent_is(__LINE__, NULL, 0);
        IS(goofs_length_result, recover_lent(lent.bytes, 3168), .code = 0, .length = 3168);
        lent_is(__LINE__, tail, 3168);
        lend();
        IS(goofs_length_result, recover_lent(lent.bytes, GOOFS_RECOVER_LIST), .code = 0, .length = 3168);
        lent_is(__LINE__, tail, 3168);
        lend();
        IS(goofs_slice_result, goofs_recover_slice(medium.bytes, IMAGE, 0, lent.bytes, sizeof lent.bytes), .code = 8);
        IS(goofs_slice_result, goofs_recover_slice(medium.bytes, IMAGE, 9, lent.bytes, (size_t)(landed < 3 ? 4 - landed : 2) * 528 - 1),
           .code = 14);
        lent_is(__LINE__, NULL, 0);
        if (landed < 3) { /* the targets that are left, in journal order, and a barrier */
            uint8_t slice[4 * 528];
            int left = 3 - landed, k;

            memcpy(slice, tail + landed * 528, (size_t)(left + 1) * 528);
            for (k = 0; k <= left; k++)
                put(slice + k * 528, 8, (uint64_t)k);
            IS(goofs_slice_result, goofs_recover_slice(medium.bytes, IMAGE, 9, lent.bytes, (size_t)(left + 1) * 528),
               .length = (uint64_t)(left + 1) * 528, .count = (uint64_t)left);
            lent_is(__LINE__, slice, (size_t)(left + 1) * 528);
        } else { /* the end mark and a barrier */
            uint8_t slice[2 * 528];

            memcpy(slice, tail + 4 * 528, sizeof slice);
            put(slice, 8, 0);
            put(slice + 528, 8, 1);
            IS(goofs_slice_result, goofs_recover_slice(medium.bytes, IMAGE, 9, lent.bytes, sizeof slice), .length = sizeof slice,
               .count = 1);
            lent_is(__LINE__, slice, sizeof slice);
        }
        lend();
        IS(goofs_length_result, goofs_recover(medium.bytes, IMAGE, lent.bytes, sizeof lent.bytes), .code = 0, .length = 3168);
        held_is(__LINE__);
    }
    NUMBER(goofs_carry_out(medium.bytes, IMAGE, lent.bytes, 3168), 0);
    bytes(__LINE__, "the image after recovery", medium.bytes, whole, IMAGE);
    IS(goofs_check_result, goofs_check(medium.bytes, IMAGE), .code = 0);
    IS(goofs_find_result, goofs_find(medium.bytes, IMAGE, (const uint8_t *)"beam", 4), .code = 9);
    ENTRY_IS(1, .id = GAIN_ID, .mode = GAIN_MODE, .access_time = 1003, .change_time = 1003, .name = "gain");
}

static void bad_journals(void)
{
    /* The source and the target of the second entry, of which one is bad; 675 to 3 would be good. */
    static const uint64_t bad[][2] = {
        {289, 3},                    /* the source stands before the data, */
        {802, 3},                    /* or behind it; */
        {675, 0},                    /* the target is the superblock, */
        {675, 257},                  /* the first */
        {675, 288},                  /* or the last journal sector, */
        {675, 290},                  /* a data sector, */
        {675, UINT64_C(4294967299)}, /* 2^32 + 3, which must not be cut to 3, */
        {675, 1},                    /* or the first entry's */
    };
    uint8_t *journal = medium.bytes + 257 * 512;
    size_t k;

    sample();
    superblock(medium.bytes, 2);
    put(journal, 8, 290);
    put(journal + 8, 8, 1);
    put(journal + 16, 8, 675);
    put(journal + 24, 8, 3);
    IS(goofs_length_result, goofs_recover(medium.bytes, IMAGE, lent.bytes, sizeof lent.bytes), .code = 0,
       .length = 2640); /* 2 targets, the end mark, 2 barriers: 5 records */
    for (k = 0; k < sizeof bad / sizeof *bad; k++) {
        put(journal + 16, 8, bad[k][0]);
        put(journal + 24, 8, bad[k][1]);
        from = (int)k;
        hold();
        lend();
        IS(goofs_length_result, goofs_recover(medium.bytes, IMAGE, lent.bytes, sizeof lent.bytes), .code = 6);
        IS(goofs_length_result, goofs_recover(medium.bytes, IMAGE, NULL, 0), .code = 6);
        IS(goofs_recovering, goofs_recover_lent(FRONT, lent.bytes, sizeof lent.bytes), .code = 6);
        IS(goofs_recovering, goofs_recover_lent(FRONT, NULL, 0), .code = 6);
        IS(goofs_slice_result, goofs_recover_slice(medium.bytes, IMAGE, 0, lent.bytes, sizeof lent.bytes), .code = 6);
        lent_is(__LINE__, NULL, 0);
        held_is(__LINE__);
        ALL_REFUSE(NOT_THESE, medium.bytes, IMAGE, 5, 0, 0);
    }
    put(journal + 16, 8, 801); /* the last sector of the data */
    put(journal + 24, 8, 289); /* the table */
    IS(goofs_length_result, goofs_recover(medium.bytes, IMAGE, lent.bytes, 2640), .code = 0, .length = 2640);
}

static void states(void)
{
    two_files();
    put(medium.bytes + 18, 2, 1024);
    SAMPLE_IS(.state = 1, .entries = 1024);
    ALL_REFUSE(NOT_THESE, medium.bytes, IMAGE, 5, 0, 0);
    put(medium.bytes + 18, 2, 1025);
    SAMPLE_IS(.state = 2);
    ALL_REFUSE(RECOVER, medium.bytes, IMAGE, 6, 0, 0);
    put(medium.bytes + 18, 2, 65534);
    SAMPLE_IS(.state = 2);
    ALL_REFUSE(RECOVER, medium.bytes, IMAGE, 6, 0, 0);
    put(medium.bytes + 18, 2, 65535);
    SAMPLE_IS(.state = 3);
    ALL_REFUSE(RECOVER, medium.bytes, IMAGE, 4, 0, 0);
}

static void images_refused(void)
{
    static const uint64_t fields[][3] = {/* place, width, value */
                                         {0, 2, 254}, {0, 2, 1025}, {2, 2, 1}, {2, 2, 0}, {4, 4, 127}, {4, 4, 4294967295}};
    static const uint64_t versions[] = {0, 3, 257, 258, 512, 65535};
    size_t k;

    two_files();
    ALL_REFUSE(SUMMARY | RECOVER, NULL, 0, 1, 0, 0);
    ALL_REFUSE(SUMMARY | RECOVER, medium.bytes, 0, 1, 0, 0);
    ALL_REFUSE(SUMMARY | RECOVER, medium.bytes, 511, 1, 0, 0);
    ALL_REFUSE(SUMMARY | RECOVER, medium.bytes, IMAGE - 1, 1, 0, 0);
    ALL_REFUSE(SUMMARY | RECOVER, medium.bytes, 512, 3, 0, 0);       /* the superblock alone */
    ALL_REFUSE(SUMMARY | RECOVER, medium.bytes, 801 * 512, 3, 0, 0); /* the volume has 802 sectors */
    IS(goofs_check_result, goofs_check(medium.bytes, 802 * 512), .code = 0);
    for (k = 0; k < sizeof fields / sizeof *fields; k++) {
        two_files();
        put(medium.bytes + fields[k][0], (int)fields[k][1], fields[k][2]);
        ALL_REFUSE(SUMMARY | RECOVER, medium.bytes, IMAGE, 3, 0, 0);
    }
    for (k = 0; k < sizeof versions / sizeof *versions; k++) {
        two_files();
        put(medium.bytes + 16, 2, versions[k]);
        ALL_REFUSE(SUMMARY | RECOVER, medium.bytes, IMAGE, 2, 0, 0);
    }
    two_files();
    medium.bytes[15] = '\\'; /* the magic's last byte */
    ALL_REFUSE(SUMMARY | RECOVER, medium.bytes, IMAGE, 2, 0, 0);
}

static void faults(void)
{
    const size_t length = 2 * 512 + name_at() - 2, name = 2 * 512 + name_at(); /* of "beam" */
    const uint64_t damages[][5] = {
        /* place, width, value, fault, place of the fault */
        {2 * 512 + 5 * 512, 2, 1, 21, 5},                 /* mark of entry 5 */
        {length, 2, 0, 22, 0},                            /* name length of "beam" */
        {length, 2, longest_name() + 1, 22, 0},           /* the same */
        {name + 1, 1, 0, 22, 0},                          /* a 0 in its name */
        {3 * 512 + 2, 8, 262145, 22, 1},                  /* size of "gain" above 4 x 65,536 */
        {3 * 512 + 2, 8, 262144, 26, 1},                  /* one that all extents together would hold */
        {name + 512, 4, UINT64_C(0x6265616D), 23, 1},     /* "gain" named "beam" */
        {3 * 512 + 14, 8, 0, 24, 1},                      /* id of "gain": 0, */
        {3 * 512 + 14, 8, ROOT_ID, 24, 1},                /* the root's */
        {3 * 512 + 14, 8, BEAM_ID, 24, 1},                /* that of "beam" */
        {289 * 512 + 8, 4, UINT64_C(0x00090000), 25, 2},  /* extent 2 names file 9, which is free */
        {289 * 512 + 12, 4, UINT64_C(0x00090000), 25, 3}, /* the last extent is judged as any other: */
        {289 * 512 + 12, 4, UINT64_C(0x00000001), 26, 0}, /* "beam" has no use for offset 1 */
        {289 * 512, 4, FREE, 26, 0},                      /* "beam" without its extent */
        {289 * 512 + 4, 4, 0, 26, 0},                     /* offset 0 of "beam" twice */
        {3 * 512 + 2, 8, 1, 26, 1},                       /* "gain" has one byte and no extent */
    };
    size_t k;

    for (k = 0; k < sizeof damages / sizeof *damages; k++) {
        two_files();
        put(medium.bytes + damages[k][0], (int)damages[k][1], damages[k][2]);
        ALL_REFUSE(NOT_THESE, medium.bytes, IMAGE, 7, damages[k][3], damages[k][4]);
        SAMPLE_IS(.state = 0);
        IS(goofs_length_result, goofs_recover(medium.bytes, IMAGE, NULL, 0), .code = 0); /* doesn't judge */
    }
    two_files(); /* what is not judged: a free entry's bytes, a free table entry's offset, table padding */
    put(medium.bytes + 9 * 512 + 14, 8, ROOT_ID);
    put(medium.bytes + 289 * 512 + 4, 4, UINT64_C(0xFFFF0000));
    put(medium.bytes + 289 * 512 + 16, 4, 0);
    IS(goofs_check_result, goofs_check(medium.bytes, IMAGE), .code = 0);
}

/* The repair frees so many entries and gives the wanted list, into one of just its length and into the longest; one byte less is 14. The
 * fault that remains is what check says of the image on which the list landed, and a second repair has nothing to do. */
static void repairs(uint64_t freed, uint64_t fault, uint64_t place)
{
    const size_t room[] = {wanted.length, GOOFS_REPAIR_LIST};
    int i;

    hold();
    lend();
    if (wanted.length > 0) {
        IS(goofs_repair_result, goofs_repair(medium.bytes, IMAGE, lent.bytes, wanted.length - 1), .code = 14);
        IS(goofs_repair_result, goofs_repair(medium.bytes, IMAGE, NULL, 0), .code = 14);
        lent_is(__LINE__, NULL, 0);
    }
    if (wanted.length > 0) {
        IS(goofs_repair_result, goofs_repair_lent(FRONT, lent.bytes, wanted.length - 1), .code = 14);
        lent_is(__LINE__, NULL, 0);
    }
    for (i = 0; i < 2; i++) {
        lend();
        IS(goofs_repair_result, goofs_repair_lent(FRONT, lent.bytes, room[i]), .code = 0, .fault = fault, .place = place,
           .length = wanted.length, .freed = freed);
        lent_is(__LINE__, wanted.bytes, wanted.length);
        lend();
        IS(goofs_repair_result, goofs_repair(medium.bytes, IMAGE, lent.bytes, room[i]), .code = 0, .fault = fault, .place = place,
           .length = wanted.length, .freed = freed);
        lent_is(__LINE__, wanted.bytes, wanted.length);
    }
    held_is(__LINE__);
    NUMBER(goofs_carry_out(medium.bytes, IMAGE, lent.bytes, wanted.length), 0);
    land(held.bytes, wanted.length / 528);
    held_is(__LINE__);
    IS(goofs_check_result, goofs_check(medium.bytes, IMAGE), .code = fault ? 7 : 0, .fault = fault, .place = place);
    IS(goofs_repair_result, goofs_repair(medium.bytes, IMAGE, NULL, 0), .code = 0, .fault = fault, .place = place);
}

#define REPAIRS (from = __LINE__, repairs)

/* "beam" is file 0 with extent 0 for its offset 0, "gain" file 1 with none. */
static void repaired(void)
{
    static const struct {
        uint64_t place, width, value; /* the damage */
        uint64_t freed, fault, fault_place;
        uint64_t e0, e1, e2; /* the table afterwards */
    } cases[] = {
        {289 * 512 + 8, 4, UINT64_C(0x00090000), 1, 0, 0, 0, FREE, FREE},   /* extent 2 names file 9, which is free, */
        {289 * 512 + 8, 4, UINT64_C(0x00FF0000), 1, 0, 0, 0, FREE, FREE},   /* or file 255, which isn't one */
        {289 * 512 + 8, 4, UINT64_C(0x00000001), 1, 0, 0, 0, FREE, FREE},   /* an offset at the count of "beam", */
        {289 * 512 + 8, 4, UINT64_C(0x0000FFFE), 1, 0, 0, 0, FREE, FREE},   /* and one far above it */
        {289 * 512 + 8, 4, 0, 1, 0, 0, 0, FREE, FREE},                      /* offset 0 of "beam" twice: the lower extent keeps it */
        {2 * 512, 2, 1, 1, 21, 0, FREE, FREE, FREE},                        /* a damaged mark costs "beam" its extent, */
        {2 * 512 + 2, 8, 0, 1, 0, 0, FREE, FREE, FREE},                     /* and so does a size of 0 */
        {2 * 512 + 2, 8, UINT64_MAX, 0, 22, 0, 0, FREE, FREE},              /* one that no file can have costs none */
        {289 * 512, 4, UINT64_C(0x00010000), 1, 26, 0, FREE, FREE, FREE},   /* "beam" lacks it, "gain" has no use for it */
        {289 * 512, 4, FREE, 0, 26, 0, FREE, FREE, FREE},                   /* what lacks is told */
        {289 * 512 + 4, 4, UINT64_C(0xFFFF0007), 0, 0, 0, 0, FREE, FREE},   /* a free entry's offset is not judged */
    };
    uint8_t contents[1][512];
    size_t k;

    for (k = 0; k < sizeof cases / sizeof *cases; k++) {
        two_files();
        put(medium.bytes + cases[k].place, (int)cases[k].width, cases[k].value);
        wanted.length = 0;
        if (cases[k].freed > 0) {
            /* A copy, a journal sector, 2 marks, a target, 4 barriers: 9 records. */
            table(contents[0], cases[k].e0, cases[k].e1, cases[k].e2, FREE);
            want_commit(1, (const uint64_t[]){289}, contents);
            NUMBER(wanted.length, 4752);
        }
        REPAIRS(cases[k].freed, cases[k].fault, cases[k].fault_place);
    }
    two_files(); /* a sound volume has nothing to free */
    wanted.length = 0;
    REPAIRS(0, 0, 0);
    two_files(); /* the last extent is freed as any other; the copy stands in extent 2, the highest that was free before */
    put(medium.bytes + 289 * 512 + 12, 4, UINT64_C(0x00090000));
    table(contents[0], 0, FREE, FREE, FREE);
    volume.staging[0] = 546;
    wanted.length = 0;
    want_commit(1, (const uint64_t[]){289}, contents);
    REPAIRS(1, 0, 0);
    two_files(); /* leaks that leave none free: 13, and no list is looked at */
    for (k = 1; k < 4; k++)
        put(medium.bytes + 289 * 512 + 4 * k, 4, UINT64_C(0x00090000));
    IS(goofs_check_result, goofs_check(medium.bytes, IMAGE), .code = 7, .fault = 25, .place = 1);
    hold();
    lend();
    IS(goofs_repair_result, goofs_repair(medium.bytes, IMAGE, lent.bytes, sizeof lent.bytes), .code = 13);
    IS(goofs_repair_result, goofs_repair(medium.bytes, IMAGE, NULL, 0), .code = 13);
    lent_is(__LINE__, NULL, 0);
    held_is(__LINE__);
}

/* T-12: other writers give any extent to a file. "beam" has extent 0, "gain" the last: 1 and 2 are free. A file gets the lowest, copies
 * stand in the highest that is free before the call. */
static void other_writers(void)
{
    uint8_t contents[2][512], sector[512];

    two_files();
    put(medium.bytes + 3 * 512 + 2, 8, 5);
    put(medium.bytes + 289 * 512 + 12, 4, UINT64_C(0x00010000));
    volume.staging[0] = 546;
    ENTRY_IS(1, .size = 5, .id = GAIN_ID, .mode = GAIN_MODE, .access_time = 1003, .change_time = 1003, .name = "gain");
    READS("gain", 5, 1, NULL, 0);

    wanted.length = 0;
    root(contents[0], 3, 1004);
    entry(contents[1], (struct entry){.id = 7, .mode = 8, .access_time = 1004, .change_time = 1004, .name = "clock"});
    want_commit(2, (const uint64_t[]){1, 4}, contents);
    GIVES(CREATE, "clock", .id = 7, .mode = 8, .time = 1004);

    /* "clock" takes extent 1, at 418. */
    wanted.length = 0;
    memset(sector, MEDIUM, sizeof sector);
    sector[0] = data[0];
    want(418, sector);
    entry(contents[0], (struct entry){.size = 1, .version = 1, .id = 7, .mode = 8, .access_time = 1004, .change_time = 1005,
                                      .name = "clock"});
    table(contents[1], 0, UINT64_C(0x00020000), FREE, UINT64_C(0x00010000));
    want_commit(2, (const uint64_t[]){4, 289}, contents);
    GIVES(WRITE, "clock", .at = 0, .data = data, .data_length = 1, .time = 1005);

    /* Extent 2 must stay free. */
    REFUSED(13, WRITE, "clock", .at = 1, .data = data, .data_length = 65536);
    REFUSED(13, RESIZE, "beam", .at = 65537);

    /* The last extent is freed, and not staged in before that is done. */
    wanted.length = 0;
    entry(contents[0], (struct entry){.version = 1, .id = GAIN_ID, .mode = GAIN_MODE, .access_time = 1003, .change_time = 1006,
                                      .name = "gain"});
    table(contents[1], 0, UINT64_C(0x00020000), FREE, FREE);
    want_commit(2, (const uint64_t[]){3, 289}, contents);
    GIVES(RESIZE, "gain", .at = 0, .time = 1006);
    volume.staging[0] = 674;
    READS("gain", 0, 1, NULL, 0);
}

/* T-12: no extent is free, as "gain" has 1, 2 and 3. The volume is sound; what has a target gives 13, between 12 and 14, also what would
 * free extents; read and list give an empty list, and the time stays. */
static void no_extent_free(void)
{
    const struct lending exact = {4, 0}, short_by_one = {3, 0};
    static uint8_t expected[4];
    uint64_t k;

    two_files();
    put(medium.bytes + 3 * 512 + 2, 8, 196608);
    for (k = 0; k < 3; k++)
        put(medium.bytes + 289 * 512 + 4 + 4 * k, 4, UINT64_C(0x00010000) + k);
    IS(goofs_check_result, goofs_check(medium.bytes, IMAGE), .code = 0);
    checked_with(medium.bytes, IMAGE, 0, 0, 0);
    REFUSED(13, CREATE, "clock", .id = 7);
    REFUSED(10, CREATE, "gain", .id = 7);
    REFUSED(8, CREATE, "clock", .id = 0);
    REFUSED(13, DELETE, "gain", .id = 0);
    REFUSED(9, DELETE, "clock", .id = 0);
    REFUSED(13, RENAME, "beam", .new_name = "gain");
    REFUSED(13, RENAME, "gain", .new_name = "clock");
    REFUSED(13, RENAME_SET, "gain clock clock beam", .place = 0);
    REFUSED(9, RENAME_SET, "gain clock gain beam", .place = 1);
    REFUSED(13, RESIZE, "gain", .at = 0);
    REFUSED(13, RESIZE, "gain", .at = 196607);
    REFUSED(13, RESIZE, "beam", .at = 3001);
    REFUSED(13, RESIZE, "gain", .at = 196609);
    REFUSED(13, WRITE, "beam", .at = 0, .data = data, .data_length = 1);
    REFUSED(13, WRITE, "gain", .at = 196608, .data = data, .data_length = 1);
    REFUSED(12, WRITE, "gain", .at = 196609, .data = data, .data_length = 1);
    wanted.length = 0; /* without a target they are done */
    GIVES(WRITE, "beam", .at = 0, .data = data, .data_length = 0);
    GIVES(RESIZE, "gain", .at = 196608);
    GIVES(RENAME, "gain", .new_name = "gain");
    GIVES(RENAME_SET, "gain gain beam beam", .time = 1009);
    REPAIRS(0, 0, 0);

    hold();
    lend();
    IS(goofs_list_result, list_call(1, exact), .code = 0, .size = 196608, .id = GAIN_ID, .mode = GAIN_MODE, .access_time = late(1003),
       .change_time = late(1003), .name_length = 4);
    lent_is(__LINE__, (const uint8_t *)"gain", 4);
    lend();
    memcpy(expected, data + 2996, 4);
    IS(goofs_read_result, read_call("beam", 2996, 9, exact), .code = 0, .count = 4);
    lent_is(__LINE__, expected, 4);
    lend();
    IS(goofs_read_result, read_call("beam", 3000, 9, much), .code = 0);
    IS(goofs_read_result, read_call("beam", 3000, 9, nothing), .code = 0);
    IS(goofs_list_result, list_call(1, short_by_one), .code = 14);
    IS(goofs_read_result, read_call("beam", 0, 4, short_by_one), .code = 14);
    IS(goofs_read_result, read_call("beam", 3001, 1, much), .code = 12);
    lent_is(__LINE__, NULL, 0);
    list_is(__LINE__, NULL, 0);
    held_is(__LINE__);
}

static void names(void)
{
    static uint8_t long_name[478];
    const size_t longest = longest_name();
    goofs_change_result answer;
    size_t length;

    memset(long_name, 'n', sizeof long_name);
    two_files();
    hold();
    lend();
    /* P10, and by length 0, with a null pointer or without */
    IS(goofs_change_result, goofs_create(medium.bytes, IMAGE, long_name, longest + 1, 5, 0, 0, lent.bytes, sizeof lent.bytes), .code = 8);
    IS(goofs_find_result, goofs_find(medium.bytes, IMAGE, long_name, longest + 1), .code = 8);
    IS(goofs_find_result, goofs_find(medium.bytes, IMAGE, long_name, longest), .code = 9);
    IS(goofs_find_result, goofs_find(medium.bytes, IMAGE, NULL, 0), .code = 8);
    IS(goofs_find_result, goofs_find(medium.bytes, IMAGE, long_name, 0), .code = 8);
    IS(goofs_read_result, goofs_read(medium.bytes, IMAGE, NULL, 0, 0, 0, 0, NULL, 0, NULL, 0), .code = 8);
    IS(goofs_change_result, goofs_create(medium.bytes, IMAGE, NULL, 0, 5, 0, 0, NULL, 0), .code = 8);
    IS(goofs_change_result, goofs_delete(medium.bytes, IMAGE, NULL, 0, 0, NULL, 0), .code = 8);
    IS(goofs_change_result, goofs_rename(medium.bytes, IMAGE, NULL, 0, NULL, 0, 0, NULL, 0), .code = 8);
    IS(goofs_change_result, goofs_resize(medium.bytes, IMAGE, NULL, 0, 0, 0, NULL, 0), .code = 8);
    IS(goofs_change_result, goofs_write(medium.bytes, IMAGE, NULL, 0, 0, NULL, 0, 0, NULL, 0), .code = 8);
    /* either name of a rename */
    IS(goofs_change_result, goofs_rename(medium.bytes, IMAGE, (const uint8_t *)"beam", 4, long_name, longest + 1, 0, NULL, 0), .code = 8);
    IS(goofs_change_result, goofs_rename(medium.bytes, IMAGE, long_name, longest + 1, (const uint8_t *)"new", 3, 0, NULL, 0), .code = 8);
    IS(goofs_change_result, goofs_rename(medium.bytes, IMAGE, long_name, longest, (const uint8_t *)"new", 3, 0, NULL, 0), .code = 9);
    IS(goofs_change_result, goofs_rename(medium.bytes, IMAGE, (const uint8_t *)"beam", 4, long_name, longest, 0, NULL, 0), .code = 14);
    /* T-08: on edition 2 also the lengths up to edition 1's longest are bad in every call */
    for (length = longest + 1; length <= 477; length++) {
        from = (int)length;
        NUMBER(goofs_find(medium.bytes, IMAGE, long_name, length).code, 8);
        NUMBER(goofs_read(medium.bytes, IMAGE, long_name, length, 0, 0, 0, NULL, 0, NULL, 0).code, 8);
        NUMBER(goofs_create(medium.bytes, IMAGE, long_name, length, 5, 0, 0, NULL, 0).code, 8);
        NUMBER(goofs_delete(medium.bytes, IMAGE, long_name, length, 0, NULL, 0).code, 8);
        NUMBER(goofs_resize(medium.bytes, IMAGE, long_name, length, 0, 0, NULL, 0).code, 8);
        NUMBER(goofs_write(medium.bytes, IMAGE, long_name, length, 0, NULL, 0, 0, NULL, 0).code, 8);
        NUMBER(goofs_rename(medium.bytes, IMAGE, (const uint8_t *)"beam", 4, long_name, length, 0, NULL, 0).code, 8);
        NUMBER(goofs_rename(medium.bytes, IMAGE, long_name, length, (const uint8_t *)"new", 3, 0, NULL, 0).code, 8);
    }
    /* a name is its length's bytes, not a C string: "beam" with a 0 at its end has a 0 in it */
    IS(goofs_find_result, goofs_find(medium.bytes, IMAGE, (const uint8_t *)"beam", 5), .code = 8);
    lent_is(__LINE__, NULL, 0);
    held_is(__LINE__);

    answer = goofs_create(medium.bytes, IMAGE, long_name, longest, 5, 6, late(7), lent.bytes, GOOFS_CREATE_LIST);
    NUMBER(answer.code, 0);
    NUMBER(goofs_carry_out(medium.bytes, IMAGE, lent.bytes, (size_t)answer.length), 0);
    long_name[longest] = 0;
    ENTRY_IS(2, .id = 5, .mode = 6, .access_time = 7, .change_time = 7, .name = (const char *)long_name);
}

/* T-07: a new name has bytes 33 to 126 without 47, the slash. The old name of a rename, and that of the other calls, keeps the rule
 * of before. */
static void new_names(void)
{
    uint8_t name[3] = {'n', 'n', 'n'};
    int byte;

    two_files();
    hold();
    for (byte = 0; byte < 256; byte++) {
        uint64_t code = byte >= 33 && byte <= 126 && byte != 47 ? 0 : 8, old = byte == 0 ? 8 : 9;
        size_t at;

        for (at = 0; at < 3; at++) {
            memset(name, 'n', 3);
            name[at] = (uint8_t)byte;
            from = byte;
            NUMBER(goofs_create(medium.bytes, IMAGE, name, 3, 5, 0, 0, lent.bytes, LONGEST).code, code);
            NUMBER(goofs_rename(medium.bytes, IMAGE, (const uint8_t *)"beam", 4, name, 3, 0, lent.bytes, LONGEST).code, code);
            NUMBER(goofs_rename(medium.bytes, IMAGE, name, 3, (const uint8_t *)"new", 3, 0, lent.bytes, LONGEST).code, old);
            NUMBER(goofs_find(medium.bytes, IMAGE, name, 3).code, old);
            NUMBER(goofs_delete(medium.bytes, IMAGE, name, 3, 0, lent.bytes, LONGEST).code, old);
        }
    }
    held_is(__LINE__);

    /* A file that an older build made. */
    entry(medium.bytes + 4 * 512,
          (struct entry){.version = 9, .id = 5, .mode = 6, .access_time = 7, .change_time = 8, .name = "a /b"});
    IS(goofs_check_result, goofs_check(medium.bytes, IMAGE), .code = 0);
    ENTRY_IS(2, .version = 9, .id = 5, .mode = 6, .access_time = 7, .change_time = 8, .name = "a /b");
    REFUSED(8, CREATE, "a /b", .id = 99); /* 8 goes before 10 */
    REFUSED(8, RENAME, "beam", .new_name = "a /b");
    REFUSED(8, RENAME, "a /b", .new_name = "a /b");
    MADE(WRITE, "a /b", .at = 0, .data = data, .data_length = 1000, .time = 9);
    READS("a /b", 0, 65536, data, 1000);
    MADE(RESIZE, "a /b", .at = 700, .time = 10);
    MADE(RENAME, "a /b", .new_name = "beam", .time = 11);
    ENTRY_IS(2, .size = 700, .version = 12, .id = 5, .mode = 6, .access_time = 7, .change_time = 11, .name = "beam");
    READS("beam", 0, 65536, data, 700);
    entry(medium.bytes + 2 * 512, (struct entry){.id = 98, .name = "\x7F"});
    IS(goofs_check_result, goofs_check(medium.bytes, IMAGE), .code = 0);
    MADE(DELETE, "\x7F", .time = 12);
    REFUSED(9, DELETE, "\x7F", .time = 13);
}

/* T-08: each call that takes a time, and what it answers if the time is good. */
static void times_of_calls(void)
{
    static const uint64_t good[] = {0, 1, 4294967295}, wide[] = {4294967296, 4294967297, UINT64_C(1) << 63, UINT64_MAX};
    const uint8_t *beam = (const uint8_t *)"beam", *gain = (const uint8_t *)"gain", *none = (const uint8_t *)"none";
    size_t k;

    two_files();
    hold();
    for (k = 0; k < 7; k++) {
        uint64_t t = k < 3 ? good[k] : wide[k - 3];
        int bad = volume.edition == 1 && k >= 3;

        from = (int)k;
        NUMBER(goofs_create(medium.bytes, IMAGE, none, 4, 5, 0, t, lent.bytes, LONGEST).code, bad ? 8 : 0);
        NUMBER(goofs_create(medium.bytes, IMAGE, beam, 4, 5, 0, t, lent.bytes, LONGEST).code, bad ? 8 : 10);
        NUMBER(goofs_delete(medium.bytes, IMAGE, beam, 4, t, lent.bytes, LONGEST).code, bad ? 8 : 0);
        NUMBER(goofs_delete(medium.bytes, IMAGE, none, 4, t, lent.bytes, LONGEST).code, bad ? 8 : 9);
        NUMBER(goofs_resize(medium.bytes, IMAGE, beam, 4, 7, t, lent.bytes, LONGEST).code, bad ? 8 : 0);
        NUMBER(goofs_write(medium.bytes, IMAGE, beam, 4, 7, data, 9, t, lent.bytes, LONGEST).code, bad ? 8 : 0);
        NUMBER(goofs_write(medium.bytes, IMAGE, beam, 4, 3001, data, 9, t, lent.bytes, LONGEST).code, bad ? 8 : 12);
        NUMBER(goofs_rename(medium.bytes, IMAGE, beam, 4, gain, 4, t, lent.bytes, LONGEST).code, bad ? 8 : 0);
        NUMBER(goofs_rename(medium.bytes, IMAGE, none, 4, gain, 4, t, lent.bytes, LONGEST).code, bad ? 8 : 9);
        IS(goofs_change_result, call_set("none gain", t, lent.bytes, LONGEST, 0), .code = bad ? 8 : 9);
        IS(goofs_change_result, call_set("beam t none gain", t, lent.bytes, LONGEST, 0), .code = bad ? 8 : 9, .place = bad ? 0 : 1);
        IS(goofs_change_result, call_set("beam beam", t, NULL, 0, 0), .code = bad ? 8 : 0);
        NUMBER(goofs_read(medium.bytes, IMAGE, beam, 4, 0, 9, t, lent.bytes, LONGEST, lent_list.bytes, LONGEST).code, bad ? 8 : 0);
        NUMBER(goofs_read(medium.bytes, IMAGE, none, 4, 0, 9, t, lent.bytes, LONGEST, lent_list.bytes, LONGEST).code, bad ? 8 : 9);
        NUMBER(goofs_read(medium.bytes, IMAGE, beam, 4, 3001, 0, t, NULL, 0, lent_list.bytes, LONGEST).code, bad ? 8 : 12);
        NUMBER(goofs_list(medium.bytes, IMAGE, 0, t, lent.bytes, LONGEST, lent_list.bytes, LONGEST).code, bad ? 8 : 0);
        NUMBER(goofs_list(medium.bytes, IMAGE, 2, t, lent.bytes, LONGEST, lent_list.bytes, LONGEST).code, bad ? 8 : 9);
        NUMBER(goofs_list(medium.bytes, IMAGE, 0, t, NULL, 0, NULL, 0).code, bad ? 8 : 14);
        /* where nothing would be stored, into no list */
        IS(goofs_change_result, goofs_resize(medium.bytes, IMAGE, beam, 4, 3000, t, NULL, 0), .code = bad ? 8 : 0);
        IS(goofs_change_result, goofs_write(medium.bytes, IMAGE, beam, 4, 7, NULL, 0, t, NULL, 0), .code = bad ? 8 : 0);
        memcpy(lent.bytes, "beam", 4); /* slices of one call must not overlap */
        IS(goofs_change_result, goofs_rename(medium.bytes, IMAGE, beam, 4, lent.bytes, 4, t, NULL, 0), .code = bad ? 8 : 0);
        /* 14 goes behind */
        IS(goofs_change_result, goofs_delete(medium.bytes, IMAGE, beam, 4, t, NULL, 0), .code = bad ? 8 : 14);
        IS(goofs_length_result, goofs_format_record(1313, 255, volume.edition, 1, 0, t, 0, NULL, 0), .code = bad ? 8 : 14);
        IS(goofs_length_result, goofs_format_record(1313, 255, volume.edition, 1, 0, t, 262, NULL, 0), .code = bad ? 8 : 9);
    }
    held_is(__LINE__);
}

/* Editions other than 1 and 2 are refused at every position. */
static void editions_refused(void)
{
    static const uint64_t bad[] = {0, 3, 256, 65537, 65538, UINT64_C(4294967297), UINT64_C(4294967298), UINT64_MAX};
    size_t k;

    for (k = 0; k < sizeof bad / sizeof *bad; k++) {
        from = (int)k;
        lend();
        IS(goofs_length_result, goofs_format_record(1313, 255, bad[k], 1, 0, 0, 0, lent.bytes, sizeof lent.bytes), .code = 8);
        IS(goofs_length_result, goofs_format_record(1313, 255, bad[k], 1, 0, 0, 2, lent.bytes, sizeof lent.bytes), .code = 8);
        IS(goofs_length_result, goofs_format_record(1313, 255, bad[k], 1, 0, 0, 262, NULL, 0), .code = 8);
        lent_is(__LINE__, NULL, 0);
    }
}

static void full_directory(void)
{
    char name[8];
    uint32_t k;

    sample();
    for (k = 0; k < 255; k++) {
        snprintf(name, sizeof name, "f%" PRIu32, k);
        MADE(CREATE, name, .id = 1 + k, .time = k);
    }
    REFUSED(11, CREATE, "f255", .id = 256);
    REFUSED(10, CREATE, "f254", .id = 256); /* lower numbers first */
    REFUSED(10, CREATE, "f255", .id = 255);
    ENTRY_IS(254, .id = 255, .access_time = 254, .change_time = 254, .name = "f254");
    MADE(DELETE, "f100", .time = 1);
    MADE(CREATE, "new", .id = 101, .time = 1000); /* an id may be used again; the lowest free entry is taken */
    ENTRY_IS(100, .id = 101, .access_time = 1000, .change_time = 1000, .name = "new");
}

static void carrying_out(void)
{
    uint8_t first[512], second[512];

    memset(first, 1, 512);
    memset(second, 2, 512);
    blank_medium();
    hold();
    NUMBER(goofs_carry_out(NULL, 0, NULL, 0), 1);
    NUMBER(goofs_carry_out(medium.bytes, 511, NULL, 0), 1);
    NUMBER(goofs_carry_out(medium.bytes, IMAGE - 1, NULL, 0), 1);
    NUMBER(goofs_carry_out(medium.bytes, IMAGE, NULL, 0), 0); /* an empty list */
    wanted.length = 0;
    want(1312, first);
    want_barrier();
    NUMBER(goofs_carry_out(medium.bytes, 512, wanted.bytes, wanted.length), 8);       /* sector 1312 of an image of one */
    NUMBER(goofs_carry_out(medium.bytes, IMAGE, wanted.bytes, wanted.length - 1), 8); /* a part of a record; the rest is good */
    want(1313, first);                                                                /* the first sector behind the image */
    NUMBER(goofs_carry_out(medium.bytes, IMAGE, wanted.bytes, wanted.length), 8);
    wanted.length -= 528;
    want(UINT64_C(36028797018963968), first); /* 2^55: its place in bytes is 2^64 */
    NUMBER(goofs_carry_out(medium.bytes, IMAGE, wanted.bytes, wanted.length), 8);
    wanted.bytes[2 * 528 - 1] = 1; /* the barrier's last byte */
    NUMBER(goofs_carry_out(medium.bytes, IMAGE, wanted.bytes, 2 * 528), 8);
    wanted.length = 0;
    want(1312, first);
    want_barrier();
    want(7, second);
    put(wanted.bytes + 528, 8, 2); /* positions 0, 2, 2 */
    NUMBER(goofs_carry_out(medium.bytes, IMAGE, wanted.bytes, wanted.length), 8);
    put(wanted.bytes + 2 * 528, 8, 1); /* 0, 2, 1: swapped */
    NUMBER(goofs_carry_out(medium.bytes, IMAGE, wanted.bytes, wanted.length), 8);
    put(wanted.bytes + 528, 8, 0); /* 0, 0, 1: doubled */
    NUMBER(goofs_carry_out(medium.bytes, IMAGE, wanted.bytes, wanted.length), 8);
    put(wanted.bytes + 528, 8, UINT64_C(4294967297)); /* 2^32 + 1: not cut to 32 bits */
    put(wanted.bytes + 2 * 528, 8, 2);
    NUMBER(goofs_carry_out(medium.bytes, IMAGE, wanted.bytes, wanted.length), 8);
    NUMBER(goofs_carry_out(medium.bytes, IMAGE, wanted.bytes + 2 * 528, 528), 8); /* the first two dropped */
    NUMBER(goofs_carry_out(medium.bytes, 511, wanted.bytes, wanted.length), 1);   /* 1 goes before 8 */
    held_is(__LINE__);                                                            /* none has written anything */

    wanted.length = 0;
    want(1312, first);
    want(7, first);
    want_barrier();
    want(7, second); /* the last write stays */
    NUMBER(goofs_carry_out(medium.bytes, IMAGE, wanted.bytes, wanted.length), 0);
    memset(held.bytes + 1312 * 512, 1, 512);
    memset(held.bytes + 7 * 512, 2, 512);
    held_is(__LINE__);
}

/* 1,024 journal entries, the most that a volume can wait with. It takes 1,024 files to have so many targets: with N = 2 and T = 1
 * the journal starts at 1,026, the table is 1,058, the data are 1,059 to 1,314. Entry k copies sector 1,059 + k / 4 to 1,025 - k,
 * so the journal isn't in order; the list is. */
static void longest_recovery(void)
{
    uint8_t sector[512];
    size_t k;

    blank_medium();
    volume.files = 1024;
    volume.extents = 2;
    volume.extent_sectors = 128;
    superblock(medium.bytes, 1024);
    for (k = 0; k < 1024; k++) {
        put(medium.bytes + 1026 * 512 + 16 * k, 8, 1059 + k / 4);
        put(medium.bytes + 1026 * 512 + 16 * k + 8, 8, 1025 - k);
    }
    /* The sample's medium has 1,313 sectors and this volume 1,315. */
    IS(goofs_length_result, goofs_recover(medium.bytes, IMAGE, lent.bytes, sizeof lent.bytes), .code = 3);
    {
        static uint8_t image[1315 * 512];

        memcpy(image, medium.bytes, IMAGE);
        for (k = 0; k < 256; k++)
            memset(image + (1059 + k) * 512, (int)k, 512);
        wanted.length = 0;
        for (k = 0; k < 1024; k++) { /* the targets 2 to 1,025; target t has the source of entry 1,025 - t */
            memset(sector, (int)((1023 - k) / 4), 512);
            want(2 + k, sector);
        }
        want_barrier();
        superblock(sector, 0);
        want(0, sector);
        want_barrier();
        NUMBER(wanted.length, 1027 * 528);
        NUMBER(wanted.length, GOOFS_RECOVER_LIST);
        IS(goofs_summary_result, goofs_summary(image, sizeof image), .files = 1024, .extents = 2, .extent_sectors = 128, .state = 1,
           .entries = 1024, .edition = volume.edition);
        lend();
        IS(goofs_length_result, goofs_recover(image, sizeof image, lent.bytes, GOOFS_RECOVER_LIST - 1), .code = 14);
        lent_is(__LINE__, NULL, 0);
        IS(goofs_length_result, goofs_recover(image, sizeof image, lent.bytes, GOOFS_RECOVER_LIST), .code = 0, .length = 542256);
        lent_is(__LINE__, wanted.bytes, 542256);
        /* Asked for in the journal's order, a shared source again, the list is the same, in rising order. */
        lender = image;
        lender_length = sizeof image;
        lend();
        IS(goofs_recovering, goofs_recover_lent(FRONT, lent.bytes, GOOFS_RECOVER_LIST - 1), .code = 14);
        lent_is(__LINE__, NULL, 0);
        IS(goofs_length_result, recover_lent(lent.bytes, GOOFS_RECOVER_LIST), .code = 0, .length = 542256);
        lent_is(__LINE__, wanted.bytes, 542256);
        lender = medium.bytes;
        lender_length = IMAGE;
        /* After the list has landed the volume is clean. The entries 0 to 3 are full of 255, so they have the mark of an occupied
         * one; entry 4 is full of 254, and that is no mark. */
        NUMBER(goofs_carry_out(image, sizeof image, lent.bytes, 542256), 0);
        IS(goofs_summary_result, goofs_summary(image, sizeof image), .files = 1024, .extents = 2, .extent_sectors = 128,
           .edition = volume.edition);
        IS(goofs_check_result, goofs_check(image, sizeof image), .code = 7, .fault = 21, .place = 4);
    }
}

/* On an empty volume with so many table sectors: "a" to "h" in the entries 100 to 107 have together one extent in each table sector, "0" to
 * "7" in the entries 50 to 43 are empty. */
static void sixteen_files(uint8_t *image, size_t table_sectors)
{
    size_t k, extents;

    memset(image + 2 * 512, 0, 255 * 512);
    memset(image + 289 * 512, 255, table_sectors * 512);
    for (k = 0; k < 8; k++) {
        extents = (table_sectors - k + 7) / 8;
        entry(image + (102 + k) * 512, (struct entry){.size = extents * 65536, .id = 200 + k, .name = (const char[]){(char)('a' + k), 0}});
        entry(image + (52 - k) * 512, (struct entry){.version = k, .id = 300 + k, .name = (const char[]){(char)('0' + k), 0}});
    }
    for (k = 0; k < table_sectors; k++)
        put(image + (289 + k) * 512, 4, (100 + k % 8) << 16 | k / 8);
    IS(goofs_check_result, goofs_check(image, (size_t)(table_sectors == 512 ? 8389281 : 1835409) * 512), .code = 0);
}

static const uint64_t one_each[16] = {1, 1, 1, 1, 1, 1, 1, 1, 1, 1, 1, 1, 1, 1, 1, 1};
static const uint8_t onto_all[] = "0a1b2c3d4e5f6g7h";

/* The largest volume with extents of 128 sectors: N = 65,535, T = 512, K = 5. Journal 257, table 289, data 801, reserve
 * 801 + 65,530 x 128 = 8,388,641; 8,389,281 sectors. One file has all 65,530 usable extents, so its size is 65,530 x 65,536 bytes,
 * and a delete touches every table sector; the last entry has another, which is empty. The image has more than 4 GiB, of which only
 * a few pages are ever touched. */
static int longest_lists(void)
{
    const size_t length = (size_t)8389281 * 512;
    static uint8_t contents[529][512];
    static uint64_t targets[529];
    uint8_t *image;
    size_t k, offset;

    if (SIZE_MAX < UINT64_C(8389281) * 512)
        return 0;
    image = mmap(NULL, length, PROT_READ | PROT_WRITE, MAP_PRIVATE | MAP_ANONYMOUS | MAP_NORESERVE, -1, 0);
    if (image == MAP_FAILED)
        return 0;
    volume.files = 255;
    volume.extents = 65535;
    volume.extent_sectors = 128;
    volume.journal_at = 257;
    for (k = 0; k < 5; k++)
        volume.staging[k] = 8388641 + 128 * k;
    superblock(image, 0);
    root(image + 512, 41, 1000);
    entry(image + 2 * 512, (struct entry){.size = UINT64_C(4294574080), .version = UINT32_MAX, .id = 9, .name = "beam"});
    entry(image + 256 * 512, (struct entry){.version = 7, .id = 8, .name = "gain"});
    memset(image + 289 * 512, 255, 512 * 512); /* all free */
    for (k = 0; k < 65530; k++)
        put(image + 289 * 512 + 4 * k, 4, 65529 - k); /* file 0, the extents in falling order */
    IS(goofs_summary_result, goofs_summary(image, length), .files = 255, .extents = 65535, .extent_sectors = 128,
       .edition = volume.edition);
    IS(goofs_check_result, goofs_check(image, length), .code = 0);

    memset(contents, 0, sizeof contents);
    targets[0] = 1;
    root(contents[0], 42, 1001);
    targets[1] = 2;
    for (k = 0; k < 512; k++) {
        targets[2 + k] = 289 + k;
        memset(contents[2 + k], 255, 512);
    }
    wanted.length = 0;
    want_commit(514, targets, contents); /* the entry's contents are zeros */
    NUMBER(wanted.length, 1051 * 528);
    NUMBER(wanted.length, GOOFS_DELETE_LIST);
    lend();
    IS(goofs_change_result, goofs_delete(image, length, (const uint8_t *)"beam", 4, late(1001), lent.bytes, GOOFS_DELETE_LIST - 1),
       .code = 14);
    lent_is(__LINE__, NULL, 0);
    IS(goofs_change_result, goofs_delete(image, length, (const uint8_t *)"beam", 4, late(1001), lent.bytes, GOOFS_DELETE_LIST), .code = 0,
       .length = 554928);
    lent_is(__LINE__, wanted.bytes, 554928);

    /* "gain" onto "beam": the root, zeros, the renamed entry and the table. */
    memmove(contents + 3, contents + 2, sizeof *contents * 512);
    memmove(targets + 3, targets + 2, sizeof *targets * 512);
    targets[2] = 256;
    entry(contents[2], (struct entry){.version = 8, .id = 8, .change_time = 1001, .name = "beam"});
    wanted.length = 0;
    want_commit(515, targets, contents);
    NUMBER(wanted.length, 1053 * 528);
    NUMBER(wanted.length, GOOFS_RENAME_LIST);
    lend();
    IS(goofs_change_result,
       goofs_rename(image, length, (const uint8_t *)"gain", 4, (const uint8_t *)"beam", 4, late(1001), lent.bytes, GOOFS_RENAME_LIST - 1),
       .code = 14);
    lent_is(__LINE__, NULL, 0);
    IS(goofs_change_result,
       goofs_rename(image, length, (const uint8_t *)"gain", 4, (const uint8_t *)"beam", 4, late(1001), lent.bytes, GOOFS_RENAME_LIST),
       .code = 0, .length = 555984);
    lent_is(__LINE__, wanted.bytes, 555984);
    memmove(contents + 2, contents + 3, sizeof *contents * 512);
    memmove(targets + 2, targets + 3, sizeof *targets * 512);

    /* To size 0: the entry and the table, and a version of 4,294,967,295 is followed by 0. */
    entry(contents[1], (struct entry){.size = 0, .version = 0, .id = 9, .change_time = 1001, .name = "beam"});
    wanted.length = 0;
    want_commit(513, targets + 1, contents + 1);
    NUMBER(wanted.length, 1049 * 528);
    NUMBER(wanted.length, GOOFS_RESIZE_LIST);
    lend();
    IS(goofs_change_result, goofs_resize(image, length, (const uint8_t *)"beam", 4, 0, late(1001), lent.bytes, GOOFS_RESIZE_LIST - 1),
       .code = 14);
    lent_is(__LINE__, NULL, 0);
    IS(goofs_change_result, goofs_resize(image, length, (const uint8_t *)"beam", 4, 0, late(1001), lent.bytes, GOOFS_RESIZE_LIST),
       .code = 0, .length = 553872);
    lent_is(__LINE__, wanted.bytes, 553872);
    NUMBER(goofs_carry_out(image, length, lent.bytes, 553872), 0);
    IS(goofs_find_result, goofs_find(image, length, (const uint8_t *)"beam", 4), .code = 0, .id = 9,
       .access_time = late(0), .change_time = late(1001), .name_length = 4);

    /* Another writer left free the extents 9, 700, 702, 30,000 and the last: the 515 copies stand in these, 128 in each. */
    entry(image + 2 * 512, (struct entry){.size = UINT64_C(4294574080), .version = UINT32_MAX, .id = 9, .name = "beam"});
    for (k = 0, offset = 0; k < 65535; k++)
        put(image + 289 * 512 + 4 * k, 4, k == 9 || k == 700 || k == 702 || k == 30000 || k == 65534 ? FREE : offset++);
    IS(goofs_check_result, goofs_check(image, length), .code = 0);
    volume.staging[0] = 801 + 9 * 128;
    volume.staging[1] = 801 + 700 * 128;
    volume.staging[2] = 801 + 702 * 128;
    volume.staging[3] = 801 + 30000 * 128;
    volume.staging[4] = 801 + 65534 * 128;
    memset(contents, 0, sizeof contents);
    root(contents[0], 42, 1001);
    targets[2] = 256;
    entry(contents[2], (struct entry){.version = 8, .id = 8, .change_time = 1001, .name = "beam"});
    for (k = 0; k < 512; k++) {
        targets[3 + k] = 289 + k;
        memset(contents[3 + k], 255, 512);
    }
    wanted.length = 0;
    want_commit(515, targets, contents);
    lend();
    IS(goofs_change_result,
       goofs_rename(image, length, (const uint8_t *)"gain", 4, (const uint8_t *)"beam", 4, late(1001), lent.bytes, GOOFS_RENAME_LIST),
       .code = 0, .length = 555984);
    lent_is(__LINE__, wanted.bytes, 555984);

    /* Eight renames onto files: the root, sixteen entries, and all of the table. */
    sixteen_files(image, 512);
    for (k = 0; k < 5; k++)
        volume.staging[k] = 8388641 + 128 * k;
    memset(contents, 0, sizeof contents);
    root(contents[0], 49, 1001); /* 41 and 8 */
    for (k = 0; k < 8; k++) {
        targets[1 + k] = 45 + k; /* entry 43 is "7", which becomes "h" */
        entry(contents[1 + k], (struct entry){.version = 8 - k, .id = 307 - k, .change_time = 1001,
                                              .name = (const char[]){(char)('h' - k), 0}});
        targets[9 + k] = 102 + k;
    }
    for (k = 0; k < 512; k++) {
        targets[17 + k] = 289 + k;
        memset(contents[17 + k], 255, 512);
    }
    wanted.length = 0;
    want_commit(529, targets, contents);
    NUMBER(wanted.length, 1081 * 528);
    NUMBER(wanted.length, GOOFS_RENAME_SET_LIST);
    lend();
    IS(goofs_change_result,
       goofs_rename_set(image, length, onto_all, 16, one_each, 16, late(1001), lent.bytes, GOOFS_RENAME_SET_LIST - 1), .code = 14);
    lent_is(__LINE__, NULL, 0);
    IS(goofs_change_result, goofs_rename_set(image, length, onto_all, 16, one_each, 16, late(1001), lent.bytes, GOOFS_RENAME_SET_LIST),
       .code = 0, .length = 570768);
    lent_is(__LINE__, wanted.bytes, 570768);
    munmap(image, length);
    return 1;
}

/* N = 14,336 and S = 128 have T = 112 and K = 1: eight renames may have 1 + 16 + 112 = 129 targets, one more than there is room for copies.
 * Data 401, 1,835,409 sectors. */
static int more_targets_than_room(void)
{
    const size_t length = (size_t)1835409 * 512;
    uint8_t *image = mmap(NULL, length, PROT_READ | PROT_WRITE, MAP_PRIVATE | MAP_ANONYMOUS | MAP_NORESERVE, -1, 0);

    if (image == MAP_FAILED)
        return 0;
    volume.files = 255;
    volume.extents = 14336;
    volume.extent_sectors = 128;
    from = __LINE__;
    superblock(image, 0);
    root(image + 512, 41, 1000);
    sixteen_files(image, 112);
    lend();
    IS(goofs_change_result, goofs_rename_set(image, length, onto_all, 16, one_each, 16, 7, lent.bytes, sizeof lent.bytes), .code = 13);
    IS(goofs_change_result, goofs_rename_set(image, length, onto_all, 16, one_each, 16, 7, NULL, 0), .code = 13); /* before 14 */
    lent_is(__LINE__, NULL, 0);
    /* Without the last, 113 targets: the root, 14 entries, 98 table sectors; 226 of them and copies, 4 journal sectors, 6. */
    IS(goofs_change_result, goofs_rename_set(image, length, onto_all, 14, one_each, 14, 7, NULL, 0), .code = 14);
    IS(goofs_change_result, goofs_rename_set(image, length, onto_all, 14, one_each, 14, 7, lent.bytes, sizeof lent.bytes), .code = 0,
       .length = 236 * 528);
    /* The last to a new name: the root, 15 entries and 98 table sectors. */
    IS(goofs_change_result,
       goofs_rename_set(image, length, (const uint8_t *)"0a1b2c3d4e5f6g7x", 16, one_each, 16, 7, lent.bytes, sizeof lent.bytes), .code = 0,
       .length = 238 * 528);
    munmap(image, length);
    return 1;
}

/* N = 16,128 and S = 128 have T = 126, so that K = 129 / 128 rounded up is 2; before T-01 it was 1. Data 415, 2,064,799 sectors. "beam" has
 * all extents but the last, as an older build could fill it: the volume is sound, and can't be changed. With one extent less it can. */
static int older_volume(void)
{
    const size_t length = (size_t)2064799 * 512;
    uint8_t *image = mmap(NULL, length, PROT_READ | PROT_WRITE, MAP_PRIVATE | MAP_ANONYMOUS | MAP_NORESERVE, -1, 0);
    const uint8_t *beam = (const uint8_t *)"beam";
    size_t k;

    if (image == MAP_FAILED)
        return 0;
    volume.files = 255;
    volume.extents = 16128;
    volume.extent_sectors = 128;
    superblock(image, 0);
    root(image + 512, 41, 1000);
    memset(image + 289 * 512, 255, 126 * 512); /* all free */
    entry(image + 2 * 512, (struct entry){.size = UINT64_C(16127) * 65536, .id = 9, .name = "beam"});
    for (k = 0; k < 16127; k++)
        put(image + 289 * 512 + 4 * k, 4, k);
    from = __LINE__;
    IS(goofs_check_result, goofs_check(image, length), .code = 0);
    IS(goofs_change_result, goofs_delete(image, length, beam, 4, 7, lent.bytes, sizeof lent.bytes), .code = 13);
    IS(goofs_change_result, goofs_resize(image, length, beam, 4, 0, 7, lent.bytes, sizeof lent.bytes), .code = 13);
    IS(goofs_read_result, goofs_read(image, length, beam, 4, 65535, 2, 7, lent.bytes, 2, NULL, 0), .code = 0, .count = 2);
    put(image + 2 * 512 + 2, 8, UINT64_C(16126) * 65536);
    put(image + 289 * 512 + 4 * 16126, 4, FREE);
    IS(goofs_check_result, goofs_check(image, length), .code = 0);
    /* Root, entry and 126 table sectors: 2 x 128 copies and targets, 4 journal sectors, 6. */
    IS(goofs_change_result, goofs_delete(image, length, beam, 4, 7, lent.bytes, sizeof lent.bytes), .code = 0, .length = 266 * 528);
    /* The size that all extents together have, and one byte more. */
    put(image + 2 * 512 + 2, 8, UINT64_C(16128) * 65536);
    ALL_REFUSE(NOT_THESE, image, length, 7, 26, 0);
    put(image + 2 * 512 + 2, 8, UINT64_C(16128) * 65536 + 1);
    ALL_REFUSE(NOT_THESE, image, length, 7, 22, 0);
    munmap(image, length);
    return 1;
}

/* The sectors that are asked for, by their numbers: 0 ends them. */
static void asks_read(const char *name, uint64_t offset, uint64_t count, const uint64_t *expected)
{
    goofs_reading r = goofs_read_lent(FRONT, (const uint8_t *)name, strlen(name), offset, count, late(ACCESS_TIME), sizeof lent.bytes,
                                      lent_list.bytes, sizeof lent_list.bytes);

    for (; *expected != 0; expected++) {
        NUMBER(r.code, 0);
        NUMBER(r.wanted, *expected);
        r = goofs_read_step(r, supplied(r.wanted), 512, lent.bytes, sizeof lent.bytes);
    }
    NUMBER(r.code, 0);
    NUMBER(r.wanted, 0);
}

static void asks_write(goofs_writing w, uint64_t first, uint64_t second, uint64_t length)
{
    NUMBER(w.code, 0);
    NUMBER(w.wanted.sector, first);
    if (first != 0) {
        NUMBER(w.length, 0);
        w = goofs_write_step(w, supplied(w.wanted.sector), 512, lent.bytes, sizeof lent.bytes);
        NUMBER(w.code, 0);
        NUMBER(w.wanted.sector, second);
    }
    if (second != 0) {
        NUMBER(w.length, 0);
        w = goofs_write_step(w, supplied(w.wanted.sector), 512, lent.bytes, sizeof lent.bytes);
        NUMBER(w.code, 0);
        NUMBER(w.wanted.sector, 0);
    }
    NUMBER(w.length, length);
}

#define ASKS_READ (from = __LINE__, asks_read)
#define ASKS_WRITE (from = __LINE__, asks_write)
#define WRITE_LENT(name, offset, from_, count) \
    goofs_write_lent(FRONT, (const uint8_t *)(name), strlen(name), (offset), (from_), (count), late(1005), lent.bytes, \
                     sizeof lent.bytes)
#define RESIZE_LENT(name, size) \
    goofs_resize_lent(FRONT, (const uint8_t *)(name), strlen(name), (size), late(1005), lent.bytes, sizeof lent.bytes)

/* "beam" grows to 66,000 bytes, over extent 0 at sector 290 and, as "gain" takes extent 1 before, extent 2 at sector 546. The bytes of the
 * first one that no write has touched are MEDIUM. */
static void asked_sectors(void)
{
    static uint8_t whole[66000];
    uint64_t i;

    two_files();
    ASKS_READ("beam", 0, 0, (const uint64_t[]){0});
    ASKS_READ("beam", 3000, 5, (const uint64_t[]){0});
    ASKS_READ("gain", 0, 512, (const uint64_t[]){0});
    ASKS_READ("beam", 0, 512, (const uint64_t[]){290, 0});
    ASKS_READ("beam", 511, 2, (const uint64_t[]){290, 291, 0});
    ASKS_READ("beam", 2559, 65536, (const uint64_t[]){294, 295, 0}); /* to the end, 3,000 */

    /* Records behind the data: an entry's change has 9, an extent just taken 11. */
    ASKS_WRITE(WRITE_LENT("beam", 0, data, 512), 0, 0, 10 * 528);
    ASKS_WRITE(WRITE_LENT("beam", 0, data, 1), 290, 0, 10 * 528);      /* the start of one sector, */
    ASKS_WRITE(WRITE_LENT("beam", 511, data, 1), 290, 0, 10 * 528);    /* its end, */
    ASKS_WRITE(WRITE_LENT("beam", 100, data, 200), 290, 0, 10 * 528);  /* its middle; */
    ASKS_WRITE(WRITE_LENT("beam", 511, data, 2), 290, 291, 11 * 528);  /* a byte of each of two; */
    ASKS_WRITE(WRITE_LENT("beam", 512, data, 600), 292, 0, 11 * 528);  /* one whole and a part behind it, */
    ASKS_WRITE(WRITE_LENT("beam", 500, data, 524), 290, 0, 11 * 528);  /* or before it; */
    ASKS_WRITE(WRITE_LENT("beam", 3000, data, 10), 295, 0, 10 * 528);  /* behind the end */
    ASKS_WRITE(WRITE_LENT("beam", 0, data, 0), 0, 0, 0);
    ASKS_WRITE(WRITE_LENT("gain", 0, data, 1), 418, 0, 12 * 528); /* into an extent that is just taken: its old bytes stay */
    ASKS_WRITE(RESIZE_LENT("beam", 3000), 0, 0, 0);
    ASKS_WRITE(RESIZE_LENT("beam", 2999), 0, 0, 9 * 528);
    ASKS_WRITE(RESIZE_LENT("beam", 3001), 295, 0, 10 * 528);
    ASKS_WRITE(RESIZE_LENT("beam", 4000), 295, 297, 12 * 528);
    ASKS_WRITE(RESIZE_LENT("beam", 4096), 295, 0, 12 * 528);
    ASKS_WRITE(RESIZE_LENT("gain", 1024), 0, 0, 13 * 528);

    MADE(WRITE, "gain", .at = 0, .data = data, .data_length = 1, .time = 1004);
    ASKS_WRITE(WRITE_LENT("beam", 3000, data, 63000), 295, 546, 135 * 528); /* 123 sectors to the edge and one in extent 2 */
    MADE(WRITE, "beam", .at = 3000, .data = data, .data_length = 63000, .time = 1005);
    memcpy(whole, data, 3000);
    memcpy(whole + 3000, data, 63000);
    READS("beam", 0, 65536, whole, 65536);
    READS("beam", 1000, 65000, whole + 1000, 65000);
    READS("beam", 65535, 2, whole + 65535, 2);
    ASKS_READ("beam", 65000, 1000, (const uint64_t[]){416, 417, 546, 0}); /* over the edge of the first extent */
    ASKS_READ("beam", 65536, 1, (const uint64_t[]){546, 0});
    ASKS_WRITE(WRITE_LENT("beam", 65535, data, 2), 417, 546, 11 * 528);
    for (i = 0; i < 3; i++) { /* each by both ways, and byte for byte */
        const uint64_t spans[3][2] = {{100, 200}, {400, 300}, {65500, 100}};
        goofs_change_result of_image, of_lent;
        const struct change c = {WRITE, "beam", .at = spans[i][0], .data = data + 7, .data_length = (size_t)spans[i][1], .time = 1006};

        lend();
        of_image = call(&c, lent.bytes, sizeof lent.bytes);
        of_lent = call_lent(&c, lent_list.bytes, sizeof lent_list.bytes);
        result(__LINE__, "a write's answers", &of_lent, &of_image, sizeof of_image);
        NUMBER(of_image.code, 0);
        bytes(__LINE__, "a write's lists", lent_list.bytes, lent.bytes, sizeof lent.bytes);
    }
}

/* Which sectors are lent, and how many the card is said to have. */
static void lent_and_counted(void)
{
    static const uint64_t enough[] = {802, 803, 1313, UINT64_C(1) << 55, UINT64_MAX}; /* in bytes, two of them have more than 64 bits */
    const size_t front = 290 * 512;
    const uint8_t *image = medium.bytes;
    size_t k, more;

    two_files();
    NUMBER(GOOFS_FRONT_SECTORS(255, 4), 290);
    for (k = 0; k < sizeof enough / sizeof *enough; k++) {
        for (more = 0; more <= 1024; more += 512) {
            IS(goofs_check_result, goofs_check_lent(image, front + more, enough[k]), .code = 0);
            IS(goofs_summary_result, goofs_summary_lent(image, front + more, enough[k]), .files = 255, .extents = 4,
               .extent_sectors = 128, .edition = volume.edition);
        }
    }
    hold();
    lend();
    all_lent_refuse(SUMMARY | RECOVER, NULL, 0, 802, 1, 0, 0);
    all_lent_refuse(SUMMARY | RECOVER, image, front - 1, 802, 1, 0, 0);
    all_lent_refuse(SUMMARY | RECOVER, image, front + 511, 802, 1, 0, 0);
    all_lent_refuse(SUMMARY | RECOVER, image, front, 801, 3, 0, 0); /* the volume has 802 sectors */
    all_lent_refuse(SUMMARY | RECOVER, image, front, 290, 3, 0, 0);
    all_lent_refuse(SUMMARY | RECOVER, image, front, 0, 3, 0, 0);
    all_lent_refuse(SUMMARY | RECOVER, image, IMAGE, 801, 3, 0, 0); /* the count goes, though all sectors are lent */
    all_lent_refuse(SUMMARY | RECOVER, image, front - 512, 802, 3, 0, 0);
    all_lent_refuse(SUMMARY | RECOVER, image, front - 512, UINT64_MAX, 3, 0, 0);
    all_lent_refuse(SUMMARY | RECOVER, image, 512, 802, 3, 0, 0);
    lent_is(__LINE__, NULL, 0);
    list_is(__LINE__, NULL, 0);
    held_is(__LINE__);
}

/* States that no first call gave, and fronts of another volume: the step is refused and changes nothing, or it is a step of that state; the
 * volume is not looked at. */
static void states_of_steps(void)
{
    static const uint64_t no_sectors[] = {0, UINT64_MAX};
    static uint8_t front[290 * 512];
    const uint8_t *name = (const uint8_t *)"beam";
    goofs_reading r, past_the_end;
    goofs_writing w;
    goofs_recovering v;
    size_t k;

    two_files();
    lend();
    r = goofs_read_lent(FRONT, name, 4, 100, 1000, late(1), 1000, lent_list.bytes, sizeof lent_list.bytes);
    NUMBER(r.wanted, 290);
    w = goofs_write_lent(FRONT, name, 4, 100, data, 1000, late(1), lent_list.bytes, sizeof lent_list.bytes);
    NUMBER(w.wanted.sector, 290);
    for (k = 0; k < 2; k++) {
        goofs_reading bad = r, got, same;
        goofs_writing bad_write = w, got_write, same_write;

        bad.wanted = no_sectors[k];
        same = bad;
        same.code = 8;
        got = goofs_read_step(bad, data, 512, lent.bytes, 1000);
        result(__LINE__, "a read of no sector", &got, &same, sizeof got);
        bad_write.wanted.sector = no_sectors[k];
        same_write = bad_write;
        same_write.code = 8;
        got_write = goofs_write_step(bad_write, data, 512, lent.bytes, sizeof lent.bytes);
        result(__LINE__, "a write of no sector", &got_write, &same_write, sizeof got_write);
    }
    lent_is(__LINE__, NULL, 0);
    past_the_end = r;
    past_the_end.wanted = 802; /* a step doesn't know the volume's length */
    r = goofs_read_step(past_the_end, data, 512, lent.bytes, 1000);
    NUMBER(r.code, 0);
    NUMBER(r.wanted, 803);
    lent_is(__LINE__, data + 100, 412);
    past_the_end.done = 1001;
    IS(goofs_reading, goofs_read_step(past_the_end, data, 512, lent.bytes, 1000), .code = 8, .count = 1000, .length = 4752,
       .wanted = 802, .skip = 100, .done = 1001, .edge = 65436, .next = past_the_end.next);
    lent_is(__LINE__, data + 100, 412);

    /* A volume that waits, cut after the start mark of the delete of "beam": 3 entries. */
    memcpy(front, medium.bytes, sizeof front);
    MADE(DELETE, "beam", .time = 1004);
    lend();
    NUMBER(goofs_delete(front, sizeof front, name, 4, late(1004), lent.bytes, 6864).code, 3);
    two_files();
    NUMBER(goofs_delete(medium.bytes, IMAGE, name, 4, late(1004), lent.bytes, sizeof lent.bytes).length, 6864);
    NUMBER(goofs_carry_out(medium.bytes, IMAGE, lent.bytes, 7 * 528), 0);
    lend();
    v = goofs_recover_lent(FRONT, lent.bytes, 3168);
    NUMBER(v.code, 0);
    for (k = 0; k < 3; k++) { /* the copies, in the journal's order */
        goofs_recovering bad = v;

        NUMBER(v.wanted, 674 + k);
        NUMBER(v.length, 0);
        IS(goofs_recovering, goofs_recover_step(v, front, sizeof front, data, 512, lent_list.bytes, 3168), .code = 8,
           .wanted = 674 + k, .entry = v.entry, .full = v.full); /* a front without a journal */
        bad.wanted = 802;
        IS(goofs_recovering, goofs_recover_step(bad, medium.bytes, sizeof front, data, 512, lent_list.bytes, 3168), .code = 8,
           .wanted = 802, .entry = v.entry, .full = v.full);
        IS(goofs_recovering, goofs_recover_step(v, medium.bytes, sizeof front, data, 512, lent_list.bytes, 3167), .code = 8,
           .wanted = 674 + k, .entry = v.entry, .full = v.full);
        list_is(__LINE__, NULL, 0);
        v = goofs_recover_step(v, medium.bytes, sizeof front, supplied(v.wanted), 512, lent.bytes, 3168);
        NUMBER(v.code, 0);
    }
    NUMBER(v.wanted, 0);
    NUMBER(v.length, 3168);
    NUMBER(goofs_carry_out(medium.bytes, IMAGE, lent.bytes, 3168), 0);
    IS(goofs_check_result, goofs_check(medium.bytes, IMAGE), .code = 0);
    IS(goofs_find_result, goofs_find_lent(FRONT, name, 4), .code = 9);
}

/* A volume of which a change was cut anywhere behind its start mark: recovered on lent sectors as on the image. */
static void lent_recovery_after_cuts(void)
{
    static uint8_t whole[IMAGE];
    static struct buffer change;
    size_t records, landed;
    goofs_change_result answer;

    two_files();
    answer = goofs_rename(medium.bytes, IMAGE, (const uint8_t *)"gain", 4, (const uint8_t *)"beam", 4, late(1004), change.bytes,
                          sizeof change.bytes);
    records = (size_t)answer.length / 528; /* 4 targets: 9 records up to the start mark and its barrier */
    NUMBER(records, 15);
    memcpy(whole, medium.bytes, IMAGE);
    NUMBER(goofs_carry_out(whole, IMAGE, change.bytes, (size_t)answer.length), 0);
    for (landed = 0; landed <= records; landed++) {
        goofs_length_result of_image, of_lent;

        two_files();
        NUMBER(goofs_carry_out(medium.bytes, IMAGE, change.bytes, landed * 528), 0);
        lend();
        of_image = goofs_recover(medium.bytes, IMAGE, lent.bytes, sizeof lent.bytes);
        of_lent = recover_lent(lent_list.bytes, sizeof lent_list.bytes);
        result(__LINE__, "a recovery's answers", &of_lent, &of_image, sizeof of_image);
        bytes(__LINE__, "a recovery's lists", lent_list.bytes, lent.bytes, sizeof lent.bytes);
        NUMBER(of_image.code, 0);
        NUMBER(of_image.length, landed >= 7 && landed < 14 ? 7 * 528 : 0);
        if (landed < 7)
            continue;
        NUMBER(goofs_carry_out(medium.bytes, IMAGE, lent_list.bytes, (size_t)of_lent.length), 0);
        bytes(__LINE__, "the image after recovery", medium.bytes, whole, IMAGE);
    }
}

struct test {
    const char *name;
    void (*run)(void);
};

/* On each edition. */
static const struct test tests[] = {
    {"format position by position", format_position_by_position},
    {"geometries", geometries},
    {"first create", first_create},
    {"writes and reads", writes_and_reads},
    {"access times", access_times},
    {"longest write", longest_write},
    {"no free extent", no_free_extent},
    {"resizes", resizes},
    {"deletes", deletes},
    {"renames", renames},
    {"renames cut", renames_cut},
    {"rename sets", rename_sets},
    {"rename sets refused", rename_sets_refused},
    {"rename sets cut", rename_sets_cut},
    {"cut before the start mark", cut_before_the_start_mark},
    {"cut after the start mark", cut_after_the_start_mark},
    {"bad journals", bad_journals},
    {"states", states},
    {"images refused", images_refused},
    {"faults", faults},
    {"repaired", repaired},
    {"other writers", other_writers},
    {"no extent free", no_extent_free},
    {"names", names},
    {"new names", new_names},
    {"times of calls", times_of_calls},
    {"full directory", full_directory},
    {"longest recovery", longest_recovery},
    {"asked sectors", asked_sectors},
    {"lent and counted", lent_and_counted},
    {"states of steps", states_of_steps},
    {"lent recovery after cuts", lent_recovery_after_cuts},
};

/* These know no edition. */
static const struct test others[] = {
    {"sizes of results", sizes_of_results},
    {"macros", macros},
    {"longest lists by geometry", longest_by_geometry},
    {"editions refused", editions_refused},
    {"carrying out", carrying_out},
};

static unsigned long passed, failed;

static void count(const char *name)
{
    if (wrong == 0) {
        passed++;
    } else {
        failed++;
        printf("c interface: FAILED: %s (edition %" PRIu64 ")\n", name, volume.edition);
    }
    wrong = 0;
}

static void run(const struct test *table, size_t length)
{
    size_t k;

    for (k = 0; k < length; k++) {
        table[k].run();
        count(table[k].name);
    }
}

int main(void)
{
    make_data();
    run(others, sizeof others / sizeof *others);
    for (volume.edition = 1; volume.edition <= 2; volume.edition++) {
        run(tests, sizeof tests / sizeof *tests);
        if (longest_lists())
            count("longest lists");
        else
            printf("c interface: the longest lists were not tried, as 4 GiB of addresses could not be had\n");
        if (older_volume())
            count("older volume");
        else
            printf("c interface: an older volume was not tried, as 1 GiB of addresses could not be had\n");
        if (more_targets_than_room())
            count("more targets than room");
        else
            printf("c interface: more targets than room were not tried, as 1 GiB of addresses could not be had\n");
    }
    printf("%lu passed, %lu failed\n", passed, failed);
    return failed == 0 ? 0 : 1;
}
