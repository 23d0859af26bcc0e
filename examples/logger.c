/* A data logger whose card does not fit in memory: how a C program uses the forms of libgoofs.a that are lent only the sectors before the data
 * area.
 *
 *     logger IMAGE          reads the log back and prints how many samples it has
 *     logger IMAGE COUNT    appends COUNT samples first
 *
 * In memory are the sectors before the data area, one list, a window of 4 KiB, a sector, and scratch for the check; no buffer grows with the
 * card's extents but by 4 bytes of the front and 4 of scratch for each. All other sectors are read and written on the card, one at a time. A
 * cut is recovered whole at the next start: recovery in slices, for a boot loader under a watchdog, has no form of this kind, so a box whose
 * watchdog bites while a recovery's list lands needs a card that fits in memory (examples/boot.c).
 *
 *     cc -std=c99 -Iinclude examples/logger.c target/staticlib/libgoofs.a -o logger
 */
#define _POSIX_C_SOURCE 200809L /* pread, pwrite, fdatasync, posix_fadvise */
#define _FILE_OFFSET_BITS 64    /* a card may be longer than 2 GiB */

#include <errno.h>
#include <fcntl.h>
#include <inttypes.h>
#include <stdio.h>
#include <stdlib.h>
#include <string.h>
#include <sys/file.h>
#include <sys/types.h>
#include <time.h>
#include <unistd.h>

#include "goofs.h"

/* The largest card that this box takes, by its files and extents; how long an extent is doesn't matter. */
enum { FILES = 255, EXTENTS = 4096 };
enum { WINDOW = 4096, SAMPLE = 20, BATCH = 100 }; /* bytes of the window, bytes of a sample, samples that one write appends */
enum { WRITE_LIST = GOOFS_RECORDS(BATCH * SAMPLE / GOOFS_SECTOR + 2, 2) * GOOFS_RECORD };

static uint8_t front[GOOFS_FRONT_SECTORS(FILES, EXTENTS) * GOOFS_SECTOR];
static uint64_t front_sectors; /* of this card's volume */
static uint64_t card_sectors;
static uint8_t sector[GOOFS_SECTOR];
static uint8_t window[WINDOW];
static uint32_t scratch[GOOFS_SCRATCH(FILES, EXTENTS)];
static union {
    uint8_t access[GOOFS_ACCESS_LIST];
    uint8_t create[GOOFS_CREATE_LIST];
    uint8_t write[WRITE_LIST];
    uint8_t recover[GOOFS_RECOVER_LIST_ON(FILES, EXTENTS)];
} list;

static const uint8_t name[] = {'s', 'a', 'm', 'p', 'l', 'e', 's'};

static int card; /* the device or image file */

static void system_failure(const char *what)
{
    fprintf(stderr, "logger: %s: %s\n", what, strerror(errno));
    exit(1);
}

/* Goes on after GOOFS_DONE only. A refusal has changed nothing, so there is nothing to take back. */
static void done(const char *what, uint64_t code)
{
    if (code == GOOFS_DONE)
        return;
    fprintf(stderr, "logger: %s: refused (%" PRIu64 ")\n", what, code);
    exit(1);
}

static void read_sector(uint64_t number, uint8_t *contents)
{
    if (pread(card, contents, GOOFS_SECTOR, (off_t)(number * GOOFS_SECTOR)) != GOOFS_SECTOR)
        system_failure("read");
}

static void write_sector(uint64_t number, const uint8_t *contents)
{
    if (pwrite(card, contents, GOOFS_SECTOR, (off_t)(number * GOOFS_SECTOR)) != GOOFS_SECTOR)
        system_failure("write");
}

/* Returns when all writes before it are on the medium. After a failure nothing more may be written. */
static void barrier(void)
{
    if (fdatasync(card) != 0)
        system_failure("barrier");
}

static size_t front_length(void)
{
    return (size_t)front_sectors * GOOFS_SECTOR;
}

/* Does a list on the card, record by record, and keeps the front as the card's: the next call is lent it. */
static void carry_out(const uint8_t *records, uint64_t length)
{
    uint64_t at, number;
    int i;

    for (at = 0; at < length; at += GOOFS_RECORD) {
        for (number = 0, i = 0; i < 8; i++)
            number = number << 8 | records[at + GOOFS_NUMBER + (uint64_t)i];
        if (number == GOOFS_BARRIER) {
            barrier();
            continue;
        }
        write_sector(number, records + at + GOOFS_CONTENTS);
        if (number < front_sectors)
            memcpy(front + number * GOOFS_SECTOR, records + at + GOOFS_CONTENTS, GOOFS_SECTOR);
    }
}

/* Reads the superblock, and by its geometry all sectors before the data area. What the geometry is worth the summary tells: here it only
 * says how much is read, and a card that is larger than the buffers are for is refused. */
static goofs_summary_result read_front(void)
{
    uint64_t files, extents, number;

    (void)posix_fadvise(card, 0, 0, POSIX_FADV_DONTNEED); /* see goofs.h on what a system shows after a failed barrier */
    read_sector(0, front);
    files = (uint64_t)front[0] << 8 | front[1];
    extents = (uint64_t)front[2] << 8 | front[3];
    front_sectors = GOOFS_FRONT_SECTORS(files, extents);
    if (files > FILES || extents > EXTENTS)
        front_sectors = 1; /* refused 3 below, or 2 if this is no volume at all */
    for (number = 1; number < front_sectors && number < card_sectors; number++)
        read_sector(number, front + number * GOOFS_SECTOR);
    return goofs_summary_lent(front, front_length(), card_sectors);
}

/* Finishes a change that was cut. The copies are asked for one after the other, and the list is whole with the last of them. If the power goes
 * while it lands, the volume still waits, and the next start asks again. */
static void recover(void)
{
    goofs_recovering r = goofs_recover_lent(front, front_length(), card_sectors, list.recover, sizeof list.recover);

    while (r.code == GOOFS_DONE && r.wanted != 0) {
        read_sector(r.wanted, sector);
        r = goofs_recover_step(r, front, front_length(), sector, sizeof sector, list.recover, sizeof list.recover);
    }
    done("recover", r.code);
    if (r.length != 0)
        fprintf(stderr, "logger: finished a change that was cut, of %" PRIu64 " sectors\n", r.length / GOOFS_RECORD - 3);
    carry_out(list.recover, r.length);
}

static void boot(void)
{
    goofs_summary_result summary = read_front();
    goofs_check_result check;

    done("summary", summary.code);
    if (summary.state == GOOFS_STATE_CLEAN || summary.state == GOOFS_STATE_WAITING) {
        write_sector(0, front); /* so that no list rests on a mark that is not on the medium (goofs.h) */
        barrier();
    }
    recover();
    check = goofs_check_with_lent(front, front_length(), card_sectors, scratch, sizeof scratch / sizeof *scratch);
    if (check.code == GOOFS_NOT_SOUND)
        fprintf(stderr, "logger: fault %" PRIu64 " at %" PRIu64 "\n", check.fault, check.place);
    done("check", check.code);
}

/* Sample k as text: its number, and what stands for a measured value. */
static void make_sample(uint64_t k, uint8_t *to)
{
    char text[SAMPLE + 1];

    (void)snprintf(text, sizeof text, "%012" PRIu64 " %06" PRIu64 "\n", k % UINT64_C(1000000000000), k * 7919 % 1000000);
    memcpy(to, text, SAMPLE);
}

/* The size of the log in bytes; without a log it is made. An id is free if create doesn't say that it is taken. */
static uint64_t open_log(void)
{
    goofs_find_result found = goofs_find_lent(front, front_length(), card_sectors, name, sizeof name);
    goofs_change_result made;
    uint64_t id = 1;

    if (found.code != GOOFS_NOT_THERE) {
        done("find", found.code);
        return found.size;
    }
    do {
        made = goofs_create_lent(front, front_length(), card_sectors, name, sizeof name, id++, 0644, (uint64_t)time(NULL), list.create,
                                 sizeof list.create);
    } while (made.code == GOOFS_ALREADY_THERE);
    done("create", made.code);
    carry_out(list.create, made.length);
    return 0;
}

/* ---------------------------------------------------------------- */
/* Appends data at the end of the log. The sectors that it covers only in part are asked for: here the one in which the log ends, and the one
 * in which it will end. */
static void append(uint64_t size, const uint8_t *data, size_t length)
{
    goofs_writing w = goofs_write_lent(front, front_length(), card_sectors, name, sizeof name, size, data, length, (uint64_t)time(NULL),
                                       list.write, sizeof list.write);

    while (w.code == GOOFS_DONE && w.wanted.sector != 0) {
        read_sector(w.wanted.sector, sector);
        w = goofs_write_step(w, sector, sizeof sector, list.write, sizeof list.write);
    }
    done("write", w.code);
    carry_out(list.write, w.length);
}

/* Reads up to a window of the log from an offset on; gives the number of bytes. The list would set the access time; it is dropped. */
static size_t read_window(uint64_t offset)
{
    goofs_reading r = goofs_read_lent(front, front_length(), card_sectors, name, sizeof name, offset, sizeof window, 0, sizeof window,
                                      list.access, sizeof list.access);

    while (r.code == GOOFS_DONE && r.wanted != 0) {
        read_sector(r.wanted, sector);
        r = goofs_read_step(r, sector, sizeof sector, window, sizeof window);
    }
    done("read", r.code);
    return (size_t)r.count;
}
/* ---------------------------------------------------------------- */

static void append_samples(uint64_t size, uint64_t count)
{
    static uint8_t batch[BATCH * SAMPLE];
    uint64_t first = size / SAMPLE, k;

    if (count > 0 && size % SAMPLE != 0)
        done("append", GOOFS_PAST_THE_END); /* not a log of this program */
    while (count > 0) {
        uint64_t of_batch = count < BATCH ? count : BATCH;

        for (k = 0; k < of_batch; k++)
            make_sample(first + k, batch + k * SAMPLE);
        append(first * SAMPLE, batch, (size_t)of_batch * SAMPLE);
        first += of_batch;
        count -= of_batch;
    }
}

/* The whole log through the window. Samples that stand over the window's edge are compared byte by byte as the others. */
static void read_back(void)
{
    uint8_t sample[SAMPLE];
    uint64_t at = 0;
    size_t count, i;

    while ((count = read_window(at)) != 0) {
        for (i = 0; i < count; i++, at++) {
            if (i == 0 || at % SAMPLE == 0)
                make_sample(at / SAMPLE, sample);
            if (window[i] != sample[at % SAMPLE]) {
                printf("sample %" PRIu64 " is another one\n", at / SAMPLE);
                return;
            }
        }
    }
    printf("%" PRIu64 " samples\n", at / SAMPLE);
}

int main(int argc, char **argv)
{
    uint64_t count = 0;
    off_t length;

    if (argc == 3) {
        char *end;

        errno = 0;
        count = strtoull(argv[2], &end, 10);
        if (errno != 0 || *end != '\0' || argv[2][0] < '0' || argv[2][0] > '9')
            argc = 0;
    }
    if (argc != 2 && argc != 3) {
        fputs("usage: logger IMAGE [COUNT]\n", stderr);
        return 2;
    }
    card = open(argv[1], O_RDWR);
    if (card < 0)
        system_failure(argv[1]);
    if (flock(card, LOCK_EX | LOCK_NB) != 0)
        system_failure("lock");
    length = lseek(card, 0, SEEK_END); /* a block device tells its length only so */
    if (length < 0)
        system_failure("length");
    card_sectors = (uint64_t)length / GOOFS_SECTOR;
    if (card_sectors == 0)
        done("summary", GOOFS_NOT_WHOLE_SECTORS);
    boot();
    append_samples(open_log(), count);
    read_back();
    return close(card) == 0 ? 0 : 1;
}
