/* How a box starts, as docs/EMBEDDING.md has it: memory of a fixed length for one geometry, recovery in slices under a watchdog, a check
 * that takes little stack, and a calibration set that is loaded whole or not at all. The part between the two lines of dashes is for a
 * box; what stands around it plays the box at a desk, with an image file for its card.
 *
 *     boot IMAGE    prints the set that was loaded, or for which number the last good one is kept
 *
 *     cc -std=c99 -Iinclude examples/boot.c target/staticlib/libgoofs.a -o boot
 */
#define _POSIX_C_SOURCE 200809L /* pread, pwrite, fdatasync */
#define _FILE_OFFSET_BITS 64

#include <fcntl.h>
#include <inttypes.h>
#include <stdio.h>
#include <stdlib.h>
#include <string.h>
#include <unistd.h>

#include "goofs.h"

/* What the box provides: a sector read, a sector write that lands whole or not at all, a barrier, a watchdog, a line to the log. Each of
 * the first three gives 0 if the card failed. */
int read_sector(uint64_t sector, uint8_t *contents);
int write_sector(uint64_t sector, const uint8_t *contents);
int barrier(void);
void feed_watchdog(void);
void log_line(const char *line);

/* ---------------------------------------------------------------- */
enum { FILES = 255, EXTENTS = 7, EXTENT_SECTORS = 128 }; /* of the card that this box takes */
enum { SECTORS = 34 + FILES + GOOFS_TABLE_SECTORS(EXTENTS) + EXTENTS * EXTENT_SECTORS };
enum { BUDGET = 8 };      /* sector writes between two feeds of the watchdog */
enum { CARD_FAILED = 99 }; /* beside the numbers 1 to 14 */
enum { PARTS = 3, PART_SIZE = 512 };

static const char *const names[PARTS] = {"temperature", "beam", "timing"};
static uint8_t image[SECTORS * GOOFS_SECTOR];
static uint8_t list[GOOFS_GREATER(GOOFS_SLICE_LIST(BUDGET), GOOFS_ACCESS_LIST)];
static uint32_t scratch[GOOFS_SCRATCH(FILES, EXTENTS)];
static uint8_t parts[PARTS][PART_SIZE];

/* Does a list on the card, record by record, and then on the image in memory. After a failure nothing more may be written. */
static uint64_t carry_out(uint64_t length)
{
    uint64_t at, sector;
    int i;

    for (at = 0; at < length; at += GOOFS_RECORD) {
        for (sector = 0, i = 0; i < 8; i++)
            sector = sector << 8 | list[at + GOOFS_NUMBER + (uint64_t)i];
        if (sector == GOOFS_BARRIER ? !barrier() : !write_sector(sector, list + at + GOOFS_CONTENTS))
            return CARD_FAILED;
    }
    return goofs_carry_out(image, sizeof image, list, (size_t)length);
}

/* Gives GOOFS_DONE with all parts of the set in `parts`. With any other number the box goes on with the last good set, from its own memory,
 * and says so; `check` then has the fault of a volume that is not sound. */
static uint64_t boot(goofs_check_result *check)
{
    goofs_summary_result summary;
    goofs_slice_result slice;
    uint64_t sector, code;
    int i;

    memset(check, 0, sizeof *check);
    log_line("\ngoofs start sum=24ade7f1\n");
    for (sector = 0; sector < SECTORS; sector++) { /* from the medium itself, not from a cache */
        feed_watchdog();
        if (!read_sector(sector, image + sector * GOOFS_SECTOR))
            return CARD_FAILED;
    }
    summary = goofs_summary(image, sizeof image);
    if (summary.code != GOOFS_DONE)
        return summary.code;
    if (summary.files != FILES || summary.extents != EXTENTS || summary.extent_sectors != EXTENT_SECTORS)
        return GOOFS_OUT_OF_BOUNDS; /* a card for another box: these buffers are not for it */
    do {
        feed_watchdog();
        slice = goofs_recover_slice(image, sizeof image, BUDGET, list, sizeof list);
        if (slice.code != GOOFS_DONE)
            return slice.code;
        if (slice.count != 0)
            log_line("goofs recover sum=615bcc41\n");
        code = carry_out(slice.length);
        if (code != GOOFS_DONE)
            return code; /* the next boot goes on where this one was */
    } while (slice.count != 0);
    feed_watchdog();
    *check = goofs_check_with(image, sizeof image, scratch, sizeof scratch / sizeof *scratch);
    if (check->code != GOOFS_DONE)
        return check->code;
    for (i = 0; i < PARTS; i++) {
        goofs_read_result part = goofs_read(image, sizeof image, (const uint8_t *)names[i], strlen(names[i]), 0, PART_SIZE, 0, parts[i],
                                            PART_SIZE, list, sizeof list); /* the list would set the access time; it is dropped */

        feed_watchdog();
        if (part.code != GOOFS_DONE)
            return part.code;
        if (part.count != PART_SIZE)
            return GOOFS_PAST_THE_END; /* not a file that this box saved */
    }
    return GOOFS_DONE;
}
/* ---------------------------------------------------------------- */

/* The box at a desk. The watchdog bites where more than BUDGET sectors are written between two feeds. */

static int card;
static int written;

int read_sector(uint64_t sector, uint8_t *contents)
{
    return pread(card, contents, GOOFS_SECTOR, (off_t)(sector * GOOFS_SECTOR)) == GOOFS_SECTOR;
}

int write_sector(uint64_t sector, const uint8_t *contents)
{
    if (written++ == BUDGET) {
        fputs("boot: the watchdog has bitten\n", stderr);
        exit(3);
    }
    return pwrite(card, contents, GOOFS_SECTOR, (off_t)(sector * GOOFS_SECTOR)) == GOOFS_SECTOR;
}

int barrier(void)
{
    return fdatasync(card) == 0;
}

void feed_watchdog(void)
{
    written = 0;
}

void log_line(const char *line)
{
    fputs(line, stderr);
}

int main(int argc, char **argv)
{
    goofs_check_result check;
    uint64_t code;
    int i;

    if (argc != 2) {
        fputs("usage: boot IMAGE\n", stderr);
        return 2;
    }
    card = open(argv[1], O_RDWR);
    if (card < 0) {
        perror(argv[1]);
        return 1;
    }
    code = boot(&check);
    if (code == GOOFS_DONE) {
        for (i = 0; i < PARTS; i++)
            printf("%s: %.*s\n", names[i], PART_SIZE, (const char *)parts[i]);
    } else {
        printf("the last good set is kept: %" PRIu64, code);
        if (code == GOOFS_NOT_SOUND)
            printf(", fault %" PRIu64 " at %" PRIu64, check.fault, check.place);
        printf("\n");
    }
    return close(card) == 0 ? 0 : 1;
}
