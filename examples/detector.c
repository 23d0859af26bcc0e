/* A detector's calibration on a GooFS card: how a C program uses libgoofs.a.
 *
 *     detector --format SECTORS IMAGE   makes the image file IMAGE with an empty volume
 *     detector IMAGE                    prints the calibration
 *     detector IMAGE TEXT               saves TEXT as the calibration, reads it back and prints it
 *     detector --set IMAGE              prints the calibration set, three files that belong together
 *     detector --set IMAGE TEMPERATURE BEAM TIMING
 *                                       saves these texts as the set, reads it back and prints it
 *     detector --boot IMAGE             finishes a change that was cut, a few sectors at a time, as a boot loader does
 *
 * With --log LOG as the first words it appends each call to the file LOG before the call's first write (docs/RELAY.md).
 *
 * Each other start first finishes a change that was cut, and removes what a save that was cut has left. The calls take some hundred KiB of
 * stack (include/goofs.h says how much); a thread with a small stack must be given more before it makes one.
 *
 *     cc -std=c99 -Iinclude examples/detector.c target/staticlib/libgoofs.a -o detector
 */
#define _POSIX_C_SOURCE 200809L /* pread, pwrite, fdatasync */
#define _FILE_OFFSET_BITS 64    /* an image may be longer than 2 GiB */

#include <errno.h>
#include <fcntl.h>
#include <inttypes.h>
#include <stdio.h>
#include <stdlib.h>
#include <string.h>
#include <sys/file.h>
#include <sys/types.h>
#include <time.h>
#include <unistd.h>

#include "goofs.h"

/* A calibration fills exactly one sector, padded with zeros, and never has another size. */
enum { CALIBRATION_SIZE = GOOFS_SECTOR };

/* A calibration is written beside the one that is there, under a name of its own, and takes the name with a rename when it is whole.
 * So after a cut anywhere the name stands for the old one or the new one, of any size. Written over the old one it would not: a
 * write's data sectors go to their places before the start mark. The command goofs has the same name for a file beside another. */
struct part {
    const char *name, *beside;
};
static const struct part calibration = {"calibration", "calibration.goofs-saving"};

/* Temperature table, beam pattern and timing belong to one transducer: a box that loads two of one and one of another counts fish wrong.
 * Each is written beside, and all take their names in one change, so that after a cut anywhere all three are the old ones or all three
 * the new ones. */
enum { PARTS = 3 };
static const struct part set[PARTS] = {
    {"temperature", "temperature.goofs-saving"},
    {"beam", "beam.goofs-saving"},
    {"timing", "timing.goofs-saving"},
};

/* Edition 2 stores times past the year 2106. A card of edition 1 is used as well, while its times last: the calls look at the
 * superblock. */
enum { FILES = 255, EDITION = 2, ROOT_ID = 1, MODE = 0644 };

/* Sectors that are written between two feeds of the watchdog. */
enum { SLICE = 2 };

/* The fourteen refusals, by their numbers. */
static const char *const refusals[] = {
    "done",
    "the image is empty or not whole sectors",
    "this is no GooFS volume, or one of another version",
    "the geometry is out of bounds, or the volume is longer than the image",
    "a format was cut: remove the image and format again",
    "a change was cut: recover first",
    "the volume is damaged, or its journal is",
    "the volume is not sound",
    "bad argument",
    "no such file",
    "the name or the id is taken",
    "no free directory entry",
    "the offset is greater than the size",
    "too few free extents",
    "the list or output buffer is too short",
};

/* One list at a time is asked for, so one place serves all of them, and it is as long as the longest. It is static, as half a
 * megabyte is much for a stack. It is no part of the image: the slices of one call must not overlap. */
static union {
    uint8_t access[GOOFS_ACCESS_LIST];
    uint8_t create[GOOFS_CREATE_LIST];
    uint8_t write[GOOFS_WRITE_LIST];
    uint8_t rename[GOOFS_RENAME_LIST];
    uint8_t rename_set[GOOFS_RENAME_SET_LIST];
    uint8_t removal[GOOFS_DELETE_LIST];
    uint8_t recover[GOOFS_RECOVER_LIST];
    uint8_t slice[GOOFS_SLICE_LIST(SLICE)];
} list;

/* The image file, and all its bytes in memory: the calls read the image there. The file is locked as long as it is open, as a list
 * fits only the image that it was asked for. */
struct card {
    int file;
    uint8_t *image;
    size_t length;
};

static void system_failure(const char *what)
{
    fprintf(stderr, "detector: %s: %s\n", what, strerror(errno));
    exit(1);
}

static void failure(const char *what)
{
    fprintf(stderr, "detector: %s\n", what);
    exit(1);
}

/* Goes on after GOOFS_DONE only. A refusal has changed nothing, so there is nothing to take back. */
static void done(const char *what, uint64_t code)
{
    if (code == GOOFS_DONE)
        return;
    fprintf(stderr, "detector: %s: refused (%" PRIu64 "): %s\n", what, code,
            code < sizeof refusals / sizeof *refusals ? refusals[code] : "unknown number");
    exit(1);
}

/* Waits until the medium has everything. The system may keep writes back and change their order, and what stands behind a barrier
 * relies on all before it: the start mark on the copies and the journal, the targets on the start mark, the end mark on the
 * targets. If it fails nothing more may be written; the next start sees to it. */
static void barrier(const struct card *card)
{
    if (fdatasync(card->file) != 0)
        system_failure("barrier");
}

static void write_sector(const struct card *card, uint64_t sector, const uint8_t *contents)
{
    size_t written = 0;

    while (written < GOOFS_SECTOR) {
        ssize_t count = pwrite(card->file, contents + written, GOOFS_SECTOR - written, (off_t)(sector * GOOFS_SECTOR + written));
        if (count > 0)
            written += (size_t)count;
        else if (count == 0 || errno != EINTR)
            system_failure("write");
    }
}

/* -------------------- the log of docs/RELAY.md: a line for each call, out before the call's first write */

static FILE *log_file; /* none without --log */
static uint32_t log_sum;

static void log_byte(char c)
{
    int bit;

    if (log_file == NULL)
        return;
    putc(c, log_file);
    log_sum ^= (uint8_t)c;
    for (bit = 0; bit < 8; bit++)
        log_sum = (log_sum >> 1) ^ (UINT32_C(0xedb88320) & (0 - (log_sum & 1)));
}

static void log_text(const char *text)
{
    while (*text != '\0')
        log_byte(*text++);
}

/* A number behind its key; a mode is octal. */
static void log_number(const char *key, uint64_t value, const char *format)
{
    char digits[32];

    (void)snprintf(digits, sizeof digits, format, value);
    log_text(key);
    log_text(digits);
}

/* Bytes behind their key, those of a name that need no escape as they are. */
static void log_bytes(const char *key, const uint8_t *bytes, size_t length, int is_name)
{
    size_t i;

    log_text(key);
    for (i = 0; i < length; i++) {
        if (is_name && bytes[i] > 32 && bytes[i] < 127 && bytes[i] != '%')
            log_byte((char)bytes[i]);
        else
            log_number("", bytes[i], is_name ? "%%%02" PRIx64 : "%02" PRIx64);
    }
}

static void log_begin(const char *call)
{
    log_sum = UINT32_MAX;
    log_text("goofs ");
    log_text(call);
}

/* The line is on its medium before the card is written to. */
static void log_end(void)
{
    uint32_t sum = ~log_sum;

    log_number(" sum=", sum, "%08" PRIx64);
    log_text("\n");
    if (log_file != NULL && (fflush(log_file) != 0 || fsync(fileno(log_file)) != 0))
        system_failure("log");
}

static void log_line(const char *call)
{
    log_begin(call);
    log_end();
}

/* -------------------- lists */

/* Does one record on the file: a sector's contents, or a barrier. */
static void land(const struct card *card, const uint8_t *record)
{
    uint64_t sector = 0;
    int i;

    for (i = 0; i < 8; i++)
        sector = sector << 8 | record[GOOFS_NUMBER + i];
    if (sector == GOOFS_BARRIER)
        barrier(card);
    else
        write_sector(card, sector, record + GOOFS_CONTENTS);
}

/* Does a list on the file, record by record, and then on the image in memory, so that the next call sees the change. */
static void carry_out(struct card *card, const uint8_t *records, uint64_t length)
{
    uint64_t at;

    for (at = 0; at < length; at += GOOFS_RECORD)
        land(card, records + at);
    done("carry out", goofs_carry_out(card->image, card->length, records, (size_t)length));
}

/* The same of a call, whose line is in the log. */
static void carry_out_call(struct card *card, const uint8_t *records, uint64_t length)
{
    carry_out(card, records, length);
    log_line("done");
}

/* Reads the whole image file. */
static void load(struct card *card)
{
    off_t length;
    size_t at = 0;

    length = lseek(card->file, 0, SEEK_END); /* a block device tells its length only so */
    if (length < 0)
        system_failure("length");
    if ((uintmax_t)length > SIZE_MAX)
        failure("the image is longer than the memory can be");
    free(card->image);
    card->length = (size_t)length;
    card->image = malloc(card->length != 0 ? card->length : 1);
    if (card->image == NULL)
        failure("no memory for the image");
    while (at < card->length) {
        ssize_t count = pread(card->file, card->image + at, card->length - at, (off_t)at);
        if (count > 0)
            at += (size_t)count;
        else if (count == 0)
            failure("the image became shorter");
        else if (errno != EINTR)
            system_failure("read");
    }
}

/* Locks the file as the command goofs does, so that neither meets a change that the other has under way. */
static void lock(const struct card *card)
{
    if (flock(card->file, LOCK_EX | LOCK_NB) == 0)
        return;
    if (errno == EWOULDBLOCK)
        failure("another program has the image open; try again when that has ended");
    system_failure("lock");
}

/* The entry of a new file reaches the medium with its folder. */
static void sync_folder(const char *path)
{
    const char *slash = strrchr(path, '/');
    size_t length = slash == NULL ? 0 : (size_t)(slash - path) + 1;
    char *folder = malloc(length + sizeof ".");
    int file;

    if (folder == NULL)
        failure("no memory");
    memcpy(folder, path, length);
    memcpy(folder + length, ".", sizeof ".");
    file = open(folder, O_RDONLY);
    if (file < 0 || fsync(file) != 0 || close(file) != 0)
        system_failure(folder);
    free(folder);
}

/* Makes the image file and lands the format's records. They are asked for one at a time, so a format needs no list. A cut leaves
 * a file that each start refuses, with 2 or 4. */
static void format(const char *path, uint64_t sectors)
{
    struct card card = {-1, NULL, 0};
    uint64_t now = (uint64_t)time(NULL);
    uint8_t record[GOOFS_RECORD];
    uint64_t position = 0;
    goofs_length_result answer;
    int error;

    /* The first record is asked for before the file is made, so that a refusal leaves no file behind. */
    answer = goofs_format_record(sectors, FILES, EDITION, ROOT_ID, MODE, now, position, record, sizeof record);
    done("format", answer.code);
    /* O_EXCL: a format over a file that is there would destroy what it holds. */
    card.file = open(path, O_RDWR | O_CREAT | O_EXCL, 0666);
    if (card.file < 0)
        system_failure(path);
    lock(&card);
    /* With its blocks from the start, the file can't meet a full disk in the middle of a change. */
    error = sectors > INT64_MAX / GOOFS_SECTOR ? EFBIG : posix_fallocate(card.file, 0, (off_t)(sectors * GOOFS_SECTOR));
    if (error != 0) {
        unlink(path);
        errno = error;
        system_failure(path);
    }
    log_begin("format");
    log_number(" sectors=", sectors, "%" PRIu64);
    log_number(" files=", FILES, "%" PRIu64);
    log_number(" edition=", EDITION, "%" PRIu64);
    log_number(" id=", ROOT_ID, "%" PRIu64);
    log_number(" mode=", MODE, "%" PRIo64);
    log_number(" time=", now, "%" PRIu64);
    log_end();
    while (answer.code == GOOFS_DONE) {
        land(&card, record);
        position++;
        answer = goofs_format_record(sectors, FILES, EDITION, ROOT_ID, MODE, now, position, record, sizeof record);
    }
    if (answer.code != GOOFS_NOT_THERE) /* past the last record, so all of them have landed */
        done("format", answer.code);
    log_line("done");
    sync_folder(path);
    if (close(card.file) != 0)
        system_failure(path);
}

/* A box feeds its watchdog here; at a desk there is none. */
static void feed_watchdog(void)
{
}

/* The boot loop of a box whose boot loader is reset if it writes for too long. If the power goes, or the box is reset, the volume still
 * waits, and the next boot goes on where this one was. A sector that reads as its copy is passed over, so what is read must be on the
 * medium: a boot loader reads the card itself. Where a system keeps writes in memory, as at a desk, it is to forget them; where one
 * need not, after a barrier that failed, goofs_recover writes every sector again (`start`). */
static void boot(struct card *card)
{
    goofs_slice_result slice;

    (void)posix_fadvise(card->file, 0, 0, POSIX_FADV_DONTNEED);
    load(card);
    do {
        feed_watchdog();
        slice = goofs_recover_slice(card->image, card->length, SLICE, list.slice, sizeof list.slice);
        done("recover", slice.code);
        if (slice.count != 0)
            log_line("recover");
        carry_out(card, list.slice, slice.length);
    } while (slice.count != 0);
}

/* A name as the calls take it, without the 0 at its end. */
static const uint8_t *bytes(const char *name)
{
    return (const uint8_t *)name;
}

/* Removes a file beside that a save did not come to rename. Gives GOOFS_NO_ROOM where it can't be removed. */
static uint64_t remove_beside(struct card *card, const struct part *part)
{
    uint64_t now = (uint64_t)time(NULL);
    goofs_change_result answer = goofs_delete(card->image, card->length, bytes(part->beside), strlen(part->beside), now, list.removal,
                                              sizeof list.removal);

    if (answer.code == GOOFS_NOT_THERE)
        return GOOFS_DONE;
    if (answer.code == GOOFS_NO_ROOM)
        return answer.code;
    done("delete", answer.code);
    log_begin("delete");
    log_bytes(" name=", bytes(part->beside), strlen(part->beside), 1);
    log_number(" time=", now, "%" PRIu64);
    log_end();
    carry_out_call(card, list.removal, answer.length);
    fputs("detector: removed what a save that was cut had left\n", stderr);
    return GOOFS_DONE;
}

/* What a detector does first when it is switched on: make sure of what it reads, finish a change that was cut, see whether the volume
 * is sound, and remove files beside that a save did not come to rename. Gives GOOFS_NO_ROOM where one can't be removed, as another
 * program has filled the card and no change can be made to it any more; what is on it can still be read. */
static uint64_t start(struct card *card)
{
    goofs_summary_result summary;
    goofs_check_result check;
    uint64_t code;
    int i;

    /* What the system shows may not be on the medium, if a barrier has failed or a program was ended. It is asked to forget that;
     * but it need not, so a mark is sent again before anything rests on it (see goofs.h). */
    (void)posix_fadvise(card->file, 0, 0, POSIX_FADV_DONTNEED);
    load(card);
    summary = goofs_summary(card->image, card->length);
    done("summary", summary.code);
    if (summary.state == GOOFS_STATE_CLEAN || summary.state == GOOFS_STATE_WAITING) {
        write_sector(card, 0, card->image);
        barrier(card);
    }
    if (summary.state == GOOFS_STATE_WAITING) {
        /* If the power goes here too, the volume still waits, and the next start asks again. */
        goofs_length_result answer = goofs_recover(card->image, card->length, list.recover, sizeof list.recover);
        done("recover", answer.code);
        log_line("recover");
        carry_out(card, list.recover, answer.length);
        fprintf(stderr, "detector: finished a change that was cut, of %" PRIu64 " sectors\n", summary.entries);
    }
    check = goofs_check(card->image, card->length);
    if (check.code == GOOFS_NOT_SOUND)
        fprintf(stderr, "detector: fault %" PRIu64 " at %s %" PRIu64 "\n", check.fault,
                check.fault == GOOFS_FAULT_TABLE ? "extent" : "file", check.place);
    done("check", check.code);
    code = remove_beside(card, &calibration);
    for (i = 0; i < PARTS && code == GOOFS_DONE; i++)
        code = remove_beside(card, &set[i]);
    return code;
}

/* A calibration's entry. Without one the code is GOOFS_NOT_THERE and the size, like all other numbers of a refusal, 0. */
static goofs_find_result find(const struct card *card, const struct part *part)
{
    goofs_find_result found = goofs_find(card->image, card->length, bytes(part->name), strlen(part->name));

    if (found.code != GOOFS_NOT_THERE)
        done("find", found.code);
    if (found.size != 0 && found.size != CALIBRATION_SIZE) {
        fprintf(stderr, "detector: the file '%s' has another size, so this program did not save it\n", part->name);
        exit(1);
    }
    return found;
}

/* Writes a calibration beside. It needs a free entry and a free extent beside the old one. If it is refused, that one stays as it is. */
static void save_beside(struct card *card, const struct part *part, const char *text, uint64_t now)
{
    uint8_t contents[CALIBRATION_SIZE] = {0};
    const uint8_t *beside = bytes(part->beside);
    size_t length = strlen(part->beside);
    goofs_change_result answer;
    uint64_t id = 0;

    if (strlen(text) > sizeof contents)
        failure("the text is too long");
    memcpy(contents, text, strlen(text));
    (void)find(card, part); /* a calibration of another program is not replaced */
    /* The start has removed any file beside, so here GOOFS_ALREADY_THERE means that the id is taken. Only the root and the files have
     * ids, and a refusal changes nothing: a free id is found after at most one attempt for each of them. */
    do {
        id++;
        answer = goofs_create(card->image, card->length, beside, length, id, MODE, now, list.create, sizeof list.create);
    } while (answer.code == GOOFS_ALREADY_THERE);
    done("create", answer.code);
    log_begin("create");
    log_bytes(" name=", beside, length, 1);
    log_number(" id=", id, "%" PRIu64);
    log_number(" mode=", MODE, "%" PRIo64);
    log_number(" time=", now, "%" PRIu64);
    log_end();
    carry_out_call(card, list.create, answer.length);
    answer = goofs_write(card->image, card->length, beside, length, 0, contents, sizeof contents, now, list.write, sizeof list.write);
    done("write", answer.code);
    log_begin("write");
    log_bytes(" name=", beside, length, 1);
    log_number(" offset=", 0, "%" PRIu64);
    log_number(" time=", now, "%" PRIu64);
    log_bytes(" data=", contents, sizeof contents, 0);
    log_end();
    carry_out_call(card, list.write, answer.length);
}

static void save(struct card *card, const char *text)
{
    uint64_t now = (uint64_t)time(NULL);
    const struct part *part = &calibration;
    goofs_change_result answer;

    save_beside(card, part, text, now);
    /* The swap, in one change: from its start mark on the name stands for the new calibration, and the old one is gone. */
    answer = goofs_rename(card->image, card->length, bytes(part->beside), strlen(part->beside), bytes(part->name), strlen(part->name), now,
                          list.rename, sizeof list.rename);
    done("rename", answer.code);
    log_begin("rename");
    log_bytes(" old=", bytes(part->beside), strlen(part->beside), 1);
    log_bytes(" new=", bytes(part->name), strlen(part->name), 1);
    log_number(" time=", now, "%" PRIu64);
    log_end();
    carry_out_call(card, list.rename, answer.length);
}

/* Until the last change the three old files and the three new ones are on the card. */
static void save_set(struct card *card, char *const texts[])
{
    uint64_t now = (uint64_t)time(NULL);
    uint8_t names[2 * PARTS * GOOFS_LONGEST_NAME];
    uint64_t lengths[2 * PARTS];
    size_t at = 0;
    goofs_change_result answer;
    int i;

    for (i = 0; i < 2 * PARTS; i++) {
        const struct part *part = &set[i / 2];
        const char *name = i % 2 == 0 ? part->beside : part->name;

        if (i % 2 == 0)
            save_beside(card, part, texts[i / 2], now);
        lengths[i] = strlen(name);
        memcpy(names + at, name, strlen(name));
        at += strlen(name);
    }
    /* The change-over: from its start mark on all three names stand for the new files, and the old ones are gone. */
    answer = goofs_rename_set(card->image, card->length, names, at, lengths, 2 * PARTS, now, list.rename_set, sizeof list.rename_set);
    if (answer.code == GOOFS_BAD_ARGUMENT || answer.code == GOOFS_NOT_THERE)
        fprintf(stderr, "detector: rename %" PRIu64 " of the set\n", answer.place);
    done("rename set", answer.code);
    log_begin("rename_set");
    for (i = 0; i < PARTS; i++) {
        log_bytes(" old=", bytes(set[i].beside), strlen(set[i].beside), 1);
        log_bytes(" new=", bytes(set[i].name), strlen(set[i].name), 1);
    }
    log_number(" time=", now, "%" PRIu64);
    log_end();
    carry_out_call(card, list.rename_set, answer.length);
}

static void print(const struct card *card, const struct part *part)
{
    uint8_t contents[CALIBRATION_SIZE];
    goofs_read_result answer;

    if (find(card, part).size == 0) {
        puts("no calibration");
        return;
    }
    /* The list would set the access time. It is not carried out: a start that only reads then wears the card as little as it can, and
     * any time will do. */
    answer = goofs_read(card->image, card->length, bytes(part->name), strlen(part->name), 0, sizeof contents, 0, contents, sizeof contents,
                        list.access, sizeof list.access);
    done("read", answer.code);
    printf("%.*s\n", (int)answer.count, (const char *)contents); /* ends at the padding, or at the sector's end */
}

/* All parts of the set, or that there is none: this program leaves no other card. */
static void print_set(const struct card *card)
{
    int present = 0;
    int i;

    for (i = 0; i < PARTS; i++)
        present += find(card, &set[i]).size != 0;
    if (present != 0 && present != PARTS)
        failure("a part of the set is missing, so this program did not save it");
    if (present == 0)
        puts("no calibration set");
    for (i = 0; i < PARTS && present != 0; i++) {
        printf("%s: ", set[i].name);
        print(card, &set[i]);
    }
}

int main(int argc, char **argv)
{
    struct card card = {-1, NULL, 0};
    const char *path;
    int is_boot, is_set, words;

    if (argc > 2 && strcmp(argv[1], "--log") == 0) {
        log_file = fopen(argv[2], "a");
        if (log_file == NULL)
            system_failure(argv[2]);
        argc -= 2;
        argv += 2;
    }
    if (argc == 4 && strcmp(argv[1], "--format") == 0) {
        char *end;
        unsigned long long sectors;

        errno = 0;
        sectors = strtoull(argv[2], &end, 10);
        if (errno != 0 || *end != '\0' || argv[2][0] < '0' || argv[2][0] > '9')
            failure("SECTORS is a number");
        format(argv[3], sectors);
        return 0;
    }
    is_boot = argc == 3 && strcmp(argv[1], "--boot") == 0;
    is_set = argc >= 3 && strcmp(argv[1], "--set") == 0;
    words = argc - (is_boot || is_set ? 3 : 2); /* behind IMAGE */
    if (argc < 2 || (argv[1][0] == '-' && !is_boot && !is_set) || (words != 0 && words != (is_set ? PARTS : 1))) {
        fputs("usage: detector --format SECTORS IMAGE\n       detector IMAGE [TEXT]\n"
              "       detector --set IMAGE [TEMPERATURE BEAM TIMING]\n       detector --boot IMAGE\n", stderr);
        return 2;
    }
    path = argv[argc - 1 - words];
    card.file = open(path, O_RDWR);
    if (card.file < 0)
        system_failure(path);
    lock(&card);
    log_text("\n"); /* ends a line that was cut off */
    log_line("start");
    if (is_boot) {
        boot(&card);
    } else {
        uint64_t code = start(&card);

        if (words != 0) {
            done("delete", code); /* a save needs the name beside */
            if (is_set)
                save_set(&card, argv + argc - PARTS);
            else
                save(&card, argv[argc - 1]);
            load(&card); /* so that what is printed is what stands in the file */
        }
        if (is_set)
            print_set(&card);
        else
            print(&card, &calibration);
    }
    free(card.image);
    if (close(card.file) != 0)
        system_failure(path);
    return 0;
}
