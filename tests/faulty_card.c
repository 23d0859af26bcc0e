/* A card that fails, between a program and an image file: built as a shared object and put before the C library with LD_PRELOAD.
 *
 * The file $CARD is what the system shows, the file $MEDIUM what is on the medium. A write goes to the first; a barrier brings it
 * to the second. With $AT, that write or barrier, counted from 0, does what $FAULT says:
 *
 *     lost     fails, and what has not passed a barrier never gets to the medium, though it is shown and later barriers succeed
 *     landed   fails, and all of it gets there
 *     cut      the power goes, and every second sector of it gets there; the file $CARD is then what is on the medium
 *     signal   Ctrl-C is pressed, and it goes on
 *
 * With UNREADABLE a sector of it can't be read, with SLOW reads are slow. With FORGETS=1 the system forgets what it shows when it is asked to (posix_fadvise). Sectors that have not passed a barrier when
 * the program ends are lost. */
#define _GNU_SOURCE
#include <dlfcn.h>
#include <errno.h>
#include <fcntl.h>
#include <signal.h>
#include <stdint.h>
#include <stdio.h>
#include <stdlib.h>
#include <string.h>
#include <sys/stat.h>
#include <unistd.h>

enum { SECTOR = 512, MOST = 1 << 16 };

static unsigned char unwritten[MOST];
static long steps;

static void must(int holds, const char *what)
{
    if (!holds) {
        fprintf(stderr, "faulty card: %s: %s\n", what, strerror(errno));
        _exit(99);
    }
}

static int is_card(int file)
{
    struct stat one, other;
    const char *card = getenv("CARD");

    if (card == NULL || stat(card, &other) != 0 || fstat(file, &one) != 0)
        return 0;
    return one.st_dev == other.st_dev && one.st_ino == other.st_ino;
}

static ssize_t real_pwrite(int file, const void *bytes, size_t count, off64_t at)
{
    static ssize_t (*real)(int, const void *, size_t, off64_t);

    if (real == NULL)
        *(void **)&real = dlsym(RTLD_NEXT, "pwrite64");
    return real(file, bytes, count, at);
}

/* A shell starts what it runs in the background with Ctrl-C ignored, and the command would leave it so. */
__attribute__((constructor)) static void heed_the_signal(void)
{
    signal(SIGINT, SIG_DFL);
}

/* Copies the sectors that have passed no barrier, or all others, from one file to the other. */
static void copy(const char *from, const char *to, int those, int every)
{
    unsigned char sector[SECTOR];
    int source = open(from, O_RDONLY), target = open(to, O_WRONLY);
    long i, seen = 0;

    must(source >= 0 && target >= 0, "the files");
    for (i = 0; i < MOST && pread(source, sector, SECTOR, (off_t)i * SECTOR) == SECTOR; i++)
        if (unwritten[i] == those && seen++ % every == 0)
            must(real_pwrite(target, sector, SECTOR, (off64_t)i * SECTOR) == SECTOR, "copying");
    close(source);
    close(target);
}

/* Whether this write or barrier fails. */
static int fails(void)
{
    const char *at = getenv("AT"), *fault = getenv("FAULT");

    if (at == NULL || steps++ != atol(at))
        return 0;
    must(fault != NULL, "FAULT is missing");
    if (strcmp(fault, "signal") == 0) {
        must(kill(getpid(), SIGINT) == 0, "the signal");
        return 0;
    }
    if (strcmp(fault, "lost") != 0)
        copy(getenv("CARD"), getenv("MEDIUM"), 1, strcmp(fault, "cut") == 0 ? 2 : 1);
    memset(unwritten, 0, sizeof unwritten);
    if (strcmp(fault, "cut") == 0) {
        copy(getenv("MEDIUM"), getenv("CARD"), 0, 1);
        _exit(9);
    }
    errno = EIO;
    return 1;
}

ssize_t pwrite64(int file, const void *bytes, size_t count, off64_t at)
{
    size_t i;

    if (!is_card(file))
        return real_pwrite(file, bytes, count, at);
    if (fails())
        return -1;
    must(at % SECTOR == 0 && count % SECTOR == 0 && at / SECTOR + (long)count / SECTOR <= MOST, "a write of whole sectors");
    for (i = 0; i < count / SECTOR; i++)
        unwritten[(size_t)at / SECTOR + i] = 1;
    return real_pwrite(file, bytes, count, at);
}

/* A read of the card's sector $UNREADABLE fails. Each read of the card takes $SLOW milliseconds. */
ssize_t pread64(int file, void *bytes, size_t count, off64_t at)
{
    static ssize_t (*real)(int, void *, size_t, off64_t);
    const char *unreadable = getenv("UNREADABLE");

    if (real == NULL)
        *(void **)&real = dlsym(RTLD_NEXT, "pread64");
    if (getenv("SLOW") != NULL && is_card(file))
        usleep((useconds_t)atol(getenv("SLOW")) * 1000);
    if (unreadable != NULL && is_card(file)) {
        off64_t start = (off64_t)atol(unreadable) * SECTOR;
        if (at < start + SECTOR && start < at + (off64_t)count) {
            errno = EIO;
            return -1;
        }
    }
    return real(file, bytes, count, at);
}

/* Tells in the file $SYNCED that a folder was synced. */
int fsync(int file)
{
    static int (*real)(int);
    struct stat about;
    const char *synced = getenv("SYNCED");

    if (real == NULL)
        *(void **)&real = dlsym(RTLD_NEXT, "fsync");
    if (synced != NULL && fstat(file, &about) == 0 && S_ISDIR(about.st_mode)) {
        FILE *told = fopen(synced, "a");
        must(told != NULL && fprintf(told, "%ju\n", (uintmax_t)about.st_ino) > 0 && fclose(told) == 0, synced);
    }
    return real(file);
}

int fdatasync(int file)
{
    if (!is_card(file))
        return fsync(file);
    if (fails())
        return -1;
    copy(getenv("CARD"), getenv("MEDIUM"), 1, 1);
    memset(unwritten, 0, sizeof unwritten);
    return 0;
}

static int advised(int file, int advice)
{
    const char *forgets = getenv("FORGETS");

    if (is_card(file) && advice == POSIX_FADV_DONTNEED && forgets != NULL && *forgets == '1')
        copy(getenv("MEDIUM"), getenv("CARD"), 0, 1);
    return 0;
}

int posix_fadvise(int file, off_t at, off_t count, int advice)
{
    (void)at, (void)count;
    return advised(file, advice);
}

int posix_fadvise64(int file, off64_t at, off64_t count, int advice)
{
    (void)at, (void)count;
    return advised(file, advice);
}
