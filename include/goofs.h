/* The detector's flat volume (GooFS): the C interface of libgoofs.a, which `packaging/build-library goofs` builds from the proved code.
 *
 * A slice passes as pointer then length; the pointer may be null where the length is 0. Slices of one call must not overlap.
 * No call keeps a pointer, takes memory or touches anything but the slices that it is lent. Every call ends with an answer, on
 * any bytes and any arguments. The stack that a call takes depends on the volume's files and extents alone, as its arrays have a few sizes;
 * measured in bytes, of the library as rattle-kit-13f compiles it, on x86-64 (`bench stack`, bench/README.md):
 *
 *     files up to                          1,024    1,024    1,024    65,535
 *     extents up to                        1,024    4,096   65,535    65,535
 *
 *     check                                6,624    6,624   68,064   262,728
 *     find, list, read, create, write      6,864    6,864   68,304   262,968
 *     resize, delete, rename              13,680   13,680   68,240   262,904
 *     rename_set                           8,824    8,824   68,240   262,904
 *     repair                              15,848   51,688  338,408   338,408
 *     recover                              1,480    1,480    1,480     1,480
 *     the same of another writer's journal 5,800    5,800    5,800   133,864
 *     recover_slice                        1,416    1,416    1,416     1,416
 *     check_with                             456      456      456       456
 *     format_record                        1,176    1,176    1,176     1,176
 *     summary, carry_out, longest_list       152      152      152       152
 *
 * Another writer's journal is one whose targets don't rise; no change of these calls leaves one. A form on lent sectors, with its
 * steps, took at most 496 bytes more than its call.
 *
 * `code` is a number of `enum goofs_code`; the lowest whose condition holds is given (but see goofs_rename_set). With any code but 0 all
 * other result numbers are 0 (except fault and place with 7, and place with 8 and 9 of goofs_rename_set) and no byte of a buffer has
 * changed.
 *
 * A changing call reads the image and fills a write list with records of GOOFS_RECORD bytes: the record's position in the list, from
 * 0 on (8), a sector number (8), contents (512); numbers are big-endian. Number 2^64 - 1 with 512 zero bytes is a barrier: nothing
 * behind it may reach the medium before all that stands before it has. Between two barriers the order is free, and sectors that follow
 * one another may go out in one write. `length` is the list's length in bytes; 0 means that nothing is to be written. Bytes past it
 * stay.
 *
 * Positions tell a record that was dropped, doubled or swapped on the way to the medium: goofs_carry_out refuses such a list before it
 * writes anything, and so should a writer of its own. They don't tell that records at the end were dropped, as the rest is numbered 0,
 * 1, 2 and so on: compare what arrived with `length`.
 *
 * A list belongs to the image that it was asked for: it lands whole before the next call, which is given the image with it
 * (goofs_carry_out does that to an image in memory). Its first write of the superblock is the start mark: a change that is cut
 * before it is not done, one that is cut after it is finished by recovery.
 *
 * goofs_read and goofs_list give, besides what is asked for, such a list of GOOFS_ACCESS_LIST bytes, or of none on a frozen volume (see
 * below): carried out, it sets the file's or the root's access time, and nothing else. A place for it must be lent, but a program need not
 * carry it out: one that leaves access times alone, or has the card open for reading only, drops it, and the next call is given the image
 * as it was. Such a program may pass any time that the edition stores, as 0. One that carries it out holds the lock of a program that
 * changes the volume. What the call gave in its output stays true if the list is cut: the time is then set exactly if the start mark
 * landed.
 *
 * If a write or barrier fails, write nothing more, and start over. What a system that holds writes back shows then need not be on
 * the medium, and may never get there: on Linux a failed fdatasync leaves pages marked as written, and the next one succeeds
 * without them. The same goes for a program that was ended in the middle of a list. So at each start, before the first list:
 *
 *    - let the system forget what it keeps of the medium, where it can (posix_fadvise with POSIX_FADV_DONTNEED), and read the
 *      image;
 *    - if its state is clean or waiting, write sector 0 again as it was read, and complete a barrier: no list may rest on a mark that
 *      is not on the medium. (Leave an unfinished or damaged volume alone.)
 *
 * Programs that share a volume agree on a lock: who changes it holds flock(2) with LOCK_EX on the image file or device, from before
 * the image is read until the last list has landed; who only reads it holds LOCK_SH. The command goofs and examples/detector.c do
 * so. A program without it would finish, or build on, a change that another has under way, and the volume would be lost.
 *
 * A change needs room for its copies: at least K extents of a volume must stay free, anywhere, K = (T + 3) / S rounded up, with T =
 * (extents + 127) / 128 sectors of the allocation table and S sectors in an extent (GOOFS_RESERVE). The copies go to the K highest extents
 * that are free before the call, and a file gets the lowest free one as long as K others stay free; so on a volume that only these
 * calls have filled the copies stand in the last K extents, and files hold at most extents - K. Volumes of other writers may have a file
 * in any extent, and fewer than K free. Such a volume is sound and frozen: goofs_check gives 0, find, read and list answer, with an
 * empty write list, so that access times stay; and every call that has something to change gives 13, goofs_delete and a goofs_resize
 * that shrinks too, as what a call frees doesn't count before it is done. Copy its files to another, larger volume.
 *
 * A volume is of one of two editions, which the summary tells. In edition 1 the two times of an entry and of the root have 4 bytes, in
 * edition 2 they have 8, and so a name of edition 2 has at most 468 bytes instead of 476. All else is the same, and every call takes
 * both. Times have 64 bits in every call and result; on edition 1 a time above 4,294,967,295 (in seconds since 1970, the year 2106)
 * gets 8 from every call that takes one, also where it would store none (a write of no data, the same size, the same name twice) and
 * where the list is not carried out. The format chooses the edition, and no call turns one into the other. A build of before edition 2
 * refuses such a volume with 2.
 *
 * For a card that does not fit in memory, the calls whose names end in _lent, at the end of this file, are lent only the sectors before
 * the data area.
 *
 * A name is its bytes, without a 0 at the end. examples/detector.c is a whole program, examples/logger.c one for such a card.
 */
#ifndef GOOFS_H
#define GOOFS_H

#include <stddef.h>
#include <stdint.h>

#ifdef __cplusplus
extern "C" {
#endif

/* The version of this interface, 0.1.0: 10,000 for each major, 100 for each minor, 1 for each patch number. */
#define GOOFS_VERSION 100

#define GOOFS_SECTOR 512
#define GOOFS_POSITION 0  /* where in a record its position stands, */
#define GOOFS_NUMBER 8    /* its sector number, */
#define GOOFS_CONTENTS 16 /* and its contents */
#define GOOFS_RECORD (GOOFS_CONTENTS + GOOFS_SECTOR)
#define GOOFS_LONGEST_NAME 476         /* of either edition */
#define GOOFS_LONGEST_NAME_2 468       /* of edition 2 */
#define GOOFS_LATEST_TIME_1 UINT32_MAX /* of edition 1 */
#define GOOFS_LONGEST_TRANSFER 65536
#define GOOFS_MOST_RENAMES 8 /* in one change */
#define GOOFS_BARRIER UINT64_MAX

/* The records of a change with so many data sectors and targets: the data, a copy of each target, the journal (32 entries in a
 * sector), the targets, two marks and four barriers; and those of a recovery: the targets, a mark and two barriers. */
#define GOOFS_RECORDS(data, targets) ((data) + 2 * (targets) + ((targets) + 31) / 32 + 2 + 4)
#define GOOFS_RECOVERY_RECORDS(targets) ((targets) + 1 + 2)

/* The sectors of the allocation table of a volume with so many extents, and the extents that must stay free of one with so many extents
 * of so many sectors. */
#define GOOFS_TABLE_SECTORS(extents) (((extents) + 127) / 128)
#define GOOFS_RESERVE(extents, extent_sectors) ((GOOFS_TABLE_SECTORS(extents) + 3 + (extent_sectors) - 1) / (extent_sectors))

/* The sectors before the data area: superblock, root, directory, journal, allocation table. */
#define GOOFS_FRONT_SECTORS(files, extents) (34 + (files) + GOOFS_TABLE_SECTORS(extents))

/* The longest list that each call can give, in bytes, by the volume's geometry, for buffers of a fixed length; goofs_longest_list gives the
 * same numbers while the program runs. Targets are the root, the entry, that of a file which a rename replaces, and sectors of the
 * allocation table; a set of renames has two entries for each, but no more targets than the reserve has sectors; a write touches at most
 * 129 data sectors and one of the table, and a resize that grows is one; a journal has at most 1,024 entries, each with a target of its
 * own in root, directory or table. */
#define GOOFS_LESSER(a, b) ((a) < (b) ? (a) : (b))
#define GOOFS_GREATER(a, b) ((a) < (b) ? (b) : (a))
#define GOOFS_CHANGE_LIST(targets) (GOOFS_RECORDS(0, targets) * GOOFS_RECORD)
#define GOOFS_ACCESS_LIST GOOFS_CHANGE_LIST(1) /* of goofs_read and goofs_list: this long or empty */
#define GOOFS_CREATE_LIST GOOFS_CHANGE_LIST(2)
#define GOOFS_WRITE_LIST (GOOFS_RECORDS(129, 2) * GOOFS_RECORD)
#define GOOFS_DELETE_LIST_ON(extents) GOOFS_CHANGE_LIST(2 + GOOFS_TABLE_SECTORS(extents))
#define GOOFS_RENAME_LIST_ON(extents) GOOFS_CHANGE_LIST(3 + GOOFS_TABLE_SECTORS(extents))
#define GOOFS_RENAME_SET_LIST_ON(extents, extent_sectors) \
    GOOFS_CHANGE_LIST(GOOFS_LESSER(1 + 2 * GOOFS_MOST_RENAMES + GOOFS_TABLE_SECTORS(extents), \
                                   GOOFS_RESERVE(extents, extent_sectors) * (extent_sectors)))
#define GOOFS_RESIZE_LIST_ON(extents) GOOFS_GREATER(GOOFS_CHANGE_LIST(1 + GOOFS_TABLE_SECTORS(extents)), GOOFS_WRITE_LIST)
#define GOOFS_REPAIR_LIST_ON(extents) GOOFS_CHANGE_LIST(GOOFS_TABLE_SECTORS(extents))
#define GOOFS_JOURNAL_TARGETS(files, extents) GOOFS_LESSER(1024, 1 + (files) + GOOFS_TABLE_SECTORS(extents))
#define GOOFS_RECOVER_LIST_ON(files, extents) (GOOFS_RECOVERY_RECORDS(GOOFS_JOURNAL_TARGETS(files, extents)) * GOOFS_RECORD)
#define GOOFS_SLICE_LIST(budget) (((budget) + 1) * GOOFS_RECORD) /* of a slice: by its budget alone */

/* The same on any volume: with 65,535 extents, 512 sectors of the table. */
#define GOOFS_DELETE_LIST GOOFS_DELETE_LIST_ON(65535)
#define GOOFS_RENAME_LIST GOOFS_RENAME_LIST_ON(65535)
#define GOOFS_RENAME_SET_LIST GOOFS_RENAME_SET_LIST_ON(65535, 128)
#define GOOFS_RESIZE_LIST GOOFS_RESIZE_LIST_ON(65535)
#define GOOFS_REPAIR_LIST GOOFS_REPAIR_LIST_ON(65535)
#define GOOFS_RECOVER_LIST GOOFS_RECOVER_LIST_ON(65535, 65535)

/* The numbers of scratch that goofs_check_with needs. */
#define GOOFS_SCRATCH(files, extents) (4 * (files) + (extents))

enum goofs_code {
    GOOFS_DONE = 0,
    GOOFS_NOT_WHOLE_SECTORS = 1, /* image empty or not whole sectors of 512 bytes */
    GOOFS_NOT_A_VOLUME = 2,      /* magic wrong, or a version other than 1 and 2 */
    GOOFS_OUT_OF_BOUNDS = 3,     /* files, extents or sectors per extent out of bounds, or volume longer than image */
    GOOFS_UNFINISHED = 4,        /* a format was cut; format again */
    GOOFS_WAITING = 5,           /* a change was cut; recover first */
    GOOFS_DAMAGED = 6,           /* volume damaged, or in recovery a bad journal entry */
    GOOFS_NOT_SOUND = 7,         /* `fault` and `place` (a file index, for GOOFS_FAULT_TABLE an extent) go with it */
    GOOFS_BAD_ARGUMENT = 8,      /* a name that isn't 1 to 476 bytes without 0, on edition 2 1 to 468; a name to create or to rename
                                  * to that has a byte other than 33 to 126, or a slash; on edition 1 a time above 4,294,967,295;
                                  * create with id 0; a read or write of more than 65,536 bytes; a resize that grows by more than
                                  * that; a list index past the directory; a format without a geometry or of another edition; a
                                  * bad record; a slice with budget 0; a set of no renames or of more than eight, or with lengths
                                  * that don't fit its names. Of a set `place` is the rename with the bad name */
    GOOFS_NOT_THERE = 9,         /* no such name, listed entry is free, or format position past the last record; of a set `place` is
                                  * the rename whose old name is not there when its turn comes */
    GOOFS_ALREADY_THERE = 10,    /* create: name already there, or id an occupied entry's or the root's */
    GOOFS_DIRECTORY_FULL = 11,   /* create: no free entry */
    GOOFS_PAST_THE_END = 12,     /* offset greater than size */
    GOOFS_NO_ROOM = 13,          /* one more extent is needed and fewer than K + 1 are free; or something is to be changed and fewer
                                  * than K are free: the volume is frozen; or a set of renames changes more sectors than K extents
                                  * have */
    GOOFS_BUFFER_TOO_SHORT = 14  /* list or output too short for the answer, in read and list either of them, or scratch for the
                                  * check */
};

enum goofs_fault {
    GOOFS_FAULT_MARK = 21,         /* an entry is marked neither free nor occupied */
    GOOFS_FAULT_NAME_OR_SIZE = 22, /* its name is bad, or its size exceeds that of all extents together */
    GOOFS_FAULT_SAME_NAME = 23,    /* it has the name of an earlier one */
    GOOFS_FAULT_ID = 24,           /* its id is 0, the root's or that of an earlier one */
    GOOFS_FAULT_TABLE = 25,        /* an extent is given to no file that is there */
    GOOFS_FAULT_EXTENTS = 26       /* a file has too few, too many or doubled extents */
};

/* The calls that give a list, for goofs_longest_list. */
enum goofs_call {
    GOOFS_CALL_ACCESS = 1, /* goofs_list and goofs_read */
    GOOFS_CALL_CREATE = 2,
    GOOFS_CALL_DELETE = 3,
    GOOFS_CALL_RENAME = 4,
    GOOFS_CALL_RENAME_SET = 5,
    GOOFS_CALL_RESIZE = 6,
    GOOFS_CALL_WRITE = 7,
    GOOFS_CALL_REPAIR = 8,
    GOOFS_CALL_RECOVER = 9,
    GOOFS_CALL_RECOVER_SLICE = 10 /* of any budget */
};

enum goofs_state {
    GOOFS_STATE_CLEAN = 0,
    GOOFS_STATE_WAITING = 1,   /* a change was cut */
    GOOFS_STATE_DAMAGED = 2,   /* the journal's length is one that no change writes */
    GOOFS_STATE_UNFINISHED = 3 /* a format was cut */
};

typedef struct {
    uint64_t code, files, extents, extent_sectors;
    uint64_t state;   /* a number of `enum goofs_state` */
    uint64_t entries; /* of a waiting volume's journal, else 0 */
    uint64_t edition; /* 1 or 2; 0 with a refusal */
} goofs_summary_result;

typedef struct {
    uint64_t code, fault, place;
} goofs_check_result;

typedef struct {
    uint64_t code, fault, place, index, size, version, id, mode, access_time, change_time, name_length;
} goofs_find_result;

typedef struct {
    uint64_t code, fault, place, size, version, id, mode, access_time, change_time, name_length;
    uint64_t length; /* bytes of the write list */
} goofs_list_result;

typedef struct {
    uint64_t code, fault, place;
    uint64_t count;  /* bytes of the output */
    uint64_t length; /* bytes of the write list */
} goofs_read_result;

typedef struct {
    uint64_t code, fault, place, length;
} goofs_change_result;

typedef struct {
    uint64_t code;
    uint64_t fault, place; /* with 0 the first fault that remains, both 0 if none does; else both 0 */
    uint64_t length;
    uint64_t freed; /* table entries */
} goofs_repair_result;

typedef struct {
    uint64_t code, length;
} goofs_length_result;

typedef struct {
    uint64_t code;
    uint64_t length; /* bytes of the list that are filled */
    uint64_t count;  /* sector writes in it */
} goofs_slice_result;

/* Geometry, state and edition. Gives 0 to 3 only. */
goofs_summary_result goofs_summary(const uint8_t *image, size_t image_length);

/* Whether the volume is sound. Gives 0 to 7. */
goofs_check_result goofs_check(const uint8_t *image, size_t image_length);

/* The same fault and place by way of `scratch`, `numbers` numbers of 32 bits, at least GOOFS_SCRATCH of the volume's files and extents:
 * fewer are refused 14, which is tested after 6 and before soundness. What scratch holds after 0 or 7 is not fixed; with any other
 * code it is untouched. The call has no large array of its own. Gives 0 to 7 and 14. */
goofs_check_result goofs_check_with(const uint8_t *image, size_t image_length, uint32_t *scratch, size_t numbers);

/* The file of that name: its index and fields. It sets no time. Gives 0 to 9. */
goofs_find_result goofs_find(const uint8_t *image, size_t image_length, const uint8_t *name, size_t name_length);

/* Entry `index`: its name is copied to `out` (at most GOOFS_LONGEST_NAME bytes), its fields are given, as they are before the call. The
 * list sets the root's access time to `time`, whatever the index; root and entry keep their versions. 14 if `out` or `list` is too
 * short, and then neither changes. On a frozen volume `length` is 0, the time stays, and `list` may be of any length. Gives 0 to 9 and 14.
 * List: GOOFS_ACCESS_LIST. */
goofs_list_result goofs_list(const uint8_t *image, size_t image_length, uint64_t index, uint64_t time, uint8_t *out, size_t out_length,
                             uint8_t *list, size_t list_length);

/* The lesser of `count` and size - `offset` bytes of the file, to `out` (at most 65,536). The list sets the file's access time to `time`,
 * also where no byte is given; its version and its change time stay. 14 if `out` or `list` is too short, and then neither changes. On a
 * frozen volume `length` is 0, the time stays, and `list` may be of any length. Gives 0 to 9, 12 and 14. List: GOOFS_ACCESS_LIST. */
goofs_read_result goofs_read(const uint8_t *image, size_t image_length, const uint8_t *name, size_t name_length, uint64_t offset,
                             uint64_t count, uint64_t time, uint8_t *out, size_t out_length, uint8_t *list, size_t list_length);

/* A new, empty file in the lowest free entry. Gives 0 to 8, 10, 11, 13 and 14. List: at most GOOFS_CREATE_LIST. The name has bytes 33
 * to 126 without the slash, else 8 is given, also where a file of that name is there: a volume of before this rule may hold one. No
 * call gives the root's id; where the name is not there, 10 says that the id is taken, so a free one can be found by trying. */
goofs_change_result goofs_create(const uint8_t *image, size_t image_length, const uint8_t *name, size_t name_length, uint64_t id,
                                 uint32_t mode, uint64_t time, uint8_t *list, size_t list_length);

/* The file's entry and its extents are freed. Gives 0 to 9, 13 (a frozen volume) and 14. List: at most GOOFS_DELETE_LIST. */
goofs_change_result goofs_delete(const uint8_t *image, size_t image_length, const uint8_t *name, size_t name_length, uint64_t time,
                                 uint8_t *list, size_t list_length);

/* The file of the old name gets the new one, at once: after a cut the name is the old or the new one. A file that had the new name is
 * deleted in the same change, so a file saved under another name is swapped in, and after any cut the new name stands for one of
 * the two, whole. The entry keeps its index, size, id, mode and access time. The new name follows the rule of create, the old one is
 * any that can be on a volume. Gives 0 to 9, 13 (a frozen volume) and 14. List: at most GOOFS_RENAME_LIST. The same name twice gives an
 * empty list, on a frozen volume too. */
goofs_change_result goofs_rename(const uint8_t *image, size_t image_length, const uint8_t *old_name, size_t old_length,
                                 const uint8_t *new_name, size_t new_length, uint64_t time, uint8_t *list, size_t list_length);

/* Up to GOOFS_MOST_RENAMES renames as one change, at one time: after a cut and a recovery all of them are done, or none. `names` holds
 * old and new names in turn, one after the other, `lengths` the length of each of `count` names, two for each rename. They are applied
 * in order, each to the names as those before it leave them: a to b, b to a is no swap, as the first deletes b's file; a to t, b to a,
 * t to b is one.
 *
 * A count of 0, an odd one or one above 16, lengths that don't add up to `names_length` (as whole numbers: a sum that is right in 64
 * bits only is none), and on edition 1 a time that it doesn't store give 8 with place 0, before any rename is looked at. Then the first
 * rename that goofs_rename would refuse with 8 or 9 when its turn comes fixes the answer, and `place` is its place, from 0 on; later
 * ones are not looked at, though one of them may have the lower number. A sector that several renames change stands in the list once,
 * as it is in the end. The versions of root and entry rise once for each rename that is applied to them; one to itself is judged as the
 * others and changes nothing.
 *
 * 13 also if the sectors to be changed are more than K extents have, which needs T + 17 above K * S. Gives 0 to 9, 13 and 14. List: at
 * most GOOFS_RENAME_SET_LIST; empty if each has the same name twice, on a frozen volume too. */
goofs_change_result goofs_rename_set(const uint8_t *image, size_t image_length, const uint8_t *names, size_t names_length,
                                     const uint64_t *lengths, size_t count, uint64_t time, uint8_t *list, size_t list_length);

/* Another size: extents behind it are freed, or zeros are written at the end, at most 65,536. Gives 0 to 9, 13 and 14. List: at
 * most GOOFS_RESIZE_LIST. The same size gives an empty list, on a frozen volume too. */
goofs_change_result goofs_resize(const uint8_t *image, size_t image_length, const uint8_t *name, size_t name_length, uint64_t size,
                                 uint64_t time, uint8_t *list, size_t list_length);

/* `data` written at `offset`, which is at most the size. Gives 0 to 9, 12, 13 and 14. List: at most GOOFS_WRITE_LIST. No data gives
 * an empty list, on a frozen volume too. Data sectors land before the start mark: after a write that was cut before it the size is the
 * old one, but each sector up to it has its old bytes or the new ones. */
goofs_change_result goofs_write(const uint8_t *image, size_t image_length, const uint8_t *name, size_t name_length, uint64_t offset,
                                const uint8_t *data, size_t data_length, uint64_t time, uint8_t *list, size_t list_length);

/* Frees, at once, each extent that the table gives to no file that is there, that lies at or past the end of its file, or whose place in
 * its file a lower extent already has. Nothing else changes: no entry, no byte of a file, not the root. Runs on clean volumes with any
 * fault. `freed` is how many; with 0 none, and an empty list. Where there are such extents and fewer than K are free, 13 is given, and no
 * call can mend the volume: its copies would need those that are still to be freed. Gives 0 to 6, 13 and 14. List: at most
 * GOOFS_REPAIR_LIST.
 *
 * With 0, `fault` and `place` are what goofs_check gives with 7 once the list has landed: extents that a file lacks are told, never
 * invented. The volume is sound then exactly if it had none of the faults 21 to 24 and no file lacked an extent.
 *
 * What is freed is lost to its file. An entry with GOOFS_FAULT_MARK counts as not there: all extents of its file are freed. A size that
 * is damaged and too small costs the file those behind it; one that is too large costs none. So where goofs_check gives 21 or 22, save
 * the image before this call. */
goofs_repair_result goofs_repair(const uint8_t *image, size_t image_length, uint8_t *list, size_t list_length);

/* Finishes a change that was cut after its start mark; a clean volume gives an empty list. Gives 0 to 4, 6 and 14. List: at most
 * GOOFS_RECOVER_LIST. It may itself be cut and asked for again. */
goofs_length_result goofs_recover(const uint8_t *image, size_t image_length, uint8_t *list, size_t list_length);

/* The same in slices of at most `budget` sector writes, for a boot loader under a watchdog: the first targets, in the journal's order,
 * that don't hold their copy yet, then a barrier; when none is left, the end mark and a barrier. `count` is the number of sector writes.
 * Asked for and carried out until `count` is 0: with d targets left, the volume is clean after d / budget rounded up, plus 1, calls.
 * Slices and goofs_recover may be mixed, and each may be cut. Gives 0 to 4, 6, 8 (a budget of 0) and 14. List:
 * GOOFS_SLICE_LIST(budget) is always enough. A clean volume gives an empty list and the count 0.
 *
 * A target that reads as its copy is passed over, so the image must be what is on the medium, as a boot loader reads it. Where a system
 * may show what never got there, after a write or barrier that failed or a program that was ended, ask for goofs_recover: it writes
 * every target again. */
goofs_slice_result goofs_recover_slice(const uint8_t *image, size_t image_length, uint64_t budget, uint8_t *list, size_t list_length);

/* Record `position`, from 0 on, of the format of a medium of so many sectors, to `out` (GOOFS_RECORD bytes); all of them, landed in
 * order, are the format. The record carries this position, so that all of them, joined in order, are a list for goofs_carry_out; one
 * alone is none, but the first. `edition` is 1 or 2; every other, and edition 1 with a time above 4,294,967,295, is refused 8 at every
 * position. Gives 0, 8, 9 (past the last record) and 14. */
goofs_length_result goofs_format_record(uint64_t sectors, uint64_t files, uint64_t edition, uint64_t id, uint32_t mode, uint64_t time,
                                        uint64_t position, uint8_t *out, size_t out_length);

/* All writes of a list, in order, on an image in memory. Gives 0, 1 and 8 (a part of a record, positions that aren't 0, 1, 2 and so on,
 * a sector outside the image, a barrier with other bytes); anything but 0 has written nothing. */
uint64_t goofs_carry_out(uint8_t *image, size_t image_length, const uint8_t *list, size_t list_length);

/* How many bytes the list of a call (a number of `enum goofs_call`) can have at most on a volume of this geometry, in whatever state it is
 * and whatever the arguments are. A call that is lent a list so long never gives 14 for it. The numbers are those of goofs_summary, or of
 * a volume that is to be made. Gives 0, 3 (files, extents or sectors per extent out of bounds) and 8 (no such call). */
goofs_length_result goofs_longest_list(uint64_t files, uint64_t extents, uint64_t extent_sectors, uint64_t call);

/* -------------------- on lent sectors, of a card that doesn't fit in memory
 *
 * Such a form is lent `front`, the first sectors of the volume, at least those before the data area (GOOFS_FRONT_SECTORS), and is told
 * how many `sectors` the card has, which count as the image's: a volume longer than that is refused 3, and so is a front that ends
 * before the data area, whatever the count. 1 is for a front that is empty or not whole sectors. Else it gives what the call of its
 * name gives on the whole image: the same answer, list and bytes. Summary, check, find, list, create, delete, the renames and repair
 * need no more. A read, a write, a resize that grows and a recovery ask besides for data sectors, one at a time. The state that comes
 * back names the sector in `wanted`; goofs_read_step, goofs_write_step or goofs_recover_step is given that state and the sector's 512
 * bytes, and gives the next state, until `wanted` is 0:
 *
 *     r = goofs_read_lent(front, front_length, sectors, name, name_length, offset, count, time, sizeof out, list, sizeof list);
 *     while (r.code == GOOFS_DONE && r.wanted != 0) {
 *         read_sector(r.wanted, window);
 *         r = goofs_read_step(r, window, GOOFS_SECTOR, out, sizeof out);
 *     }
 *
 * Then code, fault, place, count and length are the call's. All that front and arguments refuse is refused by the first call, 13 and
 * 14 too; it wants a sector only with code 0. A step that is supplied with other than 512 bytes gives 8 and changes nothing, neither a
 * byte nor another number of the state: the same sector can be supplied again. The list of a write, of a resize and of a recovery is
 * whole, and its `length` no longer 0, when nothing is wanted any more; until then it is not to be carried out. That of a read is
 * whole from the first call on. A state that is dropped is a call that was not made.
 *
 * Steps don't judge the volume again, and can't tell whether the bytes are those of the sector: no list may land between the first
 * call and the last step, and output, list and, of a recovery, front stay the same ones. Who carries a list out copies the records of
 * the front's sectors to the front, too: it is what the next call is lent. goofs_carry_out can't, as it takes whole images.
 * goofs_recover_slice has no such form, so a card that doesn't fit in memory has no recovery in slices. Nor have goofs_format_record
 * and goofs_longest_list, which need no image. */

typedef struct {
    uint64_t code, fault, place;
    uint64_t count;                  /* bytes of the output, when nothing is wanted any more */
    uint64_t length;                 /* bytes of the write list */
    uint64_t wanted;                 /* a data sector, or 0 */
    uint64_t skip, done, edge, next; /* the library's */
} goofs_reading;

typedef struct {
    uint64_t sector;             /* a data sector, or 0 */
    uint64_t from, to, position; /* the library's */
} goofs_part;

typedef struct {
    uint64_t code, fault, place;
    uint64_t length;   /* bytes of the write list; 0 as long as a sector is wanted */
    goofs_part wanted; /* its sector is the one that is wanted */
    goofs_part last;   /* the library's, */
    uint64_t full;     /* and this */
} goofs_writing;

typedef struct {
    uint64_t code;
    uint64_t length;      /* bytes of the write list; 0 as long as a sector is wanted */
    uint64_t wanted;      /* a data sector, or 0 */
    uint64_t entry, full; /* the library's */
} goofs_recovering;

/* As goofs_summary. */
goofs_summary_result goofs_summary_lent(const uint8_t *front, size_t front_length, uint64_t sectors);

/* As goofs_check. */
goofs_check_result goofs_check_lent(const uint8_t *front, size_t front_length, uint64_t sectors);

/* As goofs_check_with. */
goofs_check_result goofs_check_with_lent(const uint8_t *front, size_t front_length, uint64_t sectors, uint32_t *scratch, size_t numbers);

/* As goofs_find. */
goofs_find_result goofs_find_lent(const uint8_t *front, size_t front_length, uint64_t sectors, const uint8_t *name, size_t name_length);

/* As goofs_list. */
goofs_list_result goofs_list_lent(const uint8_t *front, size_t front_length, uint64_t sectors, uint64_t index, uint64_t time, uint8_t *out,
                                  size_t out_length, uint8_t *list, size_t list_length);

/* Begins what goofs_read does, into an output of `room` bytes, which the steps are lent. It asks for each sector with bytes of the span,
 * in file order. */
goofs_reading goofs_read_lent(const uint8_t *front, size_t front_length, uint64_t sectors, const uint8_t *name, size_t name_length,
                              uint64_t offset, uint64_t count, uint64_t time, uint64_t room, uint8_t *list, size_t list_length);

/* Puts the bytes of the wanted sector that are asked for into `out`, behind those of the steps before. */
goofs_reading goofs_read_step(goofs_reading reading, const uint8_t *bytes, size_t length, uint8_t *out, size_t out_length);

/* As goofs_create. */
goofs_change_result goofs_create_lent(const uint8_t *front, size_t front_length, uint64_t sectors, const uint8_t *name, size_t name_length,
                                      uint64_t id, uint32_t mode, uint64_t time, uint8_t *list, size_t list_length);

/* As goofs_delete. */
goofs_change_result goofs_delete_lent(const uint8_t *front, size_t front_length, uint64_t sectors, const uint8_t *name, size_t name_length,
                                      uint64_t time, uint8_t *list, size_t list_length);

/* As goofs_rename. */
goofs_change_result goofs_rename_lent(const uint8_t *front, size_t front_length, uint64_t sectors, const uint8_t *old_name,
                                      size_t old_length, const uint8_t *new_name, size_t new_length, uint64_t time, uint8_t *list,
                                      size_t list_length);

/* As goofs_rename_set. */
goofs_change_result goofs_rename_set_lent(const uint8_t *front, size_t front_length, uint64_t sectors, const uint8_t *names,
                                          size_t names_length, const uint64_t *lengths, size_t count, uint64_t time, uint8_t *list,
                                          size_t list_length);

/* Begins what goofs_resize does. One that grows asks as a write of zeros at the end would; one that shrinks asks for nothing. */
goofs_writing goofs_resize_lent(const uint8_t *front, size_t front_length, uint64_t sectors, const uint8_t *name, size_t name_length,
                                uint64_t size, uint64_t time, uint8_t *list, size_t list_length);

/* Begins what goofs_write does. It asks for the first and the last sector of the span, where they are not covered whole: for two at most,
 * for one if they are the same, also in an extent that the write itself takes. */
goofs_writing goofs_write_lent(const uint8_t *front, size_t front_length, uint64_t sectors, const uint8_t *name, size_t name_length,
                               uint64_t offset, const uint8_t *data, size_t data_length, uint64_t time, uint8_t *list, size_t list_length);

/* Puts the bytes of the wanted sector that stay into the list of a write or resize. */
goofs_writing goofs_write_step(goofs_writing writing, const uint8_t *bytes, size_t length, uint8_t *list, size_t list_length);

/* As goofs_repair. */
goofs_repair_result goofs_repair_lent(const uint8_t *front, size_t front_length, uint64_t sectors, uint8_t *list, size_t list_length);

/* Begins what goofs_recover does. It asks for the copy of each target, in the journal's order. */
goofs_recovering goofs_recover_lent(const uint8_t *front, size_t front_length, uint64_t sectors, uint8_t *list, size_t list_length);

/* Puts the wanted copy into the list of a recovery. `front` holds the same sectors as in the first call; another journal, or a front that
 * ends before the data area, gets 8. The list is as the first call and the steps before left it. A step takes the same time for any
 * journal whose targets rise, as those of this library's changes do; of another one it counts the targets. */
goofs_recovering goofs_recover_step(goofs_recovering recovering, const uint8_t *front, size_t front_length, const uint8_t *bytes,
                                    size_t length, uint8_t *list, size_t list_length);

#ifdef __cplusplus
}
#endif

#endif
