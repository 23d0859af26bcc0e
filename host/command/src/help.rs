//! The help texts. The lines of each before the first empty one are its usage.

/// The end of each of them.
pub const WAIT: &str = "
While another program has CARD open, a command waits for it:
  --wait S     for S seconds, 0 to 86400; else 5
";

pub const OVERVIEW: &str = "\
goofs - files on a volume that survives a cut of the power

  goofs info CARD                     geometry, areas, state, free room
  goofs check CARD                    whether the volume is sound
  goofs map CARD [--svg FILE]         the volume as a picture
  goofs ls CARD                       the files
  goofs get CARD NAME... [--as FILE]  copy files from the card; --all FOLDER copies every file
  goofs put CARD FILE... [--as NAME]  copy files to the card
  goofs write CARD NAME OFFSET FILE   write into a file
  goofs rm CARD NAME...               remove files
  goofs mv CARD OLD NEW [OLD NEW...]  give files other names, in one change
  goofs resize CARD NAME SIZE         give a file another size
  goofs recover CARD [--budget N]     finish a change that was cut
  goofs repair CARD [--yes]           free extents that belong to no file
  goofs salvage CARD FOLDER           copy the whole files of a volume that is not sound
  goofs format CARD [--sectors N]     make an empty volume
  goofs trial CARD CHANGE ...         try a change with cuts of the power, in memory
  goofs audit LOG CARD                hold a card against the log of its calls

CARD is an image file or a block device, such as /dev/sdb; lsblk shows which devices there are.
To begin, in an image file of 4 MiB:

  goofs format card.img --size 4M
  goofs put card.img gain.txt
  goofs ls card.img
  goofs get card.img gain.txt --as copy.txt

After a cut of the power: goofs recover CARD, then goofs check CARD.

A size or count may be given as 64K, 4M, 2G or 1T: K is 1024, M 1024 times as much, and so on.
`goofs COMMAND --help` shows more, `goofs --version` the version. Names that start with a dash go
behind `--`.
The exit status is 0 only on success, 1 if it failed, 2 if the command was not understood.
Long work shows its progress on the standard error, if that is a terminal.
An error says what happened and what to do next. A number in it, as in `refused (5)`, is that of the
rules of the volume. A refused command has changed nothing.
";

pub const INFO: &str = "\
goofs info CARD [--json]

Shows the volume's geometry and edition, where each area starts (in sectors), its state, whether it is
sound, and how many extents are used and free. Each file takes whole extents. It works on a volume in
any state and changes nothing. The states:
  clean        no change is under way
  waiting      a change was cut: goofs recover CARD finishes it
  damaged      the journal's length is one that no change writes
  unfinished   a format was cut: format again

  --json       print it as a JSON object, for a program; JSON.md (in docs, or share/doc/goofs) has its
               fields

Some extents must stay free, wherever they are: a change puts its copies in the highest free ones. A
volume that another program has filled may have fewer free. It is frozen then: its files can be read,
and no change can be made to it, not even a file removed (13). Info says so, and how to copy the files
to a larger card.
";

pub const CHECK: &str = "\
goofs check CARD [--json]

Says whether the volume is clean and sound. If not, it says which fault it has and where, and the exit
status is 1. It changes nothing, and does not read the bytes of the files. A file that a put, cut
short, has left beside another is no fault; it is told with what to do about it. Nor is a volume that
is frozen: info tells that.
  --json      print a JSON object on the standard output, for a program: whether it is sound, the fault,
              how many files; JSON.md (in docs, or share/doc/goofs) has its fields
";

pub const MAP: &str = "\
goofs map CARD [--svg FILE] [--color WHEN]

Shows the volume as a picture: where its areas are, and for each extent which file has it, with a letter
for each file and a legend. `.` is free, `?` belongs to no file, `#` to one of the files that have no
letter of their own. On a large volume a sign stands for several extents. It works on a volume that is
not sound, too, and changes nothing.
  --svg FILE    draw it into this file, with a square for each extent, for a browser or a report; a FILE
                that exists is replaced
  --color WHEN  colours for the files in the terminal: always, never or auto. Else auto: on a terminal,
                if the environment variable NO_COLOR is not set
";

pub const LS: &str = "\
goofs ls CARD [--accessed] [--numeric | --json] [--touch [--time T] [--log LOG]]

Lists the files in the directory's order: size, version, id, mode (octal), time of the last change and
name. A name is printed as a word for the shell, so that it can be given back as it stands there: in
quotes where it needs them, and as $'...' where it has bytes that a terminal does not show.
  --accessed  the time of the last access in the place of that of the last change
  --numeric   the times in seconds since 1970; else day and time in UTC
  --json      print a JSON object, for a program: a name that is no text is there as hexadecimal digits;
              JSON.md (in docs, or share/doc/goofs) has its fields
  --touch     set the access time of the directory, the root's, which info shows; without a file it
              stays. The card is then opened for writing, and no one else may have it open
  --time T    with --touch, this time, in seconds since 1970, on edition 1 up to 4294967295; else now
  --log LOG   with --touch, append each call to this file before its first write, for goofs audit

Without --touch the card is opened for reading only and no access time is set, as on a file system that
is mounted with noatime.

A file NAME.goofs-saving was left by a put that was cut. It is in the list, and told on the standard
error, too, with what to do about it.
";

pub const GET: &str = "\
goofs get CARD NAME... [--as FILE] [-p] [--touch [--time T] [--log LOG]]
goofs get CARD --all FOLDER [--replace] [-p] [--touch [--time T] [--log LOG]]

Copies files from the card: one to the standard output, or several into a folder. If one of the names
is not there, nothing is copied; if a copy fails later, it says which files are copied, each whole.
  --as FILE     to this file; a FILE that exists is replaced. If FILE is a folder, each file goes into it
                under the name that it has on the card; `-` is the standard output
  --all FOLDER  every file into this folder, which is made if it is not there. If a file there would be
                written over, it says so and copies nothing
  --replace     with --all, replace such files, and say which
  -p, --preserve
                the copy keeps the time of the file's last change, that of its last access, and of its
                mode who may read, write and run it
  --touch       set the access time of each file, which ls --accessed shows, before the first is copied.
                The card is then opened for writing, and no one else may have it open
  --time T      with --touch, this time, in seconds since 1970, on edition 1 up to 4294967295; else now
  --log LOG     with --touch, append each call to this file before its first write, for goofs audit

Without --touch the card is opened for reading only and no access time is set, as on a file system that
is mounted with noatime.

The bytes are written beside FILE (to .goofs-NUMBER-0, which a kill may leave behind), and take its
name when all of them are on its disk. Until then a FILE that exists stays as it was. A FILE is named
by --as only, so that `goofs get CARD *.cal` never writes over one of the files that the shell found.

With --all, a name that a folder can't hold is escaped, and told. Percent-decoding, as for the path of a
URL, gives it back: a slash, and what a terminal does not show, is % and two hexadecimal digits for each
byte; so are the names . and .. and, on a disk that does not take them, the signs \"*:<>?\\| and a dot or
space at the end; % itself is %25 where two such digits or a + follow it. A name that has more than 255
bytes then is cut: each part but the last has %+ behind it and is a folder for the next.
";

pub const PUT: &str = "\
goofs put CARD FILE... [--as NAME] [--id ID] [--mode M] [--time T] [--in-place | --together]
          [--log LOG]

Copies files to the card, each under the last part of its own name. A file of that name on the card is
replaced. A name has 1 to 476 letters, digits and signs of ASCII, without space and slash; on a volume
of edition 2 it has 1 to 468.
  --as NAME   the name on the card, for one FILE; `-` as FILE is the standard input and needs it
  --id ID     the id of the new file; else the number after the greatest id in use
  --mode M    the mode of new files, octal; else that of the file that is replaced, or 644
  --time T    the time of the change, in seconds since 1970, on edition 1 up to 4294967295; else now
  --in-place  write over a file that is there, which keeps its id and mode
  --together  for up to 8 FILEs that belong together: all change over in one change
  --log LOG   append each call to this file before its first write, for goofs audit

A file is written beside the old one, as NAME.goofs-saving, and when it is whole it takes the name, in
one change with the end of the old file. So after a cut of the power and `goofs recover`, NAME is the
old file or the new one, each whole, and a new file is there whole or not at all. The file that a cut
leaves beside is told by ls and check, and removed by the next put of NAME. So no other file may get a
name that ends like that.

With --together all FILEs are written beside first, and then all take their names in one change, with
the end of all old files. So after a cut of the power and `goofs recover` every NAME is the old file or
every NAME is the new one: a box that loads them never finds a part of each. Until then all old and all
new files need room. More than 8 FILEs are refused: one change has no more renames.

Until the old file is gone, both need room. Where there is not so much, put says so. With --in-place
the changes are made to the old file, one after the other: pieces of at most 65536 bytes are written,
and what is longer is cut off. Each is done or not done after a cut, all of them together are not: a
cut can leave new bytes up to some place and old ones behind it, or sectors of a piece old and new.

All changes of all FILEs are tried in memory first: if one is refused, for want of room too, nothing is
changed. Then one file after the other is saved. A FILE is read into memory, and no further than there
is room for it on the card.
";

pub const WRITE: &str = "\
goofs write CARD NAME OFFSET FILE [--time T] [--log LOG]

Writes the bytes of FILE into the file NAME on the card, from byte OFFSET on, which is at most the
file's size; `-` as FILE is the standard input. Bytes before and behind them stay, and the file grows
where they reach past its end. OFFSET may be given as in 64K.
  --time T    the time of the change, in seconds since 1970, on edition 1 up to 4294967295; else now
  --log LOG   append each call to this file before its first write, for goofs audit

More than 65536 bytes are several changes, one after the other. All are tried in memory first: if one is
refused, for want of room too, nothing is changed. After a cut of the power and `goofs recover`, each of
them is done or not; of one that is not, sectors up to the old size may hold their new bytes. Give the
command again then: it writes the same bytes. To have the old file or the new one whole: goofs put.
";

pub const RM: &str = "\
goofs rm CARD NAME... [--time T] [--log LOG]

Removes files. Their extents are free at once. On a volume that is frozen (see goofs info --help) no
file can be removed.
  --time T    the time of the change, in seconds since 1970, on edition 1 up to 4294967295; else now
  --log LOG   append each call to this file before its first write, for goofs audit

Each file is removed by a change of its own, whole or not at all, in the order of the NAMEs. All are
tried in memory first: if one of the names is not there, nothing is removed. If the card fails, or
Ctrl-C is pressed, in the middle, it says which files are removed and which are not.
";

pub const MV: &str = "\
goofs mv CARD OLD NEW [OLD NEW...] [--time T] [--log LOG]

Gives the file OLD the name NEW, in one change. A file that has the name NEW already is replaced: it is
removed with the same change, which is told. After a cut of the power and `goofs recover` both files
are as before, or only the one is there, as NEW. It keeps its size, id and mode.
  --time T    the time of the change, in seconds since 1970, on edition 1 up to 4294967295; else now
  --log LOG   append each call to this file before its first write, for goofs audit

Up to 8 renames are one change: after a cut all of them are done, or none. They are done in order, and
each finds the names as those before it leave them. So two files change names through a third one that
no file has: goofs mv CARD a t b a t b. Without it they don't: goofs mv CARD a b b a replaces b by a, and
gives that its name back. If one of them is refused, it says which, and nothing is changed.

NEW has 1 to 476 letters, digits and signs of ASCII, without space and slash; on a volume of edition 2
it has 1 to 468. OLD may be a name with other bytes, from a volume of before this rule, as ls prints
it.
";

pub const RESIZE: &str = "\
goofs resize CARD NAME SIZE [--time T] [--log LOG]

Gives the file another size, in bytes, or as in 64K or 4M. What is added is zero.
  --time T    the time of the change, in seconds since 1970, on edition 1 up to 4294967295; else now
  --log LOG   append each call to this file before its first write, for goofs audit

A file grows by at most 65536 bytes at a time, so growing by more is several changes, one after the
other, each atomic. All are tried in memory first: if one is refused, nothing is changed.
";

pub const RECOVER: &str = "\
goofs recover CARD [--budget N] [--log LOG]

Finishes a change that a cut of the power interrupted. A recovery may itself be cut; then recover
again. On a clean volume there is nothing to do, and nothing is changed. If the volume is not sound
after it, the fault is printed and the exit status is 1.
  --budget N   write at most N sectors, at least 1, and say whether more is left; then recover again.
               For each N sectors that are still to be copied it takes one call, and one call more.
               Sectors that show their copy already are passed over: after a write to the card has
               failed, recover without it
  --log LOG    append each call to this file before its first write, for goofs audit
";

pub const REPAIR: &str = "\
goofs repair CARD [--yes] [--log LOG]

For a volume that is clean but not sound. Shows which extents belong to no file that is there, lie past
the end of their file, or have a place in it that a lower extent has already; asks; and frees them, all
at once: a cut of the power leaves them freed or not. No byte of a file and no entry changes.
What is lost is not brought back: a file that lacks an extent is named, and so is a fault of the
directory. A file whose entry is damaged may lose extents by this: where check says fault 21 or 22, copy
the card first (dd if=CARD of=COPY). If the volume is not sound after it, the fault is printed and the
exit status is 1. A repair needs free extents for its own change, and those that it would free don't
count: where too few are free it is refused (13), and no command mends the volume.
  --yes        do not ask
  --log LOG    append each call to this file before its first write, for goofs audit
";

pub const SALVAGE: &str = "\
goofs salvage CARD FOLDER [--replace] [-p]

For a volume that is not sound, of which get copies nothing. Copies every file that is whole into
FOLDER, which is made if it is not there, and lists what is not whole and why. The card is only read. If
something is not whole, the exit status is 1.
  --replace       replace files in FOLDER, and say which; else nothing is copied if one is there
  -p, --preserve  the copies keep the times of the files, and of their modes who may read, write and run
                  them

A file is whole if none of the faults 21 to 24 and 26 is at its directory entry: the entry is marked as
occupied; its name has 1 to 476 bytes (468 in edition 2), none of them 0; its size is one that the
volume's extents hold; no occupied entry of lower index has its name or its id, and the id is neither 0
nor the root's; the table gives it exactly one extent for each of its places, and no others. Its bytes
are copied as they stand there: nothing on a volume tells whether they are right. A file that the medium
does not give is listed, too.

A change that was cut is finished first, in memory. Where the journal is damaged, or the copies of the
change can't be read, that can't be done: then a change may be half done, which is told. An unfinished
volume is refused, as its directory may be that of another format. Names are escaped as by goofs get
--all.
";

pub const FORMAT: &str = "\
goofs format CARD [--sectors N | --size B] [--files F] [--edition E] [--id ID] [--mode M] [--time T]
             [--sparse] [--yes] [--log LOG]

Makes an empty volume. A CARD that isn't there is made, as an image file; then --size or --sectors is
needed.
  --sectors N  the sectors of 512 bytes, 2048 for each MiB; at least 1057 for 255 files; else all of
               CARD. An image file that is shorter is made longer. 8K is 8192 sectors
  --size B     the same in bytes, a multiple of 512: 4M is 8192 sectors
  --files F    the most files it can hold, 255 to 65535; else 255
  --edition E  1, whose times end in the year 2106, or 2, whose times have 64 bits and whose names have
               at most 468 bytes; else 1. A goofs of before edition 2 refuses such a card (2), and no
               command turns one edition into the other
  --id ID      the root's id; else 1
  --mode M     the root's mode, octal; else 755
  --time T     the root's time, in seconds since 1970, in edition 1 up to 4294967295; else now
  --sparse     leave an image file without blocks of its own on the disk until they are written to;
               when the disk is full, changes then fail. Else the blocks are taken at once
  --yes        needed where CARD holds a volume or other data: they are lost. Without it, the whole
               place of the volume is read first, to see that it holds nothing but zeros
  --log LOG    append each call to this file before its first write, for goofs audit

A format that is cut leaves an unfinished volume: format again. A block device that is mounted is
refused.
";

pub const TRIAL: &str = "\
goofs trial CARD put FILE [--as NAME] [--in-place]
goofs trial CARD put FILE... --together
goofs trial CARD create NAME
goofs trial CARD rm NAME
goofs trial CARD mv OLD NEW [OLD NEW...]
goofs trial CARD resize NAME SIZE
goofs trial CARD write NAME OFFSET FILE
goofs trial CARD get NAME
goofs trial CARD ls
    [--id ID] [--mode M] [--time T] [--seed S] [--every] [--leave FILE]

Tries the change in memory; the card is only read. The power is cut within each group of the change's
writes: groups of up to 8 writes with every subset landed, larger ones after each write, with each
single write, and with 32 subsets drawn at random. After each cut comes a recovery that is cut in the
same ways (in 64 of them, drawn, if there are more), and another that is cut at random; then one is
completed. After that the volume must be sound, and the root and every file as before the change or
as after it. Compared are the metadata and the sectors that the change writes; nothing else is written
in a trial, so that it takes no longer on a card with many bytes.
  --seed S      what is drawn at random depends on this number alone; else 1
  --every       cut recoveries in all the ways, also where there are more than 64
  --leave FILE  leave the volume, as it is when the power goes right after the last change's start
                mark, in FILE, which must be new: to look at, or to recover
  --id, --mode and --time are those of the change, as for put; get and ls stand for the access time
  that they set with --touch

The table has a line for each change:
  cuts         points at which the change was cut
  recoveries   recoveries that were run, cut ones included
  before       ends that are as before
  part         ends as before, but with some sectors of the new bytes in the place of old ones
  after        ends that are as after
  different    anything else; the exit status is then 1
The last line says in how many of its ways the first recovery after each cut was cut.
";

pub const AUDIT: &str = "\
goofs audit LOG CARD [--from COPY] [--settle]

Says in one line whether the volume on CARD is what the calls in LOG give, after a cut of the power too.
The log has a line for each call, which was kept before the call's first write: every command that
changes a card makes one with --log LOG, and RELAY.md (in docs, or share/doc/goofs) has the format for
other boxes. The card is recovered in memory and only read. A ledger is fed the calls alone; then
superblock, root, directory, allocation table and every byte of every file must be what it says. Of the
last call, if the log does not say that it was done, it says whether it is done, or not done and which
of its data sectors landed. Else it says file by file what differs, and the exit status is 1.
  --from COPY  the log begins with this volume, a copy of the card from before the first call; needed
               where its first call is not a format
  --settle     note in the log what became of the last call, so that the log can go on from here

A last line that is cut off is told: the power failed while it was written, and its call had not begun.
Where the log goes on after a cut without that note, both ends of the call are followed. The bytes of all
files are held in memory, several times.
";
