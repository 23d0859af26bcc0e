//! The C interface: its results, and for each call a declaration with a safe function around it.
//!
//! The calls are proved for every pointer and length that belong together, and a Rust slice is such
//! a pair. So nothing is tested here.

/// Results are structs of numbers. Their fields stand in the order of the C interface.
macro_rules! results {
    ($($(#[$about:meta])* $result:ident { $($field:ident),* $(,)? })*) => {$(
        $(#[$about])*
        #[repr(C)]
        #[derive(Clone, Copy, Debug, Default, PartialEq, Eq)]
        pub struct $result {
            $(pub $field: u64),*
        }
    )*};
}

results! {
    /// The geometry and the state: 0 clean, 1 waiting, 2 damaged, 3 unfinished. `entries` is the
    /// number of journal entries of a waiting volume, else 0. The edition is 1 or 2, or 0 with a
    /// refusal.
    SummaryAnswer { code, files, extents, extent_sectors, state, entries, edition }

    /// With code 7, the fault and its place.
    CheckAnswer { code, fault, place }

    FindAnswer {
        code, fault, place, index, size, version, id, mode, access_time, change_time, name_length,
    }

    /// The name itself stands at the start of the output. `length` bytes of the list are filled.
    ListAnswer {
        code, fault, place, size, version, id, mode, access_time, change_time, name_length, length,
    }

    /// `count` bytes stand at the start of the output. `length` bytes of the list are filled.
    ReadAnswer { code, fault, place, count, length }

    /// `length` bytes of the list are filled.
    ChangeAnswer { code, fault, place, length }

    /// `length` bytes of the list are filled; `freed` table entries are freed by it. With code 0 the
    /// fault and its place are the first that remains, 0 and 0 if none does.
    RepairAnswer { code, fault, place, length, freed }

    /// `length` bytes of the list are filled.
    RecoverAnswer { code, length }

    /// `length` bytes of the list are filled, with `count` sector writes.
    SliceAnswer { code, length, count }

    /// `length` bytes of the output are filled, a whole record.
    FormatRecordAnswer { code, length }

    /// The most bytes that a list can have.
    LongestAnswer { code, length }

    /// A read that was lent the sectors before the data area. While `wanted` isn't 0, that sector is asked
    /// for; when it is, the rest is a `ReadAnswer`.
    Reading { code, fault, place, count, length, wanted, skip, done, edge, next }

    /// A data sector that a write covers from one byte to before another; 0 stands for none.
    Part { sector, from, to, position }

    /// A recovery that was lent the sectors before the data area. While `wanted` isn't 0, that sector is
    /// asked for, and `length` is 0; when it is, the rest is a `RecoverAnswer`.
    Recovering { code, length, wanted, entry, full }
}

/// A write or resize that was lent the sectors before the data area. While `wanted.sector` isn't 0, that
/// sector is asked for, and `length` is 0; when it is, the rest is a `ChangeAnswer`.
#[repr(C)]
#[derive(Clone, Copy, Debug, Default, PartialEq, Eq)]
pub struct Writing {
    pub code: u64,
    pub fault: u64,
    pub place: u64,
    pub length: u64,
    pub wanted: Part,
    pub last: Part,
    pub full: u64,
}

/// Declares a call and puts a safe function around it. In C a slice is a pointer and a length, which
/// its function takes apart; numbers go through as they are.
macro_rules! calls {
    ($(
        $(#[$about:meta])*
        $call:ident is $symbol:ident($($argument:ident: $kind:ident),*) -> $answer:ty;
    )*) => {$(
        calls! { @ [$(#[$about])*] $call $symbol $answer; [] [] []; $($argument: $kind,)* }
    )*};
    (@ $about:tt $call:ident $symbol:ident $answer:ty;
        [$($type:ty,)*] [$($parameter:tt)*] [$($given:expr,)*];
        $slice:ident: bytes, $($rest:tt)*) => {
        calls! { @ $about $call $symbol $answer;
            [$($type,)* *const u8, usize,]
            [$($parameter)* $slice: &[u8],]
            [$($given,)* $slice.as_ptr(), $slice.len(),];
            $($rest)* }
    };
    (@ $about:tt $call:ident $symbol:ident $answer:ty;
        [$($type:ty,)*] [$($parameter:tt)*] [$($given:expr,)*];
        $slice:ident: buffer, $($rest:tt)*) => {
        calls! { @ $about $call $symbol $answer;
            [$($type,)* *mut u8, usize,]
            [$($parameter)* $slice: &mut [u8],]
            [$($given,)* $slice.as_mut_ptr(), $slice.len(),];
            $($rest)* }
    };
    (@ $about:tt $call:ident $symbol:ident $answer:ty;
        [$($type:ty,)*] [$($parameter:tt)*] [$($given:expr,)*];
        $slice:ident: numbers, $($rest:tt)*) => {
        calls! { @ $about $call $symbol $answer;
            [$($type,)* *mut u32, usize,]
            [$($parameter)* $slice: &mut [u32],]
            [$($given,)* $slice.as_mut_ptr(), $slice.len(),];
            $($rest)* }
    };
    (@ $about:tt $call:ident $symbol:ident $answer:ty;
        [$($type:ty,)*] [$($parameter:tt)*] [$($given:expr,)*];
        $slice:ident: lengths, $($rest:tt)*) => {
        calls! { @ $about $call $symbol $answer;
            [$($type,)* *const u64, usize,]
            [$($parameter)* $slice: &[u64],]
            [$($given,)* $slice.as_ptr(), $slice.len(),];
            $($rest)* }
    };
    (@ $about:tt $call:ident $symbol:ident $answer:ty;
        [$($type:ty,)*] [$($parameter:tt)*] [$($given:expr,)*];
        $number:ident: $width:ident, $($rest:tt)*) => {
        calls! { @ $about $call $symbol $answer;
            [$($type,)* $width,] [$($parameter)* $number: $width,] [$($given,)* $number,];
            $($rest)* }
    };
    (@ [$(#[$about:meta])*] $call:ident $symbol:ident $answer:ty;
        [$($type:ty,)*] [$($parameter:tt)*] [$($given:expr,)*];) => {
        extern "C" {
            fn $symbol($(_: $type),*) -> $answer;
        }
        $(#[$about])*
        #[allow(clippy::too_many_arguments)] // as many as the call has
        pub fn $call($($parameter)*) -> $answer {
            unsafe { $symbol($($given),*) }
        }
    };
}

calls! {
    /// The geometry, the state and the edition.
    summary is goofs_summary(image: bytes) -> SummaryAnswer;

    /// Whether the volume is clean and has no fault.
    check is goofs_check(image: bytes) -> CheckAnswer;

    /// The same with lent scratch; fewer than four numbers for each file and one for each extent are
    /// refused 14, before the volume is judged. What the scratch holds after 0 or 7 is not fixed.
    check_with is goofs_check_with(image: bytes, scratch: numbers) -> CheckAnswer;

    /// The index and the fields of the file of this name.
    find is goofs_find(image: bytes, name: bytes) -> FindAnswer;

    /// The fields of the entry with this index; its name is copied to the output. The list sets the
    /// root's access time; who leaves it alone drops the list. Where fewer than K extents are free the
    /// list is empty.
    list is goofs_list(
        image: bytes, index: u64, time: u64, output: buffer, list: buffer
    ) -> ListAnswer;

    /// Copies at most `count` bytes of the file from this offset on to the output. The list sets the
    /// file's access time; who leaves it alone drops the list. Where fewer than K extents are free the
    /// list is empty.
    read is goofs_read(
        image: bytes, name: bytes, offset: u64, count: u64, time: u64, output: buffer, list: buffer
    ) -> ReadAnswer;

    /// A new empty file in the lowest free entry.
    create is goofs_create(
        image: bytes, name: bytes, id: u64, mode: u32, time: u64, list: buffer
    ) -> ChangeAnswer;

    /// Frees the file's entry and its extents.
    delete is goofs_delete(image: bytes, name: bytes, time: u64, list: buffer) -> ChangeAnswer;

    /// Gives the file of the old name the new one; a file that had it is deleted.
    rename is goofs_rename(
        image: bytes, old_name: bytes, new_name: bytes, time: u64, list: buffer
    ) -> ChangeAnswer;

    /// Up to eight renames in one change, each as the ones before it leave the names. `names` holds old and
    /// new names in turn, one after the other, and `lengths` the length of each. With 8 or 9 `place` is
    /// that of the rename, from 0 on.
    rename_set is goofs_rename_set(
        image: bytes, names: bytes, lengths: lengths, time: u64, list: buffer
    ) -> ChangeAnswer;

    /// Gives the file another size; what is added at its end is zero.
    resize is goofs_resize(
        image: bytes, name: bytes, size: u64, time: u64, list: buffer
    ) -> ChangeAnswer;

    /// Writes the data at an offset up to the size.
    write is goofs_write(
        image: bytes, name: bytes, offset: u64, data: bytes, time: u64, list: buffer
    ) -> ChangeAnswer;

    /// The list that frees the extents that belong to no file; on a clean volume with any fault. 13 if there
    /// are such extents and fewer than K are free.
    repair is goofs_repair(image: bytes, list: buffer) -> RepairAnswer;

    /// The list that finishes an interrupted change; empty for a clean volume.
    recover is goofs_recover(image: bytes, list: buffer) -> RecoverAnswer;

    /// At most `budget` sector writes of it: copies that are still missing, or, when none is, its end.
    recover_slice is goofs_recover_slice(image: bytes, budget: u64, list: buffer) -> SliceAnswer;

    /// The record at this position of the format of a medium with so many sectors.
    format_record is goofs_format_record(
        sectors: u64, files: u64, edition: u64, id: u64, mode: u32, time: u64, position: u64,
        output: buffer
    ) -> FormatRecordAnswer;

    /// The most bytes of the list of a call, a number of `goofs_call` in goofs.h, on a volume of this geometry.
    longest_list is goofs_longest_list(
        files: u64, extents: u64, extent_sectors: u64, call: u64
    ) -> LongestAnswer;

    /// Does all the writes of a list in their order, or none: 1 for the image, 8 for the list.
    carry_out is goofs_carry_out(image: buffer, list: bytes) -> u64;
}

// The forms that take only the sectors before the data area. Refusal 3 takes the count of sectors for the
// image's, and refusal 1 looks at what is lent.
calls! {
    summary_lent is goofs_summary_lent(front: bytes, sectors: u64) -> SummaryAnswer;

    check_lent is goofs_check_lent(front: bytes, sectors: u64) -> CheckAnswer;

    check_with_lent is goofs_check_with_lent(
        front: bytes, sectors: u64, scratch: numbers
    ) -> CheckAnswer;

    find_lent is goofs_find_lent(front: bytes, sectors: u64, name: bytes) -> FindAnswer;

    list_lent is goofs_list_lent(
        front: bytes, sectors: u64, index: u64, time: u64, output: buffer, list: buffer
    ) -> ListAnswer;

    /// Begins a read into an output of `room` bytes; the list is filled at once.
    read_lent is goofs_read_lent(
        front: bytes, sectors: u64, name: bytes, offset: u64, count: u64, time: u64, room: u64,
        list: buffer
    ) -> Reading;

    /// Takes the bytes of the sector that is wanted. Other than 512 bytes, or an output shorter than
    /// `count`, get 8 and change nothing else: the same sector can be supplied again.
    read_step is goofs_read_step(reading: Reading, sector: bytes, output: buffer) -> Reading;

    create_lent is goofs_create_lent(
        front: bytes, sectors: u64, name: bytes, id: u64, mode: u32, time: u64, list: buffer
    ) -> ChangeAnswer;

    delete_lent is goofs_delete_lent(
        front: bytes, sectors: u64, name: bytes, time: u64, list: buffer
    ) -> ChangeAnswer;

    rename_lent is goofs_rename_lent(
        front: bytes, sectors: u64, old_name: bytes, new_name: bytes, time: u64, list: buffer
    ) -> ChangeAnswer;

    rename_set_lent is goofs_rename_set_lent(
        front: bytes, sectors: u64, names: bytes, lengths: lengths, time: u64, list: buffer
    ) -> ChangeAnswer;

    /// Begins a resize. The list is whole when no sector is wanted any more.
    resize_lent is goofs_resize_lent(
        front: bytes, sectors: u64, name: bytes, size: u64, time: u64, list: buffer
    ) -> Writing;

    /// Begins a write. The list is whole when no sector is wanted any more.
    write_lent is goofs_write_lent(
        front: bytes, sectors: u64, name: bytes, offset: u64, data: bytes, time: u64, list: buffer
    ) -> Writing;

    /// Takes the bytes of the sector that is wanted, for the same list. Other than 512 bytes get 8 and
    /// change nothing else.
    write_step is goofs_write_step(writing: Writing, sector: bytes, list: buffer) -> Writing;

    repair_lent is goofs_repair_lent(front: bytes, sectors: u64, list: buffer) -> RepairAnswer;

    /// Begins a recovery. The list is whole when no sector is wanted any more.
    recover_lent is goofs_recover_lent(front: bytes, sectors: u64, list: buffer) -> Recovering;

    /// Takes the bytes of the sector that is wanted, for the same front and list. Other than 512 bytes get
    /// 8 and change nothing else.
    recover_step is goofs_recover_step(
        recovering: Recovering, front: bytes, sector: bytes, list: buffer
    ) -> Recovering;
}

#[cfg(test)]
mod tests {
    use super::*;
    use std::ptr::{null, null_mut};

    /// A caller in C may give a null pointer for an empty slice.
    #[test]
    fn null_pointers_of_empty_slices() {
        let one = 1;
        unsafe {
            assert_eq!(goofs_summary(null(), 0).code, one);
            assert_eq!(goofs_check(null(), 0).code, one);
            assert_eq!(goofs_check_with(null(), 0, null_mut(), 0).code, one);
            assert_eq!(goofs_find(null(), 0, null(), 0).code, one);
            let listed = goofs_list(null(), 0, 0, 0, null_mut(), 0, null_mut(), 0);
            assert_eq!(listed.code, one);
            let read = goofs_read(null(), 0, null(), 0, 0, 0, 0, null_mut(), 0, null_mut(), 0);
            assert_eq!(read.code, one);
            assert_eq!(
                goofs_create(null(), 0, null(), 0, 1, 0, 0, null_mut(), 0).code,
                one
            );
            assert_eq!(
                goofs_delete(null(), 0, null(), 0, 0, null_mut(), 0).code,
                one
            );
            assert_eq!(
                goofs_rename(null(), 0, null(), 0, null(), 0, 0, null_mut(), 0).code,
                one
            );
            let renamed = goofs_rename_set(null(), 0, null(), 0, null(), 0, 0, null_mut(), 0);
            assert_eq!(renamed.code, one);
            assert_eq!(
                goofs_resize(null(), 0, null(), 0, 1, 0, null_mut(), 0).code,
                one
            );
            assert_eq!(
                goofs_write(null(), 0, null(), 0, 0, null(), 0, 0, null_mut(), 0).code,
                one
            );
            assert_eq!(goofs_recover(null(), 0, null_mut(), 0).code, one);
            assert_eq!(goofs_recover_slice(null(), 0, 1, null_mut(), 0).code, one);
            assert_eq!(goofs_repair(null(), 0, null_mut(), 0).code, one);
            let too_short = goofs_format_record(1_313, 255, 1, 1, 0, 0, 0, null_mut(), 0);
            assert_eq!(too_short.code, 14);
            assert_eq!(goofs_carry_out(null_mut(), 0, null(), 0), one);
        }
    }

    /// The same of the forms that are lent the sectors before the data area, and of their steps, which
    /// nothing was asked for.
    #[test]
    fn null_pointers_of_empty_fronts() {
        let one = 1;
        unsafe {
            assert_eq!(goofs_summary_lent(null(), 0, 9).code, one);
            assert_eq!(goofs_check_lent(null(), 0, 9).code, one);
            assert_eq!(goofs_check_with_lent(null(), 0, 9, null_mut(), 0).code, one);
            assert_eq!(goofs_find_lent(null(), 0, 9, null(), 0).code, one);
            let listed = goofs_list_lent(null(), 0, 9, 0, 0, null_mut(), 0, null_mut(), 0);
            assert_eq!(listed.code, one);
            let read = goofs_read_lent(null(), 0, 9, null(), 0, 0, 0, 0, 0, null_mut(), 0);
            assert_eq!((read.code, read.wanted), (one, 0));
            let stepped = goofs_read_step(Reading::default(), null(), 0, null_mut(), 0);
            assert_eq!((stepped.code, stepped.wanted), (8, 0));
            assert_eq!(
                goofs_create_lent(null(), 0, 9, null(), 0, 1, 0, 0, null_mut(), 0).code,
                one
            );
            assert_eq!(
                goofs_delete_lent(null(), 0, 9, null(), 0, 0, null_mut(), 0).code,
                one
            );
            assert_eq!(
                goofs_rename_lent(null(), 0, 9, null(), 0, null(), 0, 0, null_mut(), 0).code,
                one
            );
            let set = goofs_rename_set_lent(null(), 0, 9, null(), 0, null(), 0, 0, null_mut(), 0);
            assert_eq!(set.code, one);
            let resized = goofs_resize_lent(null(), 0, 9, null(), 0, 1, 0, null_mut(), 0);
            assert_eq!((resized.code, resized.wanted.sector), (one, 0));
            let written = goofs_write_lent(null(), 0, 9, null(), 0, 0, null(), 0, 0, null_mut(), 0);
            assert_eq!((written.code, written.wanted.sector), (one, 0));
            let stepped = goofs_write_step(Writing::default(), null(), 0, null_mut(), 0);
            assert_eq!((stepped.code, stepped.wanted.sector), (8, 0));
            assert_eq!(goofs_repair_lent(null(), 0, 9, null_mut(), 0).code, one);
            assert_eq!(goofs_recover_lent(null(), 0, 9, null_mut(), 0).code, one);
            let recovering = Recovering::default();
            let stepped = goofs_recover_step(recovering, null(), 0, null(), 0, null_mut(), 0);
            assert_eq!((stepped.code, stepped.wanted), (8, 0));
        }
    }
}
