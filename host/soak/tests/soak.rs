//! Short soaks: without a difference, and with differences that are planted on the proved side.

use std::process::{Command, Output};

use oracle::answers::{
    code, CheckAnswer, FormatRecordAnswer, RecoverAnswer, RepairAnswer, SliceAnswer,
};
use oracle::layout::SECTOR;
use oracle::testing::beside::Calls;
use oracle::testing::Compared;
use oracle::{Answer, FormatRequest, Request};
use soak::case::Case;
use soak::lent::{geometry, Front, LentForms};
use soak::proved::Proved;
use soak::soaking::{put, soak, Limit, Outcome, Settings};
use soak::sums::Counts;

fn soaked(calls: &(impl Calls + LentForms + Sync), cases: u64, threads: usize) -> Outcome {
    let settings = Settings {
        seed: 1,
        threads,
        limit: Limit::Cases(cases),
    };
    soak(&settings, calls, |_, _| ())
}

#[test]
fn no_difference() {
    let outcome = soaked(&Proved, 36, 2);
    assert_eq!(outcome.difference, None);
    assert_eq!(outcome.sums.cases(), 36);
    for compared in Compared::ALL {
        assert!(outcome.sums.of(compared) > 0, "no {}", compared.name());
    }
}

/// Calls on other threads make no difference.
#[test]
fn same_sums_on_one_thread_and_on_three() {
    let one = soaked(&Proved, 18, 1);
    let three = soaked(&Proved, 18, 3);
    assert_eq!(one.difference, None);
    assert_eq!(three.difference, None);
    assert_eq!(one.sums, three.sums);
}

/// What is wrong on one side.
#[derive(Clone, Copy, Debug, PartialEq)]
enum Planted {
    /// A number in an answer.
    RenameIsDone,
    RepairFreedOneMore,
    SliceCountsOneLess,
    ScratchCheckOfAnotherPlace,
    /// A byte in a list, in an output, and behind a list.
    ListOfDelete,
    LastByteRead,
    ByteBehindRecovery,
    FormattedRoot,
    /// A byte of the image.
    CarriedOutElsewhere,
    /// In lent forms only: numbers, bytes, a sector asked for, and refusals of one sector too few.
    LentRenameIsDone,
    LentLastByteRead,
    LentListOfRecovery,
    LentSectorTwice,
    LentRepairFreedOneMore,
    LentCheckOfAnotherPlace,
    ShortFrontIsOther,
    FewerSectorsAreOther,
    /// So that what is found is what was planted.
    Nothing,
}

impl Calls for Planted {
    fn ask(&self, request: &Request, image: &[u8], output: &mut [u8], list: &mut [u8]) -> Answer {
        let mut answer = Proved.ask(request, image, output, list);
        match (self, request, &mut answer) {
            (Planted::RenameIsDone, Request::Rename { .. }, Answer::Change(answer))
                if answer.code == code::NOT_THERE =>
            {
                answer.code = code::DONE
            }
            (Planted::ListOfDelete, Request::Delete { .. }, Answer::Change(answer))
                if answer.length > 0 =>
            {
                list[answer.length as usize - 1_000] ^= 1
            }
            (Planted::LastByteRead, Request::Read { .. }, Answer::Read(answer))
                if answer.count > 512 =>
            {
                output[answer.count as usize - 1] ^= 128
            }
            _ => {}
        }
        answer
    }

    fn recover(&self, image: &[u8], list: &mut [u8]) -> RecoverAnswer {
        let answer = Proved.recover(image, list);
        if *self == Planted::ByteBehindRecovery && list.len() as u64 > answer.length {
            list[answer.length as usize] ^= 1;
        }
        answer
    }

    fn recover_slice(&self, image: &[u8], budget: u64, list: &mut [u8]) -> SliceAnswer {
        let mut answer = Proved.recover_slice(image, budget, list);
        if *self == Planted::SliceCountsOneLess && answer.count == 2 {
            answer.count = 1;
        }
        answer
    }

    fn format_record(
        &self,
        format: &FormatRequest,
        position: u64,
        output: &mut [u8],
    ) -> FormatRecordAnswer {
        let answer = Proved.format_record(format, position, output);
        if *self == Planted::FormattedRoot && position == 2 && answer.code == code::DONE {
            output[16 + 4] ^= 1;
        }
        answer
    }

    fn carry_out(&self, image: &mut [u8], list: &[u8]) -> u64 {
        let code = Proved.carry_out(image, list);
        if *self == Planted::CarriedOutElsewhere && code == code::DONE {
            *image.last_mut().expect("a byte") ^= 1;
        }
        code
    }

    fn check_with_scratch(&self, image: &[u8], scratch: &mut [u32]) -> CheckAnswer {
        let mut answer = Proved.check_with_scratch(image, scratch);
        if *self == Planted::ScratchCheckOfAnotherPlace && answer.fault == 26 {
            answer.place += 1;
        }
        answer
    }

    fn repair(&self, image: &[u8], list: &mut [u8]) -> RepairAnswer {
        let mut answer = Proved.repair(image, list);
        if *self == Planted::RepairFreedOneMore && answer.freed == 2 {
            answer.freed = 3;
        }
        answer
    }
}

impl LentForms for Planted {
    fn ask_lent(
        &self,
        request: &Request,
        front: &Front,
        output: &mut [u8],
        list: &mut [u8],
    ) -> (Answer, Vec<u64>) {
        let (mut answer, mut asked) = Proved.ask_lent(request, front, output, list);
        match (self, request, &mut answer) {
            (Planted::LentRenameIsDone, Request::Rename { .. }, Answer::Change(answer))
                if answer.code == code::NOT_THERE =>
            {
                answer.code = code::DONE
            }
            (Planted::LentLastByteRead, Request::Read { .. }, Answer::Read(answer))
                if answer.count > 512 =>
            {
                output[answer.count as usize - 1] ^= 128
            }
            (Planted::LentSectorTwice, Request::Write { .. }, Answer::Change(_)) => {
                asked.extend(asked.last().copied())
            }
            (Planted::ShortFrontIsOther, Request::Check, Answer::Check(answer))
                if answer.code == 3 && front.count as usize * SECTOR > front.image.len() =>
            {
                answer.code = 2
            }
            (Planted::FewerSectorsAreOther, Request::Check, Answer::Check(answer))
                if answer.code == 3
                    && geometry(front.image).is_some_and(|it| it.end().0 == front.count + 1) =>
            {
                answer.code = 2
            }
            _ => {}
        }
        (answer, asked)
    }

    fn recover_lent(&self, front: &Front, list: &mut [u8]) -> (RecoverAnswer, Vec<u64>) {
        let (answer, asked) = Proved.recover_lent(front, list);
        if *self == Planted::LentListOfRecovery && answer.length > 0 {
            list[16] ^= 1;
        }
        (answer, asked)
    }

    fn repair_lent(&self, front: &Front, list: &mut [u8]) -> RepairAnswer {
        let mut answer = Proved.repair_lent(front, list);
        if *self == Planted::LentRepairFreedOneMore && answer.freed == 2 {
            answer.freed = 3;
        }
        answer
    }

    fn check_with_lent(&self, front: &Front, scratch: &mut [u32]) -> CheckAnswer {
        let mut answer = Proved.check_with_lent(front, scratch);
        if *self == Planted::LentCheckOfAnotherPlace && answer.fault == 26 {
            answer.place += 1;
        }
        answer
    }
}

/// Each is found, its case as told replays it, and the proved side alone has no difference there.
#[test]
fn planted_differences_are_found_and_replayed() {
    for planted in [
        Planted::RenameIsDone,
        Planted::RepairFreedOneMore,
        Planted::SliceCountsOneLess,
        Planted::ScratchCheckOfAnotherPlace,
        Planted::ListOfDelete,
        Planted::LastByteRead,
        Planted::ByteBehindRecovery,
        Planted::FormattedRoot,
        Planted::CarriedOutElsewhere,
        Planted::LentRenameIsDone,
        Planted::LentLastByteRead,
        Planted::LentListOfRecovery,
        Planted::LentSectorTwice,
        Planted::LentRepairFreedOneMore,
        Planted::LentCheckOfAnotherPlace,
        Planted::ShortFrontIsOther,
        Planted::FewerSectorsAreOther,
    ] {
        let outcome = soaked(&planted, 36, 1);
        let difference = outcome.difference.expect("it is found");
        let told: Case = difference.case.to_string().parse().expect("a case");
        let counts = Counts::default();
        assert_eq!(put(told, &planted, &counts), Err(difference), "{planted:?}");
        assert_eq!(put(told, &Proved, &counts), Ok(()), "{planted:?}");
    }
    assert_eq!(soaked(&Planted::Nothing, 6, 1).difference, None);
}

fn command(arguments: &[&str]) -> Output {
    let soak = Command::new(env!("CARGO_BIN_EXE_soak"))
        .args(arguments)
        .output();
    soak.expect("the command is run")
}

#[test]
fn as_a_command() {
    let done = command(&["--cases", "6", "--seed", "3", "--threads", "1"]);
    let text = String::from_utf8(done.stdout).expect("text");
    assert!(done.status.success(), "{text}");
    assert!(text.starts_with("seed 3, 1 threads\n"), "{text}");
    assert!(text.contains("\nno difference in 0."), "{text}");
    assert!(done.stderr.is_empty(), "quiet where no terminal is");

    let replayed = command(&["--replay", "edge:5"]);
    assert!(replayed.status.success());
    assert_eq!(replayed.stdout, b"edge:5: no difference\n");

    for bad in [
        &["--replay", "edge"][..],
        &["--minutes", "-1"],
        &["--minutes"],
        &["--seed", "x"],
        &["--hours", "1"],
    ] {
        assert_eq!(command(bad).status.code(), Some(2), "{bad:?}");
    }
}

/// Two soaks without a seed don't draw the same cases.
#[test]
fn fresh_seeds() {
    let first_lines = [(); 2].map(|()| {
        let text = String::from_utf8(command(&["--cases", "0"]).stdout).expect("text");
        text.lines().next().expect("a line").to_string()
    });
    assert!(first_lines[0].starts_with("seed "));
    assert_ne!(first_lines[0], first_lines[1]);
}
