//! The calls of the proved library, with the second program's requests and answers.

use oracle::answers::{CheckAnswer, FormatRecordAnswer, RecoverAnswer, RepairAnswer, SliceAnswer};
use oracle::testing::beside::Calls;
use oracle::{Answer, FormatRequest, Request};

/// The oracle's answer with the same fields; neither side may have one that the other lacks.
macro_rules! as_oracle {
    ($answer:expr, $kind:ident { $($field:ident),* $(,)? }) => {{
        let goofs::$kind { $($field),* } = $answer;
        oracle::answers::$kind { $($field),* }
    }};
}
pub(crate) use as_oracle;

pub struct Proved;

impl Calls for Proved {
    fn ask(&self, request: &Request, image: &[u8], output: &mut [u8], list: &mut [u8]) -> Answer {
        match request {
            Request::Summary => Answer::Summary(as_oracle!(
                goofs::summary(image),
                SummaryAnswer {
                    code,
                    files,
                    extents,
                    extent_sectors,
                    state,
                    entries,
                    edition,
                }
            )),
            Request::Check => Answer::Check(as_oracle!(
                goofs::check(image),
                CheckAnswer { code, fault, place }
            )),
            Request::Find { name } => Answer::Find(as_oracle!(
                goofs::find(image, name),
                FindAnswer {
                    code,
                    fault,
                    place,
                    index,
                    size,
                    version,
                    id,
                    mode,
                    access_time,
                    change_time,
                    name_length,
                }
            )),
            Request::List { index, time } => Answer::List(as_oracle!(
                goofs::list(image, *index, *time, output, list),
                ListAnswer {
                    code,
                    fault,
                    place,
                    size,
                    version,
                    id,
                    mode,
                    access_time,
                    change_time,
                    name_length,
                    length,
                }
            )),
            Request::Read {
                name,
                offset,
                count,
                time,
            } => Answer::Read(as_oracle!(
                goofs::read(image, name, *offset, *count, *time, output, list),
                ReadAnswer {
                    code,
                    fault,
                    place,
                    count,
                    length,
                }
            )),
            _ => ask_change(request, image, list),
        }
    }

    fn recover(&self, image: &[u8], list: &mut [u8]) -> RecoverAnswer {
        as_oracle!(goofs::recover(image, list), RecoverAnswer { code, length })
    }

    fn recover_slice(&self, image: &[u8], budget: u64, list: &mut [u8]) -> SliceAnswer {
        as_oracle!(
            goofs::recover_slice(image, budget, list),
            SliceAnswer {
                code,
                length,
                count,
            }
        )
    }

    fn format_record(
        &self,
        format: &FormatRequest,
        position: u64,
        output: &mut [u8],
    ) -> FormatRecordAnswer {
        let FormatRequest {
            edition,
            sectors,
            files,
            id,
            mode,
            time,
        } = *format;
        as_oracle!(
            goofs::format_record(sectors, files, edition, id, mode, time, position, output),
            FormatRecordAnswer { code, length }
        )
    }

    fn carry_out(&self, image: &mut [u8], list: &[u8]) -> u64 {
        goofs::carry_out(image, list)
    }

    fn check_with_scratch(&self, image: &[u8], scratch: &mut [u32]) -> CheckAnswer {
        as_oracle!(
            goofs::check_with(image, scratch),
            CheckAnswer { code, fault, place }
        )
    }

    fn repair(&self, image: &[u8], list: &mut [u8]) -> RepairAnswer {
        as_oracle!(
            goofs::repair(image, list),
            RepairAnswer {
                code,
                fault,
                place,
                length,
                freed,
            }
        )
    }
}

fn ask_change(request: &Request, image: &[u8], list: &mut [u8]) -> Answer {
    let answer = match request {
        Request::Create {
            name,
            id,
            mode,
            time,
        } => goofs::create(image, name, *id, *mode, *time, list),
        Request::Delete { name, time } => goofs::delete(image, name, *time, list),
        Request::Resize { name, size, time } => goofs::resize(image, name, *size, *time, list),
        Request::Write {
            name,
            offset,
            data,
            time,
        } => goofs::write(image, name, *offset, data, *time, list),
        Request::Rename { old, new, time } => goofs::rename(image, old, new, *time, list),
        Request::RenameSet {
            names,
            lengths,
            time,
        } => goofs::rename_set(image, names, lengths, *time, list),
        _ => unreachable!("the reading calls have other answers"),
    };
    Answer::Change(as_oracle!(
        answer,
        ChangeAnswer {
            code,
            fault,
            place,
            length,
        }
    ))
}
