//! The calls by their lent forms, which have only the sectors before the data area, beside the oracle on the whole
//! image: the same answers, lists and outputs, and the sectors that they ask for in the oracle's order. In
//! between, steps with other than a sector are made, which must be refused and leave all as it was.

use goofs::{Part, Reading, Recovering, Writing};
use oracle::answers::{CheckAnswer, RecoverAnswer, RepairAnswer};
use oracle::draw::Draw;
use oracle::layout::{get16, get32, Geometry, SECTOR};
use oracle::testing::beside::same_bytes;
use oracle::testing::buffers::{LentBuffer, LentScratch};
use oracle::testing::requests::shortened;
use oracle::testing::wanted::{wanted, wanted_by_recovery};
use oracle::testing::{Filled, Oracle, Subject};
use oracle::{Answer, Lent, Request};

use crate::proved::{as_oracle, Proved};

/// The geometry that a superblock names, if it is within the bounds.
pub fn geometry(image: &[u8]) -> Option<Geometry> {
    let superblock = image.get(..SECTOR)?;
    let [files, extents] = [0, 2].map(|at| u64::from(get16(superblock, at)));
    Geometry::new(files, extents, u64::from(get32(superblock, 4)))
}

/// The length of the sectors before the data area, if these are whole sectors with all of them.
pub fn front_length(lent: &[u8]) -> Option<usize> {
    let length = geometry(lent)?.data_at().0 as usize * SECTOR;
    let is_front = lent.len().is_multiple_of(SECTOR) && length <= lent.len();
    is_front.then_some(length)
}

/// What is lent of an image, with a count of sectors, and the image that the forms go by.
pub struct Front<'i> {
    pub sectors: &'i [u8],
    pub count: u64,
    pub image: &'i [u8],
}

impl<'i> Front<'i> {
    /// The image's sectors before the data area, and some more of them in some turns; all of an image that
    /// ends before the data area. And its count of sectors.
    pub fn of(image: &'i [u8], turn: usize) -> Front<'i> {
        let length = front_length(image).unwrap_or(image.len());
        let sectors = match turn % 5 {
            0 => &image[..image.len().min(length + SECTOR)],
            1 => image,
            _ => &image[..length],
        };
        Front {
            sectors,
            count: (image.len() / SECTOR) as u64,
            image,
        }
    }

    /// The same, or of a volume one sector too few lent or counted, which is refused as an image of so many is.
    pub fn draw(image: &'i [u8], draw: &mut Draw) -> Front<'i> {
        let front = Front::of(image, draw.below(5) as usize);
        let Some(length) = front_length(image) else {
            return front;
        };
        let end = geometry(image).map_or(0, |geometry| geometry.end().0);
        let fewer = front.count.min(end - 1);
        match draw.below(8) {
            0 => Front {
                sectors: &image[..length - SECTOR],
                image: &image[..length - SECTOR],
                ..front
            },
            1 => Front {
                count: fewer,
                image: &image[..fewer as usize * SECTOR],
                ..front
            },
            _ => front,
        }
    }

    /// For what a difference says.
    fn told(&self) -> String {
        let (length, count) = (self.sectors.len(), self.count);
        format!("the first {length} bytes of {count} sectors")
    }

    pub fn sector(&self, sector: u64) -> &'i [u8] {
        assert!(geometry(self.image).is_some_and(|geometry| sector >= geometry.data_at().0));
        &self.image[sector as usize * SECTOR..][..SECTOR]
    }
}

/// A call that asks for sectors.
pub trait Asking: Copy + PartialEq + std::fmt::Debug {
    fn code(&self) -> u64;

    /// The sector that is wanted; 0 for none.
    fn wanted(&self) -> u64;

    /// The same, refused with 8.
    fn refused(self) -> Self;
}

impl Asking for Reading {
    fn code(&self) -> u64 {
        self.code
    }

    fn wanted(&self) -> u64 {
        self.wanted
    }

    fn refused(self) -> Reading {
        Reading { code: 8, ..self }
    }
}

impl Asking for Writing {
    fn code(&self) -> u64 {
        self.code
    }

    fn wanted(&self) -> u64 {
        self.wanted.sector
    }

    fn refused(self) -> Writing {
        Writing { code: 8, ..self }
    }
}

impl Asking for Recovering {
    fn code(&self) -> u64 {
        self.code
    }

    fn wanted(&self) -> u64 {
        self.wanted
    }

    fn refused(self) -> Recovering {
        Recovering { code: 8, ..self }
    }
}

/// A step of a call: it takes a sector's bytes, and fills a buffer.
pub type Step<'s, A> = dyn Fn(A, &[u8], &mut [u8]) -> A + 's;

/// Steps that must be refused: nothing but the code changes, in the call and in the buffer.
pub fn refused_steps<A: Asking>(
    call: A,
    buffer: &mut [u8],
    supplies: &[&[u8]],
    step: &Step<'_, A>,
) {
    let held = buffer.to_vec();
    for bytes in supplies {
        assert_eq!(step(call, bytes, buffer), call.refused());
        assert!(buffer == held, "a refused step changed the buffer");
    }
}

/// Supplies a call with what it asks for, in between other than a sector, and after the end once more. Gives
/// the call as it is then, and the sectors that it asked for.
fn supplied<A: Asking>(
    begun: A,
    front: &Front,
    buffer: &mut [u8],
    step: &Step<'_, A>,
) -> (A, Vec<u64>) {
    let mut call = begun;
    let mut asked = Vec::new();
    while call.code() == 0 && call.wanted() != 0 {
        asked.push(call.wanted());
        let sector = front.sector(call.wanted());
        // Of long reads the first and the last steps.
        if asked.len() < 3 || asked.len() > 126 {
            let longer = [sector, &[7]].concat();
            refused_steps(call, buffer, &[&[], &sector[..511], &longer], step);
        }
        // A step that was refused can be made again.
        let again = match asked.len() % 2 {
            0 => call,
            _ => call.refused(),
        };
        call = step(again, sector, buffer);
    }
    if call.code() == 0 {
        refused_steps(call, buffer, &[&[], &front.image[..SECTOR]], step);
    }
    (call, asked)
}

/// The oracle's answer of a read, write or recovery with nothing more to ask for.
fn read_answer(call: Reading) -> Answer {
    let Reading {
        code,
        fault,
        place,
        count,
        length,
        wanted,
        skip,
        done,
        ..
    } = call;
    assert_eq!((wanted, skip), (0, 0));
    assert_eq!(done, count, "of a read that is at its end");
    Answer::Read(oracle::answers::ReadAnswer {
        code,
        fault,
        place,
        count,
        length,
    })
}

fn change_answer(call: Writing) -> Answer {
    let Writing {
        code,
        fault,
        place,
        length,
        wanted,
        last,
        full,
    } = call;
    assert_eq!((wanted, last), (Part::default(), Part::default()));
    assert_eq!(full, length);
    Answer::Change(oracle::answers::ChangeAnswer {
        code,
        fault,
        place,
        length,
    })
}

fn recover_answer(call: Recovering) -> RecoverAnswer {
    let Recovering {
        code,
        length,
        wanted,
        full,
        ..
    } = call;
    assert_eq!((wanted, full), (0, length));
    RecoverAnswer { code, length }
}

fn changed(answer: goofs::ChangeAnswer) -> (Answer, Vec<u64>) {
    let answer = as_oracle!(
        answer,
        ChangeAnswer {
            code,
            fault,
            place,
            length,
        }
    );
    (Answer::Change(answer), Vec::new())
}

/// The lent forms of the proved library, or of what stands for it in a test. Those that ask for sectors are supplied
/// with them, and give which they were.
pub trait LentForms {
    fn ask_lent(
        &self,
        request: &Request,
        front: &Front,
        output: &mut [u8],
        list: &mut [u8],
    ) -> (Answer, Vec<u64>);

    fn recover_lent(&self, front: &Front, list: &mut [u8]) -> (RecoverAnswer, Vec<u64>);

    fn repair_lent(&self, front: &Front, list: &mut [u8]) -> RepairAnswer;

    fn check_with_lent(&self, front: &Front, scratch: &mut [u32]) -> CheckAnswer;
}

impl LentForms for Proved {
    fn ask_lent(
        &self,
        request: &Request,
        front: &Front,
        output: &mut [u8],
        list: &mut [u8],
    ) -> (Answer, Vec<u64>) {
        let Front { sectors, count, .. } = *front;
        let at_once = |answer| (answer, Vec::new());
        match request {
            Request::Summary => at_once(Answer::Summary(as_oracle!(
                goofs::summary_lent(sectors, count),
                SummaryAnswer {
                    code,
                    files,
                    extents,
                    extent_sectors,
                    state,
                    entries,
                    edition,
                }
            ))),
            Request::Check => at_once(Answer::Check(as_oracle!(
                goofs::check_lent(sectors, count),
                CheckAnswer { code, fault, place }
            ))),
            Request::Find { name } => at_once(Answer::Find(as_oracle!(
                goofs::find_lent(sectors, count, name),
                FindAnswer {
                    code,
                    fault,
                    place,
                    index,
                    size,
                    version,
                    id,
                    mode,
                    access_time,
                    change_time,
                    name_length,
                }
            ))),
            Request::List { index, time } => at_once(Answer::List(as_oracle!(
                goofs::list_lent(sectors, count, *index, *time, output, list),
                ListAnswer {
                    code,
                    fault,
                    place,
                    size,
                    version,
                    id,
                    mode,
                    access_time,
                    change_time,
                    name_length,
                    length,
                }
            ))),
            Request::Read {
                name,
                offset,
                count: asked,
                time,
            } => {
                let room = output.len() as u64;
                let begun =
                    goofs::read_lent(sectors, count, name, *offset, *asked, *time, room, list);
                let (call, wanted) = supplied(begun, front, output, &goofs::read_step);
                (read_answer(call), wanted)
            }
            Request::Resize { name, size, time } => {
                let begun = goofs::resize_lent(sectors, count, name, *size, *time, list);
                let (call, wanted) = supplied(begun, front, list, &goofs::write_step);
                (change_answer(call), wanted)
            }
            Request::Write {
                name,
                offset,
                data,
                time,
            } => {
                let begun = goofs::write_lent(sectors, count, name, *offset, data, *time, list);
                let (call, wanted) = supplied(begun, front, list, &goofs::write_step);
                (change_answer(call), wanted)
            }
            Request::Create {
                name,
                id,
                mode,
                time,
            } => changed(goofs::create_lent(
                sectors, count, name, *id, *mode, *time, list,
            )),
            Request::Delete { name, time } => {
                changed(goofs::delete_lent(sectors, count, name, *time, list))
            }
            Request::Rename { old, new, time } => {
                changed(goofs::rename_lent(sectors, count, old, new, *time, list))
            }
            Request::RenameSet {
                names,
                lengths,
                time,
            } => changed(goofs::rename_set_lent(
                sectors, count, names, lengths, *time, list,
            )),
        }
    }

    fn recover_lent(&self, front: &Front, list: &mut [u8]) -> (RecoverAnswer, Vec<u64>) {
        let begun = goofs::recover_lent(front.sectors, front.count, list);
        let step = |call, bytes: &[u8], list: &mut [u8]| {
            goofs::recover_step(call, front.sectors, bytes, list)
        };
        let (call, asked) = supplied(begun, front, list, &step);
        (recover_answer(call), asked)
    }

    fn repair_lent(&self, front: &Front, list: &mut [u8]) -> RepairAnswer {
        as_oracle!(
            goofs::repair_lent(front.sectors, front.count, list),
            RepairAnswer {
                code,
                fault,
                place,
                length,
                freed,
            }
        )
    }

    fn check_with_lent(&self, front: &Front, scratch: &mut [u32]) -> CheckAnswer {
        as_oracle!(
            goofs::check_with_lent(front.sectors, front.count, scratch),
            CheckAnswer { code, fault, place }
        )
    }
}

/// Puts a call to its lent form: it must answer and fill what the oracle does on the front's image, and ask for the
/// sectors that the oracle names.
pub fn ask_alike(
    forms: &impl LentForms,
    request: &Request,
    front: &Front,
    lent: Lent,
) -> (Answer, Filled) {
    let (expected, expected_bytes) = Oracle.ask(request, front.image, lent);
    let mut output = LentBuffer::new(lent.output);
    let mut list = LentBuffer::new(lent.list);
    let (answer, asked) = forms.ask_lent(request, front, output.lent(), list.lent());
    let filled = Filled {
        output: output.filled(answer.output_length()),
        list: list.filled(answer.list_length()),
    };
    let what = || format!("{} with {lent:?}, {}", shortened(request), front.told());
    assert_eq!(answer, expected, "{}", what());
    same_bytes(&filled.output, &expected_bytes.output, what);
    same_bytes(&filled.list, &expected_bytes.list, what);
    assert_eq!(asked, wanted(request, front.image, lent), "{}", what());
    (answer, filled)
}

pub fn recover_alike(
    forms: &impl LentForms,
    front: &Front,
    list_length: usize,
) -> (RecoverAnswer, Vec<u8>) {
    let expected = Oracle.recover(front.image, list_length);
    let mut list = LentBuffer::new(list_length);
    let (answer, asked) = forms.recover_lent(front, list.lent());
    let found = (answer, list.filled(answer.length as usize));
    let what = || format!("recovery with {list_length} bytes lent, {}", front.told());
    assert_eq!(found.0, expected.0, "{}", what());
    same_bytes(&found.1, &expected.1, what);
    assert_eq!(
        asked,
        wanted_by_recovery(front.image, list_length),
        "{}",
        what()
    );
    found
}

pub fn repair_alike(
    forms: &impl LentForms,
    front: &Front,
    list_length: usize,
) -> (RepairAnswer, Vec<u8>) {
    let expected = Oracle.repair(front.image, list_length);
    let mut list = LentBuffer::new(list_length);
    let answer = forms.repair_lent(front, list.lent());
    let found = (answer, list.filled(answer.length as usize));
    let what = || format!("repair with {list_length} bytes lent, {}", front.told());
    assert_eq!(found.0, expected.0, "{}", what());
    same_bytes(&found.1, &expected.1, what);
    found
}

pub fn check_alike(forms: &impl LentForms, front: &Front, scratch_length: usize) -> CheckAnswer {
    let expected = Oracle.check_with_scratch(front.image, scratch_length);
    let mut scratch = LentScratch::new(scratch_length);
    let found = forms.check_with_lent(front, scratch.lent());
    let what = || format!("check with {scratch_length} numbers lent, {}", front.told());
    assert_eq!(found, expected, "{}", what());
    scratch.assert_kept(found.code);
    found
}

#[cfg(test)]
mod tests {
    use super::*;

    /// A recovery that wants one sector of the smallest volume, supplied by this step.
    fn recovered(step: &Step<'_, Recovering>) -> (Recovering, Vec<u64>) {
        let mut image = vec![0; 547 * SECTOR];
        image[..8].copy_from_slice(&[0, 255, 0, 2, 0, 0, 0, 128]);
        let begun = Recovering {
            wanted: 300,
            full: 1,
            ..Recovering::default()
        };
        supplied(begun, &Front::of(&image, 2), &mut [0; 9], step)
    }

    fn done(call: Recovering) -> Recovering {
        Recovering {
            code: 0,
            wanted: 0,
            length: 1,
            ..call
        }
    }

    #[test]
    fn steps_refused_in_between() {
        let (call, asked) = recovered(&|call, bytes, _| match (bytes.len(), call.wanted) {
            (SECTOR, 1..) => done(call),
            _ => call.refused(),
        });
        assert_eq!((call.code, call.length, asked), (0, 1, vec![300]));
    }

    #[test]
    #[should_panic(expected = "left == right")]
    fn step_with_a_byte_too_few_is_taken() {
        recovered(&|call, bytes, _| match (bytes.len(), call.wanted) {
            (511 | SECTOR, 1..) => done(call),
            _ => call.refused(),
        });
    }

    #[test]
    #[should_panic(expected = "a refused step changed the buffer")]
    fn refused_step_that_fills() {
        recovered(&|call, bytes, buffer| match (bytes.len(), call.wanted) {
            (SECTOR, 1..) => done(call),
            (length, _) => {
                buffer[0] = length as u8;
                call.refused()
            }
        });
    }
}
