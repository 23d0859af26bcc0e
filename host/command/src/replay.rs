//! A log of calls replayed through the second program's ledger. Where a call may have been cut and the log
//! goes on without saying what became of it, both ends are followed.

use std::ffi::OsStr;

use goofs::log::{self, BadLine, Line, Lines};
use oracle::ledger::CutReport;
use oracle::{FormatRequest, Ledger, Lent, Request};

use crate::failure::{quoted, Failure};
use crate::text;

/// Longer than any list or output: in a log no call is refused for its buffers.
pub const LENT: Lent = Lent::both(usize::MAX);
/// Where calls were cut and the log doesn't say what became of them, both ends are followed. So many at
/// a time.
const MOST_WAYS: usize = 64;

/// A call, and what the log says of its end.
pub struct Call<'l> {
    pub number: usize,
    pub line: &'l Line,
    end: End<'l>,
}

enum End<'l> {
    Done,
    /// Another call follows, so it was done or refused.
    Followed,
    /// Not done; these data sectors landed.
    Cut(&'l [u64]),
    /// It may have been cut.
    Open,
}

/// One way in which the calls so far may have ended.
#[derive(Clone)]
pub struct Way {
    /// None before the first format.
    pub ledger: Option<Ledger>,
    /// A write over old bytes that is taken for not done here, of which some sectors may have landed.
    pub partial: Option<usize>,
    /// How many calls are done.
    pub done: usize,
}

/// What the calls before the open one give.
pub struct Replayed {
    /// At least one.
    pub ways: Vec<Way>,
    /// The lines of calls that the ledger refuses, and that so change nothing.
    pub refused: Vec<usize>,
}

/// A log that has been read.
pub struct Replay<'a> {
    file: &'a OsStr,
    pub read: &'a Lines,
    pub calls: Vec<Call<'a>>,
}

/// Makes failures of a line that can't be read.
fn of_line(file: &OsStr) -> impl Fn((usize, BadLine)) -> Failure + '_ {
    move |(number, why)| {
        let (what, next) = match why {
            BadLine::Damaged => (
                "it is damaged: its checksum is missing or wrong, and calls follow it",
                "see how the log was recorded; without this line nothing can be said of the card. Begin a \
                 new log, with a copy of the card for --from",
            ),
            BadLine::Unknown(ref text) => (
                &text[..],
                "see RELAY.md (in docs, or share/doc/goofs) for the lines of a log; a newer goofs may know this one",
            ),
        };
        Failure::Other(format!(
            "{}: line {number}: {what}.\nNext: {next}.",
            quoted(file)
        ))
    }
}

/// Reads the lines of a log.
pub fn lines(file: &OsStr, bytes: &[u8]) -> Result<Lines, Failure> {
    log::read(bytes).map_err(of_line(file))
}

/// The calls of a log. One that another call follows is done, if no start or recovery stands between.
fn calls<'l>(file: &OsStr, read: &'l Lines) -> Result<Vec<Call<'l>>, Failure> {
    let mut calls: Vec<Call> = Vec::new();
    // Whether the last call waits for its end, and whether it may have been cut.
    let (mut waits, mut is_cut) = (false, false);
    for (number, line) in &read.lines {
        let end = match line {
            Line::Start | Line::Recover => {
                is_cut = true;
                continue;
            }
            Line::Done => End::Done,
            Line::Cut { landed } => End::Cut(landed),
            _ => {
                if let (Some(last), true, false) = (calls.last_mut(), waits, is_cut) {
                    last.end = End::Followed;
                }
                calls.push(Call {
                    number: *number,
                    line,
                    end: End::Open,
                });
                (waits, is_cut) = (true, false);
                continue;
            }
        };
        match calls.last_mut().filter(|_| waits) {
            Some(last) => last.end = end,
            None => {
                return Err(of_line(file)((
                    *number,
                    BadLine::Unknown("it ends a call, and none waits for its end".to_string()),
                )))
            }
        }
        waits = false;
    }
    Ok(calls)
}

/// The call as the ledger takes it. Repair has nothing to do on a volume that a ledger describes.
pub fn request(line: &Line) -> Option<Request> {
    Some(match line.clone() {
        Line::Create {
            name,
            id,
            mode,
            time,
        } => Request::Create {
            name,
            id,
            mode,
            time,
        },
        Line::Delete { name, time } => Request::Delete { name, time },
        Line::Rename { old, new, time } => Request::Rename { old, new, time },
        Line::RenameSet { renames, time } => {
            let names = renames.into_iter().flat_map(|(old, new)| [old, new]);
            let names = Vec::from_iter(names);
            Request::RenameSet {
                lengths: names.iter().map(|name| name.len() as u64).collect(),
                names: names.concat(),
                time,
            }
        }
        Line::Resize { name, size, time } => Request::Resize { name, size, time },
        Line::Write {
            name,
            offset,
            data,
            time,
        } => Request::Write {
            name,
            offset,
            data,
            time,
        },
        Line::Read {
            name,
            offset,
            count,
            time,
        } => Request::Read {
            name,
            offset,
            count,
            time,
        },
        Line::List { index, time } => Request::List { index, time },
        Line::Start
        | Line::Format(_)
        | Line::Repair
        | Line::Recover
        | Line::Done
        | Line::Cut { .. } => return None,
    })
}

/// A call in a few words.
fn words(line: &Line) -> String {
    let word = |name: &[u8]| text::word(name);
    match line {
        Line::Create { name, .. } => format!("create {}", word(name)),
        Line::Delete { name, .. } => format!("delete {}", word(name)),
        Line::Rename { old, new, .. } => format!("rename {} to {}", word(old), word(new)),
        Line::RenameSet { renames, .. } => {
            let pairs = renames.iter();
            let pairs = pairs.map(|(old, new)| format!("{} to {}", word(old), word(new)));
            format!("rename {}", Vec::from_iter(pairs).join(", "))
        }
        Line::Resize { name, size, .. } => format!("resize {} to {size}", word(name)),
        Line::Write {
            name, offset, data, ..
        } => format!("write {} bytes at {offset} of {}", data.len(), word(name)),
        Line::Read { name, .. } => format!("read {}", word(name)),
        Line::List { index, .. } => format!("list entry {index}"),
        other => {
            let text = other.to_string();
            text.split(' ').next().unwrap_or_default().to_string()
        }
    }
}

pub fn cut(landed: &[u64]) -> CutReport {
    CutReport {
        start_mark: false,
        data_sectors: landed.iter().map(|place| *place as usize).collect(),
    }
}

impl<'a> Replay<'a> {
    pub fn new(file: &'a OsStr, read: &'a Lines) -> Result<Replay<'a>, Failure> {
        let calls = calls(file, read)?;
        Ok(Replay { file, read, calls })
    }

    /// The last call, if it may have been cut.
    pub fn open(&self) -> Option<&Call<'_>> {
        let last = self.calls.last();
        last.filter(|last| matches!(last.end, End::Open))
    }

    /// Replays the calls up to the open one.
    pub fn replayed(&self, from: Option<Ledger>) -> Result<Replayed, Failure> {
        if self.calls.is_empty() && from.is_none() {
            return Err(Failure::Other(format!(
                "{}: the log has no call, so there is nothing to hold the card against.\n\
                 Next: see that this is the right log; a volume that was there before it is given with \
                 --from COPY.",
                quoted(self.file)
            )));
        }
        let mut replayed = Replayed {
            ways: vec![Way {
                ledger: from,
                partial: None,
                done: 0,
            }],
            refused: Vec::new(),
        };
        for call in &self.calls {
            let is_format = matches!(call.line, Line::Format(_));
            if !is_format && replayed.ways.iter().all(|way| way.ledger.is_none()) {
                return Err(self.no_beginning(call));
            }
            if self.open().is_some_and(|open| open.number == call.number) {
                break;
            }
            self.follow(&mut replayed, call)?;
            if replayed.ways.len() > MOST_WAYS {
                return Err(Failure::Other(format!(
                    "{}: line {}: too many calls before this one may have been cut, and the log does not \
                     say what became of them.\n\
                     Next: audit the card after each cut, with --settle, which notes it in the log.",
                    quoted(self.file),
                    call.number
                )));
            }
        }
        Ok(replayed)
    }

    fn no_beginning(&self, call: &Call) -> Failure {
        Failure::Other(format!(
            "{}: line {}: the log begins with a {}, not with a format, so the volume was there before.\n\
             Next: give the copy of the card that was made before the first call, with --from COPY.",
            quoted(self.file),
            call.number,
            words(call.line)
        ))
    }

    /// The ledger after a format.
    pub fn formatted(&self, call: &Call) -> Result<Option<Ledger>, Failure> {
        let Line::Format(format) = call.line else {
            return Ok(None);
        };
        let ledger = Ledger::new(&FormatRequest {
            edition: format.edition.number(),
            sectors: format.sectors,
            files: format.files,
            id: format.id,
            mode: format.mode,
            time: format.time,
        });
        let refused = || {
            of_line(self.file)((
                call.number,
                BadLine::Unknown("a format of these arguments is refused".to_string()),
            ))
        };
        ledger.ok_or_else(refused).map(Some)
    }

    /// Follows a call that is not the open one at the end.
    fn follow(&self, replayed: &mut Replayed, call: &Call) -> Result<(), Failure> {
        let mut ways = std::mem::take(&mut replayed.ways);
        if let Some(ledger) = self.formatted(call)? {
            let formatted = vec![Way {
                ledger: Some(ledger),
                partial: None,
                done: ways.iter().map(|way| way.done).max().unwrap_or(0) + 1,
            }];
            replayed.ways = match call.end {
                End::Done | End::Followed => formatted,
                End::Cut(_) => ways,
                End::Open => [ways, formatted].concat(),
            };
            return Ok(());
        }
        let Some(request) = request(call.line) else {
            ways.iter_mut().for_each(|way| way.done += 1);
            replayed.ways = ways;
            return Ok(());
        };
        // Only calls that are not refused are logged, so a way in which this one is refused falls away
        // where there is another.
        let code = |ledger: &Ledger| ledger.answer(&request, LENT).code();
        let codes = ways.iter().filter_map(|way| way.ledger.as_ref()).map(code);
        let lowest = codes.min().unwrap_or(0);
        if lowest > 0 {
            if let End::Done = call.end {
                return Err(self.done_though_refused(call, lowest));
            }
            replayed.refused.push(call.number);
        }
        let mut after: Vec<Way> = Vec::new();
        let mut add = |way: Way| {
            if after.iter().all(|other| other.ledger != way.ledger) {
                after.push(way);
            }
        };
        for way in ways {
            let Some(mut ledger) = way.ledger.filter(|ledger| lowest > 0 || code(ledger) == 0)
            else {
                continue;
            };
            if let (End::Open, 0) = (&call.end, lowest) {
                let is_partial = writes_over(&ledger, call.line);
                add(Way {
                    ledger: Some(ledger.clone()),
                    partial: is_partial.then_some(call.number).or(way.partial),
                    done: way.done,
                });
            }
            let is_done = match call.end {
                End::Cut(landed) => {
                    ledger.cut_call(&request, LENT, &cut(landed));
                    false
                }
                _ => ledger.call(&request, LENT).answer.code() == 0,
            };
            add(Way {
                ledger: Some(ledger),
                partial: way.partial,
                done: way.done + usize::from(is_done),
            });
        }
        replayed.ways = after;
        Ok(())
    }

    fn done_though_refused(&self, call: &Call, code: u64) -> Failure {
        Failure::Other(format!(
            "{}: line {}: {} was done by the log, and the ledger refuses it ({code}).\n\
             Next: see that this is the log of one card and lacks no line, and that --from is a copy of the \
             card from before its first call. If so, the card had lost something before this line.",
            quoted(self.file),
            call.number,
            words(call.line)
        ))
    }

    /// The last call, in brackets.
    pub fn last(&self) -> String {
        let last = self.calls.last();
        last.map_or(String::new(), |call| {
            format!(" (line {}: {})", call.number, words(call.line))
        })
    }
}

/// Whether the call writes over bytes that the file has.
fn writes_over(ledger: &Ledger, line: &Line) -> bool {
    let Line::Write { name, offset, .. } = line else {
        return false;
    };
    let mut files = ledger.files();
    files.any(|(_, file)| file.name == *name && *offset < file.bytes.len() as u64)
}
