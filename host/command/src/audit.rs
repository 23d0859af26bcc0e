//! The command audit: a log of calls is replayed through the ledger of the second program, and the volume
//! on the card is held against it. So the ledger of the rules is a program: of the last call, which may
//! have been cut, it says whether it is done or not done, and which of its data sectors landed.

use std::ffi::OsStr;
use std::fs::{self, OpenOptions};

use goofs::error::{Error, Refusal};
use goofs::image::Image;
use goofs::log::{Line, Log};
use oracle::layout::SECTOR;
use oracle::Ledger;

use crate::arguments::Arguments;
use crate::card;
use crate::differences::differences;
use crate::failure::{of_card, of_file, quoted, Failure};
use crate::output::print;
use crate::replay::{self, cut, request, Replay, Replayed, LENT};

/// What became of the last call.
enum Ending {
    Known,
    Done,
    NotDone(Vec<u64>),
}

pub fn audit(arguments: &Arguments) -> Result<(), Failure> {
    let places = arguments.places(&["LOG", "CARD"])?;
    let (file, card) = (&places[0], &places[1]);
    let bytes = fs::read(file).map_err(of_file(file))?;
    let lines = replay::lines(file, &bytes)?;
    let replay = Replay::new(file, &lines)?;
    let from = match arguments.word("from") {
        Some(copy) => Some(beginning(arguments, copy)?),
        None => None,
    };
    let replayed = replay.replayed(from)?;
    let audit = Audit { file, card, replay };
    let (ending, done) = audit.held(arguments, &replayed)?;
    print(&audit.told(&ending, done, &replayed))?;
    if arguments.flag("settle") {
        let line = match ending {
            Ending::Known => return Ok(()),
            Ending::Done => Line::Done,
            Ending::NotDone(landed) => Line::Cut { landed },
        };
        let log = OpenOptions::new().read(true).append(true).open(file);
        let settled = log.and_then(Log::at_the_end).and_then(|mut log| {
            log.end(&line)?;
            log.sync()
        });
        settled.map_err(of_file(file))?;
    }
    Ok(())
}

/// The volume that the log begins from, as a copy of the card shows it.
fn beginning(arguments: &Arguments, copy: &OsStr) -> Result<Ledger, Failure> {
    let mut image = card::whole(copy, arguments.wait()?)?;
    recover(&mut image).map_err(of_card(copy))?;
    image.check().map_err(of_card(copy))?;
    let described = Ledger::described(image.bytes());
    Ok(described.expect("the image of a volume describes one").0)
}

/// In memory.
fn recover(image: &mut Image) -> Result<(), Error> {
    let list = image.recovery()?;
    Ok(image.carry_out(&list)?)
}

/// Where the write's data sector of this place begins and ends in the file, as far as the write goes.
fn span(offset: usize, end: usize, place: usize) -> (usize, usize) {
    let start = (offset / SECTOR + place) * SECTOR;
    (start.max(offset), (start + SECTOR).min(end))
}

/// The data sectors of a write that show their new bytes, by their place among the write's. Those that
/// lie past the file's old end, or whose new bytes are the old ones, show nothing.
fn landed(before: &Ledger, found: &Ledger, line: &Line) -> Vec<u64> {
    let Line::Write {
        name, offset, data, ..
    } = line
    else {
        return Vec::new();
    };
    let bytes = |ledger: &Ledger| {
        let file = ledger.files().find(|(_, file)| file.name == *name);
        file.map(|(_, file)| file.bytes.clone()).unwrap_or_default()
    };
    let (old, now) = (bytes(before), bytes(found));
    let Ok(offset) = usize::try_from(*offset) else {
        return Vec::new();
    };
    let end = offset.saturating_add(data.len());
    let end = end.min(old.len()).min(now.len());
    (0..)
        .take_while(|place| span(offset, end, *place).0 < end)
        .filter(|place| {
            let (from, to) = span(offset, end, *place);
            old[from..to] != now[from..to]
        })
        .map(|place| place as u64)
        .collect()
}

struct Audit<'a> {
    file: &'a OsStr,
    card: &'a OsStr,
    replay: Replay<'a>,
}

impl Audit<'_> {
    /// Holds the card against the ways. Gives what became of the last call, and how many are done.
    fn held(&self, arguments: &Arguments, replayed: &Replayed) -> Result<(Ending, usize), Failure> {
        let ways = &replayed.ways[..];
        let most_done = ways.iter().map(|way| way.done).max().unwrap_or(0);
        let not_done = || Ok((Ending::NotDone(Vec::new()), most_done));
        let formatted = match self.replay.open() {
            Some(call) => self.replay.formatted(call)?,
            None => None,
        };
        let mut image = match card::whole(self.card, arguments.wait()?) {
            // Before the first write of the first format there is no volume.
            Err(Failure::Card {
                error: Error::Refused(Refusal::NotWholeSectors | Refusal::NotAVolume),
                ..
            }) if formatted.is_some() && ways[0].ledger.is_none() => {
                return not_done();
            }
            image => image?,
        };
        let described = |image: &Image| {
            Ledger::described(image.bytes()).expect("the image of a volume describes one")
        };
        let geometry = |ledger: &Ledger| (ledger.edition(), ledger.geometry());
        match (recover(&mut image), &formatted) {
            (Err(Error::Refused(Refusal::Unfinished)), Some(format))
                if geometry(format) == geometry(&described(&image).0) =>
            {
                return not_done();
            }
            (recovered, _) => recovered.map_err(of_card(self.card))?,
        }
        let (found, surplus) = described(&image);
        let mut tried: Vec<(Ledger, Ending, usize)> = Vec::new();
        for way in ways {
            let done_before = way.done;
            match (self.replay.open(), way.ledger.clone()) {
                (None, ledger) => {
                    tried.extend(ledger.map(|ledger| (ledger, Ending::Known, done_before)));
                }
                (Some(call), Some(ledger)) => {
                    let request = request(call.line)
                        .filter(|request| ledger.answer(request, LENT).code() == 0);
                    if let Some(request) = request {
                        let mut done = ledger.clone();
                        done.call(&request, LENT);
                        tried.push((done, Ending::Done, done_before + 1));
                        let landed = landed(&ledger, &found, call.line);
                        let mut not_done = ledger;
                        not_done.cut_call(&request, LENT, &cut(&landed));
                        tried.push((not_done, Ending::NotDone(landed), done_before));
                    } else {
                        let (ending, done) = match call.line {
                            // What it frees, no ledger has.
                            Line::Repair => (Ending::Done, done_before + 1),
                            _ => (Ending::NotDone(Vec::new()), done_before),
                        };
                        tried.push((ledger, ending, done));
                    }
                }
                (Some(_), None) => (),
            }
        }
        tried.extend(formatted.map(|ledger| (ledger, Ending::Done, most_done + 1)));
        if tried.is_empty() {
            return Err(Failure::Other(format!(
                "{}: no format of the log was done, so there is no volume to hold the card against.\n\
                 Next: format the card again, with --log.",
                quoted(self.file)
            )));
        }
        let fits = |ledger: &Ledger| ledger.compare(image.bytes()).is_ok();
        if let Some(at) = tried.iter().position(|(ledger, ..)| fits(ledger)) {
            let (_, ending, done) = tried.swap_remove(at);
            return Ok((ending, done));
        }
        let differing = tried.iter().map(|(ledger, ending, _)| {
            let mut lines = differences(ledger, &found, &surplus);
            if lines.is_empty() {
                // Marks and other bytes that no entry shows.
                lines.extend(ledger.compare(image.bytes()).err());
            }
            (lines, ending)
        });
        // The shortest text tells most of what happened.
        let nearest = differing.min_by_key(|(lines, _)| lines.concat().len());
        let (mut lines, ending) = nearest.expect("there is a way, and something to try");
        if let Err(refusal) = image.check() {
            lines.insert(0, refusal.to_string());
        }
        Err(self.differs(&lines, ending, replayed))
    }

    /// The line of a volume that is what the log gives.
    fn told(&self, ending: &Ending, done: usize, replayed: &Replayed) -> String {
        let (card, all) = (quoted(self.card), self.replay.calls.len());
        let count = match done == all {
            true => format!("all of its {all}"),
            false => format!("{done} of its {all}"),
        };
        let mut text = format!("{card}: as the log says, with {count} calls done");
        let last = self.replay.last();
        match ending {
            Ending::Known => (),
            Ending::Done => text += &format!("; the last{last} is done"),
            Ending::NotDone(landed) => {
                text += &format!("; the last{last} is not done");
                match self.replay.open().map(|call| call.line) {
                    Some(Line::Format(_)) => text += "; next: format again",
                    Some(Line::Write { .. }) if landed.is_empty() => {
                        text += ", and shows none of its data sectors";
                    }
                    Some(Line::Write { .. }) => {
                        let places: Vec<String> = landed.iter().map(u64::to_string).collect();
                        text += &format!(", and its data sectors {} landed", places.join(", "));
                    }
                    _ => (),
                }
            }
        }
        if let Some(number) = replayed.refused.first() {
            let refused = replayed.refused.len();
            text +=
                &format!("; refused, and so without effect: {refused}, the first in line {number}");
        }
        if let Some(number) = self.replay.read.cut_off_at_the_end() {
            text += &format!("; line {number} is cut off, so what it was to say had not begun");
        }
        text + "\n"
    }

    fn differs(&self, lines: &[String], ending: &Ending, replayed: &Replayed) -> Failure {
        let against = match ending {
            Ending::Known => String::new(),
            Ending::Done => format!(", with its last call{} done", self.replay.last()),
            Ending::NotDone(_) => format!(", with its last call{} not done", self.replay.last()),
        };
        let mut notes = String::new();
        if let Some(number) = replayed.refused.first() {
            notes += &format!(
                "The call of line {number} would be refused, and refused calls are not logged.\n"
            );
        }
        if let Some(number) = replayed.ways.iter().find_map(|way| way.partial) {
            notes += &format!(
                "It is not certain: the write of line {number} over old bytes may have been cut, and the \
                 log does not say which of its sectors landed. Audit after each cut, with --settle.\n"
            );
        }
        if self.replay.read.others > 0 {
            notes += &format!(
                "Lines of the log file that are no calls: {}.\n",
                self.replay.read.others
            );
        }
        Failure::Other(format!(
            "{card}: not what the log gives{against}. The card against the log:\n  {}\n{notes}\
             Next: see that {file} is the log of this card and lacks no line, and that nothing else wrote to the \
             card. If so, the card has lost or changed what was on it: keep a copy of both \
             (dd if={card} of=COPY), and try another card.",
            lines.join("\n  "),
            card = quoted(self.card),
            file = quoted(self.file),
        ))
    }
}
