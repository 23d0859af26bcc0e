//! The command repair: what it would free, the question, and what it comes to.

use std::ffi::OsStr;
use std::io::{self, BufRead};

use goofs::change::{Freed, Repair, WhyFreed};
use goofs::error::{Error, Refusal};
use goofs::system::Held;

use crate::arguments::Arguments;
use crate::changing::print_done;
use crate::failure::{extents, format_anew, of_card, quoted, Detail, Failure};
use crate::logging;
use crate::output::print;
use crate::text;

pub fn repair(arguments: &Arguments) -> Result<(), Failure> {
    let card = &arguments.places(&["CARD"])?[0];
    let mut volume = logging::volume(arguments, card)?;
    let image = volume.image().map_err(of_card(card))?;
    let repair = image.repair().map_err(of_repair(card))?;
    if repair.freed.is_empty() {
        let nothing = match repair.remains {
            None => "nothing to do: the volume is clean and sound\n",
            Some(_) => "nothing to free: every extent belongs to a file\n",
        };
        print_done(card, nothing)?;
        return remaining(card, &repair);
    }
    print(&told(&repair))?;
    if !arguments.flag("yes") {
        agreed(card)?;
    }
    let _held = Held::new();
    let done = volume.repair().map_err(of_card::<Error>(card))?;
    print_done(
        card,
        &format!("freed: {}\n", extents(done.freed.len() as u64)),
    )?;
    remaining(card, &done)
}

/// What would be freed, a line for each extent, and what would remain.
fn told(repair: &Repair) -> String {
    let mut lines: Vec<String> = repair.freed.iter().map(line).collect();
    let remains = match repair.remains {
        None => "the volume is sound then".to_string(),
        Some(fault) => format!("then this remains: {fault}"),
    };
    lines.push(format!(
        "to be freed: {}; no byte of a file changes; {remains}\n",
        extents(repair.freed.len() as u64)
    ));
    lines.concat()
}

fn line(freed: &Freed) -> String {
    let Freed {
        extent,
        file,
        offset,
        why,
    } = freed;
    let why = match why {
        WhyFreed::NoFile => format!("of entry {file}, which is no file"),
        WhyFreed::PastTheEnd(name) => {
            format!("place {offset} of {}, past its end", text::word(name))
        }
        WhyFreed::Doubled(name) => format!(
            "place {offset} of {}, which a lower extent has",
            text::word(name)
        ),
    };
    format!("extent {extent}: {why}\n")
}

/// Asks. Anything but yes leaves the card as it is.
fn agreed(card: &OsStr) -> Result<(), Failure> {
    print("Free them? (yes/no) ")?;
    let mut answer = String::new();
    let read = io::stdin().lock().read_line(&mut answer);
    if read.is_ok() && answer.trim() == "yes" {
        return Ok(());
    }
    Err(Failure::Other(format!(
        "{}: not repaired, as the answer was not yes. Nothing was changed.\n\
         Next: give the command again and answer yes, or add --yes.",
        quoted(card)
    )))
}

/// A repair stages its change in free extents, and what it would free doesn't count.
fn of_repair(card: &OsStr) -> impl Fn(Refusal) -> Failure + '_ {
    move |refusal| {
        Failure::Card {
        card: card.to_owned(),
        error: refusal.into(),
        detail: match refusal {
            Refusal::NoRoom => Some(Detail::with_next(
                "a repair needs free extents for its own change; those that it would free don't count"
                    .to_string(),
                &format!(
                    "no command mends this volume. {}",
                    format_anew(&quoted(card))
                ),
            )),
            _ => None,
        },
    }
    }
}

fn remaining(card: &OsStr, repair: &Repair) -> Result<(), Failure> {
    match repair.remains {
        None => Ok(()),
        Some(fault) => Err(Failure::NotMended {
            card: card.to_owned(),
            fault,
        }),
    }
}
