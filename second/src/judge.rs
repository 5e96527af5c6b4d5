//! The three questions of document 01 and the text of its small program, answered plainly.

use crate::file::{event_offset, row_offset, File, Refusal, MAX_EVENTS, MAX_FILE};
use crate::rules::{Past, CLIENT_KEY_EXCH};
use crate::spy::Spy;
use std::fmt::Write;

#[derive(Clone, Copy, PartialEq, Eq, Debug)]
pub enum Verdict {
    Refused {
        cause: u32,
        place: u32,
    },
    /// With the length of the longest accepted beginning.
    Illegal(u32),
    /// With the number of events.
    Accepted(u32),
}

impl From<Refusal> for Verdict {
    fn from(Refusal { cause, place }: Refusal) -> Verdict {
        Verdict::Refused { cause, place }
    }
}

/// The verdict on a file. Unless refused, `rules` gets one byte per event: its rule number in the
/// longest accepted beginning, and 0 after that.
pub fn verdict(file: &[u8], rules: &mut [u8]) -> Verdict {
    let file = match File::read(file) {
        Ok(file) => file,
        Err(refusal) => return refusal.into(),
    };
    let events = file.events.len();
    if rules.len() < events {
        return Refusal::of(8).into();
    }
    let beginning = longest_accepted_beginning(&file);
    let length = beginning.len();
    rules[..length].copy_from_slice(&beginning);
    rules[length..events].fill(0);
    if length == events {
        Verdict::Accepted(events as u32)
    } else {
        Verdict::Illegal(length as u32)
    }
}

/// What the spy knows of each row after the first `n` events: 2 analysed, else 1 if it can be
/// made, else 0.
pub fn knowledge(file: &[u8], n: usize, marks: &mut [u8]) -> Result<(), Refusal> {
    let file = File::read(file)?;
    if marks.len() < file.messages.len() {
        return Err(Refusal::of(8));
    }
    let Some(events) = file.events.get(..n) else {
        return Err(Refusal::of(9));
    };
    let mut spy = Spy::new(file.compromised);
    for &event in events {
        spy.sees(&file.messages, event);
    }
    let mut makes = spy.makes(&file.messages);
    for (row, mark) in file.messages.ids().zip(marks) {
        *mark = if spy.has(&file.messages, row) { 2 } else { makes.can_make(row) as u8 };
    }
    Ok(())
}

/// The eight bytes at fault, as their start and length in the file, or (0, 0).
pub fn fault(file: &[u8]) -> (usize, usize) {
    match File::read(file) {
        Err(Refusal { cause, place }) => match cause {
            5 | 6 => (row_offset(place as usize), 8),
            7 => (event_offset(file, place as usize), 8),
            _ => (0, 0),
        },
        Ok(trace) => {
            let length = longest_accepted_beginning(&trace).len();
            if length == trace.events.len() {
                (0, 0)
            } else {
                (event_offset(file, length), 8)
            }
        }
    }
}

/// What the small program prints for this input.
pub fn text(input: &[u8]) -> String {
    let file = &input[..input.len().min(MAX_FILE + 1)];
    let mut rules = [0; MAX_EVENTS];
    let verdict = verdict(file, &mut rules);
    let (length, last) = match verdict {
        Verdict::Refused { cause, place } => (0, format!("refused {cause} {place}")),
        Verdict::Illegal(n) => (n, format!("illegal {n}")),
        Verdict::Accepted(n) => (n, format!("accepted {n}")),
    };
    let mut text = String::new();
    for (event, rule) in rules[..length as usize].iter().enumerate() {
        writeln!(text, "{event} {rule}").unwrap();
    }
    text + &last + "\n"
}

/// The rule numbers of the longest accepted beginning, one per event.
fn longest_accepted_beginning(file: &File) -> Vec<u8> {
    let mut past = Past::new(file);
    let mut rules = Vec::new();
    loop {
        match file.events[rules.len()..] {
            [note, message, ..] if past.client_key_exch(note, message) => {
                past.add(note);
                past.add(message);
                rules.extend([CLIENT_KEY_EXCH; 2]);
            }
            [event, ..] => {
                let Some(rule) = past.rule(event) else {
                    return rules;
                };
                past.add(event);
                rules.push(rule);
            }
            [] => return rules,
        }
    }
}
