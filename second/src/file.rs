//! The trace file: its header, rows and events, and refusals 1 to 7.

use crate::message::{Agent, Id, Message, Messages, Role, AGENTS, AUTHORITY, SPY};

pub const HEADER: usize = 20;
pub const MAX_ROWS: usize = 1024;
pub const MAX_EVENTS: usize = 512;
/// The length of the longest file.
pub const MAX_FILE: usize = HEADER + 8 * MAX_ROWS + 8 * MAX_EVENTS;

/// Why a question is not answered: one of the causes 1 to 9, and its place.
#[derive(Clone, Copy, PartialEq, Eq, Debug)]
pub struct Refusal {
    pub cause: u32,
    pub place: u32,
}

impl Refusal {
    /// A cause without a place of its own.
    pub fn of(cause: u32) -> Refusal {
        Refusal { cause, place: 0 }
    }

    fn at(cause: u32, place: usize) -> Refusal {
        let place = place as u32;
        Refusal { cause, place }
    }
}

#[derive(Clone, Copy, PartialEq, Eq, Debug)]
pub enum Event {
    /// A says X to B.
    Says(Agent, Agent, Id),
    /// A notes X.
    Notes(Agent, Id),
}

impl Event {
    pub fn message(self) -> Id {
        match self {
            Event::Says(_, _, x) | Event::Notes(_, x) => x,
        }
    }
}

/// A trace file that is not refused.
pub struct File {
    pub compromised: u64,
    pub messages: Messages,
    pub events: Vec<Event>,
}

impl File {
    /// Reads a file, or gives the refusal with the lowest number.
    pub fn read(bytes: &[u8]) -> Result<File, Refusal> {
        if bytes.len() < HEADER {
            return Err(Refusal::of(1));
        }
        if u16_at(bytes, 0) != 1 || u16_at(bytes, 2) != 0 {
            return Err(Refusal::of(2));
        }
        let compromised = u64::from_le_bytes(bytes[4..12].try_into().unwrap());
        if !SPY.is_in(compromised) || AUTHORITY.is_in(compromised) {
            return Err(Refusal::of(3));
        }
        let rows = u16_at(bytes, 14) as usize;
        let events = u16_at(bytes, 18) as usize;
        let events_offset = HEADER + 8 * rows;
        if rows > MAX_ROWS
            || events > MAX_EVENTS
            || u16_at(bytes, 12) as usize != HEADER
            || u16_at(bytes, 16) as usize != events_offset
            || bytes.len() != events_offset + 8 * events
        {
            return Err(Refusal::of(4));
        }
        let (rows, events) = bytes[HEADER..].split_at(8 * rows);
        let messages = read_rows(rows)?;
        let events = read_events(events, messages.len())?;
        Ok(File { compromised, messages, events })
    }
}

/// Where the row starts in its file.
pub fn row_offset(row: usize) -> usize {
    HEADER + 8 * row
}

/// Where the event starts in its file, which has a whole header.
pub fn event_offset(bytes: &[u8], event: usize) -> usize {
    row_offset(u16_at(bytes, 14) as usize) + 8 * event
}

fn u16_at(bytes: &[u8], at: usize) -> u16 {
    u16::from_le_bytes([bytes[at], bytes[at + 1]])
}

/// All rows, each in its kind's line (else refusal 5), no two equal (else refusal 6).
fn read_rows(bytes: &[u8]) -> Result<Messages, Refusal> {
    let mut rows = Vec::new();
    for (number, row) in bytes.chunks_exact(8).enumerate() {
        rows.push(read_row(row, &rows).ok_or(Refusal::at(5, number))?);
    }
    let mut messages = Messages::default();
    for (number, row) in rows.into_iter().enumerate() {
        if messages.contains(row) {
            return Err(Refusal::at(6, number));
        }
        messages.intern(row);
    }
    Ok(messages)
}

/// A row by its kind's line; what the line does not name is zero.
fn read_row(row: &[u8], below: &[Message]) -> Option<Message> {
    let agent = |field: u16| (field < AGENTS as u16).then_some(Agent(field as u8));
    let refer = |field: u16, fits: fn(Message) -> bool| {
        fits(*below.get(field as usize)?).then_some(Id(field))
    };
    let nonce = |field| refer(field, Message::is_nonce);
    let key = |field| refer(field, Message::is_key);
    let any = |field| refer(field, |_| true);

    let fields = (u16_at(row, 2), u16_at(row, 4), u16_at(row, 6));
    Some(match (row[0], row[1], fields) {
        (0, 0, (a, 0, 0)) => Message::Agent(agent(a)?),
        (1, 0, (value, 0, 0)) => Message::Number(value),
        (2, 0, (value, 0, 0)) => Message::Nonce(value),
        (3, 0, (s, na, nb)) => Message::Prf { s: nonce(s)?, na: nonce(na)?, nb: nonce(nb)? },
        (4, 0, (a, 0, 0)) => Message::PublicKey(agent(a)?),
        (5, 0, (a, 0, 0)) => Message::PrivateKey(agent(a)?),
        (6, role @ 0..=1, (na, nb, m)) => Message::SessionKey {
            role: [Role::Client, Role::Server][role as usize],
            na: nonce(na)?,
            nb: nonce(nb)?,
            m: nonce(m)?,
        },
        (7, 0, (x, 0, 0)) => Message::Hash(any(x)?),
        (8, 0, (k, x, 0)) => Message::Crypt { key: key(k)?, body: any(x)? },
        (9, 0, (x, y, 0)) => Message::Pair(any(x)?, any(y)?),
        _ => return None,
    })
}

/// All events (else refusal 7).
fn read_events(bytes: &[u8], rows: usize) -> Result<Vec<Event>, Refusal> {
    bytes
        .chunks_exact(8)
        .enumerate()
        .map(|(number, event)| read_event(event, rows).ok_or(Refusal::at(7, number)))
        .collect()
}

fn read_event(event: &[u8], rows: usize) -> Option<Event> {
    let row = u16_at(event, 4);
    if row as usize >= rows || u16_at(event, 6) != 0 {
        return None;
    }
    match event[..4] {
        [0, a @ ..AGENTS, b @ ..AGENTS, 0] => Some(Event::Says(Agent(a), Agent(b), Id(row))),
        [1, a @ ..AGENTS, 0, 0] => Some(Event::Notes(Agent(a), Id(row))),
        _ => None,
    }
}
