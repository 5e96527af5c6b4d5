//! Traces that were legal, with one or more random changes to their events, rows or agents.

use crate::file::Event;
use crate::message::{Agent, Id, Message};
use crate::rng::Rng;
use crate::writer::Writer;

/// Changes the trace in some places.
pub fn mutate(w: &mut Writer, rng: &mut Rng) {
    for _ in 0..1 + rng.below(3) {
        if w.events.is_empty() {
            return;
        }
        mutate_once(w, rng);
    }
}

fn mutate_once(w: &mut Writer, rng: &mut Rng) {
    let length = w.events.len();
    let (at, other) = (rng.below(length), rng.below(length));
    let event = w.events[at];
    match rng.below(12) {
        0 | 1 => {
            w.events.remove(at);
        }
        2 => w.events.insert(at, w.events[other]),
        3 => w.events.swap(at, other),
        4 => w.events.swap(at, (at + 1) % length),
        5 | 6 => {
            let agent = some_agent_of(w, rng);
            w.events[at] = match event {
                Event::Says(a, _, x) if rng.one_in(2) => Event::Says(a, agent, x),
                Event::Says(_, b, x) => Event::Says(agent, b, x),
                Event::Notes(_, x) => Event::Notes(agent, x),
            };
        }
        7 => {
            let agent = some_agent_of(w, rng);
            w.events[at] = match event {
                Event::Says(a, _, x) => Event::Notes(a, x),
                Event::Notes(a, x) => Event::Says(a, agent, x),
            };
        }
        8 => {
            let x = w.events[other].message();
            w.events[at] = with_message(event, x);
        }
        9 => {
            let bit = 1 << (2 + rng.below(62));
            w.compromised ^= bit;
        }
        _ => {
            let x = changed(w, rng, event.message());
            w.events[at] = with_message(event, x);
        }
    }
}

fn with_message(event: Event, x: Id) -> Event {
    match event {
        Event::Says(a, b, _) => Event::Says(a, b, x),
        Event::Notes(a, _) => Event::Notes(a, x),
    }
}

/// An agent that takes part in the trace.
fn some_agent_of(w: &Writer, rng: &mut Rng) -> Agent {
    match rng.pick(&w.events) {
        Event::Says(_, b, _) if rng.one_in(2) => b,
        Event::Says(a, ..) | Event::Notes(a, _) => a,
    }
}

/// The message with a change somewhere in it.
fn changed(w: &mut Writer, rng: &mut Rng, x: Id) -> Id {
    let message = w.messages[x];
    let mut children = Vec::new();
    message.map(|child| {
        children.push(child);
        child
    });
    if rng.one_in(6) {
        return w.pair(x, x);
    }
    let Some(child) = rng.choose(&children).filter(|_| !rng.one_in(8)) else {
        return like(w, rng, message).unwrap_or(x);
    };
    let new = changed(w, rng, child);
    let replace = |y: Id| if y == child { new } else { y };
    if is_well_formed(w, message.map(replace)) {
        w.messages.intern(message.map(replace))
    } else {
        x
    }
}

/// Another message of the same kind in the trace.
fn like(w: &Writer, rng: &mut Rng, message: Message) -> Option<Id> {
    let same_kind = |other: Message| {
        std::mem::discriminant(&other) == std::mem::discriminant(&message)
            || other.is_nonce() && message.is_nonce()
            || other.is_key() && message.is_key()
    };
    let likes: Vec<Id> = w.messages.ids().filter(|&x| same_kind(w.messages[x])).collect();
    rng.choose(&likes)
}

/// Whether nonces and keys stand where the row's line wants them.
fn is_well_formed(w: &Writer, message: Message) -> bool {
    match message {
        Message::Prf { s: m, na, nb } | Message::SessionKey { na, nb, m, .. } => {
            [na, nb, m].iter().all(|&x| w.messages[x].is_nonce())
        }
        Message::Crypt { key, .. } => w.messages[key].is_key(),
        _ => true,
    }
}
