//! Long traces of several shapes, up to 1,024 rows and 512 events.

use super::session::{Session, Step, FULL_HANDSHAKE, RESUMPTION};
use crate::file::{MAX_EVENTS, MAX_ROWS};
use crate::message::{Agent, Id, Role, SPY};
use crate::writer::Writer;

/// A trace with so many events.
pub type Shape = fn(usize) -> Writer;

/// Full handshakes of several clients and servers, one after the other; after each one the Spy
/// repeats some of its messages.
pub fn handshakes(events: usize) -> Writer {
    let mut w = Writer::new(1 | 1 << 9);
    for round in 0.. {
        let (client, server) = (Agent(2 + round % 5), Agent(7 + round % 3));
        let round = round as u16;
        let session = Session::new(&mut w, client, server, 900 + round % 7, 910, 911);
        let first = w.events.len();
        session.play(&mut w, &FULL_HANDSHAKE);
        for at in [0, 1, 4, 6] {
            let x = w.events[first + at].message();
            w.says(SPY, server, x);
        }
        if w.events.len() >= events {
            break;
        }
    }
    w.events.truncate(events);
    w
}

/// The shortest handshakes, with both hellos and the key exchange, and the Spy sending on all.
pub fn replays(events: usize) -> Writer {
    let mut w = Writer::new(1);
    for round in 0.. {
        let (client, server) = (Agent(2 + round % 30), Agent(32 + round % 30));
        let session = Session::new(&mut w, client, server, 900, 901, 902);
        let first = w.events.len();
        session.play(&mut w, &FULL_HANDSHAKE[..4]);
        for at in [0, 1, 2, 4] {
            let x = w.events[first + at].message();
            for to in [server, client, SPY] {
                w.says(SPY, to, x);
            }
        }
        if w.events.len() >= events {
            break;
        }
    }
    w.events.truncate(events);
    w
}

/// One full handshake, and resumptions of its session with new nonces.
pub fn resumptions(events: usize) -> Writer {
    let mut w = Writer::new(1);
    let (client, server) = (Agent(2), Agent(3));
    let session = Session::new(&mut w, client, server, 900, 901, 902);
    session.play(&mut w, &FULL_HANDSHAKE);
    while w.events.len() < events {
        let resumed = session.resumed(&mut w, 901, 902);
        resumed.play(&mut w, &RESUMPTION);
        resumed.play(&mut w, &[Step::ClientOops, Step::ServerOops]);
        let finished = resumed.finished(&mut w, Role::Client);
        let hello = resumed.server_hello(&mut w);
        for x in [finished, hello, resumed.na] {
            w.says(SPY, client, x);
        }
    }
    w.events.truncate(events);
    w
}

/// The Spy says hashes of hashes, deepest first, so that each one has to be made anew.
pub fn fakes(events: usize) -> Writer {
    let mut w = Writer::new(1);
    let hashes = tower(&mut w, 2 * events - 1, |w, x| w.hash(x));
    for &x in hashes.iter().rev().take(events) {
        w.says(SPY, Agent(2), x);
    }
    w
}

/// The Spy says pairs over pairs, deepest last, whose two sides are the same.
pub fn deep_pairs(events: usize) -> Writer {
    let mut w = Writer::new(1);
    let pairs = tower(&mut w, 2 * events - 1, |w, x| w.pair(x, x));
    for &x in pairs.iter().rev().take(events).rev() {
        w.says(SPY, Agent(2), x);
    }
    w
}

/// A Number under so many layers.
fn tower(w: &mut Writer, height: usize, layer: fn(&mut Writer, Id) -> Id) -> Vec<Id> {
    let mut levels = vec![w.number(0)];
    for level in 0..height {
        levels.push(layer(w, levels[level]));
    }
    levels
}

/// Ciphertexts that each hold the key to the one said before; the last key opens them all. The
/// honest agents who say this break the rules, but the spy learns it all the same.
pub fn key_chain(events: usize) -> Writer {
    let mut w = Writer::new(1);
    let (na, nb) = (w.fresh_nonce(), w.fresh_nonce());
    let mut keys = Vec::new();
    for _ in 0..events.min(MAX_ROWS / 3 - 1) {
        let m = w.fresh_nonce();
        keys.push(w.session_key(Role::Client, na, nb, m));
    }
    for pair in keys.windows(2) {
        let x = w.crypt(pair[1], pair[0]);
        w.says(Agent(2), Agent(3), x);
    }
    w.says(Agent(2), Agent(3), keys[keys.len() - 1]);
    let said = w.events.clone();
    w.events.extend(said.into_iter().cycle().take(events));
    w.events.truncate(events);
    w
}

/// Adds Numbers until there are 1,024 rows, and certificates until there are 512 events.
pub fn fill(w: &mut Writer) {
    let (client, server) = (Agent(2), Agent(3));
    if w.events.len() < MAX_EVENTS {
        let session = Session::new(w, client, server, 0, 0, 0);
        while w.events.len() < MAX_EVENTS {
            session.play(w, &[Step::Certificate]);
        }
    }
    for value in 1000.. {
        if w.messages.len() >= MAX_ROWS {
            break;
        }
        w.number(value);
    }
}

/// Each shape at its full size, by name.
pub fn all() -> Vec<(&'static str, Writer)> {
    let shapes: [(&str, Shape); 6] = [
        ("handshakes", handshakes),
        ("replays", replays),
        ("resumptions", resumptions),
        ("fakes", fakes),
        ("deep-pairs", deep_pairs),
        ("key-chain", key_chain),
    ];
    let full = |(name, shape): (&'static str, Shape)| {
        let mut w = shape(MAX_EVENTS);
        fill(&mut w);
        (name, w)
    };
    shapes.into_iter().map(full).collect()
}

#[cfg(test)]
mod tests {
    use super::*;
    use crate::judge::{verdict, Verdict};

    #[test]
    fn shapes_are_full_and_legal() {
        for (name, w) in all() {
            assert_eq!(w.messages.len(), MAX_ROWS, "{name}");
            assert_eq!(w.events.len(), MAX_EVENTS, "{name}");
            let expected = match name {
                "key-chain" => Verdict::Illegal(0),
                _ => Verdict::Accepted(MAX_EVENTS as u32),
            };
            assert_eq!(verdict(&w.file(), &mut [0; 512]), expected, "{name}");
        }
    }
}
