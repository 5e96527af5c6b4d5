//! Traces that are heavy on the spy's knowledge, and seldom legal.

use super::{some_agents, some_set};
use crate::file::Event;
use crate::message::{Agent, Id, Message, Role, SPY};
use crate::rng::Rng;
use crate::writer::Writer;

/// Rows of all kinds over a few agents and values, and events that say and note them.
pub fn mixed(rng: &mut Rng, rows: usize, events: usize) -> Writer {
    let mut agents = some_agents(rng, 4);
    agents.push(SPY);
    let mut w = Writer::new(some_set(rng));
    w.compromised |= 1 << agents[0].0;
    w.nonce(0);
    for _ in 0..4 * rows {
        if w.messages.len() >= rows {
            break;
        }
        mixed_row(&mut w, rng, &agents);
    }
    for value in 100.. {
        if w.messages.len() >= rows {
            break;
        }
        w.number(value);
    }
    say_some(&mut w, rng, &agents, events);
    w
}

fn mixed_row(w: &mut Writer, rng: &mut Rng, agents: &[Agent]) {
    let rows: Vec<Id> = w.messages.ids().collect();
    let of_kind = |fits: fn(Message) -> bool| -> Vec<Id> {
        let fits = |&x: &Id| fits(w.messages[x]);
        rows.iter().copied().filter(fits).collect()
    };
    let (nonces, keys) = (of_kind(Message::is_nonce), of_kind(Message::is_key));
    let value = rng.below(6) as u16;
    let agent = rng.pick(agents);
    let role = rng.pick(&[Role::Client, Role::Server]);
    let [na, nb, m] = [(); 3].map(|_| rng.pick(&nonces));
    let [x, y] = [(); 2].map(|_| rng.choose_late(&rows).expect("there is a nonce"));
    match rng.below(16) {
        0 => w.agent(agent),
        1 => w.number(value),
        2 => w.nonce(value),
        3 => w.prf(m, na, nb),
        4 => w.public_key(agent),
        5 => w.private_key(agent),
        6 | 7 => w.session_key(role, na, nb, m),
        8 => w.hash(x),
        9..=12 => match rng.choose(&keys) {
            Some(key) => w.crypt(key, x),
            None => w.public_key(agent),
        },
        _ => w.pair(x, y),
    };
}

fn say_some(w: &mut Writer, rng: &mut Rng, agents: &[Agent], events: usize) {
    let rows: Vec<Id> = w.messages.ids().collect();
    for _ in 0..events {
        let (a, b) = (rng.pick(agents), rng.pick(agents));
        let x = rng.choose_late(&rows).expect("there are rows");
        if rng.one_in(4) {
            w.notes(a, x);
        } else {
            w.says(a, b, x);
        }
    }
}

/// Ciphertexts that hold the key to the next one; the first key is said late, or is a compromised
/// agent's, or is never said.
pub fn key_chain(rng: &mut Rng, links: usize) -> Writer {
    let agents = some_agents(rng, 40);
    let mut w = Writer::new(some_set(rng));
    let (na, nb) = (w.fresh_nonce(), w.fresh_nonce());
    let mut ciphertexts = Vec::new();
    let (first_opener, mut closer) = chain_key(&mut w, rng, &agents, 0, na, nb);
    for link in 1..=links {
        let (opener, next_closer) = chain_key(&mut w, rng, &agents, link, na, nb);
        let secret = w.fresh_nonce();
        let body = match rng.below(4) {
            0 => opener,
            1 => w.pair(secret, opener),
            2 => {
                let inner = w.crypt(closer, opener);
                w.group(&[opener, inner, secret])
            }
            _ => w.crypt(closer, opener),
        };
        ciphertexts.push(w.crypt(closer, body));
        closer = next_closer;
    }
    match rng.below(3) {
        0 => ciphertexts.reverse(),
        1 => rng.shuffle(&mut ciphertexts),
        _ => {}
    }
    let (a, b) = (agents[0], agents[1]);
    for x in ciphertexts {
        w.says(a, b, x);
    }
    match rng.below(4) {
        0 => {}
        1 => w.notes(SPY, first_opener),
        _ => w.says(b, a, first_opener),
    }
    w
}

/// A key of the chain: what opens it, and the key itself.
fn chain_key(
    w: &mut Writer,
    rng: &mut Rng,
    agents: &[Agent],
    link: usize,
    na: Id,
    nb: Id,
) -> (Id, Id) {
    let agent = agents[link % agents.len()];
    match rng.below(4) {
        0 if link < agents.len() => (w.private_key(agent), w.public_key(agent)),
        1 if link < agents.len() => (w.public_key(agent), w.private_key(agent)),
        _ => {
            let m = w.fresh_nonce();
            let key = w.session_key(rng.pick(&[Role::Client, Role::Server]), na, nb, m);
            (key, key)
        }
    }
}

/// Ciphertexts in ciphertexts, whose keys are said one by one, from the inside or at random.
pub fn nested(rng: &mut Rng, depth: usize) -> Writer {
    let agents = some_agents(rng, 40);
    let mut w = Writer::new(some_set(rng));
    let (na, nb) = (w.fresh_nonce(), w.fresh_nonce());
    let mut x = w.fresh_nonce();
    let mut openers = Vec::new();
    for level in 0..depth {
        let (opener, closer) = chain_key(&mut w, rng, &agents, level, na, nb);
        openers.push(opener);
        x = w.crypt(closer, x);
        if rng.one_in(3) {
            x = w.pair(x, x);
        }
        if rng.one_in(20) {
            x = w.hash(x);
        }
    }
    if rng.one_in(2) {
        rng.shuffle(&mut openers);
    }
    let at = rng.below(openers.len() + 1);
    openers.insert(at, x);
    for x in openers {
        w.says(agents[0], agents[1], x);
    }
    w
}

/// Pairs whose two sides are the same pair, over something that may be unknown.
pub fn shared_pairs(rng: &mut Rng, depth: usize) -> Writer {
    let mut w = Writer::new(1);
    let mut levels = vec![match rng.below(3) {
        0 => w.nonce(0),
        1 => w.number(0),
        _ => w.private_key(SPY),
    }];
    for level in 0..depth {
        let last = levels[level];
        levels.push(match rng.below(8) {
            0 => w.hash(last),
            1 if level > 0 => w.pair(last, levels[level - 1]),
            _ => w.pair(last, last),
        });
    }
    let agents = some_agents(rng, 2);
    for _ in 0..rng.below(4) {
        let event = match rng.below(3) {
            0 => Event::Notes(agents[0], rng.pick(&levels)),
            1 => Event::Says(agents[0], agents[1], rng.pick(&levels)),
            _ => Event::Says(SPY, agents[0], rng.pick(&levels)),
        };
        w.events.push(event);
    }
    w
}

#[cfg(test)]
mod tests {
    use super::*;
    use crate::judge;

    /// The definition taken literally: passes over all rows until nothing new is found.
    fn slow_knowledge(w: &Writer, n: usize) -> Vec<u8> {
        let m = &w.messages;
        let mut keys: Vec<Message> = (0..64)
            .map(Agent)
            .filter(|a| a.is_in(w.compromised))
            .map(Message::PrivateKey)
            .collect();
        let mut analysed = vec![false; m.len()];
        let mut makes = vec![false; m.len()];
        for event in &w.events[..n] {
            match *event {
                Event::Notes(a, _) if !a.is_in(w.compromised) => {}
                _ => analysed[event.message().0 as usize] = true,
            }
        }
        loop {
            let before = (analysed.clone(), makes.clone(), keys.len());
            for x in m.ids() {
                let at = |x: Id| x.0 as usize;
                let i = at(x);
                analysed[i] |= keys.contains(&m[x]);
                if analysed[i] {
                    match m[x] {
                        Message::Pair(y, z) => {
                            analysed[at(y)] = true;
                            analysed[at(z)] = true;
                        }
                        Message::Crypt { key, body } => {
                            analysed[at(body)] |= keys.contains(&m[key].inverse().unwrap());
                        }
                        key if key.is_key() && !keys.contains(&key) => keys.push(key),
                        _ => {}
                    }
                }
                makes[i] |= analysed[i]
                    || match m[x] {
                        Message::Agent(_) | Message::Number(_) => true,
                        Message::Hash(y) => makes[at(y)],
                        Message::Pair(y, z) => makes[at(y)] && makes[at(z)],
                        Message::Crypt { key, body } => analysed[at(key)] && makes[at(body)],
                        _ => false,
                    };
            }
            if before == (analysed.clone(), makes.clone(), keys.len()) {
                break;
            }
        }
        let mark = |(&analysed, &makes): (&bool, &bool)| match (analysed, makes) {
            (true, _) => 2,
            (_, true) => 1,
            _ => 0,
        };
        analysed.iter().zip(&makes).map(mark).collect()
    }

    fn some_trace(rng: &mut Rng) -> Writer {
        match rng.below(4) {
            0 => mixed(rng, 60, 20),
            1 => key_chain(rng, 12),
            2 => nested(rng, 12),
            _ => shared_pairs(rng, 20),
        }
    }

    #[test]
    fn knowledge_is_that_of_the_definition() {
        let mut seen = [0; 3];
        for stream in 0..2000 {
            let mut rng = Rng::new(3, stream);
            let mut w = some_trace(&mut rng);
            if rng.one_in(2) {
                w.shuffle_rows(&mut rng);
            }
            let n = rng.below(w.events.len() + 1);
            let mut marks = vec![9; w.messages.len()];
            judge::knowledge(&w.file(), n, &mut marks).unwrap();
            assert_eq!(marks, slow_knowledge(&w, n), "stream {stream}");
            for mark in marks {
                seen[mark as usize] += 1;
            }
        }
        assert!(seen.iter().all(|&count| count > 1000), "{seen:?}");
    }

    #[test]
    fn notes_of_honest_agents_tell_the_spy_nothing() {
        for stream in 0..300 {
            let mut rng = Rng::new(4, stream);
            let w = some_trace(&mut rng);
            let mut without = w.clone();
            let honest_note =
                |e: &Event| matches!(e, Event::Notes(a, _) if !a.is_in(w.compromised));
            without.events.retain(|e| !honest_note(e));
            let mut marks = [vec![9; w.messages.len()], vec![9; w.messages.len()]];
            judge::knowledge(&w.file(), w.events.len(), &mut marks[0]).unwrap();
            judge::knowledge(&without.file(), without.events.len(), &mut marks[1]).unwrap();
            assert_eq!(marks[0], marks[1]);
        }
    }
}
