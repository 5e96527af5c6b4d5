//! Seeded generators of trace files.

pub mod full_size;
pub mod knowledge;
pub mod legal;
pub mod malformed;
pub mod mutated;
pub mod near_miss;
pub mod session;

use crate::file::{Event, MAX_ROWS};
use crate::message::{Agent, Id, AGENTS, AUTHORITY, SPY};
use crate::rng::Rng;
use crate::writer::Writer;
use legal::Legal;
use session::certificate;

/// One file to judge.
pub struct Case {
    /// The generator, and what of it.
    pub name: String,
    pub file: Vec<u8>,
    pub promise: Promise,
}

/// What a generator says of its file.
#[derive(Clone, Copy, PartialEq, Eq, Debug)]
pub enum Promise {
    Accepted,
    /// A near miss, illegal at this event.
    Missed(usize),
    Nothing,
}

/// All that is needed to make cases.
pub struct Generator {
    near_misses: near_miss::List,
    full_size: Vec<(&'static str, Writer)>,
}

impl Default for Generator {
    fn default() -> Self {
        Generator { near_misses: near_miss::all(), full_size: full_size::all() }
    }
}

impl Generator {
    pub fn near_misses(&self) -> impl Iterator<Item = &str> {
        self.near_misses.misses.iter().map(|miss| &miss.name[..])
    }

    /// The case of this number under the seed. Near misses and faults take turns, so that all of
    /// them come up.
    pub fn case(&self, seed: u64, number: usize) -> Case {
        let mut rng = Rng::new(seed, number as u64);
        let turn = number / 16;
        if number % 1024 == 1023 {
            return self.full_size(turn / 64, &mut rng);
        }
        match number % 16 {
            0..=2 => legal(&mut rng),
            3 => self.twin(turn, &mut rng),
            4..=6 => mutated(&mut rng),
            7..=9 => self.near_miss(3 * turn + number % 16 - 7, &mut rng),
            10..=12 => heavy_on_knowledge(&mut rng),
            13 | 14 => malformed(turn, &mut rng),
            _ => spoilt(&mut rng),
        }
    }

    fn near_miss(&self, turn: usize, rng: &mut Rng) -> Case {
        let misses = &self.near_misses.misses;
        let miss = &misses[turn % misses.len()];
        let (w, place) = miss.write(rng);
        Case { name: miss.name.clone(), file: w.file(), promise: Promise::Missed(place) }
    }

    fn twin(&self, turn: usize, rng: &mut Rng) -> Case {
        let twins = &self.near_misses.twins;
        let twin = &twins[turn % twins.len()];
        Case {
            name: format!("legal {}", twin.name),
            file: twin.write(rng).file(),
            promise: Promise::Accepted,
        }
    }

    fn full_size(&self, turn: usize, rng: &mut Rng) -> Case {
        let (mut name, mut w) = self.full_size[turn % self.full_size.len()].clone();
        match rng.below(4) {
            0 => w.shuffle_rows(rng),
            1 => {
                let last = w.events.len() - 1;
                w.says(SPY, AUTHORITY, w.events[last].message());
                w.events.swap_remove(last);
            }
            2 => {
                w = knowledge::mixed(rng, 1024, 512);
                name = "mixed rows";
            }
            _ => {}
        }
        let mut file = w.file();
        if rng.one_in(4) {
            let (_, apply) = rng.pick(&malformed::FAULTS);
            apply(&mut file, rng);
        }
        Case { name: format!("full-size {name}"), file, promise: Promise::Nothing }
    }
}

/// A legal trace of a few agents, honest and compromised.
fn legal_trace(rng: &mut Rng, limit: usize) -> Writer {
    let mut w = Writer::new(some_set(rng));
    let count = 1 + rng.below(3);
    let mut agents = some_agents(rng, count);
    for agent in &agents {
        if rng.one_in(3) {
            w.compromised |= 1 << agent.0;
        } else {
            w.compromised &= !(1 << agent.0);
        }
    }
    if rng.one_in(2) {
        agents.push(SPY);
    }
    if rng.one_in(4) {
        agents.push(AUTHORITY);
    }
    let tries = 40 + rng.below(300);
    let limit = 2 + rng.below(limit - 1);
    w.events = long_beginning(&mut w, rng);
    let units = Legal::new(&mut w, rng, agents).run(tries, limit);
    w.events.extend(units.concat());
    w
}

fn legal(rng: &mut Rng) -> Case {
    let mut w = legal_trace(rng, 60);
    disguise(&mut w, rng);
    Case { name: "legal".into(), file: w.file(), promise: Promise::Accepted }
}

fn mutated(rng: &mut Rng) -> Case {
    let mut w = legal_trace(rng, 40);
    mutated::mutate(&mut w, rng);
    disguise(&mut w, rng);
    Case { name: "mutated".into(), file: w.file(), promise: Promise::Nothing }
}

fn heavy_on_knowledge(rng: &mut Rng) -> Case {
    let (name, mut w) = match rng.below(4) {
        0 | 1 => {
            let (rows, events) = (1 + rng.below(80), rng.below(30));
            ("mixed rows", knowledge::mixed(rng, rows, events))
        }
        2 => {
            let links = 1 + rng.below(20);
            ("key chain", knowledge::key_chain(rng, links))
        }
        _ => {
            let depth = 1 + rng.below(20);
            match rng.below(2) {
                0 => ("nested crypts", knowledge::nested(rng, depth)),
                _ => ("shared pairs", knowledge::shared_pairs(rng, depth)),
            }
        }
    };
    disguise(&mut w, rng);
    Case { name: name.into(), file: w.file(), promise: Promise::Nothing }
}

fn malformed(turn: usize, rng: &mut Rng) -> Case {
    let (name, apply) = malformed::FAULTS[turn % malformed::FAULTS.len()];
    let mut file = well_formed(rng);
    while !apply(&mut file, rng) {
        file = well_formed(rng);
    }
    Case { name: format!("fault {name}"), file, promise: Promise::Nothing }
}

fn spoilt(rng: &mut Rng) -> Case {
    let mut file = well_formed(rng);
    let name = malformed::spoil(&mut file, rng);
    Case { name: name.into(), file, promise: Promise::Nothing }
}

fn well_formed(rng: &mut Rng) -> Vec<u8> {
    if rng.one_in(2) {
        legal_trace(rng, 30).file()
    } else {
        let (rows, events) = (1 + rng.below(60), rng.below(20));
        knowledge::mixed(rng, rows, events).file()
    }
}

/// So many agents, all different, none of them the Spy or the authority.
pub fn some_agents(rng: &mut Rng, count: usize) -> Vec<Agent> {
    let mut agents: Vec<Agent> = (2..AGENTS).map(Agent).collect();
    rng.shuffle(&mut agents);
    agents.truncate(count);
    agents
}

/// A set of compromised agents: the Spy, never the authority, few or many others.
pub fn some_set(rng: &mut Rng) -> u64 {
    let others = match rng.below(3) {
        0 => 0,
        1 => rng.next() & rng.next() & rng.next(),
        _ => rng.next(),
    };
    (others | 1 << SPY.0) & !(1 << AUTHORITY.0)
}

/// Sometimes adds rows that no event needs, and changes the values and the order of the rows.
pub fn disguise(w: &mut Writer, rng: &mut Rng) {
    if rng.one_in(4) {
        for _ in 0..rng.below(6) {
            let number = w.number(rng.below(50) as u16);
            let rows: Vec<Id> = w.messages.ids().collect();
            let hash = w.hash(rng.pick(&rows));
            w.pair(number, hash);
        }
    }
    if rng.one_in(32) {
        for value in 0..rng.below(MAX_ROWS - w.messages.len()) {
            w.number(1000 + value as u16);
        }
    }
    if rng.one_in(4) {
        w.change_values(rng);
    }
    if rng.one_in(2) {
        w.shuffle_rows(rng);
    }
}

/// Sometimes many legal events to begin a trace with, so that event numbers get high.
pub fn long_beginning(w: &mut Writer, rng: &mut Rng) -> Vec<Event> {
    if !rng.one_in(32) {
        return Vec::new();
    }
    let key = w.public_key(AUTHORITY);
    let certificate = certificate(w, AUTHORITY, AUTHORITY, key);
    vec![Event::Says(AUTHORITY, AUTHORITY, certificate); 200 + rng.below(200)]
}

#[cfg(test)]
mod tests {
    use super::*;
    use crate::file::File;
    use crate::judge::{verdict, Verdict};
    use crate::message::Message;

    #[test]
    fn legal_traces_are_accepted_and_use_all_rules() {
        let mut counts = [0; 15];
        for stream in 0..2000 {
            let mut rng = Rng::new(5, stream);
            let case = legal(&mut rng);
            let mut rules = [0; 512];
            let verdict = verdict(&case.file, &mut rules);
            assert!(matches!(verdict, Verdict::Accepted(_)), "stream {stream}");
            for rule in rules {
                counts[rule as usize] += 1;
            }
        }
        println!("{counts:?}");
        assert!(counts[1..].iter().all(|&count| count > 200), "{counts:?}");
    }

    #[test]
    fn legal_traces_have_odd_events() {
        let mut greets_itself = 0;
        let mut spy_loses_unknown_key = 0;
        let mut prf_in_finished = 0;
        let mut spy_resumes = 0;
        for stream in 0..2000 {
            let mut rng = Rng::new(6, stream);
            let case = legal(&mut rng);
            let file = File::read(&case.file).unwrap_or_else(|refusal| panic!("{refusal:?}"));
            let mut rules = [0; 512];
            verdict(&case.file, &mut rules);
            for (&event, rule) in file.events.iter().zip(rules) {
                let Event::Says(a, b, x) = event else {
                    continue;
                };
                greets_itself += (rule == 3 && a == b) as usize;
                spy_loses_unknown_key += (rule == 14 && a == SPY) as usize;
                spy_resumes += ((12..=13).contains(&rule) && (a == SPY || b == SPY)) as usize;
                if let (8 | 9, Message::Crypt { key, .. }) = (rule, file.messages[x]) {
                    if let Message::SessionKey { na, nb, .. } = file.messages[key] {
                        let is_prf = |x| matches!(file.messages[x], Message::Prf { .. });
                        prf_in_finished += (is_prf(na) || is_prf(nb)) as usize;
                    }
                }
            }
        }
        let counts = [greets_itself, spy_loses_unknown_key, prf_in_finished, spy_resumes];
        println!("{counts:?}");
        assert!(counts.iter().all(|&count| count > 10), "{counts:?}");
    }
}
