//! Near misses: legal traces with one thing changed, for every premise of every rule.

mod accepts;
mod client;
mod finished;
mod hellos;
mod spy;
mod twins;

use super::legal::Legal;
use super::session::{Session, Step};
use super::some_agents;
use crate::file::Event;
use crate::message::{Agent, Id, Role, SPY};
use crate::rng::Rng;
use crate::writer::Writer;

/// A near miss by name; the name starts with its rule, as in `r08-sh-of-other-nb`.
pub struct NearMiss {
    pub name: String,
    play: Play,
}

/// A legal trace that a near miss could be taken for, by name. Its last event has the rule.
pub struct Twin {
    pub name: String,
    pub rule: u8,
    play: Play,
}

type Play = Box<dyn Fn(&mut Scene)>;

impl NearMiss {
    /// A trace with this near miss, and its first illegal event.
    pub fn write(&self, rng: &mut Rng) -> (Writer, usize) {
        let mut scene = Scene::new(rng);
        (self.play)(&mut scene);
        assert!(scene.missed.is_some(), "{} misses nothing", self.name);
        scene.finish(rng)
    }
}

impl Twin {
    /// The legal trace.
    pub fn write(&self, rng: &mut Rng) -> Writer {
        let mut scene = Scene::new(rng);
        (self.play)(&mut scene);
        assert!(scene.missed.is_none(), "{} misses something", self.name);
        scene.finish(rng).0
    }
}

/// All near misses and legal twins.
pub fn all() -> List {
    let mut list = List::default();
    spy::add(&mut list);
    hellos::add(&mut list);
    client::add(&mut list);
    finished::add(&mut list);
    accepts::add(&mut list);
    twins::add(&mut list);
    list
}

#[derive(Default)]
pub struct List {
    pub misses: Vec<NearMiss>,
    pub twins: Vec<Twin>,
}

impl List {
    /// Adds a near miss.
    fn add(&mut self, name: impl Into<String>, play: impl Fn(&mut Scene) + 'static) {
        self.misses.push(NearMiss { name: name.into(), play: Box::new(play) });
    }

    /// Adds a legal twin.
    fn twin(&mut self, rule: u8, name: impl Into<String>, play: impl Fn(&mut Scene) + 'static) {
        self.twins.push(Twin { name: name.into(), rule, play: Box::new(play) });
    }
}

const HELLOS: [Step; 2] = [Step::ClientHello, Step::ServerHello];
/// The steps that give both sides the client's secret.
const SECRET: [Step; 2] = [Step::Certificate, Step::KeyExchange];
const BOTH_FINISHED: [Step; 2] = [Step::ClientFinished, Step::ServerFinished];
/// The hellos and the secret, which both Finished need.
const TO_SECRET: [Step; 4] =
    [Step::ClientHello, Step::ServerHello, Step::Certificate, Step::KeyExchange];

/// The trace in which something is missed.
struct Scene {
    w: Writer,
    /// The session in question, between two honest agents.
    s: Session,
    /// Another name for each of its names; the agents are honest too.
    o: Session,
    /// A compromised agent that is not the Spy.
    e: Agent,
    /// A Number.
    number: Id,
    /// The events, in units that have to stay together.
    units: Vec<Vec<Event>>,
    /// The unit whose first event is missed.
    missed: Option<usize>,
    /// Whether the trace ends here.
    ended: bool,
}

impl Scene {
    fn new(rng: &mut Rng) -> Scene {
        let agents = some_agents(rng, 5);
        let [a, b, other_a, other_b, e] = agents[..] else {
            unreachable!("five agents were asked for")
        };
        let honest = [a, b, other_a, other_b].iter().fold(0, |set, agent| set | 1 << agent.0);
        let compromised = super::some_set(rng) & !honest | 1 << e.0;
        let mut w = Writer::new(compromised);
        let mut numbers: Vec<u16> = (0..20).collect();
        rng.shuffle(&mut numbers);
        let s = Session::new(&mut w, a, b, numbers[0], numbers[1], numbers[2]);
        let o = Session::new(&mut w, other_a, other_b, numbers[3], numbers[4], numbers[5]);
        let number = w.number(numbers[6]);
        Scene { w, s, o, e, number, units: Vec::new(), missed: None, ended: false }
    }

    /// Adds the legal events of these steps.
    fn play(&mut self, steps: &[Step], session: Session) {
        for &step in steps {
            self.units.push(session.events(&mut self.w, step));
        }
    }

    /// Adds a legal event.
    fn push(&mut self, event: Event) {
        self.units.push(vec![event]);
    }

    /// The Spy says what it can make.
    fn fake(&mut self, to: Agent, x: Id) {
        self.push(Event::Says(SPY, to, x));
    }

    /// The Spy, who knows the session's PMS, Na and Nb, learns its M and the role's key.
    fn spy_learns_key(&mut self, session: Session, role: Role) {
        let Session { na, nb, pms, m, .. } = session;
        let key = self.w.session_key(role, na, nb, pms);
        let note = self.w.pair(m, key);
        self.push(Event::Notes(SPY, note));
        let (prf, key) = (self.w.prf(m, na, nb), self.w.session_key(role, na, nb, m));
        let note = self.w.pair(prf, key);
        self.push(Event::Notes(SPY, note));
    }

    /// Adds the event that is illegal.
    fn miss(&mut self, event: Event) {
        self.miss_first(vec![event]);
    }

    /// Adds a step that is illegal at its first event.
    fn miss_step(&mut self, step: Step, session: Session) {
        let events = session.events(&mut self.w, step);
        self.miss_first(events);
    }

    /// Adds events of which the first is illegal.
    fn miss_first(&mut self, events: Vec<Event>) {
        assert!(self.missed.is_none(), "one thing is missed");
        self.missed = Some(self.units.len());
        self.units.push(events);
    }

    /// The message in a larger one.
    fn wrapped(&mut self, wrapping: Wrapping, x: Id) -> Id {
        let number = self.number;
        match wrapping {
            Wrapping::InPairLeft => self.w.pair(x, number),
            Wrapping::InPairRight => self.w.pair(number, x),
            Wrapping::Hashed => self.w.hash(x),
        }
    }

    /// The whole trace, among a legal trace of other agents, and where it misses. Some more events
    /// follow a miss.
    fn finish(mut self, rng: &mut Rng) -> (Writer, usize) {
        let last = self.missed.unwrap_or(self.units.len() - 1);
        let mut others = self.events_of_others(rng);
        let mut events = super::long_beginning(&mut self.w, rng);
        let mut place = 0;
        for (number, unit) in self.units.into_iter().enumerate() {
            while number <= last && !others.is_empty() && rng.one_in(2) {
                events.extend(others.remove(0));
            }
            if number == last {
                place = events.len();
            }
            events.extend(unit);
        }
        if self.missed.is_some() && !self.ended {
            for _ in 0..rng.below(3) {
                events.push(rng.pick(&events));
            }
        }
        self.w.events = events;
        super::disguise(&mut self.w, rng);
        (self.w, place)
    }

    /// A legal trace with none of this scene's agents and nonces, or nothing.
    fn events_of_others(&mut self, rng: &mut Rng) -> Vec<Vec<Event>> {
        if rng.one_in(2) {
            return Vec::new();
        }
        let ours = [self.s.a, self.s.b, self.o.a, self.o.b, self.e];
        let mut others = some_agents(rng, 8);
        others.retain(|agent| !ours.contains(agent));
        others.truncate(2);
        others.push(SPY);
        Legal::new(&mut self.w, rng, others).run(30, 12)
    }
}

/// Ways to hide a message in a larger one, where the rules want it whole.
#[derive(Clone, Copy)]
enum Wrapping {
    InPairLeft,
    InPairRight,
    Hashed,
}

const WRAPPINGS: [(&str, Wrapping); 3] = [
    ("in-pair-left", Wrapping::InPairLeft),
    ("in-pair-right", Wrapping::InPairRight),
    ("hashed", Wrapping::Hashed),
];

/// Adds the legal twin, and the misses that any rule for honest agents has: the event wrapped, of
/// the other kind, or of another agent. `legal` plays the premises and gives the event that they
/// allow.
fn add_common(list: &mut List, rule: u8, legal: fn(&mut Scene) -> Event) {
    list.twin(rule, format!("r{rule:02}-legal"), move |t| {
        let event = legal(t);
        t.push(event);
    });
    for (name, wrapping) in WRAPPINGS {
        list.add(format!("r{rule:02}-{name}"), move |t| {
            let event = match legal(t) {
                Event::Says(a, b, x) => Event::Says(a, b, t.wrapped(wrapping, x)),
                Event::Notes(a, x) => Event::Notes(a, t.wrapped(wrapping, x)),
            };
            t.miss(event);
        });
    }
    list.add(format!("r{rule:02}-says-for-notes-or-back"), move |t| {
        let event = match legal(t) {
            Event::Says(a, _, x) => Event::Notes(a, x),
            Event::Notes(a, x) => Event::Says(a, t.o.b, x),
        };
        t.miss(event);
    });
    list.add(format!("r{rule:02}-by-other"), move |t| {
        let event = match legal(t) {
            Event::Says(_, b, x) => Event::Says(t.o.a, b, x),
            Event::Notes(_, x) => Event::Notes(t.o.a, x),
        };
        t.miss(event);
    });
}

/// Adds the miss that the message goes to another agent.
fn add_to_other(list: &mut List, rule: u8, legal: fn(&mut Scene) -> Event) {
    list.add(format!("r{rule:02}-to-other"), move |t| {
        let Event::Says(a, _, x) = legal(t) else { unreachable!("a note goes to nobody") };
        let event = Event::Says(a, t.o.b, x);
        t.miss(event);
    });
}

/// The only event of a step.
fn event_of(t: &mut Scene, step: Step, session: Session) -> Event {
    session.events(&mut t.w, step)[0]
}

#[cfg(test)]
mod tests {
    use super::*;
    use crate::judge::{verdict, Verdict};
    use std::collections::HashSet;

    #[test]
    fn each_near_miss_is_illegal_where_it_says() {
        for miss in all().misses {
            for seed in 0..20 {
                let mut rng = Rng::new(seed, 1);
                let (w, place) = miss.write(&mut rng);
                let verdict = verdict(&w.file(), &mut [0; 512]);
                let expected = Verdict::Illegal(place as u32);
                assert_eq!(verdict, expected, "{} with seed {seed}", miss.name);
            }
        }
    }

    #[test]
    fn each_twin_is_accepted_by_its_rule() {
        for twin in all().twins {
            for seed in 0..20 {
                let w = twin.write(&mut Rng::new(seed, 1));
                let mut rules = vec![0; w.events.len()];
                let verdict = verdict(&w.file(), &mut rules);
                let expected = Verdict::Accepted(rules.len() as u32);
                assert_eq!(verdict, expected, "{} with seed {seed}", twin.name);
                let rule = *rules.last().expect("a twin has events");
                let seen_among_others = rule == 1 && twin.name == "r05-of-spy";
                assert!(rule == twin.rule || seen_among_others, "{}: {rule}", twin.name);
            }
        }
    }

    #[test]
    fn each_rule_has_near_misses_with_names_of_their_own() {
        let misses = all().misses;
        let names: HashSet<&str> = misses.iter().map(|miss| &miss.name[..]).collect();
        assert_eq!(names.len(), misses.len());
        for rule in 1..=14 {
            let prefix = format!("r{rule:02}-");
            let count = names.iter().filter(|name| name.starts_with(&prefix));
            assert!(count.count() >= 10, "few near misses of rule {rule}");
        }
    }
}
