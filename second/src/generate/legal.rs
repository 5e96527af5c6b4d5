//! Legal traces, by applying the fourteen rules at random.

use super::session::{certificate, Session, Step};
use crate::file::Event;
use crate::message::{Agent, Id, Message, Role, AUTHORITY, SPY};
use crate::rng::Rng;
use crate::spy::Spy;
use crate::writer::Writer;

/// How often each rule is tried: later ones more, since they seldom have their premises.
const TRIES: [(u8, usize); 14] = [
    (1, 4),
    (2, 2),
    (3, 5),
    (4, 5),
    (5, 3),
    (6, 5),
    (7, 2),
    (8, 7),
    (9, 7),
    (10, 7),
    (11, 7),
    (12, 7),
    (13, 7),
    (14, 2),
];

/// What an event's message is for the later steps.
#[derive(Clone, Copy)]
enum Shape {
    ClientHello { a: Agent, na: Id, sid: Id, pa: Id },
    ServerHello { nb: Id, sid: Id, pb: Id },
    Certificate { b: Agent },
    SecretNote { b: Agent, pms: Id },
    KeyExchange { b: Agent, pms: Id },
    Finished { role: Role, session: Session },
    SessionNote { sid: Id, a: Agent, b: Agent, m: Id },
    Other,
}

#[derive(Clone, Copy)]
struct Line {
    event: Event,
    shape: Shape,
}

/// A legal trace in the making. Only the given agents take part.
pub struct Legal<'w> {
    w: &'w mut Writer,
    rng: &'w mut Rng,
    agents: Vec<Agent>,
    spy: Spy,
    lines: Vec<Line>,
}

impl<'w> Legal<'w> {
    pub fn new(w: &'w mut Writer, rng: &'w mut Rng, agents: Vec<Agent>) -> Legal<'w> {
        let spy = Spy::new(w.compromised);
        let lines = Vec::new();
        Legal { w, rng, agents, spy, lines }
    }

    /// Tries rules so often, while there are fewer events than the limit, and gives the events,
    /// in units that have to stay together.
    pub fn run(mut self, tries: usize, limit: usize) -> Vec<Vec<Event>> {
        let total = TRIES.iter().map(|&(_, weight)| weight).sum();
        for _ in 0..tries {
            if self.lines.len() + 2 > limit || self.w.messages.len() > 900 {
                break;
            }
            let mut ticket = self.rng.below(total);
            for (rule, weight) in TRIES {
                if ticket < weight {
                    self.apply(rule);
                    break;
                }
                ticket -= weight;
            }
        }
        let mut units: Vec<Vec<Event>> = Vec::new();
        let mut after_note = false;
        for line in self.lines {
            match units.last_mut() {
                Some(unit) if after_note => unit.push(line.event),
                _ => units.push(vec![line.event]),
            }
            after_note = matches!(line.event, Event::Notes(..))
                && matches!(line.shape, Shape::SecretNote { .. });
        }
        units
    }

    /// Applies the rule once, if its premises can be found.
    fn apply(&mut self, rule: u8) -> Option<()> {
        match rule {
            1 => self.fake(),
            2 => self.spy_keys(),
            3 => self.client_hello(),
            4 => self.server_hello(),
            5 => self.certificate(),
            6 => self.key_exchange(),
            7 => self.cert_verify(),
            8 => self.client_finished(),
            9 => self.server_finished(),
            10 => self.client_accepts(),
            11 => self.server_accepts(),
            12 => self.client_resume(),
            13 => self.server_resume(),
            _ => self.oops(),
        }
    }

    fn add(&mut self, event: Event, shape: Shape) {
        self.spy.sees(&self.w.messages, event);
        self.lines.push(Line { event, shape });
    }

    fn agent(&mut self) -> Agent {
        self.rng.pick(&self.agents)
    }

    /// One of a few numbers, so that SIDs and preferences meet again.
    fn number(&mut self) -> Id {
        let value = self.rng.below(3) as u16;
        self.w.number(value)
    }

    /// What the earlier lines offer.
    fn offers<T>(&self, offer: impl FnMut(&Line) -> Option<T>) -> Vec<T> {
        self.lines.iter().filter_map(offer).collect()
    }

    fn known(&self, fits: impl Fn(Message) -> bool) -> Vec<Id> {
        let messages = &self.w.messages;
        let known = |&x: &Id| self.spy.has(messages, x) && fits(messages[x]);
        messages.ids().filter(known).collect()
    }

    fn fake(&mut self) -> Option<()> {
        match self.rng.below(5) {
            0 => self.fake_client_hello(),
            1 => self.fake_server_hello(),
            2 => self.fake_finished(),
            3 => {
                let x = self.fake_message(4)?;
                self.says_if_made(x, Shape::Other)
            }
            _ => self.replay(),
        }
    }

    /// The Spy sends on what it has seen whole.
    fn replay(&mut self) -> Option<()> {
        let seen = self.offers(|line| {
            let x = line.event.message();
            self.spy.has(&self.w.messages, x).then_some((x, line.shape))
        });
        let (x, shape) = self.rng.choose(&seen)?;
        let to = self.agent();
        self.add(Event::Says(SPY, to, x), shape);
        Some(())
    }

    /// A hello in anyone's name with a nonce that the Spy knows, perhaps a PRF.
    fn fake_client_hello(&mut self) -> Option<()> {
        let nonces = self.known(Message::is_nonce);
        let na = self.rng.choose(&nonces)?;
        let (a, sid, pa) = (self.agent(), self.number(), self.number());
        let agent = self.w.agent(a);
        let x = self.w.group(&[agent, na, sid, pa]);
        self.says_if_made(x, Shape::ClientHello { a, na, sid, pa })
    }

    fn fake_server_hello(&mut self) -> Option<()> {
        let nonces = self.known(Message::is_nonce);
        let nb = self.rng.choose(&nonces)?;
        let (sid, pb) = (self.number(), self.number());
        let x = self.w.group(&[nb, sid, pb]);
        self.says_if_made(x, Shape::ServerHello { nb, sid, pb })
    }

    /// A Finished under a session key that the Spy knows, for two hellos with its nonces.
    fn fake_finished(&mut self) -> Option<()> {
        let keys = self.known(|x| matches!(x, Message::SessionKey { .. }));
        let key = self.rng.choose(&keys)?;
        let Message::SessionKey { role, na, nb, m } = self.w.messages[key] else {
            return None;
        };
        let client_hellos = self.offers(|line| match (line.event, line.shape) {
            (Event::Says(_, b, _), Shape::ClientHello { a, na: n, sid, pa }) if n == na => {
                Some((a, b, sid, pa))
            }
            _ => None,
        });
        let server_hellos = self.offers(|line| match line.shape {
            Shape::ServerHello { nb: n, pb, .. } if n == nb => Some(pb),
            _ => None,
        });
        let (a, b, sid, pa) = self.rng.choose(&client_hellos)?;
        let pb = self.rng.choose(&server_hellos)?;
        let pms = match self.w.messages[m] {
            Message::Prf { s, .. } => s,
            _ => m,
        };
        let session = Session { a, b, na, nb, pms, m, sid, pa, pb };
        let x = session.finished(self.w, role);
        let to = match role {
            Role::Client => b,
            Role::Server => a,
        };
        if self.spy.makes(&self.w.messages).can_make(x) {
            self.add(Event::Says(SPY, to, x), Shape::Finished { role, session });
        }
        Some(())
    }

    /// The Spy says the message to someone, if it can make it.
    fn says_if_made(&mut self, x: Id, shape: Shape) -> Option<()> {
        let to = self.agent();
        if self.spy.makes(&self.w.messages).can_make(x) {
            self.add(Event::Says(SPY, to, x), shape);
        }
        Some(())
    }

    /// A message of anything that the Spy knows or can guess.
    fn fake_message(&mut self, depth: usize) -> Option<Id> {
        let choice = if depth == 0 { 0 } else { self.rng.below(6) };
        Some(match choice {
            0 | 1 => {
                let known = self.known(|_| true);
                match self.rng.below(4) {
                    0 => self.number(),
                    1 => {
                        let a = self.agent();
                        self.w.agent(a)
                    }
                    2 if self.rng.one_in(8) => {
                        let a = self.agent();
                        self.w.private_key(a)
                    }
                    _ => self.rng.choose(&known)?,
                }
            }
            2 => {
                let x = self.fake_message(depth - 1)?;
                self.w.hash(x)
            }
            3 => {
                let keys = self.known(Message::is_key);
                let (key, x) = (self.rng.choose(&keys)?, self.fake_message(depth - 1)?);
                self.w.crypt(key, x)
            }
            _ => {
                let (x, y) = (self.fake_message(depth - 1)?, self.fake_message(depth - 1)?);
                self.w.pair(x, y)
            }
        })
    }

    fn spy_keys(&mut self) -> Option<()> {
        let nonces = self.known(Message::is_nonce);
        let (mut na, mut nb) = (self.rng.choose(&nonces)?, self.rng.choose(&nonces)?);
        let sessions = self.client_views();
        if let Some(session) = self.rng.choose(&sessions) {
            (na, nb) = (session.na, session.nb);
        }
        let m = self.rng.choose(&nonces)?;
        let role = self.rng.pick(&[Role::Client, Role::Server]);
        let (prf, key) = (self.w.prf(m, na, nb), self.w.session_key(role, na, nb, m));
        let x = self.w.pair(prf, key);
        self.add(Event::Notes(SPY, x), Shape::Other);
        Some(())
    }

    fn client_hello(&mut self) -> Option<()> {
        let (mut a, mut b) = (self.agent(), self.agent());
        let (mut sid, pa) = (self.number(), self.number());
        let resumable = self.offers(|line| match line.shape {
            Shape::SessionNote { sid, a, b, .. } => Some((sid, a, b)),
            _ => None,
        });
        if self.rng.one_in(2) {
            (sid, a, b) = self.rng.choose(&resumable).unwrap_or((sid, a, b));
        }
        let (agent, na) = (self.w.agent(a), self.w.fresh_nonce());
        let x = self.w.group(&[agent, na, sid, pa]);
        self.add(Event::Says(a, b, x), Shape::ClientHello { a, na, sid, pa });
        Some(())
    }

    fn server_hello(&mut self) -> Option<()> {
        let hellos = self.offers(|line| match (line.event, line.shape) {
            (Event::Says(_, b, _), Shape::ClientHello { a, sid, .. }) => Some((a, b, sid)),
            _ => None,
        });
        let (a, b, sid) = self.rng.choose_late(&hellos)?;
        let (nb, pb) = (self.w.fresh_nonce(), self.number());
        let x = self.w.group(&[nb, sid, pb]);
        self.add(Event::Says(b, a, x), Shape::ServerHello { nb, sid, pb });
        Some(())
    }

    fn certificate(&mut self) -> Option<()> {
        let greeted = self.offers(|line| match (line.event, line.shape) {
            (Event::Says(_, b, _), Shape::ClientHello { a, .. }) => Some((a, b)),
            _ => None,
        });
        let (mut a, mut b) = (self.agent(), self.agent());
        if !self.rng.one_in(4) {
            (a, b) = self.rng.choose_late(&greeted).unwrap_or((a, b));
        }
        let key = self.w.public_key(b);
        let x = certificate(self.w, AUTHORITY, b, key);
        self.add(Event::Says(b, a, x), Shape::Certificate { b });
        Some(())
    }

    fn key_exchange(&mut self) -> Option<()> {
        let certificates = self.offers(|line| match (line.event, line.shape) {
            (Event::Says(_, a, _), Shape::Certificate { b }) => Some((a, b)),
            _ => None,
        });
        let (a, b) = self.rng.choose_late(&certificates)?;
        let pms = self.w.fresh_nonce();
        let (agent, key) = (self.w.agent(b), self.w.public_key(b));
        let (note, message) = (self.w.pair(agent, pms), self.w.crypt(key, pms));
        self.add(Event::Notes(a, note), Shape::SecretNote { b, pms });
        self.add(Event::Says(a, b, message), Shape::KeyExchange { b, pms });
        Some(())
    }

    /// The notes {Agent B, PMS}, with who noted them.
    fn secret_notes(&self) -> Vec<(Agent, Agent, Id)> {
        self.offers(|line| match (line.event, line.shape) {
            (Event::Notes(a, _), Shape::SecretNote { b, pms }) => Some((a, b, pms)),
            _ => None,
        })
    }

    /// The messages Crypt (B's public key) PMS that B got.
    fn secrets_received(&self) -> Vec<(Agent, Id)> {
        self.offers(|line| match (line.event, line.shape) {
            (Event::Says(_, to, _), Shape::KeyExchange { b, pms }) if to == b => Some((b, pms)),
            _ => None,
        })
    }

    /// The notes {SID, Agent A, Agent B, M}, with who noted them.
    fn session_notes(&self) -> Vec<(Agent, (Id, Agent, Agent), Id)> {
        self.offers(|line| match (line.event, line.shape) {
            (Event::Notes(by, _), Shape::SessionNote { sid, a, b, m }) => {
                Some((by, (sid, a, b), m))
            }
            _ => None,
        })
    }

    /// The pairs of hellos that let A say Finished(client); PMS and M are still open.
    fn client_views(&self) -> Vec<Session> {
        self.views(|(from, to, a), (_, receiver)| (from == a && receiver == a).then_some(to))
    }

    /// The pairs of hellos that let B say Finished(server); PMS and M are still open.
    fn server_views(&self) -> Vec<Session> {
        self.views(|(_, to, a), (from, receiver)| (from == to && receiver == a).then_some(to))
    }

    fn views(
        &self,
        server: impl Fn((Agent, Agent, Agent), (Agent, Agent)) -> Option<Agent>,
    ) -> Vec<Session> {
        let mut views = Vec::new();
        for first in &self.lines {
            let (Event::Says(from, to, _), Shape::ClientHello { a, na, sid, pa }) =
                (first.event, first.shape)
            else {
                continue;
            };
            views.extend(self.offers(|second| match (second.event, second.shape) {
                (Event::Says(sender, receiver, _), Shape::ServerHello { nb, sid: s, pb })
                    if s == sid =>
                {
                    let b = server((from, to, a), (sender, receiver))?;
                    let (pms, m) = (na, na);
                    Some(Session { a, b, na, nb, pms, m, sid, pa, pb })
                }
                _ => None,
            }));
        }
        views
    }

    fn cert_verify(&mut self) -> Option<()> {
        let notes = self.secret_notes();
        let (a, b, pms) = self.rng.choose(&notes)?;
        let nonces = self.offers(|line| match (line.event, line.shape) {
            (Event::Says(_, to, _), Shape::ServerHello { nb, .. }) if to == a => Some(nb),
            _ => None,
        });
        let nb = self.rng.choose(&nonces)?;
        let agent = self.w.agent(b);
        let group = self.w.group(&[nb, agent, pms]);
        let (key, hash) = (self.w.private_key(a), self.w.hash(group));
        let x = self.w.crypt(key, hash);
        self.add(Event::Says(a, b, x), Shape::Other);
        Some(())
    }

    fn client_finished(&mut self) -> Option<()> {
        let (views, notes) = (self.client_views(), self.secret_notes());
        let sessions = join(&views, &notes, |view, &(by, b, pms)| {
            (by == view.a && b == view.b).then_some(Session { pms, ..*view })
        });
        self.finish(Role::Client, &sessions)
    }

    fn server_finished(&mut self) -> Option<()> {
        let (views, secrets) = (self.server_views(), self.secrets_received());
        let sessions = join(&views, &secrets, |view, &(b, pms)| {
            (b == view.b).then_some(Session { pms, ..*view })
        });
        self.finish(Role::Server, &sessions)
    }

    /// Says Finished for the first time in one of the sessions, rather in one that the other side
    /// has finished.
    fn finish(&mut self, role: Role, sessions: &[Session]) -> Option<()> {
        let finished_by_other = self.offers(|line| match line.shape {
            Shape::Finished { role: r, session } if r != role => Some(names(&session)),
            _ => None,
        });
        let mut answers = sessions.to_vec();
        answers.retain(|session| finished_by_other.contains(&names(session)));
        let session = match self.rng.choose_late(&answers) {
            Some(answer) if !self.rng.one_in(4) => answer,
            _ => self.rng.choose_late(sessions)?,
        };
        let m = self.w.prf(session.pms, session.na, session.nb);
        self.finished(role, Session { m, ..session })
    }

    fn client_resume(&mut self) -> Option<()> {
        let (views, notes) = (self.client_views(), self.session_notes());
        let sessions = join(&views, &notes, |view, &(by, names, m)| {
            let fits = by == view.a && names == (view.sid, view.a, view.b);
            fits.then_some(Session { m, ..*view })
        });
        let session = self.rng.choose(&sessions)?;
        self.finished(Role::Client, session)
    }

    fn server_resume(&mut self) -> Option<()> {
        let (views, notes) = (self.server_views(), self.session_notes());
        let sessions = join(&views, &notes, |view, &(by, names, m)| {
            let fits = by == view.b && names == (view.sid, view.a, view.b);
            fits.then_some(Session { m, ..*view })
        });
        let session = self.rng.choose(&sessions)?;
        self.finished(Role::Server, session)
    }

    fn finished(&mut self, role: Role, session: Session) -> Option<()> {
        let step = match role {
            Role::Client => Step::ClientFinished,
            Role::Server => Step::ServerFinished,
        };
        for event in session.events(self.w, step) {
            self.add(event, Shape::Finished { role, session });
        }
        Some(())
    }

    /// The sessions of which both Finished were said with the same hash: the client's and the
    /// server's message go between agents that fit.
    fn confirmed(
        &self,
        client_fits: impl Fn(Agent, Agent, &Session) -> bool,
        server_fits: impl Fn(Agent, Agent, &Session) -> bool,
    ) -> Vec<Session> {
        let finished = |role: Role| {
            self.offers(|line| match (line.event, line.shape) {
                (Event::Says(from, to, x), Shape::Finished { role: r, session }) if r == role => {
                    let Message::Crypt { body: hash, .. } = self.w.messages[x] else {
                        return None;
                    };
                    Some((from, to, hash, session))
                }
                _ => None,
            })
        };
        let (client, server) = (finished(Role::Client), finished(Role::Server));
        join(&client, &server, |&(from, to, hash, s), &(f, t, h, _)| {
            let Message::Prf { s: pms, na, nb } = self.w.messages[s.m] else {
                return None;
            };
            let fits = hash == h
                && (na, nb) == (s.na, s.nb)
                && client_fits(from, to, &s)
                && server_fits(f, t, &s);
            fits.then_some(Session { pms, ..s })
        })
    }

    fn client_accepts(&mut self) -> Option<()> {
        let confirmed =
            self.confirmed(|from, to, s| from == s.a && to == s.b, |_, to, s| to == s.a);
        let notes = self.secret_notes();
        let sessions =
            join(&confirmed, &notes, |s, note| (*note == (s.a, s.b, s.pms)).then_some(*s));
        let session = self.rng.choose(&sessions)?;
        self.accepts(Step::ClientAccepts, session)
    }

    fn server_accepts(&mut self) -> Option<()> {
        let confirmed =
            self.confirmed(|_, to, s| to == s.b, |from, to, s| from == s.b && to == s.a);
        let secrets = self.secrets_received();
        let sessions = join(&confirmed, &secrets, |s, secret| {
            (s.a != s.b && *secret == (s.b, s.pms)).then_some(*s)
        });
        let session = self.rng.choose(&sessions)?;
        self.accepts(Step::ServerAccepts, session)
    }

    fn accepts(&mut self, step: Step, session: Session) -> Option<()> {
        let Session { sid, a, b, m, .. } = session;
        for event in session.events(self.w, step) {
            self.add(event, Shape::SessionNote { sid, a, b, m });
        }
        Some(())
    }

    /// Anyone who said something under a session key, the Spy too, loses that key.
    fn oops(&mut self) -> Option<()> {
        let keys = self.offers(|line| match line.event {
            Event::Says(from, _, x) => match self.w.messages[x] {
                Message::Crypt { key, .. } => Some((from, key)),
                _ => None,
            },
            _ => None,
        });
        let (a, key) = self.rng.choose(&keys)?;
        if matches!(self.w.messages[key], Message::SessionKey { .. }) {
            self.add(Event::Says(a, SPY, key), Shape::Other);
        }
        Some(())
    }
}

/// What both sides have to agree on.
fn names(s: &Session) -> [Id; 6] {
    [s.na, s.nb, s.pms, s.sid, s.pa, s.pb]
}

/// What the pairs of one item from either list give.
fn join<X, Y, T>(xs: &[X], ys: &[Y], mut both: impl FnMut(&X, &Y) -> Option<T>) -> Vec<T> {
    let mut found = Vec::new();
    for x in xs {
        found.extend(ys.iter().filter_map(|y| both(x, y)));
    }
    found
}
