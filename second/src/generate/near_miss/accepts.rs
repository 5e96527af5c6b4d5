//! Near misses of rules 10 and 11: the notes with which both sides accept a session.

use super::{add_common, event_of, List, Scene, BOTH_FINISHED, HELLOS, SECRET, TO_SECRET};
use crate::file::Event;
use crate::generate::session::{Session, Step};
use crate::message::{Agent, Id, Role, SPY};

/// One of the two rules: the step it allows, the Finished that its agent says and the one that
/// its agent gets.
#[derive(Clone, Copy)]
struct Rule {
    number: u8,
    role: Role,
    accepts: Step,
    says: Step,
    gets: Step,
}

const CLIENT: Rule = Rule {
    number: 10,
    role: Role::Client,
    accepts: Step::ClientAccepts,
    says: Step::ClientFinished,
    gets: Step::ServerFinished,
};

const SERVER: Rule = Rule {
    number: 11,
    role: Role::Server,
    accepts: Step::ServerAccepts,
    says: Step::ServerFinished,
    gets: Step::ClientFinished,
};

impl Rule {
    /// The full name of a near miss of this rule.
    fn name(self, miss: &str) -> String {
        format!("r{:02}-{miss}", self.number)
    }

    /// The agent that notes.
    fn agent(self, session: Session) -> Agent {
        match self.role {
            Role::Client => session.a,
            Role::Server => session.b,
        }
    }

    /// The agent at the other side.
    fn other(self, session: Session) -> Agent {
        match self.role {
            Role::Client => session.b,
            Role::Server => session.a,
        }
    }

    fn other_role(self) -> Role {
        match self.role {
            Role::Client => Role::Server,
            Role::Server => Role::Client,
        }
    }

    /// Plays a session in which the Spy is the agent that notes, up to where the Spy knows both
    /// session keys and nobody has said Finished.
    fn spys(self, t: &mut Scene) -> Session {
        let session = match self.role {
            Role::Client => Session { a: SPY, ..t.s },
            Role::Server => Session { b: SPY, ..t.s },
        };
        t.play(&TO_SECRET, session);
        t.spy_learns_key(session, Role::Client);
        t.spy_learns_key(session, Role::Server);
        session
    }
}

pub fn add(list: &mut List) {
    add_common(list, 10, |t| legal(t, CLIENT));
    add_common(list, 11, |t| legal(t, SERVER));
    for rule in [CLIENT, SERVER] {
        add_messages(list, rule);
        add_finished(list, rule);
        add_spy(list, rule);
    }
    add_client(list);
    add_server(list);
}

fn legal(t: &mut Scene, rule: Rule) -> Event {
    t.play(&TO_SECRET, t.s);
    t.play(&BOTH_FINISHED, t.s);
    event_of(t, rule.accepts, t.s)
}

/// The note is {SID, Agent A, Agent B, M}, M = PRF(PMS, Na, Nb).
fn add_messages(list: &mut List, rule: Rule) {
    let mut misses = |name: &str, items: fn(&mut Scene, [Id; 4]) -> Vec<Id>| {
        list.add(rule.name(name), move |t| {
            legal(t, rule);
            let (a, b) = (t.w.agent(t.s.a), t.w.agent(t.s.b));
            let items = items(t, [t.s.sid, a, b, t.s.m]);
            let event = Event::Notes(rule.agent(t.s), t.w.group(&items));
            t.miss(event);
        });
    };
    misses("sid-other", |t, [_, a, b, m]| vec![t.o.sid, a, b, m]);
    misses("sid-nonce", |t, [_, a, b, m]| vec![t.s.na, a, b, m]);
    misses("a-other", |t, [sid, _, b, m]| vec![sid, t.w.agent(t.o.a), b, m]);
    misses("b-other", |t, [sid, a, _, m]| vec![sid, a, t.w.agent(t.o.b), m]);
    misses("agents-exchanged", |_, [sid, a, b, m]| vec![sid, b, a, m]);
    misses("agent-twice", |_, [sid, a, _, m]| vec![sid, a, a, m]);
    misses("agents-first", |_, [sid, a, b, m]| vec![a, b, sid, m]);
    misses("shorter", |_, [_, a, b, m]| vec![a, b, m]);
    misses("longer", |t, [sid, a, b, m]| vec![sid, a, b, m, t.number]);
    misses("m-of-other-pms", |t, [sid, a, b, _]| vec![sid, a, b, t.w.prf(t.o.pms, t.s.na, t.s.nb)]);
    misses("m-of-other-na", |t, [sid, a, b, _]| vec![sid, a, b, t.w.prf(t.s.pms, t.o.na, t.s.nb)]);
    misses("m-of-other-nb", |t, [sid, a, b, _]| vec![sid, a, b, t.w.prf(t.s.pms, t.s.na, t.o.nb)]);
    misses("m-na-and-nb-exchanged", |t, [sid, a, b, _]| {
        vec![sid, a, b, t.w.prf(t.s.pms, t.s.nb, t.s.na)]
    });
    misses("m-in-order-of-key", |t, [sid, a, b, _]| {
        vec![sid, a, b, t.w.prf(t.s.na, t.s.nb, t.s.pms)]
    });
    misses("m-is-pms", |t, [sid, a, b, _]| vec![sid, a, b, t.s.pms]);
    misses("m-number", |t, [sid, a, b, _]| vec![sid, a, b, t.number]);
}

/// Both Finished have been said with the same hash.
fn add_finished(list: &mut List, rule: Rule) {
    let mut misses = |name: &str, finished: fn(&mut Scene, Rule)| {
        list.add(rule.name(name), move |t| {
            finished(t, rule);
            t.miss_step(rule.accepts, t.s);
        });
    };
    misses("finished-not-said", |t, rule| {
        t.play(&TO_SECRET, t.s);
        t.play(&[rule.gets], t.s);
    });
    misses("finished-not-got", |t, rule| {
        t.play(&TO_SECRET, t.s);
        t.play(&[rule.says], t.s);
    });
    misses("own-finished-got-back", |t, rule| {
        t.play(&TO_SECRET, t.s);
        t.play(&[rule.says], t.s);
        let finished = event_of(t, rule.says, t.s).message();
        t.fake(rule.agent(t.s), finished);
    });
    misses("finished-got-in-larger-pair", |t, rule| {
        t.play(&TO_SECRET, t.s);
        t.play(&[rule.says], t.s);
        let finished = event_of(t, rule.says, t.s).message();
        let pair = t.w.pair(finished, finished);
        t.fake(rule.agent(t.s), pair);
    });
    misses("other-pa-in-hash", |t, _| {
        let changed = Session { pa: t.o.pa, ..t.s };
        t.play(&[Step::ClientHello], t.s);
        let hello = changed.client_hello(&mut t.w);
        t.fake(t.s.b, hello);
        t.play(&[Step::ServerHello], t.s);
        t.play(&SECRET, t.s);
        t.play(&[Step::ClientFinished], t.s);
        t.play(&[Step::ServerFinished], changed);
    });
    misses("other-pb-in-hash", |t, _| {
        let changed = Session { pb: t.o.pb, ..t.s };
        t.play(&HELLOS, t.s);
        let hello = changed.server_hello(&mut t.w);
        t.fake(t.s.a, hello);
        t.play(&SECRET, t.s);
        t.play(&[Step::ClientFinished], changed);
        t.play(&[Step::ServerFinished], t.s);
    });
    misses("finished-of-other-session-got", |t, rule| {
        let other = Session { a: t.s.a, b: t.s.b, sid: t.s.sid, ..t.o };
        t.play(&TO_SECRET, t.s);
        t.play(&[rule.says], t.s);
        t.play(&TO_SECRET, other);
        t.play(&[rule.gets], other);
    });
    misses("finished-of-other-session-said", |t, rule| {
        let other = Session { a: t.s.a, b: t.s.b, sid: t.s.sid, ..t.o };
        t.play(&TO_SECRET, t.s);
        t.play(&[rule.gets], t.s);
        t.play(&TO_SECRET, other);
        t.play(&[rule.says], other);
    });
    list.add(rule.name("finished-said-later"), move |t| {
        t.play(&TO_SECRET, t.s);
        t.play(&[rule.gets], t.s);
        t.miss_step(rule.accepts, t.s);
        t.play(&[rule.says], t.s);
    });
    list.add(rule.name("finished-got-later"), move |t| {
        t.play(&TO_SECRET, t.s);
        t.play(&[rule.says], t.s);
        t.miss_step(rule.accepts, t.s);
        t.play(&[rule.gets], t.s);
    });
}

/// The Spy takes the agent's place, or speaks for it: only so does a message go astray or say
/// what honest agents do not say.
fn add_spy(list: &mut List, rule: Rule) {
    list.add(rule.name("finished-said-by-spy"), move |t| {
        let session = Session { b: t.e, ..t.s };
        t.play(&TO_SECRET, session);
        t.play(&[rule.gets], session);
        t.spy_learns_key(session, rule.role);
        let finished = event_of(t, rule.says, session);
        t.fake(rule.other(session), finished.message());
        t.miss_step(rule.accepts, session);
    });
    list.add(rule.name("finished-got-by-other"), move |t| {
        let session = Session { b: t.e, ..t.s };
        t.play(&TO_SECRET, session);
        t.play(&[rule.says], session);
        t.spy_learns_key(session, rule.other_role());
        let finished = event_of(t, rule.gets, session);
        t.fake(t.o.a, finished.message());
        t.miss_step(rule.accepts, session);
    });
    list.twin(rule.number, rule.name("spys-own"), move |t| {
        let session = rule.spys(t);
        let finished = event_of(t, rule.says, session);
        t.fake(rule.other(session), finished.message());
        let finished = event_of(t, rule.gets, session);
        t.fake(SPY, finished.message());
        t.play(&[rule.accepts], session);
    });
    list.add(rule.name("finished-said-to-other"), move |t| {
        let session = rule.spys(t);
        let finished = event_of(t, rule.says, session);
        t.fake(t.o.a, finished.message());
        let finished = event_of(t, rule.gets, session);
        t.fake(SPY, finished.message());
        t.miss_step(rule.accepts, session);
    });

    let mut hashes = |name: &str, change: fn(&mut Scene, [Id; 8]) -> Vec<Id>| {
        list.add(rule.name(&format!("both-hashes-{name}")), move |t| {
            let session = rule.spys(t);
            let items = session.hashed(&mut t.w);
            let items = change(t, items);
            let group = t.w.group(&items);
            let hash = t.w.hash(group);
            let key = session.key(&mut t.w, rule.role);
            let finished = t.w.crypt(key, hash);
            t.fake(rule.other(session), finished);
            let key = session.key(&mut t.w, rule.other_role());
            let finished = t.w.crypt(key, hash);
            t.fake(SPY, finished);
            t.miss_step(rule.accepts, session);
        });
    };
    hashes("of-other-sid", |t, mut items| {
        items[0] = t.o.sid;
        items.into()
    });
    hashes("of-other-m", |t, mut items| {
        items[1] = t.s.na;
        items.into()
    });
    hashes("of-other-na", |t, mut items| {
        items[2] = t.s.nb;
        items.into()
    });
    hashes("with-nonce-for-pa", |t, mut items| {
        items[3] = t.s.na;
        items.into()
    });
    hashes("of-other-a", |t, mut items| {
        items[4] = t.w.agent(t.o.a);
        items.into()
    });
    hashes("of-other-nb", |t, mut items| {
        items[5] = t.s.na;
        items.into()
    });
    hashes("with-agent-for-pb", |t, mut items| {
        items[6] = t.w.agent(t.s.b);
        items.into()
    });
    hashes("of-other-b", |t, mut items| {
        items[7] = t.w.agent(t.o.b);
        items.into()
    });
    hashes("longer", |t, items| {
        let mut items = items.to_vec();
        items.push(t.number);
        items
    });

    list.add(rule.name("both-finished-of-other-nonces"), move |t| {
        let session = rule.spys(t);
        let Session { na, nb, m, .. } = session;
        let exchanged = Session { na: nb, nb: na, ..session };
        for role in [rule.role, rule.other_role()] {
            let prf = t.w.prf(m, nb, na);
            let key = exchanged.key(&mut t.w, role);
            let note = t.w.pair(prf, key);
            t.push(Event::Notes(SPY, note));
        }
        let finished = event_of(t, rule.says, exchanged);
        t.fake(rule.other(session), finished.message());
        let finished = event_of(t, rule.gets, exchanged);
        t.fake(SPY, finished.message());
        t.miss_step(rule.accepts, session);
    });
}

/// 10: A noted {Agent B, PMS}. Only the Spy gets that far without the note: an honest client's
/// secret goes to a compromised server, and the Spy finishes a session of its own with it.
fn add_client(list: &mut List) {
    let mut misses = |name: &str, note: fn(&mut Scene, Session)| {
        list.add(CLIENT.name(name), move |t| {
            t.play(&SECRET, Session { b: t.e, ..t.s });
            let session = Session { a: SPY, b: t.e, ..t.s };
            note(t, session);
            t.play(&HELLOS, session);
            t.play(&[Step::ServerFinished], session);
            t.spy_learns_key(session, Role::Client);
            let finished = session.finished(&mut t.w, Role::Client);
            t.fake(session.b, finished);
            t.miss_step(Step::ClientAccepts, session);
        });
    };
    misses("note-missing", |_, _| {});
    misses("note-said", |t, session| {
        let note = session.secret_note(&mut t.w);
        t.fake(session.b, note);
    });
    misses("note-of-other-secret", |t, session| {
        t.play(&SECRET, Session { pms: t.o.pms, ..session });
    });
}

/// 11: A'' said Crypt (B's public key) PMS to B, and A is not B. Again the Spy, or a compromised
/// server, has the secret of an honest client.
fn add_server(list: &mut List) {
    let mut misses = |name: &str, secret: fn(&mut Scene)| {
        list.add(SERVER.name(name), move |t| {
            t.play(&SECRET, Session { b: t.e, ..t.s });
            secret(t);
            let session = Session { b: SPY, ..t.s };
            t.play(&HELLOS, session);
            for (role, to) in [(Role::Server, session.a), (Role::Client, SPY)] {
                t.spy_learns_key(session, role);
                let finished = session.finished(&mut t.w, role);
                t.fake(to, finished);
            }
            t.miss_step(Step::ServerAccepts, session);
        });
    };
    misses("secret-missing", |_| {});
    misses("secret-under-other-key", |t| {
        let message = Session { b: t.e, ..t.s }.key_exchange(&mut t.w);
        t.fake(SPY, message);
    });
    list.add("r11-with-itself", |t| {
        t.play(&SECRET, Session { b: t.e, ..t.s });
        let session = Session { a: t.e, b: t.e, ..t.s };
        t.play(&HELLOS, session);
        t.play(&[Step::ServerFinished], session);
        t.spy_learns_key(session, Role::Client);
        let finished = session.finished(&mut t.w, Role::Client);
        t.fake(t.e, finished);
        t.miss_step(Step::ServerAccepts, session);
    });
}
