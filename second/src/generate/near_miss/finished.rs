//! Near misses of rules 8, 9, 12 and 13: both Finished, of full and of resumed sessions.

use super::{event_of, List, Scene, Wrapping, BOTH_FINISHED, HELLOS, SECRET, TO_SECRET, WRAPPINGS};
use crate::file::Event;
use crate::generate::session::{Session, Step};
use crate::message::{Id, Role, SPY};

/// One of the four rules.
#[derive(Clone, Copy)]
struct Rule {
    number: u8,
    role: Role,
    resumes: bool,
}

const RULES: [Rule; 4] = [
    Rule { number: 8, role: Role::Client, resumes: false },
    Rule { number: 9, role: Role::Server, resumes: false },
    Rule { number: 12, role: Role::Client, resumes: true },
    Rule { number: 13, role: Role::Server, resumes: true },
];

impl Rule {
    /// The full name of a near miss of this rule.
    fn name(self, miss: &str) -> String {
        format!("r{:02}-{miss}", self.number)
    }

    fn finished(self) -> Step {
        match self.role {
            Role::Client => Step::ClientFinished,
            Role::Server => Step::ServerFinished,
        }
    }

    fn accepts(self) -> Step {
        match self.role {
            Role::Client => Step::ClientAccepts,
            Role::Server => Step::ServerAccepts,
        }
    }

    /// Plays what gives the agent its secret, and gives the session whose hellos and Finished
    /// follow: the same one, or one that resumes it.
    fn secret(self, t: &mut Scene) -> Session {
        if self.resumes {
            t.play(&TO_SECRET, t.s);
            t.play(&BOTH_FINISHED, t.s);
            t.play(&[self.accepts()], t.s);
            resumed(t)
        } else {
            t.play(&SECRET, t.s);
            t.s
        }
    }

    /// Plays all premises.
    fn premises(self, t: &mut Scene) -> Session {
        let session = self.secret(t);
        t.play(&HELLOS, session);
        session
    }

    /// The event with this message, between the right agents.
    fn says(self, session: Session, x: Id) -> Event {
        match self.role {
            Role::Client => Event::Says(session.a, session.b, x),
            Role::Server => Event::Says(session.b, session.a, x),
        }
    }
}

/// The session in question resumed, with fresh nonces.
fn resumed(t: &mut Scene) -> Session {
    Session { na: t.w.fresh_nonce(), nb: t.w.fresh_nonce(), ..t.s }
}

pub fn add(list: &mut List) {
    add_spy(list);
    for rule in RULES {
        list.twin(rule.number, rule.name("legal"), move |t| {
            let session = rule.premises(t);
            t.play(&[rule.finished()], session);
        });
        add_messages(list, rule);
        add_agents(list, rule);
        match rule.role {
            Role::Client => add_client_hellos(list, rule),
            Role::Server => add_server_hellos(list, rule),
        }
        match (rule.resumes, rule.role) {
            (false, Role::Client) => add_note_of_secret(list, rule),
            (false, Role::Server) => add_message_of_secret(list, rule),
            (true, _) => add_note_of_session(list, rule),
        }
        if !rule.resumes {
            add_master_secret(list, rule);
        }
    }
}

/// The message is Crypt (session key Na, Nb, M, role) (Hash {SID, M, Na, Pa, A, Nb, Pb, B}).
fn add_messages(list: &mut List, rule: Rule) {
    const ITEMS: [&str; 8] = ["sid", "m", "na", "pa", "a", "nb", "pb", "b"];
    for (at, item) in ITEMS.into_iter().enumerate() {
        list.add(rule.name(&format!("hash-of-other-{item}")), move |t| {
            let session = rule.premises(t);
            let mut items = session.hashed(&mut t.w);
            items[at] = t.o.hashed(&mut t.w)[at];
            let key = session.key(&mut t.w, rule.role);
            let x = closed_hash(t, key, &items);
            t.miss(rule.says(session, x));
        });
    }
    let mut hashes = |name: &str, change: fn(&mut Scene, Vec<Id>) -> Vec<Id>| {
        list.add(rule.name(&format!("hash-{name}")), move |t| {
            let session = rule.premises(t);
            let items = session.hashed(&mut t.w).to_vec();
            let items = change(t, items);
            let key = session.key(&mut t.w, rule.role);
            let x = closed_hash(t, key, &items);
            t.miss(rule.says(session, x));
        });
    };
    hashes("na-and-nb-exchanged", |_, mut items| {
        items.swap(2, 5);
        items
    });
    hashes("agents-exchanged", |_, mut items| {
        items.swap(4, 7);
        items
    });
    hashes("preferences-exchanged", |_, mut items| {
        items.swap(3, 6);
        items
    });
    hashes("sid-and-m-exchanged", |_, mut items| {
        items.swap(0, 1);
        items
    });
    hashes("longer", |t, mut items| {
        items.push(t.number);
        items
    });
    hashes("shorter", |_, mut items| {
        items.pop();
        items
    });

    let mut keys = |name: &str, key: fn(&mut Scene, Session, Role) -> Id| {
        list.add(rule.name(&format!("key-{name}")), move |t| {
            let session = rule.premises(t);
            let items = session.hashed(&mut t.w);
            let key = key(t, session, rule.role);
            let x = closed_hash(t, key, &items);
            t.miss(rule.says(session, x));
        });
    };
    keys("of-other-role", |t, session, role| match role {
        Role::Client => session.key(&mut t.w, Role::Server),
        Role::Server => session.key(&mut t.w, Role::Client),
    });
    keys("of-other-na", |t, session, role| {
        let session = Session { na: t.o.na, ..session };
        session.key(&mut t.w, role)
    });
    keys("of-other-nb", |t, session, role| {
        let session = Session { nb: t.o.nb, ..session };
        session.key(&mut t.w, role)
    });
    keys("of-other-m", |t, session, role| {
        let session = Session { m: t.o.m, ..session };
        session.key(&mut t.w, role)
    });
    keys("na-and-nb-exchanged", |t, session, role| {
        t.w.session_key(role, session.nb, session.na, session.m)
    });
    keys("in-order-of-prf", |t, session, role| {
        t.w.session_key(role, session.m, session.na, session.nb)
    });
    keys("public", |t, session, _| t.w.public_key(session.b));
    keys("private", |t, session, role| match role {
        Role::Client => t.w.private_key(session.a),
        Role::Server => t.w.private_key(session.b),
    });

    list.add(rule.name("not-hashed"), move |t| {
        let session = rule.premises(t);
        let items = session.hashed(&mut t.w);
        let (key, group) = (session.key(&mut t.w, rule.role), t.w.group(&items));
        let x = t.w.crypt(key, group);
        t.miss(rule.says(session, x));
    });
    list.add(rule.name("not-closed"), move |t| {
        let session = rule.premises(t);
        let items = session.hashed(&mut t.w);
        let group = t.w.group(&items);
        let x = t.w.hash(group);
        t.miss(rule.says(session, x));
    });
    for (name, wrapping) in WRAPPINGS {
        list.add(rule.name(name), move |t| {
            let session = rule.premises(t);
            let finished = session.finished(&mut t.w, rule.role);
            let x = t.wrapped(wrapping, finished);
            t.miss(rule.says(session, x));
        });
    }
}

fn closed_hash(t: &mut Scene, key: Id, items: &[Id]) -> Id {
    let group = t.w.group(items);
    let hash = t.w.hash(group);
    t.w.crypt(key, hash)
}

/// The message goes from one of the agents in it to the other.
fn add_agents(list: &mut List, rule: Rule) {
    let mut misses = |name: &str, change: fn(&Scene, Event) -> Event| {
        list.add(rule.name(name), move |t| {
            let session = rule.premises(t);
            let event = event_of(t, rule.finished(), session);
            t.miss(change(t, event));
        });
    };
    misses("by-other", |t, event| match event {
        Event::Says(_, to, x) => Event::Says(t.o.a, to, x),
        note => note,
    });
    misses("to-other", |t, event| match event {
        Event::Says(from, _, x) => Event::Says(from, t.o.b, x),
        note => note,
    });
    misses("back", |_, event| match event {
        Event::Says(from, to, x) => Event::Says(to, from, x),
        note => note,
    });
    misses("noted", |_, event| match event {
        Event::Says(from, _, x) => Event::Notes(from, x),
        note => note,
    });
}

/// 8 and 12: A said CH to B, B' said SH to A.
fn add_client_hellos(list: &mut List, rule: Rule) {
    let mut misses = |name: &str, hellos: fn(&mut Scene, Session)| {
        list.add(rule.name(name), move |t| {
            let session = rule.secret(t);
            hellos(t, session);
            t.miss_step(rule.finished(), session);
        });
    };
    misses("ch-missing", |t, r| {
        t.play(&HELLOS, Session { a: t.o.a, na: t.o.na, ..r });
        let hello = r.server_hello(&mut t.w);
        t.fake(r.a, hello);
    });
    misses("ch-to-other", |t, r| {
        t.play(&HELLOS, Session { b: t.o.b, ..r });
    });
    misses("ch-by-spy", |t, r| {
        t.play(&[Step::ClientHello], Session { b: t.o.b, ..r });
        let hello = r.client_hello(&mut t.w);
        t.fake(r.b, hello);
        t.play(&[Step::ServerHello], r);
    });
    misses("ch-of-other-agent", |t, r| {
        t.play(&HELLOS, Session { a: t.o.a, ..r });
        let hello = r.server_hello(&mut t.w);
        t.fake(r.a, hello);
    });
    misses("ch-of-other-na", |t, r| {
        t.play(&HELLOS, Session { na: t.o.na, ..r });
    });
    misses("ch-of-other-sid", |t, r| {
        t.play(&[Step::ClientHello], Session { sid: t.o.sid, ..r });
        t.play(&HELLOS, Session { na: t.o.na, ..r });
    });
    misses("ch-of-other-pa", |t, r| {
        t.play(&HELLOS, Session { pa: t.o.pa, ..r });
    });
    misses("sh-missing", |t, r| t.play(&[Step::ClientHello], r));
    misses("sh-to-other", |t, r| {
        t.play(&[Step::ClientHello], r);
        t.play(&HELLOS, Session { a: t.o.a, na: t.o.na, ..r });
    });
    misses("sh-of-other-nb", |t, r| {
        t.play(&HELLOS, Session { nb: t.o.nb, ..r });
    });
    misses("sh-of-other-sid", |t, r| {
        t.play(&[Step::ClientHello], r);
        let (na, sid) = (t.o.na, t.o.sid);
        t.play(&HELLOS, Session { na, sid, ..r });
    });
    misses("sh-of-other-pb", |t, r| {
        t.play(&HELLOS, Session { pb: t.o.pb, ..r });
    });
    misses("sh-in-larger-pair", |t, r| {
        t.play(&[Step::ClientHello], r);
        t.play(&HELLOS, Session { a: t.o.a, na: t.o.na, ..r });
        let hello = r.server_hello(&mut t.w);
        let pair = t.wrapped(Wrapping::InPairLeft, hello);
        t.fake(r.a, pair);
    });
    list.add(rule.name("sh-later"), move |t| {
        let session = rule.secret(t);
        t.play(&[Step::ClientHello], session);
        t.miss_step(rule.finished(), session);
        t.play(&[Step::ServerHello], session);
    });
}

/// 9 and 13: A' said CH to B, B said SH to A.
fn add_server_hellos(list: &mut List, rule: Rule) {
    let mut misses = |name: &str, hellos: fn(&mut Scene, Session)| {
        list.add(rule.name(name), move |t| {
            let session = rule.secret(t);
            hellos(t, session);
            t.miss_step(rule.finished(), session);
        });
    };
    misses("ch-to-other", |t, r| {
        t.play(&[Step::ClientHello], Session { b: t.o.b, ..r });
        t.play(&HELLOS, Session { na: t.o.na, ..r });
    });
    misses("ch-of-other-agent", |t, r| {
        t.play(&[Step::ClientHello], Session { a: t.o.a, ..r });
        t.play(&HELLOS, Session { na: t.o.na, ..r });
    });
    misses("ch-of-other-na", |t, r| {
        t.play(&HELLOS, Session { na: t.o.na, ..r });
    });
    misses("ch-of-other-sid", |t, r| {
        t.play(&[Step::ClientHello], Session { sid: t.o.sid, ..r });
        t.play(&HELLOS, Session { na: t.o.na, ..r });
    });
    misses("ch-of-other-pa", |t, r| {
        t.play(&HELLOS, Session { pa: t.o.pa, ..r });
    });
    misses("ch-in-larger-pair", |t, r| {
        t.play(&[Step::ClientHello], Session { b: t.o.b, ..r });
        t.play(&HELLOS, Session { na: t.o.na, ..r });
        let hello = r.client_hello(&mut t.w);
        let pair = t.wrapped(Wrapping::InPairLeft, hello);
        t.fake(r.b, pair);
    });
    misses("sh-missing", |t, r| t.play(&[Step::ClientHello], r));
    misses("sh-by-other", |t, r| {
        t.play(&[Step::ClientHello], r);
        t.play(&HELLOS, Session { b: t.o.b, na: t.o.na, ..r });
    });
    misses("sh-by-spy", |t, r| {
        t.play(&[Step::ClientHello], r);
        t.play(&HELLOS, Session { a: t.o.a, na: t.o.na, ..r });
        let hello = r.server_hello(&mut t.w);
        t.fake(r.a, hello);
    });
    misses("sh-to-other", |t, r| {
        t.play(&[Step::ClientHello], r);
        t.play(&HELLOS, Session { a: t.o.a, na: t.o.na, ..r });
    });
    misses("sh-of-other-nb", |t, r| {
        t.play(&HELLOS, Session { nb: t.o.nb, ..r });
    });
    misses("sh-of-other-sid", |t, r| {
        t.play(&[Step::ClientHello], r);
        let (na, sid) = (t.o.na, t.o.sid);
        t.play(&HELLOS, Session { na, sid, ..r });
    });
    misses("sh-of-other-pb", |t, r| {
        t.play(&HELLOS, Session { pb: t.o.pb, ..r });
    });
    list.add(rule.name("to-other-who-got-sh"), move |t| {
        let session = rule.secret(t);
        t.play(&[Step::ClientHello], session);
        let other = Session { a: t.o.a, na: t.o.na, ..session };
        t.play(&HELLOS, other);
        let finished = session.finished(&mut t.w, rule.role);
        t.miss(Event::Says(session.b, other.a, finished));
    });
    list.add(rule.name("ch-later"), move |t| {
        let session = rule.secret(t);
        t.play(&HELLOS, Session { na: t.o.na, ..session });
        t.miss_step(rule.finished(), session);
        t.play(&[Step::ClientHello], session);
    });
    list.add(rule.name("sh-later"), move |t| {
        let session = rule.secret(t);
        t.play(&[Step::ClientHello], session);
        t.miss_step(rule.finished(), session);
        t.play(&[Step::ServerHello], session);
    });
}

/// 8: A noted {Agent B, PMS}.
fn add_note_of_secret(list: &mut List, rule: Rule) {
    let mut misses = |name: &str, secret: fn(&mut Scene)| {
        list.add(rule.name(name), move |t| {
            t.play(&HELLOS, t.s);
            secret(t);
            t.miss_step(rule.finished(), t.s);
        });
    };
    misses("note-missing", |t| t.play(&[Step::Certificate], t.s));
    misses("note-by-other", |t| {
        t.play(&SECRET, Session { a: t.o.a, ..t.s });
    });
    misses("note-by-server", |t| {
        t.play(&SECRET, Session { a: t.s.b, ..t.s });
    });
    misses("note-of-other-agent", |t| {
        t.play(&SECRET, Session { b: t.o.b, ..t.s });
    });
    misses("note-of-other-pms", |t| {
        t.play(&SECRET, Session { pms: t.o.pms, ..t.s });
    });
    list.add(rule.name("note-later"), move |t| {
        t.play(&HELLOS, t.s);
        t.play(&[Step::Certificate], t.s);
        t.miss_step(rule.finished(), t.s);
        t.play(&[Step::KeyExchange], t.s);
    });
}

/// 9: A'' said Crypt (B's public key) PMS to B.
fn add_message_of_secret(list: &mut List, rule: Rule) {
    let mut misses = |name: &str, secret: fn(&mut Scene)| {
        list.add(rule.name(name), move |t| {
            t.play(&HELLOS, t.s);
            secret(t);
            t.miss_step(rule.finished(), t.s);
        });
    };
    misses("secret-missing", |t| t.play(&[Step::Certificate], t.s));
    misses("secret-to-other", |t| {
        t.play(&SECRET, Session { b: t.o.b, ..t.s });
    });
    misses("secret-under-other-key", |t| {
        let other = Session { b: t.o.b, ..t.s };
        t.play(&SECRET, other);
        let message = other.key_exchange(&mut t.w);
        t.fake(t.s.b, message);
    });
    misses("other-secret", |t| {
        t.play(&SECRET, Session { pms: t.o.pms, ..t.s });
    });
    list.add(rule.name("secret-later"), move |t| {
        t.play(&HELLOS, t.s);
        t.play(&[Step::Certificate], t.s);
        t.miss_step(rule.finished(), t.s);
        t.play(&[Step::KeyExchange], t.s);
    });
}

/// 8 and 9: M = PRF(PMS, Na, Nb).
fn add_master_secret(list: &mut List, rule: Rule) {
    let mut misses = |name: &str, master: fn(&mut Scene) -> Id| {
        list.add(rule.name(&format!("m-{name}")), move |t| {
            let session = rule.premises(t);
            let m = master(t);
            t.miss_step(rule.finished(), Session { m, ..session });
        });
    };
    misses("na-and-nb-exchanged", |t| t.w.prf(t.s.pms, t.s.nb, t.s.na));
    misses("in-order-of-key", |t| t.w.prf(t.s.na, t.s.nb, t.s.pms));
    misses("of-other-na", |t| t.w.prf(t.s.pms, t.o.na, t.s.nb));
    misses("of-other-nb", |t| t.w.prf(t.s.pms, t.s.na, t.o.nb));
    misses("of-other-pms", |t| t.w.prf(t.o.pms, t.s.na, t.s.nb));
    misses("of-m", |t| t.w.prf(t.s.m, t.s.na, t.s.nb));
    misses("is-pms", |t| t.s.pms);
    misses("plain", |t| t.o.pms);
}

/// 12: A noted {SID, Agent A, Agent B, M}; 13: B noted it.
fn add_note_of_session(list: &mut List, rule: Rule) {
    /// A handshake up to both Finished.
    fn handshake(t: &mut Scene, session: Session) {
        t.play(&TO_SECRET, session);
        t.play(&BOTH_FINISHED, session);
    }
    let mut misses = |name: &str, resumption: fn(&mut Scene, Rule) -> Session| {
        list.add(rule.name(name), move |t| {
            let session = resumption(t, rule);
            t.play(&HELLOS, session);
            t.miss_step(rule.finished(), session);
        });
    };
    misses("note-missing", |t, _| {
        handshake(t, t.s);
        resumed(t)
    });
    misses("note-by-other-side", |t, rule| {
        handshake(t, t.s);
        let other_side = match rule.accepts() {
            Step::ClientAccepts => Step::ServerAccepts,
            _ => Step::ClientAccepts,
        };
        t.play(&[other_side], t.s);
        resumed(t)
    });
    misses("note-in-other-role", |t, rule| {
        let reversed = Session { a: t.s.b, b: t.s.a, ..t.s };
        handshake(t, reversed);
        let other_side = match rule.accepts() {
            Step::ClientAccepts => Step::ServerAccepts,
            _ => Step::ClientAccepts,
        };
        t.play(&[other_side], reversed);
        resumed(t)
    });
    misses("note-of-other-client", |t, rule| {
        let other = Session { a: t.o.a, ..t.s };
        handshake(t, other);
        t.play(&[rule.accepts()], other);
        resumed(t)
    });
    misses("note-of-other-server", |t, rule| {
        let other = Session { b: t.o.b, ..t.s };
        handshake(t, other);
        t.play(&[rule.accepts()], other);
        resumed(t)
    });
    misses("note-of-other-sid", |t, rule| {
        handshake(t, t.s);
        t.play(&[rule.accepts()], t.s);
        let sid = t.o.sid;
        Session { sid, ..resumed(t) }
    });
    misses("note-of-other-m", |t, rule| {
        let other = Session { a: t.s.a, b: t.s.b, ..t.o };
        handshake(t, t.s);
        t.play(&[rule.accepts()], t.s);
        handshake(t, other);
        t.play(&[rule.accepts()], other);
        let m = other.m;
        Session { m, ..resumed(t) }
    });
    misses("m-tied-to-new-nonces", |t, rule| {
        handshake(t, t.s);
        t.play(&[rule.accepts()], t.s);
        let session = resumed(t);
        let m = t.w.prf(session.m, session.na, session.nb);
        Session { m, ..session }
    });
    misses("m-is-pms", |t, rule| {
        handshake(t, t.s);
        t.play(&[rule.accepts()], t.s);
        let m = t.s.pms;
        Session { m, ..resumed(t) }
    });
    list.add(rule.name("note-later"), move |t| {
        handshake(t, t.s);
        let session = resumed(t);
        t.play(&HELLOS, session);
        t.miss_step(rule.finished(), session);
        t.play(&[rule.accepts()], t.s);
    });
}

/// What only the Spy can do: say in another's name, or say what is to be noted.
fn add_spy(list: &mut List) {
    list.add("r08-in-other-name", |t| {
        t.play(&SECRET, Session { a: SPY, ..t.s });
        t.play(&[Step::ClientHello], Session { b: t.o.b, ..t.s });
        let hello = t.s.client_hello(&mut t.w);
        t.fake(t.s.b, hello);
        t.play(&[Step::ServerHello], t.s);
        let hello = t.s.server_hello(&mut t.w);
        t.fake(SPY, hello);
        let finished = t.s.finished(&mut t.w, Role::Client);
        let event = Event::Says(SPY, t.s.b, finished);
        t.miss(event);
    });
    list.add("r08-note-said", |t| {
        let (pms, m) = (t.s.na, t.w.prf(t.s.na, t.s.na, t.s.nb));
        let session = Session { a: SPY, pms, m, ..t.s };
        t.play(&HELLOS, session);
        let note = session.secret_note(&mut t.w);
        t.fake(session.b, note);
        t.miss_step(Step::ClientFinished, session);
    });
    list.add("r12-note-said", |t| {
        let session = Session { a: SPY, m: t.s.na, ..t.s };
        t.play(&HELLOS, session);
        let note = session.session_note(&mut t.w);
        t.fake(session.b, note);
        t.miss_step(Step::ClientFinished, session);
    });
    list.add("r13-note-said", |t| {
        let session = Session { b: SPY, m: t.s.na, ..t.s };
        t.play(&HELLOS, session);
        let note = session.session_note(&mut t.w);
        t.fake(session.a, note);
        t.miss_step(Step::ServerFinished, session);
    });
}
