//! One session's names, and the messages and events of its steps.

use crate::file::Event;
use crate::message::{Agent, Id, Role, AUTHORITY, SPY};
use crate::writer::Writer;

/// The names of one session. A resumption has new nonces and preferences and an old SID and M.
#[derive(Clone, Copy, Debug)]
pub struct Session {
    pub a: Agent,
    pub b: Agent,
    pub na: Id,
    pub nb: Id,
    pub pms: Id,
    pub m: Id,
    pub sid: Id,
    pub pa: Id,
    pub pb: Id,
}

/// The steps of a session; resumed ones reuse the hellos and the Finished.
#[derive(Clone, Copy, PartialEq, Eq, Debug)]
pub enum Step {
    ClientHello,
    ServerHello,
    Certificate,
    KeyExchange,
    CertVerify,
    ClientFinished,
    ServerFinished,
    ClientAccepts,
    ServerAccepts,
    ClientOops,
    ServerOops,
}

/// A full handshake in its usual order.
pub const FULL_HANDSHAKE: [Step; 9] = [
    Step::ClientHello,
    Step::ServerHello,
    Step::Certificate,
    Step::KeyExchange,
    Step::CertVerify,
    Step::ClientFinished,
    Step::ServerFinished,
    Step::ClientAccepts,
    Step::ServerAccepts,
];

/// A resumed handshake in its usual order.
pub const RESUMPTION: [Step; 4] =
    [Step::ClientHello, Step::ServerHello, Step::ClientFinished, Step::ServerFinished];

impl Session {
    /// A session between A and B with fresh nonces.
    pub fn new(w: &mut Writer, a: Agent, b: Agent, sid: u16, pa: u16, pb: u16) -> Session {
        let (na, nb, pms) = (w.fresh_nonce(), w.fresh_nonce(), w.fresh_nonce());
        Session {
            a,
            b,
            na,
            nb,
            pms,
            m: w.prf(pms, na, nb),
            sid: w.number(sid),
            pa: w.number(pa),
            pb: w.number(pb),
        }
    }

    /// The same session resumed with fresh nonces.
    pub fn resumed(self, w: &mut Writer, pa: u16, pb: u16) -> Session {
        Session {
            na: w.fresh_nonce(),
            nb: w.fresh_nonce(),
            pa: w.number(pa),
            pb: w.number(pb),
            ..self
        }
    }

    /// CH, {Agent A, Na, SID, Pa}.
    pub fn client_hello(&self, w: &mut Writer) -> Id {
        let a = w.agent(self.a);
        w.group(&[a, self.na, self.sid, self.pa])
    }

    /// SH, {Nb, SID, Pb}.
    pub fn server_hello(&self, w: &mut Writer) -> Id {
        w.group(&[self.nb, self.sid, self.pb])
    }

    /// cert(B, B's public key).
    pub fn certificate(&self, w: &mut Writer) -> Id {
        let key = w.public_key(self.b);
        certificate(w, AUTHORITY, self.b, key)
    }

    /// {Agent B, PMS}.
    pub fn secret_note(&self, w: &mut Writer) -> Id {
        let b = w.agent(self.b);
        w.pair(b, self.pms)
    }

    /// Crypt (B's public key) PMS.
    pub fn key_exchange(&self, w: &mut Writer) -> Id {
        let key = w.public_key(self.b);
        w.crypt(key, self.pms)
    }

    /// Crypt (A's private key) (Hash {Nb, Agent B, PMS}).
    pub fn cert_verify(&self, w: &mut Writer) -> Id {
        let b = w.agent(self.b);
        let group = w.group(&[self.nb, b, self.pms]);
        let (key, hash) = (w.private_key(self.a), w.hash(group));
        w.crypt(key, hash)
    }

    /// The session key (Na, Nb, M) of the role.
    pub fn key(&self, w: &mut Writer, role: Role) -> Id {
        w.session_key(role, self.na, self.nb, self.m)
    }

    /// The items SID, M, Na, Pa, A, Nb, Pb, B of the hash.
    pub fn hashed(&self, w: &mut Writer) -> [Id; 8] {
        let (a, b) = (w.agent(self.a), w.agent(self.b));
        let Session { na, nb, m, sid, pa, pb, .. } = *self;
        [sid, m, na, pa, a, nb, pb, b]
    }

    /// Finished(role).
    pub fn finished(&self, w: &mut Writer, role: Role) -> Id {
        let items = self.hashed(w);
        let group = w.group(&items);
        let (key, hash) = (self.key(w, role), w.hash(group));
        w.crypt(key, hash)
    }

    /// {SID, Agent A, Agent B, M}.
    pub fn session_note(&self, w: &mut Writer) -> Id {
        let (a, b) = (w.agent(self.a), w.agent(self.b));
        w.group(&[self.sid, a, b, self.m])
    }

    /// The step's events: two for the key exchange, else one.
    pub fn events(&self, w: &mut Writer, step: Step) -> Vec<Event> {
        let Session { a, b, .. } = *self;
        let event = match step {
            Step::ClientHello => Event::Says(a, b, self.client_hello(w)),
            Step::ServerHello => Event::Says(b, a, self.server_hello(w)),
            Step::Certificate => Event::Says(b, a, self.certificate(w)),
            Step::KeyExchange => {
                let note = Event::Notes(a, self.secret_note(w));
                return vec![note, Event::Says(a, b, self.key_exchange(w))];
            }
            Step::CertVerify => Event::Says(a, b, self.cert_verify(w)),
            Step::ClientFinished => Event::Says(a, b, self.finished(w, Role::Client)),
            Step::ServerFinished => Event::Says(b, a, self.finished(w, Role::Server)),
            Step::ClientAccepts => Event::Notes(a, self.session_note(w)),
            Step::ServerAccepts => Event::Notes(b, self.session_note(w)),
            Step::ClientOops => Event::Says(a, SPY, self.key(w, Role::Client)),
            Step::ServerOops => Event::Says(b, SPY, self.key(w, Role::Server)),
        };
        vec![event]
    }

    /// Appends the steps' events to the trace.
    pub fn play(&self, w: &mut Writer, steps: &[Step]) {
        for &step in steps {
            let events = self.events(w, step);
            w.events.extend(events);
        }
    }
}

/// Crypt (signer's private key) {Agent B, key}.
pub fn certificate(w: &mut Writer, signer: Agent, b: Agent, key: Id) -> Id {
    let b = w.agent(b);
    let body = w.pair(b, key);
    let key = w.private_key(signer);
    w.crypt(key, body)
}
