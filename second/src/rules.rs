//! The fourteen steps: which of them lets an event follow the events before it.

use crate::file::{Event, File};
use crate::message::{Agent, Id, Message, Messages, Role, SPY};
use crate::patterns::{CertVerify, ClientHello, Finished, SecretNote, ServerHello, SessionNote};
use crate::spy::Spy;
use std::collections::HashSet;

/// The number of rule 6, ClientKeyExch, the only one that takes two events.
pub const CLIENT_KEY_EXCH: u8 = 6;

/// The events judged so far, and what follows from them.
pub struct Past<'f> {
    messages: &'f Messages,
    events: Vec<Event>,
    spy: Spy,
    /// The parts of all messages so far.
    used: HashSet<Id>,
}

/// Whether a rule allows an agent to say a message to another.
type RuleForSays<'f> = fn(&Past<'f>, Agent, Agent, Id) -> bool;
/// Whether a rule allows an agent to note a message.
type RuleForNotes<'f> = fn(&Past<'f>, Agent, Id) -> bool;

impl<'f> Past<'f> {
    pub fn new(file: &'f File) -> Past<'f> {
        Past {
            messages: &file.messages,
            events: Vec::new(),
            spy: Spy::new(file.compromised),
            used: HashSet::new(),
        }
    }

    /// Takes in an event that has been judged.
    pub fn add(&mut self, event: Event) {
        self.events.push(event);
        self.spy.sees(self.messages, event);
        let mut parts = vec![event.message()];
        while let Some(x) = parts.pop() {
            if self.used.insert(x) {
                match self.messages[x] {
                    Message::Pair(x, y) => parts.extend([x, y]),
                    Message::Crypt { body, .. } => parts.push(body),
                    _ => {}
                }
            }
        }
    }

    /// The lowest rule that allows this event alone.
    pub fn rule(&self, event: Event) -> Option<u8> {
        match event {
            Event::Says(from, to, x) => self.rule_for_says(from, to, x),
            Event::Notes(by, x) => self.rule_for_notes(by, x),
        }
    }

    fn rule_for_says(&self, from: Agent, to: Agent, x: Id) -> Option<u8> {
        let rules: [(u8, RuleForSays); 10] = [
            (1, Self::fake),
            (3, Self::client_hello),
            (4, Self::server_hello),
            (5, Self::certificate),
            (7, Self::cert_verify),
            (8, Self::client_finished),
            (9, Self::server_finished),
            (12, Self::client_resume),
            (13, Self::server_resume),
            (14, Self::oops),
        ];
        let mut rules = rules.into_iter();
        let (number, _) = rules.find(|(_, allows)| allows(self, from, to, x))?;
        Some(number)
    }

    fn rule_for_notes(&self, by: Agent, x: Id) -> Option<u8> {
        let rules: [(u8, RuleForNotes); 3] =
            [(2, Self::spy_keys), (10, Self::client_accepts), (11, Self::server_accepts)];
        let mut rules = rules.into_iter();
        let (number, _) = rules.find(|(_, allows)| allows(self, by, x))?;
        Some(number)
    }

    /// Rule 1: Spy says to B anything it can make.
    fn fake(&self, from: Agent, _to: Agent, x: Id) -> bool {
        from == SPY && self.spy.makes(self.messages).can_make(x)
    }

    /// Rule 2: Spy notes {PRF(M, Na, Nb), session key (Na, Nb, M)}; M, Na, Nb analysed.
    fn spy_keys(&self, by: Agent, x: Id) -> bool {
        let Some([prf, key]) = self.messages.group(x) else {
            return false;
        };
        let Message::SessionKey { na, nb, m, .. } = self.messages[key] else {
            return false;
        };
        by == SPY
            && self.messages[prf] == (Message::Prf { s: m, na, nb })
            && [m, na, nb].into_iter().all(|n| self.spy.has(self.messages, n))
    }

    /// Rule 3: A says CH to B; Na plain and unused.
    fn client_hello(&self, a: Agent, _b: Agent, x: Id) -> bool {
        let hello = self.messages.client_hello(x);
        hello.is_some_and(|hello| hello.a == a && self.is_fresh(hello.na))
    }

    /// Rule 4: B says SH to A; Nb plain and unused; earlier A' said CH to B with this A and SID.
    fn server_hello(&self, b: Agent, a: Agent, x: Id) -> bool {
        let Some(reply) = self.messages.server_hello(x) else {
            return false;
        };
        self.is_fresh(reply.nb)
            && self.said(|_, to, x| {
                let greets = |hello: ClientHello| hello.a == a && hello.sid == reply.sid;
                to == b && self.messages.client_hello(x).is_some_and(greets)
            })
    }

    /// Rule 5: B says cert(B, B's public key) to A.
    fn certificate(&self, b: Agent, _a: Agent, x: Id) -> bool {
        let certificate = self.messages.certificate(x);
        certificate.is_some_and(|c| c.b == b && self.messages[c.key] == Message::PublicKey(b))
    }

    /// Rule 6: A notes {Agent B, PMS} and in the very next event says Crypt K PMS to B; PMS plain
    /// and unused before the note; earlier B' said cert(B, K) to A.
    pub fn client_key_exch(&self, note: Event, message: Event) -> bool {
        let (Event::Notes(a, note), Event::Says(from, to, message)) = (note, message) else {
            return false;
        };
        let Some(SecretNote { b, pms }) = self.messages.secret_note(note) else {
            return false;
        };
        let Message::Crypt { key, body } = self.messages[message] else {
            return false;
        };
        from == a
            && to == b
            && body == pms
            && self.is_fresh(pms)
            && self.said(|_, to, x| {
                let certificate = self.messages.certificate(x);
                to == a && certificate.is_some_and(|c| c.b == b && c.key == key)
            })
    }

    /// Rule 7: A says to B Crypt (A's private key) (Hash {Nb, Agent B, PMS}); earlier B' said some
    /// SH with Nb to A, and A noted {Agent B, PMS}.
    fn cert_verify(&self, a: Agent, b: Agent, x: Id) -> bool {
        let Some(verify) = self.messages.cert_verify(x) else {
            return false;
        };
        let CertVerify { nb, pms, .. } = verify;
        verify.signer == a
            && verify.b == b
            && self.said(|_, to, x| {
                let hello = self.messages.server_hello(x);
                to == a && hello.is_some_and(|hello| hello.nb == nb)
            })
            && self.noted_secret(a, SecretNote { b, pms })
    }

    /// Rule 8: A says Finished(client) to B, M = PRF(PMS, Na, Nb); earlier A said CH to B, B' said
    /// SH to A, A noted {Agent B, PMS}.
    fn client_finished(&self, a: Agent, b: Agent, x: Id) -> bool {
        self.client_confirms(a, b, x)
            .and_then(|finished| self.secret_of(finished))
            .is_some_and(|pms| self.noted_secret(a, SecretNote { b, pms }))
    }

    /// Rule 9: B says Finished(server) to A, M as in 8; earlier A' said CH to B, B said SH to A,
    /// A'' said Crypt (B's public key) PMS to B.
    fn server_finished(&self, b: Agent, a: Agent, x: Id) -> bool {
        self.server_confirms(b, a, x)
            .and_then(|finished| self.secret_of(finished))
            .is_some_and(|pms| self.was_sent_secret(b, pms))
    }

    /// Rule 10: A notes {SID, Agent A, Agent B, M}, M = PRF(PMS, Na, Nb); earlier A noted {Agent B,
    /// PMS}, A said Finished(client) to B, B' said Finished(server) to A with the same hash.
    fn client_accepts(&self, by: Agent, x: Id) -> bool {
        let Some((note, pms)) = self.accepted(x) else {
            return false;
        };
        let SessionNote { a, b, .. } = note;
        if by != a || !self.noted_secret(a, SecretNote { b, pms }) {
            return false;
        }
        let sent = self.hashes(Role::Client, |from, to| from == a && to == b, note);
        let received = self.hashes(Role::Server, |_, to| to == a, note);
        !sent.is_disjoint(&received)
    }

    /// Rule 11: B notes the same group, A not B; earlier A'' said Crypt (B's public key) PMS to B,
    /// B said Finished(server) to A, A' said Finished(client) to B with the same hash.
    fn server_accepts(&self, by: Agent, x: Id) -> bool {
        let Some((note, pms)) = self.accepted(x) else {
            return false;
        };
        let SessionNote { a, b, .. } = note;
        if by != b || a == b || !self.was_sent_secret(b, pms) {
            return false;
        }
        let sent = self.hashes(Role::Server, |from, to| from == b && to == a, note);
        let received = self.hashes(Role::Client, |_, to| to == b, note);
        !sent.is_disjoint(&received)
    }

    /// Rule 12: As 8, but with "A noted {SID, Agent A, Agent B, M}" for the note of PMS, any nonce
    /// M.
    fn client_resume(&self, a: Agent, b: Agent, x: Id) -> bool {
        self.client_confirms(a, b, x).is_some_and(|f| self.noted_session(a, f.session))
    }

    /// Rule 13: As 9, but with "B noted {SID, Agent A, Agent B, M}" for the key exchange, any nonce
    /// M.
    fn server_resume(&self, b: Agent, a: Agent, x: Id) -> bool {
        self.server_confirms(b, a, x).is_some_and(|f| self.noted_session(b, f.session))
    }

    /// Rule 14: A says a session key to Spy; earlier A said Crypt (that key) X to someone.
    fn oops(&self, a: Agent, to: Agent, key: Id) -> bool {
        to == SPY
            && matches!(self.messages[key], Message::SessionKey { .. })
            && self.said(|from, _, x| {
                from == a && matches!(self.messages[x], Message::Crypt { key: k, .. } if k == key)
            })
    }

    /// What 8 and 12 share: A says Finished(client) to B; earlier A said CH to B, B' said SH to A.
    fn client_confirms(&self, a: Agent, b: Agent, x: Id) -> Option<Finished> {
        let finished = self.messages.finished(Role::Client, x)?;
        let SessionNote { a: client, b: server, .. } = finished.session;
        let fits = client == a
            && server == b
            && self.said_client_hello(|from, to| from == a && to == b, finished.client_hello)
            && self.said_server_hello(|_, to| to == a, finished.server_hello);
        fits.then_some(finished)
    }

    /// What 9 and 13 share: B says Finished(server) to A; earlier A' said CH to B, B said SH to A.
    fn server_confirms(&self, b: Agent, a: Agent, x: Id) -> Option<Finished> {
        let finished = self.messages.finished(Role::Server, x)?;
        let SessionNote { a: client, b: server, .. } = finished.session;
        let fits = client == a
            && server == b
            && self.said_client_hello(|_, to| to == b, finished.client_hello)
            && self.said_server_hello(|from, to| from == b && to == a, finished.server_hello);
        fits.then_some(finished)
    }

    /// What 10 and 11 share: the group {SID, Agent A, Agent B, M}, and PMS from M.
    fn accepted(&self, x: Id) -> Option<(SessionNote, Id)> {
        let note = self.messages.session_note(x)?;
        match self.messages[note.m] {
            Message::Prf { s: pms, .. } => Some((note, pms)),
            _ => None,
        }
    }

    /// The PMS with M = PRF(PMS, Na, Nb) for the nonces of this Finished.
    fn secret_of(&self, finished: Finished) -> Option<Id> {
        let (na, nb) = (finished.client_hello.na, finished.server_hello.nb);
        match self.messages[finished.session.m] {
            Message::Prf { s: pms, na: x, nb: y } if (x, y) == (na, nb) => Some(pms),
            _ => None,
        }
    }

    /// The hashes of earlier Finished(role) between the given agents that confirm this session
    /// with the nonces of its M, whatever their Pa and Pb.
    fn hashes(
        &self,
        role: Role,
        between: impl Fn(Agent, Agent) -> bool,
        session: SessionNote,
    ) -> HashSet<Id> {
        let confirms = |f: &Finished| f.session == session && self.secret_of(*f).is_some();
        let hash = |&event: &Event| match event {
            Event::Says(from, to, x) if between(from, to) => {
                let finished = self.messages.finished(role, x).filter(confirms);
                finished.map(|f| f.hash)
            }
            _ => None,
        };
        self.events.iter().filter_map(hash).collect()
    }

    /// Whether the nonce is plain and unused.
    fn is_fresh(&self, nonce: Id) -> bool {
        matches!(self.messages[nonce], Message::Nonce(_)) && !self.used.contains(&nonce)
    }

    /// Whether earlier someone said to someone a message that fits.
    fn said(&self, fits: impl Fn(Agent, Agent, Id) -> bool) -> bool {
        self.events
            .iter()
            .any(|&event| matches!(event, Event::Says(from, to, x) if fits(from, to, x)))
    }

    fn said_client_hello(&self, between: impl Fn(Agent, Agent) -> bool, ch: ClientHello) -> bool {
        self.said(|from, to, x| between(from, to) && self.messages.client_hello(x) == Some(ch))
    }

    fn said_server_hello(&self, between: impl Fn(Agent, Agent) -> bool, sh: ServerHello) -> bool {
        self.said(|from, to, x| between(from, to) && self.messages.server_hello(x) == Some(sh))
    }

    /// Whether earlier someone said Crypt (B's public key) PMS to B.
    fn was_sent_secret(&self, b: Agent, pms: Id) -> bool {
        self.said(|_, to, x| {
            to == b
                && matches!(self.messages[x], Message::Crypt { key, body }
                    if body == pms && self.messages[key] == Message::PublicKey(b))
        })
    }

    /// Whether earlier the agent noted a message that fits.
    fn noted(&self, by: Agent, fits: impl Fn(Id) -> bool) -> bool {
        self.events.iter().any(|&event| matches!(event, Event::Notes(a, x) if a == by && fits(x)))
    }

    fn noted_secret(&self, by: Agent, note: SecretNote) -> bool {
        self.noted(by, |x| self.messages.secret_note(x) == Some(note))
    }

    fn noted_session(&self, by: Agent, note: SessionNote) -> bool {
        self.noted(by, |x| self.messages.session_note(x) == Some(note))
    }
}
