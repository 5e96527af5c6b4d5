//! The messages of the fourteen steps, recognised in whole trees.

use crate::message::{Agent, Id, Message, Messages, Role, AUTHORITY};

/// CH, {Agent A, Na, SID, Pa}.
#[derive(Clone, Copy, PartialEq, Eq, Debug)]
pub struct ClientHello {
    pub a: Agent,
    pub na: Id,
    pub sid: Id,
    pub pa: Id,
}

/// SH, {Nb, SID, Pb}.
#[derive(Clone, Copy, PartialEq, Eq, Debug)]
pub struct ServerHello {
    pub nb: Id,
    pub sid: Id,
    pub pb: Id,
}

/// cert(B, K), Crypt (authority's private key) {Agent B, K}.
#[derive(Clone, Copy, PartialEq, Eq, Debug)]
pub struct Certificate {
    pub b: Agent,
    pub key: Id,
}

/// The client's note {Agent B, PMS}.
#[derive(Clone, Copy, PartialEq, Eq, Debug)]
pub struct SecretNote {
    pub b: Agent,
    pub pms: Id,
}

/// The group {SID, Agent A, Agent B, M} that either side notes at the end.
#[derive(Clone, Copy, PartialEq, Eq, Debug)]
pub struct SessionNote {
    pub sid: Id,
    pub a: Agent,
    pub b: Agent,
    pub m: Id,
}

/// The signed Hash {Nb, Agent B, PMS} of a CertVerify.
#[derive(Clone, Copy, PartialEq, Eq, Debug)]
pub struct CertVerify {
    pub signer: Agent,
    pub nb: Id,
    pub b: Agent,
    pub pms: Id,
}

/// Finished, Crypt (session key Na, Nb, M) (Hash {SID, M, Na, Pa, A, Nb, Pb, B}).
#[derive(Clone, Copy, PartialEq, Eq, Debug)]
pub struct Finished {
    pub hash: Id,
    pub client_hello: ClientHello,
    pub server_hello: ServerHello,
    pub session: SessionNote,
}

impl Messages {
    fn agent(&self, x: Id) -> Option<Agent> {
        match self[x] {
            Message::Agent(a) => Some(a),
            _ => None,
        }
    }

    fn is_nonce(&self, x: Id) -> bool {
        self[x].is_nonce()
    }

    fn is_number(&self, x: Id) -> bool {
        matches!(self[x], Message::Number(_))
    }

    pub fn client_hello(&self, x: Id) -> Option<ClientHello> {
        let [a, na, sid, pa] = self.group(x)?;
        let a = self.agent(a)?;
        let fits = self.is_nonce(na) && self.is_number(sid) && self.is_number(pa);
        fits.then_some(ClientHello { a, na, sid, pa })
    }

    pub fn server_hello(&self, x: Id) -> Option<ServerHello> {
        let [nb, sid, pb] = self.group(x)?;
        let fits = self.is_nonce(nb) && self.is_number(sid) && self.is_number(pb);
        fits.then_some(ServerHello { nb, sid, pb })
    }

    pub fn certificate(&self, x: Id) -> Option<Certificate> {
        let Message::Crypt { key, body } = self[x] else {
            return None;
        };
        let [b, certified] = self.group(body)?;
        let b = self.agent(b)?;
        let key_is_authoritys = self[key] == Message::PrivateKey(AUTHORITY);
        let fits = key_is_authoritys && self[certified].is_key();
        fits.then_some(Certificate { b, key: certified })
    }

    pub fn secret_note(&self, x: Id) -> Option<SecretNote> {
        let [b, pms] = self.group(x)?;
        let b = self.agent(b)?;
        self.is_nonce(pms).then_some(SecretNote { b, pms })
    }

    pub fn session_note(&self, x: Id) -> Option<SessionNote> {
        let [sid, a, b, m] = self.group(x)?;
        let (a, b) = (self.agent(a)?, self.agent(b)?);
        let fits = self.is_number(sid) && self.is_nonce(m);
        fits.then_some(SessionNote { sid, a, b, m })
    }

    pub fn cert_verify(&self, x: Id) -> Option<CertVerify> {
        let Message::Crypt { key, body } = self[x] else {
            return None;
        };
        let (Message::PrivateKey(signer), Message::Hash(hashed)) = (self[key], self[body]) else {
            return None;
        };
        let [nb, b, pms] = self.group(hashed)?;
        let b = self.agent(b)?;
        let fits = self.is_nonce(nb) && self.is_nonce(pms);
        fits.then_some(CertVerify { signer, nb, b, pms })
    }

    /// Finished(role); the nonces of its key are those of its hash.
    pub fn finished(&self, role: Role, x: Id) -> Option<Finished> {
        let Message::Crypt { key, body: hash } = self[x] else {
            return None;
        };
        let Message::Hash(hashed) = self[hash] else {
            return None;
        };
        let [sid, m, na, pa, a, nb, pb, b] = self.group(hashed)?;
        if self[key] != (Message::SessionKey { role, na, nb, m }) {
            return None;
        }
        let (a, b) = (self.agent(a)?, self.agent(b)?);
        [sid, pa, pb].into_iter().all(|x| self.is_number(x)).then_some(Finished {
            hash,
            client_hello: ClientHello { a, na, sid, pa },
            server_hello: ServerHello { nb, sid, pb },
            session: SessionNote { sid, a, b, m },
        })
    }
}
