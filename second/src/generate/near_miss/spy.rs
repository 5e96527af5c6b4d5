//! Near misses of rules 1, 2 and 14: what the Spy says, makes of nonces, and gets from others.

use super::{add_common, add_to_other, event_of, List, Scene, TO_SECRET};
use crate::file::Event;
use crate::generate::session::{Session, Step};
use crate::message::{Id, Role, AUTHORITY, SPY};

pub fn add(list: &mut List) {
    add_fake(list);
    add_spy_keys(list);
    add_oops(list);
}

/// 1: after a handshake up to the client's Finished the Spy says what it cannot make.
fn add_fake(list: &mut List) {
    let mut unmade = |name: &str, message: fn(&mut Scene) -> Id| {
        list.add(format!("r01-{name}"), move |t| {
            t.play(&TO_SECRET, t.s);
            t.play(&[Step::ClientFinished], t.s);
            let x = message(t);
            let event = Event::Says(SPY, t.s.b, x);
            t.miss(event);
        });
    };
    unmade("nonce-in-honest-note", |t| t.s.pms);
    unmade("nonce-never-said", |t| t.o.na);
    unmade("pair-in-honest-note", |t| t.s.secret_note(&mut t.w));
    unmade("prf-of-known-nonces", |t| t.w.prf(t.s.na, t.s.na, t.s.nb));
    unmade("session-key-of-known-nonces", |t| {
        t.w.session_key(Role::Client, t.s.na, t.s.nb, t.s.na)
    });
    unmade("session-key-in-use", |t| t.s.key(&mut t.w, Role::Client));
    unmade("public-key-in-certificate", |t| t.w.public_key(t.s.b));
    unmade("public-key-of-compromised", |t| t.w.public_key(t.e));
    unmade("private-key-of-honest", |t| t.w.private_key(t.s.b));
    unmade("private-key-of-authority", |t| t.w.private_key(AUTHORITY));
    unmade("crypt-under-public-key", |t| {
        let key = t.w.public_key(t.s.b);
        t.w.crypt(key, t.number)
    });
    unmade("crypt-under-inverse-of-known-key", |t| {
        let key = t.w.public_key(t.e);
        t.w.crypt(key, t.number)
    });
    unmade("crypt-of-unknown-body", |t| {
        let key = t.w.private_key(t.e);
        t.w.crypt(key, t.s.pms)
    });
    unmade("hash-of-unknown", |t| t.w.hash(t.s.pms));
    unmade("pair-left-unknown", |t| t.w.pair(t.s.pms, t.number));
    unmade("pair-right-unknown", |t| t.w.pair(t.number, t.s.pms));
    unmade("deep-unknown", |t| {
        let hash = t.w.hash(t.s.pms);
        t.w.group(&[t.number, t.s.na, hash, t.s.nb])
    });
    unmade("forged-certificate", |t| {
        let key = t.w.private_key(t.e);
        crate::generate::session::certificate(&mut t.w, AUTHORITY, t.s.b, key)
    });
    unmade("hash-in-closed-ciphertext", |t| {
        let items = t.s.hashed(&mut t.w);
        let group = t.w.group(&items);
        t.w.hash(group)
    });

    let mut after_oops = |name: &str, message: fn(&mut Scene) -> Id| {
        list.add(format!("r01-{name}"), move |t| {
            t.play(&TO_SECRET, t.s);
            t.play(&[Step::ClientFinished, Step::ClientOops], t.s);
            let x = message(t);
            let event = Event::Says(SPY, t.s.b, x);
            t.miss(event);
        });
    };
    after_oops("hash-opened", |t| {
        let items = t.s.hashed(&mut t.w);
        t.w.group(&items)
    });
    after_oops("session-key-taken-apart", |t| t.s.m);
    after_oops("key-of-other-role", |t| t.s.key(&mut t.w, Role::Server));

    list.add("r01-before-the-key", |t| {
        t.play(&TO_SECRET, t.s);
        t.play(&[Step::ClientFinished], t.s);
        let items = t.s.hashed(&mut t.w);
        let group = t.w.group(&items);
        let event = Event::Says(SPY, t.s.b, t.w.hash(group));
        t.miss(event);
        t.play(&[Step::ClientOops], t.s);
    });
    list.add("r01-by-compromised", |t| {
        let event = Event::Says(t.e, t.s.b, t.number);
        t.miss(event);
    });
    list.add("r01-by-honest", |t| {
        let event = Event::Says(t.s.a, t.s.b, t.number);
        t.miss(event);
    });
    list.add("r01-noted", |t| {
        let event = Event::Notes(SPY, t.number);
        t.miss(event);
    });
}

/// 2: the Spy knows Na, Nb and M, three nonces of hellos, and not PMS.
fn add_spy_keys(list: &mut List) {
    fn known(t: &mut Scene) -> (Id, Id, Id) {
        t.play(&TO_SECRET, t.s);
        t.play(&[Step::ClientHello], t.o);
        (t.s.na, t.s.nb, t.o.na)
    }
    fn note(t: &mut Scene) -> Event {
        let (na, nb, m) = known(t);
        let (prf, key) = (t.w.prf(m, na, nb), t.w.session_key(Role::Server, na, nb, m));
        Event::Notes(SPY, t.w.pair(prf, key))
    }
    let mut misses = |name: &str, message: fn(&mut Scene, Id, Id, Id) -> Id| {
        list.add(format!("r02-{name}"), move |t| {
            let (na, nb, m) = known(t);
            let event = Event::Notes(SPY, message(t, na, nb, m));
            t.miss(event);
        });
    };
    /// {PRF(M, Na, Nb), session key (Na, Nb, M)}.
    fn keys(t: &mut Scene, na: Id, nb: Id, m: Id) -> Id {
        let (prf, key) = (t.w.prf(m, na, nb), t.w.session_key(Role::Client, na, nb, m));
        t.w.pair(prf, key)
    }
    misses("na-unknown", |t, _, nb, m| keys(t, t.s.pms, nb, m));
    misses("nb-unknown", |t, na, _, m| keys(t, na, t.s.pms, m));
    misses("m-unknown", |t, na, nb, _| keys(t, na, nb, t.s.pms));
    misses("m-is-prf-unknown", |t, na, nb, m| {
        let prf = t.w.prf(m, na, nb);
        keys(t, na, nb, prf)
    });
    misses("prf-in-order-of-key", |t, na, nb, m| {
        let (prf, key) = (t.w.prf(na, nb, m), t.w.session_key(Role::Client, na, nb, m));
        t.w.pair(prf, key)
    });
    misses("prf-na-nb-exchanged", |t, na, nb, m| {
        let (prf, key) = (t.w.prf(m, nb, na), t.w.session_key(Role::Client, na, nb, m));
        t.w.pair(prf, key)
    });
    misses("key-in-order-of-prf", |t, na, nb, m| {
        let (prf, key) = (t.w.prf(m, na, nb), t.w.session_key(Role::Server, m, na, nb));
        t.w.pair(prf, key)
    });
    misses("key-na-nb-exchanged", |t, na, nb, m| {
        let (prf, key) = (t.w.prf(m, na, nb), t.w.session_key(Role::Server, nb, na, m));
        t.w.pair(prf, key)
    });
    misses("key-of-other-m", |t, na, nb, m| {
        let (prf, key) = (t.w.prf(m, na, nb), t.w.session_key(Role::Server, na, nb, na));
        t.w.pair(prf, key)
    });
    misses("halves-exchanged", |t, na, nb, m| {
        let (prf, key) = (t.w.prf(m, na, nb), t.w.session_key(Role::Client, na, nb, m));
        t.w.pair(key, prf)
    });
    misses("prf-alone", |t, na, nb, m| t.w.prf(m, na, nb));
    misses("key-alone", |t, na, nb, m| t.w.session_key(Role::Client, na, nb, m));
    misses("plain-nonce-for-prf", |t, na, nb, m| {
        let key = t.w.session_key(Role::Client, na, nb, m);
        t.w.pair(m, key)
    });
    misses("longer", |t, na, nb, m| {
        let (prf, key) = (t.w.prf(m, na, nb), t.w.session_key(Role::Client, na, nb, m));
        t.w.group(&[prf, key, t.number])
    });
    add_common(list, 2, note);
    list.add("r02-by-compromised", |t| {
        let Event::Notes(_, x) = note(t) else { unreachable!() };
        let event = Event::Notes(t.e, x);
        t.miss(event);
    });
}

/// 14: A has said Finished(client), and so may lose the client's key.
fn add_oops(list: &mut List) {
    fn key_lost(t: &mut Scene) -> Event {
        t.play(&TO_SECRET, t.s);
        t.play(&[Step::CertVerify, Step::ClientFinished], t.s);
        event_of(t, Step::ClientOops, t.s)
    }
    let mut misses = |name: &str, message: fn(&mut Scene) -> Id| {
        list.add(format!("r14-{name}"), move |t| {
            key_lost(t);
            let event = Event::Says(t.s.a, SPY, message(t));
            t.miss(event);
        });
    };
    misses("key-of-other-role", |t| t.s.key(&mut t.w, Role::Server));
    misses("key-of-other-na", |t| {
        let session = Session { na: t.o.na, ..t.s };
        session.key(&mut t.w, Role::Client)
    });
    misses("key-of-other-nb", |t| {
        let session = Session { nb: t.o.nb, ..t.s };
        session.key(&mut t.w, Role::Client)
    });
    misses("key-of-other-m", |t| {
        let session = Session { m: t.o.m, ..t.s };
        session.key(&mut t.w, Role::Client)
    });
    misses("key-na-nb-exchanged", |t| t.w.session_key(Role::Client, t.s.nb, t.s.na, t.s.m));
    misses("key-in-order-of-prf", |t| t.w.session_key(Role::Client, t.s.m, t.s.na, t.s.nb));
    misses("public-key", |t| t.w.public_key(t.s.b));
    misses("private-key", |t| t.w.private_key(t.s.a));
    misses("secret", |t| t.s.pms);
    misses("master-secret", |t| t.s.m);
    add_common(list, 14, key_lost);
    add_to_other(list, 14, key_lost);
    list.add("r14-never-used", |t| {
        t.play(&TO_SECRET, t.s);
        t.miss_step(Step::ClientOops, t.s);
    });
    list.add("r14-used-later", |t| {
        t.play(&TO_SECRET, t.s);
        t.miss_step(Step::ClientOops, t.s);
        t.play(&[Step::ClientFinished], t.s);
    });
    list.add("r14-used-by-server-only", |t| {
        t.play(&TO_SECRET, t.s);
        t.play(&[Step::ServerFinished], t.s);
        let event = Event::Says(t.s.a, SPY, t.s.key(&mut t.w, Role::Server));
        t.miss(event);
    });
    list.add("r14-used-by-spy-in-larger-pair", |t| {
        key_lost(t);
        let finished = t.s.finished(&mut t.w, Role::Client);
        let pair = t.w.pair(finished, t.number);
        t.fake(t.s.b, pair);
        let event = Event::Says(SPY, SPY, t.s.key(&mut t.w, Role::Client));
        t.miss(event);
    });
}
