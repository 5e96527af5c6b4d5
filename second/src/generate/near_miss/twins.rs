//! Legal traces that look wrong: what each rule allows though one might forbid it.

use super::{event_of, List, Scene, BOTH_FINISHED, HELLOS, SECRET, TO_SECRET};
use crate::file::Event;
use crate::generate::session::{certificate, Session, Step, FULL_HANDSHAKE, RESUMPTION};
use crate::message::{Id, Message, Role, AUTHORITY, SPY};

pub fn add(list: &mut List) {
    add_spy(list);
    add_hellos(list);
    add_client(list);
    add_finished(list);
    add_accepts(list);
    add_resumed(list);
    add_oops(list);
}

/// Rules 1 and 2.
fn add_spy(list: &mut List) {
    let mut makes = |name: &str, message: fn(&mut Scene) -> Id| {
        list.twin(1, format!("r01-{name}"), move |t| {
            t.play(&TO_SECRET, t.s);
            t.play(&[Step::ClientFinished, Step::ClientOops], t.s);
            let x = message(t);
            t.fake(t.s.b, x);
        });
    };
    makes("agent-never-seen", |t| t.w.agent(t.o.b));
    makes("number-never-seen", |t| t.number);
    makes("key-lost", |t| t.s.key(&mut t.w, Role::Client));
    makes("hash-opened-by-late-key", |t| {
        let items = t.s.hashed(&mut t.w);
        let group = t.w.group(&items);
        t.w.hash(group)
    });
    makes("crypt-under-lost-key", |t| {
        let key = t.s.key(&mut t.w, Role::Client);
        t.w.crypt(key, t.s.nb)
    });
    makes("private-key-of-compromised", |t| t.w.private_key(t.e));
    makes("crypt-under-private-key-of-compromised", |t| {
        let key = t.w.private_key(t.e);
        t.w.crypt(key, t.number)
    });
    makes("ciphertext-seen", |t| t.s.key_exchange(&mut t.w));
    makes("certificate-in-a-pair", |t| {
        let certificate = t.s.certificate(&mut t.w);
        t.w.pair(certificate, certificate)
    });
    makes("client-hello-in-other-name", |t| Session { a: t.o.a, ..t.s }.client_hello(&mut t.w));
    list.twin(1, "r01-secret-sent-to-compromised", |t| {
        t.play(&SECRET, Session { b: t.e, ..t.s });
        t.fake(t.s.b, t.s.pms);
    });
    list.twin(1, "r01-secret-noted-by-compromised", |t| {
        t.play(&SECRET, Session { a: t.e, ..t.s });
        t.fake(SPY, t.s.pms);
    });
    list.twin(1, "r01-nonce-of-spys-own", |t| {
        t.play(&SECRET, Session { a: SPY, ..t.s });
        t.fake(t.s.a, t.s.pms);
    });

    let mut notes = |name: &str, nonces: fn(&mut Scene) -> (Id, Id, Id)| {
        list.twin(2, format!("r02-{name}"), move |t| {
            t.play(&HELLOS, t.s);
            let (na, nb, m) = nonces(t);
            let (prf, key) = (t.w.prf(m, na, nb), t.w.session_key(Role::Server, na, nb, m));
            let note = t.w.pair(prf, key);
            t.push(Event::Notes(SPY, note));
        });
    };
    notes("legal-for-server", |t| (t.s.na, t.s.nb, t.s.na));
    notes("of-one-nonce", |t| (t.s.nb, t.s.nb, t.s.nb));
    notes("of-its-own-prf", |t| {
        let (prf, key) = (
            t.w.prf(t.s.na, t.s.nb, t.s.nb),
            t.w.session_key(Role::Client, t.s.nb, t.s.nb, t.s.na),
        );
        let note = t.w.pair(prf, key);
        t.push(Event::Notes(SPY, note));
        (prf, t.s.na, prf)
    });
}

/// Rules 3, 4 and 5.
fn add_hellos(list: &mut List) {
    let mut greets = |name: &str, session: fn(&mut Scene) -> Session| {
        list.twin(3, format!("r03-{name}"), move |t| {
            t.play(&HELLOS, t.o);
            let session = session(t);
            t.play(&[Step::ClientHello], session);
        });
    };
    greets("to-itself", |t| Session { b: t.s.a, ..t.s });
    greets("to-spy", |t| Session { b: SPY, ..t.s });
    greets("by-spy-with-nonce-of-its-own", |t| Session { a: SPY, ..t.s });
    greets("by-authority", |t| Session { a: AUTHORITY, ..t.s });
    greets("by-compromised", |t| Session { a: t.e, ..t.s });
    greets("with-one-number-for-all", |t| Session { sid: t.s.pa, ..t.s });
    greets("with-nonce-like-a-number", |t| {
        t.play(&[Step::ClientHello], Session { sid: t.number, pa: t.number, ..t.s });
        let Message::Number(value) = t.w.messages[t.number] else {
            unreachable!("a Number was asked for")
        };
        let na = match t.w.messages.contains(Message::Nonce(value)) {
            true => t.w.fresh_nonce(),
            false => t.w.nonce(value),
        };
        Session { na, ..t.s }
    });

    list.twin(4, "r04-hello-sent-on-by-spy", |t| {
        t.play(&[Step::ClientHello], Session { b: t.o.b, ..t.s });
        let hello = t.s.client_hello(&mut t.w);
        t.fake(t.s.b, hello);
        t.play(&[Step::ServerHello], t.s);
    });
    list.twin(4, "r04-hello-forged-with-prf", |t| {
        t.play(&HELLOS, t.o);
        let na = t.w.prf(t.o.na, t.o.na, t.o.nb);
        t.spy_learns_key(Session { pms: t.o.na, m: na, ..t.o }, Role::Client);
        let hello = Session { na, ..t.s }.client_hello(&mut t.w);
        t.fake(t.s.b, hello);
        t.play(&[Step::ServerHello], t.s);
    });
    list.twin(4, "r04-again-with-new-nb", |t| {
        t.play(&HELLOS, t.s);
        t.play(&[Step::ServerHello], Session { nb: t.o.nb, pb: t.o.pb, ..t.s });
    });
    list.twin(4, "r04-to-itself", |t| t.play(&HELLOS, Session { b: t.s.a, ..t.s }));
    list.twin(4, "r04-by-spy", |t| t.play(&HELLOS, Session { b: SPY, ..t.s }));
    list.twin(4, "r04-by-authority", |t| t.play(&HELLOS, Session { b: AUTHORITY, ..t.s }));

    list.twin(5, "r05-to-itself", |t| {
        t.play(&[Step::Certificate], Session { a: t.s.b, ..t.s });
    });
    list.twin(5, "r05-of-authority", |t| {
        t.play(&[Step::Certificate], Session { b: AUTHORITY, ..t.s });
    });
    list.twin(5, "r05-of-spy", |t| t.play(&[Step::Certificate], Session { b: SPY, ..t.s }));
    list.twin(5, "r05-again", |t| t.play(&[Step::Certificate, Step::Certificate], t.s));
}

/// Rules 6 and 7.
fn add_client(list: &mut List) {
    list.twin(6, "r06-certificate-sent-on-by-spy", |t| {
        t.play(&[Step::Certificate], Session { a: t.o.a, ..t.s });
        let key = t.w.public_key(t.s.b);
        let certificate = certificate(&mut t.w, AUTHORITY, t.s.b, key);
        t.fake(t.s.a, certificate);
        t.play(&[Step::KeyExchange], t.s);
    });
    list.twin(6, "r06-without-hellos", |t| t.play(&SECRET, t.s));
    list.twin(6, "r06-with-itself", |t| t.play(&SECRET, Session { b: t.s.a, ..t.s }));
    list.twin(6, "r06-by-spy", |t| t.play(&SECRET, Session { a: SPY, ..t.s }));
    list.twin(6, "r06-with-spy", |t| t.play(&SECRET, Session { b: SPY, ..t.s }));
    list.twin(6, "r06-with-authority", |t| t.play(&SECRET, Session { b: AUTHORITY, ..t.s }));
    list.twin(6, "r06-again-with-new-secret", |t| {
        t.play(&SECRET, t.s);
        t.play(&[Step::KeyExchange], Session { pms: t.o.pms, ..t.s });
    });

    list.twin(7, "r07-nb-of-other-server", |t| {
        t.play(&HELLOS, Session { b: t.o.b, ..t.s });
        t.play(&SECRET, t.s);
        t.play(&[Step::CertVerify], t.s);
    });
    list.twin(7, "r07-hello-sent-on-by-spy", |t| {
        t.play(&HELLOS, Session { a: t.o.a, ..t.s });
        let hello = t.s.server_hello(&mut t.w);
        t.fake(t.s.a, hello);
        t.play(&SECRET, t.s);
        t.play(&[Step::CertVerify], t.s);
    });
    list.twin(7, "r07-nb-forged-by-spy-is-na", |t| {
        t.play(&[Step::ClientHello], t.s);
        let forged = Session { nb: t.s.na, ..t.s };
        let hello = forged.server_hello(&mut t.w);
        t.fake(t.s.a, hello);
        t.play(&SECRET, t.s);
        t.play(&[Step::CertVerify], forged);
    });
    list.twin(7, "r07-with-itself", |t| {
        let session = Session { b: t.s.a, ..t.s };
        t.play(&TO_SECRET, session);
        t.play(&[Step::CertVerify, Step::CertVerify], session);
    });
}

/// Rules 8 and 9.
fn add_finished(list: &mut List) {
    list.twin(8, "r08-hello-of-other-server", |t| {
        t.play(&[Step::ClientHello], t.s);
        t.play(&HELLOS, Session { b: t.o.b, na: t.o.na, ..t.s });
        t.play(&SECRET, t.s);
        t.play(&[Step::ClientFinished], t.s);
    });
    list.twin(8, "r08-hello-forged-with-prf", |t| {
        t.play(&HELLOS, t.o);
        let nb = t.w.prf(t.o.na, t.o.na, t.o.nb);
        t.spy_learns_key(Session { pms: t.o.na, m: nb, ..t.o }, Role::Client);
        let session = Session { nb, m: t.w.prf(t.s.pms, t.s.na, nb), ..t.s };
        t.play(&[Step::ClientHello], session);
        let hello = session.server_hello(&mut t.w);
        t.fake(t.s.a, hello);
        t.play(&SECRET, session);
        t.play(&[Step::ClientFinished], session);
    });
    for (name, step, rule) in [("r08", Step::ClientFinished, 8), ("r09", Step::ServerFinished, 9)] {
        list.twin(rule, format!("{name}-with-itself"), move |t| {
            let session = Session { b: t.s.a, ..t.s };
            t.play(&TO_SECRET, session);
            t.play(&[step], session);
        });
        list.twin(rule, format!("{name}-by-or-with-authority"), move |t| {
            let session = Session { b: AUTHORITY, ..t.s };
            t.play(&TO_SECRET, session);
            t.play(&[step], session);
        });
        list.twin(rule, format!("{name}-of-client-spy"), move |t| {
            let session = Session { a: SPY, ..t.s };
            t.play(&TO_SECRET, session);
            t.play(&[step], session);
        });
        list.twin(rule, format!("{name}-of-server-spy"), move |t| {
            let session = Session { b: SPY, ..t.s };
            t.play(&TO_SECRET, session);
            t.play(&[step], session);
        });
        list.twin(rule, format!("{name}-again"), move |t| {
            t.play(&TO_SECRET, t.s);
            t.play(&[step, step], t.s);
        });
        list.twin(rule, format!("{name}-secret-before-hellos"), move |t| {
            t.play(&SECRET, t.s);
            t.play(&HELLOS, t.s);
            t.play(&[step], t.s);
        });
    }
    list.twin(9, "r09-secret-of-other-client", |t| {
        t.play(&SECRET, Session { a: t.o.a, ..t.s });
        t.play(&HELLOS, t.s);
        t.play(&[Step::ServerFinished], t.s);
    });
    list.twin(9, "r09-hello-sent-on-by-spy", |t| {
        t.play(&[Step::ClientHello], Session { b: t.o.b, ..t.s });
        let hello = t.s.client_hello(&mut t.w);
        t.fake(t.s.b, hello);
        t.play(&[Step::ServerHello], t.s);
        t.play(&SECRET, t.s);
        t.play(&[Step::ServerFinished], t.s);
    });
}

/// Rules 10 and 11.
fn add_accepts(list: &mut List) {
    list.twin(10, "r10-with-itself", |t| {
        let session = Session { b: t.s.a, ..t.s };
        t.play(&TO_SECRET, session);
        t.play(&BOTH_FINISHED, session);
        t.play(&[Step::ServerAccepts], session);
    });
    list.twin(10, "r10-finished-of-spy-for-compromised-server", |t| {
        let session = Session { b: t.e, ..t.s };
        t.play(&TO_SECRET, session);
        t.play(&[Step::ClientFinished], session);
        t.spy_learns_key(session, Role::Server);
        let finished = session.finished(&mut t.w, Role::Server);
        t.fake(t.s.a, finished);
        t.play(&[Step::ClientAccepts], session);
    });
    list.twin(11, "r11-finished-of-spy-for-client", |t| {
        let session = Session { b: t.e, ..t.s };
        t.play(&TO_SECRET, session);
        t.play(&[Step::ServerFinished], session);
        t.spy_learns_key(session, Role::Client);
        let finished = session.finished(&mut t.w, Role::Client);
        t.fake(t.e, finished);
        t.play(&[Step::ServerAccepts], session);
    });
    list.twin(11, "r11-client-never-noted-its-secret", |t| {
        t.play(&SECRET, Session { a: t.o.a, b: t.e, ..t.s });
        let session = Session { b: t.e, ..t.s };
        t.play(&HELLOS, session);
        t.play(&[Step::ServerFinished], session);
        t.spy_learns_key(session, Role::Client);
        let finished = session.finished(&mut t.w, Role::Client);
        t.fake(t.e, finished);
        t.play(&[Step::ServerAccepts], session);
    });
    for (name, step, rule) in [("r10", Step::ClientAccepts, 10), ("r11", Step::ServerAccepts, 11)] {
        list.twin(rule, format!("{name}-again-after-resumption"), move |t| {
            t.play(&FULL_HANDSHAKE, t.s);
            let resumed = t.s.resumed(&mut t.w, 1, 2);
            t.play(&RESUMPTION, resumed);
            t.play(&[step], t.s);
        });
        list.twin(rule, format!("{name}-finished-in-other-order"), move |t| {
            t.play(&TO_SECRET, t.s);
            t.play(&[Step::ServerFinished, Step::ClientFinished], t.s);
            t.play(&[step], t.s);
        });
        list.twin(rule, format!("{name}-of-client-spy"), move |t| {
            let session = Session { a: SPY, ..t.s };
            t.play(&TO_SECRET, session);
            t.play(&BOTH_FINISHED, session);
            t.play(&[step], session);
        });
        list.twin(rule, format!("{name}-of-server-spy"), move |t| {
            let session = Session { b: SPY, ..t.s };
            t.play(&TO_SECRET, session);
            t.play(&BOTH_FINISHED, session);
            t.play(&[step], session);
        });
        list.twin(rule, format!("{name}-two-hashes-of-which-one-is-shared"), move |t| {
            let changed = Session { pa: t.o.pa, ..t.s };
            t.play(&[Step::ClientHello], t.s);
            let hello = changed.client_hello(&mut t.w);
            t.fake(t.s.b, hello);
            t.play(&[Step::ServerHello], t.s);
            t.play(&SECRET, t.s);
            t.play(&[Step::ServerFinished], changed);
            t.play(&BOTH_FINISHED, t.s);
            t.play(&[step], t.s);
        });
    }
}

/// Rules 12 and 13.
fn add_resumed(list: &mut List) {
    for (name, step, rule) in [("r12", Step::ClientFinished, 12), ("r13", Step::ServerFinished, 13)]
    {
        let mut resumes = |odd: &str, play: fn(&mut Scene) -> Session| {
            list.twin(rule, format!("{name}-{odd}"), move |t| {
                let session = play(t);
                t.play(&[step], session);
            });
        };
        resumes("after-other-resumption", |t| {
            t.play(&FULL_HANDSHAKE, t.s);
            let first = t.s.resumed(&mut t.w, 1, 2);
            t.play(&RESUMPTION, first);
            let second = t.s.resumed(&mut t.w, 3, 4);
            t.play(&HELLOS, second);
            second
        });
        resumes("with-other-preferences", |t| {
            t.play(&FULL_HANDSHAKE, t.s);
            let session = Session { na: t.o.na, nb: t.o.nb, pa: t.o.pa, pb: t.o.pb, ..t.s };
            t.play(&HELLOS, session);
            session
        });
        resumes("hellos-before-the-note", |t| {
            let resumed = t.s.resumed(&mut t.w, 1, 2);
            t.play(&HELLOS, resumed);
            t.play(&FULL_HANDSHAKE, t.s);
            resumed
        });
        resumes("one-old-nonce", |t| {
            t.play(&FULL_HANDSHAKE, t.s);
            let session = Session { nb: t.o.nb, ..t.s };
            t.play(&[Step::ServerHello], session);
            session
        });
        resumes("m-of-other-session-with-same-sid", |t| {
            t.play(&FULL_HANDSHAKE, t.s);
            let other = Session { a: t.s.a, b: t.s.b, sid: t.s.sid, ..t.o };
            t.play(&FULL_HANDSHAKE, other);
            let resumed = Session { m: other.m, ..t.s.resumed(&mut t.w, 1, 2) };
            t.play(&HELLOS, resumed);
            resumed
        });
        resumes("of-client-spy", |t| {
            let session = Session { a: SPY, ..t.s };
            t.play(&FULL_HANDSHAKE, session);
            let resumed = session.resumed(&mut t.w, 1, 2);
            t.play(&HELLOS, resumed);
            resumed
        });
        resumes("of-server-spy", |t| {
            let session = Session { b: SPY, ..t.s };
            t.play(&FULL_HANDSHAKE, session);
            let resumed = session.resumed(&mut t.w, 1, 2);
            t.play(&HELLOS, resumed);
            resumed
        });
        resumes("with-itself", |t| {
            let session = Session { b: t.s.a, ..t.s };
            t.play(&TO_SECRET, session);
            t.play(&BOTH_FINISHED, session);
            t.play(&[Step::ClientAccepts], session);
            let resumed = session.resumed(&mut t.w, 1, 2);
            t.play(&HELLOS, resumed);
            resumed
        });
    }
    list.twin(12, "r12-hello-forged-by-spy", |t| {
        t.play(&FULL_HANDSHAKE, t.s);
        let resumed = Session { nb: t.s.na, ..t.s.resumed(&mut t.w, 1, 2) };
        t.play(&[Step::ClientHello], resumed);
        let hello = resumed.server_hello(&mut t.w);
        t.fake(t.s.a, hello);
        t.play(&[Step::ClientFinished], resumed);
    });
    list.twin(13, "r13-hello-forged-by-spy", |t| {
        t.play(&FULL_HANDSHAKE, t.s);
        let resumed = Session { na: t.s.nb, ..t.s.resumed(&mut t.w, 1, 2) };
        let hello = resumed.client_hello(&mut t.w);
        t.fake(t.s.b, hello);
        t.play(&[Step::ServerHello, Step::ServerFinished], resumed);
    });
}

/// Rule 14.
fn add_oops(list: &mut List) {
    list.twin(14, "r14-by-server", |t| {
        t.play(&TO_SECRET, t.s);
        t.play(&[Step::ServerFinished, Step::ServerOops], t.s);
    });
    list.twin(14, "r14-again", |t| {
        t.play(&TO_SECRET, t.s);
        t.play(&[Step::ClientFinished, Step::ClientOops, Step::ClientOops], t.s);
    });
    list.twin(14, "r14-of-resumed-session", |t| {
        t.play(&FULL_HANDSHAKE, t.s);
        let resumed = t.s.resumed(&mut t.w, 1, 2);
        t.play(&RESUMPTION, resumed);
        t.play(&[Step::ClientOops], resumed);
    });
    list.twin(14, "r14-by-spy-who-only-sent-on", |t| {
        t.play(&TO_SECRET, t.s);
        t.play(&[Step::ClientFinished], t.s);
        let finished = event_of(t, Step::ClientFinished, t.s);
        t.fake(t.o.b, finished.message());
        let key = t.s.key(&mut t.w, Role::Client);
        t.push(Event::Says(SPY, SPY, key));
    });
}
