//! Near misses of rules 6 and 7: the client's key exchange and CertVerify.

use super::{add_common, add_to_other, event_of, List, Scene, HELLOS, SECRET, TO_SECRET};
use crate::file::Event;
use crate::generate::session::{Session, Step};
use crate::message::{Id, Message, Role};

pub fn add(list: &mut List) {
    add_key_exchange(list);
    add_cert_verify(list);
}

/// The note and the message of a key exchange.
fn exchange(t: &mut Scene, session: Session) -> (Event, Event) {
    let events = session.events(&mut t.w, Step::KeyExchange);
    (events[0], events[1])
}

fn add_key_exchange(list: &mut List) {
    add_key_exchange_order(list);
    add_key_exchange_events(list);
    add_key_exchange_certificate(list);
    add_key_exchange_secret(list);
}

/// The two events have to follow each other.
fn add_key_exchange_order(list: &mut List) {
    list.add("r06-note-is-last", |t| {
        t.play(&[Step::Certificate], t.s);
        let (note, _) = exchange(t, t.s);
        t.miss(note);
        t.ended = true;
    });
    list.add("r06-message-missing", |t| {
        t.play(&[Step::Certificate], t.s);
        let (note, _) = exchange(t, t.s);
        let next = event_of(t, Step::Certificate, t.s);
        t.miss_first(vec![note, next]);
    });
    list.add("r06-event-between", |t| {
        t.play(&[Step::Certificate], t.s);
        let (note, message) = exchange(t, t.s);
        let between = event_of(t, Step::ClientHello, t.s);
        t.miss_first(vec![note, between, message]);
    });
    list.add("r06-note-twice", |t| {
        t.play(&[Step::Certificate], t.s);
        let (note, message) = exchange(t, t.s);
        t.miss_first(vec![note, note, message]);
    });
    list.add("r06-message-before-note", |t| {
        t.play(&[Step::Certificate], t.s);
        let (note, message) = exchange(t, t.s);
        t.miss_first(vec![message, note]);
    });
    list.add("r06-note-missing", |t| {
        t.play(&[Step::Certificate], t.s);
        let (_, message) = exchange(t, t.s);
        t.miss(message);
    });
    list.add("r06-message-twice", |t| {
        t.play(&[Step::Certificate, Step::KeyExchange], t.s);
        let (_, message) = exchange(t, t.s);
        t.miss(message);
    });
}

/// Each of the two events has its agents and its message.
fn add_key_exchange_events(list: &mut List) {
    let mut misses = |name: &str, change: fn(&mut Scene, Event, Event) -> (Event, Event)| {
        list.add(format!("r06-{name}"), move |t| {
            t.play(&[Step::Certificate], t.s);
            t.play(&[Step::Certificate], Session { a: t.o.a, ..t.s });
            t.play(&[Step::Certificate], Session { b: t.o.b, ..t.s });
            let (note, message) = exchange(t, t.s);
            let (note, message) = change(t, note, message);
            t.miss_first(vec![note, message]);
        });
    };
    misses("note-by-other", |t, note, message| (Event::Notes(t.o.a, note.message()), message));
    misses("note-said", |t, note, message| (Event::Says(t.s.a, t.s.b, note.message()), message));
    misses("note-of-other-agent", |t, _, message| {
        let other = Session { b: t.o.b, ..t.s };
        (exchange(t, other).0, message)
    });
    misses("note-of-other-secret", |t, _, message| {
        let other = Session { pms: t.o.pms, ..t.s };
        (exchange(t, other).0, message)
    });
    misses("note-exchanged", |t, _, message| {
        let agent = t.w.agent(t.s.b);
        (Event::Notes(t.s.a, t.w.pair(t.s.pms, agent)), message)
    });
    misses("note-longer", |t, _, message| {
        let agent = t.w.agent(t.s.b);
        let group = t.w.group(&[agent, t.s.pms, t.number]);
        (Event::Notes(t.s.a, group), message)
    });
    misses("note-of-secret-alone", |t, _, message| (Event::Notes(t.s.a, t.s.pms), message));
    misses("note-of-number-for-agent", |t, _, message| {
        (Event::Notes(t.s.a, t.w.pair(t.number, t.s.pms)), message)
    });
    misses("message-by-other", |t, note, message| {
        (note, Event::Says(t.o.a, t.s.b, message.message()))
    });
    misses("message-to-other", |t, note, message| {
        (note, Event::Says(t.s.a, t.o.b, message.message()))
    });
    misses("message-noted", |t, note, message| (note, Event::Notes(t.s.a, message.message())));
    misses("message-of-other-secret", |t, note, _| {
        let other = Session { pms: t.o.pms, ..t.s };
        (note, exchange(t, other).1)
    });
    misses("message-under-other-key", |t, note, _| {
        let key = t.w.public_key(t.o.b);
        (note, Event::Says(t.s.a, t.s.b, t.w.crypt(key, t.s.pms)))
    });
    misses("message-under-own-key", |t, note, _| {
        let key = t.w.public_key(t.s.a);
        (note, Event::Says(t.s.a, t.s.b, t.w.crypt(key, t.s.pms)))
    });
    misses("message-under-private-key", |t, note, _| {
        let key = t.w.private_key(t.s.b);
        (note, Event::Says(t.s.a, t.s.b, t.w.crypt(key, t.s.pms)))
    });
    misses("message-under-session-key", |t, note, _| {
        let key = t.o.key(&mut t.w, Role::Client);
        (note, Event::Says(t.s.a, t.s.b, t.w.crypt(key, t.s.pms)))
    });
    misses("message-not-closed", |t, note, _| (note, Event::Says(t.s.a, t.s.b, t.s.pms)));
    misses("message-in-larger-pair", |t, note, message| {
        let pair = t.w.pair(message.message(), t.number);
        (note, Event::Says(t.s.a, t.s.b, pair))
    });
    misses("message-of-note", |t, note, _| {
        let key = t.w.public_key(t.s.b);
        let x = t.w.crypt(key, note.message());
        (note, Event::Says(t.s.a, t.s.b, x))
    });
    misses("message-of-hash", |t, note, _| {
        let (key, hash) = (t.w.public_key(t.s.b), t.w.hash(t.s.pms));
        (note, Event::Says(t.s.a, t.s.b, t.w.crypt(key, hash)))
    });
}

/// The certificate has to have reached A, whole.
fn add_key_exchange_certificate(list: &mut List) {
    list.add("r06-no-certificate", |t| {
        t.miss_step(Step::KeyExchange, t.s);
    });
    list.add("r06-certificate-later", |t| {
        t.miss_step(Step::KeyExchange, t.s);
        t.play(&[Step::Certificate], t.s);
    });
    list.add("r06-certificate-between", |t| {
        let (note, message) = exchange(t, t.s);
        let certificate = event_of(t, Step::Certificate, t.s);
        t.miss_first(vec![note, certificate, message]);
    });
    list.add("r06-certificate-to-other", |t| {
        t.play(&[Step::Certificate], Session { a: t.o.a, ..t.s });
        t.miss_step(Step::KeyExchange, t.s);
    });
    list.add("r06-certificate-of-other", |t| {
        t.play(&[Step::Certificate], Session { b: t.o.b, ..t.s });
        t.miss_step(Step::KeyExchange, t.s);
    });
    list.add("r06-certificate-in-larger-pair", |t| {
        t.play(&[Step::Certificate], Session { a: t.o.a, ..t.s });
        let certificate = t.s.certificate(&mut t.w);
        let pair = t.w.pair(certificate, t.number);
        t.fake(t.s.a, pair);
        t.miss_step(Step::KeyExchange, t.s);
    });
}

/// The secret has to be a plain nonce, unused before the note.
fn add_key_exchange_secret(list: &mut List) {
    list.add("r06-pms-used-in-client-hello", |t| {
        t.play(&[Step::ClientHello], Session { na: t.s.pms, ..t.s });
        t.play(&[Step::Certificate], t.s);
        t.miss_step(Step::KeyExchange, t.s);
    });
    list.add("r06-pms-used-in-server-hello", |t| {
        t.play(&[Step::ClientHello], t.o);
        t.play(&[Step::ServerHello], Session { nb: t.s.pms, ..t.o });
        t.play(&[Step::Certificate], t.s);
        t.miss_step(Step::KeyExchange, t.s);
    });
    list.add("r06-pms-repeated", |t| {
        t.play(&[Step::Certificate, Step::KeyExchange], t.s);
        t.miss_step(Step::KeyExchange, t.s);
    });
    list.add("r06-pms-of-other-client", |t| {
        let other = Session { a: t.o.a, ..t.s };
        t.play(&[Step::Certificate, Step::KeyExchange], other);
        t.play(&[Step::Certificate], t.s);
        t.miss_step(Step::KeyExchange, t.s);
    });
    list.add("r06-pms-of-other-server", |t| {
        let other = Session { b: t.o.b, ..t.s };
        t.play(&[Step::Certificate, Step::KeyExchange], other);
        t.play(&[Step::Certificate], t.s);
        t.miss_step(Step::KeyExchange, t.s);
    });
    list.add("r06-pms-prf", |t| {
        t.play(&[Step::Certificate], t.s);
        t.miss_step(Step::KeyExchange, Session { pms: t.s.m, ..t.s });
    });
    list.add("r06-pms-number", |t| {
        let Message::Nonce(value) = t.w.messages[t.s.pms] else {
            unreachable!("the secret is plain")
        };
        let pms = t.w.number(value);
        t.play(&[Step::Certificate], t.s);
        t.miss_step(Step::KeyExchange, Session { pms, ..t.s });
    });
}

fn add_cert_verify(list: &mut List) {
    fn legal(t: &mut Scene) -> Event {
        t.play(&TO_SECRET, t.s);
        event_of(t, Step::CertVerify, t.s)
    }
    add_common(list, 7, legal);
    add_to_other(list, 7, legal);
    add_cert_verify_messages(list);
    add_cert_verify_premises(list);
}

fn add_cert_verify_messages(list: &mut List) {
    /// The group {Nb, Agent B, PMS}.
    fn items(t: &mut Scene) -> [Id; 3] {
        [t.s.nb, t.w.agent(t.s.b), t.s.pms]
    }
    fn signed(t: &mut Scene, items: &[Id]) -> Id {
        let group = t.w.group(items);
        let (key, hash) = (t.w.private_key(t.s.a), t.w.hash(group));
        t.w.crypt(key, hash)
    }
    fn under(t: &mut Scene, key: Id) -> Id {
        let items = items(t);
        let group = t.w.group(&items);
        let hash = t.w.hash(group);
        t.w.crypt(key, hash)
    }
    let mut misses = |name: &str, message: fn(&mut Scene) -> Id| {
        list.add(format!("r07-{name}"), move |t| {
            t.play(&TO_SECRET, t.s);
            let event = Event::Says(t.s.a, t.s.b, message(t));
            t.miss(event);
        });
    };
    misses("hash-of-other-nb", |t| {
        let [_, b, pms] = items(t);
        signed(t, &[t.o.nb, b, pms])
    });
    misses("hash-of-na", |t| {
        let [_, b, pms] = items(t);
        signed(t, &[t.s.na, b, pms])
    });
    misses("hash-of-other-agent", |t| {
        let [nb, _, pms] = items(t);
        let other = t.w.agent(t.o.b);
        signed(t, &[nb, other, pms])
    });
    misses("hash-of-own-agent", |t| {
        let [nb, _, pms] = items(t);
        let own = t.w.agent(t.s.a);
        signed(t, &[nb, own, pms])
    });
    misses("hash-of-other-pms", |t| {
        let [nb, b, _] = items(t);
        signed(t, &[nb, b, t.o.pms])
    });
    misses("hash-of-m-for-pms", |t| {
        let [nb, b, _] = items(t);
        signed(t, &[nb, b, t.s.m])
    });
    misses("hash-nb-and-pms-exchanged", |t| {
        let [nb, b, pms] = items(t);
        signed(t, &[pms, b, nb])
    });
    misses("hash-agent-first", |t| {
        let [nb, b, pms] = items(t);
        signed(t, &[b, nb, pms])
    });
    misses("hash-longer", |t| {
        let [nb, b, pms] = items(t);
        signed(t, &[nb, b, pms, t.number])
    });
    misses("hash-shorter", |t| {
        let [_, b, pms] = items(t);
        signed(t, &[b, pms])
    });
    misses("not-hashed", |t| {
        let items = items(t);
        let (key, group) = (t.w.private_key(t.s.a), t.w.group(&items));
        t.w.crypt(key, group)
    });
    misses("hashed-twice", |t| {
        let items = items(t);
        let group = t.w.group(&items);
        let hash = t.w.hash(group);
        let (key, hash) = (t.w.private_key(t.s.a), t.w.hash(hash));
        t.w.crypt(key, hash)
    });
    misses("not-signed", |t| {
        let items = items(t);
        let group = t.w.group(&items);
        t.w.hash(group)
    });
    misses("signed-by-server", |t| {
        let key = t.w.private_key(t.s.b);
        under(t, key)
    });
    misses("signed-by-other", |t| {
        let key = t.w.private_key(t.o.a);
        under(t, key)
    });
    misses("under-public-key", |t| {
        let key = t.w.public_key(t.s.a);
        under(t, key)
    });
    misses("under-session-key", |t| {
        let key = t.s.key(&mut t.w, Role::Client);
        under(t, key)
    });
}

fn add_cert_verify_premises(list: &mut List) {
    list.add("r07-sh-missing", |t| {
        t.play(&[Step::ClientHello], t.s);
        t.play(&SECRET, t.s);
        t.miss_step(Step::CertVerify, t.s);
    });
    list.add("r07-sh-later", |t| {
        t.play(&[Step::ClientHello], t.s);
        t.play(&SECRET, t.s);
        t.miss_step(Step::CertVerify, t.s);
        t.play(&[Step::ServerHello], t.s);
    });
    list.add("r07-sh-to-other", |t| {
        t.play(&HELLOS, Session { a: t.o.a, ..t.s });
        t.play(&SECRET, t.s);
        t.miss_step(Step::CertVerify, t.s);
    });
    list.add("r07-sh-of-other-nb", |t| {
        t.play(&HELLOS, Session { nb: t.o.nb, ..t.s });
        t.play(&SECRET, t.s);
        t.miss_step(Step::CertVerify, t.s);
    });
    list.add("r07-sh-in-larger-pair", |t| {
        t.play(&HELLOS, Session { a: t.o.a, ..t.s });
        let hello = t.s.server_hello(&mut t.w);
        let pair = t.w.pair(hello, t.number);
        t.fake(t.s.a, pair);
        t.play(&SECRET, t.s);
        t.miss_step(Step::CertVerify, t.s);
    });
    let mut forged = |name: &str, items: fn(&mut Scene) -> Vec<Id>| {
        list.add(format!("r07-sh-{name}"), move |t| {
            t.play(&HELLOS, Session { a: t.o.a, ..t.s });
            let items = items(t);
            let hello = t.w.group(&items);
            t.fake(t.s.a, hello);
            t.play(&SECRET, t.s);
            t.miss_step(Step::CertVerify, t.s);
        });
    };
    forged("with-agent-for-sid", |t| vec![t.s.nb, t.w.agent(t.s.b), t.s.pb]);
    forged("with-nonce-for-pb", |t| vec![t.s.nb, t.s.sid, t.s.nb]);
    forged("longer", |t| vec![t.s.nb, t.s.sid, t.s.pb, t.number]);
    forged("shorter", |t| vec![t.s.nb, t.s.sid]);
    list.add("r07-nb-alone", |t| {
        t.play(&HELLOS, Session { a: t.o.a, ..t.s });
        t.fake(t.s.a, t.s.nb);
        t.play(&SECRET, t.s);
        t.miss_step(Step::CertVerify, t.s);
    });
    list.add("r07-note-missing", |t| {
        t.play(&HELLOS, t.s);
        t.miss_step(Step::CertVerify, t.s);
    });
    list.add("r07-note-later", |t| {
        t.play(&HELLOS, t.s);
        t.play(&[Step::Certificate], t.s);
        t.miss_step(Step::CertVerify, t.s);
        t.play(&[Step::KeyExchange], t.s);
    });
    list.add("r07-note-by-other", |t| {
        t.play(&HELLOS, t.s);
        t.play(&SECRET, Session { a: t.o.a, ..t.s });
        t.miss_step(Step::CertVerify, t.s);
    });
    list.add("r07-note-of-other-agent", |t| {
        t.play(&HELLOS, t.s);
        t.play(&SECRET, Session { b: t.o.b, ..t.s });
        t.miss_step(Step::CertVerify, t.s);
    });
    list.add("r07-note-of-other-pms", |t| {
        t.play(&HELLOS, t.s);
        t.play(&SECRET, Session { pms: t.o.pms, ..t.s });
        t.miss_step(Step::CertVerify, t.s);
    });
}
