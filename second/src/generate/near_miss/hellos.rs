//! Near misses of rules 3, 4 and 5: both hellos and the certificate.

use super::{add_common, add_to_other, event_of, List, Scene, TO_SECRET};
use crate::file::Event;
use crate::generate::session::{certificate, Session, Step};
use crate::message::{Id, Message, AUTHORITY, SPY};

pub fn add(list: &mut List) {
    add_client_hello(list);
    add_server_hello(list);
    add_certificate(list);
}

/// A Number with the value of the plain nonce.
fn number_like(t: &mut Scene, nonce: Id) -> Id {
    let Message::Nonce(value) = t.w.messages[nonce] else {
        unreachable!("a plain nonce was asked for")
    };
    t.w.number(value)
}

/// A plain nonce, never said, with the value of the Number if that is still free.
fn nonce_like(t: &mut Scene, number: Id) -> Id {
    match t.w.messages[number] {
        Message::Number(value) if !t.w.messages.contains(Message::Nonce(value)) => t.w.nonce(value),
        _ => t.w.fresh_nonce(),
    }
}

fn add_client_hello(list: &mut List) {
    fn hello(t: &mut Scene) -> Event {
        event_of(t, Step::ClientHello, t.s)
    }
    add_common(list, 3, hello);
    let mut misses = |name: &str, items: fn(&mut Scene) -> Vec<Id>| {
        list.add(format!("r03-{name}"), move |t| {
            let items = items(t);
            let event = Event::Says(t.s.a, t.s.b, t.w.group(&items));
            t.miss(event);
        });
    };
    fn items(t: &mut Scene) -> Vec<Id> {
        vec![t.w.agent(t.s.a), t.s.na, t.s.sid, t.s.pa]
    }
    fn with(t: &mut Scene, at: usize, x: Id) -> Vec<Id> {
        let mut items = items(t);
        items[at] = x;
        items
    }
    misses("agent-other", |t| {
        let other = t.w.agent(t.o.a);
        with(t, 0, other)
    });
    misses("agent-is-receiver", |t| {
        let other = t.w.agent(t.s.b);
        with(t, 0, other)
    });
    misses("agent-is-number", |t| with(t, 0, t.number));
    misses("na-prf", |t| with(t, 1, t.s.m));
    misses("na-number", |t| {
        let number = number_like(t, t.s.na);
        with(t, 1, number)
    });
    misses("na-agent", |t| {
        let agent = t.w.agent(t.s.a);
        with(t, 1, agent)
    });
    misses("sid-nonce", |t| {
        let nonce = nonce_like(t, t.s.sid);
        with(t, 2, nonce)
    });
    misses("sid-agent", |t| {
        let agent = t.w.agent(t.s.a);
        with(t, 2, agent)
    });
    misses("pa-nonce", |t| {
        let nonce = nonce_like(t, t.s.pa);
        with(t, 3, nonce)
    });
    misses("shorter", |t| {
        let mut items = items(t);
        items.pop();
        items
    });
    misses("longer", |t| {
        let mut items = items(t);
        items.push(t.number);
        items
    });
    misses("agent-and-na-exchanged", |t| {
        let mut items = items(t);
        items.swap(0, 1);
        items
    });
    misses("na-and-sid-exchanged", |t| {
        let mut items = items(t);
        items.swap(1, 2);
        items
    });
    misses("grouped-to-the-left", |t| {
        let [a, na, sid, pa] = items(t)[..] else { unreachable!() };
        let (left, right) = (t.w.pair(a, na), t.w.pair(sid, pa));
        vec![left, right]
    });

    list.add("r03-na-used-in-client-hello", |t| {
        t.play(&[Step::ClientHello], Session { na: t.s.na, ..t.o });
        t.miss_step(Step::ClientHello, t.s);
    });
    list.add("r03-na-used-in-server-hello", |t| {
        t.play(&[Step::ClientHello], t.o);
        t.play(&[Step::ServerHello], Session { nb: t.s.na, ..t.o });
        t.miss_step(Step::ClientHello, t.s);
    });
    list.add("r03-na-used-as-secret", |t| {
        let other = Session { pms: t.s.na, ..t.o };
        t.play(&[Step::Certificate, Step::KeyExchange], other);
        t.miss_step(Step::ClientHello, t.s);
    });
    list.add("r03-na-used-in-same-hello", |t| {
        t.play(&[Step::ClientHello], t.s);
        t.miss_step(Step::ClientHello, t.s);
    });
}

fn add_server_hello(list: &mut List) {
    fn hello(t: &mut Scene) -> Event {
        t.play(&[Step::ClientHello], t.s);
        event_of(t, Step::ServerHello, t.s)
    }
    add_common(list, 4, hello);
    add_to_other(list, 4, hello);
    let mut misses = |name: &str, items: fn(&mut Scene) -> Vec<Id>| {
        list.add(format!("r04-{name}"), move |t| {
            t.play(&[Step::ClientHello], t.s);
            let items = items(t);
            let event = Event::Says(t.s.b, t.s.a, t.w.group(&items));
            t.miss(event);
        });
    };
    misses("sid-other", |t| vec![t.s.nb, t.o.sid, t.s.pb]);
    misses("sid-nonce", |t| {
        let nonce = nonce_like(t, t.s.sid);
        vec![t.s.nb, nonce, t.s.pb]
    });
    misses("pb-nonce", |t| {
        let nonce = nonce_like(t, t.s.pb);
        vec![t.s.nb, t.s.sid, nonce]
    });
    misses("pb-agent", |t| {
        let agent = t.w.agent(t.s.b);
        vec![t.s.nb, t.s.sid, agent]
    });
    misses("nb-prf", |t| vec![t.s.m, t.s.sid, t.s.pb]);
    misses("nb-number", |t| {
        let number = number_like(t, t.s.nb);
        vec![number, t.s.sid, t.s.pb]
    });
    misses("nb-is-na", |t| vec![t.s.na, t.s.sid, t.s.pb]);
    misses("shorter", |t| vec![t.s.nb, t.s.sid]);
    misses("longer", |t| vec![t.s.nb, t.s.sid, t.s.pb, t.number]);
    misses("nb-and-sid-exchanged", |t| vec![t.s.sid, t.s.nb, t.s.pb]);
    misses("sid-and-pb-exchanged", |t| vec![t.s.nb, t.s.pb, t.s.sid]);

    list.add("r04-no-client-hello", |t| {
        t.miss_step(Step::ServerHello, t.s);
    });
    list.add("r04-client-hello-later", |t| {
        t.miss_step(Step::ServerHello, t.s);
        t.play(&[Step::ClientHello], t.s);
    });
    list.add("r04-client-hello-to-other", |t| {
        t.play(&[Step::ClientHello], Session { b: t.o.b, ..t.s });
        t.miss_step(Step::ServerHello, t.s);
    });
    list.add("r04-client-hello-of-other-agent", |t| {
        t.play(&[Step::ClientHello], Session { a: t.o.a, ..t.s });
        t.miss_step(Step::ServerHello, t.s);
    });
    list.add("r04-client-hello-of-other-sid", |t| {
        let other = Session { sid: t.o.sid, ..t.s };
        t.play(&[Step::ClientHello], other);
        t.miss_step(Step::ServerHello, t.s);
    });
    list.add("r04-agent-and-sid-of-two-hellos", |t| {
        let other_a = Session { a: t.o.a, ..t.s };
        let other_sid = Session { na: t.o.na, sid: t.o.sid, ..t.s };
        t.play(&[Step::ClientHello], other_a);
        t.play(&[Step::ClientHello], other_sid);
        t.miss_step(Step::ServerHello, t.s);
    });
    list.add("r04-client-hello-in-larger-pair", |t| {
        t.play(&[Step::ClientHello], Session { b: t.o.b, ..t.s });
        let hello = t.s.client_hello(&mut t.w);
        let pair = t.w.pair(hello, t.number);
        t.fake(t.s.b, pair);
        t.miss_step(Step::ServerHello, t.s);
    });
    let mut forged = |name: &str, items: fn(&mut Scene) -> Vec<Id>| {
        list.add(format!("r04-client-hello-{name}"), move |t| {
            t.play(&[Step::ClientHello], Session { b: t.o.b, ..t.s });
            let items = items(t);
            let hello = t.w.group(&items);
            t.fake(t.s.b, hello);
            t.miss_step(Step::ServerHello, t.s);
        });
    };
    forged("with-number-for-na", |t| vec![t.w.agent(t.s.a), t.number, t.s.sid, t.s.pa]);
    forged("with-hash-for-na", |t| {
        let hash = t.w.hash(t.s.na);
        vec![t.w.agent(t.s.a), hash, t.s.sid, t.s.pa]
    });
    forged("with-nonce-for-pa", |t| vec![t.w.agent(t.s.a), t.s.na, t.s.sid, t.s.na]);
    forged("with-agent-for-pa", |t| vec![t.w.agent(t.s.a), t.s.na, t.s.sid, t.w.agent(t.s.b)]);
    forged("with-number-for-agent", |t| vec![t.number, t.s.na, t.s.sid, t.s.pa]);
    forged("longer", |t| vec![t.w.agent(t.s.a), t.s.na, t.s.sid, t.s.pa, t.number]);
    forged("shorter", |t| vec![t.w.agent(t.s.a), t.s.na, t.s.sid]);
    forged("exchanged", |t| vec![t.w.agent(t.s.a), t.s.na, t.s.pa, t.s.sid]);
    list.add("r04-to-the-messenger", |t| {
        t.play(&[Step::ClientHello], Session { b: t.o.b, ..t.s });
        let hello = t.s.client_hello(&mut t.w);
        t.fake(t.s.b, hello);
        t.miss_step(Step::ServerHello, Session { a: SPY, ..t.s });
    });
    list.add("r04-nb-used-in-client-hello", |t| {
        t.play(&[Step::ClientHello], t.s);
        t.play(&[Step::ClientHello], Session { na: t.s.nb, ..t.o });
        t.miss_step(Step::ServerHello, t.s);
    });
    list.add("r04-nb-used-in-server-hello", |t| {
        t.play(&[Step::ClientHello, Step::ServerHello], t.s);
        t.miss_step(Step::ServerHello, t.s);
    });
    list.add("r04-nb-used-as-secret", |t| {
        t.play(&TO_SECRET, Session { pms: t.s.nb, ..t.o });
        t.play(&[Step::ClientHello], t.s);
        t.miss_step(Step::ServerHello, t.s);
    });
}

fn add_certificate(list: &mut List) {
    fn legal(t: &mut Scene) -> Event {
        event_of(t, Step::Certificate, t.s)
    }
    add_common(list, 5, legal);
    let mut misses = |name: &str, message: fn(&mut Scene) -> Id| {
        list.add(format!("r05-{name}"), move |t| {
            let event = Event::Says(t.s.b, t.s.a, message(t));
            t.miss(event);
        });
    };
    misses("of-other", |t| t.o.certificate(&mut t.w));
    misses("agent-other", |t| {
        let key = t.w.public_key(t.s.b);
        certificate(&mut t.w, AUTHORITY, t.o.b, key)
    });
    misses("agent-is-receiver", |t| {
        let key = t.w.public_key(t.s.a);
        certificate(&mut t.w, AUTHORITY, t.s.a, key)
    });
    misses("key-of-other", |t| {
        let key = t.w.public_key(t.o.b);
        certificate(&mut t.w, AUTHORITY, t.s.b, key)
    });
    misses("key-private", |t| {
        let key = t.w.private_key(t.s.b);
        certificate(&mut t.w, AUTHORITY, t.s.b, key)
    });
    misses("key-session", |t| {
        let key = t.s.key(&mut t.w, crate::message::Role::Server);
        certificate(&mut t.w, AUTHORITY, t.s.b, key)
    });
    misses("signed-by-itself", |t| {
        let key = t.w.public_key(t.s.b);
        certificate(&mut t.w, t.s.b, t.s.b, key)
    });
    misses("signed-by-spy", |t| {
        let key = t.w.public_key(t.s.b);
        certificate(&mut t.w, SPY, t.s.b, key)
    });
    misses("closed-by-authoritys-public-key", |t| {
        let (agent, key) = (t.w.agent(t.s.b), t.w.public_key(t.s.b));
        let (authority, body) = (t.w.public_key(AUTHORITY), t.w.pair(agent, key));
        t.w.crypt(authority, body)
    });
    misses("unsigned", |t| {
        let (agent, key) = (t.w.agent(t.s.b), t.w.public_key(t.s.b));
        t.w.pair(agent, key)
    });
    misses("agent-and-key-exchanged", |t| {
        let (agent, key) = (t.w.agent(t.s.b), t.w.public_key(t.s.b));
        let (authority, body) = (t.w.private_key(AUTHORITY), t.w.pair(key, agent));
        t.w.crypt(authority, body)
    });
    misses("longer", |t| {
        let (agent, key) = (t.w.agent(t.s.b), t.w.public_key(t.s.b));
        let body = t.w.group(&[agent, key, t.number]);
        let authority = t.w.private_key(AUTHORITY);
        t.w.crypt(authority, body)
    });
    misses("body-hashed", |t| {
        let (agent, key) = (t.w.agent(t.s.b), t.w.public_key(t.s.b));
        let body = t.w.pair(agent, key);
        let (authority, hash) = (t.w.private_key(AUTHORITY), t.w.hash(body));
        t.w.crypt(authority, hash)
    });
}
