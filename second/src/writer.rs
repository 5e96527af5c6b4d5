//! Builds trace files from messages and events; rows are distinct because messages are interned.

use crate::file::{row_offset, Event, HEADER, MAX_EVENTS, MAX_ROWS};
use crate::message::{Agent, Id, Message, Messages, Role};
use crate::rng::Rng;

#[derive(Clone)]
pub struct Writer {
    pub compromised: u64,
    pub messages: Messages,
    pub events: Vec<Event>,
    next_nonce: u16,
}

impl Writer {
    pub fn new(compromised: u64) -> Writer {
        Writer { compromised, messages: Messages::default(), events: Vec::new(), next_nonce: 0 }
    }

    pub fn agent(&mut self, a: Agent) -> Id {
        self.messages.intern(Message::Agent(a))
    }

    pub fn number(&mut self, value: u16) -> Id {
        self.messages.intern(Message::Number(value))
    }

    pub fn nonce(&mut self, value: u16) -> Id {
        self.messages.intern(Message::Nonce(value))
    }

    /// A plain nonce that no row has yet.
    pub fn fresh_nonce(&mut self) -> Id {
        while self.messages.contains(Message::Nonce(self.next_nonce)) {
            self.next_nonce += 1;
        }
        self.nonce(self.next_nonce)
    }

    pub fn prf(&mut self, s: Id, na: Id, nb: Id) -> Id {
        self.messages.intern(Message::Prf { s, na, nb })
    }

    pub fn public_key(&mut self, a: Agent) -> Id {
        self.messages.intern(Message::PublicKey(a))
    }

    pub fn private_key(&mut self, a: Agent) -> Id {
        self.messages.intern(Message::PrivateKey(a))
    }

    pub fn session_key(&mut self, role: Role, na: Id, nb: Id, m: Id) -> Id {
        self.messages.intern(Message::SessionKey { role, na, nb, m })
    }

    pub fn hash(&mut self, x: Id) -> Id {
        self.messages.intern(Message::Hash(x))
    }

    pub fn crypt(&mut self, key: Id, body: Id) -> Id {
        self.messages.intern(Message::Crypt { key, body })
    }

    pub fn pair(&mut self, x: Id, y: Id) -> Id {
        self.messages.intern(Message::Pair(x, y))
    }

    /// The group {X, Y, Z}.
    pub fn group(&mut self, items: &[Id]) -> Id {
        let (&last, rest) = items.split_last().expect("a group has items");
        rest.iter().rev().fold(last, |tail, &x| self.pair(x, tail))
    }

    pub fn says(&mut self, a: Agent, b: Agent, x: Id) {
        self.events.push(Event::Says(a, b, x));
    }

    pub fn notes(&mut self, a: Agent, x: Id) {
        self.events.push(Event::Notes(a, x));
    }

    /// Whether the rows and events fit into a file.
    pub fn fits(&self) -> bool {
        self.messages.len() <= MAX_ROWS && self.events.len() <= MAX_EVENTS
    }

    /// Gives all Numbers and Nonces other values; different ones stay different.
    pub fn change_values(&mut self, rng: &mut Rng) {
        let [numbers, nonces] = [(); 2].map(|_| rng.next() as u16);
        let mut messages = Messages::default();
        for message in self.messages.iter() {
            messages.intern(match message {
                Message::Number(value) => Message::Number(value ^ numbers),
                Message::Nonce(value) => Message::Nonce(value ^ nonces),
                other => other,
            });
        }
        self.messages = messages;
    }

    /// Puts the rows into another order, at random.
    pub fn shuffle_rows(&mut self, rng: &mut Rng) {
        let mut order: Vec<Id> = self.messages.ids().collect();
        rng.shuffle(&mut order);
        let mut moved = vec![None; order.len()];
        let mut messages = Messages::default();
        for x in order {
            self.move_row(x, &mut moved, &mut messages);
        }
        let place = |x: Id| moved[x.0 as usize].expect("all rows have moved");
        for event in &mut self.events {
            match event {
                Event::Says(_, _, x) | Event::Notes(_, x) => *x = place(*x),
            }
        }
        self.messages = messages;
    }

    /// Moves a row, after those it refers to, to the end of `messages`.
    fn move_row(&self, x: Id, moved: &mut [Option<Id>], messages: &mut Messages) -> Id {
        if let Some(place) = moved[x.0 as usize] {
            return place;
        }
        let message = self.messages[x].map(|child| self.move_row(child, moved, messages));
        let place = messages.intern(message);
        moved[x.0 as usize] = Some(place);
        place
    }

    /// The bytes of the trace file.
    pub fn file(&self) -> Vec<u8> {
        assert!(self.fits(), "the trace is too long for a file");
        let rows = self.messages.len();
        let mut file = Vec::with_capacity(row_offset(rows) + 8 * self.events.len());
        file.extend([1, 0, 0, 0]);
        file.extend(self.compromised.to_le_bytes());
        for field in [HEADER, rows, row_offset(rows), self.events.len()] {
            file.extend((field as u16).to_le_bytes());
        }
        file.extend(self.messages.iter().flat_map(row_bytes));
        file.extend(self.events.iter().copied().flat_map(event_bytes));
        file
    }
}

fn row_bytes(message: Message) -> [u8; 8] {
    let (kind, role, fields) = match message {
        Message::Agent(a) => (0, 0, [a.0 as u16, 0, 0]),
        Message::Number(value) => (1, 0, [value, 0, 0]),
        Message::Nonce(value) => (2, 0, [value, 0, 0]),
        Message::Prf { s, na, nb } => (3, 0, [s.0, na.0, nb.0]),
        Message::PublicKey(a) => (4, 0, [a.0 as u16, 0, 0]),
        Message::PrivateKey(a) => (5, 0, [a.0 as u16, 0, 0]),
        Message::SessionKey { role, na, nb, m } => (6, role as u8, [na.0, nb.0, m.0]),
        Message::Hash(x) => (7, 0, [x.0, 0, 0]),
        Message::Crypt { key, body } => (8, 0, [key.0, body.0, 0]),
        Message::Pair(x, y) => (9, 0, [x.0, y.0, 0]),
    };
    let [x, y, z] = fields.map(u16::to_le_bytes);
    [kind, role, x[0], x[1], y[0], y[1], z[0], z[1]]
}

fn event_bytes(event: Event) -> [u8; 8] {
    let (kind, a, b, x) = match event {
        Event::Says(a, b, x) => (0, a.0, b.0, x),
        Event::Notes(a, x) => (1, a.0, 0, x),
    };
    let [low, high] = x.0.to_le_bytes();
    [kind, a, b, 0, low, high, 0, 0]
}
