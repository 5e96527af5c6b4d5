//! Messages as trees, each distinct tree kept once, so that equal messages have equal numbers.

use std::collections::HashMap;
use std::ops::Index;

/// An agent, 0 to 63.
#[derive(Clone, Copy, PartialEq, Eq, Hash, PartialOrd, Ord, Debug)]
pub struct Agent(pub u8);

pub const SPY: Agent = Agent(0);
/// The authority that signs certificates.
pub const AUTHORITY: Agent = Agent(1);
pub const AGENTS: u8 = 64;

impl Agent {
    pub fn is_in(self, set: u64) -> bool {
        set >> self.0 & 1 == 1
    }
}

/// The number of a message in its `Messages`. In a trace file it is the row number.
#[derive(Clone, Copy, PartialEq, Eq, Hash, PartialOrd, Ord, Debug)]
pub struct Id(pub u16);

#[derive(Clone, Copy, PartialEq, Eq, Hash, Debug)]
pub enum Role {
    Client,
    Server,
}

/// One node of a message tree.
#[derive(Clone, Copy, PartialEq, Eq, Hash, Debug)]
pub enum Message {
    Agent(Agent),
    Number(u16),
    Nonce(u16),
    /// The nonce PRF(S, Na, Nb).
    Prf {
        s: Id,
        na: Id,
        nb: Id,
    },
    PublicKey(Agent),
    PrivateKey(Agent),
    /// The session key (Na, Nb, M) of one role.
    SessionKey {
        role: Role,
        na: Id,
        nb: Id,
        m: Id,
    },
    Hash(Id),
    Crypt {
        key: Id,
        body: Id,
    },
    Pair(Id, Id),
}

impl Message {
    pub fn is_nonce(self) -> bool {
        matches!(self, Message::Nonce(_) | Message::Prf { .. })
    }

    pub fn is_key(self) -> bool {
        self.inverse().is_some()
    }

    /// The key that opens what this key closes.
    pub fn inverse(self) -> Option<Message> {
        match self {
            Message::PublicKey(a) => Some(Message::PrivateKey(a)),
            Message::PrivateKey(a) => Some(Message::PublicKey(a)),
            Message::SessionKey { .. } => Some(self),
            _ => None,
        }
    }

    /// This node over other children.
    pub fn map(self, mut f: impl FnMut(Id) -> Id) -> Message {
        match self {
            Message::Prf { s, na, nb } => Message::Prf { s: f(s), na: f(na), nb: f(nb) },
            Message::SessionKey { role, na, nb, m } => {
                Message::SessionKey { role, na: f(na), nb: f(nb), m: f(m) }
            }
            Message::Hash(x) => Message::Hash(f(x)),
            Message::Crypt { key, body } => Message::Crypt { key: f(key), body: f(body) },
            Message::Pair(x, y) => Message::Pair(f(x), f(y)),
            leaf => leaf,
        }
    }
}

/// All messages of a trace, children before parents.
#[derive(Clone, Default)]
pub struct Messages {
    trees: Vec<Message>,
    ids: HashMap<Message, Id>,
}

impl Messages {
    /// The number of this message, which is new if the message is.
    pub fn intern(&mut self, message: Message) -> Id {
        *self.ids.entry(message).or_insert_with(|| {
            self.trees.push(message);
            Id(self.trees.len() as u16 - 1)
        })
    }

    pub fn contains(&self, message: Message) -> bool {
        self.ids.contains_key(&message)
    }

    pub fn len(&self) -> usize {
        self.trees.len()
    }

    pub fn is_empty(&self) -> bool {
        self.trees.is_empty()
    }

    pub fn ids(&self) -> impl Iterator<Item = Id> {
        (0..self.trees.len() as u16).map(Id)
    }

    pub fn iter(&self) -> impl Iterator<Item = Message> + '_ {
        self.trees.iter().copied()
    }

    /// The N items of a group {X, Y, Z}, that is, of Pair X (Pair Y Z).
    pub fn group<const N: usize>(&self, mut x: Id) -> Option<[Id; N]> {
        let mut items = [x; N];
        for item in &mut items[..N - 1] {
            let Message::Pair(left, right) = self[x] else {
                return None;
            };
            *item = left;
            x = right;
        }
        items[N - 1] = x;
        Some(items)
    }
}

impl Index<Id> for Messages {
    type Output = Message;

    fn index(&self, x: Id) -> &Message {
        &self.trees[x.0 as usize]
    }
}
