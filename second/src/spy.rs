//! What the spy sees, analyses and can make.

use crate::file::Event;
use crate::message::{Agent, Id, Message, Messages, AGENTS};
use std::collections::HashSet;

/// The spy after some events.
#[derive(Clone)]
pub struct Spy {
    compromised: u64,
    analysed: HashSet<Message>,
    /// Ciphertexts not opened yet: the key that would open each, and its body.
    closed: Vec<(Message, Id)>,
}

impl Spy {
    /// The spy before the first event has the private keys of the compromised agents.
    pub fn new(compromised: u64) -> Spy {
        let private_keys =
            (0..AGENTS).map(Agent).filter(|a| a.is_in(compromised)).map(Message::PrivateKey);
        Spy { compromised, analysed: private_keys.collect(), closed: Vec::new() }
    }

    /// Takes in the next event: what is said, and what compromised agents note.
    pub fn sees(&mut self, messages: &Messages, event: Event) {
        match event {
            Event::Says(_, _, x) => self.analyse(messages, x),
            Event::Notes(a, x) if a.is_in(self.compromised) => self.analyse(messages, x),
            Event::Notes(..) => {}
        }
    }

    /// Adds a message and all that it, alone or with what came before, opens.
    fn analyse(&mut self, messages: &Messages, x: Id) {
        let mut found = vec![x];
        while let Some(x) = found.pop() {
            let message = messages[x];
            if !self.analysed.insert(message) {
                continue;
            }
            match message {
                Message::Pair(left, right) => found.extend([left, right]),
                Message::Crypt { key, body } => {
                    let opener = messages[key].inverse().expect("a Crypt has a key");
                    if self.analysed.contains(&opener) {
                        found.push(body);
                    } else {
                        self.closed.push((opener, body));
                    }
                }
                key if key.is_key() => self.closed.retain(|&(opener, body)| {
                    if opener == key {
                        found.push(body);
                    }
                    opener != key
                }),
                _ => {}
            }
        }
    }

    /// Whether the analysed knowledge holds the message.
    pub fn has(&self, messages: &Messages, x: Id) -> bool {
        self.analysed.contains(&messages[x])
    }

    /// What the spy can make at this moment.
    pub fn makes<'a>(&'a self, messages: &'a Messages) -> Makes<'a> {
        Makes { spy: self, messages, found: vec![None; messages.len()] }
    }
}

/// The search for what the spy can make, which remembers what it has found.
pub struct Makes<'a> {
    spy: &'a Spy,
    messages: &'a Messages,
    found: Vec<Option<bool>>,
}

impl Makes<'_> {
    pub fn can_make(&mut self, x: Id) -> bool {
        if let Some(can) = self.found[x.0 as usize] {
            return can;
        }
        let can = self.spy.has(self.messages, x)
            || match self.messages[x] {
                Message::Agent(_) | Message::Number(_) => true,
                Message::Hash(x) => self.can_make(x),
                Message::Pair(x, y) => self.can_make(x) && self.can_make(y),
                Message::Crypt { key, body } => {
                    self.spy.has(self.messages, key) && self.can_make(body)
                }
                _ => false,
            };
        self.found[x.0 as usize] = Some(can);
        can
    }
}
