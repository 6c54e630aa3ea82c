//! What a user believes that he holds, so that most of what he asks for gets done.
//! Nothing here decides whether the test passes.

use crate::command::*;

pub const HIGHEST: u32 = 268_435_455;

#[derive(Clone, Copy, Default)]
pub struct Side {
    pub key: bool,
    pub vector: bool,
}

#[derive(Clone)]
pub struct User {
    pub identifier: u32,
    /// Every password that he has had; the last is the one that counts.
    pub passwords: Vec<u64>,
    /// He can come: he has an entry, and RAS is in its turn.
    pub admitted: bool,
    pub active: bool,
    pub transmit: Side,
    pub receive: Side,
}

/// What is missing for a command, a side being named by its function.
pub enum Lack {
    Nothing,
    Place,
    Key(u8),
    Vector(u8),
}

impl User {
    pub fn new(identifier: u32, password: u64) -> User {
        let (transmit, receive) = Default::default();
        User { identifier, passwords: vec![password], admitted: false, active: false, transmit, receive }
    }

    pub fn password(&self) -> u64 {
        self.passwords[self.passwords.len() - 1]
    }

    pub fn lacks(&self, tag: u8, function: u8) -> Lack {
        let receives = matches!(tag, ECBD | CBCD | CFBD) || matches!(tag, LIV | DAUT) && function == b'r';
        let (side, name) = if receives { (self.receive, b'r') } else { (self.transmit, b't') };
        let needs_key = matches!(tag, GIV | LIV | EIV | ECBE..=DAUT);
        let needs_vector = matches!(tag, CBCE..=DAUT);
        match tag {
            RAS => Lack::Nothing,
            _ if !self.active => Lack::Place,
            _ if needs_key && !side.key => Lack::Key(name),
            _ if needs_vector && !side.vector => Lack::Vector(name),
            _ => Lack::Nothing,
        }
    }

    /// What changes for him where the command is done.
    pub fn after(&mut self, tag: u8, given: &Arguments) {
        match tag {
            RAS => self.active |= self.admitted,
            LAU => (self.active, self.transmit, self.receive) = Default::default(),
            CPW if self.admitted => self.passwords.push(given.second),
            LDK => self.set(given.function, |side| *side = Side { key: true, vector: false }),
            LIV => self.set(given.function, |side| side.vector = true),
            _ => {}
        }
    }

    /// Changes the side or sides that the function names.
    fn set(&mut self, function: u8, change: impl Fn(&mut Side)) {
        if function != b'r' {
            change(&mut self.transmit);
        }
        if function != b't' {
            change(&mut self.receive);
        }
    }
}
