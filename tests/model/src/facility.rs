//! What a facility holds, and the password table that is lent to it.

use crate::des::Block;

pub const HIGHEST_IDENTIFIER: u32 = 268_435_455;
/// Four bytes FF mark a free entry.
pub const FREE: u32 = 0xFFFF_FFFF;
pub const ENTRY_LENGTH: usize = 12;

#[derive(Clone, Copy, Default)]
pub struct Side {
    pub key: Option<Block>,
    pub iv: Option<Block>,
}

#[derive(Clone, Copy, Default)]
pub struct Place {
    pub identifier: u32,
    pub transmit: Side,
    pub receive: Side,
}

impl Place {
    pub fn side(&mut self, receive: bool) -> &mut Side {
        if receive {
            &mut self.receive
        } else {
            &mut self.transmit
        }
    }
}

#[derive(Clone, Copy, Default)]
pub struct Interchange {
    pub current: Option<Block>,
    pub old: Option<Block>,
}

#[derive(Clone, Default)]
pub struct Facility {
    interchanges: [Interchange; 15],
    pub due: bool,
    pub places: [Option<Place>; 16],
}

impl Facility {
    /// Interchanges are named 1 to 15.
    pub fn interchange(&self, name: u8) -> Option<Interchange> {
        let index = usize::from(name).checked_sub(1)?;
        self.interchanges.get(index).copied()
    }

    pub fn current_key(&self, name: u8) -> Option<Block> {
        self.interchange(name)?.current
    }

    pub fn old_key(&self, name: u8) -> Option<Block> {
        self.interchange(name)?.old
    }

    /// Current, even a missing one, becomes old; the given key becomes current.
    pub fn enter_key(&mut self, name: u8, key: Block) {
        let interchange = &mut self.interchanges[usize::from(name) - 1];
        *interchange = Interchange { current: Some(key), old: interchange.current };
    }

    /// The number of the user's place; the first of them counts.
    pub fn place_of(&self, user: u32) -> Option<usize> {
        let holds = |place: &Option<Place>| place.is_some_and(|place| place.identifier == user);
        self.places.iter().position(holds)
    }

    pub fn place(&self, user: u32) -> Option<Place> {
        self.place_of(user).and_then(|n| self.places[n])
    }

    pub fn free_place(&self) -> Option<usize> {
        self.places.iter().position(Option::is_none)
    }
}

/// Entries of twelve bytes: a four-byte identifier, high byte first, and eight bytes.
#[derive(Clone)]
pub struct Table(pub Vec<u8>);

impl Table {
    pub fn all_free(entries: usize) -> Table {
        Table(vec![0xFF; entries * ENTRY_LENGTH])
    }

    pub fn identifiers(&self) -> Vec<u32> {
        let number = |entry: &[u8]| u32::from_be_bytes([entry[0], entry[1], entry[2], entry[3]]);
        self.0.chunks_exact(ENTRY_LENGTH).map(number).collect()
    }

    /// The first matching entry counts.
    pub fn entry_of(&self, identifier: u32) -> Option<usize> {
        self.identifiers().iter().position(|&found| found == identifier)
    }

    pub fn enciphered(&self, entry: usize) -> Block {
        let bytes = &self.0[entry * ENTRY_LENGTH + 4..][..8];
        bytes.iter().fold(0, |block, &byte| block << 8 | Block::from(byte))
    }

    pub fn write(&mut self, entry: usize, identifier: u32, enciphered: Block) {
        let bytes = &mut self.0[entry * ENTRY_LENGTH..][..ENTRY_LENGTH];
        bytes[..4].copy_from_slice(&identifier.to_be_bytes());
        bytes[4..].copy_from_slice(&enciphered.to_be_bytes());
    }
}
