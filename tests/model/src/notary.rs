//! The facility with its table and output, and what each command does there.

use crate::des::{Block, Cipher};
use crate::facility::{Facility, Place, Table, FREE, HIGHEST_IDENTIFIER};
use crate::modes::*;
use crate::notarize::{notarized, with_parity_set};
use crate::refusals;
use crate::rules::*;

const ASKED_FOR: &str = "a refusal of the command's list has asked for it";

/// A reply: the refusals that apply, and the bytes returned or, for a mode, written.
#[derive(Clone, PartialEq)]
pub struct Reply {
    pub refusals: Vec<u8>,
    pub bytes: Vec<u8>,
}

impl Reply {
    pub fn refused(number: u8) -> Reply {
        Reply { refusals: vec![number], bytes: Vec::new() }
    }

    /// Several apply: the lowest is given. None does: 0, done.
    pub fn number(&self) -> u8 {
        self.refusals.iter().copied().min().unwrap_or(0)
    }
}

#[derive(Clone)]
pub struct Notary {
    pub facility: Facility,
    pub table: Table,
    pub output_length: usize,
}

impl Notary {
    /// As the program NOTARY starts.
    pub fn fresh() -> Notary {
        let facility = Facility::default();
        Notary { facility, table: Table::all_free(64), output_length: 32768 }
    }

    /// The refusals that apply; where none does, the command's effect.
    pub fn obey(&mut self, rule: &Rule, given: &Arguments) -> Reply {
        let refusals = refusals::that_apply(self, rule, given);
        let bytes = if refusals.is_empty() { self.effect(rule.tag, given) } else { Vec::new() };
        Reply { refusals, bytes }
    }

    fn effect(&mut self, tag: u8, given: &Arguments) -> Vec<u8> {
        match tag {
            RAS => self.reserve_active_state(given.issuer),
            LAU | HOST_LOGOUT => self.log_out(given.issuer),
            CPW => self.write_password(given.issuer, given.second),
            IPW => self.write_password(given.issuer, given.block),
            EIK => self.enter_interchange_key(given),
            RPW => self.reencrypt_passwords(),
            LDK => self.load_data_key(given),
            LIV => self.load_initialization_vector(given),
            GDK => return bytes(&[self.generate_data_key(given)]),
            RDK => return bytes(&[self.reencrypt_data_key(given)]),
            GIV => return bytes(&[self.transmit_cipher(given).encipher(with_parity_set(given.block))]),
            EIV => return bytes(&[self.transmit_cipher(given).encipher(given.block)]),
            DAUT => return bytes(&[self.authenticate_data(given)]),
            _ => return self.run_mode(tag, given),
        }
        Vec::new()
    }

    fn place(&mut self, user: u32) -> &mut Place {
        let number = self.facility.place_of(user).expect(ASKED_FOR);
        self.facility.places[number].as_mut().expect(ASKED_FOR)
    }

    fn reserve_active_state(&mut self, user: u32) {
        let free = self.facility.free_place().expect(ASKED_FOR);
        self.facility.places[free] = Some(Place { identifier: user, ..Place::default() });
    }

    fn log_out(&mut self, user: u32) {
        let number = self.facility.place_of(user).expect(ASKED_FOR);
        self.facility.places[number] = None;
    }

    /// The user's entry is the password enciphered under current key 1 notarized with (i, i).
    pub fn authenticates(&self, user: u32, password: Block) -> bool {
        let entry = self.table.entry_of(user).filter(|_| user <= HIGHEST_IDENTIFIER);
        let (Some(entry), Some(key)) = (entry, self.facility.current_key(1)) else {
            return false;
        };
        password_cipher(key, user).encipher(password) == self.table.enciphered(entry)
    }

    /// The user's entry, else the first free entry, gets the password.
    fn write_password(&mut self, user: u32, password: Block) {
        let entry = self.table.entry_of(user).or(self.table.entry_of(FREE)).expect(ASKED_FOR);
        let key = self.facility.current_key(1).expect(ASKED_FOR);
        self.table.write(entry, user, password_cipher(key, user).encipher(password));
    }

    /// DUE is set where name 1 already had a current key; another name never sets it.
    fn enter_interchange_key(&mut self, given: &Arguments) {
        let replaced = self.facility.current_key(given.interchange).is_some();
        self.facility.due |= given.interchange == 1 && replaced;
        self.facility.enter_key(given.interchange, given.block);
    }

    /// Every entry of a user moves from old key 1 to current key 1; DUE is cleared.
    fn reencrypt_passwords(&mut self) {
        let old = self.facility.old_key(1).expect(ASKED_FOR);
        let current = self.facility.current_key(1).expect(ASKED_FOR);
        for (entry, user) in self.table.identifiers().into_iter().enumerate() {
            if user <= HIGHEST_IDENTIFIER {
                let password = password_cipher(old, user).decipher(self.table.enciphered(entry));
                self.table.write(entry, user, password_cipher(current, user).encipher(password));
            }
        }
        self.facility.due = false;
    }

    fn generate_data_key(&self, given: &Arguments) -> Block {
        let key = self.facility.current_key(given.interchange).expect(ASKED_FOR);
        let sealing = Cipher::new(notarized(key, given.issuer, given.party));
        sealing.encipher(with_parity_set(given.block))
    }

    /// The loaded side gets the key and loses its IV; s loads both sides.
    fn load_data_key(&mut self, given: &Arguments) {
        let key = self.facility.current_key(given.interchange).expect(ASKED_FOR);
        let data_key = pair_cipher(key, given).decipher(given.block);
        let place = self.place(given.issuer);
        for side in loaded_sides(place, given.function) {
            side.key = Some(data_key);
            side.iv = None;
        }
    }

    fn reencrypt_data_key(&self, given: &Arguments) -> Block {
        let old = self.facility.old_key(given.interchange).expect(ASKED_FOR);
        let current = self.facility.current_key(given.interchange).expect(ASKED_FOR);
        pair_cipher(current, given).encipher(pair_cipher(old, given).decipher(given.block))
    }

    fn transmit_cipher(&mut self, given: &Arguments) -> Cipher {
        Cipher::new(self.place(given.issuer).transmit.key.expect(ASKED_FOR))
    }

    /// t, r: deciphered by that side's key; s: by the transmit key, stored on both sides.
    fn load_initialization_vector(&mut self, given: &Arguments) {
        let place = self.place(given.issuer);
        let deciphering = place.side(uses_receive_side(LIV, given.function)).key.expect(ASKED_FOR);
        let iv = Cipher::new(deciphering).decipher(given.block);
        for side in loaded_sides(place, given.function) {
            side.iv = Some(iv);
        }
    }

    fn authenticate_data(&mut self, given: &Arguments) -> Block {
        let side = self.place(given.issuer).side(uses_receive_side(DAUT, given.function));
        let cipher = Cipher::new(side.key.expect(ASKED_FOR));
        fixity_value(&cipher, side.iv.expect(ASKED_FOR), &given.data)
    }

    /// After CBC or CFB the side's IV is the last cipher block.
    fn run_mode(&mut self, tag: u8, given: &Arguments) -> Vec<u8> {
        let side = self.place(given.issuer).side(uses_receive_side(tag, given.function));
        let cipher = Cipher::new(side.key.expect(ASKED_FOR));
        let iv = || side.iv.expect(ASKED_FOR);
        let data = blocks(&given.data);
        let output = match tag {
            ECBE => ecb_encipher(&cipher, &data),
            ECBD => ecb_decipher(&cipher, &data),
            CBCE => cbc_encipher(&cipher, iv(), &data),
            CBCD => cbc_decipher(&cipher, iv(), &data),
            CFBE => cfb_encipher(&cipher, iv(), &data),
            CFBD => cfb_decipher(&cipher, iv(), &data),
            _ => unreachable!("tag {tag:02X} is no mode"),
        };
        match tag {
            CBCE | CFBE => side.iv = output.last().copied(),
            CBCD | CFBD => side.iv = data.last().copied(),
            _ => {}
        }
        bytes(&output)
    }
}

fn password_cipher(key: Block, user: u32) -> Cipher {
    Cipher::new(notarized(key, user, user))
}

/// t: pair (issuer, party); r: pair (party, issuer); s: pair (issuer, issuer).
fn pair_cipher(key: Block, given: &Arguments) -> Cipher {
    Cipher::new(match given.function {
        b't' => notarized(key, given.issuer, given.party),
        b'r' => notarized(key, given.party, given.issuer),
        _ => notarized(key, given.issuer, given.issuer),
    })
}

fn loaded_sides(place: &mut Place, function: u8) -> Vec<&mut crate::facility::Side> {
    match function {
        b't' => vec![&mut place.transmit],
        b'r' => vec![&mut place.receive],
        _ => vec![&mut place.transmit, &mut place.receive],
    }
}
