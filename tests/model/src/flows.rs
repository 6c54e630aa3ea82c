//! What users and officers do when all goes well, and a look at all that a facility holds.

use crate::des::Block;
use crate::notary::Reply;
use crate::rules::*;
use crate::scene::Scene;

fn as_block(reply: &Reply) -> Block {
    reply.bytes.iter().fold(0, |block, &byte| block << 8 | Block::from(byte))
}

impl Scene {
    pub fn enter_key(&mut self, interchange: u8) -> Reply {
        let block = self.some_key();
        self.send(EIK, &Arguments { interchange, block, ..Arguments::default() })
    }

    pub fn reencrypt_passwords(&mut self) -> Reply {
        self.send(RPW, &Arguments::default())
    }

    pub fn enroll(&mut self, issuer: u32) -> Reply {
        let block = self.random.block();
        self.send(IPW, &Arguments { issuer, block, ..Arguments::default() })
    }

    pub fn log_in(&mut self, issuer: u32) -> Reply {
        let block = self.password(issuer);
        self.send(RAS, &Arguments { issuer, block, ..Arguments::default() })
    }

    pub fn log_out(&mut self, issuer: u32) -> Reply {
        let tag = self.random.pick(&[LAU, HOST_LOGOUT]);
        self.send(tag, &Arguments { issuer, ..Arguments::default() })
    }

    pub fn seal(&mut self, issuer: u32, party: u32, interchange: u8) -> Block {
        let block = self.random.block();
        as_block(&self.send(GDK, &Arguments { issuer, party, interchange, block, ..Arguments::default() }))
    }

    pub fn load(&mut self, issuer: u32, function: u8, party: u32, interchange: u8, block: Block) -> Reply {
        self.send(LDK, &Arguments { issuer, party, interchange, function, block, ..Arguments::default() })
    }

    pub fn generate_vector(&mut self, issuer: u32) -> Block {
        let block = self.random.block();
        as_block(&self.send(GIV, &Arguments { issuer, block, ..Arguments::default() }))
    }

    pub fn load_vector(&mut self, issuer: u32, function: u8, block: Block) -> Reply {
        self.send(LIV, &Arguments { issuer, function, block, ..Arguments::default() })
    }

    pub fn mode(&mut self, tag: u8, issuer: u32, data: &[u8]) -> Reply {
        self.send(tag, &Arguments { issuer, data: data.to_vec(), ..Arguments::default() })
    }

    pub fn fixity(&mut self, issuer: u32, function: u8, data: &[u8]) -> Reply {
        self.send(DAUT, &Arguments { issuer, function, data: data.to_vec(), ..Arguments::default() })
    }

    /// The issuer's key and IV for the party, loaded by both.
    pub fn share_key(&mut self, issuer: u32, party: u32, interchange: u8) {
        let key = self.seal(issuer, party, interchange);
        self.load(issuer, b't', party, interchange, key);
        self.load(party, b'r', issuer, interchange, key);
        let iv = self.generate_vector(issuer);
        self.load_vector(issuer, b't', iv);
        self.load_vector(party, b'r', iv);
    }

    /// A record of several calls goes from issuer to party, and its fixity value is taken by both.
    pub fn converse(&mut self, issuer: u32, party: u32) {
        let interchange = self.random.pick(&self.interchanges);
        self.share_key(issuer, party, interchange);
        for _ in 0..self.random.between(1, 3) {
            let (to, from) = self.random.pick(&[(CBCE, CBCD), (CFBE, CFBD), (ECBE, ECBD)]);
            let plain = self.some_text();
            self.fixity(issuer, b't', &plain);
            let text = self.mode(to, issuer, &plain).bytes;
            let call = 8 * self.random.between(1, 5);
            for part in text.chunks(call) {
                self.mode(from, party, part);
            }
            self.fixity(party, b'r', &plain);
        }
    }

    /// A key and IV of the issuer's own, used both ways.
    pub fn keep_own_file(&mut self, issuer: u32) {
        let interchange = self.random.pick(&self.interchanges);
        let key = self.seal(issuer, issuer, interchange);
        self.load(issuer, b's', issuer, interchange, key);
        let iv = self.generate_vector(issuer);
        self.load_vector(issuer, b's', iv);
        let plain = self.some_text();
        let text = self.mode(CBCE, issuer, &plain).bytes;
        self.mode(CBCD, issuer, &text);
        self.fixity(issuer, b's', &plain);
    }

    /// A new key on the interchange; passwords and sealed keys are moved to it.
    pub fn change_key(&mut self, interchange: u8) {
        self.enter_key(interchange);
        if self.notary.facility.due {
            self.reencrypt_passwords();
        }
        let moved: Vec<_> =
            self.sealed.iter().rev().filter(|sealed| sealed.interchange == interchange).cloned().collect();
        for sealed in moved.iter().take(3) {
            let mut given = Arguments::default();
            self.address(&mut given, sealed);
            given.block = as_block(&self.send(RDK, &given));
            self.send(LDK, &given);
        }
    }

    /// Commands whose replies show the keys and IVs of one user, and the password entry.
    pub fn look_at_user(&mut self, user: u32) {
        let data = self.random.bytes(16);
        for tag in [ECBE, ECBD, CBCE, CFBE, CBCD, CFBD] {
            self.mode(tag, user, &data);
        }
        for function in *b"trs" {
            self.fixity(user, function, &data[3..]);
        }
        let block = self.password(user);
        if self.is_active(user) {
            self.send(CPW, &Arguments { issuer: user, block, second: block, ..Arguments::default() });
        } else if self.log_in(user).number() == 8 {
            let other = self.some_user_that_is(true);
            self.log_out(other);
            self.log_in(user);
        }
    }

    /// Commands whose replies show the keys of the interchanges, by one user that is active.
    pub fn look_at_interchanges(&mut self) {
        let issuer = self.some_user_that_is(true);
        let party = self.some_user();
        let function = if party == issuer { b's' } else { b't' };
        for interchange in self.interchanges.clone() {
            let block = self.random.block();
            let given = Arguments { issuer, party, interchange, function, block, ..Arguments::default() };
            self.send(GDK, &given);
            self.send(RDK, &given);
        }
    }

    /// A look at everything; a DUE facility is looked at once more after RPW.
    pub fn look_around(&mut self) {
        for _ in 0..=usize::from(self.notary.facility.due) {
            self.look_at_interchanges();
            for user in self.users.clone().iter().take(6) {
                self.look_at_user(user.identifier);
            }
            self.reencrypt_passwords();
        }
    }
}
