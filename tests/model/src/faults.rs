//! Faults: arguments that are refused, and values of another form.

use crate::facility::HIGHEST_IDENTIFIER;
use crate::rules::*;
use crate::scene::Scene;
use crate::write;

impl Scene {
    /// Makes one argument of the command another than it should be.
    pub fn spoil(&mut self, tag: u8, given: &mut Arguments) {
        let form = rule_of(tag).map_or(&[][..], |rule| rule.form);
        if form.is_empty() {
            return;
        }
        match self.random.pick(form) {
            ISSUER => given.issuer = self.other_user(given.issuer),
            PARTY if self.random.chance(30) => given.party = given.issuer,
            PARTY => given.party = self.other_user(given.party),
            INTERCHANGE => given.interchange = self.other_interchange(),
            FUNCTION => given.function = self.random.pick(b"trstrs\x00\x01TRSuq\x73\xF4\xFF"),
            BLOCK => given.block ^= self.some_flips(),
            SECOND => given.second ^= self.some_flips(),
            _ => given.data = self.data_of_some_length(),
        }
    }

    fn other_user(&mut self, user: u32) -> u32 {
        match self.random.below(8) {
            0 => HIGHEST_IDENTIFIER,
            1 => HIGHEST_IDENTIFIER + 1,
            2 => self.random.pick(&[0xFFFF_FFFF, 0x8000_0000 | user, 0x1000_0000 | user, 0xFFFF_FFFE]),
            3 => self.random.block() as u32 & HIGHEST_IDENTIFIER,
            4 | 5 => self.some_user_that_is(false),
            _ => self.some_user(),
        }
    }

    fn other_interchange(&mut self) -> u8 {
        let named = self.random.between(1, 15) as u8;
        self.random.pick(&[0, 1, 15, 16, 17, 129, 255, named])
    }

    /// One bit; the last bit of one byte; or all.
    fn some_flips(&mut self) -> u64 {
        match self.random.below(3) {
            0 => 1 << self.random.below(64),
            1 => 1 << (8 * self.random.below(8)),
            _ => self.random.block(),
        }
    }

    fn data_of_some_length(&mut self) -> Vec<u8> {
        let short = [0, 0, 1, 4, 7, 9, 12, 15, 17, 31];
        let long = [32760, 32767, 32768, 32769, 32776];
        let room = self.stream.len() < 20_000;
        let length =
            if room && self.random.chance(2) { self.random.pick(&long) } else { self.random.pick(&short) };
        self.random.bytes(length)
    }

    /// The command with a value that does not hold exactly its fields.
    pub fn send_misfit(&mut self, tag: u8, given: &Arguments) {
        let mut given = given.clone();
        given.data.truncate(24);
        let misfit = self.random.pick(&misfits(tag, &given));
        self.stream.extend(&misfit);
        crate::stream::replies(&mut self.notary, &misfit);
    }
}

/// Values of other forms than the command's, one for each way in which a field can misfit.
pub fn misfits(tag: u8, given: &Arguments) -> Vec<Vec<u8>> {
    let fields = write::arguments(tag, given);
    let mut values: Vec<Vec<u8>> = Vec::new();
    for n in 0..fields.len() {
        let others = other_fields(&fields[n]).into_iter();
        values.extend(others.map(|other| with_field(&fields, n, &other)));
        values.push(with_field(&fields, n, &[]));
        values.push(with_field(&fields, n, &fields[n].repeat(2)));
        if n > 0 {
            let mut swapped = fields.clone();
            swapped.swap(n - 1, n);
            values.push(swapped.concat());
        }
    }
    values.extend(extended(&fields, given));
    let whole = fields.concat();
    values.extend((0..whole.len()).map(|length| whole[..length].to_vec()));
    values.into_iter().map(|value| write::field(tag, &value)).collect()
}

fn with_field(fields: &[Vec<u8>], n: usize, other: &[u8]) -> Vec<u8> {
    [&fields[..n].concat(), other, &fields[n + 1..].concat()].concat()
}

/// The field under another tag, with another length, and with a header that is not true.
fn other_fields(field: &[u8]) -> Vec<Vec<u8>> {
    let (tag, value) = (field[0], &field[3..]);
    let mut others = Vec::new();
    for other in [tag - 1, tag + 1, tag & 0x7F, 0x80, 0x88, 0xFF, 0x00] {
        others.push(write::field(other, value));
    }
    let shorter = &value[..value.len().saturating_sub(1)];
    let longer = [value, &[0]].concat();
    let twofold = value.repeat(2);
    for other in [&[][..], shorter, &longer, &twofold, &twofold[..value.len().div_ceil(2)]] {
        others.push(write::field(tag, other));
    }
    let length = value.len() as u16;
    for untrue in [length.wrapping_sub(1), length + 1, length + 256, length.swap_bytes(), 0xFFFF] {
        others.push([&[tag], &untrue.to_be_bytes()[..], value].concat());
    }
    others
}

/// The fields with more before, between or after them.
fn extended(fields: &[Vec<u8>], given: &Arguments) -> Vec<Vec<u8>> {
    let mut values = Vec::new();
    for more in
        [&[0][..], &[0, 0], &[0, 0, 0], &[0x81], &[0x87, 0, 0], &[0x88, 0, 0], &[0x88, 0, 1, 0], &[0xFF; 4]]
    {
        values.push([&fields.concat(), more].concat());
        values.push([more, &fields.concat()].concat());
    }
    for tag in ISSUER..=DATA {
        let more = write::argument(tag, given);
        let mut joined = fields.to_vec();
        if !joined.contains(&more) {
            joined.push(more);
            joined.sort();
            values.push(joined.concat());
        }
    }
    values
}
