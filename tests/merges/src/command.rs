//! Commands, and how the stream has them.

pub const RAS: u8 = 0x01;
pub const LAU: u8 = 0x02;
pub const CPW: u8 = 0x03;
pub const GDK: u8 = 0x04;
pub const LDK: u8 = 0x05;
pub const GIV: u8 = 0x06;
pub const LIV: u8 = 0x07;
pub const EIV: u8 = 0x08;
pub const RDK: u8 = 0x09;
pub const ECBE: u8 = 0x0A;
pub const ECBD: u8 = 0x0B;
pub const CBCE: u8 = 0x0C;
pub const CBCD: u8 = 0x0D;
pub const CFBD: u8 = 0x0F;
pub const DAUT: u8 = 0x10;
pub const EIK: u8 = 0x20;
pub const IPW: u8 = 0x21;
pub const RPW: u8 = 0x22;

/// The arguments of a command; those that its form lacks do not matter.
#[derive(Clone, Default)]
pub struct Arguments {
    pub issuer: u32,
    pub party: u32,
    pub interchange: u8,
    pub function: u8,
    pub block: u64,
    pub second: u64,
    pub data: Vec<u8>,
}

/// A command as the stream has it, and whose it is: a user's, by his number, or the officer's.
#[derive(Clone)]
pub struct Command {
    pub owner: Option<usize>,
    pub tag: u8,
    pub bytes: Vec<u8>,
}

/// The tags of the argument fields that the command has.
fn form(tag: u8) -> &'static [u8] {
    match tag {
        RAS | GIV | EIV | IPW => &[0x81, 0x85],
        CPW => &[0x81, 0x85, 0x86],
        GDK => &[0x81, 0x82, 0x83, 0x85],
        LDK | RDK => &[0x81, 0x82, 0x83, 0x84, 0x85],
        LIV => &[0x81, 0x84, 0x85],
        ECBE..=CFBD => &[0x81, 0x87],
        DAUT => &[0x81, 0x84, 0x87],
        EIK => &[0x83, 0x85],
        RPW => &[],
        _ => &[0x81],
    }
}

fn field(tag: u8, value: &[u8]) -> Vec<u8> {
    let length = u16::try_from(value.len()).expect("a field's length has two bytes");
    [&[tag], &length.to_be_bytes()[..], value].concat()
}

fn argument(tag: u8, given: &Arguments) -> Vec<u8> {
    match tag {
        0x81 => field(tag, &given.issuer.to_be_bytes()),
        0x82 => field(tag, &given.party.to_be_bytes()),
        0x83 => field(tag, &[given.interchange]),
        0x84 => field(tag, &[given.function]),
        0x85 => field(tag, &given.block.to_be_bytes()),
        0x86 => field(tag, &given.second.to_be_bytes()),
        _ => field(tag, &given.data),
    }
}

fn value(tag: u8, given: &Arguments) -> Vec<u8> {
    form(tag).iter().flat_map(|&wanted| argument(wanted, given)).collect()
}

impl Command {
    pub fn new(owner: Option<usize>, tag: u8, given: &Arguments) -> Command {
        Command { owner, tag, bytes: field(tag, &value(tag, given)) }
    }

    /// The same with one byte too many in its value, which is 16.
    pub fn misshapen(owner: Option<usize>, tag: u8, given: &Arguments) -> Command {
        let longer = [&value(tag, given)[..], &[0]].concat();
        Command { owner, tag, bytes: field(tag, &longer) }
    }
}

/// How many bytes the commands have together.
pub fn length(commands: &[Command]) -> usize {
    commands.iter().map(|command| command.bytes.len()).sum()
}
