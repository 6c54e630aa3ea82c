//! The page's table of commands: tag, name, form and list of refusals.

pub const RAS: u8 = 0x01;
pub const LAU: u8 = 0x02;
pub const CPW: u8 = 0x03;
pub const GDK: u8 = 0x04;
pub const LDK: u8 = 0x05;
pub const GIV: u8 = 0x06;
pub const LIV: u8 = 0x07;
pub const EIV: u8 = 0x08;
pub const RDK: u8 = 0x09;
pub const ECBE: u8 = 0x0A;
pub const ECBD: u8 = 0x0B;
pub const CBCE: u8 = 0x0C;
pub const CBCD: u8 = 0x0D;
pub const CFBE: u8 = 0x0E;
pub const CFBD: u8 = 0x0F;
pub const DAUT: u8 = 0x10;
pub const EIK: u8 = 0x20;
pub const IPW: u8 = 0x21;
pub const RPW: u8 = 0x22;
pub const HOST_LOGOUT: u8 = 0x23;

pub const ISSUER: u8 = 0x81;
pub const PARTY: u8 = 0x82;
pub const INTERCHANGE: u8 = 0x83;
pub const FUNCTION: u8 = 0x84;
pub const BLOCK: u8 = 0x85;
pub const SECOND: u8 = 0x86;
pub const DATA: u8 = 0x87;

pub struct Rule {
    pub tag: u8,
    pub name: &'static str,
    pub form: &'static [u8],
    pub refusals: &'static [u8],
}

const fn rule(tag: u8, name: &'static str, form: &'static [u8], refusals: &'static [u8]) -> Rule {
    Rule { tag, name, form, refusals }
}

const SHARED_KEY: &[u8] = &[ISSUER, PARTY, INTERCHANGE, FUNCTION, BLOCK];
const MODE: &[u8] = &[ISSUER, DATA];
const CHAINED: &[u8] = &[1, 3, 10, 11, 12, 13];

pub const RULES: [Rule; 20] = [
    rule(RAS, "RAS", &[ISSUER, BLOCK], &[1, 2, 4, 6, 7, 8, 9]),
    rule(LAU, "LAU", &[ISSUER], &[1, 3]),
    rule(CPW, "CPW", &[ISSUER, BLOCK, SECOND], &[1, 2, 3, 6, 7, 9]),
    rule(GDK, "GDK", &[ISSUER, PARTY, INTERCHANGE, BLOCK], &[1, 3, 6]),
    rule(LDK, "LDK", SHARED_KEY, &[1, 3, 5, 6]),
    rule(GIV, "GIV", &[ISSUER, BLOCK], &[1, 3, 10]),
    rule(LIV, "LIV", &[ISSUER, FUNCTION, BLOCK], &[1, 3, 5, 10]),
    rule(EIV, "EIV", &[ISSUER, BLOCK], &[1, 3, 10]),
    rule(RDK, "RDK", SHARED_KEY, &[1, 3, 5, 6]),
    rule(ECBE, "ECBE", MODE, &[1, 3, 10, 12, 13]),
    rule(ECBD, "ECBD", MODE, &[1, 3, 10, 12, 13]),
    rule(CBCE, "CBCE", MODE, CHAINED),
    rule(CBCD, "CBCD", MODE, CHAINED),
    rule(CFBE, "CFBE", MODE, CHAINED),
    rule(CFBD, "CFBD", MODE, CHAINED),
    rule(DAUT, "DAUT", &[ISSUER, FUNCTION, DATA], &[1, 3, 5, 10, 11, 12]),
    rule(EIK, "EIK", &[INTERCHANGE, BLOCK], &[6, 7, 14]),
    rule(IPW, "IPW", &[ISSUER, BLOCK], &[1, 2, 6, 7, 15]),
    rule(RPW, "RPW", &[], &[2, 7]),
    rule(HOST_LOGOUT, "host logout", &[ISSUER], &[1, 3]),
];

/// The rule of a known tag.
pub fn rule_of(tag: u8) -> Option<&'static Rule> {
    RULES.iter().find(|rule| rule.tag == tag)
}

/// The length that an argument field must have; data may have any.
pub fn field_length(tag: u8) -> Option<usize> {
    match tag {
        ISSUER | PARTY => Some(4),
        INTERCHANGE | FUNCTION => Some(1),
        BLOCK | SECOND => Some(8),
        _ => None,
    }
}

/// The arguments of a command; those that its form lacks stay zero or empty.
#[derive(Clone, Default)]
pub struct Arguments {
    pub issuer: u32,
    pub party: u32,
    pub interchange: u8,
    pub function: u8,
    pub block: u64,
    pub second: u64,
    pub data: Vec<u8>,
}

/// E commands use the transmit side, D commands the receive side;
/// LIV and DAUT use the receive side for r, else the transmit side.
pub fn uses_receive_side(tag: u8, function: u8) -> bool {
    match tag {
        ECBD | CBCD | CFBD => true,
        LIV | DAUT => function == b'r',
        _ => false,
    }
}
