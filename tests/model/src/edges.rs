//! Streams for the edges of the facility: data lengths, keys, sides, places, table and DUE.

use crate::random::Random;
use crate::rules::*;
use crate::scene::Scene;
use crate::stage::stage;

/// Data of every length from 0 to 25: by one with nothing loaded, by one with key and IV,
/// and by the first again, now with the key alone.
pub fn short_data(random: Random, tag: u8) -> Vec<u8> {
    let (mut scene, mut given) = stage(random, tag);
    let newcomer = scene.users[2].identifier;
    scene.log_in(newcomer);
    for issuer in [newcomer, given.issuer, newcomer] {
        given.issuer = issuer;
        for length in 0..=25 {
            given.data = scene.random.bytes(length);
            given.function = scene.random.pick(b"trs");
            scene.send(tag, &given);
        }
        load_as(&mut scene, b's', newcomer, newcomer);
    }
    scene.stream
}

/// Who issues a call: one with key and IV, with the key alone, with nothing loaded,
/// not active, and above 268435455.
#[derive(Clone, Copy, Debug, PartialEq)]
pub enum Issuer {
    WithAll,
    WithKey,
    WithNothing,
    Inactive,
    Above,
}

/// One call on long data, and then a look at what it left.
pub fn long_data(random: Random, tag: u8, length: usize, by: Issuer) -> Vec<u8> {
    let (mut scene, mut given) = stage(random, tag);
    given.data = scene.random.bytes(length);
    given.function = scene.random.pick(b"tr");
    match by {
        Issuer::WithAll => {}
        Issuer::Above => given.issuer = 0x1000_0000,
        _ => given.issuer = scene.users[2].identifier,
    }
    if matches!(by, Issuer::WithKey | Issuer::WithNothing) {
        scene.log_in(given.issuer);
    }
    if by == Issuer::WithKey {
        let key = scene.seal(given.issuer, given.issuer, 1);
        scene.load(given.issuer, b's', given.issuer, 1, key);
    }
    scene.send(tag, &given);
    scene.look_at_user(given.issuer);
    scene.stream
}

/// Keys with one even byte, at each byte and for several names; then keys that are odd.
pub fn even_keys(random: Random) -> Vec<u8> {
    let (mut scene, _) = stage(random, EIK);
    for faulty in [true, false] {
        for interchange in [0, 1, 2, 15, 16] {
            for byte in 0..8 {
                let block = scene.some_key() ^ u64::from(faulty) << (8 * byte);
                scene.send(EIK, &Arguments { interchange, block, ..Arguments::default() });
            }
        }
        scene.look_around();
    }
    scene.stream
}

/// Keys on no side, on one or on both; then an IV, then a key again, each as nothing, t, r or s;
/// and after that a look at both sides.
pub fn sides(random: Random) -> Vec<u8> {
    let (mut scene, given) = stage(random, LDK);
    let [user, other] = [given.issuer, given.party];
    for first in *b"-trs" {
        for vector in *b"-trs" {
            for again in *b"-trs" {
                scene.log_out(user);
                scene.log_in(user);
                load_as(&mut scene, first, user, other);
                if vector != b'-' {
                    let block = scene.random.block();
                    scene.load_vector(user, vector, block);
                }
                load_as(&mut scene, again, user, other);
                scene.look_at_user(user);
            }
        }
    }
    scene.stream
}

fn load_as(scene: &mut Scene, function: u8, user: u32, other: u32) {
    let (block, party) = (scene.random.block(), if function == b's' { user } else { other });
    if function != b'-' {
        scene.load(user, function, party, 2, block);
    }
}

/// The command refused in many ways, each followed by a look at the user; then done, then once more.
pub fn refused(random: Random, rule: &Rule) -> Vec<u8> {
    let (mut scene, fitting) = stage(random, rule.tag);
    let user = scene.users[0].identifier;
    for _ in 0..40 {
        let mut given = fitting.clone();
        scene.spoil(rule.tag, &mut given);
        if scene.notary.clone().obey(rule, &given).number() != 0 {
            scene.send(rule.tag, &given);
            scene.look_at_user(user);
        }
    }
    scene.send(rule.tag, &fitting);
    scene.send(rule.tag, &fitting);
    scene.look_around();
    scene.stream
}

/// All commands with no faults, one or several: first while DUE, then when RPW has been done;
/// in between, the key that is current already is entered again.
pub fn due(random: Random) -> Vec<u8> {
    let (mut scene, _) = stage(random, RPW);
    for _ in 0..2 {
        for rule in RULES.iter().filter(|rule| rule.tag != RPW) {
            for faults in [0, 0, 1, 1, 2, 3] {
                let mut given = scene.fitting(rule.tag);
                given.interchange = scene.random.pick(&[1, 1, 2, given.interchange]);
                (0..faults).for_each(|_| scene.spoil(rule.tag, &mut given));
                scene.send(rule.tag, &given);
            }
        }
        scene.reencrypt_passwords();
        let block = scene.notary.facility.current_key(1).unwrap_or(0);
        scene.send(EIK, &Arguments { interchange: 1, block, ..Arguments::default() });
        scene.look_around();
    }
    scene.stream
}

/// Sixteen users, and a seventeenth that is admitted once another has logged out.
pub fn full_facility(random: Random) -> Vec<u8> {
    let mut scene = Scene::new(random, 18);
    for interchange in scene.interchanges.clone() {
        scene.enter_key(interchange);
    }
    let users: Vec<u32> = scene.users.iter().map(|user| user.identifier).collect();
    for &user in &users {
        scene.enroll(user);
        scene.log_in(user);
    }
    for &user in &users {
        scene.keep_own_file(user);
        scene.send(RAS, &Arguments { issuer: user, block: 7, ..Arguments::default() });
    }
    for _ in 0..8 {
        let leaving = scene.some_user_that_is(true);
        scene.log_out(leaving);
        let entering = scene.some_user_that_is(false);
        scene.log_in(entering);
        scene.log_in(leaving);
        scene.log_in(0x1000_0000);
        scene.mode(ECBE, entering, &[0; 8]);
    }
    scene.enter_key(1);
    for &user in &users {
        scene.look_at_user(user);
    }
    scene.reencrypt_passwords();
    for &user in &users {
        scene.look_at_user(user);
    }
    scene.stream
}

/// Sixty-four users enrolled, and a sixty-fifth; then a key change for all of them.
pub fn full_table(random: Random) -> Vec<u8> {
    let mut scene = Scene::new(random, 65);
    let users: Vec<u32> = scene.users.iter().map(|user| user.identifier).collect();
    scene.enter_key(1);
    for &user in &users {
        scene.enroll(user);
    }
    for n in [0, 31, 63, 64] {
        scene.enroll(users[n]);
    }
    scene.enroll(0xFFFF_FFFF);
    for _ in 0..2 {
        for &user in &users {
            scene.log_in(user);
            scene.log_out(user);
        }
        scene.enter_key(1);
        scene.enroll(users[64]);
        scene.log_in(users[0]);
        scene.reencrypt_passwords();
        scene.reencrypt_passwords();
    }
    scene.look_around();
    scene.stream
}
