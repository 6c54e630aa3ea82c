//! Flows whose outcome is known by their meaning, without any value worked out by the model.

use crate::random::Random;
use crate::rules::*;
use crate::scene::Scene;
use crate::stage::stage;

/// How many of the flows end as they must, and of how many.
pub fn flows() -> (usize, usize) {
    let checks: [fn(Random) -> bool; 8] = [
        every_command_is_done,
        party_reads_what_issuer_wrote,
        two_calls_equal_one,
        fixity_is_one_for_both,
        password_outlives_key_change,
        data_key_outlives_key_change,
        seventeenth_user_waits,
        identifiers_end_at_their_edge,
    ];
    let ends_well = |check: &&fn(Random) -> bool| (0..50).all(|n| check(Random::new(7, n)));
    (checks.iter().filter(ends_well).count(), checks.len())
}

fn every_command_is_done(random: Random) -> bool {
    RULES.iter().all(|rule| {
        let (mut scene, given) = stage(random.clone(), rule.tag);
        scene.send(rule.tag, &given).number() == 0
    })
}

fn party_reads_what_issuer_wrote(random: Random) -> bool {
    let (mut scene, given) = stage(random, ECBE);
    [(ECBE, ECBD), (CBCE, CBCD), (CFBE, CFBD)].iter().all(|&(to, from)| {
        let text = scene.mode(to, given.issuer, &given.data).bytes;
        text != given.data && scene.mode(from, given.party, &text).bytes == given.data
    })
}

fn two_calls_equal_one(random: Random) -> bool {
    [CBCE, CBCD, CFBE, CFBD].iter().all(|&tag| {
        let (mut one, given) = stage(random.clone(), tag);
        let (mut two, _) = stage(random.clone(), tag);
        let joined = one.mode(tag, given.issuer, &given.data).bytes;
        let first = two.mode(tag, given.issuer, &given.data[..8]).bytes;
        joined == [first, two.mode(tag, given.issuer, &given.data[8..]).bytes].concat()
    })
}

fn fixity_is_one_for_both(random: Random) -> bool {
    let (mut scene, given) = stage(random, DAUT);
    let filled = [&given.data[..], &[0]].concat();
    let value = scene.fixity(given.issuer, b't', &given.data[..13]);
    let of_party = scene.fixity(given.party, b'r', &given.data[..13]);
    let of_filled = scene.fixity(given.issuer, b's', &[&given.data[..13], &[0]].concat());
    let of_other = scene.fixity(given.issuer, b't', &filled);
    value == of_party && value == of_filled && value != of_other
}

fn password_outlives_key_change(random: Random) -> bool {
    let (mut scene, given) = stage(random, RAS);
    scene.enter_key(1);
    let waits = scene.send(RAS, &given).number();
    scene.reencrypt_passwords();
    let again = scene.reencrypt_passwords().number();
    let wrong = scene.send(RAS, &Arguments { block: given.block ^ 1, ..given.clone() }).number();
    [waits, again, wrong, scene.send(RAS, &given).number()] == [7, 7, 9, 0]
}

fn data_key_outlives_key_change(random: Random) -> bool {
    let (mut scene, given) = stage(random, LDK);
    let before = scene.mode(ECBE, given.issuer, &given.data);
    scene.enter_key(2);
    let as_party = Arguments { issuer: given.party, party: given.issuer, function: b'r', ..given.clone() };
    let moved = scene.send(RDK, &given);
    let moved_by_party = scene.send(RDK, &as_party);
    let block = crate::modes::blocks(&moved.bytes)[0];
    scene.send(LDK, &Arguments { block, ..given.clone() });
    moved == moved_by_party && before == scene.mode(ECBE, given.issuer, &given.data)
}

fn seventeenth_user_waits(random: Random) -> bool {
    let mut scene = Scene::new(random, 17);
    scene.enter_key(1);
    let users: Vec<u32> = scene.users.iter().map(|user| user.identifier).collect();
    let replies: Vec<u8> = users
        .iter()
        .map(|&user| {
            scene.enroll(user);
            scene.log_in(user).number()
        })
        .collect();
    scene.log_out(users[5]);
    replies == [[0; 16].as_slice(), &[8]].concat() && scene.log_in(users[16]).number() == 0
}

fn identifiers_end_at_their_edge(random: Random) -> bool {
    let mut scene = Scene::new(random, 1);
    scene.enter_key(1);
    let replies =
        [268_435_455, 268_435_456].map(|user| (scene.enroll(user).number(), scene.log_in(user).number()));
    replies == [(0, 0), (1, 1)]
}
