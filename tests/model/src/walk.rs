//! Walks: streams of good and faulty commands in no order planned beforehand.

use crate::random::Random;
use crate::rules::*;
use crate::scene::Scene;
use crate::stream::LONGEST_INPUT;

/// Each command as often as it is to come among a hundred or so.
const OFTEN: [(u8, usize); 20] = [
    (RAS, 10),
    (LAU, 3),
    (CPW, 5),
    (GDK, 8),
    (LDK, 10),
    (GIV, 5),
    (LIV, 8),
    (EIV, 4),
    (RDK, 5),
    (ECBE, 4),
    (ECBD, 4),
    (CBCE, 6),
    (CBCD, 6),
    (CFBE, 6),
    (CFBD, 6),
    (DAUT, 7),
    (EIK, 5),
    (IPW, 6),
    (RPW, 3),
    (HOST_LOGOUT, 2),
];

fn some_tag(random: &mut Random) -> u8 {
    let tags: Vec<u8> = OFTEN.iter().flat_map(|&(tag, often)| vec![tag; often]).collect();
    random.pick(&tags)
}

/// A walk through commands, good and faulty, that ends in a look around and sometimes in a cut.
pub fn walk(mut random: Random) -> Vec<u8> {
    let users = if random.chance(8) { random.between(17, 20) } else { random.between(1, 5) };
    let faults = random.pick(&[0, 10, 40, 80]);
    let length = if random.chance(2) { random.between(10_000, 70_000) } else { random.between(0, 3_000) };
    let mut scene = Scene::new(random, users);
    begin(&mut scene);
    while scene.stream.len() < length {
        step(&mut scene, faults);
    }
    if scene.random.chance(80) {
        scene.look_around();
    }
    if scene.random.chance(15) {
        let at = scene.random.below(scene.stream.len() + 1);
        scene.stream.truncate(at);
    }
    scene.stream.truncate(LONGEST_INPUT + 10_000);
    scene.stream
}

/// Most walks begin with keys and users, some with fewer or none.
fn begin(scene: &mut Scene) {
    for interchange in scene.interchanges.clone() {
        for _ in 0..scene.random.pick(&[0, 1, 1, 1, 2]) {
            scene.enter_key(interchange);
        }
    }
    if scene.random.chance(80) {
        scene.reencrypt_passwords();
    }
    for user in scene.users.clone() {
        if scene.random.chance(85) {
            scene.enroll(user.identifier);
        }
        if scene.random.chance(85) {
            scene.log_in(user.identifier);
        }
    }
}

fn step(scene: &mut Scene, faults: usize) {
    match scene.random.below(20) {
        0 => {
            let (issuer, party) = (scene.some_user_that_is(true), scene.some_user_that_is(true));
            scene.converse(issuer, party);
        }
        1 => {
            let issuer = scene.some_user_that_is(true);
            scene.keep_own_file(issuer);
        }
        2 => {
            let interchange = scene.random.pick(&scene.interchanges);
            scene.change_key(interchange);
        }
        3 => {
            let user = scene.some_user();
            scene.look_at_user(user);
        }
        _ => one_command(scene, faults),
    }
}

/// One command, with as many faults per hundred as asked for; some refusals are looked into.
fn one_command(scene: &mut Scene, faults: usize) {
    let tag = some_tag(&mut scene.random);
    let mut given = scene.fitting(tag);
    if scene.random.chance(faults) {
        for _ in 0..scene.random.between(1, 3) {
            scene.spoil(tag, &mut given);
        }
    }
    if scene.random.chance(faults / 8) {
        scene.send_misfit(tag, &given);
        return;
    }
    let refused = scene.send(tag, &given).number() != 0;
    if refused && scene.is_active(given.issuer) && scene.random.chance(20) {
        scene.look_at_user(given.issuer);
    }
}
