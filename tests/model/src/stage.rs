//! A scene in which one command would be done.

use crate::random::Random;
use crate::rules::*;
use crate::scene::Scene;

/// A scene in which the command would be done, and its arguments for that.
///
/// Users 0 and 1 are active, with keys and IVs on both sides; user 2 is enrolled.
pub fn stage(random: Random, tag: u8) -> (Scene, Arguments) {
    let mut scene = Scene::new(random, 3);
    let [a, b, c] = [0, 1, 2].map(|n| scene.users[n].identifier);
    for interchange in [1, 1, 2] {
        scene.enter_key(interchange);
    }
    scene.reencrypt_passwords();
    for user in [a, b, c] {
        scene.enroll(user);
    }
    scene.log_in(a);
    scene.log_in(b);
    let under_old = scene.seal(a, b, 2);
    scene.enter_key(2);
    scene.share_key(a, b, 2);
    scene.share_key(b, a, 2);
    if tag == RPW {
        scene.enter_key(1);
    }
    let under_current = scene.sealed[1].block;
    let block = match tag {
        RAS => scene.password(c),
        CPW => scene.password(a),
        LDK => under_current,
        RDK => under_old,
        _ => scene.some_key(),
    };
    let (second, data) = (scene.random.block(), scene.random.bytes(16));
    let issuer = if tag == RAS { c } else { a };
    (scene, Arguments { issuer, party: b, interchange: 2, function: b't', block, second, data })
}
