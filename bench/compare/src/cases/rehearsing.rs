//! Whole scripts.

use twin::rig;

use crate::cases::given::Given;
use crate::cases::pair::NO_RIG;
use crate::ffi::{self, Reply};
use crate::generate::{scripts, supplies};
use crate::guarded::Guarded;
use crate::mirror::{self, Model};
use crate::random::Random;
use crate::report::{Counts, Outcome, same};

pub fn rehearse(random: &mut Random, counts: &mut Counts) -> Outcome {
    let mut given = Given::any(random);
    let cuts = random.pick(&[0, 2, 10]);
    given.calls = (0..random.below(200)).map(|_| scripts::call(random, cuts)).collect();
    spoil(random, &mut given);
    let room = match random.below(3) {
        0 => random.index(given.calls.len() + 1),
        1 => given.calls.len() + random.index(9),
        _ => given.calls.len(),
    };
    script(&given, room, counts)
}

/// Sometimes makes a script one that is refused.
fn spoil(random: &mut Random, given: &mut Given) {
    if random.percent(6) {
        supplies::spoil(random, &mut given.supply);
    }
    if random.percent(6) {
        given.prices.kind = random.pick(&[2, 3, u32::MAX]);
    }
    if random.percent(8) && !given.calls.is_empty() {
        let at = random.index(given.calls.len());
        given.calls[at].kind = random.pick(&[7, 8, 256, u32::MAX]);
    }
}

/// Rehearses a script on both sides, with room for so many replies.
pub fn script(given: &Given, room: usize, counts: &mut Counts) -> Outcome {
    let rubbish = Reply { count: 9, said_yes: 9, ..Reply::default() };
    let mut replies = Guarded::new(&vec![rubbish; room], rubbish, 2);
    let mut rig = Box::new(NO_RIG);
    let library =
        ffi::rehearse(&given.supply, given.round(), &given.calls, replies.list_mut(), &mut rig);
    counts.refusal("rehearse", library.number);

    let mut twin_replies = Guarded::new(&vec![rubbish; room], rubbish, 2);
    let twin = match rehearsed(given, twin_replies.list_mut()) {
        Ok(twin) => {
            same("yatesorrel_rehearse", &library, &ffi::Told::default(), given)?;
            mirror::shown_rig(&twin)
        }
        Err(number) => {
            same("yatesorrel_rehearse", &library, &mirror::refused(number), given)?;
            same("yatesorrel_rehearse, replies", &replies, &twin_replies, given)?;
            return same("yatesorrel_rehearse, rig", &*rig, &NO_RIG, given);
        }
    };
    same("yatesorrel_rehearse, replies", &replies, &twin_replies, given)?;
    same("yatesorrel_rehearse, rig", &mirror::settled_rig(&rig), &twin, given)
}

/// The twin's rehearsal, or the number of its refusal.
fn rehearsed(given: &Given, replies: &mut [Reply]) -> Result<mirror::Rig, u8> {
    let supply = mirror::Supply::of(&given.supply).ok_or(ffi::NOT_BEGUN)?;
    let model = Model::of(&given.prices).ok_or(ffi::NO_PRICES)?;
    let calls: Option<Vec<rig::Call>> = given.calls.iter().map(mirror::call).collect();
    let calls = calls.ok_or(ffi::NO_CALL)?;
    let round = rig::Round { model: model.prices(), image: &given.image, tape: &given.tape };
    let mut twin_replies = vec![rig::Reply::Count(0); replies.len()];
    let twin = rig::rehearse(supply, &round, &calls, &mut twin_replies);
    for (reply, (twin_reply, _)) in replies.iter_mut().zip(twin_replies.iter().zip(&calls)) {
        *reply = mirror::reply(*twin_reply);
    }
    Ok(twin)
}
