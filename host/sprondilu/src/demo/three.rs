//! A group of three.

use super::group::Group;
use super::parts::{at, body, fast, slow, ABORT, ABSTAIN, COMMIT, FINAL, OK};
use super::Played;
use crate::ends::Stop;
use crate::message::Message;

const ALL: [u8; 3] = [0, 1, 2];

pub fn play() -> Result<Played, Stop> {
    let mut group = Group::fresh(3, "three")?;
    group.head("PART 1. THREE BOXES");
    group.say(
        "Any one of the three may be away. Two boxes are a quorum. All three, if they say the same, are a fast count. \
         All of them are fresh: their tables are empty, and the group is in view 0.",
    );
    fast_commit(&mut group)?;
    clash(&mut group)?;
    once_more(&mut group)?;
    lost_message(&mut group)?;
    view_change(&mut group)?;
    Ok(group.end())
}

fn fast_commit(group: &mut Group) -> Result<(), Stop> {
    group.head("1.1 A fast commit");
    group.say("Client 1 reads 7 cubic metres off a pump and enters it in register 5. All boxes hear the proposal.");
    let (stamp, pump) = (at(1, 1), body(5, None, 7));
    let replies = group.send(
        &Message::ProposePrepare {
            stamp,
            body: pump.clone(),
        },
        &ALL,
        &[],
    );
    group.count(&replies, fast(OK))?;
    group.say(
        "So OK is declared final, after one round of radio: the entry will be recorded, if the handset lives. Then the commit \
         is told to the boxes.",
    );
    group.settle(stamp, COMMIT, &pump, 0, &ALL, &[])?;
    group.say("It stands now, whatever becomes of the handset. Whoever reads register 5 in any of the boxes finds it. A read has a stamp too: it asks for what the register held \
         at that time, here time 1.");
    group.read(2, at(1, 9), 5, stamp, 7)
}

fn clash(group: &mut Group) -> Result<(), Stop> {
    group.head("1.2 A clash");
    group.say(
        "Two clients have both read the 7. Client 1 enters 9, at time 2. Client 2 enters 12, at time 3, and does not \
         know of the 9. If both were committed, the 9 would be gone as if nobody had entered it.",
    );
    let (first, nine) = (at(2, 1), body(5, Some(at(1, 1)), 9));
    let replies = group.send(
        &Message::ProposePrepare {
            stamp: first,
            body: nine.clone(),
        },
        &ALL,
        &[],
    );
    group.count(&replies, fast(OK))?;
    let (second, twelve) = (at(3, 2), body(5, Some(at(1, 1)), 12));
    let replies = group.send(
        &Message::ProposePrepare {
            stamp: second,
            body: twelve.clone(),
        },
        &ALL,
        &[],
    );
    group.count(&replies, fast(ABSTAIN))?;
    group.say("The boxes have said OK to 2:1, which changes the register that 3:2 has read. So 3:2 is aborted, and 2:1 committed.");
    group.settle(second, ABORT, &twelve, 0, &ALL, &[])?;
    group.settle(first, COMMIT, &nine, 0, &ALL, &[])
}

fn once_more(group: &mut Group) -> Result<(), Stop> {
    group.say(
        "Client 2 reads again, and enters the 12 with a new stamp: a retry is a new transaction.",
    );
    group.read(0, at(4, 2), 5, at(2, 1), 9)?;
    let (stamp, twelve) = (at(4, 2), body(5, Some(at(2, 1)), 12));
    let replies = group.send(
        &Message::ProposePrepare {
            stamp,
            body: twelve.clone(),
        },
        &ALL,
        &[],
    );
    group.count(&replies, fast(OK))?;
    group.settle(stamp, COMMIT, &twelve, 0, &ALL, &[])
}

fn lost_message(group: &mut Group) -> Result<(), Stop> {
    group.head("1.3 Lost messages");
    group.say("Client 1 enters 3 cubic metres at another pump, in register 6. A storm: box 2 hears nothing of it.");
    let (stamp, pump) = (at(5, 1), body(6, None, 3));
    let replies = group.send(
        &Message::ProposePrepare {
            stamp,
            body: pump.clone(),
        },
        &[0, 1],
        &[2],
    );
    group.count(&replies, slow(OK))?;
    group.say("Two boxes are no fast count. So the result goes out once more, and counts when a quorum has confirmed it.");
    let replies = group.send(
        &Message::FinalisePrepare {
            stamp,
            view: 0,
            result: OK,
            retry_stamp: 0,
        },
        &[0, 1],
        &[2],
    );
    group.expect(&replies, 0, &[OK + FINAL; 2])?;
    group.say(
        "Boxes 0 and 1 have confirmed it: OK is declared final, and the entry will be recorded, if the handset lives. The \
         commit is told to whoever hears it.",
    );
    group.settle(stamp, COMMIT, &pump, 0, &[0, 1], &[2])?;
    group.say("Two boxes are enough for that. Box 2 knows nothing of it yet.");
    group.read(2, at(5, 9), 6, 0, 0)
}

fn view_change(group: &mut Group) -> Result<(), Stop> {
    group.head("1.4 A view change");
    group.say(
        "Now box 1 is away. Boxes 0 and 2 are a quorum: they leave view 0 and promise view 1.",
    );
    let replies = group.send(&Message::ChangeView { view: 1 }, &[0, 2], &[1]);
    group.expect(&replies, 0, &[0; 2])?;
    group.say("Between two views a box takes no transactions and no reads, and says so. A refused message changes no table.");
    let too_early = Message::ProposePrepare {
        stamp: at(6, 2),
        body: body(7, None, 1),
    };
    let replies = group.send(&too_early, &[0], &[]);
    group.expect(&replies, 4, &[0])?;
    let image = group.merge(1, &[0, 2])?;
    group.say(
        "Box 2 had never heard of 5:1, and box 1 is away; but 5:1 was recorded, and is there all the same. A merge makes every result final. With \
         this table view 1 starts.",
    );
    let start = Message::StartView { view: 1, image };
    let replies = group.send(&start, &[0, 2], &[]);
    group.expect(&replies, 0, &[0; 2])?;
    group.read(2, at(6, 9), 6, at(5, 1), 3)?;
    group.say("Box 1 comes back, and takes the same table.");
    let replies = group.send(&start, &[1], &[]);
    group.expect(&replies, 0, &[0])?;
    group.all_the_same()?;
    group.show_box(1);
    Ok(())
}
