//! A group of five.

use super::group::Group;
use super::parts::{at, body, fast, slow, ABORT, ABSTAIN, COMMIT, FINAL, OK};
use super::Played;
use crate::ends::Stop;
use crate::image::Body;
use crate::message::Message;
use crate::reply::Reply;

const ALL: [u8; 5] = [0, 1, 2, 3, 4];

pub fn play() -> Result<Played, Stop> {
    let mut group = Group::fresh(5, "five")?;
    group.head("PART 2. FIVE BOXES");
    group.say(
        "Any two of the five may be away. Three boxes are a quorum, and four that say the same are a fast count. Again all \
         of them are fresh.",
    );
    told_to_nobody(&mut group)?;
    crossing(&mut group)?;
    repeated(&mut group)?;
    view_change(&mut group)?;
    last_commit(&mut group)?;
    Ok(group.end())
}

fn told_to_nobody(group: &mut Group) -> Result<(), Stop> {
    group.head("2.1 A fast result that nobody hears of");
    group.say("Box 4 is away. Client 3 enters 4 cubic metres in register 10.");
    let propose = Message::ProposePrepare {
        stamp: at(1, 3),
        body: body(10, None, 4),
    };
    let replies = group.send(&propose, &[0, 1, 2, 3], &[4]);
    group.count(&replies, fast(OK))?;
    group.say(
        "OK is declared final, and the handset of client 3 stores that 1:3 is to be committed. Then its battery is empty: no \
         box learns that the result is final, and no commit is sent. Four boxes have a tentative OK, and that is all. So 1:3 \
         is not recorded: it will be, if the handset lives. If the handset were lost now, nobody could commit it.",
    );
    Ok(())
}

/// Both transactions are proposed to all boxes, and each comes first to some.
fn crossing(group: &mut Group) -> Result<(), Stop> {
    group.head("2.2 A clash, with messages that cross");
    group.say("Clients 1 and 2 both write register 11, which nobody had written when they read it. 2:1 comes first to boxes 0, 1 and 2.");
    let (first, five) = (at(2, 1), body(11, Some(0), 5));
    let (second, six) = (at(3, 2), body(11, Some(0), 6));
    let propose_first = Message::ProposePrepare {
        stamp: first,
        body: five.clone(),
    };
    let propose_second = Message::ProposePrepare {
        stamp: second,
        body: six.clone(),
    };
    let mut for_first = group.send(&propose_first, &[0, 1, 2], &[]);
    group.say("3:2 comes first to boxes 3 and 4.");
    let mut for_second = group.send(&propose_second, &[3, 4], &[]);
    group
        .say("Then each comes to the other boxes, which have said OK to what does not go with it.");
    for_first.extend(group.send(&propose_first, &[3, 4], &[]));
    for_second.extend(group.send(&propose_second, &[0, 1, 2], &[]));
    group.say("Neither has four boxes that agree. 2:1 has three that say OK, and 3:2 has two.");
    finalise(group, first, &for_first, OK)?;
    finalise(group, second, &for_second, ABSTAIN)?;
    group.say("One is committed, the other aborted.");
    settle(group, first, COMMIT, &five)?;
    settle(group, second, ABORT, &six)
}

fn finalise(group: &mut Group, stamp: u64, replies: &[Reply], result: u8) -> Result<(), Stop> {
    group.count(replies, slow(result))?;
    let finalise = Message::FinalisePrepare {
        stamp,
        view: 0,
        result,
        retry_stamp: 0,
    };
    let confirmed = group.send(&finalise, &ALL, &[]);
    group.expect(&confirmed, 0, &[result + FINAL; 5])
}

fn settle(group: &mut Group, stamp: u64, verdict: u8, body: &Body) -> Result<(), Stop> {
    group.settle(stamp, verdict, body, 0, &ALL, &[])
}

fn repeated(group: &mut Group) -> Result<(), Stop> {
    group.head("2.3 Lost messages, and one that is repeated");
    group.say("Client 1 enters 8 cubic metres in register 12. Boxes 3 and 4 are out of reach.");
    let (stamp, pump) = (at(5, 1), body(12, None, 8));
    let replies = group.send(
        &Message::ProposePrepare {
            stamp,
            body: pump.clone(),
        },
        &[0, 1, 2],
        &[3, 4],
    );
    group.count(&replies, slow(OK))?;
    let finalise = Message::FinalisePrepare {
        stamp,
        view: 0,
        result: OK,
        retry_stamp: 0,
    };
    let replies = group.send(&finalise, &[1, 2], &[0, 3, 4]);
    group.expect(&replies, 0, &[OK + FINAL; 2])?;
    group.say("Two confirmations are no quorum: nothing is declared. The same message is sent again, and harms nobody.");
    let replies = group.send(&finalise, &[0, 1], &[3, 4]);
    group.expect(&replies, 0, &[OK + FINAL; 2])?;
    group.say(
        "Boxes 0, 1 and 2 have confirmed it: OK is declared final. The commit is noted by three boxes, and then the radio is \
         gone: no box hears that it is done.",
    );
    let commit = Message::ProposeOutcome {
        stamp,
        verdict: COMMIT,
        body: pump,
    };
    let replies = group.send(&commit, &[0, 1, 2], &[3, 4]);
    group.expect(&replies, 0, &[COMMIT; 3])?;
    group.accepted(&replies)
}

fn view_change(group: &mut Group) -> Result<(), Stop> {
    group.head("2.4 A view change with two boxes away");
    group.say("Boxes 0 and 1 are away, and with them two of the three that have noted the commit of 5:1. The other three promise view 1.");
    let replies = group.send(&Message::ChangeView { view: 1 }, &[2, 3, 4], &[0, 1]);
    group.expect(&replies, 0, &[0; 3])?;
    let image = group.merge(1, &[2, 3, 4])?;
    group.say(
        "Everything is there. 1:3 was declared because four of the five boxes said OK; so of any three tables two or more say \
         it. By that the merge sees that it may have been declared, and, as nothing clashes with it, keeps it. The commit of \
         5:1 stands in one of these three tables; it was recorded, noted by three boxes in one view, so of any three one or \
         more have it, and a commit that is found is kept.",
    );
    let start = Message::StartView { view: 1, image };
    let replies = group.send(&start, &[2, 3, 4], &[]);
    group.expect(&replies, 0, &[0; 3])?;
    group.say("Boxes 0 and 1 come back, and take it too.");
    let replies = group.send(&start, &[0, 1], &[]);
    group.expect(&replies, 0, &[0; 2])?;
    group.all_the_same()
}

fn last_commit(group: &mut Group) -> Result<(), Stop> {
    group.say(
        "The handset of client 3 has a new battery, and finds in its storage that 1:3 is to be committed. It tells the boxes, \
         in view 1.",
    );
    group.settle(at(1, 3), COMMIT, &body(10, None, 4), 1, &ALL, &[])?;
    group.read(4, at(9, 9), 10, at(1, 3), 4)?;
    group.read(3, at(9, 9), 12, at(5, 1), 8)?;
    group
        .say("Box 4 was away when the first was declared, and box 3 when the second was recorded.");
    group.all_the_same()?;
    group.show_box(4);
    Ok(())
}
