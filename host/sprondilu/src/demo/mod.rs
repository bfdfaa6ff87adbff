//! Groups played through the library, and explained: what a newcomer sees first.
//!
//! The stories are fixed, and so is what has to come of each step: a demo that goes another way than its words ends with an
//! error and not with a wrong story.

mod five;
mod group;
mod parts;
mod three;

use crate::ends::Stop;

/// What was told, and the files that the group would have had: their names and bytes.
pub struct Played {
    pub text: String,
    pub files: Vec<(String, Vec<u8>)>,
}

pub fn play() -> Result<Played, Stop> {
    let three = three::play()?;
    let five = five::play()?;
    let text = [BEFORE, &three.text, &five.text, AFTER].concat();
    Ok(Played {
        text,
        files: [three.files, five.files].concat(),
    })
}

const BEFORE: &str = "\
SPRONDILU: WHAT A GROUP OF BOXES DOES

Boxes in a valley keep the record of the water that growers use. Each box holds
one table. There is no master, and the radio between them is slow and loses
messages. Below, two groups of boxes live through a bad day, in memory. Every
answer of a box, every count and every merge is the proved library's, the one
that box firmware links.

Some words first.

  register     one of 64 numbered places for a number; here, the cubic metres
               that a pump has given
  client       somebody with a handset
  transaction  what a client enters at once: registers that were read,
               registers that are written
  stamp        names a transaction and gives it its place in time: 2:1 is time 2
               at client 1; as one number, time x 65536 + client
  5@2:1        register 5 was read, in the version that transaction 2:1 wrote;
               5@0: nobody had written it
  5=7          register 5 is written, with the value 7
  result       what boxes think of a transaction. OK: nothing speaks against it.
               ABORT: what it read was written over by a committed one.
               RETRY 9:1: a later one that is committed has read or written
               what it writes; the last that has is 9:1, so that only a stamp
               after that can do. ABSTAIN: the same as one of these two, with
               one that may yet be committed. Tentative at first, then final
  count        what replies come to. Fast: so many boxes agree that their result
               may be declared after one round of radio. Slow: a quorum, f+1 of
               2f+1 boxes, has answered, and has to confirm the result in a
               second round. Wait: fewer have answered
  declared     a result that was declared final stands in every later merge. An
               OK that was declared will be recorded, if the handset lives:
               nobody else can commit it
  outcome      what becomes of it: commit or abort; noted first, then done. A
               box that has noted it has accepted it
  recorded     an entry is recorded when a quorum has accepted its commit in one
               view, and not before: then it stands, whatever becomes of the
               handset
  view         the group's time is cut into views. Boxes promise a new one, the
               tables of a quorum are merged, and it begins with the merge

The client sends messages to the boxes and counts their replies. There are seven
messages: 1 propose-prepare, 2 finalise-prepare, 3 propose-outcome,
4 finalise-outcome, 5 change-view, 6 start-view, 7 read. An arrow is a message
that is sent; below it stand the answers.
";

const AFTER: &str = "
WHAT YOU HAVE SEEN

  - Boxes that agree need one round of radio; a quorum of them is enough in two.
  - An entry was recorded when a quorum had accepted its commit in one view.
    Before that it hung on its handset, and nobody was told that it is recorded.
  - No two transactions that clash were both committed.
  - What was declared final, or noted by a quorum in one view, stood in every
    merge for a later view, whoever was away and whatever was lost.

That the last two hold in every history in which clients keep seven rules and a
view starts with one merge, as here, is proved. docs/GROUP.md has the rules, and
README.md says what is assumed.

The files of this demo, to look at with the other commands:
  sprondilu demo --keep FOLDER
  sprondilu show FOLDER/five/box4.table
What else there is:
  sprondilu --help
";
