//! The help texts: of the program, and of each command.

/// What is shown with a command line that makes no sense.
pub const SHORT: &str = "\
usage: sprondilu COMMAND ..
commands: show, check, fresh, message, answer, merge, count, demo
More: sprondilu --help, and sprondilu COMMAND --help";

const PROGRAM: &str = "\
sprondilu: season records of boxes, on files

usage: sprondilu COMMAND ..

  show     a table file for people; also a message or a reply
  check    whether a file is well formed; if not, what is wrong, at which byte
  fresh    write the table file of a box that was never used
  message  write one of the seven messages from words
  answer   a box's answer to a message file, by its table file
  merge    the table with which a view begins, from the files of f+1 boxes
  count    what the replies of boxes to messages 1 and 2 come to
  demo     groups of three and of five boxes, played and explained

sprondilu COMMAND --help says more of each; sprondilu --version names this
program.

Files hold the bytes that boxes have and send: a table file begins with a
table's image, a message file is one message, a reply file is one reply of 24
bytes. A stamp is written TIME:CLIENT, such as 2:1, with a time from 0 to
4294967295 and a client from 0 to 65535. A number alone is refused: it may be
meant as a time, or as the stamp's own number. Numbers may be written in
hexadecimal digits after 0x. After -- no word is an option.

Every number, table, reply and count is the proved library's; only that a file
is no reply, 3, is this program's own finding.

With --json one JSON object is printed, for a refusal too. A stamp is one number
in it, time x 65536 + client, and its time and client stand beside it: stamp,
time, client; so with version, version_time, version_client, with retry_stamp,
retry_time, retry_client and with read_stamp, read_time, read_client. Values of
registers are text, since they may have 64 bits.

exit status
  0  done
  1  refused: the number, its name and the reason are printed
  2  bad usage, a file that cannot be read or written, or an answer that cannot
     be printed: the error is on the standard error output
";

const SHOW: &str = "\
usage: sprondilu show [--message | --reply] [--json] FILE

Shows a table file for people: the box, its view, and its rows in stamp order,
with each stamp as one number and as time and client, result and outcome by
name, and what the transaction reads and writes. 5@2:1 is register 5, read in
the version that the transaction 2:1 wrote; 5@0 is register 5, which nobody had
written before; 5=7 is register 5, written with the value 7. Commands take a
stamp as TIME:CLIENT, not as the number.

Of a box that is normal it also says how many rows may still be added in this
view. A box may add a share of what was left when its view began: 512 less the
start rows, divided by f+1 and rounded down. So there is room for the merge of
f+1 tables. In the header in JSON this is share, and room is what is left of it.
A box that is changing takes no new stamp, whatever its room is.

A result that was declared on a fast count stays tentative in the tables until
message 2 or a merge makes it final; tentative OK beside a commit is in order.
One table does not say that an entry is recorded: it is recorded when f+1
different boxes have accepted its commit in one view, and not before.

  --message  the file is a message
  --reply    the file is a reply
  --json     for a program

Refusals: 2 bad table; 3 bad message, also for a file that is no reply.
";

const CHECK: &str = "\
usage: sprondilu check [--message | --reply] [--json] FILE

Whether the file begins with a table by the rules; if not, what is wrong, and at
which byte. The first byte is byte 0; if several places are wrong, one of them
is named. Bytes after a table are no mistake: a dump of a box's buffer has some.

A file that is well formed need not be the one that a box had: a changed value,
or a transaction that was committed against the rules, is not seen in its form.

  --message  whether the file is one of the seven messages; message 6 is judged
             for a group as large as its image's
  --reply    whether the file is a reply that a box gives
  --json     for a program

Refusals: 2 bad table; 3 bad message, also for a file that is no reply.
";

const FRESH: &str = "\
usage: sprondilu fresh --n N --box BOX [--json] FILE

Writes the table file of a box that was never used. A file that is there already
is never written over. A box is made fresh once: one that has lost its table is
not made fresh again in the same group, or what it promised is forgotten.

  --n N      how many boxes the group has: 3, 5 or 7
  --box BOX  which of them this is: 0 to N-1
  --json     for a program

Refusal: 3 bad message, for a bad N or BOX.
";

const MESSAGE: &str = "\
usage: sprondilu message KIND .. [--out FILE [--replace]] [--json]

Writes one of the seven messages to a file, or, without one, prints it in
hexadecimal digits.

  1 propose-prepare  STAMP [read REGISTER@VERSION ..] [write REGISTER=VALUE ..]
  2 finalise-prepare STAMP view V RESULT
                     RESULT is OK, ABORT, ABSTAIN, or RETRY and a stamp
  3 propose-outcome  STAMP commit|abort [read ..] [write ..]
                     like FILE commit|abort    for what a message proposes
  4 finalise-outcome STAMP view V commit|abort
  5 change-view      V
  6 start-view       V FILE      with the table file of the merge for view V
  7 read             STAMP register REGISTER
                     --at TIME register REGISTER

The kind is the word, without its number. A stamp is TIME:CLIENT, and a number
alone is refused. A body has up to 4 reads and up to 4 writes and at least one
of them; they are laid in the order of their registers. A version is the stamp
of the write that was read, or 0 for never written. For example:
  sprondilu message propose-prepare 2:1 read 5@1:1 write 5=9 --out two.message
  sprondilu message read --at 2 register 5

Whether a message may be sent is not judged here. What was declared final, or
accepted by f+1 boxes in one view, is not lost, and no two committed
transactions clash, if whoever sends messages keeps the seven rules, which
docs/GROUP.md has, and sends one merge for a view.

  --at TIME   for read: the stamp TIME:65535, the last one of that time, which
              finds what was written up to that time and at it, by any client
  --out FILE  the file to write; one that is there already is not written over
  --replace   it is, if it is a message or empty; what is kept of it, such as
              its mode, is said by sprondilu answer --help
  --json      for a program

Refusals: 3 bad message, if what the words say is against the rules of a
message; 2 bad table, if the file of start-view is none.
";

const ANSWER: &str = "\
usage: sprondilu answer TABLE MESSAGE [--reply FILE [--replace]] [--json]

A box's answer to a message: the table file becomes what the message makes of
it, and the reply is printed and, with --reply, written to a file, also if the
box refuses. If a start-view takes rows away, they are named: what too few boxes
had heard of may be missing in the merge.

If the box does not say OK to a stamp that is new to it, a row that stands in
the way is named, and the register that it is about. Either the transaction
writes the register, and the row is later; for RETRY it is the row whose stamp
is given. Or the transaction has read the register, and the row is a newer write
of it. In JSON this is in_the_way, with register, row and version, which is the
version that was read, or null if it is about a write. in_the_way is null for
OK, for other messages, and for a stamp that was held, since nothing is checked
then.

Of messages 1 to 4 it also says how many rows the search for the stamp compared,
at most 10 of 512. If no stamp was searched, as for the other messages and where
one is refused with 2, 3, 4 or 9, nothing is said, and rows_compared in JSON is
0. The rows that a box goes over to judge its table, which are all of them, and
once more to check a new stamp, are not counted.

7 full is given to a new stamp, in messages 1 and 3, once the rows added since
the view began reach the share of a box: 512 less the start rows, divided by f+1
and rounded down. The reason says the share, and whether a view change makes
room. As far as this table can tell, one does if at least f+1 rows are left. A
box without room still serves the stamps that it holds, reads, and changes view.

The table is written safely: to a new file, synced, and put in the place of the
old one, before any reply is given. A power cut leaves the old table whole or
the new one whole. After one, the same message may be answered again and has the
same reply; only messages 5 and 6, if they were stored, are then refused with 10
old view. Two runs at once on one table file wait for each other. If another
program moves, removes or changes the file meanwhile, that stays, and the
message is to be answered again; but a program that is still writing into the
file is not seen, nor, on a file system that cannot exchange two names, what
happens in the last moment. A refused message leaves the file alone, and so does
one that changes nothing. A file that holds more than the table, such as a dump
of a box's buffer, keeps what stands after the longer of the old and the new
table.

Of a file that is replaced, a table or a reply, the mode is kept, the group if
this user is in it, and the owner if he may give files away. If the group cannot
be kept, the file's new group has no rights to it, and others have only those
that the old group had too. Access lists are not kept. A file with two names (a
hard link) is replaced under the one that is named here, so that there are two
tables then: give a table one name, or links that are symbolic. A symbolic link
to a table stays; one to a reply is replaced itself.

  --reply FILE  the file for the reply's 24 bytes; one that is there already is
                not written over
  --replace     it is, if it is a reply or empty
  --json        for a program

Refusals: 2 bad table, 3 bad message, 4 changing, 5 other body, 6 contradiction,
7 full, 8 unknown, 9 other view, 10 old view.
";

const MERGE: &str = "\
usage: sprondilu merge --view V --out FILE [--json] TABLE ..

The table with which view V begins, from the table files of exactly f+1 boxes
that have promised V: 2 of 3, 3 of 5, 4 of 7. The files stay as they are. The
order in which they are named does not matter. For one view one merge is sent,
and no other. 7 full means more than 512 stamps. It does not come of tables in
which each box kept to its share, which sprondilu answer --help explains.

  --view V    the view
  --out FILE  the file to write; one that is there already is not written over
  --json      for a program

Refusals: 2 bad table, 11 wrong tables, 5 other body, 6 contradiction, 7 full.
";

const COUNT: &str = "\
usage: sprondilu count --n N [--json] REPLY ..

What replies of the boxes of a group to messages 1 and 2, for one stamp, come
to: fast with a result, slow with one, or wait; and what may be done then. A
reply by which a box refused holds no result: it is named and not counted.

An OK that was declared final will be recorded, if the handset lives. An entry
is recorded when f+1 different boxes have accepted its commit in one view (their
replies to message 3 are numbered 0), and not before; count does not tell that.

  --n N   how many boxes the group has: 3, 5 or 7. Replies do not say it, so
          a wrong N may go unnoticed
  --json  for a program

Refusals: 3 bad message (a bad N, a box outside the group or twice, unequal
views, a file that is no reply), 6 contradiction.
";

const DEMO: &str = "\
usage: sprondilu demo [--keep FOLDER]

Plays a group of three boxes and a group of five through a fast commit, a clash,
lost messages and a view change, in memory, through the proved library, and
explains each step.

  --keep FOLDER  make this folder and leave in it the tables, messages, replies
                 and merges of the demo, for show and the other commands
";

/// The help of a command, or of the program.
pub fn of(name: &str) -> Option<&'static str> {
    match name {
        "--help" | "-h" | "help" => Some(PROGRAM),
        "show" => Some(SHOW),
        "check" => Some(CHECK),
        "fresh" => Some(FRESH),
        "message" => Some(MESSAGE),
        "answer" => Some(ANSWER),
        "merge" => Some(MERGE),
        "count" => Some(COUNT),
        "demo" => Some(DEMO),
        _ => None,
    }
}
