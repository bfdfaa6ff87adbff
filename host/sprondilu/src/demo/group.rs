//! A group of boxes in memory, whose every step is told in a line.

use super::parts::COMMIT;
use super::Played;
use crate::calls::{self, Counted, TABLE_BYTES};
use crate::commands;
use crate::ends::Stop;
use crate::image::{Body, Table};
use crate::message::Message;
use crate::reply::Reply;
use crate::{names, stamps};
use std::collections::BTreeSet;
use std::fmt::Write;

/// How far words stand in below a heading, how much further an answer stands, and how long a line is.
const INDENT: &str = "   ";
const ANSWER: &str = "    ";
/// A table stands a little to the left of answers, so that its lines fit a screen.
const TABLE: &str = "   ";
const WIDTH: usize = 80;

pub struct Group {
    pub n: u8,
    /// The folder of its files.
    name: &'static str,
    buffers: Vec<Vec<u8>>,
    /// How many messages and merges there were.
    steps: usize,
    played: Played,
}

/// The demo is not what its words say.
fn went_wrong(what: &str) -> Stop {
    Stop::Trouble(format!(
        "the demo went another way than it should: {}",
        what
    ))
}

fn boxes_in_words(boxes: &[u8]) -> String {
    let numbers: Vec<String> = boxes.iter().map(u8::to_string).collect();
    let word = if boxes.len() == 1 { "box" } else { "boxes" };
    format!("{} {}", word, numbers.join(", "))
}

impl Group {
    /// All boxes of a group, fresh.
    pub fn fresh(n: u8, name: &'static str) -> Result<Group, Stop> {
        let mut buffers = Vec::new();
        for box_number in 0..n {
            let mut buffer = vec![0; TABLE_BYTES];
            let image = calls::fresh(n, box_number).map_err(|_| went_wrong("a fresh table"))?;
            buffer[..image.len()].copy_from_slice(&image);
            buffers.push(buffer);
        }
        let played = Played {
            text: String::new(),
            files: Vec::new(),
        };
        let steps = 0;
        Ok(Group {
            n,
            name,
            buffers,
            steps,
            played,
        })
    }

    /// A heading.
    pub fn head(&mut self, words: &str) {
        self.blank_line();
        let _ = write!(self.played.text, "{}\n\n", words);
    }

    /// One empty line, and never two.
    fn blank_line(&mut self) {
        if !self.played.text.ends_with("\n\n") {
            self.played.text.push('\n');
        }
    }

    /// Words of explanation below the heading, with an empty line on either side.
    pub fn say(&mut self, words: &str) {
        self.blank_line();
        self.say_in(words, "");
        self.blank_line();
    }

    /// Words in lines that fit on a screen, each of them so much further in.
    fn say_in(&mut self, words: &str, further: &str) {
        let mut line = format!("{}{}", INDENT, further);
        let empty = line.len();
        for word in words.split_whitespace() {
            if line.len() > empty && line.chars().count() + 1 + word.chars().count() > WIDTH {
                let _ = writeln!(self.played.text, "{}", line);
                line = format!("{}{}", INDENT, further);
            }
            if line.len() > empty {
                line.push(' ');
            }
            line.push_str(word);
        }
        let _ = writeln!(self.played.text, "{}", line);
    }

    fn image(&self, box_number: u8) -> &[u8] {
        calls::image_in(&self.buffers[usize::from(box_number)]).unwrap_or(&[])
    }

    fn keep(&mut self, name: String, bytes: &[u8]) {
        let path = format!("{}/{}", self.name, name);
        self.played.files.push((path, bytes.to_vec()));
    }

    /// A message is sent to boxes. Of those that hear it each answers.
    pub fn send(&mut self, message: &Message, heard_by: &[u8], lost_to: &[u8]) -> Vec<Reply> {
        self.steps += 1;
        let bytes = message.bytes();
        let name = names::kind_word(message.kind());
        self.keep(format!("{:02}-{}.message", self.steps, name), &bytes);
        self.say_in(&format!("--> {}", message.words()), "");
        let mut replies = Vec::new();
        for box_number in heard_by {
            let (_, reply) = calls::answer(&mut self.buffers[usize::from(*box_number)], &bytes);
            self.keep(format!("{:02}-box{}.reply", self.steps, box_number), &reply);
            replies.extend(Reply::of(&reply));
        }
        self.tell(&replies, heard_by, lost_to);
        replies
    }

    /// The answers, with boxes that say the same in one line.
    fn tell(&mut self, replies: &[Reply], boxes: &[u8], lost_to: &[u8]) {
        let said: Vec<String> = replies.iter().map(in_words).collect();
        let mut told: Vec<&String> = Vec::new();
        for words in &said {
            if told.contains(&words) {
                continue;
            }
            told.push(words);
            let same = said.iter().zip(boxes).filter(|(other, _)| *other == words);
            let who: Vec<u8> = same.map(|(_, box_number)| *box_number).collect();
            self.say_in(&format!("{}: {}", boxes_in_words(&who), words), ANSWER);
        }
        if !lost_to.is_empty() {
            let hear = if lost_to.len() == 1 { "does" } else { "do" };
            let words = format!("{}: {} not hear it", boxes_in_words(lost_to), hear);
            self.say_in(&words, ANSWER);
        }
    }

    /// The coordinator counts replies, and finds what the story says.
    pub fn count(&mut self, replies: &[Reply], expected: Counted) -> Result<(), Stop> {
        let records: Vec<_> = replies.iter().map(Reply::record).collect();
        let counted =
            calls::count(self.n, &records).map_err(|_| went_wrong("a count was refused"))?;
        let words = commands::count::in_words(self.n, replies.len(), counted);
        if counted != expected {
            return Err(went_wrong(&words));
        }
        self.say_in(&format!("count of {}", words), "");
        Ok(())
    }

    /// The boxes have all given the number that the story says.
    pub fn expect(&self, replies: &[Reply], number: u8, states: &[u8]) -> Result<(), Stop> {
        let found: Vec<u8> = replies.iter().map(|reply| reply.state).collect();
        if replies.iter().all(|reply| reply.number == number) && found == states {
            return Ok(());
        }
        Err(went_wrong(&format!(
            "number {} and the state bytes {:?} were expected, and it was {:?}",
            number, states, replies
        )))
    }

    /// What a box answers to a read, which has to be this value.
    pub fn read(
        &mut self,
        box_number: u8,
        stamp: u64,
        register: u8,
        version: u64,
        value: u64,
    ) -> Result<(), Stop> {
        let replies = self.send(&Message::Read { stamp, register }, &[box_number], &[]);
        match replies.first() {
            Some(reply) if (reply.stamp, reply.value) == (version, value) => Ok(()),
            _ => Err(went_wrong("a register has another value")),
        }
    }

    /// An outcome is proposed to boxes, and finalised there in their view.
    pub fn settle(
        &mut self,
        stamp: u64,
        verdict: u8,
        body: &Body,
        view: u32,
        boxes: &[u8],
        lost_to: &[u8],
    ) -> Result<(), Stop> {
        let body = body.clone();
        let noted = self.send(
            &Message::ProposeOutcome {
                stamp,
                verdict,
                body,
            },
            boxes,
            lost_to,
        );
        self.expect(&noted, 0, &vec![verdict; boxes.len()])?;
        self.accepted(&noted)?;
        let done = self.send(
            &Message::FinaliseOutcome {
                stamp,
                view,
                verdict,
            },
            boxes,
            lost_to,
        );
        self.expect(&done, 0, &vec![verdict + 2; boxes.len()])
    }

    /// What the acceptances of an outcome come to: "f+1 different boxes have accepted message 3 (number 0)", "in one view".
    pub fn accepted(&mut self, noted: &[Reply]) -> Result<(), Stop> {
        let (stamp, view) = noted
            .first()
            .map_or((0, 0), |reply| (reply.stamp, reply.view));
        let boxes: BTreeSet<u8> = noted.iter().map(|reply| reply.box_number).collect();
        let in_one = noted
            .iter()
            .all(|reply| (reply.number, reply.stamp, reply.view) == (0, stamp, view));
        if !in_one || boxes.len() < commands::count::quorum(self.n) {
            return Err(went_wrong(
                "too few boxes have accepted an outcome in one view",
            ));
        }
        if noted.iter().all(|reply| reply.state == COMMIT) {
            let words = format!(
                "{} of {} boxes have accepted the commit in view {}: {} is recorded",
                boxes.len(),
                self.n,
                view,
                stamps::short(stamp)
            );
            self.say_in(&words, "");
        }
        Ok(())
    }

    /// The tables of boxes are merged for a view.
    pub fn merge(&mut self, view: u32, boxes: &[u8]) -> Result<Vec<u8>, Stop> {
        self.steps += 1;
        let run: Vec<u8> = boxes
            .iter()
            .flat_map(|box_number| self.image(*box_number).to_vec())
            .collect();
        let image = calls::merge(&run, view).map_err(|_| went_wrong("a merge was refused"))?;
        let which: Vec<String> = boxes.iter().map(u8::to_string).collect();
        self.keep(
            format!("{:02}-merge-of-{}.table", self.steps, which.join("-")),
            &image,
        );
        self.say(&format!(
            "The merge of the tables of {}, for view {}. Whichever boxes it is of, a merge bears the number of box {}, which is \
             the view modulo {}; each box that takes it keeps its own number.",
            boxes_in_words(boxes),
            view,
            view % u32::from(self.n),
            self.n
        ));
        self.show(&image);
        Ok(image)
    }

    /// A table, as `show` shows it.
    fn show(&mut self, image: &[u8]) {
        for line in commands::show::in_words(&Table::of(image)).lines() {
            let words = format!("{}{}{}", INDENT, TABLE, line);
            let _ = writeln!(self.played.text, "{}", words.trim_end());
        }
    }

    pub fn show_box(&mut self, box_number: u8) {
        let image = self.image(box_number).to_vec();
        self.say(&format!("The table of box {} now:", box_number));
        self.show(&image);
    }

    /// Whether all tables hold the same rows.
    pub fn all_the_same(&self) -> Result<(), Stop> {
        let rows = |box_number: u8| Table::of(self.image(box_number)).rows;
        if (1..self.n).all(|box_number| rows(box_number) == rows(0)) {
            return Ok(());
        }
        Err(went_wrong("tables that should be the same are not"))
    }

    /// The end: what was told, and the tables as they are.
    pub fn end(mut self) -> Played {
        for box_number in 0..self.n {
            let image = self.image(box_number).to_vec();
            self.keep(format!("box{}.table", box_number), &image);
        }
        self.played
    }
}

/// What a box says, in few words.
fn in_words(reply: &Reply) -> String {
    match reply.number {
        0 => reply.state_in_words(),
        _ => reply.words(),
    }
}
