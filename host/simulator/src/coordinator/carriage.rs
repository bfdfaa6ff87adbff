//! Who is reached: the boxes that a message goes to, and when it arrives.

use super::Coordinator;
use samples::{message as make, Row};

impl Coordinator {
    /// Boxes to send something to: one, few, f, f+1 or all, in any order.
    pub(super) fn some_boxes(&mut self) -> Vec<usize> {
        let (all, quorum) = (self.play.group.boxes().len(), self.play.group.counts.quorum);
        let any = 1 + self.dice.index(all);
        let count = self.dice.one_of(&[1, any, quorum - 1, quorum]);
        self.boxes_in_any_order(count)
    }

    /// Boxes to send something to that shall get on: f+1 at least.
    pub(super) fn many_boxes(&mut self) -> Vec<usize> {
        let (all, quorum) = (self.play.group.boxes().len(), self.play.group.counts.quorum);
        let count = self.dice.one_of(&[all, all, all, all - 1, quorum]);
        self.boxes_in_any_order(count)
    }

    pub(super) fn few_or_many_boxes(&mut self) -> Vec<usize> {
        if self.dice.in_a_hundred(self.sparse) {
            self.some_boxes()
        } else {
            self.many_boxes()
        }
    }

    /// So many boxes, often those first that are not changing.
    pub(super) fn boxes_in_any_order(&mut self, count: usize) -> Vec<usize> {
        let mut boxes: Vec<usize> = self.play.group.boxes().collect();
        self.dice.shuffle(&mut boxes);
        if self.dice.in_a_hundred(60) {
            boxes.sort_by_key(|b| self.play.group.is_changing(*b));
        }
        boxes.truncate(count);
        boxes
    }

    /// Sends messages to boxes. Most arrive at once, unless a box is away; the others may arrive later, or never.
    pub(super) fn tell(&mut self, boxes: &[usize], message: &[u8]) {
        for to in boxes {
            let place = match self.play.send(*to, message.to_vec()) {
                Ok(place) => place,
                Err(_) => continue,
            };
            if self.reaches(place) && self.dice.in_a_hundred(90) {
                self.play.arrive(place);
            }
        }
    }

    /// Whether a message can arrive now.
    pub(super) fn reaches(&self, place: usize) -> bool {
        let sent = &self.play.group.sent[place];
        let of_a_view = sent.message.kind() == 5 || sent.message.kind() == 6;
        let is_behind = of_a_view && self.behind.contains(&sent.to);
        !is_behind && !self.away.contains(&sent.to)
    }

    /// Something sent before arrives, the first time or again, at a box that is not away.
    pub(super) fn stray(&mut self) {
        let times = 1 + self.dice.index(4);
        for _ in 0..times {
            let limit = self.play.group.sent.len();
            if limit == 0 {
                return;
            }
            let place = self.dice.index(limit);
            if self.reaches(place) {
                self.play.arrive(place);
            }
        }
    }

    /// Any answer numbered 0 says in which view a box is.
    pub(super) fn read(&mut self, row: &Row) {
        let boxes = self.some_boxes();
        self.tell(&boxes, &make::read(row.stamp, 0));
    }

    /// At most f boxes go away, and those that were away come back.
    pub(super) fn go_away(&mut self) {
        let f = self.play.group.counts.quorum - 1;
        let count = self.dice.index(f + 1);
        self.away = self.boxes_in_any_order(count);
    }
}
