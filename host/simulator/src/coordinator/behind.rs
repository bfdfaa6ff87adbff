//! A box that stays behind with what it alone has heard of, while its rival is declared and given up elsewhere. Few throws of
//! the other dice lead there.

use super::Coordinator;
use crate::group::Declared;
use reference::Decision;
use samples::message as make;
use std::collections::BTreeMap;

impl Coordinator {
    /// One rival comes to all boxes, and then the other one to a single box, which does not hear of the next view. In that
    /// view the first one is given up, and the other one may take its place.
    pub(super) fn leave_behind(&mut self) {
        let first = self.dice.index(2);
        let [one, other] = [first, 1 - first].map(|turn| self.rows[self.rivals[turn]].clone());
        let boxes: Vec<usize> = self.play.group.boxes().collect();
        let alone = self.dice.one_of(&boxes);
        self.tell(&boxes, &make::propose_prepare(&one));
        self.tell(&[alone], &make::propose_prepare(&other));
        self.declare_fast(one.stamp);
        self.behind = vec![alone];
        self.next_view();
        self.start_view();
        self.overturn(&one);
        let further = self.dice.index(5);
        (0..further).for_each(|_| self.go_on(&other));
    }

    /// Counts the last reply of each box in the newest view, and declares the result if it is fast.
    fn declare_fast(&mut self, stamp: u64) {
        let group = &self.play.group;
        let mut replies = group.replies_for(stamp);
        let view_of = |place: &usize| group.answers[*place].reply.view;
        let newest = replies.iter().map(view_of).max().unwrap_or(0);
        replies.retain(|place| view_of(place) == newest);
        let by = |place: usize| (group.answers[place].by, place);
        let last: BTreeMap<usize, usize> = replies.into_iter().map(by).collect();
        let last: Vec<usize> = last.into_values().collect();
        if let Ok(Decision::Fast(result)) = self.play.count(stamp, newest, &last) {
            let _ = self.play.declare(Declared::of(stamp, newest, result));
        }
    }
}
