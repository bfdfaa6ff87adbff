//! A dry week, in which boxes take different entries. Tables of few rows fill up with them, and those of the valley do not in
//! any history that dice play.

use super::Coordinator;
use samples::message as make;

impl Coordinator {
    /// "In a dry week two boxes took different entries": transactions come to one box each, in turn among f+1 boxes. Most of
    /// them have not begun before, as long as there are such.
    pub(super) fn dry_week(&mut self) {
        let quorum = self.play.group.counts.quorum;
        let boxes = self.boxes_in_any_order(quorum);
        let most = self.play.group.machine.model.rows;
        let entries = 1 + self.dice.index(most);
        for turn in 0..entries {
            let any = self.dice.index(self.rows.len());
            let place = match self.begun < self.rows.len() {
                true => self.begun,
                false => any,
            };
            self.begun = self.begun.max(place + 1);
            let message = make::propose_prepare(&self.rows[place]);
            self.tell(&[boxes[turn % quorum]], &message);
        }
    }
}
