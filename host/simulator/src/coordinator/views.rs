//! Views: messages 5 and 6, and merges.

use super::Coordinator;
use samples::message as make;

impl Coordinator {
    /// Boxes promise the next view, and some of them start it.
    pub(super) fn change_view(&mut self) {
        if !self.play.violations.is_empty() {
            return;
        }
        self.stay_behind();
        self.next_view();
        if self.dice.in_a_hundred(85) {
            self.start_view();
        }
    }

    /// Nobody is away any more, and f+1 boxes or more of those that do not stay behind promise the next view.
    pub(super) fn next_view(&mut self) {
        self.away.clear();
        self.view += self.dice.one_of(&[1, 1, 1, 2]);
        let quorum = self.play.group.counts.quorum;
        let all = self.play.group.boxes();
        let mut boxes: Vec<usize> = all.filter(|b| !self.behind.contains(b)).collect();
        self.dice.shuffle(&mut boxes);
        let more = self.dice.index(boxes.len() - quorum + 1);
        boxes.truncate(quorum + more);
        self.tell(&boxes, &make::change_view(self.view));
    }

    /// A box that has missed some views promises one of them late.
    pub(super) fn late_promise(&mut self) {
        let late = |b: &usize| self.play.group.views_of(*b).1 < self.view;
        let boxes: Vec<usize> = self.play.group.boxes().filter(late).collect();
        if boxes.is_empty() {
            return;
        }
        let to = self.dice.one_of(&boxes);
        let missed = self.view - self.play.group.views_of(to).1;
        let view = self.view - self.dice.below(u64::from(missed)) as u32;
        self.promise(to, view);
    }

    /// Boxes promise whatever views they have missed, one after the other.
    pub(super) fn catch_up(&mut self, boxes: &[usize]) {
        for view in 1..=self.view {
            for to in boxes {
                if self.play.violations.is_empty() && self.dice.in_a_hundred(90) {
                    self.promise(*to, view);
                }
            }
        }
    }

    /// Message 5 for a view that a box has not promised yet arrives there.
    fn promise(&mut self, to: usize, view: u32) {
        if self.play.group.views_of(to).1 < view {
            let told = self.play.tell(to, make::change_view(view));
            assert!(told.is_ok(), "no rule is about message 5");
        }
    }

    /// Some boxes get the image of a view that was merged: the one sent before, or else any that there is.
    pub(super) fn start_view(&mut self) {
        let merged = self.play.group.merged.iter();
        let newest = merged.map(|merged| merged.view).max().unwrap_or(0);
        let older = newest.saturating_sub(1);
        let view = self.dice.one_of(&[newest, newest, newest, older]);
        let merged = self
            .play
            .group
            .merged
            .iter()
            .filter(|merged| merged.view == view);
        let images: Vec<&[u8]> = merged.map(|merged| &merged.image[..]).collect();
        let started = self.play.group.started(view).map(|table| table.image());
        let image = match (started, &images[..]) {
            (Some(image), _) => image,
            (None, []) => return,
            (None, some) => self.dice.one_of(some).to_vec(),
        };
        let boxes = self.many_boxes();
        self.tell(&boxes, &make::start_view(view, &image));
    }

    /// A merge that should be refused: a box twice, one too few, or one that promised another view.
    pub(super) fn strange_merge(&mut self) {
        let promises = &self.play.group.promises;
        let had: Vec<(u32, usize)> = promises
            .iter()
            .flat_map(|(v, of)| of.keys().map(move |b| (*v, *b)))
            .collect();
        if had.is_empty() {
            return;
        }
        let (view, _) = self.dice.one_of(&had);
        let quorum = self.play.group.counts.quorum;
        let right: Vec<(u32, usize)> = had.iter().copied().filter(|(v, _)| *v == view).collect();
        let other = had.iter().copied().filter(|(v, _)| *v != view);
        let tables: Vec<(u32, usize)> = match self.dice.index(3) {
            0 => (0..quorum)
                .map(|place| right[place % right.len().min(quorum - 1)])
                .collect(),
            1 => right.into_iter().take(quorum - 1).collect(),
            _ => right
                .into_iter()
                .take(quorum - 1)
                .chain(other.take(1))
                .collect(),
        };
        if self.play.merge_tables(view, &tables).is_err() {
            self.play.once("strange merges refused");
        }
    }

    /// Whether a box has promised a view that was merged, and not started it.
    pub(super) fn some_box_waits(&self) -> bool {
        let group = &self.play.group;
        let newest = group.merged.iter().map(|merged| merged.view).max();
        group
            .boxes()
            .any(|b| Some(group.views_of(b).1) == newest && Some(group.views_of(b).0) < newest)
    }

    /// Before a change of the view: at most f boxes stay behind, often those that did before. Those that did and no longer do
    /// may catch up.
    pub(super) fn stay_behind(&mut self) {
        if self.dice.in_a_hundred(50) {
            let before = std::mem::take(&mut self.behind);
            let f = self.play.group.counts.quorum - 1;
            let count = self.dice.index(f + 1);
            self.behind = self.boxes_in_any_order(count);
            if self.dice.in_a_hundred(60) {
                self.catch_up(&before);
            }
        }
    }
}
