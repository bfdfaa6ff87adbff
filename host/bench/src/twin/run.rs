//! A run of images as the proved library walks it: whole or not, the tables of a merge or not, and the newest view.

use super::u32_at;
use super::valid::{image_length, Header};

/// The images of a run that is whole, each as the part of the run that begins with it.
pub(super) struct Images<'a>(pub(super) &'a [u8]);

impl<'a> Iterator for Images<'a> {
    type Item = &'a [u8];

    fn next(&mut self) -> Option<&'a [u8]> {
        let image = self.0;
        if image.is_empty() {
            return None;
        }
        self.0 = &image[u32_at(image, 20) as usize..];
        Some(image)
    }
}

/// Whether a run is one or more whole images.
pub(super) fn is_whole(run: &[u8]) -> bool {
    let mut at = 0;
    while at < run.len() {
        match image_length(&run[at..]) {
            Some(length) => at += length,
            None => return false,
        }
    }
    !run.is_empty()
}

/// Whether images are not those of a quorum of one group, of different boxes that all promised the view.
pub(super) fn are_wrong(run: &[u8], view: u32) -> bool {
    let n = Header::read(run).n;
    Images(run).count() != quorum(n) || some_unfit(run, n, view) || box_twice(run)
}

fn some_unfit(run: &[u8], n: u8, view: u32) -> bool {
    Images(run).any(|image| {
        let header = Header::read(image);
        header.n != n || header.mode == 0 || header.promised != view
    })
}

fn box_twice(run: &[u8]) -> bool {
    let box_of = |image: &[u8]| Header::read(image).box_number;
    Images(run).any(|image| {
        let later = Images(image).skip(1);
        later.map(box_of).any(|other| other == box_of(image))
    })
}

pub(super) fn newest_view(run: &[u8]) -> u32 {
    let views = Images(run).map(|image| Header::read(image).view);
    views.fold(0, u32::max)
}

fn quorum(n: u8) -> usize {
    (usize::from(n) - 1) / 2 + 1
}

/// How many tables have to hold a tentative result for it to be agreed.
pub(super) fn agreement(n: u8) -> usize {
    quorum(n) / 2 + 1
}
