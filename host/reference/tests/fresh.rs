//! The fresh table.

mod common;
use common::{BUFFER, DIRT};

#[test]
fn the_fresh_image_of_box_0_of_3_is_that_of_the_paper_m12() {
    let mut buffer = vec![DIRT; BUFFER];
    assert_eq!(reference::fresh(&mut buffer, 3, 0), 0);
    let mut whole = vec![1, 0, 3, 0];
    whole.extend([0; 16]);
    whole.extend([0, 0, 0, 0x18]);
    assert_eq!(buffer[..24], whole[..]);
    assert!(buffer[24..].iter().all(|byte| *byte == DIRT));
}

#[test]
fn a_fresh_table_clears_nothing_of_a_longer_image_that_was_there() {
    let long = common::normal(0, 3, 0, &[common::row(9, &[], &[(1, 1)], 1, 0)]).image();
    let mut buffer = common::TestBox::holding(&long).buffer;
    let before = buffer.clone();
    assert_eq!(reference::fresh(&mut buffer, 7, 6), 0);
    assert_eq!(buffer[..3], [1, 6, 7]);
    assert_eq!(buffer[24..], before[24..]);
}

#[test]
fn every_box_of_a_good_group_gets_its_table_and_no_other_does() {
    let mut good = 0;
    for n in 0..=255 {
        for box_number in 0..=255 {
            let mut buffer = vec![DIRT; BUFFER];
            let number = reference::fresh(&mut buffer, n, box_number);
            let expected = [3, 5, 7].contains(&n) && box_number < n;
            assert_eq!(number, if expected { 0 } else { 3 });
            assert_eq!(buffer[..4] == [1, box_number, n, 0], expected);
            assert!(expected || buffer[..24] == [DIRT; 24]);
            good += u32::from(expected);
        }
    }
    assert_eq!(good, 15);
}

#[test]
fn a_short_buffer_is_small_before_a_bad_box_is_looked_at_and_stays() {
    for (n, box_number) in [(3, 0), (3, 3), (4, 0)] {
        let mut buffer = vec![DIRT; BUFFER - 1];
        assert_eq!(reference::fresh(&mut buffer, n, box_number), 1);
        assert!(buffer.iter().all(|byte| *byte == DIRT));
    }
    assert_eq!(reference::fresh(&mut [], 3, 0), 1);
}
