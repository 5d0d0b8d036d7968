//! Tables that no list of calls gives: bad rows, other lengths, and odd ones that are good.

use super::draft::Draft;
use super::story::{Op, Story, ADDRESS};

pub fn stories() -> Vec<Story> {
    vec![
        rows(),
        lengths(),
        holes(),
        equal_rows(),
        later_rows(),
        bad_and_dead(),
    ]
}

/// The clock of the calls.
const NOW: u64 = 200_000;

const FREE: [u64; 4] = [0; 4];

/// Rows that are bad, most of them by one number.
fn bad_rows() -> Vec<[u64; 4]> {
    let tag = |tag: u64| tag << 32;
    let mut rows = vec![
        [1, 0, 0, 0],
        [0, 1, 0, 0],
        [0, 0, 1, 0],
        [0, 0, 0, 1],
        [7, 0xC000_0201, 0, NOW],
        [tag(1) - 1, 0, 0, 0],
        [u64::MAX, 0, 0, NOW],
    ];
    for wrong in [5, 6, 255, 256, 257, 1 << 16, 1 << 31, (1 << 31) + 1] {
        rows.push([tag(wrong) + 7, 0xC000_0201, 0, NOW]);
    }
    for short in [1, 3] {
        let first = tag(short) + 7;
        rows.push([first, 1 << 32, 0, NOW]);
        rows.push([first, u64::MAX, 0, NOW]);
        rows.push([first, 0xC000_0201, 1, NOW]);
        rows.push([first, 0xC000_0201, 1 << 63, NOW]);
    }
    for each in 1..=4 {
        let first = tag(each) + 7;
        rows.push([first, 1, 0, NOW + 1]);
        rows.push([first, 1, 0, u64::MAX]);
    }
    rows
}

/// Rows that are good, at their limits.
fn good_rows() -> Vec<[u64; 4]> {
    let tag = |tag: u64| tag << 32;
    let mut rows = vec![FREE];
    for each in 1..=4 {
        rows.push([tag(each), 0, 0, 0]);
        rows.push([tag(each), 0, 0, NOW]);
        rows.push([tag(each) + 0xFFFF_FFFF, 0xFFFF_FFFF, 0, NOW]);
    }
    for long in [2, 4] {
        rows.push([tag(long) + 7, 1 << 32, 0, NOW]);
        rows.push([tag(long) + 7, u64::MAX, u64::MAX, NOW - 1]);
        rows.push([tag(long) + 7, 0, 1, 1]);
    }
    rows
}

/// Each row in several places of a table that is good otherwise.
fn rows() -> Story {
    let mut story = Story::fresh(3, 7);
    story.row(2, Draft::flood().row(NOW - 5));
    let message = Draft::discovery().count(1).bytes();
    for (turn, row) in bad_rows().into_iter().chain(good_rows()).enumerate() {
        for place in [0, 1 + turn % 62, 63] {
            story.row(place, row);
            story.call(NOW, 0, &message);
            story.row(place, FREE);
        }
    }
    story
}

/// Tables of other lengths, empty and used, also with a good row past the last.
fn lengths() -> Story {
    let mut story = Story::fresh(3, 7);
    let lengths = [
        0, 1, 3, 4, 5, 128, 252, 255, 257, 259, 260, 264, 319, 320, 256,
    ];
    let used = [(0, 0), (63, 5), (64, 5), (79, NOW)];
    for place in [None].into_iter().chain(used.map(Some)) {
        if let Some((row, admitted)) = place {
            story.row(row, Draft::flood().row(admitted));
        }
        for length in lengths {
            story.ops.push(Op::Length(length));
            story.call(NOW, 0, &Draft::discovery().count(1).bytes());
        }
    }
    story
}

/// A table with few free rows: they are filled from the lowest on, dead ones like free ones.
fn holes() -> Story {
    let mut story = Story::fresh(3, 7);
    for (place, draft) in Draft::four().into_iter().cycle().take(64).enumerate() {
        let dead = [3, 17, 63].contains(&place);
        let admitted = if dead { NOW - 120_000 } else { NOW - 100 };
        if ![9, 40].contains(&place) {
            story.row(place, draft.session(place as u32).row(admitted));
        }
    }
    for session in 100..107 {
        let draft = &Draft::four()[session as usize % 4];
        story.call(NOW, 1, &draft.clone().session(session).bytes());
    }
    story
}

/// Two rows of one key, live and dead ones.
fn equal_rows() -> Story {
    let mut story = Story::fresh(3, 7);
    for draft in Draft::four() {
        for (first, second) in [(0, 0), (59_999, 60_000), (60_000, 1), (120_000, 120_000)] {
            story.row(10, draft.row(NOW - first));
            story.row(20, draft.row(NOW - second));
            story.call(NOW, 1, &draft.bytes());
            for row in [0, 10, 20] {
                story.row(row, FREE);
            }
        }
    }
    story
}

/// Rows admitted at the call's clock and after it, which become good as time goes on.
fn later_rows() -> Story {
    let mut story = Story::fresh(3, 7);
    story.row(8, Draft::discovery().row(NOW));
    for clock in [0, NOW - 1, NOW, NOW - 1, NOW + 59_999, NOW + 60_000] {
        story.call(clock, 2, &Draft::discovery().bytes());
    }
    story
}

/// A bad row among good ones, of which some are dead: none is freed.
fn bad_and_dead() -> Story {
    let mut story = Story::at(ADDRESS, 0, 0, 8, 255);
    story.row(0, Draft::discovery().row(0));
    story.row(1, Draft::flood().row(NOW));
    for bad in bad_rows() {
        story.row(63, bad);
        story.call(NOW, 7, &Draft::discovery().bytes());
    }
    story.row(63, [(1 << 32) + 9, 1 << 32, 0, 0]);
    story.call(NOW, 7, &Draft::discovery().bytes());
    story.row(63, FREE);
    story.call(NOW, 7, &Draft::discovery().bytes());
    story
}
