use std::collections::BTreeSet;

use super::*;

/// Histories that are looked at.
const SOME: usize = 1_000;

/// What each node call of the second program returned, and its verdict.
fn outcomes(history: &History) -> Vec<(u8, u64)> {
    let mut host = Host::new();
    let mut outcomes = Vec::new();
    for step in &history.steps {
        step.take::<Second>(&mut host);
        if let Step::Call(_) = step {
            let verdict = match host.returned {
                0 => host.answer.content()[0],
                _ => 0,
            };
            outcomes.push((host.returned, verdict));
        }
    }
    outcomes
}

#[test]
fn generated_histories_meet_every_answer() {
    let stored = second::vectors::node::stories().len();
    let histories = histories(1).skip(stored).take(SOME);
    let met: BTreeSet<(u8, u64)> = histories.flat_map(|each| outcomes(&each)).collect();
    let refusals = (1..=17).map(|number| (number, 0));
    let wanted: BTreeSet<(u8, u64)> = (1..=9).map(|number| (0, number)).chain(refusals).collect();
    assert_eq!(met, wanted);
}

#[test]
fn demand_3_speaks_of_most_histories() {
    let histories = histories(1).take(SOME);
    let spoken = histories.filter(|each| interfaces(&each.steps).is_some());
    assert!(spoken.count() > SOME / 2);
}

#[test]
fn differences_are_found_in_every_part() {
    let before = Host::new();
    let changes: [fn(&mut Host); 6] = [
        |host| host.returned = 12,
        |host| host.address[15] ^= 1,
        |host| host.numbers.content_mut()[5] = 0,
        |host| host.table.content_mut()[2_559] ^= 1,
        |host| host.out.content_mut()[2_047] ^= 1,
        |host| host.answer.content_mut()[3] = 0,
    ];
    assert!(before.difference(&before.clone()).is_none());
    for change in changes {
        let mut after = before.clone();
        change(&mut after);
        assert!(after.difference(&before).is_some());
    }
}
