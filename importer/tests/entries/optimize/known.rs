//! Lists that were chosen by hand.

use super::refusals::refused;
use super::support::{agree_with_room, compare, passes};
use harness::lent::{with_prefixes, with_room};
use harness::panics::caught;
use harness::random::Random;
use harness::stored_lists::Named;
use harness::tally::By;
use harness::worked_examples::Expected;
use harness::{limits, run, stored_lists, worked_examples};

#[test]
fn the_worked_examples() {
    let mut random = Random::new(701);
    for case in worked_examples::cases() {
        match case.expected {
            Expected::Left(records) => {
                let (counts, _) = passes(&mut random, &case.list);
                assert_eq!(counts.records as usize, records.len(), "case {}", case.name);
            }
            Expected::Refused(number, index) => {
                let answer = agree_with_room(&mut random, &case.list);
                assert_eq!(answer, refused(number, index), "case {}", case.name);
            }
        }
    }
}

#[test]
fn the_stored_lists() {
    let mut random = Random::new(702);
    for named in stored_lists::lists() {
        passes(&mut random, &named.list);
    }
}

/// The comparison tells what the unchanged copy leaves from what is expected, where they part.
#[test]
fn the_unchanged_copy_is_told_from_the_port() {
    let mut random = Random::new(704);
    for Named { name, list, .. } in stored_lists::lists() {
        let lent = with_room(&mut random, &list);
        let both = run::both(&list);
        let records = u64::from(both.original.counts()[0]);
        let answered = (records, with_prefixes(&lent, both.original.lent()));
        let compared = caught(|| compare(&list, &lent, &answered));
        match both.by() {
            By::Amended => assert!(compared.is_err(), "{name}"),
            by => assert_eq!(compared, Ok(by), "{name}"),
        }
    }
}

#[test]
fn lists_at_the_limits() {
    let mut random = Random::new(703);
    for (_, list) in limits::lists() {
        passes(&mut random, &list);
    }
}
