//! Both copies of the original and the questions on the worked examples.

use harness::panics::caught;
use harness::questions::refusal;
use harness::run::{left_by, Amended, Unchanged};
use harness::worked_examples::{cases, Expected};

#[test]
fn both_copies_give_what_is_left() {
    let mut times = 0;
    for case in cases() {
        if let Expected::Left(records) = case.expected {
            times += 1;
            for left in [left_by::<Unchanged>(&case.list), left_by::<Amended>(&case.list)] {
                assert_eq!(left.words, records.concat(), "case {}", case.name);
            }
        }
    }
    assert_eq!(times, 6);
}

#[test]
fn both_copies_panic_at_7_and_9() {
    let mut times = 0;
    for case in cases() {
        if let Expected::Refused(7 | 9, _) = case.expected {
            times += 1;
            assert!(caught(|| left_by::<Unchanged>(&case.list)).is_err(), "case {}", case.name);
            assert!(caught(|| left_by::<Amended>(&case.list)).is_err(), "case {}", case.name);
        }
    }
    assert_eq!(times, 3);
}

#[test]
fn the_questions_refuse_the_rest() {
    for case in cases() {
        let list = &case.list;
        let no = refusal(&list.settings, &list.words, &list.table, true);
        match case.expected {
            Expected::Left(_) => assert_eq!(no, None, "case {}", case.name),
            Expected::Refused(number, index) => {
                assert_eq!(no, Some((number, index)), "case {}", case.name);
            }
        }
    }
}
