//! `reduce` beside the copies of the original and the questions.

use crate::support::{
    each_list, each_live_list, each_two_part_list, instructions, records, settings,
};
use harness::how_many;
use harness::lists::{any_branch_list, list, List, Profile};
use harness::questions::refusal;
use harness::random::Random;
use harness::run;
use harness::settings::Settings;
use harness::tally::{By, Tally};
use harness::worked_examples::{cases, Expected};
use rudzaviks::mir::{load_args, nop};
use rudzaviks::record::Records;
use rudzaviks::{reduce, Loc, Refusal};

#[test]
fn the_worked_examples() {
    for case in cases() {
        let answer = reduce(&instructions(&case.list), &settings(&case.list));
        match case.expected {
            Expected::Left(left) => {
                let list = answer.expect(case.name).list;
                assert_eq!(Records::new(&list).list, left.concat(), "{}", case.name);
            }
            Expected::Refused(number, index) => {
                let refusal = Refusal { number, index: index as u32 };
                assert_eq!(answer, Err(refusal), "{}", case.name);
            }
        }
    }
}

/// `reduce` leaves what is expected. By whose answer it was compared.
fn reduced_as_expected(list: &List) -> By {
    let reduced = reduce(&instructions(list), &settings(list)).expect("a list that passes");
    let both = run::both(list);
    let (by, expected) = (both.by(), both.expected());
    let counts = reduced.counts;
    let [records, statics, members, nops, loads, moves, saves, fullest] = expected.counts();
    assert_eq!([counts.records, counts.statics, counts.members], [records, statics, members]);
    assert_eq!(
        [counts.nops, counts.loads, counts.moves, counts.saves],
        [nops, loads, moves, saves]
    );
    // The count is the library's, the numbers past each instruction are the crate's own.
    let most = reduced.needed().into_iter().max().unwrap_or(0);
    assert_eq!([counts.fullest, most], [fullest, fullest]);
    let left = Records { list: expected.words, table: list.table.clone() };
    assert_eq!(Ok(reduced.list), left.instructions());
    by
}

#[test]
fn lists_are_reduced_as_by_the_copies() {
    let lists = how_many(20_000);
    let mut tally = Tally::default();
    let mut check = |list: &List| tally.add(reduced_as_expected(list));
    each_list(91, lists, 700, &mut check);
    each_two_part_list(94, lists, 40, &mut check);
    each_live_list(99, lists / 4, &mut check);
    let mut random = Random::new(98);
    (0..lists).for_each(|_| check(&any_branch_list(&mut random, 40)));
    tally.print("the library's reduce");
}

#[test]
fn lists_for_fewer_registers_are_refused() {
    let mut random = Random::new(92);
    let mut refused = 0;
    for _ in 0..2_000 {
        let good = list(&mut random, &Profile::plain(20));
        let fewer = Settings { count_regs: random.below(4), ..good.settings };
        let less = List { settings: fewer, ..good };
        let answer = reduce(&instructions(&less), &settings(&less));
        let expected = refusal(&fewer, &less.words, &less.table, true);
        let expected = expected.map(|(number, index)| Refusal { number, index: index as u32 });
        refused += u32::from(expected.is_some());
        assert_eq!(answer.err(), expected);
    }
    assert!(refused > 1_000, "{refused}");
}

#[test]
fn the_longest_lists_are_taken() {
    let mut random = Random::new(93);
    let longest = list(&mut random, &Profile::plain(65_536));
    let mut code = instructions(&longest);
    let reduced = reduce(&code, &settings(&longest)).expect("as many as may be");
    let left = run::optimize(&longest);
    let left = Records { list: left, ..records(&longest) }.instructions();
    assert_eq!(Ok(reduced.list), left);
    code.push(nop());
    assert_eq!(reduce(&code, &settings(&longest)), Err(Refusal { number: 3, index: 0 }));
}

#[test]
fn the_longest_tables_are_taken() {
    let args = |count: u32| load_args((0..count).map(Loc::Mem).collect(), false);
    let settings = rudzaviks::Settings::default();
    // Twice the same locations take their room once.
    let most = [args(32_768), args(32_768)];
    assert_eq!(reduce(&most, &settings).map(|reduced| reduced.list), Ok(most.to_vec()));
    let more = [args(32_768), args(1)];
    assert_eq!(reduce(&more, &settings), Err(Refusal { number: 3, index: 0 }));
}
