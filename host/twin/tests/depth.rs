//! Deep trees need no native stack, and unifiers that could not be written take no time. Each test has a thread of 128 KiB.

use layout::*;
use std::thread;
use twin::answers::answers;
use twin::door::door;
use twin::gate::RECORD_LIMIT as ROOM;
use twin::records::{Term, TermRef};
use twin::rules::Direction::{Back, Forward};
use twin::services::{canonical, first, run};
use twin::terms::unifier::unifier as unify;

fn on_a_small_stack(test: impl FnOnce() + Send + 'static) {
    thread::Builder::new().stack_size(128 * 1024).spawn(test).expect("a thread").join().expect("the test passes");
}

#[test]
fn nested_terms() {
    on_a_small_stack(|| {
        // 8,190 symbols in one another fill a query record, and its first event no longer fits
        assert_eq!(first(&record(&equality(&variable(0), &nested(8189, &symbol(2, &[])))), ROOM).number, 10);
        let goal = equality(&variable(0), &nested(8188, &variable(1)));
        let start = first(&record(&goal), ROOM);
        assert_eq!(start.number, 0);
        assert_eq!(run(&program(&[]), &start.bytes, 5, Forward, ROOM).number, 8);
        let atom = atom(5, &[nested(4000, &variable(1))]);
        let start = first(&record(&atom), ROOM);
        for (other, number) in [(1, 0), (0, 10)] {
            let copies = program(&[definition(5, 1, 1, &equality(&variable(0), &variable(other)))]);
            assert_eq!(run(&copies, &start.bytes, 1, Forward, ROOM).number, number);
        }
        let clause = clause(5, 1, &[nested(8185, &variable(0))], &TRUE);
        assert_eq!(canonical(&clauses(&[clause]), ROOM).number, 0);
    });
}

#[test]
fn nested_answers() {
    on_a_small_stack(|| {
        let value = nested(2_047, &symbol(2, &[]));
        let found = answers(&program(&[]), &record(&equality(&variable(0), &value)), 100, ROOM);
        assert_eq!((found.number, found.bytes), (6, [&[0, 1, 0, 0], &value[..], &[0, 0]].concat()));
        // every goal is an ancestor of the first one, with all goals within it
        let joins = 240;
        let found = answers(&program(&[]), &record(&[vec![DISJUNCTION; joins], vec![TRUTH; joins + 1]].concat()), u32::MAX, 1 << 20);
        assert_eq!((found.number, found.bytes.len()), (10, 0));
        let joins = 100;
        let found = answers(&program(&[]), &record(&[vec![DISJUNCTION; joins], vec![TRUTH; joins + 1]].concat()), u32::MAX, 1 << 20);
        // the first answer is 100 first halves deep, and each later one comes from a disjunction further out
        assert_eq!((found.number, found.bytes.len()), (6, 4 * 101 + 2 * (100 + 100 * 101 / 2)));
    });
}

#[test]
fn nested_doors() {
    on_a_small_stack(|| {
        let joins = [vec![CONJUNCTION; 5_000], vec![TRUTH; 5_001]].concat();
        for goal in [equality(&variable(0), &nested(1_000, &symbol(2, &[]))), TRUE.to_vec()] {
            let call = event(port::CALL, &goal, &[half(IN_CONJUNCTION, 1, &goal, &joins)], &[]);
            let exit = run(&program(&[]), &call, 1, Forward, ROOM);
            let found = door(&program(&[]), &exit.bytes, 9, ROOM);
            assert_eq!((found.number, found.steps, found.bytes), (0, 1, call));
        }
    });
}

#[test]
fn nested_goals() {
    on_a_small_stack(|| {
        for left in [true, false] {
            let joins = 16_000;
            let goal = if left {
                [vec![CONJUNCTION; joins], vec![TRUTH; joins + 1]].concat()
            } else {
                [[CONJUNCTION, TRUTH].repeat(joins), vec![TRUTH]].concat()
            };
            let start = first(&record(&goal), ROOM);
            assert_eq!(start.number, 0);
            let there = run(&program(&[]), &start.bytes, 100_000, Forward, ROOM);
            let again = run(&program(&[]), &there.bytes, there.steps, Back, ROOM);
            assert_eq!((again.number, again.steps, again.bytes), (0, there.steps, start.bytes));
        }
    });
}

/// f(X1,..,Xn) and f(g(X0,X0),..,g(Xn-1,Xn-1)); Xn's term has 2^n leaves.
#[test]
fn doubling() {
    on_a_small_stack(|| {
        let n = 800;
        let row = |term: &dyn Fn(u16) -> TermRef| (1..=n).rev().fold(Term::symbol(7, Vec::new()), |rest, i| Term::symbol(6, vec![term(i), rest]));
        let left = row(&|i| Term::variable(i));
        let right = row(&|i| Term::symbol(8, vec![Term::variable(i - 1), Term::variable(i - 1)]));
        let unifier = unify(&left, &right).expect("one exists");
        assert_eq!(unifier.pairs().len(), usize::from(n));
        assert!(unifier.length() as usize > ROOM);
        let looped = Term::symbol(9, vec![right.clone(), Term::variable(0)]);
        assert!(unify(&Term::symbol(9, vec![left, Term::variable(n)]), &looped).is_none());
    });
}
