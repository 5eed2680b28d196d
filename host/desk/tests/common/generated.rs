//! Generated garages whose walks end.

use super::dice::Dice;

/// Rules, clause by clause, and a query. Predicates call those that stand before them, and `down/1` itself one constructor deeper, so each walk ends.
#[derive(Clone, Debug)]
pub struct Generated {
    pub clauses: Vec<String>,
    pub query: String,
}

const NAMES: [&str; 3] = ["red", "green", "bay7"];
const VARIABLES: [&str; 3] = ["X", "Y", "_Z"];
/// Name and arity of the predicates that are generated, each of which may call those before it.
pub const PREDICATES: [(&str, usize); 5] = [("taken", 1), ("free", 0), ("light", 2), ("ready", 0), ("sheet", 2)];
/// A call of the predicate that calls itself, whose clauses come first.
pub const DOWN: &str = "down(deck(deck(red)))";
pub const DOWN_CLAUSES: [&str; 3] = ["down(red).", "down(deck(X)) :- down(X).", "down(deck(_)) :- fail ; (true ; _ = red)."];

impl Generated {
    pub fn new(dice: &mut Dice) -> Generated {
        let mut clauses: Vec<String> = DOWN_CLAUSES.map(String::from).to_vec();
        for callable in 0..PREDICATES.len() {
            clauses.extend((0..1 + dice.below(3)).map(|_| clause(dice, callable)));
        }
        let query = (0..1 + dice.below(2)).map(|_| goal(dice, PREDICATES.len(), 2)).collect::<Vec<String>>().join(", ");
        Generated { clauses, query }
    }
}

fn clause(dice: &mut Dice, callable: usize) -> String {
    let (name, arity) = PREDICATES[callable];
    let head = atom(dice, name, arity);
    if dice.one_in(3) {
        return format!("{head}.");
    }
    format!("{head} :- {}.", goal(dice, callable, 2))
}

fn atom(dice: &mut Dice, name: &str, arity: usize) -> String {
    if arity == 0 {
        return name.into();
    }
    let arguments: Vec<String> = (0..arity).map(|_| term(dice, 2)).collect();
    format!("{name}({})", arguments.join(", "))
}

fn term(dice: &mut Dice, depth: usize) -> String {
    match dice.below(if depth == 0 { 6 } else { 8 }) {
        0..=2 => (*dice.pick(&VARIABLES)).into(),
        3..=4 => (*dice.pick(&NAMES)).into(),
        5 => "_".into(),
        6 => format!("deck({})", term(dice, depth - 1)),
        _ => format!("at({}, {})", term(dice, depth - 1), term(dice, depth - 1)),
    }
}

/// A goal that calls predicates below `callable` alone.
fn goal(dice: &mut Dice, callable: usize, depth: usize) -> String {
    match dice.below(if depth == 0 { 7 } else { 11 }) {
        0 => "true".into(),
        1 if dice.one_in(4) => "fail".into(),
        1..=2 => format!("{} = {}", term(dice, 1), term(dice, 1)),
        3 if dice.one_in(2) => DOWN.into(),
        3..=6 if callable == 0 => "true".into(),
        3..=6 => {
            let (name, arity) = PREDICATES[dice.below(callable)];
            atom(dice, name, arity)
        }
        7..=8 => format!("({} ; {})", goal(dice, callable, depth - 1), goal(dice, callable, depth - 1)),
        9 => format!("(({}), {})", goal(dice, callable, depth - 1), goal(dice, callable, depth - 1)),
        _ => format!("{}, {}", goal(dice, callable, 0), goal(dice, callable, depth - 1)),
    }
}
