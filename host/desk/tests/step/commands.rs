//! Each command, given at every event of a walk, against what the events of that walk say.

use crate::stepping::{garage, written, Garage, Walked};
use fourport::{Ancestor, GoalKind, Port, TermKind};

/// Disjunctions, equalities, terms, a predicate without clauses, and variables that stand only in goals still to come.
const TURNS: &str = "
free(b1). free(b2).
light(B, L) :- free(B), (L = red ; L = green), other(B, N), note(N, M, K), (K = g(_) ; M = f(N, _)).
other(b1, b2). other(b2, b1).
note(X, f(X, Y), f(X, Y)).
note(X, Z, Z) :- missing(X) ; Z = g(X), free(X).
";

/// The query's variables have other names than the clause's.
fn bays() -> Garage {
    garage("three-bays", "sheet(First, Second, Third)")
}

fn turns() -> Garage {
    written(TURNS, "light(Bay, Colour), (Colour = green ; true, Colour = red, Free = Bay)")
}

/// Where a command leads from each event.
fn from_everywhere(garage: &Garage, walked: &Walked, command: &str) -> Vec<usize> {
    let commands: Vec<String> = (0..=walked.last()).flat_map(|number| [format!("goto {number}"), command.into()]).collect();
    garage.numbers(&commands).chunks(2).zip(0..).map(|(pair, number)| if pair[0] == number { pair[1] } else { usize::MAX }).collect()
}

/// Holds a command to what is expected of it at each event of two walks.
fn hold(command: &str, expected: impl Fn(&Walked, usize) -> usize) {
    hold_in(&bays(), command, &expected);
    hold_in(&turns(), command, &expected);
}

fn hold_in(garage: &Garage, command: &str, expected: impl Fn(&Walked, usize) -> usize) {
    let walked = garage.walked();
    assert!(walked.last() > 400);
    for (number, came_to) in from_everywhere(garage, &walked, command).into_iter().enumerate() {
        assert_eq!(came_to, expected(&walked, number), "{command} from event {number}");
    }
}

fn next_end(walked: &Walked, number: usize) -> usize {
    (number + 1..=walked.last()).find(|&later| !walked.is_entry(later) && walked.place(later) == walked.place(number)).unwrap()
}

#[test]
fn step_and_back() {
    hold("step", |walked, number| (number + 1).min(walked.last()));
    hold("back", |_, number| number.saturating_sub(1));
    hold("step 17", |walked, number| (number + 17).min(walked.last()));
    hold("reverse-step 17", |_, number| number.saturating_sub(17));
    hold("run 100", |walked, number| (number + 100).min(walked.last()));
    hold("reverse 100", |_, number| number.saturating_sub(100));
    hold("goto 119", |_, _| 119);
    assert_eq!(bays().numbers(&["step 119", "step 400"]), [119, 454]);
    hold("goto 100,000", |walked, _| walked.last());
}

/// Only typed goals are atoms, and where no head has an argument only typed goals are equalities.
#[test]
fn goal_is_to_what_was_typed() {
    let rules = "lit :- on, (Colour = red ; off). on :- fed. on. fed. fed. off :- Side = left, Side = Other, Other = left.";
    let switches = written(rules, "lit, on, (lit ; off, Colour = red), lit, Colour = Light, Light = red");
    for (garage, has_typed_equalities) in [(bays(), false), (switches, true)] {
        let walked = garage.walked();
        let is_goal = |&number: &usize| match walked.events[number].goal().kind() {
            GoalKind::Equality(..) => has_typed_equalities,
            kind => matches!(kind, GoalKind::Atom(..)),
        };
        let goals: Vec<usize> = (0..=walked.last()).filter(is_goal).collect();
        assert!(goals.len() > 50 && goals.len() < walked.last() * 2 / 3);
        hold_in(&garage, "goal", |walked, number| goals.iter().copied().find(|&goal| goal > number).unwrap_or(walked.last()));
        hold_in(&garage, "goal back", |_, number| goals.iter().copied().rev().find(|&goal| goal < number).unwrap_or(0));
    }
}

#[test]
fn next_is_over_the_goal() {
    hold("next", |walked, number| match walked.is_entry(number) {
        true => next_end(walked, number),
        false => (number + 1).min(walked.last()),
    });
}

#[test]
fn previous_is_back_over_the_goal() {
    hold("previous", |walked, number| {
        let entry = (0..number).rev().find(|&earlier| walked.is_entry(earlier) && walked.place(earlier) == walked.place(number));
        entry.filter(|_| !walked.is_entry(number)).unwrap_or(number.saturating_sub(1))
    });
}

#[test]
fn finish_is_to_the_end_of_the_goal_or_of_the_one_around() {
    hold("finish", |walked, number| {
        if walked.is_entry(number) {
            return next_end(walked, number);
        }
        let event = &walked.events[number];
        let around = event.ancestors().position(|ancestor| matches!(ancestor, Ancestor::Atom(_)));
        let place = match around {
            Some(passed) => {
                let Some(Ancestor::Atom(atom)) = event.ancestors().nth(passed) else { unreachable!() };
                (atom.as_bytes().to_vec(), event.ancestors().skip(passed + 1).map(|ancestor| ancestor.to_string()).collect())
            }
            None => walked.place(0),
        };
        let is_end = |&later: &usize| !walked.is_entry(later) && walked.place(later) == place;
        (number + 1..=walked.last()).find(is_end).unwrap_or(walked.last())
    });
}

#[test]
fn door_is_back_to_the_call() {
    hold("door", |walked, number| {
        let is_call = |&earlier: &usize| walked.events[earlier].port() == Port::Call && walked.place(earlier) == walked.place(number);
        (0..=number).rev().find(is_call).unwrap_or(0)
    });
}

#[test]
fn answers_forward_and_back() {
    for (garage, count) in [(bays(), 2), (turns(), 8)] {
        let answers = garage.walked().answers();
        assert_eq!(answers.len(), count);
        hold_in(&garage, "next answer", |walked, number| answers.iter().copied().find(|&answer| answer > number).unwrap_or(walked.last()));
        hold_in(&garage, "a", |walked, number| answers.iter().copied().find(|&answer| answer > number).unwrap_or(walked.last()));
        hold_in(&garage, "previous answer", |_, number| answers.iter().copied().rev().find(|&answer| answer < number).unwrap_or(0));
    }
}

/// Why a variable has its value: the last event at which it got one.
#[test]
fn why_is_back_to_the_binding() {
    let named = [(bays(), ["First", "Second", "Third"]), (turns(), ["Bay", "Colour", "Free"])];
    for (garage, name, variable) in named.iter().flat_map(|(garage, names)| (0..).zip(names).map(move |(variable, name)| (garage, name, variable))) {
        hold_in(garage, &format!("why {name}"), |walked, number| {
            let has_value = |number: usize| matches!(walked.events[number].value(variable).unwrap().view().kind(), TermKind::Symbol(..));
            let unbound = (0..=number).rev().find(|&earlier| !has_value(earlier));
            unbound.filter(|_| has_value(number)).map_or(number, |unbound| unbound + 1)
        });
    }
}

/// The value that is told is that of the event gone to: parts of it may have come later.
#[test]
fn why_tells_the_value_of_its_event() {
    let (shown, _) = written("p(X) :- q(X), r(X).\nq(f(_)).\nr(f(a)).\n", "p(X)").step(&["answer", "print X", "why X"]);
    assert_eq!(shown[2].words[0], "X = f(a)");
    assert!(
        shown[3].words[0].starts_with("X = f(_") && shown[3].words[0].contains(") since this event, by clause 1 of q/1, "),
        "{:?}",
        shown[3].words
    );
}

/// A clause may have a variable whose name looks like a shown one; it is not taken for that.
#[test]
fn names_that_look_like_numbered_ones() {
    let garage = written("p(X) :- q(X_1, X), r(X_1).\nq(a, b).\nr(_).\n", "p(Y)");
    let (shown, _) = garage.step(&["goto 3", "bets", "print X_1", "print X__1"]);
    assert_eq!((shown[2].words[0].as_str(), shown[3].words[0].as_str(), shown[4].words[0].as_str()), ("binds X__1 = Y", "X_1 = _", "X__1 = Y"));
}

/// A break is shown as the predicate that it is, however it was typed.
#[test]
fn breaks_by_their_predicates() {
    let (shown, _) = written("p(a).\n", "p(X)").step(&["break p", "break p/01 exit", "breaks"]);
    assert_eq!((shown[1].words[0].as_str(), shown[3].words[0].as_str(), shown[3].words.len()), ("break at p/1 call", "p/1 exit", 2));
}

/// A variable that was made the same as another one: where that one got its value.
#[test]
fn why_follows_variables_that_are_the_same() {
    let (shown, _) = bays().step(&["goto 114", "why A"]);
    let screen = shown[2].screen.as_ref().unwrap();
    assert_eq!((screen.number, shown[2].words.len()), (15, 1));
    assert!(shown[2].words[0].starts_with("A = left since this event, by "), "{}", shown[2].words[0]);
    let (shown, _) = bays().step(&["goto 2", "why A", "why Third"]);
    assert_eq!(shown[3].words, ["Third has no value here", ""]);
}

#[test]
fn breaks_stop_run_and_reverse() {
    let garage = bays();
    let walked = garage.walked();
    let cable = walked.names.number("cable").unwrap();
    let is_met = |number: usize, ports: &[Port]| {
        let event = &walked.events[number];
        ports.contains(&event.port()) && matches!(event.goal().kind(), GoalKind::Atom(predicate, _) if predicate == cable)
    };
    for (named, ports) in [("", &[Port::Call][..]), (" exit fail", &[Port::Exit, Port::Fail][..])] {
        let met: Vec<usize> = (1..=walked.last()).filter(|&number| is_met(number, ports)).collect();
        assert!(met.len() > 4);
        // gdb's letter is a break where a predicate follows
        let mut commands = vec![format!("b cable/1{named}")];
        commands.extend(met.iter().map(|_| "run".to_string()));
        assert_eq!(garage.numbers(&commands)[1..], met);
        commands.push("run".into());
        commands.extend(met.iter().map(|_| "reverse".to_string()));
        let back: Vec<usize> = met.iter().copied().rev().collect();
        assert_eq!(garage.numbers(&commands)[met.len() + 1..], [vec![walked.last()], back].concat());
    }
    let numbers = garage.numbers(&["break cable/1", "break other/2", "delete cable/1", "run", "delete", "continue"]);
    let other = walked.names.number("other").unwrap();
    let first = walked.events.iter().position(|event| matches!(event.goal().kind(), GoalKind::Atom(predicate, _) if predicate == other)).unwrap();
    assert_eq!(numbers[3..], [first, first, walked.last()]);
}

#[test]
fn print_says_what_the_library_says() {
    let garage = bays();
    let walked = garage.walked();
    let commands: Vec<String> = (0..=walked.last()).flat_map(|number| [format!("goto {number}"), "print Second".into()]).collect();
    let (shown, _) = garage.step(&commands);
    for (number, printed) in shown[2..].iter().step_by(2).enumerate() {
        let value = walked.events[number].value(1).unwrap();
        let expected = match value.view().kind() {
            TermKind::Variable(_) => "_".into(),
            TermKind::Symbol(..) => value.shown(&walked.names).to_string(),
        };
        assert_eq!(printed.words[0], format!("Second = {expected}"));
    }
}

#[test]
fn where_and_bets_list_all() {
    let garage = bays();
    let (shown, _) = garage.step(&["where", "bets", "goto 119", "where", "bets", "list"]);
    assert_eq!(shown[1].words[0], "there are no ancestors");
    assert_eq!(shown[2].words[0], "there are no bets");
    assert_eq!(shown[4].words[0], "there are no ancestors");
    // a line for each bet, and the empty line behind them
    assert_eq!(shown[5].words.len(), usize::from(garage.walked().events[119].bet_count()) + 1);
    assert!(shown[6].words.iter().any(|line| line.contains("sheet(First, Second, Third)")));
}

#[test]
fn undo_goes_to_where_commands_were_given() {
    let numbers = bays().numbers(&["step 10", "goto 100", "print", "back", "undo", "undo", "undo", "undo"]);
    assert_eq!(numbers, [10, 100, 100, 99, 100, 10, 0, 0]);
}

#[test]
fn the_ends_of_the_walk_in_words() {
    let (shown, status) = bays().step(&["back", "goto 454", "step", "answer", "finish", "door", "undo"]);
    let words: Vec<&str> = shown.iter().skip(1).map(|shown| shown.words.first().map_or("", String::as_str)).collect();
    let end = "the walk ends here (question 6): there is no other answer";
    assert_eq!(words, ["this is the first event", "", end, "there is no other answer: the walk ends here (question 6)", end, "", ""]);
    assert_eq!(status, 0);
}

/// A walk that a limit stops: in words, with the question's number, and no error of the script.
#[test]
fn a_limit_in_words() {
    let ring = garage("corner", "reaches(gate, street)");
    let last = ring.walked().last();
    let (shown, status) = ring.step(&["run", "step", "answer"]);
    for shown in &shown[1..] {
        assert!(shown.words[0].starts_with("the walk cannot go on from here (question 10): "), "{shown:?}");
    }
    let screen = shown[1].screen.as_ref().unwrap();
    assert_eq!((screen.number, status), (last, 0));
    assert!(screen.text.contains(", where question 10 stops it  "), "{}", screen.text);
}

#[test]
fn what_is_not_understood() {
    let wrong = [
        ("stpe", "there is no command `stpe`: did you mean `step`? `help` lists them all"),
        ("goto nowhere", "`nowhere` is no number of steps or of an event"),
        ("print Nothing", "no variable is called `Nothing` here; there are First, Second, Third"),
        ("break cable/1 enter", "`enter` is no port: call, exit, fail and redo are"),
        ("break cabel/1", "no rule or query names `cabel`; did you mean `cable`?"),
    ];
    for (command, words) in wrong {
        let (shown, status) = bays().step(&[command, "step"]);
        assert_eq!((shown[1].words[0].as_str(), status), (words, 2));
        assert_eq!(shown[2].screen.as_ref().unwrap().number, 1, "the script goes on");
    }
}

/// A session that starts elsewhere shows what `goto` shows, also beyond the end.
#[test]
fn starts_at_an_event() {
    for number in ["62", "454", "455"] {
        let (gone, _) = bays().step_with(&[], format!("goto {number}\n").into_bytes());
        let (started, status) = bays().step_with(&["--at", number], Vec::new());
        assert_eq!((gone.split_once(&format!("(desk) goto {number}\n")).unwrap().1, status), (started.as_str(), 0));
    }
    assert_eq!(bays().step_with(&["--at", "0"], Vec::new()), bays().step_with(&[], Vec::new()));
}

/// Empty lines and comments are no commands; what stands behind `quit` is not read.
#[test]
fn scripts() {
    let (shown, status) = bays().step(&["", "% a comment", "# another", "  step  ", "quit", "stpe"]);
    let commands: Vec<&str> = shown.iter().map(|shown| shown.command.as_str()).collect();
    assert_eq!((commands, status), (vec!["", "step", "quit"], 0));
}
