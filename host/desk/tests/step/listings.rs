//! What commands list: help, long clauses, and the length of the walk.

use crate::stepping::{garage, written};

/// A clause of one long line.
const CLASH: &str = "clash(Light, A, B) :- lamp(A, Light), lamp(B, Light), colour(A, C), colour(B, D), differ(C, D).";
const LISTS: &str = "lamp(m1, l1). lamp(m2, l1). colour(m1, red). colour(m2, green). differ(red, green).";

#[test]
fn every_command_has_its_help() {
    let names = [
        "step", "back", "goal", "next", "previous", "finish", "door", "run", "reverse", "goto", "answer", "why", "undo", "break", "delete", "breaks",
        "print", "where", "bets", "list", "help", "quit",
    ];
    let commands: Vec<String> = ["help".into()].into_iter().chain(names.map(|name| format!("help {name}"))).collect();
    let (shown, status) = garage("three-bays", "sheet(A, B, C)").step(&commands);
    assert_eq!(status, 0);
    let list: Vec<&str> = shown[1].words.iter().flat_map(|line| line.split([' ', ','])).collect();
    for (shown, name) in shown[2..].iter().zip(names) {
        assert!(list.contains(&name), "{name}");
        assert!(shown.words[0].starts_with(name) && shown.words.len() > 2, "{shown:?}");
    }
    assert!(shown[9].words.iter().any(|line| line == "  other words for it: r, c, continue, leap"), "{:?}", shown[9]);
}

/// The rows have all of the clause, and what stands above the marks is the goal.
#[test]
fn list_divides_long_lines() {
    let clash = written(&format!("{CLASH}\n{LISTS}\n"), "clash(L, A, B)");
    let solid = |text: &str| text.split_whitespace().collect::<String>();
    for (columns, named, goal) in
        [(24, "lamp/2", "lamp(A,Light)"), (40, "colour/2", "colour(A,C)"), (80, "differ/2", "differ(C,D)"), (200, "lamp/2", "lamp(A,Light)")]
    {
        let (output, _) = clash.step_in(columns, &[], format!("break {named}\nrun\nlist\n").into_bytes());
        let (_, listed) = output.split_once("(desk) list\n").unwrap();
        let rows: Vec<&str> = listed.lines().skip(1).take_while(|row| !row.is_empty()).collect();
        assert!(rows.iter().all(|row| row.len() <= columns), "{listed}");
        let is_mark = |row: &str| row.trim_start().starts_with('^');
        let marked = rows.windows(2).filter(|pair| is_mark(pair[1])).map(|pair| pair[0].get(pair[1].find('^').unwrap()..pair[1].len()).unwrap());
        assert_eq!(solid(&marked.collect::<String>()), goal, "{listed}");
        let text: String = rows.iter().copied().filter(|row| !is_mark(row)).collect();
        assert_eq!(solid(&text), format!("1{}", solid(CLASH)));
        assert!(rows.iter().skip(1).all(|row| row.starts_with("       ")), "{listed}");
    }
}

/// Beyond the events that were counted nothing is said of the walk's length.
#[test]
fn numbers_beyond_the_count() {
    let bits: &str =
        "bit(A), bit(B), bit(C), bit(D), bit(E), bit(F), bit(G), bit(H), bit(I), bit(J), bit(K), bit(L), bit(M), bit(N), bit(O), neither(A)";
    let (output, status) = written("bit(a).\nbit(b).\nneither(c).\n", bits).step_with(&[], b"goto 100000\nstep\nback\n".to_vec());
    let heads: Vec<&str> = output.lines().filter(|line| line.starts_with("event ")).filter_map(|line| line.split("  ").next()).collect();
    let counted = "event 100,000 of more than 100,000";
    assert_eq!((heads, status), (vec!["event 0 of more than 100,000", counted, "event 100,001", counted], 0));
}
