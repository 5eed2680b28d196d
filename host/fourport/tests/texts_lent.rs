//! What is lent to the reader: texts with their comments blanked, and room for any list of names.

use fourport::{raw, without_comments, Clauses, Refusal, NAMES_LIMIT, RECORD_LIMIT, TEXT_LIMIT};
use std::fs;
use std::path::PathBuf;

/// The garages of the examples that have comments are read without them, and each byte outside a comment stays where it was.
#[test]
fn comments_of_the_examples() {
    let folder = PathBuf::from(env!("CARGO_MANIFEST_DIR")).join("../../examples");
    for name in ["riverside", "corner", "station"] {
        let text = fs::read(folder.join(format!("{name}.pl"))).expect("a file of the examples");
        assert_eq!(Clauses::from_text(&text).map_err(|refused| refused.refusal), Err(Refusal::Byte), "{name}");
        let blanked = without_comments(&text);
        assert!(Clauses::from_text(&blanked).is_ok(), "{name}");
        let lines = |text: &[u8]| text.split(|&byte| byte == b'\n').map(<[u8]>::to_vec).collect::<Vec<_>>();
        assert_eq!((text.len(), lines(&text).len()), (blanked.len(), lines(&blanked).len()));
        for (before, after) in lines(&text).into_iter().zip(lines(&blanked)) {
            let comment = before.iter().position(|&byte| byte == b'%').unwrap_or(before.len());
            assert_eq!((&before[..comment], after.len()), (&after[..comment], before.len()), "{name}");
            assert!(after[comment..].iter().all(|&byte| byte == b' '), "{name}");
        }
    }
}

#[test]
fn ends_of_comments() {
    assert_eq!(without_comments(b"p. % \xc3\xa9 100 %\r\nq. %"), b"p.           \r\nq.  ");
    assert_eq!(without_comments(b"%\n%\r%\n\n%p.\np."), b" \n \r \n\n   \np.");
    assert_eq!(without_comments(b""), b"");
}

/// Facts without arguments of the shortest names, as many as a text holds.
fn shortest_names() -> (Vec<u8>, usize) {
    let first: Vec<String> = ('a'..='z').map(String::from).collect();
    let longer = |names: &[String]| -> Vec<String> {
        let behind = || ('a'..='z').chain('A'..='Z').chain('0'..='9').chain(['_']);
        names.iter().flat_map(|name| behind().map(move |last| format!("{name}{last}"))).collect()
    };
    let second = longer(&first);
    let third = longer(&second);
    let (mut text, mut list) = (String::new(), 0);
    for name in first.iter().chain(&second).chain(&third) {
        if text.len() + name.len() + 1 > TEXT_LIMIT {
            break;
        }
        text += &format!("{name}.");
        list += 2 + name.len();
    }
    (text.into_bytes(), list)
}

/// The list of as many names as there can be fits; a text that has too many clauses for a record is refused by 10, not by 22.
#[test]
fn room_for_any_names() {
    let (text, list) = shortest_names();
    assert!(text.len() > TEXT_LIMIT - 4 && list > TEXT_LIMIT, "{} bytes of text, {list} of names", text.len());
    let (mut names, mut out, mut named) = (vec![0; NAMES_LIMIT], vec![0; RECORD_LIMIT], 0);
    assert_eq!(raw::read(&text, &mut names, &mut out, &mut named), Refusal::Fit.number());
    assert_eq!(raw::read(&text, &mut names[..list - 1], &mut out, &mut named), Refusal::Length.number());
    assert_eq!(raw::read(&text, &mut names[..list], &mut out, &mut named), Refusal::Fit.number());
}
