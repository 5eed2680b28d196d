//! Clauses and queries from text.

use crate::text_refusal::{refused, Lent};
use crate::{raw, scanner, Clauses, Names, Query, Refusal, TextRefusal, WhichText, RECORD_LIMIT};

/// The longest text, in bytes; a query and the rules that it stands behind count together.
pub const TEXT_LIMIT: usize = 65_535;

/// A name in the list takes two bytes more than in a text, where it has at least one.
const NAMES_GROWTH: usize = 3;

/// The bytes of names that are enough for any text, or for a query with its rules: what [`raw::read`] and [`raw::read_query`] are to be lent.
pub const NAMES_LIMIT: usize = NAMES_GROWTH * TEXT_LIMIT;

/// The bytes of names that are enough for the texts.
fn enough(texts: &[Lent<'_>]) -> usize {
    NAMES_LIMIT.min(NAMES_GROWTH * texts.iter().map(|lent| lent.text.len()).sum::<usize>())
}

/// The list of names and the record that a service wrote.
fn written(texts: &[Lent<'_>], service: impl FnOnce(&mut [u8], &mut [u8], &mut usize) -> u32) -> Result<(Vec<u8>, Vec<u8>), TextRefusal> {
    let (mut names, mut out, mut named) = (vec![0; enough(texts)], vec![0; RECORD_LIMIT], 0);
    match Refusal::from_number(service(&mut names, &mut out, &mut named)) {
        Some(refusal) => Err(refused(refusal, texts)),
        None => {
            names.truncate(named);
            out.truncate(layout::record_at(&out).len());
            out.shrink_to_fit();
            Ok((names, out))
        }
    }
}

impl Clauses {
    /// The clauses of a text, and its names. A text has no comments (question 20): [`without_comments`](crate::without_comments) blanks those that
    /// start with `%`, and places stay right.
    ///
    /// ```
    /// use fourport::{Clauses, Query};
    /// let (clauses, names) = Clauses::from_text("p(a). p(b).")?;
    /// assert_eq!(names.iter().collect::<Vec<_>>(), ["p", "a", "b"]);
    /// assert_eq!(clauses.shown(&names).to_string(), "p(a).\np(b).");
    ///
    /// let program = clauses.canonical()?;
    /// assert_eq!(program.shown(&names).to_string(), "p(V0) :- V0 = a, true ; V0 = b, true.");
    ///
    /// let (query, names) = Query::from_text("p(a). p(b).", "p(Which)")?;
    /// let answers: Vec<String> = program.answers(&query).map(|answer| answer.map(|answer| answer.shown(&names).to_string())).collect::<Result<_, _>>()?;
    /// assert_eq!(answers, ["Which = a", "Which = b"]);
    /// # Ok::<(), Box<dyn std::error::Error>>(())
    /// ```
    pub fn from_text(text: impl AsRef<[u8]>) -> Result<(Clauses, Names), TextRefusal> {
        let rules = Lent { text: text.as_ref(), which: WhichText::Rules };
        let (names, record) = written(&[rules], |names, out, named| raw::read(rules.text, names, out, named))?;
        Ok((Clauses::written(record), Names::written(&names, Vec::new())))
    }
}

impl Query {
    /// The goal of a text, read as the body of one more clause behind those of `rules`, and the names: those of the rules first, so that they fit the
    /// [`Clauses`] of the same rules, and with them those of the query's variables. A name that is new in the query has a number of this query alone:
    /// [`Names`] says how to compare the goals of two texts.
    ///
    /// ```
    /// use fourport::{Query, Refusal};
    /// let (query, names) = Query::from_text("p(a).", "p(X) ; X = b, true")?;
    /// assert_eq!(query.shown(&names).to_string(), "p(X) ; X = b, true");
    ///
    /// let refused = Query::from_text("p(a).", "p(X).").unwrap_err();
    /// assert_eq!(refused.to_string(), "the query, line 1, column 5: a query has no full stop (question 21)");
    /// # Ok::<(), fourport::TextRefusal>(())
    /// ```
    pub fn from_text(rules: impl AsRef<[u8]>, query: impl AsRef<[u8]>) -> Result<(Query, Names), TextRefusal> {
        let rules = Lent { text: rules.as_ref(), which: WhichText::Rules };
        let query = Lent { text: query.as_ref(), which: WhichText::Query };
        let service = |names: &mut [u8], out: &mut [u8], named: &mut usize| raw::read_query(rules.text, query.text, names, out, named);
        let (names, record) = written(&[rules, query], service)?;
        Ok((Query::written(record), Names::written(&names, scanner::variables(query.text))))
    }
}
