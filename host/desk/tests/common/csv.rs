//! A strict reader of comma-separated values (RFC 4180).

/// The rows of a text in which each row ends with CR LF; says what is wrong with another text.
pub fn rows(text: &str) -> Result<Vec<Vec<String>>, String> {
    let (mut rows, mut row, mut left) = (Vec::new(), Vec::new(), text);
    while !left.is_empty() {
        let (cell, rest) = if left.starts_with('"') { quoted(left)? } else { plain(left)? };
        row.push(cell);
        left = if let Some(next) = rest.strip_prefix(',') {
            next
        } else if let Some(next) = rest.strip_prefix("\r\n") {
            rows.push(std::mem::take(&mut row));
            next
        } else {
            return Err(format!("neither `,` nor CR LF behind a cell: {rest:?}"));
        };
    }
    if !row.is_empty() {
        return Err("the last row has no end".into());
    }
    match rows.iter().find(|row| row.len() != rows[0].len()) {
        Some(row) => Err(format!("a row with another number of cells: {row:?}")),
        None => Ok(rows),
    }
}

fn plain(text: &str) -> Result<(String, &str), String> {
    let end = text.find([',', '\r', '\n', '"']).unwrap_or(text.len());
    let (cell, rest) = text.split_at(end);
    if rest.starts_with(['"', '\n']) {
        return Err(format!("{cell:?} has to be quoted"));
    }
    Ok((cell.into(), rest))
}

fn quoted(text: &str) -> Result<(String, &str), String> {
    let (mut cell, mut left) = (String::new(), &text[1..]);
    loop {
        let (part, rest) = left.split_once('"').ok_or("a quoted cell without an end")?;
        cell += part;
        match rest.strip_prefix('"') {
            Some(next) => {
                cell.push('"');
                left = next;
            }
            None => return Ok((cell, rest)),
        }
    }
}
