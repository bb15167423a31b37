//! What a program prints: commands with their answers.

/// A printed line without what stands in parentheses at its end, which is for people.
pub fn plain(line: &[u8]) -> &[u8] {
    if line.last() != Some(&b')') {
        return line;
    }
    let open = line.windows(2).rposition(|two| two == b" (");
    open.map_or(line, |at| &line[..at])
}

/// The lines of what was printed. A carriage return or any other byte belongs to its line.
pub fn lines(printed: &[u8]) -> impl Iterator<Item = &[u8]> {
    printed.split(|b| *b == b'\n')
}

/// The place of the first line in which two programs differ.
pub fn first_difference(one: &[u8], other: &[u8]) -> Option<usize> {
    if one == other {
        return None;
    }
    let (mut ones, mut others) = (lines(one), lines(other));
    let mut at = 0;
    loop {
        match (ones.next(), others.next()) {
            (None, None) => return None,
            (Some(a), Some(b)) if plain(a) == plain(b) => at += 1,
            _ => return Some(at),
        }
    }
}

/// A line's command and its answer. An answer never has the arrow in it, while a command may.
pub fn parts(line: &[u8]) -> Option<(&[u8], &[u8])> {
    let line = plain(line);
    let arrow = line.windows(4).rposition(|w| w == b" -> ")?;
    Some((&line[..arrow], &line[arrow + 4..]))
}
