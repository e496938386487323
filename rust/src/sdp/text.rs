//! Words, numbers and lines.

/// The lines up to the next `m=` line, and their number. The first line belongs to the section whatever it is.
pub(super) fn section<'a>(rest: &mut &'a str) -> (&'a str, usize) {
    let mut size = 0;
    let mut count = 0;
    for line in rest.split_inclusive('\n') {
        if count > 0 && line.starts_with("m=") {
            break;
        }
        size += line.len();
        count += 1;
    }
    let (lines, behind) = rest.split_at(size);
    *rest = behind;
    (lines, count)
}

/// A line without its end.
pub(super) fn without_end(line: &str) -> &str {
    let line = line.strip_suffix('\n').unwrap_or(line);
    line.strip_suffix('\r').unwrap_or(line)
}

const SPACES: [char; 2] = [' ', '\t'];

/// The next word; empty at the end.
pub(super) fn word<'a>(rest: &mut &'a str) -> &'a str {
    let from = rest.trim_start_matches(SPACES);
    let size = from.find(SPACES).unwrap_or(from.len());
    let (found, behind) = from.split_at(size);
    *rest = behind;
    found
}

/// The only word of a text. `None` if there is none, or more than one.
pub(super) fn only_word(mut rest: &str) -> Option<&str> {
    let found = word(&mut rest);
    (!found.is_empty() && trimmed(rest).is_empty()).then_some(found)
}

pub(super) fn trimmed(text: &str) -> &str {
    text.trim_matches(SPACES)
}

/// The text up to the first separator, and the text after it.
pub(super) fn parts(text: &str, separator: char) -> (&str, &str) {
    text.split_once(separator).unwrap_or((text, ""))
}

/// A number of digits alone, at most `most`.
pub(super) fn number(text: &str, most: u32) -> Option<u32> {
    let is_number = !text.is_empty() && text.bytes().all(|byte| byte.is_ascii_digit());
    let found = is_number.then(|| text.parse().ok()).flatten()?;
    (found <= most).then_some(found)
}

pub(super) fn byte(text: &str, most: u8) -> Option<u8> {
    u8::try_from(number(text, most.into())?).ok()
}
