//! What the lines of a case file stand for.

use crate::unreadable::Unreadable;

/// The text of these lines, with `word` in the place of each `@`. Each line stands for itself and a line feed, where it has
/// no marks:
/// - `*N TEXT` is the line TEXT, N times;
/// - `{N*TEXT}` is TEXT, N times, within a line;
/// - `%` is the number of the repetition, from 0;
/// - a backslash at the end leaves out the line feed; `\n`, `\r` and `\t` are line feed, carriage return and tab, and
///   `\xHH` is the byte with these two hexadecimal digits.
pub fn text_of(lines: &str, word: &str) -> Result<Vec<u8>, Unreadable> {
    let mut text = Vec::new();
    for line in lines.split('\n') {
        put_line(&mut text, &line.replace('@', word))?;
    }
    Ok(text)
}

/// The text of one line, without its line feed.
pub fn words_of(line: &str, word: &str) -> Result<String, Unreadable> {
    let mut text = Vec::new();
    put_parts(&mut text, &line.replace('@', word), 0)?;
    String::from_utf8(text).map_err(|_| Unreadable("these words are no text"))
}

fn put_line(text: &mut Vec<u8>, line: &str) -> Result<(), Unreadable> {
    let (times, line) = repeated(line);
    let (line, end) = match line.strip_suffix('\\') {
        Some(line) => (line, ""),
        None => (line, "\n"),
    };
    for number in 0..times {
        put_parts(text, line, number)?;
        text.extend_from_slice(end.as_bytes());
    }
    Ok(())
}

// How often a line stands there, and the line.
fn repeated(line: &str) -> (u32, &str) {
    if let Some((number, rest)) = line.strip_prefix('*').and_then(|rest| rest.split_once(' ')) {
        if let Ok(times) = number.parse() {
            return (times, rest);
        }
    }
    (1, line)
}

// What stands outside braces is put once, and what stands in them as often as they say.
fn put_parts(text: &mut Vec<u8>, line: &str, number: u32) -> Result<(), Unreadable> {
    let mut parts = line.split('{');
    put_words(text, parts.next().unwrap_or(""), number)?;
    for part in parts {
        let (inner, rest) = part.split_once('}').ok_or(Unreadable("a brace has no end"))?;
        put_repeated(text, inner)?;
        put_words(text, rest, number)?;
    }
    Ok(())
}

fn put_repeated(text: &mut Vec<u8>, inner: &str) -> Result<(), Unreadable> {
    let (number, words) = inner.split_once('*').ok_or(Unreadable("braces hold no N*TEXT"))?;
    let times = number.parse().map_err(|_| Unreadable("braces begin with no number"))?;
    (0..times).try_for_each(|number| put_words(text, words, number))
}

// The words with a number in the place of each `%`.
fn put_words(text: &mut Vec<u8>, words: &str, number: u32) -> Result<(), Unreadable> {
    let mut parts = words.split('%');
    put_marked(text, parts.next().unwrap_or(""))?;
    for part in parts {
        text.extend_from_slice(number.to_string().as_bytes());
        put_marked(text, part)?;
    }
    Ok(())
}

// The words with a byte in the place of each backslash and its letter.
fn put_marked(text: &mut Vec<u8>, words: &str) -> Result<(), Unreadable> {
    let mut parts = words.split('\\');
    text.extend_from_slice(parts.next().unwrap_or("").as_bytes());
    for part in parts {
        let (byte, rest) = marked(part).ok_or(Unreadable("a backslash marks no byte"))?;
        text.push(byte);
        text.extend_from_slice(rest.as_bytes());
    }
    Ok(())
}

// The byte that this marks, and what stands after its mark.
fn marked(part: &str) -> Option<(u8, &str)> {
    let (letter, rest) = part.split_at_checked(1)?;
    match letter {
        "n" => Some((b'\n', rest)),
        "r" => Some((b'\r', rest)),
        "t" => Some((b'\t', rest)),
        "x" => {
            let (digits, rest) = rest.split_at_checked(2)?;
            Some((u8::from_str_radix(digits, 16).ok()?, rest))
        }
        _ => None,
    }
}
