//! Texts that are changed in some places: a byte here, a word there.

use crate::dice::Dice;

const BYTES: [u8; 47] = *b" \n\t\r\x0b\x0c;#.$!\"01234578xXzZbBrRlhsSPDEa_Azcv%\x00\x7f\x80\xe9'";

/// The text with one to three changes, most often one: of a bit, of some bytes or of a word.
pub fn mutated(text: &[u8], words: &[&'static str], dice: &mut Dice) -> Vec<u8> {
    let mut text = text.to_owned();
    let changes = dice.index(3) * dice.index(2);
    for _ in 0..=changes {
        text = match dice.index(3) {
            0 => with_a_bit_changed(&text, dice),
            1 => with_bytes_changed(&text, dice),
            _ => with_words_changed(&text, words, dice),
        };
    }
    text
}

// Another digit of a pattern in the place of the next one after some place.
fn with_a_bit_changed(text: &[u8], dice: &mut Dice) -> Vec<u8> {
    let (before, rest) = text.split_at(dice.index(text.len() + 1));
    let place = rest.iter().position(|byte| matches!(byte, b'0' | b'1' | b'x')).unwrap_or(0);
    let (between, rest) = rest.split_at(place);
    let mut changed = [before, between].concat();
    if let Some((_, rest)) = rest.split_first() {
        changed.push(dice.pick(b"01x", b'0'));
        changed.extend_from_slice(rest);
    }
    changed
}

fn with_bytes_changed(text: &[u8], dice: &mut Dice) -> Vec<u8> {
    let (before, rest) = text.split_at(dice.index(text.len() + 1));
    let few = dice.index(8).min(rest.len());
    let (some, behind) = rest.split_at(few);
    let without_first = rest.get(1..).unwrap_or(b"");
    match dice.index(8) {
        // one byte in the place of another, or before it
        0 | 1 => [before, &[dice.pick(&BYTES, b'?')], without_first].concat(),
        2 => [before, &[dice.pick(&BYTES, b'?')], rest].concat(),
        3 => [before, &[dice.index(256) as u8], without_first].concat(),
        4 => [before, without_first].concat(),
        5 => [before, behind].concat(),
        6 => [before, some, rest].concat(),
        // the end of the text, now and then
        _ if dice.index(4) > 0 => [before, behind, some].concat(),
        _ => before.to_owned(),
    }
}

// The words of the text, and what stands between them.
fn pieces_of(text: &[u8]) -> Vec<&[u8]> {
    text.chunk_by(|one, other| is_white(*one) == is_white(*other)).collect()
}

fn is_white(byte: u8) -> bool {
    byte == b' ' || byte == b'\n'
}

fn with_words_changed(text: &[u8], words: &[&'static str], dice: &mut Dice) -> Vec<u8> {
    let pieces = pieces_of(text);
    let place = dice.index(pieces.len());
    let other = dice.pick(&pieces, b"");
    let similar = similar_piece(&pieces, place, dice);
    let stray = dice.pick(words, "?").as_bytes();
    let way = dice.index(10);
    let mut changed = Vec::new();
    for (k, piece) in pieces.iter().enumerate() {
        if k != place {
            changed.extend_from_slice(piece);
            continue;
        }
        match way {
            0 => {}
            1 | 2 => changed.extend_from_slice(stray),
            3 => push_two(&mut changed, stray, piece),
            4 => push_two(&mut changed, piece, stray),
            5 => push_two(&mut changed, piece, piece),
            6 => changed.extend_from_slice(other),
            _ => changed.extend_from_slice(similar),
        }
    }
    changed
}

// Another piece as long as the one in this place, or that one where none was found.
fn similar_piece<'a>(pieces: &[&'a [u8]], place: usize, dice: &mut Dice) -> &'a [u8] {
    let old = pieces.get(place).copied().unwrap_or(b"");
    for _ in 0..20 {
        let piece = dice.pick(pieces, old);
        if piece.len() == old.len() && piece != old {
            return piece;
        }
    }
    old
}

fn push_two(text: &mut Vec<u8>, first: &[u8], second: &[u8]) {
    text.extend_from_slice(first);
    text.push(b' ');
    text.extend_from_slice(second);
}
