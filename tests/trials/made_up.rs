//! Briefs that are made up, from a seed.

use crate::dice::Dice;

const ADDRESSES: [&str; 8] = ["0x48", "0x50", "0xX1", "0x3X", "0b1001000", "0b10x1x00", "d", "e"];

const BYTES: [&str; 9] = ["any", "0x00", "0xfF", "0xX0", "0x1X", "0b0011000x", "0b11110000", "p", "q"];

// Each controller as it is, or what it sends of the first message, which may be a family.
const NEVERS: [&str; 8] = [
    "never b a ;\n",
    "never b/m0 a ;\n",
    "never a/m0 b ;\n",
    "never b a/m0_1 ;\n",
    "never a/m0 b/m0 ;\n",
    "never a/m1 b ; never b/m0 a/m0 ;\n",
    "",
    "",
];

const COUNTS: [&str; 5] = ["1", "2", "007", "1..3", "2..16"];

/// A brief of two devices, two data bytes, and one to three messages of some frames, with who sends them. Most are briefs
/// of a plan; in some a message has too many bytes or ranges, or a label names what is not sent.
pub fn made_up(dice: &mut Dice) -> String {
    let mut text = String::from("brief 1\ndevice d 0x21 ; device e 0b011xx00 ;\n");
    text.push_str("byte p 0x5A ; byte q 0bxx00xx11 ;\n");
    let messages = dice.index(3) + 1;
    for k in 0..messages {
        text.push_str(&format!("message m{k} "));
        push_frames(&mut text, dice);
        text.push_str(";\n");
    }
    text.push_str("controller a");
    for k in 0..messages {
        text.push_str(&format!(" m{k}"));
    }
    text.push_str(" ; controller b m0 ;\n");
    text.push_str(dice.pick(&["interrupt t d ;\n", "interrupt t 0x0C ;\n", ""], ""));
    text.push_str(dice.pick(&NEVERS, ""));
    text
}

// What may stand next in the frames of a message.
#[derive(Clone, Copy)]
enum Next {
    Frame,
    // After a header, a count or a data byte, for which an `else` may stand.
    Refusal { in_write: bool },
    // After that.
    More { in_write: bool },
}

const MOST_STEPS: usize = 40;

fn push_frames(text: &mut String, dice: &mut Dice) {
    let mut next = Next::Frame;
    // For each parenthesis that is open, whether data bytes may follow it.
    let mut open = Vec::new();
    for _ in 0..=dice.index(MOST_STEPS) {
        next = push_next(text, next, &mut open, dice);
    }
    if let Next::Frame = next {
        push_header(text, dice);
    }
    text.push_str(&") ".repeat(open.len()));
}

fn push_next(text: &mut String, next: Next, open: &mut Vec<bool>, dice: &mut Dice) -> Next {
    match next {
        Next::Frame => push_header(text, dice),
        Next::Refusal { in_write } if dice.index(5) == 0 => {
            open.push(in_write);
            text.push_str("else ( ");
            Next::Frame
        }
        Next::Refusal { in_write } => {
            text.push_str(dice.pick(&["else stop ", "", ""], ""));
            Next::More { in_write }
        }
        Next::More { in_write: true } if dice.index(3) > 0 => push_data(text, dice),
        Next::More { .. } if dice.index(2) == 0 => match open.pop() {
            Some(in_write) => {
                text.push_str(") ");
                Next::More { in_write }
            }
            None => Next::Frame,
        },
        Next::More { .. } => Next::Frame,
    }
}

fn push_header(text: &mut String, dice: &mut Dice) -> Next {
    let to = dice.pick(&ADDRESSES, "");
    if dice.index(3) > 0 {
        text.push_str(&format!("write {to} "));
        return Next::Refusal { in_write: true };
    }
    text.push_str(&format!("read {to} {} ", dice.pick(&COUNTS, "")));
    Next::Refusal { in_write: false }
}

fn push_data(text: &mut String, dice: &mut Dice) -> Next {
    text.push_str(dice.pick(&BYTES, ""));
    if dice.index(16) == 0 {
        let least = dice.index(3);
        text.push_str(&format!("*{least}..{} ", least + dice.index(3)));
        return Next::Refusal { in_write: true };
    }
    match dice.index(6) {
        0 => text.push_str(&format!("*{} ", dice.index(6) + 1)),
        1 => text.push_str(&format!(" * {} ", dice.index(90) + 1)),
        _ => text.push(' '),
    }
    Next::Refusal { in_write: true }
}
