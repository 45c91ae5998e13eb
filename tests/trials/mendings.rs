//! Unsafe plans and boards that are made up: what twire offers to mend them, and the plain programs.

use crate::boards::made_up_board;
use crate::cases::Asked;
use crate::changed::{readable, Lot};
use crate::commands::Command;
use crate::crew::Crew;
use crate::decodings::{in_objects, try_run};
use crate::dice::Dice;
use crate::disagreements::Score;
use crate::made_up::made_up;
use crate::plain::{self, generated, offers};
use crate::plainly::said_plainly;
use crate::seeds::mixed;
use crate::tallies::Tallies;
use std::collections::HashMap;
use std::io;

// Each of these is to come up, where so many are tried. (The plain programs choose no `never` items.)
const WANTED: [&str; 7] = ["count", "known", "bit", "read", "pointer", "address", "length"];

const ENOUGH: u64 = 500;

/// Tries so many.
pub fn try_mendings(crew: &mut Crew, score: &mut Score, lot: Lot) -> io::Result<()> {
    let numbers: Vec<u64> = (0..lot.number).collect();
    let tried = crew.each(&numbers, |desk, number| {
        let mut dice = Dice { state: mixed(lot.seed.rotate_left(24), *number) };
        let asked = next_unsafe(&mut dice);
        let name = shown(*number, &asked);
        Ok((kinds_of(&asked), try_run(desk, &name, asked, &in_objects(true))?))
    })?;
    let mut tallies = Tallies::default();
    let before = score.wrong;
    for (kinds, disagreement) in tried {
        kinds.into_iter().for_each(|kind| tallies.count(kind.to_owned()));
        score.count(&[disagreement]);
    }
    println!("{} plans that are to be mended, {} disagreements", lot.number, score.wrong - before);
    let rare = if lot.number < ENOUGH { Vec::new() } else { tallies.rare_of(&WANTED) };
    for (kind, found) in rare {
        score.fail(&format!("too few offers of the kind {kind}: {found}"));
    }
    Ok(())
}

/// A check of the next one that is made up and unsafe.
pub fn next_unsafe(dice: &mut Dice) -> Asked {
    loop {
        let mut briefs = match dice.index(6) {
            0 => vec![generated::plan(dice).into_bytes()],
            1 => vec![named_apart(made_up(dice).into_bytes())],
            2 => made_up_board(dice).briefs.into_iter().map(named_apart).collect(),
            3 => vec![plain::spelling(related(dice).concat().as_bytes()).into_bytes()],
            4 => {
                let [items, senders] = related(dice);
                vec![items.into_bytes(), format!("brief 1 {senders}").into_bytes()]
            }
            _ => vec![related(dice).concat().into_bytes()],
        };
        if dice.index(8) == 0 {
            briefs.iter_mut().for_each(|text| *text = with_carriage_returns(text));
        }
        if let (0, Some(last)) = (dice.index(8), briefs.last_mut()) {
            last.truncate(last.trim_ascii_end().len());
        }
        let asked = Asked::of_briefs(Command::Check { workers: 1 }, briefs);
        if said_plainly(&asked).status == 1 {
            return asked;
        }
    }
}

const ADDRESSES: [&str; 6] = ["d", "d", "d", "0x50", "0b101000x", "g"];

const REGISTERS: [&str; 5] = ["0x01", "0x01", "p", "any", "0x0X"];

const DATA: [&str; 15] = [
    "",
    "any",
    "any any",
    "any*2",
    "any*4",
    "any # why\n *4",
    "any any*1..2 sum",
    "0x01",
    "0x01 0x0X",
    "0x0X*3",
    "any pec",
    "any*1..2",
    "0x01..0x03 any",
    "any*3 else stop",
    "0x01 else (read d 1)",
];

const COUNTS: [&str; 7] = ["1", "1", "2", "1..2", "1..3", "2..4", "3..34"];

/// Messages of one device that begin alike, and who sends them: a brief of the second version, in two parts.
pub fn related(dice: &mut Dice) -> [String; 2] {
    let mut text = String::from("brief 2\ndevice d 0x50 ; device e 0x51 ; group g d e ; byte p 0x0X ;\n");
    for name in ["r", "s", "t", "u"] {
        let (to, register) = (dice.pick(&ADDRESSES, ""), dice.pick(&REGISTERS, ""));
        let (data, count) = (dice.pick(&DATA, ""), dice.pick(&COUNTS, ""));
        let frames = match dice.index(6) {
            0 => format!("write {to}"),
            1 => format!("write {to} {register} read {to} {count}"),
            2 => format!("read {to} {count}"),
            3 => format!("read {to} {count} write {to} {data}"),
            4 => format!("write {to} {register} {data}"),
            _ => format!("write {to} {data}"),
        };
        text += &format!("message {name} {frames} ; # \u{b0}\n");
    }
    let interrupt = dice.pick(&["", "", "interrupt i d ;", "interrupt i 0x0C ; interrupt j 0x51 ;"], "");
    [
        text,
        format!(
            "controller a r s ;\ncontroller b {} ;\ncontroller c u ;\n{interrupt}\n",
            dice.pick(&["t", "t", "s t"], "")
        ),
    ]
}

fn with_carriage_returns(text: &[u8]) -> Vec<u8> {
    let lines: Vec<&[u8]> = text.split(|byte| *byte == b'\n').collect();
    lines.join(b"\r\n".as_slice())
}

/// The messages m0, m1 and so on, by names that make them no family.
pub fn named_apart(mut text: Vec<u8>) -> Vec<u8> {
    for k in 1..text.len() {
        if text[k - 1] == b'm' && text[k].is_ascii_digit() {
            text[k] += b'p' - b'0';
        }
    }
    text
}

fn kinds_of(asked: &Asked) -> Vec<&'static str> {
    let mending = offers::mending(&asked.sources(), &HashMap::new());
    mending.groups.iter().flat_map(|(_, offers)| offers.iter().map(|offer| offer.kind)).collect()
}

fn shown(number: u64, asked: &Asked) -> String {
    let files = asked.briefs();
    let files = files.iter().map(|file| format!("\n-- {}\n{}", file.name, readable(file.text)));
    format!("to be mended {number}{}", files.collect::<String>())
}
