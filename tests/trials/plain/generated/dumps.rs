//! Dumps that are made up, from a seed.

use super::super::dumps::{Change, Level, Signal};
use super::super::participants::Participants;
use super::super::plans::items_of;
use super::super::senders::{Place, Sender};
use super::super::wires::Item;
use crate::dice::Dice;

/// A dump of the lines `scl` and `sda`, in which each of the plan's participants starts in turn.
/// Most go through one of their texts from START to STOP, and now and then a bit is wrong, a level
/// unknown, or two changes come at one time.
pub fn dump(plan: &str, dice: &mut Dice) -> String {
    dump_of(&changes(plan, dice), dice)
}

/// The same with few mistakes, so that most participants send what they have to.
pub fn clean_dump(plan: &str, dice: &mut Dice) -> String {
    dump_of(&changes_at(FEW, plan, dice), dice)
}

/// A dump with these changes.
pub fn dump_of(changes: &[Change], dice: &mut Dice) -> String {
    let tokens = tokens_of(changes, dice);
    tokens.iter().map(|token| spaced(token, dice)).collect()
}

/// The beginning of such a dump in which one to three tokens are left out, put in or changed, at
/// times cut short.
pub fn wrong_dump(plan: &str, dice: &mut Dice) -> String {
    let mut changes = changes(plan, dice);
    changes.truncate(60);
    let tokens = tokens_of(&changes, dice);
    let places = [place(tokens.len(), dice), place(tokens.len(), dice), place(tokens.len(), dice)];
    let (wrong, _) = places.split_at(dice.index(places.len()) + 1);
    let end = if dice.throw(6) == 0 { place(tokens.len(), dice) } else { tokens.len() };
    let mut text = String::new();
    for (k, token) in tokens.iter().enumerate().take(end) {
        let stray = dice.pick(&STRAYS, "?");
        match (wrong.contains(&k), dice.throw(3)) {
            (true, 0) => {}
            (true, 1) => text += &spaced(stray, dice),
            (true, _) => text += &(spaced(stray, dice) + &spaced(token, dice)),
            (false, _) => text += &spaced(token, dice),
        }
    }
    text
}

// Some of these are wrong in each place, and some only in most places.
const STRAYS: [&str; 32] = [
    "$end",
    "$end",
    "$comment",
    "$dumpvars",
    "$dumpoff",
    "$dumpall",
    "$var",
    "$enddefinitions",
    "$",
    "$END",
    "#0",
    "#7",
    "#99",
    "#18446744073709551615",
    "#18446744073709551616",
    "#1x",
    "#",
    "1!",
    "Z\"",
    "U!",
    "1",
    "0\u{7f}",
    "b01",
    "B",
    "b2",
    "bZ",
    "r1.5",
    "R",
    "s",
    "sX",
    "wire",
    "\u{7f}",
];

// A place among tokens, often among the definitions.
fn place(count: usize, dice: &mut Dice) -> usize {
    let sides = if dice.throw(3) == 0 { 18 } else { count };
    dice.index(sides)
}

/// A token and white space behind it.
pub fn spaced(token: &str, dice: &mut Dice) -> String {
    let space = match dice.throw(8) {
        0 => "\n",
        1 => "\r\n\n",
        2 => "\t",
        _ => " ",
    };
    format!("{token}{space}")
}

const DEFINITIONS: &str = "$timescale 1ns $end $var wire 1 ! scl $end $var reg 1 \" sda [0] $end $enddefinitions $end";

// The tokens of a dump with these changes, and with blocks and commands among them.
fn tokens_of(changes: &[Change], dice: &mut Dice) -> Vec<String> {
    let mut text = String::from(DEFINITIONS);
    for change in changes {
        text += " ";
        text += &spelling(change, dice);
        text += match dice.throw(20) {
            0 => " $dumpvars $end",
            1 => " $comment #0 x! $end",
            2 => " r2.5 !",
            _ => "",
        };
    }
    text.split(' ').map(String::from).collect()
}

// A change as a dump has it, in one of several ways.
fn spelling(change: &Change, dice: &mut Dice) -> String {
    let (signal, level) = match change {
        Change::At(time) => return format!("#{time}"),
        Change::Takes(signal, level) => (signal, level),
    };
    let level = match (level, dice.throw(3)) {
        (Level::Low, 0) => "b0 ",
        (Level::Low, _) => "0",
        (Level::High, 0) => "Bx1 ",
        (Level::High, 1) => "z",
        (Level::High, _) => "1",
        (Level::Unknown, 0) => "b1X ",
        (Level::Unknown, _) => "x",
    };
    let code = if *signal == Signal::Scl { '!' } else { '"' };
    format!("{level}{code}")
}

// One of how many acknowledges is not, one of how many bits is wrong, changes come at one time, and
// levels are unknown.
#[derive(Clone, Copy)]
struct Odds {
    nack: u32,
    wrong: u32,
    together: u32,
    unknown: u32,
}

const MANY: Odds = Odds { nack: 6, wrong: 100, together: 60, unknown: 500 };

const FEW: Odds = Odds { nack: 16, wrong: 3_000, together: 3_000, unknown: 6_000 };

/// What happens on the wires when each of the plan's participants starts in turn.
pub fn changes(plan: &str, dice: &mut Dice) -> Vec<Change> {
    changes_at(MANY, plan, dice)
}

fn changes_at(odds: Odds, plan: &str, dice: &mut Dice) -> Vec<Change> {
    let mut wires = Wires { odds, changes: Vec::new(), time: 0 };
    if let Ok(items) = items_of(plan) {
        for participant in Participants::of(&items).all {
            wires.put(Item::Again, dice);
            wires.put_text(participant.sender, dice);
        }
    }
    wires.changes
}

struct Wires {
    odds: Odds,
    changes: Vec<Change>,
    time: u64,
}

impl Wires {
    // One of the texts of a participant. Targets mostly acknowledge.
    fn put_text(&mut self, sender: &Sender, dice: &mut Dice) {
        let mut place = Place::START;
        while !sender.is_over(place) {
            let item = match dice.pick(sender.offers(place), Item::Stop) {
                Item::Heard(_) => Item::Heard(dice.throw(self.odds.nack) == 0),
                item => item,
            };
            self.put(item, dice);
            place = sender.after(place, item);
        }
    }

    // What an item does with the wires. A claim is followed by a level and a STOP.
    fn put(&mut self, item: Item, dice: &mut Dice) {
        let (bit, levels) = match item {
            Item::Sent(bit) => (bit != (dice.throw(self.odds.wrong) == 0), "d1C"),
            Item::Heard(bit) => (bit, "d1C"),
            Item::Again => (true, "d1DC"),
            Item::Stop => (false, "d1D"),
            Item::Claim => (false, "1Cd1D"),
        };
        for step in levels.chars() {
            match step {
                'd' => self.take(Signal::Sda, bit, dice),
                'D' => self.take(Signal::Sda, !bit, dice),
                '1' => self.take(Signal::Scl, true, dice),
                _ => self.take(Signal::Scl, false, dice),
            }
        }
    }

    // A line takes a level, most often at a later time and sometimes one that nobody knows.
    fn take(&mut self, signal: Signal, high: bool, dice: &mut Dice) {
        if dice.throw(self.odds.together) != 0 {
            self.time += 1;
            self.changes.push(Change::At(self.time));
        }
        let level = match (dice.throw(self.odds.unknown), high) {
            (0, _) => Level::Unknown,
            (_, true) => Level::High,
            (_, false) => Level::Low,
        };
        self.changes.push(Change::Takes(signal, level));
    }
}
