//! Boards that are made up, from a seed: of one to three briefs, most of the second version. In half of them a slip is planted.

use crate::dice::Dice;
use crate::slips::{PRELUDE, SLIPS};

/// The briefs of a board, and the number of the slip in it.
pub struct Board {
    pub briefs: Vec<Vec<u8>>,
    pub slip: Option<usize>,
}

// Some stand there more than once, to come up more often.
const ADDRESSES: [&str; 7] = ["0x48", "0x50", "0xX1", "0b1001000", "a", "b", "e"];

const BYTES: [&str; 16] = [
    "any",
    "any",
    "0x00",
    "0xfF",
    "0xX0",
    "0b0011000x",
    "p",
    "p",
    "q",
    "pec",
    "pec",
    "sum",
    "sum",
    "sum",
    "0x5A",
    "0x01",
];

// A range or a choice, and the number of one of its messages.
const NUMBERS: [(&str, &str); 12] = [
    ("any*0..2", "0"),
    ("0x01*2..3", "3"),
    ("p * 0..1", "1"),
    ("q*007..8", "7"),
    ("0x02..0xFF", "7"),
    ("any but 0x01", "1"),
    ("any but 0x10..0x7f", "2"),
    ("0x5A..0x5a", "1"),
    ("0x03..0x08", "3"),
    ("", ""),
    ("", ""),
    ("", ""),
];

// What begins the items that a brief of the first version may have as well.
const OF_FIRST: [&str; 3] = ["controller", "interrupt", "never"];

// Heads that are none.
const HEADS: [&str; 6] = ["brief 3", "brief 2.", "brief", "", "brief \"2\"", "# \u{b0}C\nbrief 1"];

const COUNTS: [&str; 4] = ["1", "2", "1..3", "2..16"];

const COMMENTS: [&[u8]; 6] = [b"", b"", b"", b" # \xc2\xb0C", b" # \xff\x80 \"", b" # \"a ;"];

/// A board of some messages, with who sends them.
pub fn made_up_board(dice: &mut Dice) -> Board {
    let mut items = vec![PRELUDE.to_owned(), "group h b a ;".to_owned()];
    let mut messages = Vec::new();
    for k in 0..1 + dice.index(4) {
        let (item, names) = message(k, dice);
        items.push(item);
        messages.push(names);
    }
    let mut controllers = vec![("u", vec!["k".to_owned(), "l".to_owned(), "l_2".to_owned()]), ("v", Vec::new())];
    for name in ["x", "y", "z"] {
        let lists = listed(&messages, dice);
        items.push(format!("controller {name}{} ;", words(&lists)));
        controllers.push((name, lists));
    }
    items.push(dice.pick(&["interrupt t a ;", "interrupt t 0x0C ;", ""], "").to_owned());
    for _ in 0..dice.index(3) {
        items.push(extension(&mut controllers, &messages, dice));
    }
    for _ in 0..dice.index(4) {
        items.push(never(&controllers, &messages, dice));
    }
    if dice.index(8) == 0 {
        items.push(extension(&mut controllers, &messages, dice));
    }
    let slip = (dice.index(2) == 0).then(|| dice.index(SLIPS.len()));
    if let Some((_, item)) = slip.and_then(|slip| SLIPS.get(slip)) {
        items.insert(1 + dice.index(items.len()), (*item).to_owned());
    }
    let mut briefs = briefs_of(&items, dice);
    if dice.index(4) == 0 {
        name_files(&mut briefs, dice);
    }
    Board { briefs, slip }
}

// What the files of a board are called, and how heads may name them.
const NAMES: [&str; 3] = ["plan", "brief2", "brief3"];

// Heads name files of the board: most often those before, so that these stand there already.
fn name_files(briefs: &mut [Vec<u8>], dice: &mut Dice) {
    let count = briefs.len();
    for (k, brief) in briefs.iter_mut().enumerate() {
        let Some(head) = brief.windows(8).position(|bytes| bytes == b"brief 2\n") else {
            continue;
        };
        let mut named = String::new();
        for _ in 0..dice.index(4) {
            let before = if k > 0 && dice.index(8) > 0 { k } else { count };
            let name = NAMES[dice.index(before)];
            let folder = if dice.index(3) == 0 { "./" } else { "" };
            named += &match dice.index(40) {
                0 => "with \"none\" oops\n".to_owned(),
                1 => format!("with \"{name}\"\n"),
                2 => format!("with {name} ;\n"),
                _ => format!("with \"{folder}{name}\" ; # \"\n"),
            };
        }
        brief.splice(head + 8..head + 8, named.into_bytes());
    }
}

// What adds to a controller: mostly messages that it does not list.
fn extension(controllers: &mut [(&str, Vec<String>)], messages: &[Vec<String>], dice: &mut Dice) -> String {
    let (name, lists) = &mut controllers[dice.index(controllers.len())];
    let is_listed = |names: &[String]| names.iter().any(|name| lists.contains(name));
    let further: Vec<Vec<String>> =
        messages.iter().filter(|names| !is_listed(names) || dice.index(40) == 0).cloned().collect();
    let further = listed(&further, dice);
    let item = format!("extend {name}{} ;", words(&further));
    lists.extend(further);
    item
}

// Two controllers, each with a label as often as not: of what it lists, or of what belongs to that.
fn never(controllers: &[(&str, Vec<String>)], messages: &[Vec<String>], dice: &mut Dice) -> String {
    let first = dice.index(controllers.len());
    let second = match dice.index(30) {
        0 => first,
        _ => (first + 1 + dice.index(controllers.len() - 1)) % controllers.len(),
    };
    let mut side = |place: usize| {
        let (name, lists) = &controllers[place];
        let lists: Vec<&str> = lists.iter().map(String::as_str).collect();
        let one = dice.pick(&lists, "");
        let of_one = messages.iter().find(|names| names.iter().any(|name| name == one));
        let names: Vec<&str> = of_one.map_or(vec![one], |names| names.iter().map(String::as_str).collect());
        match dice.pick(&names, "") {
            label if !label.is_empty() && dice.index(2) == 0 => format!("{name}/{label}"),
            _ => (*name).to_owned(),
        }
    };
    let (one, other) = (side(first), side(second));
    format!("never {one} {other} ;")
}

fn words(names: &[String]) -> String {
    names.iter().map(|name| format!(" {name}")).collect()
}

// The items in one to three briefs. What has controllers alone may be one of the first version.
fn briefs_of(items: &[String], dice: &mut Dice) -> Vec<Vec<u8>> {
    let mut briefs = Vec::new();
    let mut rest = items;
    for left in (0..=dice.index(3)).rev() {
        let count = if left == 0 { rest.len() } else { 1 + dice.index(rest.len()) };
        let (first, others) = rest.split_at(count.min(rest.len()));
        let is_plain = first.iter().all(|item| OF_FIRST.iter().any(|word| item.starts_with(word)) || item.is_empty());
        let is_first = is_plain && dice.index(3) > 0;
        let head = if is_first { "brief 1" } else { "brief 2" };
        let head = if dice.index(40) == 0 { dice.pick(&HEADS, "") } else { head };
        briefs.push(brief_of(first, head, dice));
        rest = others;
    }
    briefs
}

fn brief_of(items: &[String], head: &str, dice: &mut Dice) -> Vec<u8> {
    let mut brief = Vec::new();
    if head == "brief 2" && dice.index(4) == 0 {
        brief.extend_from_slice(b"# \xc2\xb5s\n");
    }
    for item in [head.to_owned()].iter().chain(items) {
        brief.extend_from_slice(item.as_bytes());
        if head == "brief 2" {
            brief.extend_from_slice(dice.pick(&COMMENTS, b""));
        }
        brief.push(b'\n');
    }
    brief
}

// What a controller lists: of some messages the family, or a single message; now and then what stands nowhere, or twice.
fn listed(messages: &[Vec<String>], dice: &mut Dice) -> Vec<String> {
    let mut listed = Vec::new();
    for names in messages {
        if dice.index(3) > 0 {
            let count = if dice.index(60) == 0 { 2 } else { 1 };
            listed.extend((0..count).map(|_| names[dice.index(names.len())].clone()));
        }
    }
    if dice.index(40) == 0 {
        listed.push("m0_c".to_owned());
    }
    listed
}

// A message, and names that stand for what it makes.
fn message(k: usize, dice: &mut Dice) -> (String, Vec<String>) {
    let (range, one) = dice.pick(&NUMBERS, ("", ""));
    let group = dice.pick(&GROUPS, "");
    let mut maker = Maker { dice, range, group, has_group: false };
    let frames = maker.frames(0);
    let (has_range, has_group) = (range != maker.range, maker.has_group);
    let mut names = vec![format!("m{k}")];
    if has_group {
        names = vec![format!("m{k}"), format!("m{k}_a"), format!("m{k}_b")];
    }
    if has_range {
        let numbered: Vec<String> = names.iter().skip(usize::from(has_group)).map(|name| format!("{name}_{one}")).collect();
        names.extend(numbered);
    }
    (format!("message m{k} {frames} ;"), names)
}

// Which group may stand in a message.
const GROUPS: [&str; 4] = ["g", "h", "", ""];

struct Maker<'a> {
    dice: &'a mut Dice,
    // the range that is still to come
    range: &'static str,
    // the group that may stand there, and whether it does
    group: &'static str,
    has_group: bool,
}

impl Maker<'_> {
    fn frames(&mut self, depth: usize) -> String {
        let count = 1 + self.dice.index(3) / 2 + usize::from(depth == 0 && self.dice.index(3) == 0);
        let frames: Vec<String> = (0..count).map(|_| self.frame(depth)).collect();
        frames.join(" ")
    }

    fn frame(&mut self, depth: usize) -> String {
        if self.dice.index(4) == 0 {
            let (to, count) = (self.to(), self.dice.pick(&COUNTS, ""));
            return format!("read {to} {count}{}", self.refused(depth));
        }
        let mut frame = format!("write {}{}", self.to(), self.refused(depth));
        for _ in 0..self.dice.index(5) {
            let byte = self.byte();
            frame.push_str(&format!(" {byte}{}", self.refused(depth)));
        }
        frame
    }

    fn to(&mut self) -> &'static str {
        if !self.group.is_empty() && self.dice.index(3) == 0 {
            self.has_group = true;
            return self.group;
        }
        self.dice.pick(&ADDRESSES, "")
    }

    fn byte(&mut self) -> String {
        if !self.range.is_empty() && self.dice.index(3) == 0 {
            let range = self.range;
            if self.dice.index(30) > 0 {
                self.range = "";
            }
            return range.to_owned();
        }
        if self.dice.index(5) == 0 {
            return format!("{}({})", self.dice.pick(&["wr", "rd"], ""), self.to());
        }
        let byte = self.dice.pick(&BYTES, "");
        match self.dice.index(8) {
            0 if byte != "pec" && byte != "sum" => format!("{byte}*{}", 1 + self.dice.index(4)),
            _ => byte.to_owned(),
        }
    }

    fn refused(&mut self, depth: usize) -> String {
        match self.dice.index(8) {
            0 if depth < 2 => format!(" else ({})", self.frames(depth + 1)),
            1 => " else stop".to_owned(),
            _ => String::new(),
        }
    }
}
