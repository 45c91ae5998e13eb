//! Boards in which several slips are planted, from a seed: items that are half typed, without a `;`, with wrong words, numbers and
//! characters, and names that stand nowhere or twice. What follows from a slip is planted too, and is none.

use crate::dice::Dice;

/// The briefs of a board, and the slips in them, in the order of the texts.
pub struct Planted {
    pub briefs: Vec<Vec<u8>>,
    pub slips: Vec<Slip>,
}

/// A token that is refused: the code, the number of its brief, and how many bytes of that stand before it.
#[derive(Clone, Copy, Debug, PartialEq, Eq)]
pub struct Slip {
    pub code: &'static str,
    pub file: usize,
    pub byte: usize,
}

// What stands before the token that is refused, in what is planted.
const MARK: char = '^';

// What may be told: the items of which one is refused may name it, and are read on; or they are passed over in silence.
#[derive(Clone, Copy, PartialEq, Eq)]
enum State {
    Right,
    // its own item was refused
    Known,
    // nothing but the name is known, and not of what it is
    Dim,
}

#[derive(Clone)]
struct Name {
    name: String,
    state: State,
}

#[derive(Clone)]
struct Controller {
    name: Name,
    lists: Vec<String>,
}

#[derive(Default)]
struct Names {
    devices: Vec<Name>,
    bytes: Vec<Name>,
    messages: Vec<Name>,
    // families that were refused
    families: Vec<String>,
    controllers: Vec<Controller>,
    interrupts: Vec<Name>,
    pairs: Vec<(String, String)>,
    count: usize,
}

// An item as it is planted: its text, with a mark where it has a slip; whether it has no `;`; and what it gives a name to.
struct Item {
    text: String,
    code: Option<&'static str>,
    is_open: bool,
    // whether nothing may follow on its line
    ends_line: bool,
}

// With `N` for its name, `D` for a device and `B` for a byte.
const DEVICES: [(&str, &str); 9] = [
    ("P3", "device N ^;"),
    ("P3", "device N ^0x80 ;"),
    ("P3", "device N ^0x1g ;"),
    ("P3", "device N ^N 0x10 ;"),
    ("P3", "device N ^@ 0x10 ;"),
    ("P3", "device N 0x10 ^- ;"),
    ("P1", "device N 0x10 ^\u{b0}\u{b5} ;"),
    ("P3", "device N 0x10 ^0x11 0x12 ;"),
    ("P3", "device N ^any ;"),
];

const BYTES: [(&str, &str); 5] = [
    ("P3", "byte N ^;"),
    ("P3", "byte N ^0x1 ;"),
    ("P3", "byte N ^any ;"),
    ("P1", "byte N ^\u{b0} 0x10 ;"),
    ("P3", "byte N 0x10 ^* 2 ;"),
];

const MESSAGES: [(&str, &str); 22] = [
    ("P3", "message N ^;"),
    ("P3", "message N ^wrte D B ;"),
    ("P8", "message N write ^none B ;"),
    ("P8", "message N write D B ^none any else stop ;"),
    ("P8", "message N write D any read ^none 1 ;"),
    ("P4", "message N write D any*^256 ;"),
    ("P4", "message N write D any*^0 0x01*300 ;"),
    ("P4", "message N write D B any*^2..1 ;"),
    ("P4", "message N read D ^0 ;"),
    ("P3", "message N read D ^x ;"),
    ("P3", "message N read D ^;"),
    ("P3", "message N write D B else ^stp any ;"),
    ("P3", "message N write D else (read D 1 ^;"),
    ("P5", "message N write D any*250 any*^9 ;"),
    ("P5", "message N write D any*255 ^B ;"),
    ("P3", "message N write D ^@ B ;"),
    ("P1", "message N write D B ^\u{b0} any ;"),
    ("P3", "message N write D B*^B ;"),
    ("P3", "message N write D any*1..2 any*^1..2 ;"),
    ("P3", "message N write D B ^) any ;"),
    ("P3", "message N write D 0x10 ^0x100 B ;"),
    ("P3", "message N write ^0x80 0x10 ;"),
];

// Of the second version.
const LATER: [(&str, &str); 5] = [
    ("P3", "message N write D pec^*2 ;"),
    ("P8", "message N write D wr(^none) ;"),
    ("P3", "message N write D rd ^0x10 sum ;"),
    ("P3", "message N write D ^\"a;b\" ;"),
    ("P3", "message N write D B sum ^but 0x01 ;"),
];

// Items that are right.
const RIGHT: [&str; 8] = [
    "message N write D B any ;",
    "message N write D B else stop any*3 ;",
    "message N read D 1..3 ;",
    "message N write D B read D 2 else (write D any) ;",
    "message N write 0x1X\n  B*2 else (read D 1) ;",
    "message N write D any*1..2 ;",
    "message N write D ;",
    "message N write D B any B*2..3 ;",
];

/// A board with slips.
pub fn planted_board(dice: &mut Dice) -> Planted {
    let mut names = Names::default();
    let mut planted = Planted { briefs: Vec::new(), slips: Vec::new() };
    let files = 1 + dice.index(3);
    for file in 0..files {
        let version = 1 + dice.index(2);
        let mut text = format!("brief {version}\n");
        let mut open = None;
        let count = 4 + dice.index(14);
        for k in 0..count {
            let item = if open.is_some() {
                names.right(version, dice)
            } else if k < 3 && file == 0 {
                names.first(k)
            } else {
                names.item(version, dice)
            };
            if let Some(code) = open {
                planted.slips.push(Slip { code, file, byte: text.len() });
            }
            let start = text.len();
            match item.text.split_once(MARK) {
                Some((before, after)) => {
                    text.push_str(before);
                    planted.slips.extend(item.code.map(|code| Slip { code, file, byte: start + before.len() }));
                    text.push_str(after);
                }
                None => text.push_str(&item.text),
            }
            open = item.is_open.then_some("P3");
            if item.ends_line {
                text.push('\n');
            } else if version == 1 && !item.is_open && dice.index(12) == 0 {
                text.push_str(" # 85 ");
                planted.slips.push(Slip { code: "P1", file, byte: text.len() });
                text.push_str("\u{b0}C \u{b5}\n");
            } else {
                text.push_str(dice.pick(&["\n", "\n", "\n", " ", " # ; @ device\n", "\n\n\t"], "\n"));
            }
        }
        if let Some(code) = open {
            planted.slips.push(Slip { code, file, byte: text.len() });
        }
        planted.briefs.push(text.into_bytes());
    }
    planted
}

impl Names {
    fn new_name(&mut self, letter: &str) -> String {
        self.count += 1;
        format!("{letter}{}", self.count)
    }

    // What all boards have.
    fn first(&mut self, k: usize) -> Item {
        let state = State::Right;
        match k {
            0 => {
                self.devices.push(Name { name: "d".to_owned(), state });
                right("device d 0x48 ;")
            }
            1 => {
                self.bytes.push(Name { name: "b".to_owned(), state });
                right("byte b 0x01 ;")
            }
            _ => {
                self.messages.push(Name { name: "m".to_owned(), state });
                right("message m write d b ;")
            }
        }
    }

    // An item that is right, and names nothing of which nothing is known.
    fn right(&mut self, version: usize, dice: &mut Dice) -> Item {
        match dice.index(4) {
            0 => {
                let name = self.new_name("d");
                let item = right(&format!("device {name} 0x{:02x} ;", 0x10 + dice.index(0x50)));
                self.devices.push(Name { name, state: State::Right });
                item
            }
            1 => {
                let name = self.new_name("b");
                let item = right(&format!("byte {name} 0b0011000x ;"));
                self.bytes.push(Name { name, state: State::Right });
                item
            }
            _ => {
                let template = match dice.index(4) {
                    0 if version == 2 => "message N write D wr(D) pec sum ;",
                    _ => dice.pick(&RIGHT, ""),
                };
                let name = self.new_name("m");
                let item = right(&self.filled(template, &name, dice));
                self.messages.push(Name { name, state: State::Right });
                item
            }
        }
    }

    // An item, perhaps with a slip, or with names that stand for nothing since their items were refused.
    fn item(&mut self, version: usize, dice: &mut Dice) -> Item {
        match dice.index(12) {
            0 | 1 => self.right(version, dice),
            2 => self.device(dice),
            3 => self.byte(dice),
            4..=6 => self.message(version, dice),
            7 => self.controller(dice),
            8 => self.interrupt(dice),
            9 => self.never(dice),
            10 => self.follower(dice),
            _ => self.odd(version, dice),
        }
    }

    // With a name, a device and a byte in their places.
    fn filled(&self, template: &str, name: &str, dice: &mut Dice) -> String {
        let device = picked(&self.devices, dice);
        let byte = picked(&self.bytes, dice);
        template.replace('N', name).replace('D', &device).replace('B', &byte)
    }

    fn device(&mut self, dice: &mut Dice) -> Item {
        let (code, template) = dice.pick(&DEVICES, ("", ""));
        let name = self.new_name("d");
        let item = self.slip(code, template, &name, dice);
        self.devices.push(Name { name, state: State::Known });
        item
    }

    fn byte(&mut self, dice: &mut Dice) -> Item {
        let (code, template) = dice.pick(&BYTES, ("", ""));
        let name = self.new_name("b");
        let item = self.slip(code, template, &name, dice);
        self.bytes.push(Name { name, state: State::Known });
        item
    }

    fn message(&mut self, version: usize, dice: &mut Dice) -> Item {
        let (code, template) = match dice.index(4) {
            0 if version == 2 => dice.pick(&LATER, ("", "")),
            _ => dice.pick(&MESSAGES, ("", "")),
        };
        let name = self.new_name("m");
        let item = self.slip(code, template, &name, dice);
        self.families.push(name.clone());
        self.messages.push(Name { name, state: State::Known });
        item
    }

    fn slip(&self, code: &'static str, template: &str, name: &str, dice: &mut Dice) -> Item {
        let text = self.filled(template, name, dice);
        Item { text, code: Some(code), is_open: false, ends_line: false }
    }

    // Some messages, which no family has twice.
    fn listed(&self, dice: &mut Dice) -> Vec<String> {
        let known = self.messages.iter().filter(|one| one.state != State::Dim);
        let mut list: Vec<String> = known.map(|one| one.name.clone()).collect();
        list.retain(|_| dice.index(3) == 0);
        list
    }

    fn controller(&mut self, dice: &mut Dice) -> Item {
        let name = self.new_name("c");
        let mut lists = self.listed(dice);
        lists.push("m".to_owned());
        lists.dedup();
        lists.retain({
            let mut has_one = false;
            move |one| one != "m" || !std::mem::replace(&mut has_one, true)
        });
        let all = lists.join(" ");
        if self.controllers.len() > 12 {
            return self.right(1, dice);
        }
        let (code, text) = match dice.index(7) {
            0 => ("P8", format!("controller {name} {all} ^none m ;")),
            1 => ("P7", format!("controller {name} {all} ^m none ;")),
            2 => ("P3", format!("controller {name} {all} ^0x10 ;")),
            3 => ("P3", format!("controller {name} ^@ {all} ;")),
            _ => {
                let text = format!("controller {name} {all} ;");
                self.controllers.push(Controller { name: Name { name, state: State::Right }, lists });
                return right(&text);
            }
        };
        let lists = Vec::new();
        self.controllers.push(Controller { name: Name { name, state: State::Known }, lists });
        Item { text, code: Some(code), is_open: false, ends_line: false }
    }

    fn interrupt(&mut self, dice: &mut Dice) -> Item {
        if self.interrupts.len() > 12 {
            return self.right(1, dice);
        }
        let name = self.new_name("i");
        let (code, template) = match dice.index(5) {
            0 => (Some("P3"), "interrupt N ^0x1X ;"),
            1 => (Some("P8"), "interrupt N ^none ;"),
            2 => (Some("P3"), "interrupt N D ^D ;"),
            _ => (None, "interrupt N D ;"),
        };
        let text = self.filled(template, &name, dice);
        let state = if code.is_some() { State::Known } else { State::Right };
        self.interrupts.push(Name { name, state });
        Item { text, code, is_open: false, ends_line: false }
    }

    // Two controllers that stand in no `never` yet.
    fn two(&self, dice: &mut Dice) -> Option<(Controller, Controller)> {
        let one = self.controllers.get(dice.index(self.controllers.len()))?;
        let other = self.controllers.get(dice.index(self.controllers.len()))?;
        let has = |pair: &(String, String)| {
            let (first, second) = (&one.name.name, &other.name.name);
            pair.0 == *first && pair.1 == *second || pair.0 == *second && pair.1 == *first
        };
        if one.name.name == other.name.name || self.pairs.iter().any(has) {
            return None;
        }
        Some((one.clone(), other.clone()))
    }

    fn never(&mut self, dice: &mut Dice) -> Item {
        let Some((one, other)) = self.two(dice) else {
            return self.right(1, dice);
        };
        let (first, second) = (one.name.name, other.name.name);
        let (code, text) = match dice.index(8) {
            0 => ("P8", format!("never ^none {second} ;")),
            1 => ("P8", format!("never {first} ^none ;")),
            2 => ("P7", format!("never {first} ^{first} ;")),
            3 => ("P3", format!("never {first} ^;")),
            4 if one.name.state == State::Right => ("P8", format!("never ^{first}/none {second} ;")),
            5 if one.name.state == State::Right && !one.lists.is_empty() => {
                // its part has the name of no controller, whether the item is right or not
                ("P8", format!("never {first}/{} ^none ;", one.lists[dice.index(one.lists.len())]))
            }
            6 if one.name.state == State::Right && !one.lists.is_empty() => {
                let text = format!("never {second} {first}/{} ;", one.lists[dice.index(one.lists.len())]);
                self.pairs.push((first, second));
                return right(&text);
            }
            _ => {
                let text = format!("never {first} {second} ;");
                self.pairs.push((first, second));
                return right(&text);
            }
        };
        Item { text, code: Some(code), is_open: false, ends_line: false }
    }

    // What is refused only since another item is.
    fn follower(&mut self, dice: &mut Dice) -> Item {
        let family = self.families.get(dice.index(self.families.len())).cloned();
        let refused = self.controllers.iter().find(|one| one.name.state == State::Known).cloned();
        let dim = |names: &[Name]| names.iter().find(|one| one.state == State::Dim).map(|one| one.name.clone());
        let (device, message) = (dim(&self.devices), dim(&self.messages));
        match (dice.index(6), family, refused) {
            (0, Some(family), _) => {
                let name = self.new_name("c");
                let text = format!("controller {name} {family}_9 none ;");
                self.controllers.push(Controller { name: Name { name, state: State::Known }, lists: Vec::new() });
                right(&text)
            }
            (1, _, Some(one)) => right(&format!("never {}/m none ;", one.name.name)),
            (2, _, _) if device.is_some() => {
                let name = self.new_name("m");
                let text = format!("message {name} write {} none any*256 ;", device.unwrap_or_default());
                self.families.push(name.clone());
                self.messages.push(Name { name, state: State::Known });
                right(&text)
            }
            (3, _, _) if message.is_some() => {
                let name = self.new_name("c");
                let text = format!("controller {name} {} none ;", message.unwrap_or_default());
                self.controllers.push(Controller { name: Name { name, state: State::Known }, lists: Vec::new() });
                right(&text)
            }
            // the name of an item that was refused, once more
            (4, _, Some(one)) => right(&format!("controller {} m none ;", one.name.name)),
            (_, _, _) => match self.devices.iter().find(|one| one.state == State::Known) {
                Some(one) => right(&format!("device {} 0x1g ;", one.name)),
                None => self.right(1, dice),
            },
        }
    }

    // Slips of other kinds: names that stand already, words that begin no item, and `;` that are missing.
    fn odd(&mut self, version: usize, dice: &mut Dice) -> Item {
        let of = |code, text: String| Item { text, code: Some(code), is_open: false, ends_line: false };
        let on_line = |code, text: &str| Item { ends_line: true, ..of(code, text.to_owned()) };
        match dice.index(11) {
            0 => of("P7", format!("device ^{} 0x1g ;", self.first_right(&self.devices, dice))),
            1 => of("P7", format!("byte ^{} 0x10 ;", self.first_right(&self.bytes, dice))),
            2 => {
                let name = self.first_right(&self.messages, dice);
                self.families.push(name.clone());
                of("P7", format!("message ^{name} write none any*1..2 ;"))
            }
            3 => {
                let name = self.new_name("d");
                let text = format!("^devise {name} 0x10 ;");
                self.devices.push(Name { name, state: State::Dim });
                of("P3", text)
            }
            4 => {
                let name = self.new_name("m");
                let text = self.filled("^Message N write D none ;", &name, dice);
                self.messages.push(Name { name, state: State::Dim });
                of("P3", text)
            }
            5 => of("P3", "^;".to_owned()),
            6 => on_line("P3", "^@"),
            7 if version == 2 => of("P3", "^\"a.brief\" ;".to_owned()),
            7 => on_line("P1", "^\u{b0}\u{b5}"),
            8 => self.half_typed(dice),
            _ => self.without_end(version, dice),
        }
    }

    // An item that is right but for its `;`.
    fn without_end(&mut self, version: usize, dice: &mut Dice) -> Item {
        let mut item = self.right(version, dice);
        item.text.truncate(item.text.trim_end_matches(';').trim_end().len());
        item.is_open = true;
        let last = |names: &mut Vec<Name>| {
            if let Some(one) = names.last_mut().filter(|one| item.text.contains(&format!(" {} ", one.name))) {
                one.state = State::Known;
            }
        };
        match item.text.split(' ').next() {
            Some("device") => last(&mut self.devices),
            Some("byte") => last(&mut self.bytes),
            _ => {
                last(&mut self.messages);
                self.families.extend(self.messages.last().map(|one| one.name.clone()));
            }
        }
        item
    }

    // An item that ends too early, and has no `;`.
    fn half_typed(&mut self, dice: &mut Dice) -> Item {
        let (template, letter) = dice.pick(
            &[
                ("device N", "d"),
                ("byte N", "b"),
                ("message N", "m"),
                ("message N write", "m"),
                ("message N write D B else", "m"),
                ("message N read D", "m"),
                ("message N write D else (read D 1", "m"),
            ],
            ("", ""),
        );
        let name = self.new_name(letter);
        let text = self.filled(template, &name, dice);
        let named = Name { name: name.clone(), state: State::Known };
        match letter {
            "d" => self.devices.push(named),
            "b" => self.bytes.push(named),
            _ => {
                self.families.push(name);
                self.messages.push(named);
            }
        }
        Item { text, code: None, is_open: true, ends_line: false }
    }

    fn first_right(&self, names: &[Name], dice: &mut Dice) -> String {
        let right: Vec<&Name> = names.iter().filter(|one| one.state == State::Right).collect();
        right.get(dice.index(right.len())).map_or_else(String::new, |one| one.name.clone())
    }
}

fn right(text: &str) -> Item {
    Item { text: text.to_owned(), code: None, is_open: false, ends_line: false }
}

// One of these of which it is known what it is.
fn picked(names: &[Name], dice: &mut Dice) -> String {
    let known: Vec<&Name> = names.iter().filter(|one| one.state != State::Dim).collect();
    known.get(dice.index(known.len())).map_or_else(String::new, |one| one.name.clone())
}
