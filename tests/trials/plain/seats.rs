//! The seats of a bench, asked by the lines of a script (tests/README.md, "The trials").

use super::benches::Answers;
use super::senders::{Place, Sender};
use super::wires::{shown, symbols, Item};

/// The seat of a starter: what it sends, where it stands there, what it has put, and how many slots
/// it has seen.
#[derive(Clone, Debug)]
struct Seat<'a> {
    label: &'a str,
    sender: &'a Sender<'a>,
    place: Place,
    puts: Vec<Item>,
    seen: usize,
    // The slot in which it lost, and whether it knows of that or of the end.
    lost: Option<usize>,
    is_over: bool,
}

impl Seat<'_> {
    // The word for what it may put, and nothing once it is over.
    fn offered(&self) -> &'static str {
        match self.sender.offers(self.place) {
            _ if self.is_over => "nothing",
            [Item::Sent(_), Item::Sent(_)] => "0 or 1",
            [item, ..] => word(*item),
            [] => "nothing",
        }
    }

    // What this word puts, where it may be put in the slot to come.
    fn item_for(&self, put: &str, answer: bool) -> Option<Item> {
        let offers = self.sender.offers(self.place).iter();
        let item = offers.copied().find(|item| word(*item) == put)?;
        Some(if let Item::Heard(_) = item { Item::Heard(answer) } else { item })
    }
}

// All that a seat may be asked to put.
const WORDS: [&str; 6] = ["0", "1", "listen", "again", "stop", "claim"];

fn word(item: Item) -> &'static str {
    match item {
        Item::Sent(false) => "0",
        Item::Sent(true) => "1",
        Item::Heard(_) => "listen",
        Item::Again => "again",
        Item::Stop => "stop",
        Item::Claim => "claim",
    }
}

/// Why a put is refused: B5, B6 or B7.
#[derive(Clone, Copy, Debug)]
enum PutRefusal {
    NotOffered,
    Early,
    Over,
}

impl PutRefusal {
    fn said(self) -> &'static str {
        match self {
            PutRefusal::NotOffered => "refused B5",
            PutRefusal::Early => "refused B6",
            PutRefusal::Over => "refused B7",
        }
    }
}

/// What a seat sees.
#[derive(Clone, Copy, Debug)]
enum Sight {
    NotPut,
    Waiting,
    On(Item),
    Lost(Item),
    Ended,
}

impl Sight {
    fn said(self) -> String {
        match self {
            Sight::NotPut => "not put".into(),
            Sight::Waiting => "waiting".into(),
            Sight::On(item) => item.symbol().into(),
            Sight::Lost(item) => format!("lost, {}", item.symbol()),
            Sight::Ended => "ended".into(),
        }
    }
}

/// The seats of a bench, what the targets answer, and the wire of the slots in which all who were
/// live have put.
#[derive(Clone, Debug)]
pub struct Bench<'a> {
    seats: Vec<Seat<'a>>,
    answers: Answers<'a>,
    wire: Vec<Item>,
    is_finished: bool,
}

// No run is longer.
const SLOTS: u32 = 2560;

const NO_SUCH_LINE: &str = "no such line";

// How many slots are played, and the bits for open ones: of `7 slots with 1`, or of `on with 1`.
fn slots_of(line: &str) -> Option<(u32, &str)> {
    match line.split_once(" with ")? {
        ("on", fill) => Some((SLOTS, fill)),
        (how, fill) => Some((how.strip_suffix(" slots")?.parse().ok()?, fill)),
    }
}

impl<'a> Bench<'a> {
    /// A bench with a seat for each of these starters, in which nothing was put.
    pub fn new(starters: impl Iterator<Item = (&'a str, &'a Sender<'a>)>, answers: Answers<'a>) -> Bench<'a> {
        let seats = starters.map(|(label, sender)| Seat {
            label,
            sender,
            place: Place::START,
            puts: Vec::new(),
            seen: 0,
            lost: None,
            is_over: false,
        });
        Bench { seats: seats.collect(), answers, wire: Vec::new(), is_finished: false }
    }

    /// What is written of the lines of a script: each of them with its answer.
    pub fn say(&mut self, script: &str) -> String {
        let mut out = String::new();
        for line in script.split('\n').filter(|line| !line.is_empty()) {
            out += &format!("{line} -> {}\n", self.say_line(line));
        }
        out
    }

    fn say_line(&mut self, line: &str) -> String {
        if self.is_finished {
            return "no bench".into();
        }
        let (first, rest) = line.split_once(' ').unwrap_or((line, ""));
        match first {
            "finish" => self.say_end(rest),
            "play" => match slots_of(rest) {
                Some((slots, fill)) => self.say_slots(slots, fill),
                None => NO_SUCH_LINE.into(),
            },
            label => match self.seats.iter().position(|seat| seat.label == label) {
                Some(seat) => self.say_call(seat, rest),
                None => NO_SUCH_LINE.into(),
            },
        }
    }

    fn say_call(&mut self, seat: usize, call: &str) -> String {
        match (call, call.strip_prefix("puts ")) {
            ("offers", _) => self.offered(seat).into(),
            ("sees", _) => self.see(seat).said(),
            (_, Some(put)) if WORDS.contains(&put) => match self.put(seat, put) {
                Ok(()) => "ok".into(),
                Err(refusal) => refusal.said().into(),
            },
            _ => NO_SUCH_LINE.into(),
        }
    }

    fn offered(&self, seat: usize) -> &'static str {
        self.seats.get(seat).map_or("nothing", Seat::offered)
    }

    fn put(&mut self, seat: usize, put: &str) -> Result<(), PutRefusal> {
        let Some(seat) = self.seats.get_mut(seat).filter(|seat| !seat.is_over) else {
            return Err(PutRefusal::Over);
        };
        if seat.puts.len() > seat.seen {
            return Err(PutRefusal::Early);
        }
        let answer = self.answers.at(seat.seen);
        let item = seat.item_for(put, answer).ok_or(PutRefusal::NotOffered)?;
        seat.puts.push(item);
        self.complete();
        Ok(())
    }

    // The next slot has a wire where all who are live have put there.
    fn complete(&mut self) {
        let slot = self.wire.len();
        let live = self.seats.iter().filter(|seat| seat.lost.is_none());
        let puts: Option<Vec<Item>> = live.map(|seat| seat.puts.get(slot).copied()).collect();
        let Some(shown) = puts.and_then(|round| shown(&round)) else {
            return;
        };
        self.wire.push(shown);
        for seat in &mut self.seats {
            if seat.lost.is_none() && seat.puts.get(slot) != Some(&shown) {
                seat.lost = Some(slot);
            }
        }
    }

    fn see(&mut self, seat: usize) -> Sight {
        let Some(seat) = self.seats.get_mut(seat).filter(|seat| !seat.is_over) else {
            return Sight::Ended;
        };
        if seat.puts.len() == seat.seen {
            return Sight::NotPut;
        }
        let Some(item) = self.wire.get(seat.seen).copied() else {
            return Sight::Waiting;
        };
        let has_lost = seat.lost == Some(seat.seen);
        seat.is_over = has_lost || item.ends_run();
        seat.place = seat.sender.after(seat.place, item);
        seat.seen += 1;
        if has_lost {
            Sight::Lost(item)
        } else {
            Sight::On(item)
        }
    }

    // For open bits the seats send the bits of `fill`, one after another and from the first again.
    fn say_slots(&mut self, slots: u32, fill: &str) -> String {
        let mut out = String::new();
        for _ in 0..slots {
            for seat in 0..self.seats.len() {
                let place = seat.checked_rem(fill.len()).unwrap_or(0);
                let put = match self.offered(seat) {
                    "0 or 1" => fill.get(place..=place).unwrap_or(""),
                    put => put,
                };
                // A seat that may not put is passed over.
                let _ = self.put(seat, put);
            }
            match self.first_seen() {
                Some(item) => out.push(item.symbol()),
                None if out.is_empty() => return "nothing".into(),
                None => break,
            }
        }
        out
    }

    // All look, and this is what the first of them that sees something sees.
    fn first_seen(&mut self) -> Option<Item> {
        let sights: Vec<Sight> = (0..self.seats.len()).map(|seat| self.see(seat)).collect();
        sights.into_iter().find_map(|sight| match sight {
            Sight::On(item) | Sight::Lost(item) => Some(item),
            Sight::NotPut | Sight::Waiting | Sight::Ended => None,
        })
    }

    fn say_end(&mut self, labels: &str) -> String {
        let is_seat = |label: &&str| self.seats.iter().any(|seat| seat.label == *label);
        if !labels.is_empty() && labels.split(',').filter(is_seat).count() != self.seats.len() {
            return "missing".into();
        }
        if !self.seats.iter().all(|seat| seat.is_over) {
            return "not ended".into();
        }
        self.is_finished = true;
        let winners = self.seats.iter().filter(|seat| seat.lost.is_none());
        let won: String = winners.map(|seat| format!(" {}", seat.label)).collect();
        format!("wire {}, won{won}", symbols(&self.wire))
    }
}
