//! Briefs that are cut into two or three files, each a whole brief: what twire says of all, and the plain programs.

use crate::cases::{Asked, Case};
use crate::changed::{readable, Lot};
use crate::commands::Command;
use crate::crew::Crew;
use crate::desks::Desk;
use crate::dice::Dice;
use crate::disagreements::{Disagreement, Score};
use crate::made_up::made_up;
use crate::plain::{begins_board, Answer};
use crate::plainly::said_plainly;
use crate::seeds::{mixed, Seeds};
use crate::tallies::{kind_of, Tallies};
use std::io;

// Each of these is to come up, where so many briefs are cut.
const WANTED: [&str; 18] = [
    "expand 0",
    "expand P1 of plan",
    "expand P2 of plan",
    "expand P2 of brief2",
    "expand P2 of brief3",
    "expand P3 of plan",
    "expand P3 of brief2",
    "expand P3 of brief3",
    "expand P4 of plan",
    "expand P5 of plan",
    "expand P7 of brief2",
    "expand P7 of brief3",
    "expand P8 of plan",
    "expand P8 of brief2",
    "expand P8 of brief3",
    "print 0",
    "print P3 of brief2",
    "print P8 of plan",
];

const ENOUGH: u64 = 10_000;

/// Compares what twire and the plain programs say of so many briefs that are cut. `tells` says whether to print how often each
/// kind of answer came up; it is a failure where one is rare.
pub fn try_several(crew: &mut Crew, score: &mut Score, cases: &[Case], lot: Lot, tells: bool) -> io::Result<()> {
    let seeds = Seeds::of(cases);
    let numbers: Vec<u64> = (0..lot.number).collect();
    let compared = crew.each(&numbers, |desk, number| {
        let mut dice = Dice { state: mixed(lot.seed.rotate_left(32), *number) };
        compare(desk, *number, &cut(&seeds, &mut dice))
    })?;
    let mut tallies = Tallies::default();
    let before = score.wrong;
    for (kind, disagreement) in compared {
        tallies.count(kind);
        score.count(&[disagreement]);
    }
    println!("{} briefs in several files, {} disagreements", lot.number, score.wrong - before);
    if tells {
        tallies.print();
    }
    let rare = if lot.number < ENOUGH { Vec::new() } else { tallies.rare_of(&WANTED) };
    for (kind, found) in rare {
        score.fail(&format!("too few of {kind} among the briefs in several files: {found}"));
    }
    Ok(())
}

// A command over the files, and the same over the brief from which they were cut between items, where they were.
struct Cut {
    asked: Asked,
    whole: Option<Asked>,
}

// The kind of the answer with the file of a refusal, and where both do not say the same, or the files mean another plan than
// their items in one.
fn compare(desk: &mut Desk, number: u64, cut: &Cut) -> io::Result<(String, Option<Disagreement>)> {
    let asked = &cut.asked;
    let plain = said_plainly(asked);
    let kind = kind_of(asked, &plain) + plain.refusal.find(" of ").map_or("", |file| &plain.refusal[file..]);
    let found = desk.answer(asked)?;
    let fault = (!is_whole(cut, &plain)).then_some("the files mean another plan than the brief");
    let case = Case {
        name: shown(number, asked),
        asked: asked.clone(),
        wanted: plain.clone(),
        hints: None,
        is_thorough: false,
    };
    Ok((kind, Disagreement::of(&case, "several files", plain, &found, fault)))
}

// A brief that means a plan, and is cut between items, means it in several files too.
fn is_whole(cut: &Cut, plain: &Answer) -> bool {
    let whole = cut.whole.as_ref().map(said_plainly);
    whole.is_none_or(|whole| whole.status != 0 || whole == *plain)
}

fn shown(number: u64, asked: &Asked) -> String {
    let files = asked.briefs();
    let files = files.iter().map(|file| format!("\n-- {}\n{}", file.name, readable(file.text)));
    format!("several files {number}: {:?}{}", asked.command, files.collect::<String>())
}

// How the files come to be no whole briefs with the items of one in order.
#[derive(Clone, Copy, Debug, PartialEq, Eq)]
enum Break {
    None,
    // The text is cut anywhere, so most often in an item.
    Anywhere,
    // A file has no head, or another one.
    Head,
    // A file stands before one that it stood behind.
    Order,
    // A file stands twice.
    Twice,
}

const BREAKS: [Break; 8] =
    [Break::None, Break::None, Break::None, Break::None, Break::Anywhere, Break::Head, Break::Order, Break::Twice];

const HEAD: &str = "brief 1\n";

const HEADS: [&str; 8] = ["", "brief", "1 ", "plan 1 ", "brief 2\n", "brief 1.\n", "brief 1 brief 1\n", "# brief 1\n"];

// A brief that is made up, or a changed one, in two or three files.
fn cut(seeds: &Seeds, dice: &mut Dice) -> Cut {
    let brief = if dice.index(2) == 0 { made_up(dice).into_bytes() } else { seeds.brief(dice) };
    let broken = dice.pick(&BREAKS, Break::None);
    let places = match broken {
        Break::Anywhere => (0..=brief.len()).collect(),
        _ => ends_of_items(&brief),
    };
    let mut files = files_of(&brief, &places, dice);
    match broken {
        Break::None | Break::Anywhere => {}
        Break::Head => {
            let file = dice.index(files.len());
            let head = dice.pick(&HEADS, "").as_bytes();
            let text = files[file].strip_prefix(HEAD.as_bytes()).unwrap_or(&files[file]);
            files[file] = [head, text].concat();
        }
        Break::Order => {
            let file = dice.index(files.len() - 1);
            files.swap(file, file + 1);
        }
        Break::Twice => {
            let (from, to) = (dice.index(files.len()), dice.index(files.len()));
            files[to] = files[from].clone();
        }
    }
    let command = if dice.index(4) == 0 { Command::Print } else { Command::Expand };
    let whole = (broken == Break::None).then(|| Asked::of_briefs(Command::Expand, vec![brief]));
    Cut { asked: Asked::of_briefs(command, files), whole }
}

// The places behind each item of a brief: a `;` that stands in no comment ends one.
fn ends_of_items(brief: &[u8]) -> Vec<usize> {
    let mut in_comment = false;
    let ends = brief.iter().enumerate().filter(|(_, byte)| {
        in_comment = **byte == b'#' || in_comment && **byte != b'\n';
        !in_comment && **byte == b';'
    });
    ends.map(|(place, _)| place + 1).collect()
}

// The text up to one of these places, to a second one now and then, and to its end: each after the first with a head. Where
// there is no place, the second file has no items.
fn files_of(brief: &[u8], places: &[usize], dice: &mut Dice) -> Vec<Vec<u8>> {
    let mut cuts: Vec<usize> = (0..=dice.index(2)).map(|_| dice.pick(places, brief.len())).collect();
    cuts.sort_unstable();
    let starts = std::iter::once(0).chain(cuts.iter().copied());
    let ends = cuts.iter().copied().chain(std::iter::once(brief.len()));
    let parts = starts.zip(ends).enumerate();
    let head = head_of(brief);
    parts.map(|(k, (start, end))| [if k == 0 { b"" } else { head.as_bytes() }, &brief[start..end]].concat()).collect()
}

// The head of the version that a brief is of.
fn head_of(brief: &[u8]) -> &'static str {
    if begins_board(&String::from_utf8_lossy(brief)) {
        "brief 2\n"
    } else {
        HEAD
    }
}
