//! Plans that are made up, and come back from the briefs that twire writes of them.

use crate::cases::{Asked, Case};
use crate::changed::Lot;
use crate::commands::Command;
use crate::crew::Crew;
use crate::desks::Desk;
use crate::dice::Dice;
use crate::disagreements::{Disagreement, Score};
use crate::made_up::made_up;
use crate::plain::{self, Answer};
use crate::seeds::mixed;
use std::io;

/// Tries so many plans.
pub fn try_returns(crew: &mut Crew, score: &mut Score, lot: Lot) -> io::Result<()> {
    let numbers: Vec<u64> = (0..lot.number).collect();
    let tried = crew.each(&numbers, |desk, number| try_return(desk, lot.seed, *number))?;
    score.count(&tried);
    let returned = tried.iter().filter(|wrong| wrong.is_none()).count();
    println!("{} plans that were made up, {returned} of them come back from their briefs", lot.number);
    Ok(())
}

fn try_return(desk: &mut Desk, seed: u64, number: u64) -> io::Result<Option<Disagreement>> {
    let plan = next_plan(&mut Dice { state: mixed(!seed, number) });
    let wanted = Answer { status: 0, out: plan.clone(), refusal: String::new() };
    let asked = Asked::of_one(Command::Brief, plan.into_bytes(), Vec::new());
    let brief = desk.answer(&asked)?;
    let expand = Asked::of_one(Command::Expand, brief.out.into_bytes(), Vec::new());
    let found = desk.answer(&expand)?;
    let fault = asked.first.is_empty().then_some("no plan was made up");
    let case = Case { name: format!("plan {number}"), asked, wanted: wanted.clone(), hints: None, is_thorough: false };
    Ok(Disagreement::of(&case, "back from its brief", wanted, &found, fault))
}

// So many briefs are made up until one is that of a plan.
const TURNS: usize = 100;

// A plan that is made up, in its canonical spelling.
fn next_plan(dice: &mut Dice) -> String {
    let mut plans = (0..TURNS).map(|_| plain::spelling(made_up(dice).as_bytes()));
    plans.find(|plan| !plan.is_empty()).unwrap_or_default()
}
