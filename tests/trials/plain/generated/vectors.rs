//! Dumps in which the lines of the bus are bits of vectors, or signals among others with like names: made up, from a seed.

use super::super::dumps::{Change, Level, Signal};
use super::dumps::{changes, spaced};
use crate::dice::Dice;

/// A dump, and what is given of its lines: names, paths or bits, or codes, and perhaps scopes.
#[derive(Clone, Debug)]
pub struct Named {
    pub dump: String,
    pub scl: Given,
    pub sda: Given,
    pub scope: Option<String>,
}

/// What is given of a line: a name, a path or a bit; or a code.
#[derive(Clone, Debug)]
pub enum Given {
    Name(String),
    Code(String),
}

// What a digit of a signal shows.
#[derive(Clone, Copy, Debug)]
enum Shows {
    Line(Signal),
    // The same, but for some changes.
    Almost(Signal),
    Noise,
}

// A signal of the dump. Its range has the numbers of its first and last bit.
struct Var {
    scopes: &'static [&'static str],
    reference: String,
    range: Option<(usize, usize)>,
    is_joined: bool,
    code: char,
    digits: Vec<(Shows, char)>,
}

const SCOPES: [&[&str]; 6] = [&["top"], &["top", "m3"], &["top"], &["top", "m3"], &["board", "i2c1"], &[]];

const VECTORS: [&str; 6] = ["bus", "bus", "bus", "pins", "m3.bus", "bus[2]"];

const SIGNALS: [&str; 10] =
    ["scl", "sda", "I2C SCL", "bus[2]", "bus[1]", "bus [1]", "top.bus[0]", "m3.bus[1]", "bus", "bus[0] x"];

// So many changes are played, since the plain programs are slow.
const MOST: usize = 400;

/// A dump of what the participants of a plan send, in which no line needs to have a signal of its own.
pub fn named_dump(plan: &str, dice: &mut Dice) -> Named {
    let mut vars = vec![vector('!', dice)];
    put_line(&mut vars[0], Signal::Scl, dice);
    let own = if dice.throw(2) == 0 { 0 } else { 1 };
    if own == 1 {
        vars.push(if dice.throw(4) == 0 { signal('"', dice) } else { vector('"', dice) });
    }
    put_line(&mut vars[own], Signal::Sda, dice);
    for code in ['#', '$', '%'].into_iter().take(dice.index(4)) {
        let mut var = if dice.throw(2) == 0 { signal(code, dice) } else { vector(code, dice) };
        for digit in &mut var.digits {
            digit.0 = dice.pick(&[Shows::Almost(Signal::Scl), Shows::Almost(Signal::Sda)], Shows::Noise);
        }
        vars.push(var);
    }
    let scope = scope_of(&vars[0], &vars[own], dice);
    let scl = given(&vars, 0, Signal::Scl, scope.len(), dice);
    let sda = given(&vars, own, Signal::Sda, scope.len(), dice);
    // (codes alone take no scopes)
    let are_codes = matches!((&scl, &sda), (Given::Code(_), Given::Code(_)));
    let scope = (!scope.is_empty() && !are_codes).then(|| scope.join("."));
    // (what is given does not say which signal comes first)
    for k in (1..vars.len()).rev() {
        vars.swap(k, dice.index(k + 1));
    }
    let mut tokens = definitions(&vars);
    for change in changes(plan, dice).into_iter().take(MOST) {
        match change {
            Change::At(time) => tokens.push(format!("#{time}")),
            Change::Takes(signal, level) => {
                for var in &mut vars {
                    put_change(var, signal, level, &mut tokens, dice);
                }
            }
        }
    }
    let dump = tokens.iter().map(|token| spaced(token, dice)).collect();
    Named { dump, scl, sda, scope }
}

fn signal(code: char, dice: &mut Dice) -> Var {
    let reference = dice.pick(&SIGNALS, "").to_owned();
    Var {
        scopes: dice.pick(&SCOPES, &[]),
        reference,
        range: None,
        is_joined: false,
        code,
        digits: vec![(Shows::Noise, 'x')],
    }
}

fn vector(code: char, dice: &mut Dice) -> Var {
    let size = 1 + dice.index(11);
    let low = if dice.throw(2) == 0 { 0 } else { dice.index(9) };
    let high = low + size - 1;
    let range = dice.pick(&[Some((high, low)), Some((high, low)), Some((low, high)), None], None);
    Var {
        scopes: dice.pick(&SCOPES, &[]),
        reference: dice.pick(&VECTORS, "").to_owned(),
        range,
        is_joined: dice.throw(3) == 0,
        code,
        digits: vec![(Shows::Noise, 'x'); size],
    }
}

// One of the digits shows the line, the other one where the bus has one already.
fn put_line(var: &mut Var, line: Signal, dice: &mut Dice) {
    let free: Vec<usize> = (0..var.digits.len()).filter(|k| matches!(var.digits[*k].0, Shows::Noise)).collect();
    let place = dice.pick(&free, 0);
    var.digits[place].0 = Shows::Line(line);
}

// Scopes around both signals, or none.
fn scope_of(one: &Var, other: &Var, dice: &mut Dice) -> Vec<&'static str> {
    let both = one.scopes.iter().zip(other.scopes).take_while(|(a, b)| a == b);
    let common: Vec<&str> = both.map(|(scope, _)| *scope).collect();
    let length = if dice.throw(2) == 0 { 0 } else { dice.index(common.len() + 1) };
    common[..length].to_vec()
}

// What is given of a line, most often what it is.
fn given(vars: &[Var], place: usize, line: Signal, scopes: usize, dice: &mut Dice) -> Given {
    let is_odd = dice.throw(12) == 0;
    let var = if is_odd { &vars[dice.index(vars.len())] } else { &vars[place] };
    if dice.throw(if var.digits.len() == 1 { 3 } else { 60 }) == 0 {
        return Given::Code(var.code.to_string());
    }
    let mut name = var.reference.clone();
    let digit = var.digits.iter().position(|digit| matches!(digit.0, Shows::Line(one) if one == line));
    let digit = digit.unwrap_or(dice.index(var.digits.len() + 1));
    let left = var.digits.len().saturating_sub(1);
    let bit = match var.range {
        Some((first, last)) if first < last => first + digit,
        Some((first, _)) => first.saturating_sub(digit),
        None => left.saturating_sub(digit),
    };
    if var.digits.len() > 1 || dice.throw(2) == 0 {
        name += &format!("[{bit}]");
    }
    if var.scopes.len() > scopes && dice.throw(2) == 0 {
        name = format!("{}.{name}", var.scopes[scopes..].join("."));
    }
    Given::Name(name)
}

fn definitions(vars: &[Var]) -> Vec<String> {
    let mut text = String::from("$timescale 1ns $end");
    for var in vars {
        for scope in var.scopes {
            text += &format!(" $scope module {scope} $end");
        }
        let range = var.range.map_or(String::new(), |(first, last)| format!("[{first}:{last}]"));
        let space = if var.is_joined || range.is_empty() { "" } else { " " };
        let (size, code, reference) = (var.digits.len(), var.code, &var.reference);
        text += &format!(" $var wire {size} {code} {reference}{space}{range} $end");
        text += &" $upscope $end".repeat(var.scopes.len());
    }
    text += " $enddefinitions $end";
    text.split(' ').map(String::from).collect()
}

// What a change of a line is in a signal, if that shows it.
fn put_change(var: &mut Var, line: Signal, level: Level, tokens: &mut Vec<String>, dice: &mut Dice) {
    let is_of_it = |digit: &(Shows, char)| matches!(digit.0, Shows::Line(one) | Shows::Almost(one) if one == line);
    if !var.digits.iter().any(is_of_it) {
        return;
    }
    for (shows, digit) in &mut var.digits {
        let shown = match level {
            Level::Low => '0',
            Level::High => dice.pick(&['1', '1', 'z', 'Z'], '1'),
            Level::Unknown => dice.pick(&['x', 'X'], 'x'),
        };
        match *shows {
            Shows::Line(one) if one == line => *digit = shown,
            Shows::Almost(one) if one == line && dice.throw(30) != 0 => *digit = shown,
            Shows::Noise if dice.throw(3) == 0 => *digit = dice.pick(&['0', '1', 'x', 'z'], '0'),
            _ => {}
        }
    }
    let digits: String = var.digits.iter().map(|digit| digit.1).collect();
    if digits.len() == 1 && dice.throw(2) == 0 || dice.throw(400) == 0 {
        tokens.push(format!("{}{}", &digits[digits.len() - 1..], var.code));
    } else {
        tokens.extend([format!("{}{}", dice.pick(&['b', 'B'], 'b'), shortened(&digits, dice)), var.code.to_string()]);
    }
}

// Without some of the digits on the left that are understood, or with one more that does not count.
fn shortened(digits: &str, dice: &mut Dice) -> String {
    if dice.throw(40) == 0 {
        return format!("{}{digits}", dice.pick(&['0', '1', 'x', 'z'], '0'));
    }
    let mut rest = digits;
    while let [first, second, ..] = rest.as_bytes() {
        let understood = if matches!(second, b'0' | b'1') { b'0' } else { *second };
        if *first != understood || dice.throw(8) == 0 {
            break;
        }
        rest = &rest[1..];
    }
    rest.to_owned()
}
