//! Tests of how what a check says of mending is compared, and of its shape: with objects that are written by hand.

use crate::cases::Asked;
use crate::commands::Command;
use crate::dice::Dice;
use crate::json::{read, Value};
use crate::mended::compared;
use crate::mendings::next_unsafe;
use crate::object_lines::lines_of;
use crate::objects::due_of_check;
use crate::plain::offers::{mending, KINDS};
use crate::plain::sources::{edited, Edit, Source};
use crate::plainly::said_plainly;
use std::collections::{BTreeMap, BTreeSet, HashMap};

fn asked(briefs: &[&str]) -> Asked {
    let briefs = briefs.iter().map(|text| text.as_bytes().to_vec()).collect();
    Asked::of_briefs(Command::Check { workers: 1 }, briefs)
}

// The objects of a check, in which this is explained of the groups, and of the plan.
fn found(asked: &Asked, groups: &[&str], plan: &str) -> String {
    let mut explained =
        groups.iter().chain([&plan]).map(|text| read(text).unwrap_or_else(|why| panic!("{why}: {text}")));
    let mut lines = String::new();
    for mut object in due_of_check(asked, &HashMap::new()) {
        if let Value::Object(members) = &mut object {
            let explain = members.iter_mut().find(|(key, _)| key == "explain");
            if let Some((_, explain)) = explain {
                *explain = explained.next().expect("something explained");
            }
        }
        lines += &format!("{object}\n");
    }
    assert_eq!(explained.next(), None);
    lines
}

fn is_as_due(briefs: &[&str], groups: &[&str], plan: &str) -> bool {
    let asked = asked(briefs);
    let found = found(&asked, groups, plan);
    assert!(lines_of(&found).is_ok(), "{:?}: {found}", lines_of(&found));
    let (due, found) = compared(&asked, &found).expect("objects");
    due == found
}

fn offer(name: &str, kind: &str, edits: &[&str]) -> String {
    format!(
        "{{\"offer\":\"{name}\",\"kind\":\"{kind}\",\"mends\":[0],\"pairs\":1,\"unchecked\":0,\"edits\":[{}]}}",
        edits.join(",")
    )
}

fn edit(file: &str, (line, column): (usize, usize), removes: &str, puts: &str) -> String {
    format!("{{\"file\":\"{file}\",\"line\":{line},\"column\":{column},\"removes\":\"{removes}\",\"puts\":\"{puts}\"}}")
}

fn offers(all: &[String], more: usize) -> String {
    let more = if more == 0 { String::new() } else { format!(",\"more\":{more}") };
    format!("{{\"offers\":[{}]{more}}}", all.join(","))
}

// (an empty list comes to nothing)
fn list(names: &str, (pairs, unsafe_pairs): (usize, usize)) -> String {
    let then = match names {
        "" => String::new(),
        _ => format!("\"then\":{{\"pairs\":{pairs},\"unsafe_pairs\":{unsafe_pairs}}},"),
    };
    format!(
        "{{\"explained\":1,\"groups\":1,\"list\":[{names}],{then}\"interrupts\":[],\"unsent\":[],\"kept_apart\":0}}"
    )
}

const REPEATED: &str = "brief 2
message m write 0x50 any*4 ; # four
message n write 0x50 any*2 0x0X any*2 ;
controller a m ;
controller b n ;
";

// The third byte of m is parted; or the first of both; or m gets a byte.
#[test]
fn edits_are_compared_by_the_texts_that_they_make() {
    let of = |known: &[&str]| {
        let zero = edit("plan", (2, 22), "any*4", "0b0xxxxxxx any*3");
        let one = edit("plan", (3, 22), "any*2", "0b1xxxxxxx any");
        let longer = edit("plan", (2, 27), "", " any");
        let all =
            [offer("0.1", "known", known), offer("0.2", "bit", &[&zero, &one]), offer("0.3", "length", &[&longer])];
        is_as_due(&[REPEATED], &[&offers(&all, 0)], &list("\"0.1\"", (1, 0)))
    };
    // the whole byte, or its number alone; two edits in place of one
    assert!(of(&[&edit("plan", (2, 22), "any*4", "any*2 0b1xxxxxxx any")]));
    assert!(of(&[&edit("plan", (2, 26), "4", "2 0b1xxxxxxx any")]));
    assert!(of(&[&edit("plan", (2, 22), "any*4", "any*2"), &edit("plan", (2, 27), "", "  0b1xxxxxxx any")]));
    // another byte, another bit, another value
    assert!(!of(&[&edit("plan", (2, 22), "any*4", "any 0b1xxxxxxx any*2")]));
    assert!(!of(&[&edit("plan", (2, 22), "any*4", "any*2 0bx1xxxxxx any")]));
    assert!(!of(&[&edit("plan", (2, 22), "any*4", "any*2 0b0xxxxxxx any")]));
    // what is removed does not stand there, or there is no such place or file
    assert!(!of(&[&edit("plan", (2, 21), "any*4", "any*2 0b1xxxxxxx any")]));
    assert!(!of(&[&edit("plan", (3, 22), "any*4", "any*2 0b1xxxxxxx any")]));
    assert!(!of(&[&edit("plan", (9, 1), "", "any")]));
    assert!(!of(&[&edit("brief2", (2, 22), "any*4", "any*2 0b1xxxxxxx any")]));
    // two edits change one word
    assert!(!of(&[&edit("plan", (2, 22), "any*4", "any*2 0b1xxxxxxx any"), &edit("plan", (2, 26), "4", "3")]));
    // the comment is lost, or part of it is read
    assert!(!of(&[&edit("plan", (2, 22), "any*4 ; # four", "any*2 0b1xxxxxxx any ;")]));
}

#[test]
fn the_list_is_compared() {
    let known = edit("plan", (2, 26), "4", "2 0b1xxxxxxx any");
    let zero = edit("plan", (2, 22), "any*4", "0b0xxxxxxx any*3");
    let one = edit("plan", (3, 22), "any*2", "0b1xxxxxxx any");
    let longer = edit("plan", (2, 27), "", " any");
    let all =
        [offer("0.1", "known", &[&known]), offer("0.2", "bit", &[&zero, &one]), offer("0.3", "length", &[&longer])];
    let is_right = |all: &[String], more: usize, list: &str| is_as_due(&[REPEATED], &[&offers(all, more)], list);
    assert!(is_right(&all, 0, &list("\"0.1\"", (1, 0))));
    assert!(!is_right(&all, 0, &list("\"0.2\"", (1, 0))));
    assert!(!is_right(&all, 0, &list("", (1, 1))));
    assert!(!is_right(&all, 0, &list("\"0.1\"", (1, 1))));
    assert!(!is_right(&all[..2], 0, &list("\"0.1\"", (1, 0))));
    let untried = list("\"0.1\"", (1, 0)).replace(",\"interrupts\"", ",\"untried\":true,\"interrupts\"");
    assert!(!is_right(&all, 0, &untried));
    // a check that has no offer leaves them out, or has an empty list
    let none = "brief 1 message m write 0x50 0x01 else (read 0x51 1) ; message n write 0x50 0x01 0x02 ; controller a m ; controller b n ;";
    assert!(is_as_due(&[none], &["{}"], &list("", (1, 1))));
    assert!(is_as_due(&[none], &["{\"offers\":[]}"], &list("", (1, 1))));
}

#[test]
fn edits_of_several_files_are_compared() {
    let briefs = [
        "brief 2 # \u{b0}C\ndevice d 0x50 ;\n",
        "brief 1\nmessage m write d ;\ncontroller a m ;\n",
        "brief 1\nmessage n write d 0x01 ;\ncontroller b n ;\n",
    ];
    let is_right = |file: &str| {
        let all = [offer("0.1", "read", &[&edit(file, (2, 11), "write d", "read d 1")])];
        is_as_due(&briefs, &[&offers(&all, 0)], &list("\"0.1\"", (1, 0)))
    };
    assert!(is_right("brief2"));
    assert!(!is_right("plan") && !is_right("brief3"));
}

// A file that a head names is called as it is named there, and stands before the text that names it.
#[test]
fn edits_of_a_file_that_a_head_names_are_compared() {
    let briefs = [
        "brief 2\nwith \"./brief2\" ;\nmessage n write d 0x01 ;\ncontroller a m ;\ncontroller b n ;\n",
        "brief 1\ndevice d 0x50 ;\nmessage m write d ;\n",
    ];
    let is_right = |file: &str| {
        let all = [offer("0.1", "read", &[&edit(file, (3, 11), "write d", "read d 1")])];
        is_as_due(&briefs, &[&offers(&all, 0)], &list("\"0.1\"", (1, 0)))
    };
    assert!(is_right("./brief2"));
    assert!(!is_right("brief2"));
}

// What is said in the names of the briefs is left out, and likely mistakes are.
#[test]
fn what_a_brief_says_in_its_own_names_is_left_out() {
    let asked = asked(&[
        "brief 1 message m write 0x50 0x01 else (read 0x51 1) ; message n write 0x50 0x01 0x02 ;\n",
        "brief 1 controller a m ; controller b n ;",
    ]);
    let lines = found(&asked, &["{}"], &list("", (1, 1)));
    let places = "\"places\":[{\"file\":\"plan\",\"line\":1},{\"file\":\"plan\",\"line\":1}]";
    let lines =
        lines.replace("l\",\"group\"", &format!("l\",{places},\"group\"")).replace("l\"}", &format!("l\",{places}}}"));
    let lint = format!("{{\"kind\":\"lint\",\"code\":\"bare header\",\"names\":[\"m\",\"n\"],{places}}}\n");
    let (before, plan) = lines.split_at(lines.find("{\"kind\":\"plan\"").expect("the last line"));
    let shown = format!("{before}{lint}{plan}");
    assert!(lines_of(&shown).is_ok() && shown.matches("places").count() == 2, "{shown}");
    let (due, found) = compared(&asked, &shown).expect("objects");
    assert_eq!(due, found);
    let (due, found) = compared(&asked, &shown.replace("\"pairs\":1", "\"pairs\":2")).expect("objects");
    assert_ne!(due, found);
}

const FAMILY: &str = "brief 1
message page write 0x50 any*1..2 ;
message get read 0x50 1 ;
controller a page ;
controller b page ;
controller c get ;
";

fn never(edits: &[String], pairs: usize, unchecked: usize) -> String {
    format!(
        "{{\"offers\":[{{\"offer\":\"0.1\",\"kind\":\"never\",\"mends\":[0],\"pairs\":{pairs},\"unchecked\":{unchecked},\
         \"edits\":[{}]}}]}}",
        edits.join(",")
    )
}

// Two pairs are unsafe: page_1 and page_2 of a and b, both ways.
#[test]
fn never_items_are_tried_as_they_are_shown() {
    let is_right = |edits: &[String], unchecked: usize, then: (usize, usize)| {
        is_as_due(&[FAMILY], &[&never(edits, 2, unchecked)], &list("\"0.1\"", then))
    };
    let end = |puts: &str| vec![edit("plan", (7, 1), "", puts)];
    // all four pairs of a and b, or the two of other messages
    assert!(is_right(&end("never a b ;\\n"), 4, (4, 0)));
    assert!(is_right(&end("never b a ;\\n"), 4, (4, 0)));
    assert!(is_right(&end("never a/page_1 b/page_2 ;\\nnever a/page_2 b/page_1 ;\\n"), 2, (6, 0)));
    // the price
    assert!(!is_right(&end("never a b ;\\n"), 2, (4, 0)));
    // the line feed
    assert!(!is_right(&end("never a b ;"), 4, (4, 0)));
    assert!(!is_right(&end("\\nnever a b ;\\n"), 4, (4, 0)));
    assert!(!is_right(&end("never a b ;\\r\\n"), 4, (4, 0)));
    // what is left apart is another pair, or one pair is left
    assert!(!is_right(&end("never a c ;\\n"), 2, (6, 2)));
    assert!(!is_right(&end("never a/page_1 b/page_2 ;\\n"), 1, (7, 1)));
    // no item of the brief, other items, another place
    assert!(!is_right(&end("never a/page_3 b ;\\n"), 0, (8, 2)));
    assert!(!is_right(&end("never a b ; device d 0x51 ;\\n"), 4, (4, 0)));
    assert!(!is_right(&[edit("plan", (6, 1), "", "never a b ;\\n")], 4, (4, 0)));
    assert!(!is_right(&[edit("plan", (2, 30), "1", "2"), edit("plan", (7, 1), "", "never a b ;\\n")], 4, (4, 0)));
}

// Lines end as the last one of the text that is ended.
#[test]
fn lines_of_never_items_end_as_those_of_their_text() {
    let is_right = |text: &str, at: (usize, usize), puts: &str| {
        let edits = [edit("plan", at, "", puts)];
        is_as_due(&[text], &[&never(&edits, 2, 4)], &list("\"0.1\"", (4, 0)))
    };
    let text = FAMILY.replace('\n', "\r\n");
    assert!(is_right(&text, (7, 1), "never a b ;\\r\\n"));
    assert!(!is_right(&text, (7, 1), "never a b ;\\n"));
    // the last line is not ended
    assert!(is_right(text.trim_end(), (6, 19), "\\r\\nnever a b ;"));
    assert!(!is_right(text.trim_end(), (6, 19), "\\nnever a b ;"));
    assert!(!is_right(text.trim_end(), (6, 19), "\\r\\nnever a b ;\\r\\n"));
    assert!(is_right(FAMILY.trim_end(), (6, 19), "\\nnever a b ;"));
    // no line is
    assert!(is_right(&FAMILY.replace('\n', " "), (1, FAMILY.len() + 1), "\\nnever a b ;"));
    // lines end otherwise before
    let mixed = FAMILY.replacen('\n', "\r\n", 5);
    assert!(is_right(&mixed, (7, 1), "never a b ;\\n") && !is_right(&mixed, (7, 1), "never a b ;\\r\\n"));
}

#[test]
fn a_plan_gets_its_second_version() {
    let plan = "plan 1
message m write 1001000 00000001 stop else again read 1001000 1 stop else stop else stop ;
message n write 1001000 00000001 00000010 stop else stop else stop else stop ;
controller a m ;
controller b n ;
controller c m ;
";
    let is_right = |edits: &[String]| {
        // (two pairs are unsafe, and the third one stays)
        is_as_due(&[plan], &[&never(edits, 2, 2)], &list("\"0.1\"", (1, 0)))
    };
    let items = "never a b ;\\nnever b c ;\\n";
    assert!(is_right(&[edit("plan", (1, 6), "1", "2"), edit("plan", (7, 1), "", items)]));
    assert!(is_right(&[edit("plan", (1, 1), "plan 1", "plan 2"), edit("plan", (6, 17), "", "\\nnever a b ;\\nnever b c ;")]));
    // a `plan 1` has no `never`
    assert!(!is_right(&[edit("plan", (7, 1), "", items)]));
}

// Nothing is left to check.
#[test]
fn no_item_is_offered_after_which_nothing_is_left() {
    let brief = "brief 1\nmessage m write 0x50 0x01 else (read 0x51 1) ;\nmessage n write 0x50 0x01*2 ;\ncontroller a m ;\ncontroller b n ;\n";
    let items = [edit("plan", (6, 1), "", "never a b ;\\n")];
    assert!(!is_as_due(&[brief], &[&never(&items, 1, 1)], &list("\"0.1\"", (0, 0))));
}

// Four others are shown: whether there are items too, the number of further offers says, and the list may have them.
#[test]
fn items_that_are_not_shown_are_taken_on_trust() {
    let brief = "brief 1
message m write 0b101000x 0x01 ;
message n write 0x50 0bxxxxxxx1 0x02 ;
controller a m ;
controller b n ;
controller c m ;
";
    // m and n, of a and of c
    let all = [
        offer("0.1", "known", &[&edit("plan", (2, 17), "0b101000x", "0x51")]),
        offer("0.2", "known", &[&edit("plan", (3, 22), "0bxxxxxxx1", "0b1xxxxxx1")]),
        offer("0.3", "length", &[&edit("plan", (2, 31), "", " any")]),
    ]
    .map(|offer| offer.replace("\"pairs\":1", "\"pairs\":2"));
    assert!(is_as_due(&[brief], &[&offers(&all, 0)], &list("\"0.1\"", (3, 0))));
    // with a bit that is open on both sides too there are four, and the items may be a fifth
    let brief = brief.replace("0x01 ;", "0x0X ;");
    let all = [
        offer("0.1", "known", &[&edit("plan", (2, 17), "0b101000x", "0x51")]),
        offer("0.2", "known", &[&edit("plan", (3, 22), "0bxxxxxxx1", "0b1xxxxxx1")]),
        offer(
            "0.3",
            "bit",
            &[&edit("plan", (2, 27), "0x0X", "0b00000xxx"), &edit("plan", (3, 22), "0bxxxxxxx1", "0bxxxx1xx1")],
        ),
        offer("0.4", "length", &[&edit("plan", (2, 31), "", " any")]),
    ]
    .map(|offer| offer.replace("\"pairs\":1", "\"pairs\":2"));
    assert!(is_as_due(&[&brief], &[&offers(&all, 0)], &list("\"0.1\"", (3, 0))));
    assert!(is_as_due(&[&brief], &[&offers(&all, 1)], &list("\"0.5\"", (1, 0))));
    assert!(!is_as_due(&[&brief], &[&offers(&all, 2)], &list("\"0.1\"", (3, 0))));
    assert!(!is_as_due(&[&brief], &[&offers(&all, 0)], &list("\"0.2\"", (3, 0))));
}

#[test]
fn shapes_are_looked_at() {
    let known = edit("plan", (2, 26), "4", "2 0b1xxxxxxx any");
    let right = offer("0.1", "known", &[&known]);
    let shown = |group: &str, plan: &str| lines_of(&found(&asked(&[REPEATED]), &[group], plan));
    let plan = list("\"0.1\"", (1, 0));
    assert!(shown(&offers(&[right.clone()], 0), &plan).is_ok());
    let number = |k: usize| right.replace("0.1", &format!("0.{k}"));
    let four = [number(1), number(2), number(3), number(4)];
    assert!(shown(&offers(&four, 3), &plan).is_ok());
    for wrong in [
        offers(&[right.clone()], 1),
        offers(&four, 1).replace("\"more\":1", "\"more\":0"),
        offers(&[number(2)], 0),
        offers(&[right.replace("\"0.1\"", "\"1.1\"")], 0),
        offers(&[right.replace("known", "shape")], 0),
        offers(&[right.replace("[0]", "[1]")], 0),
        offers(&[right.replace("[0]", "[1,0]")], 0),
        offers(&[right.replace("[0]", "[0,0]")], 0),
        offers(&[offer("0.1", "known", &[])], 0),
        offers(&[right.replace("\"line\":2", "\"line\":0")], 0),
        offers(&[right.replace("\"removes\":\"4\",", "")], 0),
        offers(&[right.replace("\"pairs\":1,", "")], 0),
        offers(&[right.replace("\"puts\":\"2 0b1xxxxxxx any\"", "\"puts\":\"4\"")], 0),
        "{\"parting\":[],\"shape\":true,\"never\":[],\"unchecked\":0}".to_owned(),
    ] {
        assert!(shown(&wrong, &plan).is_err(), "{wrong}");
    }
    for wrong in [
        list("\"1.1\"", (1, 0)),
        list("\"0.0\"", (1, 0)),
        list("\"0.01\"", (1, 0)),
        list("0.1", (1, 0)),
        list("", (1, 1)).replace("\"list\":[],", ""),
        list("", (1, 1)).replace(",\"interrupts\"", ",\"untried\":false,\"interrupts\""),
        list("\"0.1\"", (1, 0)).replace("{\"pairs\":1,\"unsafe_pairs\":0}", "{\"pairs\":1}"),
        list("\"0.1\"", (1, 0)).replace("\"then\":{\"pairs\":1,\"unsafe_pairs\":0},", ""),
        list("", (1, 1)).replace("\"interrupts\"", "\"then\":{\"pairs\":1,\"unsafe_pairs\":1},\"interrupts\""),
    ] {
        let refused = read(&wrong).is_err() || shown(&offers(&[right.clone()], 0), &wrong).is_err();
        assert!(refused, "{wrong}");
    }
}

// What is due, as if twire had said it, has the shape of objects and is found right. Each kind comes up.
#[test]
fn what_is_due_of_made_up_plans_is_found_right() {
    let mut kinds: BTreeMap<&str, usize> = BTreeMap::new();
    let mut dice = Dice { state: 20_261_130 };
    for _ in 0..60 {
        let asked = next_unsafe(&mut dice);
        let shown: String = due_of_check(&asked, &HashMap::new()).iter().map(|object| format!("{object}\n")).collect();
        assert!(lines_of(&shown).is_ok(), "{:?}: {shown}", lines_of(&shown));
        let (due, found) = compared(&asked, &shown).expect("objects");
        assert_eq!(due, found);
        for kind in KINDS {
            *kinds.entry(kind).or_default() += shown.matches(&format!("\"kind\":\"{kind}\"")).count();
        }
    }
    assert!(KINDS.iter().all(|kind| kinds[*kind] > 0 || *kind == "never"), "{kinds:?}");
}

// The unsafe pairs that a check writes, by the names of what meets, and its last line.
fn checked(briefs: &[&str]) -> Option<(BTreeSet<[String; 2]>, String)> {
    let answer = said_plainly(&asked(briefs));
    let pairs = answer.out.lines().filter_map(|line| line.strip_prefix("pair ")?.split_once(": "));
    let name = |label: &str| label.split_once('/').map_or(label, |(_, name)| name).to_owned();
    let two = |(labels, _): (&str, &str)| {
        let mut two: Vec<String> = labels.split(' ').skip(1).map(name).collect();
        two.sort();
        two.try_into().expect("two")
    };
    let last = answer.out.lines().last().unwrap_or_default().to_owned();
    answer.refusal.is_empty().then(|| (pairs.map(two).collect(), last))
}

// Of each offer the edits are made, and the texts checked as any others. And so are those of the whole list.
#[test]
fn offers_do_what_is_said_of_them() {
    let mut dice = Dice { state: 20_261_131 };
    let mut count = 0;
    for _ in 0..120 {
        let unsafe_one = next_unsafe(&mut dice);
        let sources = unsafe_one.sources();
        let texts = |sources: &[Source]| sources.iter().map(|one| one.text.clone()).collect::<Vec<String>>();
        let old = texts(&sources);
        // (heads name files that stand there)
        if old.len() > 3 || old.iter().any(|text| text.contains("with \"")) {
            continue;
        }
        let check =
            |texts: &[String]| checked(&texts.iter().map(String::as_str).collect::<Vec<&str>>()).expect("a plan");
        let (before, _) = check(&old);
        let mending = mending(&sources, &HashMap::new());
        for (_, offers) in &mending.groups {
            for offer in offers {
                let (after, last) = check(&texts(&edited(&sources, &offer.edits).expect("texts")));
                assert!(after.is_subset(&before) && after != before, "{old:?}: {offer:?}: {last}");
                count += 1;
            }
        }
        let edits: Vec<Edit> =
            mending.list.iter().flat_map(|(group, k)| mending.groups[*group].1[*k].edits.clone()).collect();
        let (after, last) = check(&texts(&edited(&sources, &edits).expect("texts")));
        let (pairs, unsafe_pairs) = mending.then;
        let said = if unsafe_pairs == 0 {
            format!("safe: {pairs} pairs")
        } else {
            format!("unsafe: {unsafe_pairs} of {pairs} pairs")
        };
        assert!(after.is_subset(&before) && last == said, "{old:?}: {last}");
    }
    assert!(count > 100, "{count}");
}
