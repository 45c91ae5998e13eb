//! Tests of the objects that are due: they stand for the lines of the cases, and explain what worked examples say.

use crate::cases::{read_cases, Asked, Case, FILES};
use crate::commands::Command;
use crate::object_lines::lines_of;
use crate::objects::due_of;
use std::path::Path;

fn cases() -> Vec<Case> {
    let folder = Path::new(file!()).with_file_name("../cases");
    FILES.iter().flat_map(|file| read_cases(&folder, file).unwrap()).collect()
}

fn due(asked: &Asked, explain: bool) -> Option<Vec<String>> {
    let objects = due_of(asked, explain)?;
    Some(objects.iter().map(|object| object.to_string()).collect())
}

// With the text that stands below a line on behalf of `--explain` the exact line is the same.
#[test]
fn the_objects_stand_for_the_lines_of_the_cases() {
    let mut count = 0;
    for case in cases().iter().filter(|case| case.wanted.refusal.is_empty()) {
        for explain in [false, true] {
            let Some(objects) = due(&case.asked, explain) else {
                continue;
            };
            let text: String = objects.iter().map(|object| format!("{object}\n")).collect();
            assert_eq!(lines_of(&text).as_ref(), Ok(&case.wanted.out), "{}: {text}", case.name);
            count += 1;
        }
    }
    assert!(count > 400, "{count}");
}

fn asked(command: Command, plan: &str, cert: &str) -> Asked {
    Asked::of_one(command, plan.into(), cert.into())
}

fn check(plan: &str) -> Vec<String> {
    due(&asked(Command::Check { workers: 1 }, plan, ""), true).unwrap()
}

fn explain_of(object: &str) -> &str {
    // (of a group that of its example)
    let ends = object.rsplit_once("},\"explain\":").map_or(object.strip_suffix('}'), |(example, _)| Some(example));
    ends.and_then(|it| it.split_once("\"explain\":")).map_or("", |(_, explain)| explain)
}

#[test]
fn unsafe_pairs_are_explained() {
    let plan = "plan 1 message w write 1001000 00000001 00000010 stop else stop else stop else stop ;
        message r write 1001000 0000000x again read 1001000 2 stop else stop else stop else stop ;
        controller a w ; controller b r ;";
    assert_eq!(
        check(plan),
        [
            "{\"kind\":\"pair\",\"pair\":0,\"participants\":[\"a/w\",\"b/r\"],\"meet\":[\"data\",\"restart\"],\
             \"after\":\"10010000l00000001l\",\"group\":0}",
            "{\"kind\":\"group\",\"group\":0,\"pairs\":1,\"between\":[[\"a/w\",\"b/r\"]],\"frame\":0,\
             \"part\":\"data\",\"byte\":2,\"example\":{\"pair\":0,\"participants\":[\"a/w\",\"b/r\"],\
             \"meet\":[\"data\",\"restart\"],\
             \"after\":\"10010000l00000001l\",\"explain\":{\"slot\":18,\"rule\":\"UM10204 3.1.8\",\
             \"bus\":\"S 48 Wr A 01 A\",\"bytes\":[\"S 48 Wr A 01 A 02\",\"S 48 Wr A 0000000x A Sr\"],\
             \"open\":[[],[[16,16]]]}},\"explain\":{\"offers\":[\
             {\"offer\":\"0.1\",\"kind\":\"known\",\"mends\":[0],\"pairs\":1,\"unchecked\":0,\"edits\":[\
             {\"file\":\"plan\",\"line\":2,\"column\":33,\"removes\":\"0000000x\",\"puts\":\"00000000\"}]},\
             {\"offer\":\"0.2\",\"kind\":\"pointer\",\"mends\":[0],\"pairs\":1,\"unchecked\":0,\"edits\":[\
             {\"file\":\"plan\",\"line\":2,\"column\":19,\"removes\":\"write\",\"puts\":\"\"},\
             {\"file\":\"plan\",\"line\":2,\"column\":25,\"removes\":\"1001000\",\"puts\":\"\"},\
             {\"file\":\"plan\",\"line\":2,\"column\":33,\"removes\":\"0000000x\",\"puts\":\"\"},\
             {\"file\":\"plan\",\"line\":2,\"column\":42,\"removes\":\"again\",\"puts\":\"\"},\
             {\"file\":\"plan\",\"line\":2,\"column\":78,\"removes\":\"else\",\"puts\":\"\"},\
             {\"file\":\"plan\",\"line\":2,\"column\":83,\"removes\":\"stop\",\"puts\":\"\"},\
             {\"file\":\"plan\",\"line\":2,\"column\":88,\"removes\":\"else\",\"puts\":\"\"},\
             {\"file\":\"plan\",\"line\":2,\"column\":93,\"removes\":\"stop\",\"puts\":\"\"}]}]}}",
            "{\"kind\":\"plan\",\"safe\":false,\"pairs\":1,\"unsafe_pairs\":1,\"explain\":{\"explained\":1,\
             \"groups\":1,\"list\":[\"0.1\"],\"then\":{\"pairs\":1,\"unsafe_pairs\":0},\"interrupts\":[],\
             \"unsent\":[],\"kept_apart\":0}}"
        ]
    );
    // The last acknowledge of one of two reads is open.
    let plan = "plan 2 message one read 100100x 1 again write 1001000 stop else stop else stop ;
        message few read 1x01000 1..3 stop else stop ; controller a one ; controller b few ;";
    assert_eq!(
        explain_of(&check(plan)[1]),
        "{\"slot\":18,\"rule\":\"UM10204 3.1.8\",\"bus\":\"S 48 Rd A 00 NA\",\
         \"bytes\":[\"S 100100x Rd A 00 NA Sr\",\"S 1x01000 Rd A 00 A/NA P\"],\"open\":[[[6,6]],[[1,1],[17,17]]]}"
    );
}

// (each gets an address of its own)
#[test]
fn an_interrupt_is_mended_by_another_address() {
    let plan = "plan 1 message get read 1001000 1 stop else stop ; controller a get ;
        interrupt al 1001000 ; interrupt second 1001000 ;";
    let found = check(plan);
    let rule = "{\"slot\":8,\"rule\":\"interrupts\",\"bus\":\"S 48 Rd\",";
    let bytes = ["\"S 48 Rd\",\"S 48 Rd (waits)\"", "\"S 48 Rd (waits)\",\"S 48 Rd (waits)\""];
    assert_eq!(explain_of(&found[3]), format!("{rule}\"bytes\":[{}],\"open\":[[],[]]}}", bytes[0]));
    assert_eq!(explain_of(&found[5]), format!("{rule}\"bytes\":[{}],\"open\":[[],[]]}}", bytes[1]));
    let mends = "{\"explained\":3,\"groups\":3,\"list\":[\"0.1\",\"1.1\"],\"then\":{\"pairs\":3,\"unsafe_pairs\":0},\
                 \"interrupts\":[0,1,2],\"unsent\":[],\"kept_apart\":0}";
    assert_eq!(explain_of(&found[6]), mends);
}

const SEVERAL: &str = "plan 2 message w write 1001000 00000001 stop else stop else stop ;
    message v write 1001000 00000010 stop else stop else stop ; message p write 1001000 stop else stop ;
    message q read 0010000 1 stop else stop ; message spare read 0010000 1 stop else stop ;
    controller a w v ; controller b p q ; controller c p w ; interrupt al 0010000 ;";

// A read of p mends the pairs of w and those of v, and another address that of the interrupt. Without a and b together there
// are four pairs fewer, and the group of the interrupt has as many as that of v, and a shorter wire.
#[test]
fn the_list_mends_several_groups() {
    let mends = "{\"explained\":3,\"groups\":3,\"list\":[\"0.1\",\"2.1\"],\"then\":{\"pairs\":18,\"unsafe_pairs\":0},\
                 \"interrupts\":[15],\"unsent\":[\"spare\"],\"kept_apart\":0}";
    assert_eq!(explain_of(check(SEVERAL).last().unwrap()), mends);
    let mends = "{\"explained\":3,\"groups\":3,\"list\":[\"0.1\",\"1.1\"],\"then\":{\"pairs\":14,\"unsafe_pairs\":0},\
                 \"interrupts\":[11],\"unsent\":[\"spare\"],\"kept_apart\":4}";
    assert_eq!(explain_of(check(&format!("{SEVERAL} never b a ;")).last().unwrap()), mends);
}

// The first ten are explained where nothing else is said.
#[test]
fn further_groups_are_not_explained() {
    let messages: String = (1..12).map(|k| format!(" message p{k}x write 1001000 stop else stop ;")).collect();
    let listed: String = (1..12).map(|k| format!(" controller c{k} p{k}x ;")).collect();
    let plan = format!(
        "plan 1 message w write 1001000 xxxxxxxx stop else stop else stop ;{messages} controller c0 w ;{listed}"
    );
    let found = check(&plan);
    assert_eq!(found.len(), 23);
    let explained: Vec<bool> = found.iter().map(|object| object.contains("\"explain\":{\"slot\":")).collect();
    assert_eq!(explained, [&[false; 11][..], &[true; 10], &[false; 2]].concat());
    // The list names the offer of the last one, which is there. (No bytes more are offered: the others would be unsafe then.)
    let [(_, offers), (_, last)] = [&found[21], &found[22]].map(|object| object.split_once(",\"explain\":").unwrap());
    assert!(offers.starts_with("{\"offers\":[{\"offer\":\"10.1\",\"kind\":\"read\","), "{offers}");
    assert!(!offers.contains("10.2") && offers.ends_with("}]}]}}"), "{offers}");
    assert!(last.contains(",\"10.1\"]"), "{last}");
    let last = "\"unsafe_pairs\":11,\"explain\":{\"explained\":10,\"groups\":11,";
    assert!(found[22].contains(last), "{}", found[22]);
}

// What the groups say of whom they are between and where, up to their examples.
fn between_in(found: &[String]) -> Vec<&str> {
    let after = found.iter().filter_map(|object| object.split_once("\"between\":")?.1.split_once(",\"example\""));
    after.map(|(between, _)| between).collect()
}

// Names that differ in a number are a family, in which bytes do not count; other names are none.
#[test]
fn pairs_of_families_are_one_group() {
    let plan = "plan 1 message w1 write 1010000 xxxxxxxx stop else stop else stop ;
        message w_2 write 1010000 xxxxxxxx xxxxxxxx stop else stop else stop else stop ;
        message w12 write 1010000 xxxxxxxx xxxxxxxx xxxxxxxx stop else stop else stop else stop else stop ;
        message w_3 write 1010000 stop else stop ; controller a w1 w_2 w12 w_3 ; controller b w1 w_2 w12 w_3 ;";
    // (which of the two families ends first makes another group)
    assert_eq!(
        between_in(&check(plan)),
        [
            "[[\"a/w*\",\"b/w_*\"],[\"a/w_*\",\"b/w*\"]],\"frame\":0,\"part\":\"data\"",
            "[[\"a/w_*\",\"b/w_*\"]],\"frame\":0,\"part\":\"data\"",
            "[[\"a/w1\",\"b/w_2\"],[\"a/w_2\",\"b/w1\"]],\"frame\":0,\"part\":\"data\"",
            "[[\"a/w*\",\"b/w*\"]],\"frame\":0,\"part\":\"data\"",
        ]
    );
}

// One group of each address. What meets there of a family is one message.
#[test]
fn pairs_of_another_address_are_another_group() {
    let plan = "plan 1 message set1 write 1011000 00000001 xxxxxxxx stop else stop else stop else stop ;
        message set2 write 1011001 00100001 xxxxxxxx stop else stop else stop else stop ;
        message probe1 write 1011000 stop else stop ; message probe2 write 1011001 stop else stop ;
        controller a set1 set2 ; controller b probe1 probe2 ;";
    assert_eq!(
        between_in(&check(plan)),
        [
            "[[\"a/set1\",\"b/probe1\"]],\"frame\":0,\"part\":\"data\"",
            "[[\"a/set2\",\"b/probe2\"]],\"frame\":0,\"part\":\"data\"",
        ]
    );
}

#[test]
fn safe_plans_are_explained() {
    let plan = "plan 1 message short read 1001000 1 stop else stop ; message long read 1001000 2 stop else stop ;
        message other read 1001001 2 stop else stop ; message spare write 1001000 stop else stop ;
        controller a short ; controller b long ; controller c other ;";
    assert_eq!(
        explain_of(&check(plan)[0]),
        "{\"decided\":{\"header\":2,\"later\":0,\"read\":1,\"alike\":0},\"unsent\":[\"spare\"],\"kept_apart\":0}"
    );
    let plan = "plan 2 message w write 1001000 00000001 stop else stop else stop ;
        message p write 1001000 stop else stop ; controller a w ; controller b p ; controller c p ;
        never a b ; never c a ;";
    assert_eq!(
        explain_of(&check(plan)[0]),
        "{\"decided\":{\"header\":0,\"later\":0,\"read\":0,\"alike\":1},\"unsent\":[],\"kept_apart\":2}"
    );
}

#[test]
fn who_wins_is_counted_by_controllers() {
    let plan = "plan 1 message m write 1001000 stop else stop ; message n read 1001000 1 stop else stop ;
        controller a m n ; controller b m ; interrupt t 1001001 ;";
    let found = due(&asked(Command::Order, plan, ""), true).unwrap();
    assert_eq!(
        found[..3],
        [
            "{\"kind\":\"arbitration\",\"between\":[\"a\",\"b\"],\"pairs\":2,\"wins\":[0,1],\"may_win\":0,\"alike\":1,\
             \"unsafe_pairs\":0}",
            "{\"kind\":\"arbitration\",\"between\":[\"a\",\"!t\"],\"pairs\":2,\"wins\":[2,0],\"may_win\":0,\"alike\":0,\
             \"unsafe_pairs\":0}",
            "{\"kind\":\"arbitration\",\"between\":[\"b\",\"!t\"],\"pairs\":1,\"wins\":[1,0],\"may_win\":0,\"alike\":0,\
             \"unsafe_pairs\":0}",
        ]
    );
    assert_eq!(found[3..], due(&asked(Command::Order, plan, ""), false).unwrap());
}

fn verify(plan: &str, cert: &str) -> String {
    due(&asked(Command::Verify, plan, cert), true).unwrap().concat()
}

const TAILS: &str = "stop else stop else stop else stop";

// Two who write a byte, repeat START and read so many bytes.
fn readers(counts: [u32; 2]) -> String {
    let write = "write 1001000 0000000x again read 1001000";
    let [one, other] = counts;
    format!("plan 1 message one {write} {one} {TAILS} ; message two {write} {other} {TAILS} ; controller a one ; controller b two ;")
}

#[test]
fn a_proof_breaks_off_at_its_first_wrong_word() {
    for (counts, proof, word, slot, why) in [
        ([1, 2], "D B S D R . . .", 1, 0, "not_both_read"),
        ([1, 2], "P7", 1, 0, "no_split"),
        ([1, 2], "B B B . . . .", 3, 18, "not_both_write"),
        ([1, 2], "B S . .", 2, 9, "not_both_restart"),
        ([1, 2], "B . .", 2, 9, "not_both_stop"),
        ([1, 2], "B B S B R . . .", 4, 19, "not_both_write"),
        ([1, 2], "B B S P7 . .", 4, 19, "no_split"),
        ([1, 2], "B B S D . . . .", 5, 28, "reads_never_meet"),
        ([1, 2], "B B S D R S . . .", 6, 28, "not_both_restart"),
        ([1, 2], "B B S D R . S . .", 7, 18, "not_both_restart"),
        ([1, 2], "B B S D R . . S .", 8, 9, "not_both_restart"),
        ([1, 2], "R", 1, 0, "unknown_word"),
        ([2, 2], "B B S D R . . .", 5, 28, "reads_may_meet"),
        ([2, 2], "B B S D S . . . .", 5, 46, "not_both_restart"),
    ] {
        let cert = format!("cert 1\npairs 1\n{proof}\n");
        let explain =
            format!("{{\"participants\":[\"a/one\",\"b/two\"],\"word\":{word},\"slot\":{slot},\"why\":\"{why}\"}}");
        assert_eq!(explain_of(&verify(&readers(counts), &cert)), explain, "{proof}");
    }
}

#[test]
fn other_wrong_certificates_are_explained() {
    let plan = readers([2, 2]);
    let counts = "{\"pairs\":1,\"proofs\":3,\"says\":3}";
    assert_eq!(explain_of(&verify(&plan, "cert 1\npairs 3\n.\n.\n.\n")), counts);
    let counts = "{\"pairs\":1,\"proofs\":3,\"says\":1}";
    assert_eq!(explain_of(&verify(&plan, "cert 1\npairs 1\n.\n.\n.\n")), counts);
    let both = "{\"participants\":[\"a/one\",\"b/two\"]}";
    assert_eq!(explain_of(&verify(&plan, "cert 1\nfault 0 1 stop data\n")), both);
    // of a pair that there is not, of another form, and of none that is wrong
    for cert in ["cert 1\nfault 1 1 stop data\n", "cert 2\n", "cert 1\npairs 1\nB B S D . . . .\n"] {
        let found = verify(&plan, cert);
        assert!(
            found.starts_with("{\"kind\":\"certificate\",\"accepted\":") && explain_of(&found).is_empty(),
            "{found}"
        );
    }
}

#[test]
fn a_rehearsal_is_explained() {
    let plan = "plan 1 message some write 1001000 0000000x again read 1001000 1 stop else stop else stop else stop ;
        message warn write 1001000 00000011 stop else stop else stop ; controller main some ; controller guard warn ;";
    let bench = Command::Bench { starters: "guard/warn,main/some".to_owned(), fill: true, answers: "0".repeat(99) };
    assert_eq!(
        due(&asked(bench, plan, "cert 1\npairs 1\nB P6 .\n"), true).unwrap(),
        [
            "{\"kind\":\"wire\",\"wire\":\"10010000l00000001lr10010001lllllllll1s\",\"explain\":{\
             \"bytes\":\"S 48 Wr A 01 A Sr 48 Rd A 00 NA P\",\"starters\":[\
             {\"participant\":\"guard/warn\",\"puts\":\"10010000.0000001\",\"lost\":15},\
             {\"participant\":\"main/some\",\"puts\":\"10010000.00000001.r10010001.........1s\"}]}}",
            "{\"kind\":\"won\",\"participants\":[\"main/some\"]}"
        ]
    );
    let plan = "plan 1 message get read 1001001 1 stop else stop ; controller a get ; interrupt t 1001000 ;";
    let bench = Command::Bench { starters: "a/get,!t".to_owned(), fill: false, answers: String::new() };
    assert_eq!(
        due(&asked(bench, plan, "cert 1\npairs 1\nP6\n"), true).unwrap(),
        [
            "{\"kind\":\"wire\",\"wire\":\"10010001c\",\"explain\":{\"bytes\":\"S 48 Rd (waits)\",\"starters\":[\
             {\"participant\":\"a/get\",\"puts\":\"1001001\",\"lost\":6},\
             {\"participant\":\"!t\",\"puts\":\"10010001c\"}]}}",
            "{\"kind\":\"won\",\"participants\":[\"!t\"]}"
        ]
    );
}

#[test]
fn hints_are_broken_for_80_columns() {
    let long = "x".repeat(90);
    for (form, text, lines) in [
        (
            "sentence",
            "expected here: ';' or a name (a letter, then letters, digits and '_', 32 at most) or 'x'",
            "hint: expected here: ';' or a name (a letter, then letters, digits and '_', 32\nhint: at most) or 'x'\n",
        ),
        ("line", ".. S S S", "hint:   .. S S S\n"),
        ("marks", "     ^^", "hint:        ^^\n"),
        ("item", "two words", "hint:   two words\n"),
        ("line", long.as_str(), &format!("hint:   {long}\n")),
        ("sentence", long.as_str(), &format!("hint: {long}\n")),
        ("sentence", &format!("a {long} b"), &format!("hint: a\nhint: {long}\nhint: b\n")),
    ] {
        let object = format!("{{\"kind\":\"hint\",\"form\":\"{form}\",\"text\":\"{text}\"}}\n");
        assert_eq!(lines_of(&object).as_deref(), Ok(lines), "{text}");
    }
}
