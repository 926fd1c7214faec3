use cedar_schema::{
    check, complete, format, from_deprecated, from_json, include, recover, report, run, same, to_json, version, Error,
};
use std::thread;

#[test]
fn texts_are_recovered() {
    assert_eq!(recover("entity B; entity A in B;").unwrap(), "entity A in [B];\n\nentity B;\n");
    assert_eq!(recover("").unwrap(), "");
    assert_eq!(check("entity A; action a;").unwrap(), (1, 1));
    assert_eq!(format("entity A;//a\nentity B;").unwrap(), "entity A; //a\nentity B;\n");
}

#[test]
fn json_goes_both_ways() {
    let json = to_json("entity A;").unwrap();
    assert_eq!(from_json(&json).unwrap(), "entity A;\n");
    assert_eq!(from_deprecated(&json).unwrap(), "entity A;\n");
}

#[test]
fn refusals_have_place_and_help() {
    let error = recover("entity User = { name String };").unwrap_err();
    assert_eq!(error.to_string(), "unexpected token `String`");
    assert_eq!(error.place(), Some((21, 27)));
    let error = recover("action view appliesTo { principal: User };").unwrap_err();
    assert_eq!(error.place(), Some((7, 11)));
    assert!(error.help().unwrap().starts_with("Every action must define both"));
}

#[test]
fn places_are_completed() {
    let text = "entity User; entity A in U;";
    assert_eq!(complete(text, 26).unwrap().names, ["User"]);
    assert_eq!(complete("entity = A", 10).unwrap_err().to_string(), "unexpected token `=`");
    assert!(complete(text, 99).is_err());
}

#[test]
fn faults_are_reported() {
    assert!(report("entity A;").unwrap().is_empty());
    let reports = report("entity A in [B];\nentity A;").unwrap();
    assert_eq!(reports.len(), 1);
    assert!(reports[0].contains("\"start\":{\"byte\":24,\"column\":8,\"line\":2,\"utf16\":8}"), "{}", reports[0]);
}

#[test]
fn texts_are_compared() {
    assert!(same("entity A, B;", "// b\nentity B; entity A;").unwrap());
    assert!(!same("entity A;", "entity A tags Long;").unwrap());
    assert_eq!(include("entity A;", "entity A, B;").unwrap(), None);
    assert_eq!(include("entity A, B;", "entity B;").unwrap().unwrap(), "entity A::\"\"");
    assert!(matches!(same("entity A;", "entity B in [C];"), Err(Error::Refused(_))));
}

#[test]
fn inputs_have_limits() {
    let deep = std::format!("type T = {}Long{};", "Set<".repeat(300), ">".repeat(300));
    assert_eq!(recover(&deep), Err(Error::TooDeep));
    assert_eq!(recover(&"a".repeat(16_777_217)), Err(Error::TooLong));
    assert_eq!(run(&[b"recover"], b"\xff").status, 5);
    assert_eq!(run(&[], b"").status, 2);
    assert_eq!(run(&[b"\xff"], b"").status, 2);
}

#[test]
fn threads_call_side_by_side() {
    let all: Vec<_> = (0..8)
        .map(|number| {
            thread::spawn(move || {
                let text = format!("entity E{number};");
                for _ in 0..1000 {
                    assert_eq!(recover(&text).unwrap(), format!("{text}\n"));
                }
            })
        })
        .collect();
    for one in all {
        one.join().unwrap();
    }
}

// The bytes up to the first of this kind, and those behind it.
fn cut(bytes: &[u8], at: u8) -> Option<(&[u8], &[u8])> {
    let place = bytes.iter().position(|byte| *byte == at)?;
    Some((&bytes[..place], &bytes[place + 1..]))
}

#[test]
fn inputs_are_answered_as_expected() {
    let bytes = std::fs::read(concat!(env!("CARGO_MANIFEST_DIR"), "/../answers")).unwrap();
    let mut rest = &bytes[..];
    let mut count = 0;
    while let Some((head, behind)) = cut(rest, b'\n') {
        let head = std::str::from_utf8(head).unwrap();
        let (word, numbers) = head.split_once(' ').unwrap();
        let numbers: Vec<usize> = numbers.split(' ').map(|number| number.parse().unwrap()).collect();
        let (input, behind) = behind.split_at(numbers[0]);
        let (out, behind) = behind.split_at(numbers[2]);
        let (err, behind) = behind.split_at(numbers[3]);
        rest = &behind[1..];
        if word != "layout" {
            let answer = run(&[word.as_bytes()], input);
            assert_eq!((answer.status as usize, &answer.out[..], &answer.err[..]), (numbers[1], out, err));
        } else if let Ok(text) = std::str::from_utf8(input) {
            assert_eq!(format(text).ok().map(String::into_bytes), (numbers[1] == 0).then(|| out.to_vec()));
        }
        count += 1;
    }
    assert_eq!(count, 1000);
}

#[test]
fn the_version_is_told() {
    assert_eq!(version(), (0, 1, 0));
}
