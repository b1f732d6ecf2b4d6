//! The script lines of document 01's program `replay`, carried out by calls.

mod common;

use common::empty;
use ngalovuki::{Error, Handle, Store};
use std::ops::Bound::{Excluded, Unbounded};

/// Bytes of a script, which are letters and digits.
fn text(bytes: Vec<u8>) -> String {
    String::from_utf8(bytes).expect("letters and digits")
}

/// What a line prints behind its return number. The lines are good ones.
fn told(store: &mut Store, line: &str) -> Result<String, Error> {
    let fields: Vec<&str> = line.split(' ').collect();
    let handle = Handle(fields.get(1).map_or(0, |field| field.parse().expect("a number")));
    let key = fields.get(2).map_or(&b""[..], |field| field.as_bytes());
    let nothing = |()| String::new();
    match fields[0] {
        "b" => store.begin().map(|begun| format!(" {} {}", begun.handle, begun.read)),
        "g" => store.get(handle, key).map(|found| found.map_or(" -".into(), |value| format!(" {}", text(value)))),
        "p" => store.put(handle, key, fields[3].as_bytes()).map(nothing),
        "d" => store.delete(handle, key).map(nothing),
        "f" => {
            let low = if key == b"-" { Unbounded } else { Excluded(key) };
            let found = store.first(handle, low, Unbounded)?;
            Ok(found.map_or(" -".into(), |(key, value)| format!(" {} {}", text(key), text(value))))
        }
        "c" => store.commit(handle).map(|number| number.map_or(" -".into(), |number| format!(" {number}"))),
        "e" => store.end(handle).map(nothing),
        "z" => store.freeze().map(nothing),
        other => panic!("no such line: {other}"),
    }
}

/// What `replay` prints for a script.
fn replayed(script: &[&str]) -> Vec<String> {
    let mut store = empty();
    let lines = script.iter().enumerate();
    lines
        .map(|(i, line)| match told(&mut store, line) {
            Ok(values) => format!("{} 0{values}", i + 1),
            Err(error) => format!("{} {}", i + 1, error.number()),
        })
        .collect()
}

#[test]
fn the_nine_lines_of_document_01() {
    let script = ["b", "b", "p 1 oak x", "g 2 oak", "c 1", "p 2 fir y", "c 2", "e 1", "e 2"];
    let printed = ["1 0 1 0", "2 0 2 0", "3 0", "4 0 -", "5 0 1", "6 0", "7 6", "8 0", "9 0"];
    assert_eq!(replayed(&script), printed);
}

#[test]
fn a_script_with_every_line() {
    let lines = [
        ("z", "1 0"),
        ("b", "2 0 1 0"),
        ("p 1 oak x", "3 0"),
        ("p 1 fir y", "4 0"),
        ("f 1 -", "5 0 fir y"),
        ("f 1 fir", "6 0 oak x"),
        ("f 1 oak", "7 0 -"),
        ("c 1", "8 0 1"),
        ("z", "9 0"),
        ("b", "10 0 2 1"),
        ("d 2 fir", "11 0"),
        ("g 2 fir", "12 0 -"),
        ("g 2 oak", "13 0 x"),
        ("f 2 -", "14 0 oak x"),
        ("c 2", "15 0 2"),
        ("c 2", "16 4"),
        ("e 2", "17 0"),
        ("b", "18 0 3 2"),
        ("f 3 -", "19 0 oak x"),
        ("f 3 oak", "20 0 -"),
        ("c 3", "21 0 -"),
        ("g 3 oak", "22 4"),
        ("e 3", "23 0"),
        ("e 3", "24 3"),
        ("b", "25 0 4 2"),
        ("g 1 oak", "26 4"),
        ("e 1", "27 0"),
        ("e 4", "28 0"),
    ];
    assert_eq!(replayed(&lines.map(|(line, _)| line)), lines.map(|(_, printed)| printed));
}
