//! The listing with captions: what is shown in the names' places, their order, and the order of refusals.

use super::{readings, sheet};
use crate::listing::{captioned, listing};

fn listed(sheet: &str, captions: &str, readings: &str) -> String {
    captioned(sheet.as_bytes(), captions.as_bytes(), readings.as_bytes())
}

#[test]
fn the_first_worked_case() {
    let rules = ["clear2@[-3,0]=>go10", "go10=>open10@[2,2]"];
    let sheet = sheet(10, "clear2 go10 open10", &rules);
    let clear: Vec<_> = (3..=6).map(|tick| (tick, "clear2", 1)).collect();
    let wanted =
        "answer=0\nrows=15\nfacts=6\nclash=0\nsignal=way = clear\nmarks=???1111???\nsignal=go10\n\
                  marks=??????1???\nsignal=~ open ~\nmarks=????????1?\n";
    let captions = "open10=~ open ~\nclear2=way = clear\n";
    assert_eq!(listed(&sheet, captions, &readings(&clear)), wanted);
}

#[test]
fn the_order_is_that_of_the_names() {
    let sheet = sheet(1, "aisle10 b aisle2", &[]);
    let read = readings(&[(0, "aisle10", 1), (0, "aisle2", 0)]);
    let head = "answer=0\nrows=3\nfacts=2\nclash=0\n";
    for (captions, shown) in [
        ("", ["aisle2", "aisle10", "b"]),
        ("aisle10=A\n", ["aisle2", "A", "b"]),
        ("aisle10=A\naisle2=Z\n", ["Z", "A", "b"]),
        ("b=A\naisle10=B\naisle2=C\n", ["C", "B", "A"]),
        ("b=aisle2\naisle2=b\n", ["b", "aisle10", "aisle2"]),
        ("b=x\naisle2=x\naisle10=x\n", ["x", "x", "x"]),
    ] {
        let marks = shown.iter().zip(["0", "1", "?"]);
        let lines = marks.map(|(shown, mark)| format!("signal={shown}\nmarks={mark}\n"));
        let wanted = lines.fold(head.to_string(), |text, line| text + &line);
        assert_eq!(listed(&sheet, captions, &read), wanted, "{captions:?}");
    }
}

#[test]
fn a_clash_is_shown_with_captions() {
    let sheet = sheet(2, "a", &[]);
    let read = readings(&[(0, "a", 1), (0, "a", 0)]);
    let wanted = "answer=0\nrows=1\nfacts=2\nclash=1\nsignal=the door\nmarks=xx\n";
    assert_eq!(listed(&sheet, "a=the door\n", &read), wanted);
}

#[test]
fn no_captions_give_the_listing_without() {
    let read = readings(&[(1, "a10", 1)]);
    for sheet in [
        sheet(3, "a10 a2 b", &["a10=>b"]),
        sheet(3, "a10", &["("]),
        String::new(),
    ] {
        for read in ["", &read, "x"] {
            let plain = listing(sheet.as_bytes(), read.as_bytes());
            assert_eq!(listed(&sheet, "", read), plain);
        }
    }
}

#[test]
fn the_order_of_refusals() {
    let names: Vec<String> = (0..64).map(|number| format!("s{number}")).collect();
    let sheet = |window, rules: &[&str]| sheet(window, &names.join(" "), rules);
    let many = ["since(s0,s0)"; 33];
    let (large, small) = (sheet(4_096, &["!s0"]), sheet(4_096, &["s0"]));
    for (text, captions, readings, wanted) in [
        // The sheet's, then the captions' line by line.
        (&sheet(4_097, &[]), "x", "x", "answer=3\nplace=7\n"),
        (&sheet(4_096, &many), "x", "x", "answer=9\nplace=0\n"),
        (&large, "s1=x\nx", "x", "answer=24\nplace=5\n"),
        (&large, "s1=x\ns01=x\nx", "x", "answer=12\nplace=5\n"),
        (&large, "s1=x\ns1=x\n", "x", "answer=24\nplace=5\n"),
        // Then the table's size, then the readings'.
        (&large, "s1=x\n", "x", "answer=29\nplace=0\n"),
        (&small, "s1=x\ns64=x\n", "x", "answer=12\nplace=5\n"),
        (&small, "s1=\n", "x", "answer=24\nplace=0\n"),
        (&small, "s1=x\n", "x", "answer=11\nplace=0\n"),
        (&small, "s1=x\n", "at=4096\n", "answer=13\nplace=3\n"),
    ] {
        assert_eq!(listed(text, captions, readings), wanted, "{captions:?}");
    }
}
