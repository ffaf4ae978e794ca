//! Rules printed back: what each becomes, that it stays the same formula, the room that it needs, the limits, and each refusal with its place.

mod common {
    pub mod numbers;
    pub mod sheet;
}

use common::numbers::numbers_from;
use common::sheet::sheet;
use mikhakun::{add, print_rule, print_rule_into, Table, LONGEST_RULE};

const WINDOW: usize = 12;
const SIGNALS: &[&str] = &["a", "b", "c", "x9", "aisle10", "since1", "a02b"];

/// A rule as it is written, and as it is printed.
type Printed<'a> = (&'a str, &'a str);

#[rustfmt::skip]
const RULES: &[Printed] = &[
    // Names, as they are spelled.
    ("a", "a"),
    ("aisle10&since1|a02b", "aisle10&since1|a02b"),
    // Needless parentheses: round a name, doubled, round the whole rule.
    ("(a)", "a"),
    ("((a))", "a"),
    ("(a)&((b))", "a&b"),
    ("((a=>b))", "a=>b"),
    ("(((a))<=>(!((b))))", "a<=>!b"),
    // Not takes a plain part: a name, another not, a since or until. What is looser keeps its parentheses.
    ("!(a)", "!a"),
    ("(!a)", "!a"),
    ("!(!a)", "!!a"),
    ("!((!(a)))", "!!a"),
    ("!(since(a,b))", "!since(a,b)"),
    ("!((a@[0,1]))", "!(a@[0,1])"),
    ("!(a&b)", "!(a&b)"),
    ("!(a|b)", "!(a|b)"),
    ("!(a=>b)", "!(a=>b)"),
    ("!(a<=>b)", "!(a<=>b)"),
    ("(!a)&b", "!a&b"),
    // An interval takes the timed part before it.
    ("(a)@[0,1]", "a@[0,1]"),
    ("(!a)@[0,1]", "!a@[0,1]"),
    ("!a@[0,1]", "!a@[0,1]"),
    ("!(a@[0,1])", "!(a@[0,1])"),
    ("(!(a@[0,1]))?[2,3]", "!(a@[0,1])?[2,3]"),
    ("(a@[0,1])?[2,3]", "a@[0,1]?[2,3]"),
    ("((a?[0,1])@[2,3])@[4,5]", "a?[0,1]@[2,3]@[4,5]"),
    ("(until(a,b))@[0,1]", "until(a,b)@[0,1]"),
    ("((a&b))@[0,1]", "(a&b)@[0,1]"),
    ("(a|b)?[0,1]", "(a|b)?[0,1]"),
    ("(a=>b)@[0,1]", "(a=>b)@[0,1]"),
    ("(a<=>b)@[0,1]", "(a<=>b)@[0,1]"),
    // And groups from the left.
    ("(a&b)&c", "a&b&c"),
    ("a&(b&c)", "a&(b&c)"),
    ("((a&b)&c)&a", "a&b&c&a"),
    ("(a&b)&(c&a)", "a&b&(c&a)"),
    ("a&(b@[0,1])", "a&b@[0,1]"),
    ("(a@[0,1])&(!b)", "a@[0,1]&!b"),
    ("(a|b)&c", "(a|b)&c"),
    ("a&(b|c)", "a&(b|c)"),
    ("(a=>b)&(b<=>c)", "(a=>b)&(b<=>c)"),
    // Or groups from the left, and and binds before it.
    ("(a|b)|c", "a|b|c"),
    ("a|(b|c)", "a|(b|c)"),
    ("(a|b)|(c|a)", "a|b|(c|a)"),
    ("(a&b)|(b&c)", "a&b|b&c"),
    ("a|((b&c)|a)", "a|(b&c|a)"),
    ("(a=>b)|(b<=>c)", "(a=>b)|(b<=>c)"),
    // Implies joins two or-parts, so that one in another keeps its parentheses on either side.
    ("(a=>b)=>c", "(a=>b)=>c"),
    ("a=>(b=>c)", "a=>(b=>c)"),
    ("(a|b)=>(b|c)", "a|b=>b|c"),
    ("((a=>b))=>((c)=>a)", "(a=>b)=>(c=>a)"),
    ("(a<=>b)=>c", "(a<=>b)=>c"),
    ("a=>(b<=>c)", "a=>(b<=>c)"),
    // Exactly-if joins two implication parts.
    ("(a<=>b)<=>c", "(a<=>b)<=>c"),
    ("a<=>(b<=>c)", "a<=>(b<=>c)"),
    ("(a=>b)<=>(b=>c)", "a=>b<=>b=>c"),
    ("(a|b)<=>(c=>a)", "a|b<=>c=>a"),
    // Since and until, as written: an argument has none of its own.
    ("since((a),(b))", "since(a,b)"),
    ("(since(a,b))&(until(b,c))", "since(a,b)&until(b,c)"),
    ("since((a<=>b),((b=>c)))", "since(a<=>b,b=>c)"),
    ("until((a=>b),(b<=>c))", "until(a=>b,b<=>c)"),
    ("until((a|b)&c,(!(a)))", "until((a|b)&c,!a)"),
    ("since((until((a),b)),(since(b,(c))))", "since(until(a,b),since(b,c))"),
    ("c<=>(a|(b&since(a,b)))", "c<=>a|b&since(a,b)"),
];

/// An interval as it is written, and as it is printed: a round bracket leaves its end out.
const INTERVALS: &[Printed] = &[
    ("[0,3]", "[0,3]"),
    ("(0,3)", "[1,2]"),
    ("[0,3)", "[0,2]"),
    ("(0,3]", "[1,3]"),
    // One tick.
    ("[0,0]", "[0,0]"),
    ("(-1,1)", "[0,0]"),
    ("(-1,0]", "[0,0]"),
    ("[0,1)", "[0,0]"),
    ("(0,2)", "[1,1]"),
    ("(-2,0)", "[-1,-1]"),
    // A byte more or less.
    ("(9,11)", "[10,10]"),
    ("(9,13)", "[10,12]"),
    ("(-11,-9)", "[-10,-10]"),
    ("(-13,-9)", "[-12,-10]"),
    ("(-3,0)", "[-2,-1]"),
    ("(-10,10)", "[-9,9]"),
    ("(-1,3)", "[0,2]"),
    // The farthest ends.
    ("[-63,63]", "[-63,63]"),
    ("(-63,63)", "[-62,62]"),
    ("(62,63]", "[63,63]"),
    ("[-63,-62)", "[-63,-63]"),
];

/// Every rule of the tables: those above, and a name with each interval.
fn rules() -> Vec<(String, String)> {
    let after = |sign: char| INTERVALS.iter().map(move |(written, printed)| (format!("a{sign}{written}"), format!("a{sign}{printed}")));
    let rules = RULES.iter().map(|(written, printed)| (written.to_string(), printed.to_string()));
    rules.chain(after('@')).chain(after('?')).collect()
}

fn one_rule(rule: &str) -> Vec<u8> {
    sheet(WINDOW, SIGNALS, &[rule])
}

/// A rule of a sheet, printed.
fn text_of(sheet: &[u8], rule: usize) -> String {
    String::from_utf8(print_rule(sheet, rule).unwrap()).unwrap()
}

/// The table that the sheet and some readings lead to: it has a row for each part of a rule.
fn closed(sheet: &[u8]) -> Table {
    let mut table = Table::for_sheet(sheet).unwrap();
    let span = |(first, last, name, value)| format!("from={first}\nto={last}\nsignal={name}\nvalue={value}\n");
    let readings: String = [(2, 5, "a", 1), (6, 6, "a", 0), (4, 7, "b", 0), (8, 8, "c", 1)].into_iter().map(span).collect();
    add(sheet, readings.as_bytes(), &mut table).unwrap();
    table
}

/// Where parentheses open, but for those of since and until: these stand behind a letter.
fn openings(text: &str) -> Vec<usize> {
    let bytes = text.as_bytes();
    (0..bytes.len()).filter(|&at| bytes[at] == b'(' && !(at > 0 && bytes[at - 1].is_ascii_alphanumeric())).collect()
}

/// The text without the pair of parentheses that opens at this byte.
fn without_pair(text: &str, open: usize) -> String {
    let mut inside = 0;
    let closes = |(_, byte): &(usize, char)| {
        inside += i32::from(*byte == '(') - i32::from(*byte == ')');
        inside == 0
    };
    let (close, _) = text.char_indices().skip(open).find(closes).unwrap();
    [&text[..open], &text[open + 1..close], &text[close + 1..]].concat()
}

/// This is the printed text of a rule: printed again it is the same, and no pair of parentheses can be left out.
fn is_least(text: &str) {
    assert_eq!(text_of(&one_rule(text), 0), text);
    for open in openings(text) {
        let shorter = without_pair(text, open);
        let printed = print_rule(&one_rule(&shorter), 0);
        assert_ne!(printed, Ok(text.as_bytes().to_vec()), "{text} and {shorter}");
    }
}

#[test]
fn each_rule_is_printed_so() {
    for (written, printed) in rules() {
        assert_eq!(text_of(&one_rule(&written), 0), printed, "{written}");
    }
}

#[test]
fn a_printed_rule_says_nothing_needless() {
    for (_, printed) in rules() {
        is_least(&printed);
    }
}

#[test]
fn a_printed_rule_is_the_same_formula() {
    for (written, printed) in rules() {
        assert_eq!(closed(&one_rule(&written)), closed(&one_rule(&printed)), "{written}");
    }
}

#[test]
fn a_sheet_of_printed_rules_is_the_same_sheet() {
    for rules in RULES.chunks(16) {
        let (written, printed): (Vec<&str>, Vec<&str>) = rules.iter().copied().unzip();
        let (given, rewritten) = (sheet(WINDOW, SIGNALS, &written), sheet(WINDOW, SIGNALS, &printed));
        for (rule, text) in printed.iter().enumerate() {
            assert_eq!([text_of(&given, rule), text_of(&rewritten, rule)], [*text; 2]);
        }
        assert_eq!(closed(&given), closed(&rewritten));
    }
}

/// An interval within 12 ticks, in two texts with brackets of either kind.
fn interval_of_no_order(below: &mut impl FnMut(usize) -> usize) -> [String; 2] {
    let first = below(25) as i64 - 12;
    let last = (first + below(4) as i64).min(12);
    [(); 2].map(|()| {
        let opening = if below(2) == 0 { format!("[{first}") } else { format!("({}", first - 1) };
        let closing = if below(2) == 0 { format!("{last}]") } else { format!("{})", last + 1) };
        format!("{opening},{closing}")
    })
}

/// A formula of up to so many levels, in two texts: each part of it in one pair of parentheses or two, a name in up to two.
fn formula_of_no_order(below: &mut impl FnMut(usize) -> usize, levels: usize) -> [String; 2] {
    let kind = if levels == 0 { 0 } else { below(10) };
    let part = |below: &mut _| formula_of_no_order(below, levels - 1);
    let joined = |[a, b]: [String; 2], sign: &str, [c, d]: [String; 2]| [format!("{a}{sign}{c}"), format!("{b}{sign}{d}")];
    let texts = match kind {
        0 => [SIGNALS[below(SIGNALS.len())]; 2].map(str::to_string),
        1 => part(below).map(|text| format!("!{text}")),
        2 => joined(part(below), "@", interval_of_no_order(below)),
        3 => joined(part(below), "?", interval_of_no_order(below)),
        4 => joined(part(below), "&", part(below)),
        5 => joined(part(below), "|", part(below)),
        6 => joined(part(below), "=>", part(below)),
        7 => joined(part(below), "<=>", part(below)),
        8 => joined(part(below), ",", part(below)).map(|both| format!("since({both})")),
        _ => joined(part(below), ",", part(below)).map(|both| format!("until({both})")),
    };
    let least = usize::from(kind > 0);
    texts.map(|text| {
        let pairs = least + below(3 - least);
        format!("{}{text}{}", "(".repeat(pairs), ")".repeat(pairs))
    })
}

#[test]
fn two_texts_of_a_formula_are_printed_alike() {
    let (mut tried, mut pairs) = (0, 0);
    for number in 0..400 {
        let [one, other] = formula_of_no_order(&mut numbers_from(number), 3);
        if one.len() > LONGEST_RULE || other.len() > LONGEST_RULE {
            continue;
        }
        let printed = text_of(&one_rule(&one), 0);
        assert_eq!(text_of(&one_rule(&other), 0), printed, "{one} and {other}");
        assert_eq!(closed(&one_rule(&one)), closed(&one_rule(&printed)), "{one}");
        is_least(&printed);
        tried += 1;
        pairs += openings(&printed).len();
    }
    assert!(tried > 300 && pairs > 200, "{tried} formulas with {pairs} pairs of parentheses");
}

#[test]
fn a_buffer_keeps_what_is_not_written() {
    for (written, printed) in rules() {
        for room in [printed.len(), printed.len() + 1, LONGEST_RULE, LONGEST_RULE + 100] {
            let mut buffer = vec![b'.'; room];
            assert_eq!(print_rule_into(&one_rule(&written), 0, &mut buffer), Ok(printed.len()), "{written}");
            assert_eq!(buffer, [printed.as_bytes(), &vec![b'.'; room - printed.len()]].concat(), "{written}");
        }
    }
}

/// The number and the place of a refusal: the buffer, of so many bytes, keeps each of them.
fn refused(sheet: &[u8], rule: usize, room: usize) -> (u64, usize) {
    let mut buffer = vec![b'.'; room];
    let refusal = print_rule_into(sheet, rule, &mut buffer).unwrap_err();
    assert_eq!(buffer, vec![b'.'; room]);
    (refusal.number(), refusal.place())
}

#[test]
fn a_byte_too_little_is_refused() {
    for (written, printed) in rules() {
        for room in [0, printed.len() / 2, printed.len() - 1] {
            assert_eq!(refused(&one_rule(&written), 0, room), (20, 0), "{written}");
        }
    }
}

#[test]
fn a_text_may_have_up_to_256_bytes() {
    // Each interval is printed with a byte more: all of them have 240 bytes then.
    for (interval, times) in [("@(9,11)", 30), ("?(-3,0)", 30), ("@(-11,-9)", 24)] {
        let rule = |name: &str, more: usize| format!("{name}{}{}", interval.repeat(times), "&a".repeat(more));
        let longest = one_rule(&rule("x9", 7));
        assert_eq!((text_of(&longest, 0).len(), refused(&longest, 0, 255)), (256, (20, 0)), "{interval}");
        for (longer, length) in [(rule("a", 8), 257), (rule("x9", 8), 258), (rule("a", 12), 265)] {
            assert_eq!(longer.len() + times, length, "{interval}");
            for room in [0, 255, 256, 257, 1_000] {
                assert_eq!(refused(&one_rule(&longer), 0, room), (20, 0), "{interval} {length} {room}");
            }
            assert_eq!(print_rule(&one_rule(&longer), 0).unwrap_err().number(), 20, "{interval} {length}");
        }
    }
}

#[test]
fn a_rule_of_256_bytes() {
    let longest = format!("x9{}", "&a".repeat(127));
    assert_eq!(longest.len(), LONGEST_RULE);
    assert_eq!(text_of(&one_rule(&longest), 0), longest);
    // Needless parentheses make room for square brackets.
    let (round, square) = (format!("a{}", "&(a)@(9,11)".repeat(23)), format!("a{}", "&a@[10,10]".repeat(23)));
    assert_eq!((round.len(), square.len()), (254, 231));
    assert_eq!(text_of(&one_rule(&round), 0), square);
    let head = one_rule("").len() - 1;
    assert_eq!(refused(&one_rule(&format!("{longest}a")), 0, 1_000), (5, head));
}

#[test]
fn as_many_open_as_may_be() {
    let nested = |open: &str, core: &str, close: &str| format!("{}{core}{}", open.repeat(32), close.repeat(32));
    assert_eq!(text_of(&one_rule(&nested("(", "a", ")")), 0), "a");
    for rule in [nested("!", "a", ""), nested("a&(", "a&b", ")"), nested("a|(", "a|b", ")"), nested("a=>(", "a=>b", ")")] {
        assert_eq!(text_of(&one_rule(&rule), 0), rule);
    }
}

#[test]
fn rules_are_numbered_from_0() {
    for count in [0, 1, 2, 63, 64] {
        let names: Vec<String> = (0..64).map(|number| format!("a{number}")).collect();
        let names: Vec<&str> = names.iter().map(String::as_str).collect();
        let written: Vec<String> = names[..count].iter().map(|name| format!("({name})")).collect();
        let sheet = sheet(WINDOW, &names, &written.iter().map(String::as_str).collect::<Vec<_>>());
        let texts: Vec<String> = (0..count).map(|rule| text_of(&sheet, rule)).collect();
        assert_eq!(texts, names[..count]);
        for rule in [count, count + 1, 65, 1 << 32, usize::MAX] {
            assert_eq!(refused(&sheet, rule, LONGEST_RULE), (17, 0), "{rule} of {count}");
        }
    }
}

#[test]
fn the_order_of_refusals() {
    let (past, head) = (usize::MAX, one_rule("").len() - 1);
    let too_large = one_rule("a@[-63,63]@[-63,63]@[-63,63]@[-63,63]@[-63,63]");
    // All is wrong; then the sheet and the rule's number are put right one by one.
    assert_eq!(refused(&[b'x'; 32_769], past, 0), (1, 0));
    assert_eq!(refused(b"", past, 0), (2, 0));
    assert_eq!(refused(b"window=4097\n", past, 0), (3, 7));
    assert_eq!(refused(b"window=1\nsignals=1\nsignal=a01\n", past, 0), (4, 26));
    assert_eq!(refused(&one_rule("a&"), past, 0), (5, head + 2));
    assert_eq!(refused(&one_rule("a&d"), past, 0), (6, head + 2));
    assert_eq!(refused(&one_rule("a@(0,1)"), past, 0), (7, head + 2));
    assert_eq!(refused(&one_rule(&"!".repeat(33)), past, 0), (8, head + 32));
    assert_eq!(refused(&too_large, past, 0), (9, 0));
    assert_eq!(refused(&one_rule("a"), past, 0), (17, 0));
    assert_eq!(refused(&one_rule("a"), 1, 0), (17, 0));
    assert_eq!(refused(&one_rule("a"), 0, 0), (20, 0));
    assert_eq!(print_rule_into(&one_rule("a"), 0, &mut [b'.'; 1]), Ok(1));
    // Another rule than the one asked for is wrong.
    assert_eq!(refused(&sheet(WINDOW, SIGNALS, &["a", "b", "d"]), 0, LONGEST_RULE).0, 6);
}
