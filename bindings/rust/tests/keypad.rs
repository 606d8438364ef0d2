//! Every keypad text, against nested loops over the components.
use cullpethi::*;
use std::collections::HashSet;

const UNITS: [&str; 12] = [
    "c",
    "dec",
    "y",
    "mon",
    "w",
    "d",
    "h",
    "m",
    "s",
    "ms",
    "us",
    "nanosecond",
];

/// The texts of so many components, in front of which stands `front`, whose units are `used`.
fn texts(count: usize, front: &str, used: &mut Vec<usize>, found: &mut dyn FnMut(&str)) {
    for digit in 0..10 {
        for (number, unit) in UNITS.iter().enumerate() {
            if used.contains(&number) {
                continue;
            }
            let text = format!("{front}{digit}{unit}");
            if count == 1 {
                found(&text);
                continue;
            }
            used.push(number);
            texts(count - 1, &format!("{text} "), used, found);
            used.pop();
        }
    }
}

#[test]
fn all_are_those_of_nested_loops() {
    let mut all = keypad_texts();
    for count in 1..=3 {
        let mut how_many = 0;
        texts(count, "", &mut Vec::new(), &mut |text| {
            assert_eq!(all.next().as_deref(), Some(text));
            how_many += 1;
        });
        assert_eq!(how_many, [120, 13_200, 1_320_000][count - 1]);
    }
    assert_eq!(all.next(), None);
    assert_eq!(all.next(), None);
}

#[test]
fn each_is_once_there_and_accepted() {
    let mut seen = HashSet::new();
    for text in keypad_texts() {
        assert!(text.len() <= 21);
        assert!(parse_interval_month_day_nano(&text).is_ok(), "{text}");
        seen.insert(text);
    }
    assert_eq!(seen.len() as u64, KEYPAD_TEXTS);
}

#[test]
fn seams() {
    for (k, text) in [
        (0, "0c"),
        (11, "0nanosecond"),
        (12, "1c"),
        (119, "9nanosecond"),
        (120, "0c 0dec"),
        (230, "0dec 0c"),
        (13_319, "9nanosecond 9us"),
        (13_320, "0c 0dec 0y"),
        (134_422, "0nanosecond 0dec 0mon"),
        (1_333_319, "9nanosecond 9us 9ms"),
    ] {
        for room in 0..text.len() {
            let mut buffer = [b'.'; 30];
            assert_eq!(keypad_text(k, &mut buffer[..room]), Err(Refusal::Buffer));
            assert_eq!(buffer, [b'.'; 30]);
        }
        for room in text.len()..=30 {
            let mut buffer = [b'.'; 30];
            assert_eq!(keypad_text(k, &mut buffer[..room]), Ok(text.len()));
            assert_eq!(&buffer[..text.len()], text.as_bytes());
            assert!(buffer[text.len()..].iter().all(|&b| b == b'.'));
        }
    }
}

#[test]
fn no_such_text() {
    for k in [KEYPAD_TEXTS, KEYPAD_TEXTS + 1, 1 << 32, u64::MAX] {
        for room in [0, 1, 21, 30] {
            let mut buffer = [b'.'; 30];
            assert_eq!(keypad_text(k, &mut buffer[..room]), Err(Refusal::Keypad));
            assert_eq!(buffer, [b'.'; 30]);
        }
    }
}

#[test]
fn iterated() {
    let mut texts = keypad_texts();
    assert_eq!(texts.len(), 1_333_320);
    assert_eq!(texts.nth(120).as_deref(), Some("0c 0dec"));
    assert_eq!(texts.nth(1_333_197).as_deref(), Some("9nanosecond 9us 9s"));
    assert_eq!(texts.len(), 1);
    assert_eq!(texts.next_back().as_deref(), Some("9nanosecond 9us 9ms"));
    assert_eq!(texts.next_back(), None);
    assert_eq!(texts.nth(5), None);
}

#[test]
fn told() {
    let refusal = keypad_text(KEYPAD_TEXTS, &mut []).unwrap_err();
    assert_eq!(refusal.number(), 17);
    assert_eq!(refusal.to_string(), "no keypad text has this number");
}
