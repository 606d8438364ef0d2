//! Whole columns, accepted and refused.
use cullpethi::*;

/// Texts of every kind, among them some that each column accepts.
const TEXTS: [&str; 14] = [
    "2020-09-08T13:42:29.190855Z",
    " 2020-09-08 134229\n",
    "2020-09-08",
    "1969-12-31T23:59:59.0005",
    "2020-1-1xy",
    "+2020-09-08",
    "6:00 pm",
    " 23:59:60",
    "-2147483648",
    "9223372036854775807",
    "2262-04-12",
    "1970-01-01T00:00:00+",
    "x",
    "",
];

/// A text by the column's own reader.
fn alone(column: Column, text: &str) -> Result<i64, Refusal> {
    match column {
        Column::TimestampNanosecond => parse_timestamp_nanosecond(text),
        Column::TimestampMicrosecond => parse_timestamp_microsecond(text),
        Column::TimestampMillisecond => parse_timestamp_millisecond(text),
        Column::TimestampSecond => parse_timestamp_second(text),
        Column::Time64Nanosecond => parse_time64_nanosecond(text),
        Column::Time64Microsecond => parse_time64_microsecond(text),
        Column::Time32Millisecond => parse_time32_millisecond(text).map(i64::from),
        Column::Time32Second => parse_time32_second(text).map(i64::from),
        Column::Date32 => parse_date32(text).map(i64::from),
        Column::Date64 => parse_date64(text),
    }
}

fn refused<T>(refusal: Refusal, index: usize) -> Result<T, ColumnRefusal> {
    let index = Some(index);
    Err(ColumnRefusal { refusal, index })
}

const NOT_READ: Result<(), ColumnRefusal> = Err(ColumnRefusal {
    refusal: Refusal::Column,
    index: None,
});

#[test]
fn each_text_as_by_its_reader() {
    for column in Column::ALL {
        let accepted: Vec<&str> = TEXTS
            .into_iter()
            .filter(|t| alone(column, t).is_ok())
            .collect();
        assert!(accepted.len() > 1, "{column:?}");
        let values: Vec<i64> = accepted.iter().map(|t| alone(column, t).unwrap()).collect();
        assert_eq!(parse_texts(column, &accepted), Ok(values));
        for text in TEXTS {
            let Err(why) = alone(column, text) else {
                continue;
            };
            for at in 0..=accepted.len() {
                let mut texts = accepted.clone();
                texts.insert(at, text);
                texts.push("refused too");
                assert_eq!(parse_texts(column, &texts), refused(why, at), "{column:?}");
            }
        }
    }
}

#[test]
fn no_texts() {
    let none: [&str; 0] = [];
    for column in Column::ALL {
        assert_eq!(parse_texts(column, none), Ok(vec![]));
        assert_eq!(parse_column(column, "not read", &[], &mut [5]), Ok(()));
        assert_eq!(parse_column(column, "", &[], &mut []), Ok(()));
    }
}

#[test]
fn cells_and_ends() {
    let mut cells = [5; 4];
    let mut read =
        |texts: &[u8], ends: &[u32]| (parse_column(Column::Date32, texts, ends, &mut cells), cells);
    assert_eq!(read(b"1970-01-02\xFF", &[10]), (Ok(()), [1, 5, 5, 5]));
    assert_eq!(
        read(b"1970-01-031970-01-04x", &[10, 20, 21]),
        (refused(Refusal::Date, 2), [1, 5, 5, 5])
    );
    assert_eq!(read(b"1970-01-03", &[10, 9]), (NOT_READ, [1, 5, 5, 5]));
    assert_eq!(read(b"1970-01-03", &[11]), (NOT_READ, [1, 5, 5, 5]));
    assert_eq!(read(b"x", &[1, 1, 1, 1, 1]), (NOT_READ, [1, 5, 5, 5]));
}

#[test]
fn errors() {
    let error = parse_texts(Column::Date32, ["1970-01-02", "x"]).unwrap_err();
    assert_eq!((error.number(), error.index), (2, Some(1)));
    assert_eq!(error.to_string(), format!("text 1: {}", Refusal::Date));
    let error = parse_column(Column::Date32, "", &[1], &mut [0]).unwrap_err();
    assert_eq!((error.number(), error.index), (13, None));
    assert_eq!(error.to_string(), Refusal::Column.to_string());
}
