//! Each function, accepted and refused.
use cullpethi::*;
use std::borrow::Cow;
use std::rc::Rc;
use std::sync::Arc;

fn counts(months: i32, days: i32, nanoseconds: i64) -> Result<IntervalMonthDayNano, Refusal> {
    Ok(IntervalMonthDayNano::new(months, days, nanoseconds))
}

#[test]
fn stamps() {
    assert_eq!(
        string_to_timestamp_nanos("1677-09-21T00:12:43.145224192"),
        Ok(i64::MIN)
    );
    assert_eq!(
        string_to_timestamp_nanos("2262-04-11T23:47:16.854775807Z"),
        Ok(i64::MAX)
    );
    assert_eq!(
        string_to_timestamp_nanos("2262-04-11T23:47:16.854775808Z"),
        Err(Refusal::Range)
    );
    assert_eq!(string_to_timestamp_nanos(""), Err(Refusal::Date));
    assert_eq!(string_to_timestamp_nanos(b"\xFF"), Err(Refusal::NotUtf8));
    assert_eq!(string_to_timestamp_nanos("1970-01-01T"), Err(Refusal::Time));
    assert_eq!(
        string_to_timestamp_nanos("1970-01-01T00:00:00+"),
        Err(Refusal::Tail)
    );
    assert_eq!(
        string_to_timestamp_nanos("1970-01-01T00:00:00+00:60"),
        Err(Refusal::Offset)
    );
    assert_eq!(
        string_to_timestamp_nanos("1970-01-01T00:00:00\u{3000}-0130"),
        Ok(5_400_000_000_000)
    );
    assert_eq!(
        string_to_time_nanoseconds("23:59:60"),
        Ok(86_400_000_000_000)
    );
    assert_eq!(string_to_time_nanoseconds("1234"), Err(Refusal::TimeOfDay));
}

#[test]
fn site_stamps() {
    let site = |nanos, leap| Ok(SiteStamp { nanos, leap });
    assert_eq!(
        site_stamp("1970-01-01T00:00:01.000000001Z"),
        site(1_000_000_001, false)
    );
    assert_eq!(site_stamp("1970-01-01T00:00:01"), Err(Refusal::SiteStamp));
    assert_eq!(
        site_stamp("2015-06-30T23:59:59.5Z"),
        site(1_435_708_799_500_000_000, false)
    );
    assert_eq!(
        site_stamp("2015-06-30T23:59:60.5Z"),
        site(1_435_708_800_500_000_000, true)
    );
    assert_eq!(
        site_stamp("2015-07-01T00:00:00.5Z"),
        site(1_435_708_800_500_000_000, false)
    );
    assert_eq!(
        site_stamp("2015-07-31T23:59:60.5Z"),
        Err(Refusal::SiteStamp)
    );
}

#[test]
fn columns() {
    let stamp = "1969-12-31T23:59:58.9994994";
    assert_eq!(TimestampNanosecondType::read(stamp), Ok(-1_000_500_600));
    assert_eq!(TimestampMicrosecondType::read(stamp), Ok(-1_000_500));
    assert_eq!(TimestampMillisecondType::read(stamp), Ok(-1_000));
    assert_eq!(TimestampSecondType::read(stamp), Ok(-1));
    assert_eq!(TimestampSecondType::read("9999-12-31"), Err(Refusal::Range));
    assert_eq!(
        Time64NanosecondType::read("00:00:01.9999999"),
        Ok(1_999_999_900)
    );
    assert_eq!(
        Time64MicrosecondType::read("00:00:01.9999999"),
        Ok(1_999_999)
    );
    assert_eq!(Time32MillisecondType::read("00:00:01.9999999"), Ok(1_999));
    assert_eq!(Time32SecondType::read("00:00:01.9999999"), Ok(1));
    assert_eq!(Time64NanosecondType::read("2147483648"), Ok(2_147_483_648));
    assert_eq!(
        Time32SecondType::read("2147483648"),
        Err(Refusal::TimeOfDay)
    );
    assert_eq!(Date32Type::read("1969-12-31"), Ok(-1));
    assert_eq!(Date32Type::read("+2147483647-01-01"), Err(Refusal::Range));
    assert_eq!(Date64Type::read("1969-12-31"), Ok(-86_400_000));
    assert_eq!(Date64Type::parse(" 1970-01-01"), None);
}

#[test]
fn intervals() {
    assert_eq!(parse_interval_year_month("5"), Ok(60));
    assert_eq!(
        parse_interval_year_month("178956971 years"),
        Err(Refusal::Overflow { place: 0 })
    );
    assert_eq!(
        parse_interval_day_time("-1 month 1 ms"),
        Ok(IntervalDayTime::new(-30, 1))
    );
    assert_eq!(
        parse_interval_day_time("71582788 months 8 days"),
        Err(Refusal::Narrowed)
    );
    assert_eq!(parse_interval_month_day_nano("1 day 2"), counts(2, 1, 0));
    assert_eq!(
        parse_interval_month_day_nano("1  day"),
        Err(Refusal::Interval { place: 2 })
    );
}

#[test]
fn counts_of_an_interval() {
    let interval = IntervalMonthDayNano::new(1, 2, 3);
    assert_eq!(
        (interval.months, interval.days, interval.nanoseconds),
        (1, 2, 3)
    );
    let tuple: MonthDayNano = interval.into();
    assert_eq!(tuple, (1, 2, 3));
    let day_time = IntervalDayTime::new(1, 2);
    assert_eq!((day_time.days, day_time.milliseconds), (1, 2));
}

/// What passes where arrow-cast takes `&str`, and bytes as they may be held.
#[test]
fn texts() {
    let (s, b) = ("1970-01-02", b"1970-01-02");
    let (string, cow, boxed) = (String::from(s), Cow::from(s), Box::<str>::from(s));
    let (rc, arc) = (Rc::<str>::from(s), Arc::<str>::from(s));
    let lent: &mut str = &mut String::from(s);
    for day in [
        parse_date32(s),
        parse_date32(&s),
        parse_date32(&string),
        parse_date32(&cow),
        parse_date32(&Cow::<str>::Owned(string.clone())),
        parse_date32(&boxed),
        parse_date32(&rc),
        parse_date32(&arc),
        parse_date32(&lent),
        parse_date32(b),
        parse_date32(&b[..]),
        parse_date32(&b.to_vec()),
        parse_date32(&Cow::<[u8]>::from(&b[..])),
        parse_date32(&Box::<[u8]>::from(&b[..])),
        parse_date32(&Rc::<[u8]>::from(&b[..])),
        parse_date32(&Arc::<[u8]>::from(&b[..])),
        Date32Type::read(&cow),
        Date32Type::parse(&arc).ok_or(Refusal::Date),
    ] {
        assert_eq!(day, Ok(1));
    }
    assert_eq!(site_stamp(&cow), Err(Refusal::SiteStamp));
    let no_amount = Refusal::Interval { place: 0 };
    assert_eq!(parse_interval_year_month(&arc), Err(no_amount));
    assert_eq!(parse_interval_day_time(&boxed), Err(no_amount));
    assert_eq!(parse_interval_month_day_nano(&cow), Err(no_amount));
    let in_days = IntervalParseConfig::new(IntervalUnit::Day);
    let days = parse_interval_month_day_nano_config(&Arc::<str>::from("2"), in_days);
    assert_eq!(days, counts(0, 2, 0));
    // The methods of the texts themselves are not hidden.
    assert_eq!(string.bytes().next(), Some(b'1'));
}

/// The unit that the library takes a word for: that with which an amount of 1 and no unit gives the same interval.
fn unit_in_the_library(word: &str) -> Option<IntervalUnit> {
    let read = parse_interval_month_day_nano(&format!("1{word}")).ok()?;
    let mut units = IntervalUnit::ALL.into_iter();
    units.find(|unit| {
        parse_interval_month_day_nano_config("1", IntervalParseConfig::new(*unit)) == Ok(read)
    })
}

#[test]
fn spellings_are_the_library_s() {
    for (i, unit) in IntervalUnit::ALL.into_iter().enumerate() {
        assert_eq!(unit as usize, i);
        for word in unit.spellings() {
            let capitals = word.to_uppercase();
            let kelvin = word.replace('k', "\u{212A}");
            let mixed = capitals[..1].to_string() + &word[1..];
            for word in [word, capitals.as_str(), kelvin.as_str(), mixed.as_str()] {
                assert_eq!(word.parse(), Ok(unit));
                assert_eq!(unit_in_the_library(word), Some(unit));
            }
        }
    }
}

/// Whether a word is a unit's, and which, is the same in both.
fn same(word: &str) {
    let unit = unit_in_the_library(word).ok_or(Refusal::Interval { place: 0 });
    assert_eq!(word.parse(), unit, "{word:?}");
}

#[test]
fn words_are_the_library_s() {
    let letters: Vec<char> = ('a'..='z')
        .chain(['K', '\u{212A}', '\u{17F}', 'é'])
        .collect();
    // Each word of one to three letters.
    let mut words = vec![String::new()];
    for _ in 0..3 {
        let longer = |word: &String| {
            letters
                .iter()
                .map(|c| format!("{word}{c}"))
                .collect::<Vec<_>>()
        };
        words = words.iter().flat_map(longer).collect();
        words.iter().for_each(|word| same(word));
    }
    // Each spelling with a letter left out, put in or exchanged.
    for word in IntervalUnit::ALL.iter().flat_map(|unit| unit.spellings()) {
        for i in 0..=word.len() {
            let (front, rest) = word.split_at(i);
            for c in &letters {
                same(&format!("{front}{c}{rest}"));
                same(&format!("{front}{c}{}", rest.get(1..).unwrap_or("")));
            }
            if i > 0 || rest.len() > 1 {
                same(&format!("{front}{}", rest.get(1..).unwrap_or("")));
            }
        }
    }
    let no_unit = Err(Refusal::Interval { place: 0 });
    assert_eq!("".parse::<IntervalUnit>(), no_unit);
    assert_eq!(" day".parse::<IntervalUnit>(), no_unit);
}

#[test]
fn default_units() {
    let read = |unit| parse_interval_month_day_nano_config("-1.5", IntervalParseConfig::new(unit));
    assert_eq!(read(IntervalUnit::Century), counts(-1800, 0, 0));
    assert_eq!(read(IntervalUnit::Decade), counts(-180, 0, 0));
    assert_eq!(read(IntervalUnit::Year), counts(-18, 0, 0));
    assert_eq!(read(IntervalUnit::Month), counts(-1, -15, 0));
    assert_eq!(
        read(IntervalUnit::Week),
        counts(0, -7, -302_400_000_000_000)
    );
    assert_eq!(read(IntervalUnit::Day), counts(0, -1, -43_200_000_000_000));
    assert_eq!(read(IntervalUnit::Hour), counts(0, 0, -5_400_000_000_000));
    assert_eq!(read(IntervalUnit::Minute), counts(0, 0, -90_000_000_000));
    assert_eq!(read(IntervalUnit::Second), counts(0, 0, -1_500_000_000));
    assert_eq!(read(IntervalUnit::Millisecond), counts(0, 0, -1_500_000));
    assert_eq!(read(IntervalUnit::Microsecond), counts(0, 0, -1_500));
    assert_eq!(read(IntervalUnit::Nanosecond), counts(0, 0, -1));
}

#[test]
fn refusals() {
    let each = [
        string_to_timestamp_nanos(b"\xFF").unwrap_err(),
        string_to_timestamp_nanos("1970-02-30").unwrap_err(),
        string_to_timestamp_nanos("1970-01-01_00:00:00").unwrap_err(),
        string_to_timestamp_nanos("1970-01-01T24:00:00").unwrap_err(),
        string_to_timestamp_nanos("1970-01-01T00:00:00+").unwrap_err(),
        string_to_timestamp_nanos("2263-01-01").unwrap_err(),
        string_to_time_nanoseconds("24:00").unwrap_err(),
        parse_interval_month_day_nano("1  day").unwrap_err(),
        parse_interval_month_day_nano("1 day 1 d").unwrap_err(),
        parse_interval_month_day_nano("1 h 2147483648 months").unwrap_err(),
        parse_interval_year_month("1 day").unwrap_err(),
        site_stamp("1970-01-01 00:00:00Z").unwrap_err(),
        parse_column(Column::Date32, "", &[1], &mut [0])
            .unwrap_err()
            .refusal,
        write_interval(IntervalMonthDayNano::new(1, 0, 0), &mut [0; 7]).unwrap_err(),
    ];
    for (i, refusal) in each.into_iter().enumerate() {
        assert_eq!(usize::from(refusal.number()), i + 1);
        assert_eq!(refusal.place().is_some(), (7..10).contains(&i));
    }
    assert!(each.windows(2).all(|two| two[0] < two[1]));
    let error: Box<dyn std::error::Error> = Box::new(Refusal::SiteStamp);
    assert_eq!(
        error.to_string(),
        "the plain stamp reader accepts the text, but it is no site stamp"
    );
}
