//! Records, converted and refused.
use cullpethi::*;

/// Numbers at the ends of 32 bits, and others.
const NUMBERS: [i32; 7] = [i32::MIN, -86_400_000, -1, 0, 1, 255, i32::MAX];

fn old(days: i32, millis: i32) -> Vec<u8> {
    [days.to_le_bytes(), millis.to_le_bytes()].concat()
}

fn new(months: i32, days: i32, nanos: i64) -> Vec<u8> {
    let nanos = nanos.to_le_bytes();
    [&months.to_le_bytes(), &days.to_le_bytes(), &nanos[..]].concat()
}

fn refused<T>(refusal: Refusal, index: Option<usize>) -> Result<T, RecordsRefusal> {
    Err(RecordsRefusal { refusal, index })
}

#[test]
fn each_old_record_goes_and_comes_back() {
    let (mut olds, mut news) = (Vec::new(), Vec::new());
    for days in NUMBERS {
        for millis in NUMBERS {
            let one = new(0, days, i64::from(millis) * 1_000_000);
            assert_eq!(
                day_time_to_month_day_nano_vec(&old(days, millis)),
                Ok(one.clone())
            );
            assert_eq!(month_day_nano_to_day_time_vec(&one), Ok(old(days, millis)));
            olds.extend(old(days, millis));
            news.extend(one);
        }
    }
    assert_eq!(day_time_to_month_day_nano_vec(&olds), Ok(news.clone()));
    assert_eq!(month_day_nano_to_day_time_vec(&news), Ok(olds));
}

#[test]
fn no_records() {
    assert_eq!(day_time_to_month_day_nano_vec(&[]), Ok(vec![]));
    assert_eq!(month_day_nano_to_day_time_vec(&[]), Ok(vec![]));
    assert_eq!(day_time_to_month_day_nano(&[], &mut []), Ok(()));
    assert_eq!(month_day_nano_to_day_time(&[], &mut []), Ok(()));
}

#[test]
fn the_first_that_has_no_old_record() {
    let goes = new(0, 5, 1_000_000);
    for stays in [
        new(1, 0, 0),
        new(-1, 30, 0),
        new(0, 5, -1),
        new(0, 5, 999_999),
        new(0, -1, 2_147_483_648_000_000),
        new(0, -1, -2_147_483_648_000_001),
        new(0, 0, i64::MIN),
    ] {
        for index in 0..3 {
            let mut records = [&goes[..]; 3];
            records[index] = &stays;
            let mut to = [7; 24];
            let answer = month_day_nano_to_day_time(&records.concat(), &mut to);
            assert_eq!(answer, refused(Refusal::Narrowed, Some(index)));
            assert_eq!(to, [7; 24]);
        }
    }
}

#[test]
fn a_buffer_that_is_longer_or_too_short() {
    let (olds, news) = ([7; 16], new(0, 7, 2_000_000).repeat(2));
    let whole = day_time_to_month_day_nano_vec(&olds).unwrap();
    let mut to = [9; 35];
    assert_eq!(
        day_time_to_month_day_nano(&olds, &mut to[..31]),
        Err(Refusal::Buffer)
    );
    assert_eq!(to, [9; 35]);
    assert_eq!(day_time_to_month_day_nano(&olds, &mut to), Ok(()));
    assert_eq!((&to[..32], &to[32..]), (&whole[..], &[9; 3][..]));
    let mut to = [9; 17];
    let too_short = month_day_nano_to_day_time(&news, &mut to[..15]);
    assert_eq!(too_short, refused(Refusal::Buffer, None));
    assert_eq!(to, [9; 17]);
    assert_eq!(month_day_nano_to_day_time(&news, &mut to), Ok(()));
    assert_eq!(
        (&to[..16], to[16]),
        (&[7, 0, 0, 0, 2, 0, 0, 0].repeat(2)[..], 9)
    );
}

#[test]
fn lengths_first() {
    for n in (1..48).filter(|n| n % 8 != 0) {
        assert_eq!(
            day_time_to_month_day_nano(&vec![1; n], &mut []),
            Err(Refusal::Records)
        );
    }
    for n in (1..48).filter(|n| n % 16 != 0) {
        let answer = month_day_nano_to_day_time(&vec![1; n], &mut []);
        assert_eq!(answer, refused(Refusal::Records, None));
    }
    let a_month = month_day_nano_to_day_time(&new(1, 0, 0), &mut [0; 7]);
    assert_eq!(a_month, refused(Refusal::Buffer, None));
}

#[test]
fn refusals_tell_which_record() {
    let why = month_day_nano_to_day_time_vec(&new(1, 0, 0)).unwrap_err();
    assert_eq!(
        why.to_string(),
        "record 0: the narrowed interval form cannot hold the result"
    );
    assert_eq!(why.number(), 11);
    let why = month_day_nano_to_day_time_vec(&[0; 15]).unwrap_err();
    assert_eq!(why.to_string(), "the bytes are no whole number of records");
    assert_eq!(why.number(), 16);
}

#[test]
fn intervals_of_the_readers_as_records() {
    let x = parse_interval_day_time("1 day 2.5 s").unwrap();
    let y = parse_interval_month_day_nano("1 day 2.5 s").unwrap();
    assert_eq!(
        day_time_to_month_day_nano_vec(&old(x.days, x.milliseconds)),
        Ok(new(y.months, y.days, y.nanoseconds))
    );
}
