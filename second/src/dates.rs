//! Stamps to dates. All divisions round down, so that moments before 1970 fall on the right day.

/// A moment in UTC by the Gregorian calendar run both ways.
#[derive(Clone, Copy, Debug, PartialEq, Eq)]
pub struct Date {
    pub year: i64,
    pub month: i64,
    pub day: i64,
    pub hour: i64,
    pub minute: i64,
    pub second: i64,
}

const DAYS_PER_ERA: i64 = 146_097;

/// The date of a stamp, which counts 1/65536 seconds.
pub fn date(stamp: i64) -> Date {
    let seconds = stamp.div_euclid(65_536);
    let day_second = seconds.rem_euclid(86_400);
    let (year, month, day) = civil(seconds.div_euclid(86_400));
    Date { year, month, day, hour: day_second / 3_600, minute: day_second / 60 % 60, second: day_second % 60 }
}

fn is_leap(year: i64) -> bool {
    year.rem_euclid(4) == 0 && (year.rem_euclid(100) != 0 || year.rem_euclid(400) == 0)
}

fn month_length(year: i64, month: i64) -> i64 {
    match month {
        2 if is_leap(year) => 29,
        2 => 28,
        4 | 6 | 9 | 11 => 30,
        _ => 31,
    }
}

/// Year, month and day of a count of days from 1970-01-01: whole eras of 400 years first, then
/// years and months one by one.
fn civil(days: i64) -> (i64, i64, i64) {
    // 719,528 days lie between 0000-01-01, where an era starts, and 1970-01-01.
    let days = days + 719_528;
    let mut year = 400 * days.div_euclid(DAYS_PER_ERA);
    let mut left = days.rem_euclid(DAYS_PER_ERA);
    loop {
        let length = if is_leap(year) { 366 } else { 365 };
        if left < length {
            break;
        }
        left -= length;
        year += 1;
    }
    let mut month = 1;
    while left >= month_length(year, month) {
        left -= month_length(year, month);
        month += 1;
    }
    (year, month, left + 1)
}

/// The date as the listing writes it.
pub fn text(stamp: i64) -> String {
    let Date { year, month, day, hour, minute, second } = date(stamp);
    let sign = if year < 0 { "-" } else { "" };
    let year = year.abs();
    format!("{sign}{year:04}-{month:02}-{day:02}T{hour:02}:{minute:02}:{second:02}Z")
}
