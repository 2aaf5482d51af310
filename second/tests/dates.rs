//! Dates at the named points, the ends of the range, and against a day-by-day count.

use second::dates::{date, text};

#[test]
fn named_stamps() {
    assert_eq!(text(0x3C_0000), "1970-01-01T00:01:00Z");
    assert_eq!(text(-1), "1969-12-31T23:59:59Z");
    assert_eq!(text(0), "1970-01-01T00:00:00Z");
    assert_eq!(text(65_535), "1970-01-01T00:00:00Z");
    assert_eq!(text(0x0000_5BA6_D89F_0000), "2018-09-23T00:04:47Z");
    assert_eq!(text(951_782_400 << 16), "2000-02-29T00:00:00Z");
    assert_eq!(text((951_782_400 << 16) - 1), "2000-02-28T23:59:59Z");
}

#[test]
fn ends_and_years() {
    assert_eq!(text(i64::MIN), "-4457824-07-13T18:37:52Z");
    assert_eq!(text(i64::MAX), "4461763-06-20T05:22:07Z");
    let day = 86_400 << 16;
    assert_eq!(text(-719_528 * day), "0000-01-01T00:00:00Z");
    assert_eq!(text(-719_528 * day - 1), "-0001-12-31T23:59:59Z");
    assert_eq!(text((2_932_897) * day - 1), "9999-12-31T23:59:59Z");
    assert_eq!(text((2_932_897) * day), "10000-01-01T00:00:00Z");
}

#[test]
fn every_day_follows_the_one_before() {
    let mut last = date(-800_000 * (86_400 << 16));
    for days in -799_999..3_000_000 {
        let next = date(days * (86_400 << 16));
        let same_month = next.year == last.year && next.month == last.month && next.day == last.day + 1;
        let next_month = next.year == last.year && next.month == last.month + 1 && next.day == 1 && last.day >= 28;
        let next_year = next.year == last.year + 1 && (next.month, next.day, last.month, last.day) == (1, 1, 12, 31);
        assert!(same_month || next_month || next_year, "{days}");
        last = next;
    }
}
