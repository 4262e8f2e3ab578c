//! The date.

use std::time::{SystemTime, UNIX_EPOCH};

/// Today in UTC, as year, month and day.
pub fn today() -> String {
    let seconds = SystemTime::now().duration_since(UNIX_EPOCH).map_or(0, |since| since.as_secs());
    of_day(seconds / 86_400)
}

/// The date so many days after 1 January 1970.
fn of_day(mut day: u64) -> String {
    let leap = |year: u64| year.is_multiple_of(4) && (!year.is_multiple_of(100) || year.is_multiple_of(400));
    let mut year = 1970;
    while day >= 365 + u64::from(leap(year)) {
        day -= 365 + u64::from(leap(year));
        year += 1;
    }
    let lengths = [31, 28 + u64::from(leap(year)), 31, 30, 31, 30, 31, 31, 30, 31, 30, 31];
    let mut month = 1;
    for length in lengths {
        if day < length {
            break;
        }
        day -= length;
        month += 1;
    }
    format!("{year}-{month:02}-{:02}", day + 1)
}

#[cfg(test)]
mod tests {
    use super::of_day;

    #[test]
    fn days() {
        assert_eq!(of_day(0), "1970-01-01");
        assert_eq!(of_day(59), "1970-03-01");
        assert_eq!(of_day(11_016), "2000-02-29");
        assert_eq!(of_day(20_453), "2025-12-31");
    }
}
