//! Stands in for `jiff`: dates of the Gregorian calendar, and the days between them and 1970.
//!
//! The year begins in March here, so that the day that leap years add is its last.

/// A number of days.
#[derive(Clone, Copy, PartialEq, Eq, Debug)]
pub struct Days(i64);

/// Numbers as spans of time.
pub trait ToSpan {
    /// As many days.
    fn days(self) -> Days;
}

impl ToSpan for i64 {
    fn days(self) -> Days {
        Days(self)
    }
}

/// Dates without a time.
pub mod civil {
    use super::Days;

    /// The days of 400 years, after which the calendar repeats.
    const ERA: i64 = 146_097;
    /// The days from 0000-03-01 to 1970-01-01.
    const BEFORE_1970: i64 = 719_468;
    /// Years are from -9999 to 9999.
    const MOST_YEAR: i64 = 9999;

    /// A date.
    #[derive(Clone, Copy, PartialEq, Eq, Debug)]
    pub struct Date {
        year: i16,
        month: i8,
        day: i8,
    }

    /// There is no such date.
    #[derive(Clone, Copy, PartialEq, Eq, Debug)]
    pub struct NoDate;

    /// A date as a number of days.
    #[derive(Clone, Copy, PartialEq, Eq, Debug)]
    pub struct Plain(i32);

    impl Plain {
        /// The days since 1970-01-01.
        pub fn to_unix_epoch_day(self) -> i32 {
            self.0
        }
    }

    /// A date that is known to be one.
    pub fn date(year: i16, month: i8, day: i8) -> Date {
        Date { year, month, day }
    }

    impl Date {
        /// The date of a year, a month and a day.
        pub fn new(year: i16, month: i8, day: i8) -> Result<Date, NoDate> {
            let is_leap = year % 4 == 0 && year % 100 != 0 || year % 400 == 0;
            let days = match month {
                1 | 3 | 5 | 7 | 8 | 10 | 12 => 31,
                4 | 6 | 9 | 11 => 30,
                2 if is_leap => 29,
                2 => 28,
                _ => return Err(NoDate),
            };
            let is_date = (1..=days).contains(&day) && i64::from(year).abs() <= MOST_YEAR;
            if is_date {
                Ok(Date { year, month, day })
            } else {
                Err(NoDate)
            }
        }

        /// The date as many days later.
        pub fn checked_add(self, span: Days) -> Result<Date, NoDate> {
            let day = i64::from(self.to_plain().0)
                .checked_add(span.0)
                .ok_or(NoDate)?;
            let day = day.checked_add(BEFORE_1970).ok_or(NoDate)?;
            let (era, of_era) = (day.div_euclid(ERA), day.rem_euclid(ERA));
            let year = (of_era - of_era / 1460 + of_era / 36_524 - of_era / (ERA - 1)) / 365;
            let of_year = of_era - (365 * year + year / 4 - year / 100);
            let month = (5 * of_year + 2) / 153;
            let in_next_year = month >= 10;
            let year = year + era * 400 + i64::from(in_next_year);
            if year.abs() > MOST_YEAR {
                return Err(NoDate);
            }
            Ok(Date {
                year: year as i16,
                month: (if in_next_year { month - 9 } else { month + 3 }) as i8,
                day: (of_year - (153 * month + 2) / 5 + 1) as i8,
            })
        }

        /// The year.
        pub fn year(self) -> i16 {
            self.year
        }

        /// The month, from 1 on.
        pub fn month(self) -> i8 {
            self.month
        }

        /// The day of the month, from 1 on.
        pub fn day(self) -> i8 {
            self.day
        }

        /// The date as a number of days.
        pub fn to_plain(self) -> Plain {
            let month = (i64::from(self.month) + 9) % 12;
            let year = i64::from(self.year) - i64::from(month >= 10);
            let (era, of_era) = (year.div_euclid(400), year.rem_euclid(400));
            let of_year = (153 * month + 2) / 5 + i64::from(self.day) - 1;
            let day = of_era * 365 + of_era / 4 - of_era / 100 + of_year;
            Plain((era * ERA + day - BEFORE_1970) as i32)
        }
    }
}
