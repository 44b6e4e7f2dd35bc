//! A calendar day in three octets, the number MMDDYYYY, from document 02, request 2026-08, and source document 002,
//! 3.3.1.

/// A day. C has it in the same order.
#[repr(C)]
#[derive(Clone, Copy, Debug, PartialEq, Eq)]
pub struct Day {
    pub year: u16,
    pub month: u8,
    pub day: u8,
}

impl Day {
    /// What a refusal has for a day.
    pub const NONE: Day = Day { year: 0, month: 0, day: 0 };

    /// Whether the calendar has it, in the years 1 to 9999.
    pub fn is_one(self) -> bool {
        (1..=9999).contains(&self.year) && (1..=self.month_length()).contains(&self.day)
    }

    /// How many days its month has; none where there is no such month.
    fn month_length(self) -> u8 {
        let leap = self.year % 4 == 0 && self.year % 100 != 0 || self.year % 400 == 0;
        match self.month {
            1 | 3 | 5 | 7 | 8 | 10 | 12 => 31,
            4 | 6 | 9 | 11 => 30,
            2 if leap => 29,
            2 => 28,
            _ => 0,
        }
    }
}

/// The day of three octets; None where they are no day's, or not three.
pub fn read(octets: &[u8]) -> Option<Day> {
    let number = match *octets {
        [high, middle, low] => u32::from_be_bytes([0, high, middle, low]),
        _ => return None,
    };
    let (month, day, year) = (number / 1_000_000, number / 10_000 % 100, number % 10_000);
    Some(Day { year: year as u16, month: month as u8, day: day as u8 }).filter(|day| day.is_one())
}

/// The three octets of year, month and day, also where the calendar has no such day.
pub fn write(day: Day) -> [u8; 3] {
    let number = 1_000_000 * u32::from(day.month) + 10_000 * u32::from(day.day) + u32::from(day.year);
    let [_, high, middle, low] = number.to_be_bytes();
    [high, middle, low]
}

#[cfg(test)]
mod tests {
    use super::*;

    fn of(year: u16, month: u8, day: u8) -> Day {
        Day { year, month, day }
    }

    #[test]
    fn the_days_of_the_papers() {
        let days = [
            (of(1957, 3, 25), [0x31, 0x9e, 0xf5]),
            (of(2007, 3, 25), [0x31, 0x9f, 0x27]),
            (of(2007, 3, 26), [0x31, 0xc6, 0x37]),
            (of(2016, 8, 8), [0x7b, 0x52, 0x60]),
            (of(2007, 8, 9), [0x7b, 0x79, 0x67]),
        ];
        for (day, octets) in days {
            assert_eq!(write(day), octets);
            assert_eq!(read(&octets), Some(day));
        }
    }

    #[test]
    fn edges_of_the_calendar() {
        for kept in [of(1, 1, 1), of(9999, 12, 31), of(2000, 2, 29), of(2004, 2, 29), of(400, 2, 29), of(4, 2, 29)] {
            assert_eq!(read(&write(kept)), Some(kept));
        }
        let leap = [of(1900, 2, 29), of(2100, 2, 29), of(2001, 2, 29), of(2000, 2, 30)];
        let none = [of(0, 1, 1), of(0, 2, 29), of(2000, 13, 1), of(2000, 0, 1), of(2000, 1, 0), of(2000, 1, 32)];
        let months = [of(2000, 4, 31), of(2000, 6, 31), of(2000, 9, 31), of(2000, 11, 31), of(2000, 16, 1)];
        assert!(leap.iter().chain(&none).chain(&months).all(|day| read(&write(*day)).is_none()));
        assert_eq!((read(&[0; 3]), read(&[0xff; 3])), (None, None));
        assert_eq!((read(&[0x31, 0x9e]), read(&[0x00, 0x31, 0x9e, 0xf5])), (None, None));
    }

    /// Every three octets: 9,999 years of 365 days, and 2,424 leap days.
    #[test]
    fn every_day_has_one_image() {
        let octets = (0..0x100_0000_u32).map(u32::to_be_bytes);
        let days = octets.filter_map(|octets| read(&octets[1..]).map(|day| (day, octets)));
        let same = days.map(|(day, octets)| assert_eq!(write(day), octets[1..]));
        assert_eq!(same.count(), 9_999 * 365 + 9_999 / 4 - 9_999 / 100 + 9_999 / 400);
    }
}
