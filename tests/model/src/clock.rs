//! The clock: a date and time that exist, with hundredths.

use crate::rules::Rules;

#[derive(Clone, Copy, Debug, PartialEq, Eq)]
pub struct Clock {
    pub year: u8,
    pub month: u8,
    pub day: u8,
    pub hour: u8,
    pub minute: u8,
    pub second: u8,
    pub hundredth: u8,
}

impl Clock {
    /// "clock 00-01-01 00:00:00 (house)"
    pub const POWER_UP: Clock = Clock {
        year: 0,
        month: 1,
        day: 1,
        hour: 0,
        minute: 0,
        second: 0,
        hundredth: 0,
    };

    /// One hundredth of a second goes by.
    pub fn tick(&mut self, rules: &Rules) {
        self.hundredth += 1;
        if self.hundredth == 100 {
            self.hundredth = 0;
            self.next_second(rules);
        }
    }

    fn next_second(&mut self, rules: &Rules) {
        let last_day = self.last_day(rules);
        let _ = advance(&mut self.second, 0, 59)
            && advance(&mut self.minute, 0, 59)
            && advance(&mut self.hour, 0, 23)
            && advance(&mut self.day, 1, last_day)
            && advance(&mut self.month, 1, 12)
            && advance(&mut self.year, 0, 99); // "99 goes to 00."
    }

    pub fn last_day(&self, rules: &Rules) -> u8 {
        match self.month {
            4 | 6 | 9 => 30,
            11 => rules.november_end,
            5 => rules.may_end,
            2 if self.year.is_multiple_of(4) => rules.leap_day,
            2 => 28,
            _ => 31,
        }
    }

    /// "0x1B: a byte with a digit above 9, or outside its field's range (day 1
    /// to 31), leaves that field; then a day past the month's end becomes its
    /// last day and the hundredths are 0."
    pub fn set(&mut self, bytes: &[u8; 6], rules: &Rules) {
        let [year, month, day, hour, minute, second] = *bytes;
        set_field(&mut self.year, year, 0, 99);
        set_field(&mut self.month, month, 1, 12);
        set_field(&mut self.day, day, 1, 31);
        set_field(&mut self.hour, hour, 0, 23);
        set_field(&mut self.minute, minute, 0, 59);
        set_field(&mut self.second, second, 0, 59);
        self.day = self.day.min(self.last_day(rules));
        self.hundredth = 0;
    }

    /// "0x1C sends 0xFC and six bytes."
    pub fn push_packet(&self, out: &mut Vec<u8>) {
        let fields = [
            self.year,
            self.month,
            self.day,
            self.hour,
            self.minute,
            self.second,
        ];
        out.push(0xFC);
        out.extend(fields.map(|field| field / 10 * 16 + field % 10));
    }
}

/// Moves a field on by one; true when it went round to its first value.
fn advance(field: &mut u8, first: u8, last: u8) -> bool {
    let round = *field >= last;
    *field = if round { first } else { *field + 1 };
    round
}

fn set_field(field: &mut u8, byte: u8, first: u8, last: u8) {
    let (tens, ones) = (byte >> 4, byte & 15);
    if tens <= 9 && ones <= 9 && (first..=last).contains(&(tens * 10 + ones)) {
        *field = tens * 10 + ones;
    }
}
