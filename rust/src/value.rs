//! What ask answers.

use std::fmt;

/// What a table says of a signal at a tick.
#[derive(Clone, Copy, Debug, PartialEq, Eq, Hash)]
pub enum Value {
    /// Neither mark stands.
    Unsettled,
    /// True in every history that obeys the sheet and the readings.
    True,
    /// False in every such history.
    False,
    /// Some row of the table is both true and false at one tick: no history obeys the sheet and the readings.
    Contradiction,
}

impl Value {
    /// The value of a number that the library wrote.
    pub(crate) fn numbered(number: u64) -> Self {
        match number {
            0 => Value::Unsettled,
            1 => Value::True,
            2 => Value::False,
            3 => Value::Contradiction,
            _ => unreachable!("the library writes 0 to 3"),
        }
    }

    /// The sign of a listing: `?`, `1`, `0`, `x`.
    ///
    /// ```
    /// assert_eq!(mikhakun::Value::True.sign(), '1');
    /// ```
    pub fn sign(self) -> char {
        match self {
            Value::Unsettled => '?',
            Value::True => '1',
            Value::False => '0',
            Value::Contradiction => 'x',
        }
    }
}

impl fmt::Display for Value {
    fn fmt(&self, f: &mut fmt::Formatter<'_>) -> fmt::Result {
        f.write_str(match self {
            Value::Unsettled => "unsettled",
            Value::True => "true",
            Value::False => "false",
            Value::Contradiction => "contradiction",
        })
    }
}
