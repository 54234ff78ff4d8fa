//! All that the program audit prints, and the status with which it ends: the texts of crates/rows/specs/Words.antt.
use crate::audit::{numbers, Against, BadRow, Numbered, Report, Unsound};

/// All that the program prints, and the status with which it ends.
pub struct Said {
    pub output: String,
    pub error: String,
    pub status: i32,
}

fn numbered_text(Numbered { number, row }: &Numbered) -> String {
    format!("row {number} ({})", numbers(row).map(|number| number.to_string()).join(","))
}

fn against_text(against: &Against) -> String {
    match against {
        Against::SameTag(other) => format!("rule 1: {} is a write of the same tag", numbered_text(other)),
        Against::OtherValue(other) => format!("rule 2: it read another value than {} wrote", numbered_text(other)),
        Against::NoWrite => "rule 2: no row wrote what it read".to_string(),
        Against::EndedFirst(other) => format!("rule 3: it ended before {} began, whose tag is too low", numbered_text(other)),
        Against::BeganLater(other) => format!("rule 3: {} ended before it began, and its tag is too low", numbered_text(other)),
    }
}

fn bad_row_text(why: &BadRow) -> String {
    match why {
        BadRow::Fields(count) => format!("fields: {count}, and a row has 8"),
        BadRow::NotANumber(field) => format!("field {field} is not a number of 32 bits"),
        BadRow::Kind => "its kind is neither 0 nor 1".to_string(),
        BadRow::Life => "its life is above 1000".to_string(),
    }
}

fn unsound_text(why: &Unsound) -> &'static str {
    match why {
        Unsound::End => "its end is not after its begin",
        Unsound::WriteOfNoTs => "it is a write with ts 0",
        Unsound::Tag => "its tag is that of no board of 8 consoles",
    }
}

fn text(report: &Report) -> String {
    match report {
        Report::InOrder { reads, writes } => format!("in order; reads: {reads}, writes: {writes}"),
        Report::AtFault(this, against) => format!("{} is at fault by {}", numbered_text(this), against_text(against)),
        Report::NotARow(number, why) => format!("line {number} is not a row: {}", bad_row_text(why)),
        Report::TooMany => "there are more than 256 rows (17)".to_string(),
        Report::NotSound(this, why) => format!("{} cannot be checked (18): {}", numbered_text(this), unsound_text(why)),
        Report::TooLong => "the input has 65536 bytes or more".to_string(),
    }
}

/// In order, at fault, not checkable: 0, 1, 2. What cannot be checked is said on standard error.
pub fn said(report: &Report) -> Said {
    let text = text(report);
    let (output, error, status) = match report {
        Report::InOrder { .. } => (format!("{text}\n"), String::new(), 0),
        Report::AtFault(..) => (format!("{text}\n"), String::new(), 1),
        _ => (String::new(), format!("audit: {text}\n"), 2),
    };
    Said { output, error, status }
}
