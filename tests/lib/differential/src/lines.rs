//! The lines of a sheet, each beside its record.

use std::str::FromStr;

/// A line of a sheet, without the header.
pub struct Line<'a> {
    pub code: usize,
    pub number: u64,
    /// Record bytes used.
    pub used: usize,
    /// Bytes shown, in hexadecimal, or "-".
    pub shown: &'a [u8],
    /// The script from the line's record on.
    pub script: &'a [u8],
}

impl<'a> Line<'a> {
    /// The record, where one was read.
    pub fn record(&self) -> Option<&'a [u8]> {
        (self.used > 0).then(|| &self.script[..self.used])
    }
}

/// The lines of a script's sheet.
pub fn lines<'a>(script: &'a [u8], sheet: &'a [u8]) -> impl Iterator<Item = Line<'a>> {
    let mut rest = script;
    let texts = sheet.split(|&byte| byte == b'\n').skip(1).filter(|line| !line.is_empty());
    texts.map(move |text| {
        let mut fields = text.split(|&byte| byte == b' ');
        let (code, number) = (field(fields.next()), field(fields.next()));
        let used = field(fields.next());
        let shown = fields.next().unwrap_or_default();
        let line = Line { code, number, used, shown, script: rest };
        rest = &rest[used..];
        line
    })
}

/// A decimal field of a line.
fn field<N: FromStr>(digits: Option<&[u8]>) -> N {
    let digits = digits.and_then(|digits| std::str::from_utf8(digits).ok());
    digits.and_then(|digits| digits.parse().ok()).expect("a line has its fields")
}
