//! A script, where it is worth while with its whole sheet written by hand: the full
//! box's, and in some cases level one's too.

use std::fmt::Write;

use second::{Call, Profile};

use crate::calls::record_of;

#[derive(Clone)]
pub struct Case {
    pub name: String,
    pub script: Vec<u8>,
    /// The sheet that document 01 asks for, where it was written by hand.
    pub sheet: Option<String>,
    /// The same of a level-one paper.
    pub level_one: Option<String>,
}

const HEADER: &str = "code number used bytes\n";

impl Case {
    /// Only a script: the two programs are compared with each other alone.
    pub fn bare(name: impl Into<String>, script: Vec<u8>) -> Self {
        Case { name: name.into(), script, sheet: None, level_one: None }
    }

    /// An empty script and its sheet. The methods below add to both.
    pub fn new(name: impl Into<String>) -> Self {
        Case::with_sheet(name, Vec::new(), HEADER)
    }

    /// A script and its sheet.
    pub fn with_sheet(name: impl Into<String>, script: Vec<u8>, sheet: &str) -> Self {
        Case { sheet: Some(sheet.into()), ..Case::bare(name, script) }
    }

    /// An empty script and both its sheets. The methods below add to all three.
    pub fn of_both(name: impl Into<String>) -> Self {
        Case { level_one: Some(HEADER.into()), ..Case::new(name) }
    }

    /// The sheet written by hand for the profile, if there is one.
    pub fn by_hand(&self, profile: Profile) -> Option<&str> {
        match profile {
            Profile::Full => self.sheet.as_deref(),
            Profile::LevelOne => self.level_one.as_deref(),
        }
    }

    /// The call is accepted with this number and shows nothing.
    pub fn accept(&mut self, number: u64, call: Call) {
        self.answer(0, number, call);
    }

    /// The call is refused with this code, which is none of the reader's.
    pub fn refuse(&mut self, code: u8, call: Call) {
        self.answer(code, 0, call);
    }

    /// The call gets this code. `number` is the answer's where the code is 0.
    pub fn answer(&mut self, code: u8, number: u64, call: Call) {
        let record = record_of(&call);
        let number = if code == 0 { number } else { 0 };
        self.line(code, number, record.len(), &[]);
        self.script.extend(record);
    }

    /// The call gets this code from the full box and that from level one. `number` is
    /// the answer's where the code is 0.
    pub fn codes(&mut self, full: u8, level_one: u8, number: u64, call: Call) {
        let record = record_of(&call);
        let number = |code| if code == 0 { number } else { 0 };
        add_line(&mut self.sheet, full, number(full), record.len(), &[]);
        add_line(&mut self.level_one, level_one, number(level_one), record.len(), &[]);
        self.script.extend(record);
    }

    /// The call is accepted by both, each with its number.
    pub fn numbers(&mut self, full: u64, level_one: u64, call: Call) {
        let record = record_of(&call);
        add_line(&mut self.sheet, 0, full, record.len(), &[]);
        add_line(&mut self.level_one, 0, level_one, record.len(), &[]);
        self.script.extend(record);
    }

    /// The read shows these bytes.
    pub fn show(&mut self, bytes: &[u8], read: Call) {
        let record = record_of(&read);
        self.line(0, bytes.len() as u64, record.len(), bytes);
        self.script.extend(record);
    }

    /// Bytes that end the sheet with code 2 or 3.
    pub fn malformed(&mut self, code: u8, bytes: &[u8]) {
        self.line(code, 0, 0, &[]);
        self.script.extend(bytes);
    }

    /// Bytes that end the sheet with code 1: so many more finish the field inside
    /// which they end.
    pub fn cut(&mut self, missing: usize, bytes: &[u8]) {
        self.line(1, missing as u64, 0, &[]);
        self.script.extend(bytes);
    }

    /// Adds a line to the sheet, to both where there are two. 1 is the only refusal
    /// with a number other than 0.
    pub fn line(&mut self, code: u8, number: u64, used: usize, shown: &[u8]) {
        assert!(code == 0 || (code == 1) == (number != 0), "{}: {code} {number}", self.name);
        add_line(&mut self.sheet, code, number, used, shown);
        add_line(&mut self.level_one, code, number, used, shown);
    }
}

fn add_line(sheet: &mut Option<String>, code: u8, number: u64, used: usize, shown: &[u8]) {
    if let Some(sheet) = sheet {
        write!(sheet, "{code} {number} {used} ").expect("a String takes all that is written");
        if shown.is_empty() {
            sheet.push('-');
        }
        for byte in shown {
            write!(sheet, "{byte:02x}").expect("a String takes all that is written");
        }
        sheet.push('\n');
    }
}
