//! A small writer of rule tables. It tests nothing, so that it can write
//! tables to be refused too.

/// The records written so far.
#[derive(Clone, Debug, Default)]
pub struct Builder {
    bytes: Vec<u8>,
    terms: u8,
}

impl Builder {
    /// No record yet.
    pub fn new() -> Builder {
        Builder::default()
    }

    /// The bytes so far.
    pub fn bytes(&self) -> Vec<u8> {
        self.bytes.clone()
    }

    /// The offset of the next record.
    pub fn offset(&self) -> usize {
        self.bytes.len()
    }

    /// How many terms there are, which is the number of the next one.
    pub fn terms(&self) -> u8 {
        self.terms
    }

    /// Any record of a term; its number.
    pub fn term(&mut self, record: &[u8]) -> u8 {
        self.bytes.extend(record);
        let number = self.terms;
        self.terms += 1;
        number
    }

    /// Kind 1.
    pub fn nil(&mut self) -> u8 {
        self.term(&[1])
    }

    /// Kind 2.
    pub fn put(&mut self, tray: u8) -> u8 {
        self.term(&[2, tray])
    }

    /// Kind 3.
    pub fn take(&mut self, tray: u8, then: u8) -> u8 {
        self.term(&[3, tray, then])
    }

    /// Kind 4.
    pub fn repeated_take(&mut self, tray: u8, then: u8) -> u8 {
        self.term(&[4, tray, then])
    }

    /// Kind 5.
    pub fn side_by_side(&mut self, left: u8, right: u8) -> u8 {
        self.term(&[5, left, right])
    }

    /// Kind 6.
    pub fn atom(&mut self, body: u8) -> u8 {
        self.term(&[6, body])
    }

    /// Kind 7.
    pub fn end(&mut self) -> u8 {
        self.term(&[7])
    }

    /// Kind 8.
    pub fn retry(&mut self) -> u8 {
        self.term(&[8])
    }

    /// Kind 9.
    pub fn rd(&mut self, tray: u8, rest: u8) -> u8 {
        self.term(&[9, tray, rest])
    }

    /// Kind 10.
    pub fn wt(&mut self, tray: u8, rest: u8) -> u8 {
        self.term(&[10, tray, rest])
    }

    /// Kind 11.
    pub fn or_else(&mut self, left: u8, right: u8) -> u8 {
        self.term(&[11, left, right])
    }

    /// So many copies of a process side by side, at least one.
    pub fn copies(&mut self, process: u8, how_many: usize) -> u8 {
        let mut all = process;
        for _ in 1..how_many {
            all = self.side_by_side(all, process);
        }
        all
    }

    /// Kind 12, which is no term.
    pub fn tokens(&mut self, tray: u8, count: u8) {
        self.bytes.extend([12, tray, count]);
    }

    /// The table, closed by a start record that names this process.
    pub fn start(&self, process: u8) -> Vec<u8> {
        let mut bytes = self.bytes.clone();
        bytes.extend([13, process]);
        bytes
    }
}
