//! A second reader of lists: whether bytes are a list in the layout of form 1. It is written from the papers (document 01's "The sheet and
//! the list", and the limits for stored lists) and usvg's declarations, never from the library's code, and keeps nothing of what it reads.

/// The limits for stored lists; each number itself is inside.
const PRIMITIVES: usize = 512;
const INPUTS: usize = 511;
const NUMBERS: usize = 1024;
const TEXT: usize = 255;
const MATRIX: usize = 20;

/// What is left of a list or of a record. None: the bytes are outside the layout.
struct Rest<'a>(&'a [u8]);

impl<'a> Rest<'a> {
    fn take(&mut self, n: usize) -> Option<&'a [u8]> {
        let (part, rest) = self.0.split_at_checked(n)?;
        self.0 = rest;
        Some(part)
    }
    fn u16(&mut self) -> Option<usize> {
        Some(usize::from(u16::from_le_bytes(self.take(2)?.try_into().ok()?)))
    }
    fn u32(&mut self) -> Option<usize> {
        usize::try_from(u32::from_le_bytes(self.take(4)?.try_into().ok()?)).ok()
    }
    /// Every bit pattern is a number, and so is every u32 and i32.
    fn numbers(&mut self, n: usize) -> Option<()> {
        self.take(4 * n).map(drop)
    }
    fn color(&mut self) -> Option<()> {
        self.take(3).map(drop)
    }
    /// The place of a case in an enum of so many.
    fn case(&mut self, cases: u8) -> Option<u8> {
        Some(self.take(1)?[0]).filter(|place| *place < cases)
    }
    fn bool(&mut self) -> Option<bool> {
        Some(self.case(2)? == 1)
    }
    fn vec(&mut self) -> Option<usize> {
        let n = self.u16().filter(|n| *n <= NUMBERS)?;
        self.numbers(n)?;
        Some(n)
    }
    fn text(&mut self) -> Option<&'a str> {
        let n = self.u16().filter(|n| *n <= TEXT)?;
        std::str::from_utf8(self.take(n)?).ok()
    }

    fn input(&mut self) -> Option<()> {
        match self.case(3)? {
            2 => self.text().map(drop),
            _ => Some(()),
        }
    }
    fn inputs(&mut self, n: usize) -> Option<()> {
        (0..n).try_for_each(|_| self.input())
    }

    fn matrix(&mut self) -> Option<()> {
        match self.case(4)? {
            0 => self.vec().filter(|n| *n == MATRIX).map(drop),
            3 => Some(()),
            _saturate_or_hue_rotate => self.numbers(1),
        }
    }
    fn transfer_function(&mut self) -> Option<()> {
        match self.case(5)? {
            0 => Some(()),
            1 | 2 => self.vec().map(drop),
            3 => self.numbers(2),
            _gamma => self.numbers(3),
        }
    }
    fn operator(&mut self) -> Option<()> {
        match self.case(7)? {
            6 => self.numbers(4),
            _ => Some(()),
        }
    }
    fn light_source(&mut self) -> Option<()> {
        match self.case(3)? {
            0 => self.numbers(2),
            1 => self.numbers(3),
            _spot => {
                self.numbers(7)?;
                let angle = self.bool()?;
                self.numbers(usize::from(angle))
            }
        }
    }

    /// A `Kind`: its place, and the fields of the struct of that name.
    fn kind(&mut self) -> Option<()> {
        match self.case(17)? {
            0 => {
                self.inputs(2)?;
                self.case(16).map(drop)
            }
            1 => {
                self.input()?;
                self.matrix()
            }
            2 => {
                self.input()?;
                (0..4).try_for_each(|_| self.transfer_function())
            }
            3 => {
                self.inputs(2)?;
                self.operator()
            }
            4 => {
                self.input()?;
                // target x and y, columns, rows
                self.numbers(4)?;
                self.vec()?;
                // divisor, bias
                self.numbers(2)?;
                self.case(3)?;
                self.bool().map(drop)
            }
            5 => {
                self.input()?;
                self.numbers(2)?;
                self.color()?;
                self.light_source()
            }
            6 => {
                self.inputs(2)?;
                self.numbers(1)?;
                self.case(4)?;
                self.case(4).map(drop)
            }
            7 => {
                self.input()?;
                self.numbers(4)?;
                self.color()?;
                self.numbers(1)
            }
            8 => {
                self.color()?;
                self.numbers(1)
            }
            9 => {
                self.input()?;
                self.numbers(2)
            }
            // Image
            10 => None,
            11 => {
                let n = self.u16().filter(|n| *n <= INPUTS)?;
                self.inputs(n)
            }
            12 => {
                self.input()?;
                self.case(2)?;
                self.numbers(2)
            }
            13 => {
                self.input()?;
                self.numbers(2)
            }
            14 => {
                self.input()?;
                self.numbers(3)?;
                self.color()?;
                self.light_source()
            }
            15 => self.input(),
            _turbulence => {
                // base frequencies, octaves, seed
                self.numbers(4)?;
                self.bool()?;
                self.case(2).map(drop)
            }
        }
    }

    fn primitive(&mut self) -> Option<()> {
        // the rectangle
        self.numbers(4)?;
        // its color interpolation
        self.case(2)?;
        self.text()?;
        self.kind()
    }

    fn end(self) -> Option<()> {
        self.0.is_empty().then_some(())
    }
}

fn list(bytes: &[u8]) -> Option<()> {
    let mut pairs = Rest(bytes);
    let count = pairs.u16().filter(|n| *n <= PRIMITIVES)?;
    let mut records = Rest(bytes);
    records.take(2 + 8 * count)?;
    for _ in 0..count {
        // a record begins where the one before it ended
        let begin = bytes.len() - records.0.len();
        pairs.u32().filter(|offset| *offset == begin)?;
        let mut record = Rest(records.take(pairs.u32()?)?);
        record.primitive()?;
        record.end()?;
    }
    records.end()
}

pub fn in_layout(bytes: &[u8]) -> bool {
    list(bytes).is_some()
}
