//! What a core asks next, and the two kinds of core.

/// What a core asks for.
#[derive(Clone, Copy, Debug, PartialEq, Eq)]
pub enum Request {
    Halt,
    Local,
    Read { cell: u16 },
    Write { cell: u16, number: u16 },
    Exchange { cell: u16, number: u16 },
}

/// A cell that is read or written; an exchange counts as a write.
#[derive(Clone, Copy)]
pub struct Access {
    pub cell: usize,
    pub writes: bool,
}

impl Request {
    /// What it does to the cells, if anything.
    #[inline]
    pub fn access(self) -> Option<Access> {
        let (cell, writes) = match self {
            Request::Halt | Request::Local => return None,
            Request::Read { cell } => (cell, false),
            Request::Write { cell, .. } | Request::Exchange { cell, .. } => (cell, true),
        };
        Some(Access {
            cell: cell.into(),
            writes,
        })
    }

    /// Acts on the cells, and gives the number that it brings.
    #[inline]
    pub fn act(self, cells: &mut [u16]) -> u16 {
        match self {
            Request::Halt | Request::Local => 0,
            Request::Read { cell } => cells[usize::from(cell)],
            Request::Write { cell, number } => {
                cells[usize::from(cell)] = number;
                0
            }
            Request::Exchange { cell, number } => {
                std::mem::replace(&mut cells[usize::from(cell)], number)
            }
        }
    }
}

/// A kind of core: what it asks next, and what it is after the number that this brings.
pub trait Core: Copy {
    /// A core that starts at an item of the text.
    fn new(place: u16) -> Self;
    fn ask(&self, text: &[u8]) -> Request;
    fn tell(&mut self, text: &[u8], number: u16);
}

/// The four bytes of an item; an item 65,535 does not exist.
#[inline]
fn item(text: &[u8], place: u16) -> Option<[u8; 4]> {
    if place == u16::MAX {
        return None;
    }
    let at = 4 * usize::from(place);
    text.get(at..at + 4)?.try_into().ok()
}

/// Each item is one request.
#[derive(Clone, Copy)]
pub struct Script {
    place: u16,
    last: u16,
}

impl Core for Script {
    fn new(place: u16) -> Self {
        Script { place, last: 0 }
    }

    #[inline]
    fn ask(&self, text: &[u8]) -> Request {
        match item(text, self.place) {
            Some([0, ..]) => Request::Local,
            Some([1, cell, ..]) => Request::Read { cell: cell.into() },
            Some([2, cell, high, low]) => Request::Write {
                cell: cell.into(),
                number: u16::from_be_bytes([high, low]),
            },
            Some([3, cell, high, low]) => Request::Exchange {
                cell: cell.into(),
                number: u16::from_be_bytes([high, low]),
            },
            _ => Request::Halt,
        }
    }

    #[inline]
    fn tell(&mut self, text: &[u8], number: u16) {
        match item(text, self.place) {
            Some([0 | 2, ..]) => self.place += 1,
            Some([1 | 3, ..]) => {
                self.place += 1;
                self.last = number;
            }
            _ => {}
        }
    }
}

/// Items are operations on eight registers, with jumps and computed cells.
#[derive(Clone, Copy)]
pub struct Register {
    place: u16,
    registers: [u16; 8],
}

impl Register {
    #[inline]
    fn register(&self, name: u8) -> u16 {
        self.registers[usize::from(name & 7)]
    }

    #[inline]
    fn cell(&self, name: u8, offset: u8) -> u16 {
        self.register(name).wrapping_add(offset.into()) & 255
    }
}

impl Core for Register {
    fn new(place: u16) -> Self {
        Register {
            place,
            registers: [0; 8],
        }
    }

    #[inline]
    fn ask(&self, text: &[u8]) -> Request {
        match item(text, self.place) {
            Some([1, _, y, z]) => Request::Read {
                cell: self.cell(y, z),
            },
            Some([2, x, y, z]) => Request::Write {
                cell: self.cell(y, z),
                number: self.register(x),
            },
            Some([3, x, y, z]) => Request::Exchange {
                cell: self.cell(y, z),
                number: self.register(x),
            },
            Some([4..=7, ..]) => Request::Local,
            _ => Request::Halt,
        }
    }

    #[inline]
    fn tell(&mut self, text: &[u8], number: u16) {
        let Some([operation, x, y, z]) = item(text, self.place) else {
            return;
        };
        let to = usize::from(x & 7);
        let mut next = self.place + 1;
        match operation {
            1 | 3 => self.registers[to] = number,
            2 => {}
            4 => self.registers[to] = u16::from_be_bytes([y, z]),
            5 => self.registers[to] = self.register(y).wrapping_add(self.register(z)),
            6 => self.registers[to] = self.register(y).wrapping_sub(self.register(z)),
            7 => {
                if self.registers[to] == 0 {
                    next = u16::from_be_bytes([y, z]);
                }
            }
            _ => return,
        }
        self.place = next;
    }
}
