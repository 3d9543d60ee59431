//! The two kinds of core: what a core requests, and its state after the request.

/// An item of the text.
pub type Item = [u8; 4];

/// Only this many items count, whatever the length of the text.
const ITEMS_AT_MOST: usize = 65_535;

/// The text that all cores of a session share.
pub struct Text {
    items: Vec<Item>,
}

impl Text {
    pub fn of_bytes(bytes: &[u8]) -> Text {
        let items = bytes
            .chunks_exact(4)
            .take(ITEMS_AT_MOST)
            .map(|four| [four[0], four[1], four[2], four[3]])
            .collect();
        Text { items }
    }

    pub fn of_items(items: &[Item]) -> Text {
        Text::of_bytes(&items.concat())
    }

    /// The item at a place, or nothing past the items.
    fn item(&self, place: u16) -> Option<Item> {
        self.items.get(usize::from(place)).copied()
    }
}

#[derive(Clone, Copy, Debug, PartialEq, Eq)]
pub enum Request {
    Halt,
    Local,
    Read { cell: u16 },
    Write { cell: u16, number: u16 },
    Exchange { cell: u16, number: u16 },
}

/// What conflicts go by: the cell of an access, and whether it stores.
#[derive(Clone, Copy, Debug, PartialEq, Eq)]
pub struct Access {
    pub cell: u16,
    pub stores: bool,
}

impl Request {
    pub fn access(self) -> Option<Access> {
        match self {
            Request::Halt | Request::Local => None,
            Request::Read { cell } => Some(Access {
                cell,
                stores: false,
            }),
            Request::Write { cell, .. } | Request::Exchange { cell, .. } => {
                Some(Access { cell, stores: true })
            }
        }
    }
}

#[derive(Clone, Copy, Debug, PartialEq, Eq)]
pub enum Kind {
    Script,
    Register,
}

impl Kind {
    /// The core of this kind that begins at an item, with all its numbers 0.
    pub fn core_at(self, start: u16) -> Core {
        match self {
            Kind::Script => Core::Script(ScriptCore {
                next: start,
                last: 0,
            }),
            Kind::Register => Core::Register(RegisterCore {
                next: start,
                registers: [0; 8],
            }),
        }
    }
}

#[derive(Clone, Copy, Debug, PartialEq, Eq)]
pub enum Core {
    Script(ScriptCore),
    Register(RegisterCore),
}

impl Core {
    /// The first rule.
    pub fn request(&self, text: &Text) -> Request {
        match self {
            Core::Script(core) => core.request(text),
            Core::Register(core) => core.request(text),
        }
    }

    /// The second rule.
    pub fn after(&self, text: &Text, brought: u16) -> Core {
        match self {
            Core::Script(core) => Core::Script(core.after(text, brought)),
            Core::Register(core) => Core::Register(core.after(text, brought)),
        }
    }
}

#[derive(Clone, Copy, Debug, PartialEq, Eq)]
pub struct ScriptCore {
    next: u16,
    last: u16,
}

impl ScriptCore {
    fn request(&self, text: &Text) -> Request {
        let Some([kind, cell, high, low]) = text.item(self.next) else {
            return Request::Halt;
        };
        let cell = u16::from(cell);
        let number = two_bytes(high, low);
        match kind {
            0 => Request::Local,
            1 => Request::Read { cell },
            2 => Request::Write { cell, number },
            3 => Request::Exchange { cell, number },
            _ => Request::Halt,
        }
    }

    fn after(&self, text: &Text, brought: u16) -> ScriptCore {
        match self.request(text) {
            Request::Halt => *self,
            Request::Local | Request::Write { .. } => ScriptCore {
                next: self.next + 1,
                last: self.last,
            },
            Request::Read { .. } | Request::Exchange { .. } => ScriptCore {
                next: self.next + 1,
                last: brought,
            },
        }
    }
}

#[derive(Clone, Copy, Debug, PartialEq, Eq)]
pub struct RegisterCore {
    next: u16,
    registers: [u16; 8],
}

impl RegisterCore {
    /// The number in the register that a byte names.
    fn register(&self, byte: u8) -> u16 {
        self.registers[usize::from(byte) % 8]
    }

    fn request(&self, text: &Text) -> Request {
        let Some([operation, m, y, z]) = text.item(self.next) else {
            return Request::Halt;
        };
        let address = (u32::from(self.register(y)) + u32::from(z)) % 256;
        let cell = address as u16;
        let number = self.register(m);
        match operation {
            1 => Request::Read { cell },
            2 => Request::Write { cell, number },
            3 => Request::Exchange { cell, number },
            4..=7 => Request::Local,
            _ => Request::Halt,
        }
    }

    fn after(&self, text: &Text, brought: u16) -> RegisterCore {
        let Some([operation, m, y, z]) = text.item(self.next) else {
            return *self;
        };
        match operation {
            1 | 3 => self.with_register(m, brought),
            2 => self.at(self.next + 1),
            4 => self.with_register(m, two_bytes(y, z)),
            5 => self.with_register(m, self.register(y).wrapping_add(self.register(z))),
            6 => self.with_register(m, self.register(y).wrapping_sub(self.register(z))),
            7 if self.register(m) == 0 => self.at(two_bytes(y, z)),
            7 => self.at(self.next + 1),
            _ => *self,
        }
    }

    fn at(&self, next: u16) -> RegisterCore {
        RegisterCore {
            next,
            registers: self.registers,
        }
    }

    /// The state at the next item, with a number in the register that a byte names.
    fn with_register(&self, byte: u8, number: u16) -> RegisterCore {
        let mut after = self.at(self.next + 1);
        after.registers[usize::from(byte) % 8] = number;
        after
    }
}

fn two_bytes(high: u8, low: u8) -> u16 {
    u16::from_be_bytes([high, low])
}
