//! The plain memory: cells, cores and counts, with one instruction carried out after another.

use crate::cores::{Core, Request, Text};

/// What an instruction did.
#[derive(Clone, Copy, Debug, PartialEq, Eq)]
pub struct Carried {
    pub request: Request,
    pub count: u16,
    pub brought: u16,
}

#[derive(Clone, Debug, PartialEq, Eq)]
pub struct PlainMemory {
    pub cells: Vec<u16>,
    pub cores: Vec<Core>,
    pub counts: Vec<u16>,
}

impl PlainMemory {
    pub fn new(cells: Vec<u16>, cores: Vec<Core>) -> PlainMemory {
        let counts = vec![0; cores.len()];
        PlainMemory {
            cells,
            cores,
            counts,
        }
    }

    /// Carries out the next instruction of a core; its request is no halt and its cell is there.
    pub fn carry_out(&mut self, text: &Text, core: usize) -> Carried {
        let request = self.cores[core].request(text);
        let brought = self.act(request);
        self.cores[core] = self.cores[core].after(text, brought);
        self.counts[core] += 1;
        Carried {
            request,
            count: self.counts[core],
            brought,
        }
    }

    /// Stores what the request stores, and gives the number that it brings.
    fn act(&mut self, request: Request) -> u16 {
        match request {
            Request::Halt | Request::Local => 0,
            Request::Read { cell } => self.cells[usize::from(cell)],
            Request::Write { cell, number } => {
                self.cells[usize::from(cell)] = number;
                0
            }
            Request::Exchange { cell, number } => {
                std::mem::replace(&mut self.cells[usize::from(cell)], number)
            }
        }
    }
}
