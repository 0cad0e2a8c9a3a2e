//! Ops (the document's orders) and the op buffer (its tape).

/// Words an op takes in the op buffer.
pub const OP_WORDS: usize = 3;

#[derive(Clone, Copy, Debug, PartialEq, Eq)]
pub enum Op {
    Store { word: u64, value: u64 },
    Flush { first: u64, count: u64 },
}

impl Op {
    pub fn encode(self) -> [u64; OP_WORDS] {
        match self {
            Op::Store { word, value } => [1, word, value],
            Op::Flush { first, count } => [2, first, count],
        }
    }
}

/// Puts ops into a borrowed op buffer, one behind another from its front.
pub struct OpWriter<'a> {
    buffer: &'a mut [u64],
    count: usize,
}

impl<'a> OpWriter<'a> {
    pub fn new(buffer: &'a mut [u64]) -> Self {
        OpWriter { buffer, count: 0 }
    }

    /// The buffer must have room.
    pub fn put(&mut self, op: Op) {
        let start = OP_WORDS * self.count;
        self.buffer[start..start + OP_WORDS].copy_from_slice(&op.encode());
        self.count += 1;
    }

    /// Ops put so far.
    pub fn count(&self) -> usize {
        self.count
    }
}
