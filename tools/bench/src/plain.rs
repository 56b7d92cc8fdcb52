//! A plain encoder of blocks, for the crate has none: one pass, byte by byte, as firmware does it.

/// The block being filled: how many bytes of the message it has, and which of the first seven are zeros.
#[derive(Default)]
struct Block {
    run: u8,
    zeros: u8,
}

impl Block {
    /// The control byte behind the block, if this byte closes it.
    fn add(&mut self, byte: u8, out: &mut Vec<u8>) -> Option<u8> {
        if byte == 0 {
            if self.run >= 7 {
                return Some(0x80 + (self.run - 7));
            }
            self.zeros |= 1 << self.run;
        } else {
            out.push(byte);
        }
        self.run += 1;
        match self.run {
            7 if self.zeros != 0 => Some(self.zeros),
            134 => Some(0xff),
            _ => None,
        }
    }

    /// The control byte of a block that the message's end cuts short: what is missing counts as zeros.
    fn close(&self) -> Option<u8> {
        match self.run {
            0 => None,
            1..=6 => Some((self.zeros | (0xff << self.run)) & 0x7f),
            run => Some(0x80 + (run - 7)),
        }
    }
}

/// The coding of a message, in place of what the vector held.
pub fn encode(message: &[u8], out: &mut Vec<u8>) {
    out.clear();
    let mut block = Block::default();
    for &byte in message {
        if let Some(control) = block.add(byte, out) {
            out.push(control);
            block = Block::default();
        }
    }
    out.extend(block.close());
}
