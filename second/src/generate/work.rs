//! The lines of calls as they are drawn.

use crate::lines::hex;
use crate::random::Random;
use crate::wire::Wire;

/// The calls of a whole move and of a stretch, for each of the two engines.
pub const MOVE: [u8; 2] = [0x20, 0x26];
pub const ADVANCE: [u8; 2] = [0x22, 0x27];

/// The lines drawn so far, without their newlines.
pub struct Work {
    pub random: Random,
    pub lines: Vec<Vec<u8>>,
}

impl Work {
    /// Adds a call with these arguments.
    pub fn call<A: Wire>(&mut self, number: u8, arguments: &A) {
        let mut bytes = vec![number];
        arguments.write(&mut bytes);
        let mut line = hex(&bytes);
        // "Digits a to f may be upper case in a call."
        if self.random.chance(5) {
            line.make_ascii_uppercase();
        }
        self.lines.push(line);
    }

    /// Adds the calls of both engines with the very same arguments, in either order, so that neither can live on what
    /// the other left.
    pub fn by_both<A: Wire>(&mut self, numbers: [u8; 2], arguments: &A) {
        let first = self.random.index(2);
        self.call(numbers[first], arguments);
        self.call(numbers[1 - first], arguments);
    }

    /// Adds a call with so many bytes of arguments, whatever they are.
    pub fn line(&mut self, number: u8, length: usize) {
        let mut bytes = vec![number];
        bytes.extend(self.random.bytes(length));
        self.lines.push(hex(&bytes));
    }
}
