//! The block load call (M-102): "A block load call reads a block and loads its
//! body".

use crate::drive::{Drive, Reply};
use crate::flag::Flag;
use crate::image::{numbers_of, read_block};
use crate::state::State;

impl Drive {
    /// "Refusals: 7 image malformed, then 8 block above 14, then 9 block empty,
    /// then load's own": these are 4, then 2 at load's own place.
    pub fn load_block(&self, image: &[u8], block: usize) -> Reply {
        let found = read_block(image, block);
        if found.number != 0 {
            return self.refuse_by(found.number, found.place);
        }
        let reply = self.load(&numbers_of(found.part));
        // "A body that it finds and load's own rules refuse in IDLE also sets
        // flag 12, always live, until a load of either kind is accepted; this
        // amends [..] the rule that a refusal changes nothing."  Its own answer
        // shows the flag.
        if reply.answer.number != 0 && self.state == State::Idle {
            let mut flagged = self.clone();
            flagged.flags |= Flag::BlockRefused.bit();
            return flagged.refuse_by(reply.answer.number, reply.answer.place);
        }
        reply
    }
}
