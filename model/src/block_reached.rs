//! Counts of what streams for `blockline` reach.

use crate::blockline::{read_block_head, BlockHead, BlockRecord};
use crate::counts::Counts;
use crate::image::{analog_choice, write_image, Block};
use crate::image::{BLOCKS, BODY_COUNTS, LONGEST_IMAGE, MOST_COUNT, MOST_NUMBERS};
use crate::image_rows;
use crate::input::{Input, MOST_BYTES};

/// Names that are counted as they stand here.
const LIST: [&str; 38] = [
    "end between records",
    "unknown letter, and nothing behind it",
    "unknown letter, and bytes behind it",
    "short R: the letter alone",
    "short R: no length whole",
    "short R: in its image",
    "bad R: length above 2048, the bytes there",
    "bad R: length above 2048, the bytes not there",
    "short A",
    "short W: before its blocks",
    "short W: in its blocks",
    "bad W: more than 2048 bytes lent, blocks there",
    "bad W: more than 2048 bytes lent, nothing there",
    "bad W: kind above 1 in block 0",
    "bad W: kind above 1 in a block between",
    "bad W: kind above 1 in block 14",
    "A of 0",
    "A of 4095",
    "A refused: 4096",
    "A refused: 65535",
    "A refused: another count",
    "W accepted: no block filled",
    "W accepted: every block filled",
    "W accepted: the longest image",
    "W accepted: exactly the bytes lent",
    "W accepted: bytes lent behind the image",
    "W accepted: 2048 bytes lent",
    "W accepted: an empty block with 24 or 25 numbers",
    "W accepted: an empty block with another count",
    "W refused 5: one byte too few",
    "W refused 5: nothing lent",
    "W refused 5: no more than the entries lent",
    "W refused 2: no number",
    "W refused 2: 23 numbers",
    "W refused 2: 26 numbers",
    "W refused 2: 255 numbers",
    "W refused 2: a second bad block behind the first",
    "W refused 2: where 5 would hold",
];

fn list() -> Vec<String> {
    let mut list = LIST.map(str::to_string).to_vec();
    list.extend(image_rows::list().iter().map(|name| format!("R {name}")));
    for block in 0..BLOCKS {
        list.push(format!("A: first count of block {block}"));
        list.push(format!("A: last count of block {block}"));
        list.push(format!("W refused 2 at {}", block + 1));
        for count in BODY_COUNTS {
            list.push(format!("W accepted: block {block} with {count} numbers"));
        }
    }
    list
}

/// Of the blocks of a bad record W the one whose kind is above 1; none where
/// the input ends before.
fn block_of_another_kind(blocks: &[u8]) -> Option<usize> {
    let mut rest = Input::new(blocks);
    for block in 0..BLOCKS {
        if rest.byte()? > 1 {
            return Some(block);
        }
        let count = rest.byte()? as usize;
        rest.numbers(count.min(MOST_NUMBERS))?;
    }
    None
}

pub struct BlockReached {
    counts: Counts,
}

impl Default for BlockReached {
    fn default() -> BlockReached {
        BlockReached {
            counts: Counts::new("blockline", list()),
        }
    }
}

impl BlockReached {
    pub fn add_stream(&mut self, stream: &[u8]) {
        let mut rest = stream;
        loop {
            match read_block_head(rest) {
                BlockHead::End => return self.counts.count("end between records"),
                BlockHead::Bad => return self.bad(rest),
                BlockHead::Whole(record, length) => {
                    rest = &rest[length..];
                    self.whole(&record);
                }
            }
        }
    }

    pub fn at_zero(&self) -> Vec<String> {
        self.counts.at_zero()
    }

    pub fn lines(&self) -> Vec<String> {
        self.counts.lines()
    }

    fn bad(&mut self, rest: &[u8]) {
        let length_at = |place: usize| Input::new(rest.get(place..)?).number();
        let too_long = |place| length_at(place).is_some_and(|one| one as usize > MOST_BYTES);
        self.counts.count(match rest {
            [b'R'] => "short R: the letter alone",
            [b'R', ..] if rest.len() < 4 => "short R: no length whole",
            [b'R', ..] if too_long(2) && rest.len() > 4 + MOST_BYTES => {
                "bad R: length above 2048, the bytes there"
            }
            [b'R', ..] if too_long(2) => "bad R: length above 2048, the bytes not there",
            [b'R', ..] => "short R: in its image",
            [b'A', ..] => "short A",
            [b'W', ..] if rest.len() < 3 => "short W: before its blocks",
            [b'W', ..] if too_long(1) && rest.len() > 8 => {
                "bad W: more than 2048 bytes lent, blocks there"
            }
            [b'W', ..] if too_long(1) => "bad W: more than 2048 bytes lent, nothing there",
            [b'W', _, _] | [b'W', _, _, _] => "short W: before its blocks",
            [b'W', ..] => match block_of_another_kind(&rest[4..]) {
                Some(0) => "bad W: kind above 1 in block 0",
                Some(14) => "bad W: kind above 1 in block 14",
                Some(_) => "bad W: kind above 1 in a block between",
                None => "short W: in its blocks",
            },
            [_] => "unknown letter, and nothing behind it",
            _ => "unknown letter, and bytes behind it",
        });
    }

    fn whole(&mut self, record: &BlockRecord) {
        match record {
            BlockRecord::Read { block, image } => {
                for name in image_rows::names(image, *block as usize) {
                    self.counts.count(format!("R {name}"));
                }
            }
            BlockRecord::Choose { count } => self.choose(*count),
            BlockRecord::Write { lent, blocks, .. } => self.write(*lent, blocks),
        }
    }

    fn choose(&mut self, count: u16) {
        let block = |count| analog_choice(count).block;
        match count {
            0 => self.counts.count("A of 0"),
            4095 => self.counts.count("A of 4095"),
            4096 => self.counts.count("A refused: 4096"),
            65535 => self.counts.count("A refused: 65535"),
            4097.. => self.counts.count("A refused: another count"),
            _ => {}
        }
        if i64::from(count) > MOST_COUNT {
            return;
        }
        let own = block(count);
        if count == 0 || block(count - 1) != own {
            self.counts.count(format!("A: first count of block {own}"));
        }
        if i64::from(count) == MOST_COUNT || block(count + 1) != own {
            self.counts.count(format!("A: last count of block {own}"));
        }
    }

    fn write(&mut self, lent: usize, blocks: &[Block; BLOCKS]) {
        let mut bytes = vec![0; lent];
        let written = write_image(blocks, &mut bytes);
        match written.number {
            2 => self.refused_body(lent, blocks, written.place),
            5 => self.no_room(lent, blocks),
            _ => self.written(lent, blocks, written.length),
        }
    }

    fn refused_body(&mut self, lent: usize, blocks: &[Block; BLOCKS], place: u8) {
        self.counts.count(format!("W refused 2 at {place}"));
        match blocks[place as usize - 1].count {
            0 => self.counts.count("W refused 2: no number"),
            23 => self.counts.count("W refused 2: 23 numbers"),
            26 => self.counts.count("W refused 2: 26 numbers"),
            255 => self.counts.count("W refused 2: 255 numbers"),
            _ => {}
        }
        let bad = |block: &&Block| block.filled && !BODY_COUNTS.contains(&block.count);
        if blocks.iter().filter(bad).count() > 1 {
            self.counts
                .count("W refused 2: a second bad block behind the first");
        }
        if lent < BLOCKS {
            self.counts.count("W refused 2: where 5 would hold");
        }
    }

    fn no_room(&mut self, lent: usize, blocks: &[Block; BLOCKS]) {
        let mut room = [0; LONGEST_IMAGE];
        let needed = write_image(blocks, &mut room).length;
        if lent + 1 == needed {
            self.counts.count("W refused 5: one byte too few");
        }
        match lent {
            0 => self.counts.count("W refused 5: nothing lent"),
            75 => self
                .counts
                .count("W refused 5: no more than the entries lent"),
            _ => {}
        }
    }

    fn written(&mut self, lent: usize, blocks: &[Block; BLOCKS], length: usize) {
        match blocks.iter().filter(|block| block.filled).count() {
            0 => self.counts.count("W accepted: no block filled"),
            BLOCKS => self.counts.count("W accepted: every block filled"),
            _ => {}
        }
        if length == LONGEST_IMAGE {
            self.counts.count("W accepted: the longest image");
        }
        if lent == length {
            self.counts.count("W accepted: exactly the bytes lent");
        } else {
            self.counts.count("W accepted: bytes lent behind the image");
        }
        if lent == MOST_BYTES {
            self.counts.count("W accepted: 2048 bytes lent");
        }
        for (place, block) in blocks.iter().enumerate() {
            let count = block.count;
            self.counts
                .count(match (block.filled, BODY_COUNTS.contains(&count)) {
                    (true, _) => format!("W accepted: block {place} with {count} numbers"),
                    (false, true) => "W accepted: an empty block with 24 or 25 numbers".to_string(),
                    (false, false) => "W accepted: an empty block with another count".to_string(),
                });
        }
    }
}
