//! Calls the line call of an archive of Rattle so many times: `million_lines COUNT` prints the seconds that it took, `million_lines COUNT
//! show` the lines. tools/stack builds it, once for each archive.
use std::hint::black_box;
use std::io::Write;
use std::time::Instant;

/// Room for a line of any form.
const ROOM: usize = 64;

#[link(name = "line_for_c", kind = "static")]
extern "C" {
    fn line_for_c(
        number: u8,
        state: u8,
        gate: u8,
        live: u16,
        reference: i16,
        position: u32,
        angle: i16,
        lent: *mut u8,
        length: usize,
    ) -> u16;
}

/// The line of the answer with this index. Numbers, states and gates take turns; the factors are odd, so of 65,536 answers in a row each
/// has another live word, another reference and another angle.
fn line(index: u32, lent: &mut [u8; ROOM]) {
    let live = index.wrapping_mul(40_503) as u16;
    let reference = index.wrapping_mul(25_173) as i16;
    let position = index.wrapping_mul(2_654_435_769);
    let angle = index.wrapping_mul(13_849) as i16;
    let gate = (index / 10 % 4) as u8;
    // SAFETY: the archive was proved of any numbers and any bytes that are lent, and these are.
    let refused = unsafe {
        line_for_c((index / 40 % 16) as u8, (index % 10) as u8, gate, live, reference, position, angle, lent.as_mut_ptr(), lent.len())
    };
    assert_eq!(refused, 0, "the line of answer {index} is refused");
}

fn main() {
    let words: Vec<String> = std::env::args().collect();
    let count: u32 = words[1].parse().expect("COUNT is a number");
    let mut lent = [0; ROOM];
    if words.len() > 2 {
        let mut out = std::io::BufWriter::new(std::io::stdout().lock());
        for index in 0..count {
            line(index, &mut lent);
            let end = lent.iter().position(|&byte| byte == b'\n').expect("a line ends with a line feed");
            out.write_all(&lent[..=end]).expect("the lines are written");
        }
        return;
    }
    let began = Instant::now();
    for index in 0..count {
        line(index, &mut lent);
        black_box(&lent);
    }
    println!("{}", began.elapsed().as_secs_f64());
}
