//! What runs of many frames are timed on: a recipe of 20 steps and a million frames.

use crate::patterns::Random;
use std::io::{self, BufWriter, Write};

pub const FRAMES: u64 = 1_000_000;

/// Two texture coordinates, wrapped, rounded in several ways and joined to one index: steps of most
/// opcodes.
pub const RECIPE: &str = "\
010000c0b000000000000040b0000000000000
010000c0b000000000000040b0000000000000
020000fffffffffffffff80000000000000008
03000040700000000000000000000000000000
0300003fe00000000000000000000000000000
22000300000000000000000000000000000000
22010300000000000000000000000000000000
16050000000000000000000000000000000000
16060000000000000000000000000000000000
10070000000000000000000000000000000000
14080000000000000000000000000000000000
15070000000000000000000000000000000000
230b0200000000000000000000000000000000
130c0000000000000000000000000000000000
20090a00000000000000000000000000000000
21090d00000000000000000000000000000000
180e0000000000000000000000000000000000
180f0000000000000000000000000000000000
30101100000000000000000000000000000000
32120000000000000000000000000000000000
";

/// Writes the frames, the same ones each time.
pub fn write_frames(file: impl Write) -> io::Result<()> {
    let mut random = Random::new(81);
    let mut file = BufWriter::new(file);
    for _ in 0..FRAMES {
        let mut coordinate = || {
            let fraction = (random.word() >> 11) as f64 / (1u64 << 53) as f64;
            ((fraction - 0.5) * 8192.0).to_bits()
        };
        let (u, v) = (coordinate(), coordinate());
        let n = random.within(-8..9);
        writeln!(file, "{u:016x}{v:016x}{n:016x}")?;
    }
    file.flush()
}

/// The middle one of some times, which are put in order.
pub fn median(times: &mut [f64]) -> f64 {
    times.sort_by(f64::total_cmp);
    times[times.len() / 2]
}
