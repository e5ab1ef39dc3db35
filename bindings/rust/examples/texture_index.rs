//! The index of a texel at a coordinate on exactly one half, by both roundings.

use estrenwind::{lround, nearbyint, round};

fn main() {
    for x in [0.5, 1.5, 2.5, 0.49999999999999994, -0.5, f64::INFINITY] {
        match (lround(round(x)), lround(nearbyint(x))) {
            (Ok(away), Ok(even)) => println!("{x}: round {away}, nearbyint {even}"),
            (Err(refused), _) | (_, Err(refused)) => println!("{x}: {refused}"),
        }
    }
}
