//! The comparisons, one file a channel. Each has a function `all` that makes every comparison of its channel.
//!
//! In every comparison `None` for a run is NULL with length 0.

pub mod aich;
pub mod aich_available;
pub mod antenna;
pub mod bank;
pub mod combiner;
pub mod compressed;
pub mod desk;
pub mod dpcch;
pub mod dpch;
pub mod dpdch;
pub mod frame;
mod frames;
pub mod hspdsch;
pub mod lengths;
pub mod pccpch;
pub mod pich;
pub mod sample;
pub mod sttd;
pub mod wake;

/// Lengths to try for a run: the right one, near it, far from it, and equal to it in the low 8 or 16 bits. `None` is
/// NULL.
fn lengths(right: usize) -> Vec<Option<usize>> {
    let below = right.saturating_sub(1);
    let some = [0, 1, below, right, right + 1, right / 2, 2 * right, right + 256, right + 65536];
    let mut all = vec![None];
    for length in some.map(Some) {
        if !all.contains(&length) {
            all.push(length);
        }
    }
    all
}
