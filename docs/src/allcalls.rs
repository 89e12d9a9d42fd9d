//! Plays a call file with lends, resets and bursts: as `play.rs`, and a record
//! of kind 4 is a lend, one of kind 5 a reset, one of kind 6 a burst.

#[allow(dead_code)]
#[path = "play.rs"]
mod play;

fn main() -> std::io::Result<()> {
    play::play::<true>()
}
