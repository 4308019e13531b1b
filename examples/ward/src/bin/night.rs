//! `night > FILE`: a made night of eight hours, to be drawn by `ward`.

use std::io::{self, Write};

fn main() -> io::Result<()> {
    io::stdout().lock().write_all(&ward::night::night())
}
