//! Reads an order list and writes its run on the bench sheet's board as raw bytes, one a tick: `trace < list > run.bin`, then
//! `sigrok-cli -i run.bin -I binary:numchannels=2:samplerate=400000 -C 0=SCL,1=SDA -P i2c:scl=SCL:sda=SDA`.

use std::io::Write;

fn main() {
    std::io::stdout().write_all(&bilvakront::bench::trace_of_input()).expect("standard output");
}
