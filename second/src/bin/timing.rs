//! Times the counterpart: nanoseconds a tick for one, four and eight chips,
//! the best of many runs (the machine may be shared).

use second::counterpart::Load;

fn main() {
    for marks in [0x01u8, 0x0F, 0xFF] {
        let mut load = Load::new(marks, 80);
        let mut best = f64::INFINITY;
        let mut ticks = 0;
        for _ in 0..100 {
            let (answer, time) = load.time();
            ticks = answer.ticks;
            best = best.min(time.as_nanos() as f64 / ticks as f64);
        }
        let chips = marks.count_ones();
        println!("{chips} chips: {ticks} ticks a run, best {best:.2} ns a tick");
    }
}
