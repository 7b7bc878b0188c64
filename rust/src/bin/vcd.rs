//! Reads an order list and writes its run on the bench sheet's board as a value change dump, for GTKWave and PulseView: `vcd < list > run.vcd`.
//! One tick is written as one microsecond: our ticks have no length, and a viewer wants one.

fn main() {
    let lines = bilvakront::bench::trace_of_input();
    let mut text = String::from("$timescale 1 us $end\n$scope module bus $end\n$var wire 1 ! SCL $end\n$var wire 1 \" SDA $end\n");
    text += "$upscope $end\n$enddefinitions $end\n";
    let mut before = None;
    for (tick, &now) in lines.iter().enumerate() {
        let changed = |bit: u8| before.map_or(true, |past: u8| (past ^ now) >> bit & 1 == 1);
        if changed(0) || changed(1) {
            text += &format!("#{tick}\n");
        }
        for (bit, name) in [(0, '!'), (1, '"')] {
            if changed(bit) {
                text += &format!("{}{name}\n", now >> bit & 1);
            }
        }
        before = Some(now);
    }
    print!("{text}#{}\n", lines.len());
}
