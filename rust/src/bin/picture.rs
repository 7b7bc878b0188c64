//! Reads an order list and draws its run on the bench sheet's board with letters, two rows of levels a line, 44 ticks wide: `picture < list`.

const WIDTH: usize = 44;

fn main() {
    for (row, lines) in bilvakront::bench::trace_of_input().chunks(WIDTH).enumerate() {
        println!("tick {}", row * WIDTH);
        for (bit, name) in [(0, "SCL"), (1, "SDA")] {
            let drawn: String = lines.iter().map(|line| if line >> bit & 1 == 1 { '‾' } else { '_' }).collect();
            println!("{name}  {drawn}");
        }
    }
}
