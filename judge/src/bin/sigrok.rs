//! Sigrok's I2C decoder as an outside judge of the whole-bus run: it reads the traces of generated lists, and every START, bit, address, direction, byte,
//! ACK, NACK and STOP that it names, each with its ticks, must be what list, results, waits and holds say by the paper's symbol table.
//! `sigrok [CASES [SEED]]`; `sigrok --self-test` spoils a record in several ways, and each must be found.

use second::cases::{self, BusCase, Rng};
use std::process::Command;

/// Ticks of 1,1 before each run and after the last: sigrok knows no tick before a record's first.
const IDLE: usize = 3;

/// What the two wires carry, with its ticks in the joined record.
///
/// Of a clocked symbol the tick is SCL's rise, phase 2's last tick, since bits are sampled there; of START and STOP it is phase 3, where SDA moves.
enum Event {
    Start { repeated: bool, tick: u64 },
    Byte { kind: Kind, value: u8, rises: [u64; 8], ninth: u8, answered: u64 },
    Stop { tick: u64 },
}

#[derive(Clone, Copy, PartialEq, Eq)]
enum Kind {
    Address,
    Written,
    Read,
}

impl Event {
    /// The annotations that sigrok prints for it, `first-last name: text`. It says a byte's bits from the last to the first, each up to the next bit's
    /// rise; where it cannot know an end yet (eighth bit, direction, data byte, answer) it takes the time from the seventh rise to the eighth once more.
    fn annotations(&self, say: &mut impl FnMut(u64, u64, String)) {
        match *self {
            Event::Start { repeated, tick } => say(tick, tick, (if repeated { "Start repeat" } else { "Start" }).into()),
            Event::Stop { tick } => say(tick, tick, "Stop".into()),
            Event::Byte { kind, value, rises, ninth, answered } => {
                let width = rises[7] - rises[6];
                let end = rises[7] + width;
                for i in (0..8).rev() {
                    say(rises[i], if i == 7 { end } else { rises[i + 1] }, (value >> (7 - i) & 1).to_string());
                }
                match (kind, value & 1) {
                    (Kind::Address, direction) => {
                        let name = if direction == 1 { "read" } else { "write" };
                        say(rises[7], end, (if direction == 1 { "Read" } else { "Write" }).into());
                        say(rises[0], rises[7], format!("Address {name}: {:02X}", value >> 1));
                    }
                    (Kind::Written, _) => say(rises[0], end, format!("Data write: {value:02X}")),
                    (Kind::Read, _) => say(rises[0], end, format!("Data read: {value:02X}")),
                }
                say(answered, answered + width, (if ninth == 1 { "NACK" } else { "ACK" }).into());
            }
        }
    }
}

/// Goes along a run symbol by symbol. It knows the symbol table's ticks and the hold list, no level of any wire.
struct Walk<'a> {
    tick: u64,
    holds: std::slice::Iter<'a, u8>,
    events: Vec<Event>,
    held: u64,
}

impl Walk<'_> {
    /// A clocked symbol: phases 0 and 1, the held ticks, then SCL's rise, whose tick is given, and phase 3.
    fn clocked(&mut self) -> u64 {
        let held = u64::from(self.holds.next().copied().unwrap_or(0));
        let rise = self.tick + 2 + held;
        self.held += held;
        self.tick = rise + 2;
        rise
    }

    fn start(&mut self, repeated: bool) {
        if repeated {
            self.clocked();
        } else {
            self.tick += 4;
        }
        self.events.push(Event::Start { repeated, tick: self.tick - 1 });
    }

    fn byte(&mut self, kind: Kind, value: u8, ninth: u8) {
        let rises = std::array::from_fn(|_| self.clocked());
        let answered = self.clocked();
        self.events.push(Event::Byte { kind, value, rises, ninth, answered });
    }

    fn stop(&mut self) {
        self.clocked();
        self.events.push(Event::Stop { tick: self.tick - 1 });
    }

    /// Reads a right list beside its results and walks what was sent. The results say who answered and what was read; all else is the list's.
    fn list(&mut self, mut list: &[u8], mut results: &[u8]) {
        while let [count, low, high, rest @ ..] = list {
            list = rest;
            self.tick += u64::from(u16::from_le_bytes([*low, *high]));
            assert_eq!(take(&mut results, 1), [0], "an outcome of an accepted list");
            let mut over = false;
            for m in 0..*count {
                let &[address, kind, length] = take(&mut list, 3) else { unreachable!() };
                let reads = kind % 2 == 1;
                let &[flag, done] = take(&mut results, 2) else { unreachable!() };
                assert!(flag <= 1 && done <= length, "a flag and a count");
                let data = if reads { take(&mut results, length.into()) } else { take(&mut list, length.into()) };
                if over {
                    assert!(flag == 0 && done == 0 && (!reads || data.iter().all(|&b| b == 0)), "slots of a message that was not sent");
                    continue;
                }
                self.start(m > 0);
                self.byte(Kind::Address, address * 2 + u8::from(reads), 1 - flag);
                let mut refused = flag == 0;
                if refused {
                    assert!(done == 0 && (!reads || data.iter().all(|&b| b == 0)), "slots of a message whose address nobody answered");
                } else if reads {
                    assert_eq!(done, length, "bytes counted of a read");
                    for (i, &value) in data.iter().enumerate() {
                        self.byte(Kind::Read, value, u8::from(i + 1 == data.len()));
                    }
                } else {
                    for (i, &value) in data.iter().enumerate().take(usize::from(done) + 1) {
                        refused = i == usize::from(done);
                        self.byte(Kind::Written, value, u8::from(refused));
                    }
                }
                over = refused && kind < 2;
            }
            self.stop();
        }
    }
}

/// Takes so many bytes off the front.
fn take<'a>(from: &mut &'a [u8], count: usize) -> &'a [u8] {
    let (taken, rest) = from.split_at(count);
    *from = rest;
    taken
}

/// Many runs in one record, and what the wires must carry in it.
#[derive(Default)]
struct Record {
    samples: Vec<u8>,
    events: Vec<Event>,
    /// For each run its first tick, and the seed that its case is from.
    runs: Vec<(u64, u64)>,
    held: u64,
    /// How many runs had so many chips.
    chips: [usize; 9],
}

impl Record {
    fn new(cases: u64, first: u64) -> Record {
        let mut record = Record::default();
        for seed in (0..cases).map(|i| first.wrapping_add(i)) {
            record.samples.extend([3; IDLE]);
            record.add(seed, cases::bus(&mut Rng::new(seed)));
        }
        record.samples.extend([3; IDLE]);
        record
    }

    fn add(&mut self, seed: u64, case: BusCase) {
        // A run does not end with its trace: one without a trace gives the length that the whole trace needs.
        let mut bare = case.clone();
        let ticks = run(&mut bare, &mut []);
        let mut traced = case.clone();
        let mut trace = vec![0; ticks as usize];
        assert_eq!(run(&mut traced, &mut trace), ticks, "ticks with a trace and without, seed {seed}");
        assert!(traced == bare, "areas with a trace and without, seed {seed}");
        let begun = self.samples.len() as u64;
        let mut walk = Walk { tick: begun, holds: case.holds.iter(), events: Vec::new(), held: 0 };
        walk.list(&case.list, &traced.results);
        assert_eq!(walk.tick - begun, ticks, "ticks that list, results and holds ask for, seed {seed}");
        self.events.append(&mut walk.events);
        self.held += walk.held;
        self.runs.push((begun, seed));
        self.samples.append(&mut trace);
        self.chips[case.marks.count_ones() as usize] += 1;
    }

    /// Holds sigrok's words against the events, line by line and whole lines. The first difference is told.
    fn compare(&self, said: &str) -> Result<Tally, String> {
        let mut tally = Tally::default();
        let mut lines = said.lines().enumerate();
        let mut different = None;
        for event in &self.events {
            event.annotations(&mut |first, last, text| {
                let want = format!("{first}-{last} i2c-1: {text}");
                let got = lines.next();
                if different.is_none() && got.map(|(_, line)| line) != Some(want.as_str()) {
                    let (start, seed) = self.runs[self.runs.partition_point(|run| run.0 <= first) - 1];
                    let got = got.map_or("nothing more".into(), |(n, line)| format!("'{line}' in line {}", n + 1));
                    different = Some(format!("sigrok says {got}, to be '{want}': tick {} of the case of seed {seed}", first - start));
                }
            });
            if different.is_some() {
                break;
            }
            tally.count(event);
        }
        match (different, lines.next()) {
            (Some(words), _) => Err(words),
            (None, Some((n, line))) => Err(format!("sigrok says '{line}' in line {}, to be nothing more", n + 1)),
            (None, None) => Ok(tally),
        }
    }
}

/// The whole-bus run on this case, in place; its ticks.
fn run(case: &mut BusCase, trace: &mut [u8]) -> u64 {
    let c = case;
    let answer = bilvakront::bus_run(&c.list, c.marks, &mut c.memory, &mut c.states, &c.holds, c.asked, &mut c.results, trace);
    assert_eq!(answer.number, 0, "an accepted case: {c:?}");
    answer.ticks
}

/// What was compared.
#[derive(Default)]
struct Tally {
    starts: usize,
    repeated: usize,
    /// Addresses to write and to read, data written and read.
    bytes: [usize; 4],
    acks: usize,
    nacks: usize,
    stops: usize,
}

impl Tally {
    fn count(&mut self, event: &Event) {
        match *event {
            Event::Start { repeated: false, .. } => self.starts += 1,
            Event::Start { repeated: true, .. } => self.repeated += 1,
            Event::Stop { .. } => self.stops += 1,
            Event::Byte { kind, value, ninth, .. } => {
                let which = match kind {
                    Kind::Address => usize::from(value & 1),
                    Kind::Written => 2,
                    Kind::Read => 3,
                };
                self.bytes[which] += 1;
                *(if ninth == 0 { &mut self.acks } else { &mut self.nacks }) += 1;
            }
        }
    }

    fn say(&self) {
        let [to_write, to_read, written, read] = self.bytes;
        let bytes = to_write + to_read + written + read;
        println!("sigrok: {} STARTs, {} repeated STARTs, {} STOPs, no difference in any tick", self.starts, self.repeated, self.stops);
        println!("sigrok: {bytes} bytes ({to_write} addresses to write, {to_read} to read, {written} written, {read} read) of {} bits", bytes * 8);
        println!("sigrok: {} ACKs, {} NACKs", self.acks, self.nacks);
        let all = [self.starts, self.repeated, self.stops, to_write, to_read, written, read, self.acks, self.nacks];
        assert!(all.iter().all(|&n| n > 0), "the cases must be of every kind");
    }
}

/// Has sigrok decode the samples: SCL is bit 0, SDA bit 1. None if there is no sigrok.
fn decode(samples: &[u8]) -> Option<String> {
    let file = std::env::temp_dir().join(format!("bilvakront-trace-{}", std::process::id()));
    std::fs::write(&file, samples).expect("a temporary file");
    let output = Command::new("sigrok-cli")
        .arg("-i")
        .arg(&file)
        .args(["-I", "binary:numchannels=2", "-P", "i2c:scl=0:sda=1", "-A", "i2c", "--protocol-decoder-samplenum"])
        .output();
    std::fs::remove_file(&file).expect("the temporary file");
    match output {
        Ok(output) => {
            eprint!("{}", String::from_utf8_lossy(&output.stderr));
            assert!(output.status.success(), "sigrok-cli failed");
            Some(String::from_utf8(output.stdout).expect("plain text from sigrok-cli"))
        }
        Err(why) if why.kind() == std::io::ErrorKind::NotFound => None,
        Err(why) => panic!("sigrok-cli: {why}"),
    }
}

/// Spoils the right record in one way at a time: the comparison must find each.
fn self_test(record: &Record, said: &str) {
    record.compare(said).expect("the right record");
    let middle = record.events.len() / 2;
    let behind = |wanted: &dyn Fn(&Event) -> Option<u64>| record.events[middle..].iter().find_map(wanted).expect("such an event") as usize;
    let start = behind(&|e| if let Event::Start { repeated: false, tick } = e { Some(*tick) } else { None });
    let again = behind(&|e| if let Event::Start { repeated: true, tick } = e { Some(*tick) } else { None });
    let stop = behind(&|e| if let Event::Stop { tick } = e { Some(*tick) } else { None });
    let ack = behind(&|e| if let Event::Byte { ninth: 0, answered, .. } = e { Some(*answered) } else { None });
    let nack = behind(&|e| if let Event::Byte { ninth: 1, answered, .. } = e { Some(*answered) } else { None });
    let bit = behind(&|e| if let Event::Byte { kind: Kind::Read, rises, .. } = e { Some(rises[3]) } else { None });
    type Spoil<'a> = &'a dyn Fn(&mut Vec<u8>);
    let ways: [(&str, Spoil); 11] = [
        ("an ACK turned", &|r| (ack..ack + 2).for_each(|t| r[t] ^= 2)),
        ("a NACK turned", &|r| (nack..nack + 2).for_each(|t| r[t] ^= 2)),
        ("a bit of a byte read turned", &|r| (bit..bit + 2).for_each(|t| r[t] ^= 2)),
        ("a bit turned in one tick", &|r| r[bit] ^= 2),
        ("a clock that rises a tick late", &|r| r[bit] ^= 1),
        ("a clock that rises a tick early", &|r| r[bit - 1] ^= 1),
        ("a STOP a tick late", &|r| r[stop] ^= 2),
        ("a START lost", &|r| r[start] ^= 2),
        ("a repeated START lost", &|r| r[again] ^= 2),
        ("a tick too many between runs", &|r| r.insert(start - 1, 3)),
        ("a tick lost", &|r| drop(r.drain(bit + 1..bit + 2))),
    ];
    for (name, spoil) in &ways {
        let mut samples = record.samples.clone();
        spoil(&mut samples);
        let found = record.compare(&decode(&samples).expect("sigrok as before"));
        assert!(found.is_err(), "not found: {name}");
    }
    println!("sigrok: self-test: {} ways to spoil a record, each found", ways.len());
}

fn main() {
    let mut words = std::env::args().skip(1).peekable();
    let test = words.next_if(|w| w == "--self-test").is_some();
    let cases: u64 = words.next().map_or(if test { 20 } else { 550 }, |w| w.parse().expect("a number of cases"));
    let first: u64 = words.next().map_or(20_261_115, |w| w.parse().expect("a seed"));
    let record = Record::new(cases, first);
    let (ticks, held, chips) = (record.samples.len(), record.held, record.chips);
    println!("sigrok: {cases} cases from seed {first}, {ticks} ticks, {held} of them held; cases with 0 to 8 chips: {chips:?}");
    let Some(said) = decode(&record.samples) else {
        let ci = std::env::var_os("CI").is_some_and(|set| !set.is_empty());
        println!("sigrok: there is no sigrok-cli here: {}", if ci { "nothing was judged" } else { "skipped" });
        std::process::exit(ci.into());
    };
    if test {
        return self_test(&record, &said);
    }
    match record.compare(&said) {
        Ok(tally) => tally.say(),
        Err(words) => {
            println!("sigrok: DIFFERENT: {words}");
            std::process::exit(1);
        }
    }
}
