// Plain peers of `rtic live` and `rtic soak`, for bench/run:
//
//     beside live LISTING SCRIPT
//     beside soak LISTING NUMBER COUNT WORKERS
//
// The first writes what `live` does: the listing, the line `trace`, the trace of the image beside a thread for each
// device, a write for each event, and the account. The second writes what `soak` does. They share the core of the plain
// simulator, and have no proofs.
#[path = "simulator.rs"]
#[allow(dead_code)]
mod simulator;

use simulator::{read_image, write_item, Core, Image, What};
use std::collections::HashMap;
use std::env;
use std::error::Error;
use std::fs;
use std::io::{self, Write};
use std::sync::atomic::{AtomicU64, Ordering};
use std::thread;

const WORDS: usize = 16;
const WORD_BITS: usize = 32;
const INTERRUPTS: usize = WORDS * WORD_BITS;

type Failed = Box<dyn Error + Send + Sync>;

// The pending words, which all threads share.
type Words = [AtomicU64; WORDS];

// How often each interrupt was raised, and how often a pend was merged into one.
struct Tally {
    raised: Vec<u64>,
    merged: Vec<u64>,
}

// A device: the interrupts that it pends, and how often each.
type Device = Vec<(usize, u32)>;

fn work(words: &Words, device: &Device) -> Tally {
    let mut tally = Tally { raised: vec![0; INTERRUPTS], merged: vec![0; INTERRUPTS] };
    for &(number, count) in device {
        let bit = 1 << (number % WORD_BITS);
        for _ in 0..count {
            let before = words[number / WORD_BITS].fetch_or(bit, Ordering::AcqRel);
            let counts = if before & bit == 0 { &mut tally.raised } else { &mut tally.merged };
            counts[number] += 1;
        }
    }
    tally
}

enum Line {
    Steps(u32),
    Ticks(u32),
    Pends(usize, u32),
}

fn read_script(text: &str, names: &HashMap<&str, usize>, image: &Image) -> Result<(Vec<Line>, Vec<Device>), Failed> {
    let mut lines = Vec::new();
    let mut devices: Vec<Device> = Vec::new();
    for line in text.lines().filter(|line| !line.is_empty() && !line.starts_with('#')) {
        let words: Vec<&str> = line.split(' ').collect();
        let count = |place: usize| words.get(place).map_or(Ok(1), |count| count.parse::<u32>());
        match words[0] {
            "step" => lines.push(Line::Steps(count(1)?)),
            "tick" => lines.push(Line::Ticks(count(1)?)),
            "pend" => lines.push(Line::Pends(names[words[1]], count(2)?)),
            _ => {
                let device = words[1].parse::<usize>()?;
                devices.resize_with(devices.len().max(device + 1), Vec::new);
                devices[device].push((image.irqs[names[words[3]]].number.into(), count(4)?));
            }
        }
    }
    Ok((lines, devices))
}

// The core's side: the core, the words that it looks at, and where it writes.
struct Side<'a, W> {
    core: Core<'a>,
    words: &'a Words,
    rows: HashMap<usize, usize>,
    latched: Vec<u64>,
    out: W,
    text: Vec<u8>,
}

impl<W: Write> Side<'_, W> {
    fn send(&mut self) -> io::Result<()> {
        self.out.write_all(&self.text)?;
        self.text.clear();
        Ok(())
    }

    fn pend(&mut self, row: usize) -> io::Result<()> {
        self.core.pend(row);
        writeln!(self.text, "{} pend {}", self.core.steps, self.core.image.irqs[row].name)?;
        self.send()
    }

    // Takes the bits of all words, from word 0 up; the interrupts arrive in order.
    fn look(&mut self) -> io::Result<()> {
        for word in 0..WORDS {
            let mut found = self.words[word].fetch_and(0, Ordering::AcqRel);
            while found != 0 {
                let number = word * WORD_BITS + found.trailing_zeros() as usize;
                found &= found - 1;
                self.latched[number] += 1;
                self.pend(self.rows[&number])?;
            }
        }
        Ok(())
    }

    fn step(&mut self) -> io::Result<()> {
        self.look()?;
        let before = self.core.steps;
        match self.core.step() {
            Some(what) => {
                write_item(&mut self.text, self.core.image, before, what)?;
                self.send()
            }
            None => Ok(()),
        }
    }

    fn tick(&mut self) -> io::Result<()> {
        let came = self.core.tick();
        writeln!(self.text, "{} tick", self.core.steps)?;
        if came {
            writeln!(self.text, "{} alarm", self.core.steps)?;
        }
        self.send()
    }

    fn line(&mut self, line: &Line) -> io::Result<()> {
        match *line {
            Line::Steps(count) => (0..count).try_for_each(|_| self.step()),
            Line::Ticks(count) => (0..count).try_for_each(|_| self.tick()),
            Line::Pends(row, count) => (0..count).try_for_each(|_| self.pend(row)),
        }
    }
}

fn live(listing: &str, script: &str) -> Result<(), Failed> {
    let image = read_image(listing).map_err(|error| error.to_string())?;
    let names: HashMap<&str, usize> = image.irqs.iter().enumerate().map(|(i, irq)| (irq.name.as_str(), i)).collect();
    let rows = image.irqs.iter().enumerate().map(|(i, irq)| (irq.number.into(), i)).collect();
    let (lines, devices) = read_script(script, &names, &image)?;
    let words: Words = [const { AtomicU64::new(0) }; WORDS];
    let mut out = io::stdout().lock();
    out.write_all(listing.as_bytes())?;
    out.write_all(b"trace\n")?;
    let latched = vec![0; INTERRUPTS];
    let mut side = Side { core: Core::new(&image), words: &words, rows, latched, out, text: Vec::new() };
    let tallies: Vec<Tally> = thread::scope(|scope| -> Result<_, Failed> {
        let words = &words;
        let threads: Vec<_> = devices.iter().map(|device| scope.spawn(move || work(words, device))).collect();
        lines.iter().try_for_each(|line| side.line(line))?;
        threads.into_iter().map(|thread| thread.join().map_err(|_| "a device failed".into())).collect()
    })?;
    // what the devices left, and as many steps again
    side.look()?;
    for line in &lines {
        if let Line::Steps(_) = line {
            side.line(line)?;
        }
    }
    writeln!(side.text, "total {}", side.core.steps)?;
    for irq in &image.irqs {
        let number = usize::from(irq.number);
        let raised: u64 = tallies.iter().map(|tally| tally.raised[number]).sum();
        let merged: u64 = tallies.iter().map(|tally| tally.merged[number]).sum();
        let left = words[number / WORD_BITS].load(Ordering::Acquire) >> (number % WORD_BITS) & 1;
        writeln!(side.text, "account {} {raised} {merged} {} {left}", irq.name, side.latched[number])?;
    }
    side.send()?;
    Ok(())
}

// O'Neill's PCG XSH RR 64/32.
struct Generator {
    state: u64,
    increment: u64,
}

impl Generator {
    fn of(number: u64, stream: u64) -> Generator {
        let increment = (stream << 1) | 1;
        let mut generator = Generator { state: number.wrapping_add(increment), increment };
        generator.advance();
        generator
    }

    fn advance(&mut self) {
        self.state = self.state.wrapping_mul(6_364_136_223_846_793_005).wrapping_add(self.increment);
    }

    fn next(&mut self) -> u32 {
        let state = self.state;
        self.advance();
        ((((state >> 18) ^ state) >> 27) as u32).rotate_right((state >> 59) as u32)
    }
}

#[derive(Default)]
struct Summary {
    takes: u64,
    emits: u64,
    full: u64,
    sum: u64,
    depth: u64,
}

impl Summary {
    fn count(&mut self, what: What) {
        match what {
            What::Take(_, depth) => {
                self.takes += 1;
                self.depth = self.depth.max(depth as u64);
            }
            What::Emit(value) => {
                self.emits += 1;
                self.sum = self.sum.wrapping_add(value.into());
            }
            What::Plain("full", _) => self.full += 1,
            _ => {}
        }
    }

    fn join(&mut self, other: &Summary) {
        self.takes += other.takes;
        self.emits += other.emits;
        self.full += other.full;
        self.sum = self.sum.wrapping_add(other.sum);
        self.depth = self.depth.max(other.depth);
    }
}

// The run of a number and a stream, under a script of 200 lines.
fn run(image: &Image, number: u64, stream: u64, summary: &mut Summary) {
    let mut core = Core::new(image);
    let mut generator = Generator::of(number, stream);
    for _ in 0..200 {
        let word = generator.next();
        let rest = (word / 8) as usize;
        match word % 8 {
            0..=4 => {
                for _ in 0..1 + rest % 64 {
                    if let Some(what) = core.step() {
                        summary.count(what);
                    }
                }
            }
            5 => {
                for _ in 0..1 + rest % 16 {
                    core.tick();
                }
            }
            _ if image.irqs.is_empty() => {
                core.tick();
            }
            _ => core.pend(rest % image.irqs.len()),
        }
    }
}

fn soak(listing: &str, number: u64, count: u64, workers: u64) -> Result<(), Failed> {
    let image = read_image(listing).map_err(|error| error.to_string())?;
    let mut all = Summary::default();
    let parts: Vec<Summary> = thread::scope(|scope| {
        let image = &image;
        let worker = move |first: u64| {
            let mut summary = Summary::default();
            (first..count).step_by(workers as usize).for_each(|stream| run(image, number, stream, &mut summary));
            summary
        };
        let threads: Vec<_> = (0..workers).map(|first| scope.spawn(move || worker(first))).collect();
        let parts = threads.into_iter().map(|thread| thread.join().map_err(|_| "a worker failed".into()));
        parts.collect::<Result<_, Failed>>()
    })?;
    parts.iter().for_each(|part| all.join(part));
    let Summary { takes, emits, full, sum, depth } = all;
    println!("runs {count}\ntakes {takes}\nemits {emits}\nfull {full}\nsum {sum}\ndepth {depth}");
    Ok(())
}

fn main() -> Result<(), Failed> {
    let words: Vec<String> = env::args().collect();
    let listing = fs::read_to_string(&words[2])?;
    match words[1].as_str() {
        "live" => live(&listing, &fs::read_to_string(&words[3])?),
        _ => soak(&listing, words[3].parse()?, words[4].parse()?, words[5].parse()?),
    }
}
