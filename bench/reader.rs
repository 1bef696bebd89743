// A plain reader of traces, for bench/run: `reader TRACE` reads the items of a trace into memory, and writes how many
// there are and the sum of their numbers. `rtic audit` keeps none: it judges each line as it reads it.
use std::collections::HashMap;
use std::env;
use std::error::Error;
use std::fs;

#[derive(Debug)]
enum What {
    Pend(usize),
    Post(usize),
    Ret(usize),
    Take(usize, u32),
    Emit(u32),
    Clock(u32),
    Enter(usize),
    Leave(usize, Option<u32>),
    Other(usize, Option<u32>),
}

struct Item {
    step: u64,
    what: What,
}

// The number of a name, by the order in which names come.
fn number<'a>(names: &mut HashMap<&'a str, usize>, name: &'a str) -> usize {
    let next = names.len();
    *names.entry(name).or_insert(next)
}

fn read<'a>(line: &'a str, names: &mut HashMap<&'a str, usize>) -> Result<Item, Box<dyn Error>> {
    let mut words = line.split(' ');
    let step = words.next().ok_or("no number")?.parse()?;
    let verb = words.next().ok_or("no verb")?;
    let first = words.next();
    let second = words.next().map(str::parse).transpose()?;
    let what = match (verb, first) {
        ("pend", Some(name)) => What::Pend(number(names, name)),
        ("post", Some(name)) => What::Post(number(names, name)),
        ("ret", Some(name)) => What::Ret(number(names, name)),
        ("take", Some(name)) => What::Take(number(names, name), second.ok_or("no depth")?),
        ("emit", Some(value)) => What::Emit(value.parse()?),
        ("clock", Some(value)) => What::Clock(value.parse()?),
        ("enter", Some(name)) => What::Enter(number(names, name)),
        ("leave", Some(name)) => What::Leave(number(names, name), second),
        (_, name) => What::Other(number(names, name.unwrap_or(verb)), second),
    };
    Ok(Item { step, what })
}

fn weight(item: &Item) -> u64 {
    let told = match item.what {
        What::Pend(irq) | What::Post(irq) | What::Ret(irq) | What::Enter(irq) => irq as u64,
        What::Take(irq, depth) => irq as u64 + u64::from(depth),
        What::Emit(value) | What::Clock(value) => u64::from(value),
        What::Leave(name, value) | What::Other(name, value) => name as u64 + u64::from(value.unwrap_or(0)),
    };
    item.step.wrapping_add(told)
}

fn main() -> Result<(), Box<dyn Error>> {
    let file = env::args().nth(1).ok_or("usage: reader TRACE")?;
    let text = fs::read_to_string(file)?;
    let mut names = HashMap::new();
    let mut items = Vec::new();
    let rows = text.lines().skip_while(|line| !line.starts_with(|c: char| c.is_ascii_digit()));
    for line in rows.take_while(|line| !line.starts_with("total")) {
        items.push(read(line, &mut names)?);
    }
    let sum = items.iter().fold(0u64, |sum, item| sum.wrapping_add(weight(item)));
    println!("{} {}", items.len(), sum);
    Ok(())
}
