// A plain simulator of images, for bench/run: `simulator LISTING SCRIPT` writes the listing, the line
// `trace`, and the trace of the image under the script, as `rtic run` does. As bench/interpreter.rs it takes a step at
// a time, which shows an item, is silent, or traps; and it has no proofs.
use std::collections::{BTreeSet, HashMap};
use std::env;
use std::error::Error;
use std::fs;
use std::io::{self, Write};

enum Instr {
    Set(usize, u32),
    Copy(usize, usize),
    Calc(fn(u32, u32) -> u32, usize, usize, usize),
    Load(usize, usize),
    Store(usize, usize),
    LoadAt(usize, usize, usize),
    StoreAt(usize, usize, usize),
    Jump(usize),
    JumpZ(usize, usize),
    Emit(usize),
    Post(usize),
    Clock(usize),
    // the slot of the instant, and the interrupt of the timer
    Alarm(usize, usize),
    NoAlarm,
    Raise(usize, u32),
    Restore(usize),
    Mask(usize),
    Unmask(usize),
    Mark,
    Serve,
    Wait,
    Call(usize, usize),
    Back,
    Ret,
}

// A section, a task or a body by its place among the names; the cell of a resource; the first slot of arguments, and
// how many there are.
#[derive(Clone, Copy)]
enum Note {
    Leave(usize, Option<usize>),
    Start(usize, usize, usize),
    // the slots of the numbers that it shows: an instant, a handle, or both
    Timed(&'static str, usize, [usize; 2], usize),
    // any other, which shows its verb and its name
    Plain(&'static str, usize),
}

#[derive(Clone, Copy)]
pub enum What {
    Take(usize, usize),
    Ret(usize),
    Emit(u32),
    Post(usize),
    Clock(u32),
    Leave(usize, Option<u32>),
    Start(usize, [u32; 4], usize),
    Timed(&'static str, usize, [u32; 2], usize),
    Alarm,
    Set,
    Plain(&'static str, usize),
    Trap(u8),
}

const CELL: u8 = 1;
const STACK: u8 = 2;
const JUMP: u8 = 3;

const BASIC_FRAME_WORDS: usize = 8;
const EXTENDED_FRAME_WORDS: usize = 26;

pub struct Irq {
    pub name: String,
    pub number: u16,
    // its priority value, entry and frame
    handler: Option<(u32, usize, usize)>,
}

// The body of a software task.
struct Body {
    entry: usize,
    frame: usize,
    args: usize,
}

pub struct Image {
    thread_words: usize,
    cells: Vec<(u32, String)>,
    pub irqs: Vec<Irq>,
    bodies: Vec<Body>,
    code: Vec<(Instr, Option<Note>)>,
    names: Vec<String>,
    stack_words: usize,
    // what exception entry pushes
    entry_words: usize,
}

fn operation(word: &str) -> Option<fn(u32, u32) -> u32> {
    Some(match word {
        "add" => u32::wrapping_add,
        "sub" => u32::wrapping_sub,
        "mul" => u32::wrapping_mul,
        "div" => |a, b| a.checked_div(b).unwrap_or(0),
        "rem" => |a, b| a.checked_rem(b).unwrap_or(a),
        "and" => |a, b| a & b,
        "or" => |a, b| a | b,
        "xor" => |a, b| a ^ b,
        "shl" => |a, b| a.checked_shl(b).unwrap_or(0),
        "shr" => |a, b| a.checked_shr(b).unwrap_or(0),
        "eq" => |a, b| (a == b).into(),
        "ne" => |a, b| (a != b).into(),
        "lt" => |a, b| (a < b).into(),
        "le" => |a, b| (a <= b).into(),
        "gt" => |a, b| (a > b).into(),
        "ge" => |a, b| (a >= b).into(),
        _ => return None,
    })
}

fn instr(words: &[&str], irqs: &HashMap<String, usize>) -> Result<Instr, Box<dyn Error>> {
    let number = |place: usize| words[place].parse::<u32>();
    let place = |place: usize| words[place].parse::<usize>();
    if let Some(apply) = operation(words[0]) {
        return Ok(Instr::Calc(apply, place(1)?, place(2)?, place(3)?));
    }
    Ok(match words[0] {
        "set" => Instr::Set(place(1)?, number(2)?),
        "copy" => Instr::Copy(place(1)?, place(2)?),
        "load" => Instr::Load(place(1)?, place(2)?),
        "store" => Instr::Store(place(1)?, place(2)?),
        "loadat" => Instr::LoadAt(place(1)?, place(2)?, place(3)?),
        "storeat" => Instr::StoreAt(place(1)?, place(2)?, place(3)?),
        "jump" => Instr::Jump(place(1)?),
        "jumpz" => Instr::JumpZ(place(1)?, place(2)?),
        "emit" => Instr::Emit(place(1)?),
        "post" => Instr::Post(irqs[words[1]]),
        "clock" => Instr::Clock(place(1)?),
        "alarm" => Instr::Alarm(place(1)?, irqs[words[2]]),
        "noalarm" => Instr::NoAlarm,
        "raise" => Instr::Raise(place(1)?, number(2)?),
        "restore" => Instr::Restore(place(1)?),
        "mask" => Instr::Mask(place(1)?),
        "unmask" => Instr::Unmask(place(1)?),
        "mark" => Instr::Mark,
        "serve" => Instr::Serve,
        "wait" => Instr::Wait,
        "call" => Instr::Call(place(1)?, place(2)?),
        "back" => Instr::Back,
        "ret" => Instr::Ret,
        other => return Err(format!("no instruction {other}").into()),
    })
}

// What a note says, by the numbers of declared cells and of the arguments of tasks.
fn note(
    told: &str,
    names: &mut Vec<String>,
    cells: &HashMap<String, usize>,
    args: &HashMap<String, usize>,
) -> Result<Note, Box<dyn Error>> {
    let words: Vec<&str> = told.split(' ').collect();
    let name = names.len();
    names.push(words[1].to_string());
    let verb = words[0];
    Ok(match verb {
        "leave" => Note::Leave(name, cells.get(words[1]).copied()),
        "start" => Note::Start(name, words[2].parse()?, args[words[1]]),
        "arm" => Note::Timed("arm", name, [words[2].parse()?, 0], 1),
        "cancel" => Note::Timed("cancel", name, [words[2].parse()?, 0], 1),
        "move" => Note::Timed("move", name, [words[2].parse()?, words[3].parse()?], 2),
        _ => {
            let verbs = ["enter", "ok", "full", "ready", "free", "fire", "end"];
            let known = verbs.iter().copied().find(|known| *known == verb);
            Note::Plain(known.ok_or(format!("no note {verb}"))?, name)
        }
    })
}

pub fn read_image(text: &str) -> Result<Image, Box<dyn Error>> {
    let mut image = Image {
        thread_words: 0,
        cells: Vec::new(),
        irqs: Vec::new(),
        bodies: Vec::new(),
        code: Vec::new(),
        names: Vec::new(),
        stack_words: 0,
        entry_words: 0,
    };
    let mut numbers = HashMap::new();
    let mut cells = HashMap::new();
    let mut args = HashMap::new();
    for line in text.lines() {
        let (line, told) = match line.split_once(" ; ") {
            Some((line, told)) => (line, Some(told)),
            None => (line, None),
        };
        let words: Vec<&str> = line.split(' ').collect();
        match words[0] {
            "image" => {
                image.entry_words = if words[1] == "2" { EXTENDED_FRAME_WORDS } else { BASIC_FRAME_WORDS };
                image.stack_words = words[3].parse::<usize>()? / 4;
                image.thread_words = words[4].parse()?;
            }
            "cell" => {
                cells.insert(words[3].to_string(), image.cells.len());
                image.cells.push((words[2].parse()?, words[3].to_string()));
            }
            "irq" => {
                numbers.insert(words[1].to_string(), image.irqs.len());
                let handler = match words.len() {
                    4 => None,
                    _ => Some((words[3].parse()?, words[4].parse()?, words[5].parse()?)),
                };
                image.irqs.push(Irq { name: words[1].to_string(), number: words[2].parse()?, handler });
            }
            "body" => {
                let body = Body { entry: words[2].parse()?, frame: words[3].parse()?, args: words[4].parse()? };
                args.insert(words[1].to_string(), body.args);
                image.bodies.push(body);
            }
            "code" => {
                let note = told.map(|told| note(told, &mut image.names, &cells, &args)).transpose()?;
                image.code.push((instr(&words[2..], &numbers)?, note));
            }
            other => return Err(format!("no line {other}").into()),
        }
    }
    Ok(image)
}

// What an exception entry saves.
struct Context {
    address: usize,
    frame: usize,
    irq: Option<usize>,
    caller: Option<usize>,
}

pub struct Core<'a> {
    pub image: &'a Image,
    cells: Vec<u32>,
    stack: Vec<u32>,
    frame: usize,
    contexts: Vec<Context>,
    running: Option<usize>,
    // while a body runs that a handler called, the words of the handler's frame
    caller: Option<usize>,
    // those that are enabled and pending, by priority value and number, with their row
    ready: BTreeSet<(u32, u16, usize)>,
    address: usize,
    basepri: u32,
    primask: bool,
    time: u32,
    // an instant, and the interrupt that it pends
    alarm: Option<(u32, usize)>,
    pub steps: u64,
    stopped: bool,
}

impl<'a> Core<'a> {
    pub fn new(image: &'a Image) -> Core<'a> {
        Core {
            image,
            cells: image.cells.iter().map(|cell| cell.0).collect(),
            stack: vec![0; image.thread_words],
            frame: image.thread_words,
            contexts: Vec::new(),
            running: None,
            caller: None,
            ready: BTreeSet::new(),
            address: 0,
            basepri: 0,
            primask: true,
            time: 0,
            alarm: None,
            steps: 0,
            stopped: false,
        }
    }

    pub fn pend(&mut self, irq: usize) {
        let row = &self.image.irqs[irq];
        if let Some((value, _, _)) = row.handler {
            self.ready.insert((value, row.number, irq));
        }
    }

    // Time goes on. Whether the alarm came.
    pub fn tick(&mut self) -> bool {
        self.time += 1;
        match self.alarm {
            Some((instant, irq)) if instant <= self.time => {
                self.alarm = None;
                self.pend(irq);
                true
            }
            _ => false,
        }
    }

    // Sets the alarm to an instant, at which it comes at once where that has come.
    fn set_alarm(&mut self, instant: u32, irq: usize) -> What {
        if instant <= self.time {
            self.alarm = None;
            self.pend(irq);
            return What::Alarm;
        }
        self.alarm = Some((instant, irq));
        What::Set
    }

    // The execution priority, 256 where nothing runs or masks.
    fn execution(&self) -> u32 {
        let own = match self.running {
            Some(irq) => self.image.irqs[irq].handler.map_or(256, |handler| handler.0),
            None => 256,
        };
        let masked = if self.primask { 0 } else { 256 };
        let based = if self.basepri == 0 { 256 } else { self.basepri };
        own.min(masked).min(based)
    }

    fn slot(&self, slot: usize) -> Result<u32, u8> {
        if slot >= self.frame {
            return Err(STACK);
        }
        Ok(self.stack[self.stack.len() - self.frame + slot])
    }

    fn set(&mut self, slot: usize, value: u32) -> Result<(), u8> {
        if slot >= self.frame {
            return Err(STACK);
        }
        let base = self.stack.len() - self.frame;
        self.stack[base + slot] = value;
        Ok(())
    }

    fn enter(&mut self, irq: usize) -> Result<Option<What>, u8> {
        let (value, entry, frame) = self.image.irqs[irq].handler.ok_or(JUMP)?;
        if self.stack.len() + self.image.entry_words + frame > self.image.stack_words {
            return Err(STACK);
        }
        self.ready.remove(&(value, self.image.irqs[irq].number, irq));
        let caller = self.caller.take();
        self.contexts.push(Context { address: self.address, frame: self.frame, irq: self.running, caller });
        self.stack.resize(self.stack.len() + self.image.entry_words + frame, 0);
        (self.address, self.frame, self.running) = (entry, frame, Some(irq));
        Ok(Some(What::Take(irq, self.stack.len() * 4)))
    }

    fn leave(&mut self) -> Result<What, u8> {
        if self.caller.is_some() {
            return Err(STACK);
        }
        let irq = self.running.ok_or(STACK)?;
        let context = self.contexts.pop().ok_or(STACK)?;
        self.stack.truncate(self.stack.len() - self.frame - self.image.entry_words);
        (self.address, self.frame, self.running) = (context.address, context.frame, context.irq);
        self.caller = context.caller;
        Ok(What::Ret(irq))
    }

    // Calls a body from the handler that runs, with arguments from a slot on. The handler's last slot has the address
    // to come back to.
    fn call(&mut self, row: usize, from: usize) -> Result<usize, u8> {
        if self.running.is_none() || self.caller.is_some() || self.frame == 0 {
            return Err(STACK);
        }
        let body = self.image.bodies.get(row).ok_or(JUMP)?;
        let top = self.stack.len();
        let fits = top + body.frame <= self.image.stack_words;
        if !fits || from + body.args > self.frame || body.args > body.frame {
            return Err(STACK);
        }
        self.set(self.frame - 1, (self.address + 1) as u32)?;
        let first = top - self.frame + from;
        self.stack.resize(top + body.frame, 0);
        self.stack.copy_within(first..first + body.args, top);
        self.caller = Some(self.frame);
        self.frame = body.frame;
        Ok(body.entry)
    }

    // From a called body back to where its handler goes on.
    fn back(&mut self) -> Result<usize, u8> {
        let frame = self.caller.take().ok_or(STACK)?;
        self.stack.truncate(self.stack.len() - self.frame);
        self.frame = frame;
        Ok(self.slot(frame - 1)? as usize)
    }

    fn execute(&mut self) -> Result<Option<What>, u8> {
        let (instr, note) = self.image.code.get(self.address).ok_or(JUMP)?;
        let mut next = self.address + 1;
        let mut what = None;
        match *instr {
            Instr::Set(slot, value) => self.set(slot, value)?,
            Instr::Copy(slot, from) => self.set(slot, self.slot(from)?)?,
            Instr::Calc(apply, slot, a, b) => self.set(slot, apply(self.slot(a)?, self.slot(b)?))?,
            Instr::Load(slot, cell) => self.set(slot, *self.cells.get(cell).ok_or(CELL)?)?,
            Instr::Store(cell, from) => {
                let value = self.slot(from)?;
                *self.cells.get_mut(cell).ok_or(CELL)? = value;
            }
            Instr::LoadAt(slot, cell, index) => {
                let cell = cell + self.slot(index)? as usize;
                self.set(slot, *self.cells.get(cell).ok_or(CELL)?)?;
            }
            Instr::StoreAt(cell, index, from) => {
                let cell = cell + self.slot(index)? as usize;
                let value = self.slot(from)?;
                *self.cells.get_mut(cell).ok_or(CELL)? = value;
            }
            Instr::Jump(to) => next = to,
            Instr::JumpZ(slot, to) => next = if self.slot(slot)? == 0 { to } else { next },
            Instr::Mark => {}
            Instr::Emit(slot) => what = Some(What::Emit(self.slot(slot)?)),
            Instr::Post(irq) => {
                self.pend(irq);
                what = Some(What::Post(irq));
            }
            Instr::Clock(slot) => {
                self.set(slot, self.time)?;
                what = Some(What::Clock(self.time));
            }
            Instr::Alarm(slot, irq) => what = Some(self.set_alarm(self.slot(slot)?, irq)),
            Instr::NoAlarm => {
                self.alarm = None;
                what = Some(What::Set);
            }
            Instr::Raise(slot, value) => {
                self.set(slot, self.basepri)?;
                self.basepri = value;
            }
            Instr::Restore(slot) => self.basepri = self.slot(slot)?,
            Instr::Mask(slot) => {
                self.set(slot, self.primask.into())?;
                self.primask = true;
            }
            Instr::Unmask(slot) => self.primask = self.slot(slot)? == 1,
            Instr::Serve => self.primask = false,
            Instr::Wait => next = self.address,
            Instr::Call(row, from) => next = self.call(row, from)?,
            Instr::Back => next = self.back()?,
            Instr::Ret => return self.leave().map(Some),
        }
        self.address = next;
        match (what, note) {
            (None, Some(note)) => self.noted(*note).map(Some),
            _ => Ok(what),
        }
    }

    fn noted(&self, note: Note) -> Result<What, u8> {
        Ok(match note {
            Note::Leave(section, cell) => What::Leave(section, cell.map(|cell| self.cells[cell])),
            Note::Start(task, from, count) => {
                let mut values = [0; 4];
                for (place, value) in values.iter_mut().enumerate().take(count) {
                    *value = self.slot(from + place)?;
                }
                What::Start(task, values, count)
            }
            Note::Timed(verb, task, slots, count) => {
                let mut values = [0; 2];
                for (value, slot) in values.iter_mut().zip(slots).take(count) {
                    *value = self.slot(slot)?;
                }
                What::Timed(verb, task, values, count)
            }
            Note::Plain(verb, name) => What::Plain(verb, name),
        })
    }

    // One core step; after a trap every step is silent.
    pub fn step(&mut self) -> Option<What> {
        self.steps += 1;
        if self.stopped {
            return None;
        }
        let done = match self.ready.first() {
            Some(&(value, _, irq)) if value < self.execution() => self.enter(irq),
            _ => self.execute(),
        };
        done.unwrap_or_else(|trap| {
            self.stopped = true;
            Some(What::Trap(trap))
        })
    }
}

pub fn write_item(out: &mut Vec<u8>, image: &Image, step: u64, what: What) -> io::Result<()> {
    let irq = |irq: usize| &image.irqs[irq].name;
    match what {
        What::Take(number, depth) => writeln!(out, "{step} take {} {depth}", irq(number)),
        What::Ret(number) => writeln!(out, "{step} ret {}", irq(number)),
        What::Emit(value) => writeln!(out, "{step} emit {value}"),
        What::Post(number) => writeln!(out, "{step} post {}", irq(number)),
        What::Clock(time) => writeln!(out, "{step} clock {time}"),
        What::Leave(section, None) => writeln!(out, "{step} leave {}", image.names[section]),
        What::Leave(section, Some(value)) => writeln!(out, "{step} leave {} {value}", image.names[section]),
        What::Start(task, values, count) => {
            write!(out, "{step} start {}", image.names[task])?;
            for value in &values[..count] {
                write!(out, " {value}")?;
            }
            writeln!(out)
        }
        What::Timed(verb, task, values, count) => {
            write!(out, "{step} {verb} {}", image.names[task])?;
            for value in &values[..count] {
                write!(out, " {value}")?;
            }
            writeln!(out)
        }
        What::Alarm => writeln!(out, "{step} alarm"),
        What::Set => writeln!(out, "{step} set"),
        What::Plain(verb, name) => writeln!(out, "{step} {verb} {}", image.names[name]),
        What::Trap(trap) => writeln!(out, "{step} trap {trap}"),
    }
}

fn main() -> Result<(), Box<dyn Error>> {
    let words: Vec<String> = env::args().collect();
    let listing = fs::read_to_string(&words[1])?;
    let script = fs::read_to_string(&words[2])?;
    let image = read_image(&listing)?;
    let names: HashMap<&str, usize> = image.irqs.iter().enumerate().map(|(i, irq)| (irq.name.as_str(), i)).collect();
    let mut core = Core::new(&image);
    let mut out = Vec::new();
    for line in script.lines().filter(|line| !line.is_empty() && !line.starts_with('#')) {
        let words: Vec<&str> = line.split(' ').collect();
        match words[0] {
            "step" => {
                for _ in 0..words[1].parse::<u32>()? {
                    let before = core.steps;
                    if let Some(what) = core.step() {
                        write_item(&mut out, &image, before, what)?;
                    }
                }
            }
            "tick" => {
                for _ in 0..words[1].parse::<u32>()? {
                    let came = core.tick();
                    writeln!(out, "{} tick", core.steps)?;
                    if came {
                        writeln!(out, "{} alarm", core.steps)?;
                    }
                }
            }
            _ => {
                let irq = names[words[1]];
                for _ in 0..words.get(2).map_or(Ok(1), |count| count.parse::<u32>())? {
                    core.pend(irq);
                    writeln!(out, "{} pend {}", core.steps, words[1])?;
                }
            }
        }
    }
    writeln!(out, "total {}", core.steps)?;
    let mut stdout = io::stdout().lock();
    stdout.write_all(listing.as_bytes())?;
    stdout.write_all(b"trace\n")?;
    stdout.write_all(&out)?;
    Ok(())
}
