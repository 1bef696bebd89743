// A plain interpreter of crates/bench_core's two images, for bench/run: `interpreter thread N`, `interpreter handler N`
// and `interpreter waiting N`. It has the machine's instructions that need no tables, one pending interrupt, and no proofs.
use std::env;
use std::hint::black_box;
use std::mem;

#[derive(Clone, Copy)]
#[allow(dead_code)]
enum Op {
    Add,
    Sub,
    Mul,
    Rem,
    Xor,
    Shl,
}

impl Op {
    fn apply(self, a: u32, b: u32) -> u32 {
        match self {
            Op::Add => a.wrapping_add(b),
            Op::Sub => a.wrapping_sub(b),
            Op::Mul => a.wrapping_mul(b),
            Op::Rem => a.checked_rem(b).unwrap_or(a),
            Op::Xor => a ^ b,
            Op::Shl => a.checked_shl(b).unwrap_or(0),
        }
    }
}

#[derive(Clone, Copy)]
#[allow(dead_code)]
enum Instr {
    Set(u32, u32),
    Copy(u32, u32),
    Calc(Op, u32, u32, u32),
    Load(u32, u32),
    Store(u32, u32),
    Jump(u32),
    JumpZ(u32, u32),
    Emit(u32),
    Raise(u32, u32),
    Restore(u32),
    Mask(u32),
    Unmask(u32),
    Serve,
    Wait,
    Ret,
}

#[derive(Clone, Copy)]
#[allow(dead_code)]
enum What {
    Take,
    Ret,
    Emit(u32),
    Note(u32),
    Trap(u8),
}

const STACK: u8 = 2;

struct Core {
    code: Vec<(Instr, Option<u32>)>,
    slots: Vec<u32>,
    below: Vec<(u32, Vec<u32>)>,
    cells: Vec<u32>,
    address: u32,
    basepri: u32,
    primask: bool,
    ready: Option<u32>,
    running: u32,
    stopped: bool,
    steps: u64,
}

impl Core {
    fn slot(&self, slot: u32) -> Result<u32, u8> {
        self.slots.get(slot as usize).copied().ok_or(STACK)
    }

    fn set(&mut self, slot: u32, value: u32) -> Result<(), u8> {
        *self.slots.get_mut(slot as usize).ok_or(STACK)? = value;
        Ok(())
    }

    fn run(&mut self) -> Result<Option<What>, u8> {
        let &(instr, note) = self.code.get(self.address as usize).ok_or(3)?;
        let mut next = self.address + 1;
        let mut what = note.map(What::Note);
        match instr {
            Instr::Set(slot, value) => self.set(slot, value)?,
            Instr::Copy(slot, from) => self.set(slot, self.slot(from)?)?,
            Instr::Calc(op, slot, a, b) => self.set(slot, op.apply(self.slot(a)?, self.slot(b)?))?,
            Instr::Load(slot, cell) => self.set(slot, *self.cells.get(cell as usize).ok_or(1)?)?,
            Instr::Store(cell, from) => {
                let value = self.slot(from)?;
                *self.cells.get_mut(cell as usize).ok_or(1)? = value;
            }
            Instr::Jump(to) => next = to,
            Instr::JumpZ(slot, to) => next = if self.slot(slot)? == 0 { to } else { next },
            Instr::Emit(slot) => what = Some(What::Emit(self.slot(slot)?)),
            Instr::Raise(slot, value) => {
                self.set(slot, self.basepri)?;
                self.basepri = value;
            }
            Instr::Restore(slot) => self.basepri = self.slot(slot)?,
            Instr::Mask(slot) => {
                self.set(slot, u32::from(self.primask))?;
                self.primask = true;
            }
            Instr::Unmask(slot) => self.primask = self.slot(slot)? == 1,
            Instr::Serve => self.primask = false,
            Instr::Wait => next = self.address,
            Instr::Ret => {
                (next, self.slots) = self.below.pop().ok_or(STACK)?;
                self.running = 256;
                what = Some(What::Ret);
            }
        }
        self.address = next;
        Ok(what)
    }

    fn enter(&mut self, value: u32) -> Result<Option<What>, u8> {
        self.ready = None;
        let slots = mem::replace(&mut self.slots, vec![0; 4]);
        self.below.push((mem::replace(&mut self.address, 2), slots));
        self.running = value;
        Ok(Some(What::Take))
    }

    fn step(&mut self) -> Option<What> {
        self.steps += 1;
        if self.stopped {
            return None;
        }
        let base = if self.basepri == 0 { 256 } else { self.basepri };
        let mask = if self.primask { 0 } else { 256 };
        let came = match self.ready {
            Some(value) if value < self.running.min(base).min(mask) => self.enter(value),
            _ => self.run(),
        };
        came.unwrap_or_else(|trap| {
            self.stopped = true;
            Some(What::Trap(trap))
        })
    }

    /// The stack bytes in use, with 8 words of each exception entry.
    fn depth(&self) -> usize {
        4 * (self.slots.len() + self.below.iter().map(|(_, slots)| slots.len() + 8).sum::<usize>())
    }
}

const THREAD: [Instr; 5] = [
    Instr::Set(0, 1),
    Instr::Serve,
    Instr::Calc(Op::Add, 1, 1, 0),
    Instr::Calc(Op::Xor, 2, 2, 1),
    Instr::Jump(2),
];

const HANDLER: [Instr; 11] = [
    Instr::Serve,
    Instr::Wait,
    Instr::Set(0, 1),
    Instr::Calc(Op::Add, 1, 1, 0),
    Instr::Calc(Op::Mul, 2, 1, 1),
    Instr::Calc(Op::Xor, 3, 3, 2),
    Instr::Calc(Op::Shl, 2, 3, 0),
    Instr::Calc(Op::Sub, 3, 2, 3),
    Instr::Calc(Op::Rem, 2, 3, 1),
    Instr::Emit(3),
    Instr::Jump(3),
];

fn main() {
    let words: Vec<String> = env::args().skip(1).collect();
    let steps: u32 = words[1].parse().expect("a number of steps");
    let (code, ready) = match words[0].as_str() {
        "thread" => (&THREAD[..], None),
        "handler" => (&HANDLER[..], Some(16)),
        _ => (&HANDLER[..], None),
    };
    let mut core = black_box(Core {
        code: code.iter().map(|instr| (*instr, None)).collect(),
        slots: vec![0; 4],
        below: Vec::new(),
        cells: Vec::new(),
        address: 0,
        basepri: 0,
        primask: true,
        ready,
        running: 256,
        stopped: false,
        steps: 0,
    });
    let (mut items, mut values) = (0u32, 0u32);
    for _ in 0..steps {
        if let Some(what) = core.step() {
            items = items.wrapping_add(1);
            values ^= match what {
                What::Emit(value) => value,
                _ => 0,
            };
        }
    }
    println!("steps {}, items {items}, values {values}, stack {}", core.steps, core.depth());
}
