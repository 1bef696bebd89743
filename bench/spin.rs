// The steps of crates/bench_core's two images as plain Rust, for bench/run: `spin thread N`, `spin handler N` and `spin
// waiting N`. A step is one instruction of the image; the first of `handler` are the end of the thread's code, the entry
// and the handler's first. One that waits is counted, and does nothing.
use std::env;
use std::hint::black_box;

/// What was shown: how many items, and the values that were emitted, by exclusive or.
struct Shown {
    items: u32,
    values: u32,
}

fn thread(steps: u32) -> Shown {
    let (mut sum, mut mixed) = (0u32, 0u32);
    let mut left = steps.saturating_sub(2);
    'steps: loop {
        for step in 0..3 {
            if left == 0 {
                break 'steps;
            }
            left -= 1;
            match step {
                0 => sum = black_box(sum.wrapping_add(1)),
                1 => mixed = black_box(mixed ^ sum),
                _ => {}
            }
        }
    }
    black_box((sum, mixed));
    Shown { items: 0, values: 0 }
}

fn handler(steps: u32) -> Shown {
    let mut shown = Shown { items: u32::from(steps > 1), values: 0 };
    let (mut count, mut number, mut mixed) = (0u32, 0u32, 0u32);
    let mut left = steps.saturating_sub(3);
    'steps: loop {
        for step in 0..8 {
            if left == 0 {
                break 'steps;
            }
            left -= 1;
            match step {
                0 => count = black_box(count.wrapping_add(1)),
                1 => number = black_box(count.wrapping_mul(count)),
                2 => mixed = black_box(mixed ^ number),
                3 => number = black_box(mixed << 1),
                4 => mixed = black_box(number.wrapping_sub(mixed)),
                5 => number = black_box(if count == 0 { mixed } else { mixed % count }),
                6 => {
                    shown.items += 1;
                    shown.values ^= mixed;
                }
                _ => {}
            }
        }
    }
    black_box(number);
    shown
}

fn waiting(steps: u32) -> Shown {
    for step in 0..steps {
        black_box(step);
    }
    Shown { items: 0, values: 0 }
}

fn main() {
    let words: Vec<String> = env::args().skip(1).collect();
    let steps: u32 = words[1].parse().expect("a number of steps");
    let (shown, stack) = match words[0].as_str() {
        "thread" => (thread(steps), 16),
        "handler" => (handler(steps), 64),
        _ => (waiting(steps), 16),
    };
    println!("steps {steps}, items {}, values {}, stack {stack}", shown.items, shown.values);
}
