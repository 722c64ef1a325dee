// The loop of loop.s on the plain machine, beside the crate part_bench.
#[path = "../machine.rs"]
#[allow(dead_code)]
mod machine;

use machine::{Hart, PAGE, Ram, StepEnd};
use std::env;

const CODE: [u32; 12] = [
    0x01570733, 0x01677733, 0x00ea02b3, 0x0002b403, 0x008383b3, 0x0063c3b3, 0x0072b023, 0x0073d493, 0x00950533, 0xfff30313,
    0xfc031ce3, 0x00000073,
];

fn main() {
    let mut words = env::args().skip(1).map(|word| word.parse::<u64>().expect("a number"));
    let (turns, pages) = (words.next().expect("turns"), words.next().expect("pages"));
    let mut ram = Ram::new();
    ram.map_zero(0x1_0000, 1 + pages);
    for (at, word) in (0x1_0000..).step_by(4).zip(CODE) {
        ram.store(at, 4, word.into());
    }
    let mut hart = Hart { x: [0; 32], pc: 0x1_0000, ram };
    (hart.x[6], hart.x[20], hart.x[21], hart.x[22]) = (turns, 0x1_1000, 4_104, (pages * PAGE).saturating_sub(8));
    let mut steps = 0u64;
    while let StepEnd::Done = hart.step() {
        steps += 1;
    }
    println!("steps {steps} sum {}", hart.x[10]);
}
