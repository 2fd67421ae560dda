//! The yardstick of core.py: a plain pipelined core, fired as crates/lb_core_bench fires the proved one. core TURNS
// (machine.rs uses more of both)
#[allow(dead_code)]
mod pipeline;
#[allow(dead_code)]
mod rv32;

use pipeline::{Core, Kind};

fn main() {
    let turns: u32 = std::env::args()
        .nth(1)
        .and_then(|word| word.parse().ok())
        .unwrap_or(600);
    let code = [
        0x00001137, 0x00108093, 0x00112023, 0x00012183, 0x003201B3, 0x00118213, 0xFE0096E3,
        0x00100073,
    ];
    let kinds = [
        Kind::Fetch,
        Kind::Decode,
        Kind::Execute,
        Kind::Ram,
        Kind::Mmio,
        Kind::Writeback,
    ];
    let mut core = Core::boot(&code, 0);
    let mut steps = 0u64;
    for turn in 0..turns {
        let kind = kinds[(turn % 6) as usize];
        if core.enabled(kind) {
            steps += 1;
            core.fire(kind, 0);
        }
    }
    println!("steps {steps} retired {}", core.retired);
}
