#!/usr/bin/env bash
# How fast the machine is: an endless loop of eight mixed instructions, 200 million steps.
# Builds a small program over rv_machine in a copy of the repository, and times it. Prints
# nanoseconds an instruction. Usage: bench/machine.sh [STEPS]
set -eu
steps=${1:-200000000}
top=$(cd "$(dirname "$0")/.." && pwd)
copy=$(mktemp -d)
trap 'rm -rf "$copy"' EXIT
cp -r "$top/crates" "$top/crates.txt" "$top/HANDLES" "$copy"
echo "rv_bench: rv_machine odc_io" >>"$copy/crates.txt"
mkdir -p "$copy/crates/rv_bench/src"
# add x6, x6, x7; mul x8, x6, x7; ld x9, -16(x5); xor x9, x9, x8;
# sd x9, -8(x5); addi x7, x7, 1; beq x7, x0, 8; jal x0, -28
# before: lui x5, 0x78001
cat >"$copy/crates/rv_bench/src/main.rt" <<PROGRAM
#![tactic(auto)]

ghost use Rattle.std.specs.Prelude.{IfOk};
ghost use Rattle.rv_machine.specs.Image.{BytesFit};

use odc_io::{MemSink, MemSource};
use rv_machine::image::{ImageView, Range};
use rv_machine::machine::Machine;
use std::alloc::{AllocError, Global};

const WORDS: [u32; 9] = [
    0x780012b7, 0x00730333, 0x02730433, 0xff02b483, 0x0084c4b3, 0xfe92bc23, 0x00138393, 0x00038463, 0xfe5ff06f,
];

fn range(alloc: Global, start: u64, executable: bool) -> Result<Range, AllocError>
    ensures { IfOk result BytesFit }
{
    let mut bytes = Vec::new(alloc);
    if executable {
        for word in WORDS {
            bytes.extend_from_slice(&word.to_le_bytes())?;
        }
    }
    let size = (bytes.len() as u64).max(0x1000);
    Ok(Range { start, size, readable: true, writable: !executable, executable, bytes })
}

fn main(rt: HostRuntime) -> Result<(), AllocError> {
    let alloc = rt.alloc();
    let mut ranges = Vec::new(alloc);
    ranges.push(range(alloc, 0x10000, true)?)?;
    ranges.push(range(alloc, 0x5000_0000, false)?)?;
    ranges.push(range(alloc, 0x6000_0000, false)?)?;
    ranges.push(range(alloc, 0x6800_0000, false)?)?;
    ranges.push(range(alloc, 0x7800_0000, false)?)?;
    let view = ImageView { ranges, entry: 0x10000, sites: Vec::new(alloc), calls: Vec::new(alloc) };
    let mut machine = Machine::load(alloc, &view, false)?;
    let mut input = MemSource::new(Vec::new(alloc), Vec::new(alloc));
    let mut out = MemSink::new(alloc, 0, Vec::new(alloc))?;
    let mut err = MemSink::new(alloc, 0, Vec::new(alloc))?;
    let _ = machine.run($steps, &mut input, &mut out, &mut err);
    Ok(())
}
PROGRAM
cd "$copy/crates/rv_bench"
rt run >"$copy/build.log" 2>&1 || { tail -20 "$copy/build.log"; exit 1; }
start=$(date +%s%N)
./out/rv_bench
end=$(date +%s%N)
echo "$(((end - start) / 1000000)) ms for $steps instructions, $(awk "BEGIN { printf \"%.2f\", ($end - $start) / $steps }") ns each"
