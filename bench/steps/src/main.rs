// A plain interpreter of the flat machine, to be timed beside the engine. `steps image NAME FILE` writes the
// image of a loop; `steps run FILE MILLIONS` makes so many million steps on an image and prints, as the
// program `steps` of this repository does, what the machine and then the store hold.
mod lanes;
mod machine;
mod programs;

use lanes::Line;
use machine::Machine;
use std::io::{self, BufWriter, Write};
use std::{env, fs};

const LINES: usize = 256;

fn number(bytes: &[u8]) -> usize {
    u32::from_le_bytes(bytes.try_into().unwrap()) as usize
}

// RAM with the places of an image.
fn load(mut image: &[u8]) -> Vec<Line> {
    let mut ram = vec![0; 128 * LINES];
    while image[4] == 1 {
        let end = 6 + number(&image[..4]);
        let address = number(&image[6..10]);
        ram[address..address + end - 10].copy_from_slice(&image[10..end]);
        image = &image[end..];
    }
    ram.chunks_exact(128).map(|line| line.try_into().unwrap()).collect()
}

fn print_bytes(out: &mut impl Write, bytes: &Line) -> io::Result<()> {
    for byte in bytes {
        write!(out, "{byte:02x}")?;
    }
    writeln!(out)
}

fn print_machine(out: &mut impl Write, machine: &Machine) -> io::Result<()> {
    let mode = if machine.supervisor { "supervisor" } else { "user" };
    writeln!(out, "{mode} ie {} xct {} pin {}", machine.ie, machine.xct, machine.pin)?;
    for swiarg in &machine.swiargs {
        print_bytes(out, swiarg)?;
    }
    let mut last = [0; 128];
    for (number, register) in machine.data.iter().enumerate() {
        writeln!(out, "data {number} {} {}", register.address, register.kind as u8)?;
        if *machine.line(number) != last {
            last = *machine.line(number);
            print_bytes(out, &last)?;
        }
    }
    let mut last = [0; 32];
    for number in 0..128 {
        writeln!(out, "instruction {number} {}", machine.addresses[number])?;
        if machine.words[number] != last {
            last = machine.words[number];
            for word in last {
                write!(out, "{word:08x}")?;
            }
            writeln!(out)?;
        }
    }
    Ok(())
}

fn run(path: &str, millions: u32) -> io::Result<()> {
    let mut machine = Machine::new(load(&fs::read(path)?));
    for _ in 0..u64::from(millions) * 1_000_000 {
        if let Some(exception) = machine.step() {
            panic!("entered {exception:#x}");
        }
    }
    let mut out = BufWriter::new(io::stdout().lock());
    print_machine(&mut out, &machine)?;
    let (count, store) = machine.halt();
    writeln!(out, "halt sends back {count}")?;
    for (number, line) in store.iter().enumerate() {
        if *line != [0; 128] {
            writeln!(out, "line {number}")?;
            print_bytes(&mut out, line)?;
        }
    }
    out.flush()
}

fn main() -> io::Result<()> {
    let args: Vec<String> = env::args().skip(1).collect();
    match args.iter().map(String::as_str).collect::<Vec<_>>()[..] {
        ["image", name, file] => fs::write(file, programs::image(name).expect("no such loop")),
        ["run", file, millions] => run(file, millions.parse().expect("no number")),
        _ => panic!("image NAME FILE, or run FILE MILLIONS"),
    }
}
