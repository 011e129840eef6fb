//! Plain Rust doing what `crates/pace` times, for comparison: the moves of a build written into a list by one loop that
//! keeps the digits of the move's number, each move looked up by its number, and steps of a register machine.
use std::hint::black_box;
use std::time::Instant;

#[derive(Clone, Copy)]
enum Change {
    Place,
    Remove,
}

#[derive(Clone, Copy)]
struct Move {
    change: Change,
    segment: u32,
}

const TURNS: usize = 5;

fn list(k: u32, n: usize, out: &mut [Move]) {
    let mut digits = vec![0; n];
    let mut segment = 0;
    for made in out.iter_mut() {
        let says = digits.iter().find(|d| **d != k - 1);
        let change = if says.is_some_and(|d| *d > k - 1) { Change::Remove } else { Change::Place };
        *made = Move { change, segment };
        let mut width = 1;
        for d in digits.iter_mut() {
            if *d < 2 * k - 2 {
                if *d < k - 1 { segment += width } else { segment -= width }
                *d += 1;
                break;
            }
            *d = 0;
            width *= k;
        }
    }
}

fn move_at(k: u32, n: usize, t: u64) -> Move {
    let base = u64::from(2 * k - 1);
    let (mut rest, mut width, mut segment, mut change) = (t, 1, 0, None);
    for _ in 0..n {
        let d = (rest % base) as u32;
        rest /= base;
        segment += width * d.min(2 * k - 2 - d);
        width *= k;
        if change.is_none() && d != k - 1 {
            change = Some(if d < k - 1 { Change::Place } else { Change::Remove });
        }
    }
    Move { change: change.unwrap_or(Change::Place), segment }
}

fn schedule() {
    let (k, n) = (black_box(8u32), black_box(6usize));
    let moves = u64::from(2 * k - 1).pow(n as u32);
    let mut out = vec![Move { change: Change::Place, segment: 0 }; moves as usize];
    let (mut written, mut looked_up, mut sum) = (u128::MAX, u128::MAX, 0u64);
    for _ in 0..TURNS {
        let start = Instant::now();
        list(k, n, black_box(&mut out));
        written = written.min(start.elapsed().as_nanos());
        let start = Instant::now();
        sum = (0..moves).map(|t| u64::from(black_box(move_at(k, n, t)).segment)).sum();
        looked_up = looked_up.min(start.elapsed().as_nanos());
    }
    let listed: u64 = out.iter().map(|made| u64::from(made.segment)).sum();
    let removals = out.iter().filter(|made| matches!(made.change, Change::Remove)).count();
    assert_eq!(removals as u64, moves / 2);
    println!("moves {moves} sum of segments {sum} listed {listed}");
    eprintln!("list {moves} {written}");
    eprintln!("move_at {moves} {looked_up}");
}

#[derive(Clone, Copy)]
#[allow(dead_code)]
enum Instruction {
    Halt,
    Increment(u8),
    Decrement(u8),
    JumpIfZero(u8, u16),
    Jump(u16),
    Copy { into: u8, from: u8 },
    Add { into: u8, from: u8 },
}
use Instruction::*;

struct Tableau {
    pc: u32,
    registers: [u32; 8],
}

#[derive(Clone, Copy)]
struct Record {
    pc: u32,
    value: u32,
}

fn step(program: &[Instruction], work: &mut Tableau) -> Record {
    let pc = work.pc;
    let mut value = 0;
    work.pc = match program.get(pc as usize) {
        None | Some(Halt) => pc,
        Some(JumpIfZero(a, b)) if work.registers[*a as usize] == 0 => u32::from(*b),
        Some(JumpIfZero(..)) => pc.wrapping_add(1),
        Some(Jump(b)) => u32::from(*b),
        Some(Increment(a)) => {
            value = work.registers[*a as usize];
            work.registers[*a as usize] = value.wrapping_add(1);
            pc.wrapping_add(1)
        }
        Some(Decrement(a)) => {
            value = work.registers[*a as usize];
            work.registers[*a as usize] = value.saturating_sub(1);
            pc.wrapping_add(1)
        }
        Some(Copy { into, from }) => {
            value = work.registers[*into as usize];
            work.registers[*into as usize] = work.registers[*from as usize];
            pc.wrapping_add(1)
        }
        Some(Add { into, from }) => {
            value = work.registers[*into as usize];
            work.registers[*into as usize] = value.wrapping_add(work.registers[*from as usize]);
            pc.wrapping_add(1)
        }
    };
    Record { pc, value }
}

fn unstep(program: &[Instruction], work: &mut Tableau, noted: Record) {
    work.pc = noted.pc;
    if let Some(Increment(a) | Decrement(a) | Copy { into: a, .. } | Add { into: a, .. }) = program.get(noted.pc as usize) {
        work.registers[*a as usize] = noted.value;
    }
}

const STEPS: u32 = 10_000_000;

fn beginning() -> Tableau {
    Tableau { pc: 0, registers: [0, STEPS, 0, 0, 0, 0, 0, 0] }
}

fn registers() {
    let program = black_box([JumpIfZero(1, 4), Decrement(1), Add { into: 0, from: 1 }, Jump(0), Halt]);
    let (mut forward, mut both, mut sum) = (u128::MAX, u128::MAX, 0u32);
    for _ in 0..TURNS {
        let start = Instant::now();
        let mut work = beginning();
        sum = 0;
        for _ in 0..STEPS {
            let noted = step(&program, &mut work);
            sum = sum.wrapping_add(noted.value ^ noted.pc);
        }
        sum = sum.wrapping_add(work.registers[0]);
        forward = forward.min(start.elapsed().as_nanos());
        let start = Instant::now();
        let mut work = beginning();
        let mut other = 0u32;
        for _ in 0..STEPS {
            let noted = step(&program, &mut work);
            unstep(&program, &mut work, noted);
            let again = step(&program, &mut work);
            other = other.wrapping_add(again.value ^ noted.pc);
        }
        sum = sum.wrapping_add(other.wrapping_add(work.registers[0]));
        both = both.min(start.elapsed().as_nanos());
    }
    println!("register steps {STEPS} sum {sum}");
    eprintln!("register_step {STEPS} {forward}");
    eprintln!("register_step_and_unstep {STEPS} {both}");
}

#[derive(Clone)]
struct Text {
    mark: u8,
    length: u8,
    bytes: [u8; 48],
}

struct Rule {
    last: bool,
    left: Vec<u8>,
    right: Vec<u8>,
}

impl Text {
    fn well_shaped(&self) -> bool {
        self.mark <= 2 && self.length <= 48 && self.bytes[self.length as usize..].iter().all(|b| *b == 0)
    }

    fn replace(&mut self, place: usize, old: usize, new: &[u8]) {
        let length = self.length as usize;
        let after = length - old + new.len();
        self.bytes.copy_within(place + old..length, place + new.len());
        self.bytes[place..place + new.len()].copy_from_slice(new);
        if after < length {
            self.bytes[after..length].fill(0);
        }
        self.length = after as u8;
    }
}

fn rewrite(rules: &[Rule], work: &mut Text) -> (u8, u8) {
    if !work.well_shaped() || work.mark != 0 {
        return (0, 0);
    }
    let text = &work.bytes[..work.length as usize];
    for (i, rule) in rules.iter().enumerate().take(32) {
        let found = (0..text.len() + 1).find(|p| text[*p..].starts_with(&rule.left));
        if let Some(place) = found {
            if text.len() - rule.left.len() + rule.right.len() > 48 {
                work.mark = 2;
                return (33, 0);
            }
            work.replace(place, rule.left.len(), &rule.right);
            work.mark = rule.last as u8;
            return (i as u8 + 1, place as u8);
        }
    }
    (0, 0)
}

fn unrewrite(rules: &[Rule], work: &mut Text, (code, place): (u8, u8)) {
    if !work.well_shaped() {
        return;
    }
    if code == 33 {
        work.mark = 0;
    } else if code > 0 && code <= 32 && (code as usize) <= rules.len() {
        let rule = &rules[code as usize - 1];
        let (place, length) = (place as usize, work.length as usize);
        if place + rule.right.len() <= length && length - rule.right.len() + rule.left.len() <= 48 {
            work.replace(place, rule.right.len(), &rule.left);
            work.mark = 0;
        }
    }
}

fn texts() {
    let rules = black_box([Rule { last: false, left: b"ba".to_vec(), right: b"ab".to_vec() }]);
    let mut bytes = [0; 48];
    bytes[..24].copy_from_slice(b"bbbbbbbbbbbbaaaaaaaaaaaa");
    let text = Text { mark: 0, length: 24, bytes };
    let (mut both, mut sum) = (u128::MAX, 0u32);
    for _ in 0..TURNS {
        let start = Instant::now();
        let mut work = text.clone();
        sum = 0;
        for _ in 0..4_000 {
            let mut noted = [(0, 0); 144];
            let mut own = 0u32;
            for record in noted.iter_mut() {
                *record = rewrite(&rules, &mut work);
                own = own.wrapping_mul(3).wrapping_add(u32::from(record.1));
            }
            sum = sum.wrapping_add(own.wrapping_add(u32::from(work.bytes[0])));
            for record in noted.iter().rev() {
                unrewrite(&rules, &mut work, *record);
            }
        }
        sum = sum.wrapping_add(u32::from(work.bytes[0]));
        both = both.min(start.elapsed().as_nanos());
    }
    let calls = 2 * 4_000 * 144u64;
    println!("rewriting steps {calls} sum {sum}");
    eprintln!("rewriting_step_or_unstep {calls} {both}");
}

fn main() {
    schedule();
    registers();
    texts();
}
