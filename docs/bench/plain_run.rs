//! What `run` does to the texts of make_texts.py, in plain Rust: what `run` is measured beside. It knows their statements alone, and
//! doesn't replay the PIE that it made.
//!
//! rustc --edition 2021 -O -C target-cpu=x86-64-v2 plain_run.rs && ./plain_run < TEXT > PIE    writes the bytes that `run` writes

use std::collections::HashMap;
use std::io::{Read, Write};

const P: u64 = 0xFFFF_FFFF_0000_0001;
const BIAS: i64 = 1 << 15;

fn add(a: u64, b: u64) -> u64 {
    let (s, over) = a.overflowing_add(b);
    if over || s >= P { s.wrapping_sub(P) } else { s }
}

#[derive(Clone, Copy, PartialEq, Debug)]
enum Value {
    Number(u64),
    At(usize, u32),
}
use Value::{At, Number};

fn sum(a: Value, b: Value) -> Option<Value> {
    match (a, b) {
        (Number(a), Number(b)) => Some(Number(add(a, b))),
        (At(s, o), Number(n)) | (Number(n), At(s, o)) => {
            let to = add(u64::from(o), n);
            (to < 1 << 31).then_some(At(s, to as u32))
        }
        _ => None,
    }
}

// ---- the assembler: op0 is absent (None) where a statement names none

#[derive(Clone, Copy)]
struct Cell {
    is_fp: bool,
    offset: i64,
}

enum Operand {
    Cell(Cell),
    Number(u64),
}

fn number(text: &str) -> u64 {
    match text.strip_prefix('-') {
        Some(rest) => P - rest.parse::<u64>().unwrap(),
        None => text.parse().unwrap(),
    }
}

fn cell(text: &str) -> Cell {
    let inner = &text[1..text.len() - 1];
    let offset = if inner.len() > 2 { inner[2..].parse().unwrap() } else { 0 };
    Cell { is_fp: inner.starts_with("fp"), offset }
}

fn operand(text: &str) -> Operand {
    if text.starts_with('[') { Operand::Cell(cell(text)) } else { Operand::Number(number(text)) }
}

const UNNAMED: Cell = Cell { is_fp: true, offset: -1 };

fn word(dst: Cell, op0: Cell, offset1: i64, flags: u64) -> u64 {
    let lane = |n: i64| (n + BIAS) as u64;
    lane(dst.offset) | lane(op0.offset) << 16 | lane(offset1) << 32 | (u64::from(dst.is_fp) | u64::from(op0.is_fp) << 1 | flags) << 48
}

fn put(code: &mut Vec<u64>, dst: Cell, op0: Cell, x: Operand, flags: u64) {
    match x {
        Operand::Number(n) => code.extend([word(dst, op0, 1, flags | 4), n]),
        Operand::Cell(c) => code.push(word(dst, op0, c.offset, flags | if c.is_fp { 8 } else { 16 })),
    }
}

fn assemble(text: &str) -> Vec<u64> {
    let (mut code, mut labels, mut jumps) = (Vec::new(), HashMap::new(), Vec::new());
    for line in text.lines() {
        if let Some(name) = line.strip_suffix(':') {
            labels.insert(name, code.len());
            continue;
        }
        let (line, raise) = match line.strip_suffix(", ap++") {
            Some(rest) => (rest, 1 << 11),
            None => (line, 0),
        };
        let parts: Vec<&str> = line.split(' ').collect();
        match parts[..] {
            ["ret"] => code.push(word(Cell { is_fp: true, offset: -2 }, UNNAMED, -1, 1 << 13 | 1 << 7 | 8)),
            ["jmp", name, "if", c, "!=", "0"] => {
                jumps.push((code.len(), name));
                put(&mut code, cell(c), UNNAMED, Operand::Number(0), 1 << 9);
            }
            [dst, "=", x] if x.starts_with("[[") => {
                let end = x.find(']').unwrap();
                let rest = &x[end + 1..x.len() - 1];
                let offset = if rest.is_empty() { 0 } else { rest.parse().unwrap() };
                code.push(word(cell(dst), cell(&x[1..end + 1]), offset, 1 << 14 | raise));
            }
            [dst, "=", x] => put(&mut code, cell(dst), UNNAMED, operand(x), 1 << 14 | raise),
            [dst, "=", a, "+", x] => put(&mut code, cell(dst), cell(a), operand(x), 1 << 14 | 1 << 5 | raise),
            _ => panic!("{line}"),
        }
    }
    for (at, name) in jumps {
        code[at + 1] = add(labels[name] as u64, P - at as u64);
    }
    code
}

// ---- the runner

fn compress(state: &mut [u32; 8], block: &[u8; 64]) {
    const K: [u32; 64] = [
        0x428a2f98, 0x71374491, 0xb5c0fbcf, 0xe9b5dba5, 0x3956c25b, 0x59f111f1, 0x923f82a4, 0xab1c5ed5, 0xd807aa98, 0x12835b01, 0x243185be,
        0x550c7dc3, 0x72be5d74, 0x80deb1fe, 0x9bdc06a7, 0xc19bf174, 0xe49b69c1, 0xefbe4786, 0x0fc19dc6, 0x240ca1cc, 0x2de92c6f, 0x4a7484aa,
        0x5cb0a9dc, 0x76f988da, 0x983e5152, 0xa831c66d, 0xb00327c8, 0xbf597fc7, 0xc6e00bf3, 0xd5a79147, 0x06ca6351, 0x14292967, 0x27b70a85,
        0x2e1b2138, 0x4d2c6dfc, 0x53380d13, 0x650a7354, 0x766a0abb, 0x81c2c92e, 0x92722c85, 0xa2bfe8a1, 0xa81a664b, 0xc24b8b70, 0xc76c51a3,
        0xd192e819, 0xd6990624, 0xf40e3585, 0x106aa070, 0x19a4c116, 0x1e376c08, 0x2748774c, 0x34b0bcb5, 0x391c0cb3, 0x4ed8aa4a, 0x5b9cca4f,
        0x682e6ff3, 0x748f82ee, 0x78a5636f, 0x84c87814, 0x8cc70208, 0x90befffa, 0xa4506ceb, 0xbef9a3f7, 0xc67178f2,
    ];
    let mut w = [0u32; 64];
    for i in 0..16 {
        w[i] = u32::from_be_bytes(block[4 * i..4 * i + 4].try_into().unwrap());
    }
    for i in 16..64 {
        let a = w[i - 15].rotate_right(7) ^ w[i - 15].rotate_right(18) ^ (w[i - 15] >> 3);
        let b = w[i - 2].rotate_right(17) ^ w[i - 2].rotate_right(19) ^ (w[i - 2] >> 10);
        w[i] = w[i - 16].wrapping_add(a).wrapping_add(w[i - 7]).wrapping_add(b);
    }
    let [mut a, mut b, mut c, mut d, mut e, mut f, mut g, mut h] = *state;
    for i in 0..64 {
        let s = e.rotate_right(6) ^ e.rotate_right(11) ^ e.rotate_right(25);
        let t = h.wrapping_add(s).wrapping_add((e & f) ^ (!e & g)).wrapping_add(K[i]).wrapping_add(w[i]);
        let u = (a.rotate_right(2) ^ a.rotate_right(13) ^ a.rotate_right(22)).wrapping_add((a & b) ^ (a & c) ^ (b & c));
        (h, g, f, e, d, c, b, a) = (g, f, e, d.wrapping_add(t), c, b, a, t.wrapping_add(u));
    }
    for (s, n) in state.iter_mut().zip([a, b, c, d, e, f, g, h]) {
        *s = s.wrapping_add(n);
    }
}

fn digest(inputs: &[u64; 12]) -> [u32; 8] {
    let mut state = [0x6a09e667, 0xbb67ae85, 0x3c6ef372, 0xa54ff53a, 0x510e527f, 0x9b05688c, 0x1f83d9ab, 0x5be0cd19];
    let mut block = [0u8; 64];
    for (i, &n) in inputs.iter().enumerate() {
        if i < 8 {
            block[4 * i..4 * i + 4].copy_from_slice(&(n as u32).to_be_bytes());
        } else {
            block[8 * i - 32..8 * i - 24].copy_from_slice(&n.to_be_bytes());
        }
    }
    compress(&mut state, &block);
    let mut last = [0u8; 64];
    last[0] = 0x80;
    last[62] = 2;
    compress(&mut state, &last);
    state
}

#[derive(Default)]
struct Memory {
    segments: [Vec<Option<Value>>; 7],
    cells: usize,
}

impl Memory {
    fn get(&self, (s, o): (usize, u32)) -> Option<Value> {
        *self.segments[s].get(o as usize)?
    }

    fn put(&mut self, (s, o): (usize, u32), value: Value) {
        assert!((1..5).contains(&s));
        let size = self.segments[s].len();
        if o as usize >= size {
            self.cells += o as usize + 1 - size;
            assert!(self.cells <= 65536);
            self.segments[s].resize(o as usize + 1, None);
        }
        self.segments[s][o as usize] = Some(value);
    }

    fn inputs(&self, instance: u32) -> Option<[u64; 12]> {
        let mut inputs = [0; 12];
        for (k, input) in inputs.iter_mut().enumerate() {
            match self.get((4, 20 * instance + k as u32))? {
                Number(n) if k > 7 || n >> 32 == 0 => *input = n,
                _ => return None,
            }
        }
        Some(inputs)
    }

    // The value of a cell, which is put first where it is the output of a hash instance.
    fn found(&mut self, at: (usize, u32)) -> Option<Value> {
        if let (4, o) = at {
            if o % 20 >= 12 && self.get(at).is_none() {
                let words = digest(&self.inputs(o / 20)?);
                self.put(at, Number(words[(o % 20 - 12) as usize].into()));
            }
        }
        self.get(at)
    }
}

fn address(value: Value, offset: i64) -> Option<(usize, u32)> {
    match value {
        At(s, o) => u32::try_from(i64::from(o) + offset).ok().map(|o| (s, o)),
        Number(_) => None,
    }
}

fn run(code: &[u64], m: &mut Memory) -> u32 {
    let (mut pc, mut ap, mut fp, mut steps) = (0u32, 5u32, At(1, 5), 0);
    loop {
        assert!(steps < 65536);
        let w = code[pc as usize];
        let lane = |k: u32| i64::from((w >> (16 * k)) as u16) - BIAS;
        let flag = |k: u32| w >> (48 + k) & 1 == 1;
        let base = |is_fp: bool| if is_fp { fp } else { At(1, ap) };
        let size = if flag(2) { 2 } else { 1 };
        let (at_dst, at_op0) = (address(base(flag(0)), lane(0)).unwrap(), address(base(flag(1)), lane(1)).unwrap());
        let (mut dst, op0) = (m.found(at_dst), m.found(at_op0));
        let at_op1 = if flag(2) {
            (0, pc + 1)
        } else if flag(3) || flag(4) {
            address(base(flag(3)), lane(2)).unwrap()
        } else {
            address(op0.unwrap(), lane(2)).unwrap()
        };
        let mut op1 = m.found(at_op1);
        if flag(14) {
            if op1.is_none() && !flag(5) {
                m.put(at_op1, dst.unwrap());
                op1 = dst;
            } else if dst.is_none() {
                let res = if flag(5) { sum(op0.unwrap(), op1.unwrap()).unwrap() } else { op1.unwrap() };
                m.put(at_dst, res);
                dst = Some(res);
            }
        }
        let (dst, op1) = (dst.unwrap(), op1.unwrap());
        let res = if flag(5) { sum(op0.unwrap(), op1).unwrap() } else { op1 };
        assert!(op0.is_some() && (!flag(14) || res == dst));
        steps += 1;
        if flag(13) {
            assert!((res, dst) == (At(6, 0), At(5, 0)));
            return steps;
        }
        pc = match (flag(9) && dst != Number(0), op1) {
            (true, Number(n)) => add(pc.into(), n) as u32,
            _ => pc + size,
        };
        ap += u32::from(flag(11));
        fp = if flag(13) { dst } else { fp };
    }
}

fn main() {
    let mut text = String::new();
    std::io::stdin().lock().read_to_string(&mut text).unwrap();
    let code = assemble(&text);
    let mut m = Memory::default();
    m.cells = code.len();
    m.segments[0] = code.iter().map(|&n| Some(Number(n))).collect();
    for k in 0..5 {
        m.put((1, k), At(2 + k as usize, 0));
    }
    let steps = run(&code, &mut m);
    for k in 0..(m.segments[4].len() as u32).div_ceil(20) {
        for o in 12..20 {
            m.found((4, 20 * k + o));
        }
    }
    let sizes: Vec<String> = m.segments.iter().map(|s| s.len().to_string()).collect();
    let head = format!("{{\"main\":0,\"sizes\":[{}],\"steps\":{steps},\"version\":1}}", sizes.join(","));
    let mut cells = Vec::new();
    for (s, segment) in m.segments.iter().enumerate() {
        for (o, value) in segment.iter().enumerate() {
            let Some(value) = value else { continue };
            let (tag, n) = match *value {
                Number(n) => (0u16, n),
                At(s, o) => (1, (s as u64) << 32 | u64::from(o)),
            };
            cells.extend((s as u16).to_be_bytes());
            cells.extend((o as u32).to_be_bytes());
            cells.extend(tag.to_be_bytes());
            cells.extend(n.to_be_bytes());
        }
    }
    let mut out = std::io::stdout().lock();
    out.write_all(b"CPIE64\x00\x01").unwrap();
    out.write_all(&(head.len() as u32).to_be_bytes()).unwrap();
    out.write_all(head.as_bytes()).unwrap();
    out.write_all(&(cells.len() as u32 / 16).to_be_bytes()).unwrap();
    out.write_all(&cells).unwrap();
}
