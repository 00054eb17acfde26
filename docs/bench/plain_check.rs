//! What `check` does to a certificate of a PIE alone without hash instances, in plain Rust: what `check` is measured beside.
//!
//! rustc --edition 2021 -O -C target-cpu=x86-64-v2 plain_check.rs && ./plain_check < FILE    prints the last line that `check` prints;
//! with any word it reads the certificate and does no more

use std::io::Read;

const P: u64 = 0xFFFF_FFFF_0000_0001;

fn add(a: u64, b: u64) -> u64 {
    let (s, over) = a.overflowing_add(b);
    if over || s >= P { s.wrapping_sub(P) } else { s }
}

fn mul(a: u64, b: u64) -> u64 {
    (u128::from(a) * u128::from(b) % u128::from(P)) as u64
}

fn offset(a: u64, k: i16) -> u64 {
    if k < 0 { add(a, P - u64::from(k.unsigned_abs())) } else { add(a, k as u64) }
}

struct Cells(Vec<(u64, u64)>);

impl Cells {
    fn get(&self, a: u64) -> Option<u64> {
        let first = self.0.first()?.0;
        let guess = a.wrapping_sub(first) as usize;
        let cells = if a >= first { &self.0[..self.0.len().min(guess.saturating_add(1))] } else { &[][..] };
        match cells.last() {
            Some(&(at, value)) if at == a => Some(value),
            _ => cells.binary_search_by_key(&a, |c| c.0).ok().map(|i| cells[i].1),
        }
    }
}

type State = (u64, u64, u64);

fn step(m: &Cells, (pc, ap, fp): State) -> Option<State> {
    let w = m.get(pc)?;
    if w >> 63 != 0 {
        return None;
    }
    let off = |k: u32| ((w >> (16 * k)) as u16).wrapping_sub(1 << 15) as i16;
    let bits = |at: u32, n: u32| (w >> at) & ((1 << n) - 1);
    let (source, logic, jump, moves, opcode) = (bits(50, 3), bits(53, 2), bits(55, 3), bits(58, 2), bits(60, 3));
    let one = |x: u64| x == 0 || x == 1 || x == 2 || x == 4;
    let mix = jump == 4 && (logic != 0 || opcode != 0 || moves == 1) || opcode == 1 && moves != 0;
    if !one(source) || logic == 3 || !one(jump) || moves == 3 || !one(opcode) || mix {
        return None;
    }
    let size = if source == 1 { 2 } else { 1 };
    let dst = m.get(offset(if bits(48, 1) == 0 { ap } else { fp }, off(0)))?;
    let op0 = m.get(offset(if bits(49, 1) == 0 { ap } else { fp }, off(1)))?;
    let base = match source { 0 => op0, 1 => pc, 2 => fp, _ => ap };
    let op1 = m.get(offset(base, off(2)))?;
    let res = match logic { 0 => op1, 1 => add(op0, op1), _ => mul(op0, op1) };
    let next = add(pc, size);
    let new_pc = match jump {
        0 => next,
        1 => res,
        2 => add(pc, res),
        _ if dst == 0 => next,
        _ => add(pc, op1),
    };
    if opcode == 1 && (op0 != next || dst != fp) || opcode == 4 && res != dst {
        return None;
    }
    let new_ap = match (opcode, moves) { (1, _) => add(ap, 2), (_, 0) => ap, (_, 1) => add(ap, res), _ => add(ap, 1) };
    let new_fp = match opcode { 1 => add(ap, 2), 2 => dst, _ => fp };
    Some((new_pc, new_ap, new_fp))
}

fn main() {
    let mut bytes = Vec::new();
    std::io::stdin().lock().read_to_end(&mut bytes).unwrap();
    let four = |at: usize| u32::from_be_bytes(bytes[at..at + 4].try_into().unwrap()) as usize;
    let eight = |at: usize| {
        let n = u64::from_be_bytes(bytes[at..at + 8].try_into().unwrap());
        assert!(n < P);
        n
    };
    assert!(bytes[..9] == *b"CCRT64\x00\x01\x00" && four(57) == 0);
    let spans: Vec<u64> = (0..6).map(|k| eight(9 + 8 * k)).collect();
    let count = four(61);
    let cells = Cells((0..count).map(|i| (eight(65 + 16 * i), eight(73 + 16 * i))).collect());
    assert!(cells.0.windows(2).all(|c| c[0].0 < c[1].0));
    let at = 65 + 16 * count;
    let rows = four(at);
    let states: Vec<State> = (0..rows).map(|i| at + 4 + 24 * i).map(|k| (eight(k), eight(k + 8), eight(k + 16))).collect();
    assert!(bytes.len() == at + 4 + 24 * rows);
    if std::env::args().len() > 1 {
        return;
    }
    let (f, last) = (states[0].2, states[rows - 1]);
    assert!(states[0].1 == f);
    for k in 0..3 {
        assert!(cells.get(offset(f, k as i16 - 5)) == Some(spans[2 * k]));
        assert!(cells.get(offset(last.1, k as i16 - 3)) == Some(spans[2 * k + 1]));
    }
    assert!(cells.get(offset(f, -2)) == Some(last.2) && cells.get(offset(f, -1)) == Some(last.0));
    assert!((spans[2]..spans[3]).all(|a| cells.get(a).is_some_and(|n| n >> 32 == 0)) && spans[4] == spans[5]);
    assert!(states.windows(2).all(|s| step(&cells, s[0]) == Some(s[1])));
    print!("accepted alone {} outputs", rows - 1);
    for a in spans[0]..spans[1] {
        print!(" {}", cells.get(a).unwrap());
    }
    println!();
}
