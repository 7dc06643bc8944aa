// Times the original's recoders and ours on the same scalars in one run, and our test and reader beside them.
//   bench                     the table: rounds of one pass each, taken in turn, the best of each kept
//   bench PASS INPUTS WIDTH   one pass alone, for a program that counts instructions; the pass `none` makes the scalars only
mod card_digits;
mod inputs;
mod original;

use card_digits as card;
use inputs::{below_2_255, Bytes, Random};
use original::Scalar;
use std::hint::black_box;
use std::time::Instant;

const CALLS: usize = 1000;
const ROUNDS: usize = 400;

fn scalars(kind: &str) -> Vec<Bytes> {
    let mut random = Random(25519);
    (0..CALLS).map(|_| below_2_255(if kind == "few_ones" { random.few_ones() } else { random.bytes() })).collect()
}

// The lent buffers are made once, hold zeros before the first call, and then what the call before left: a caller's ring of buffers.
struct Room {
    n: Vec<[i8; 256]>,
    r: Vec<[i8; 64]>,
    tally: [u32; 2],
    out: Bytes,
}

fn pass(name: &str, all: &[Bytes], w: usize, room: &mut Room) {
    let w = black_box(w);
    for (i, s) in all.iter().enumerate() {
        match name {
            "original_n" => room.n[i] = Scalar { bytes: *s }.non_adjacent_form(w),
            "original_r" => room.r[i] = Scalar { bytes: *s }.as_radix_2w(w),
            "ours_n" => drop(black_box(card::n_recode(s, w, &mut room.n[i], &mut room.tally))),
            "ours_r" => drop(black_box(card::r_recode(s, w, &mut room.r[i], &mut room.tally))),
            "test_n" => drop(black_box(card::n_test(&room.n[i], w))),
            "test_r" => drop(black_box(card::r_test(&room.r[i], w))),
            "read_n" => drop(black_box(card::n_read(&room.n[i], w, &mut room.out))),
            "read_r" => drop(black_box(card::r_read(&room.r[i], w, &mut room.out))),
            _ => {}
        }
    }
    black_box(&room.n);
    black_box(&room.r);
}

fn room() -> Room {
    Room { n: vec![[0; 256]; CALLS], r: vec![[0; 64]; CALLS], tally: [0; 2], out: [0; 32] }
}

fn row(form: &str, kind: &str, w: usize) {
    let (all, mut room) = (scalars(kind), room());
    let names = ["original", "ours", "test", "read"].map(|n| format!("{n}_{form}"));
    let mut best = [f64::MAX; 4];
    for _ in 0..ROUNDS {
        for (name, best) in names.iter().zip(best.iter_mut()) {
            let start = Instant::now();
            pass(name, &all, w, &mut room);
            *best = best.min(start.elapsed().as_nanos() as f64 / CALLS as f64);
        }
    }
    let [original, ours, test, read] = best;
    println!("{form} {kind} {w} {original:.1} {ours:.1} {:.2} {test:.1} {read:.1}", ours / original);
}

fn main() {
    let args: Vec<String> = std::env::args().collect();
    if let [_, name, kind, w] = &args[..] {
        let (all, mut room) = (scalars(kind), room());
        let w = w.parse().unwrap();
        if name.starts_with("test") || name.starts_with("read") {
            let recoder = format!("ours{}", &name[4..]);
            pass(&recoder, &all, w, &mut room);
        }
        return pass(name, &all, w, &mut room);
    }
    for w in 2..=8 {
        row("n", "random", w);
    }
    for w in 2..=8 {
        row("n", "few_ones", w);
    }
    for w in 4..=8 {
        row("r", "random", w);
    }
}
