// Writes the list of crate `vectors`, and what the original answers to each of its lines.
// usage: vectors LIST ANSWERS
mod inputs;
mod original;

use inputs::{below_2_255, Bytes, Random};
use original::{Choice, Scalar};
use std::fmt::Write;

fn hex(b: &[u8]) -> String {
    b.iter().map(|x| format!("{x:02x}")).collect()
}

fn digits(ds: &[i8]) -> String {
    ds.iter().enumerate().filter(|(_, &d)| d != 0).map(|(i, d)| format!("{i}:{d} ")).collect()
}

fn answer(letter: char, figure: usize, bytes: Bytes) -> String {
    let s = Scalar { bytes };
    match letter {
        'N' => digits(&s.non_adjacent_form(figure)),
        'R' => format!("{} {}", Scalar::to_radix_2w_size_hint(figure), digits(&s.as_radix_2w(figure))),
        'F' => hex(&Scalar::from_bits(bytes).bytes) + " ",
        'B' => s.bits_le().map(|b| if b { "1" } else { "0" }).concat() + " ",
        'W' => {
            let mut words = [0u64; 4];
            original::read_le_u64_into(&bytes, &mut words);
            // the verdict that ours adds: done, at no position
            String::from("0 0 ") + &words.map(|w| format!("{w:016x} ")).concat()
        }
        'O' => format!("{} ", s.is_odd().0),
        _ => hex(&Scalar::conditional_select(&s, &Scalar::from_bits(bytes), Choice(figure as u8)).bytes) + " ",
    }
}

// Five kinds of scalar, three of each; inside the domain of the function.
fn scalars(random: &mut Random, below: bool) -> Vec<Bytes> {
    let edges = inputs::edges();
    let mut all = Vec::new();
    for _ in 0..3 {
        let edge = edges[4096 + random.word() as usize % (edges.len() - 4096)];
        all.extend([random.bytes(), random.few_ones(), random.few_zeros(), random.clamped(), edge]);
    }
    all.into_iter().map(|s| if below { below_2_255(s) } else { s }).collect()
}

fn fail(why: &str) -> ! {
    eprintln!("{why}");
    std::process::exit(2)
}

fn main() {
    let args: Vec<String> = std::env::args().collect();
    let [_, list_file, answers_file] = &args[..] else { fail("usage: vectors LIST ANSWERS") };
    let (mut list, mut answers, mut random) = (String::new(), String::new(), Random(16));
    let calls = (2..=8).map(|w| ('N', w)).chain((4..=8).map(|w| ('R', w)));
    for (letter, figure) in calls.chain([('F', 0), ('B', 0), ('W', 0), ('O', 0), ('S', 0), ('S', 1)]) {
        for s in scalars(&mut random, letter == 'N' || (letter, figure) == ('R', 4)) {
            writeln!(list, "{letter} {figure} {}", hex(&s)).unwrap();
            writeln!(answers, "{letter} {figure} {}", answer(letter, figure, s)).unwrap();
        }
    }
    for (file, text) in [(list_file, list), (answers_file, answers)] {
        if let Err(e) = std::fs::write(file, text) {
            fail(&format!("vectors: cannot write {file}: {e}"));
        }
    }
}
