// Every ported function against the original's on the same inputs. Inside the original's domain the answers must be equal. Outside it
// ours must be the refusal of document 01, and what the original did is sorted into kinds, each with its number of inputs and the
// smallest of them.
mod card_digits;
mod inputs;
mod original;

use card_digits as card;
use inputs::{Bytes, Random};
use original::{Choice, Scalar};
use std::collections::BTreeMap;
use std::panic::catch_unwind;
use std::sync::mpsc;
use std::time::Duration;

#[derive(Default)]
struct Record {
    equal: BTreeMap<String, u64>,
    apart: BTreeMap<String, (u64, Vec<u8>)>,
    failures: u64,
}

fn hex(b: &[u8]) -> String {
    let top = b.iter().rposition(|&x| x != 0).unwrap_or(0);
    b[..=top].iter().rev().map(|x| format!("{x:02x}")).collect()
}

fn below(a: &[u8], b: &[u8]) -> bool {
    a.iter().rev().lt(b.iter().rev())
}

impl Record {
    fn must(&mut self, name: String, s: &[u8], holds: bool) {
        if !holds {
            self.failures += 1;
            if self.failures <= 20 {
                println!("FAILED: {name} at 0x{}", hex(s));
            }
        }
        *self.equal.entry(name).or_default() += 1;
    }

    fn differ(&mut self, kind: String, s: &[u8]) {
        let entry = self.apart.entry(kind).or_insert((0, s.to_vec()));
        entry.0 += 1;
        if below(s, &entry.1) {
            entry.1 = s.to_vec();
        }
    }
}

// Whether digits that weigh 2^step each more than the one before sum to the integer of s.
fn sums_to(digits: &[i8], step: usize, s: &Bytes) -> bool {
    let mut sum = vec![0i64; (digits.len() * step) / 8 + 42];
    for (i, &d) in digits.iter().enumerate() {
        sum[i * step / 8] += (d as i64) << (i * step % 8);
    }
    for (i, &b) in s.iter().enumerate() {
        sum[i] -= b as i64;
    }
    for i in 0..sum.len() - 1 {
        sum[i + 1] += sum[i] >> 8;
        sum[i] &= 255;
    }
    sum.iter().all(|&x| x == 0)
}

fn leaves_digits(digits: &[i8], tally: &[u32; 2]) -> bool {
    digits.iter().all(|&d| d == 77) && *tally == [78, 79]
}

// What holds no digits: bits, words, the low bit, the cleared bit, the choice.
fn without_digits(r: &mut Record, s: &Bytes, other: &Bytes) {
    let (mine, theirs) = (Scalar { bytes: *s }, Scalar { bytes: *other });
    let mut out = [99u8; 32];
    let code = card::from_bits(s, &mut out);
    r.must("from_bits".into(), s, code == 0 && out == Scalar::from_bits(*s).bytes);
    for choice in [0u8, 1] {
        let code = card::select(s, other, choice as u32, &mut out);
        let peer = Scalar::conditional_select(&mine, &theirs, Choice(choice));
        r.must("conditional_select".into(), s, code == 0 && out == peer.bytes);
    }
    let mut odd = [99u8; 1];
    let code = card::is_odd(s, &mut odd);
    r.must("is_odd".into(), s, code == 0 && odd[0] == mine.is_odd().0);
    let mut bits = [99u8; 256];
    let code = card::bits(s, &mut bits);
    r.must("bits_le".into(), s, code == 0 && bits == mine.bits_le().map(|b| b as u8));
    let code = card::from_bit_bytes(&bits, &mut out);
    r.must("bits_le, read back".into(), s, code == 0 && out == *s);
    for n in 0..=4 {
        let (mut words, mut peer) = ([99u64; 4], [99u64; 4]);
        let code = card::read_words(&s[..8 * n], &mut words[..n]);
        original::read_le_u64_into(&s[..8 * n], &mut peer[..n]);
        r.must("read_le_u64_into".into(), s, code == 0 && words == peer);
        let mut back = [0u8; 32];
        let code = card::write_words(&words[..n], &mut back[..8 * n]);
        r.must("read_le_u64_into, read back".into(), s, code == 0 && back[..8 * n] == s[..8 * n]);
    }
}

fn form_n(r: &mut Record, s: &Bytes, w: usize) {
    let (mut digits, mut tally) = ([77i8; 256], [78u32, 79]);
    let code = card::n_recode(s, w, &mut digits, &mut tally);
    let peer = Scalar { bytes: *s }.non_adjacent_form(w);
    if (2..=8).contains(&w) && s[31] <= 127 {
        let count = peer.iter().rposition(|&d| d != 0).map_or(0, |i| i + 1) as u32;
        let additions = peer.iter().filter(|&&d| d != 0).count() as u32;
        r.must(format!("non_adjacent_form, width {w}"), s, code == 0 && digits == peer && tally == [count, additions]);
        let mut back = [99u8; 32];
        let codes = (card::n_test(&peer, w), card::n_read(&peer, w, &mut back));
        r.must(format!("non_adjacent_form, width {w}, tested and read"), s, codes == (0, 0) && back == *s);
        return;
    }
    let refusal = if (2..=8).contains(&w) { 4 } else { 3 };
    r.must(format!("non_adjacent_form, refused with {refusal}"), s, code == refusal && leaves_digits(&digits, &tally));
    let sum = if sums_to(&peer, 1, s) { "the sum is right" } else { "the sum is wrong" };
    let what = if refusal == 4 { "byte 31 above 127" } else { "width refused" };
    r.differ(format!("non_adjacent_form, width {w}, {what}: digits come back, {sum}"), s);
}

fn form_r(r: &mut Record, s: &Bytes, w: usize) {
    let (mut digits, mut tally) = ([77i8; 64], [78u32, 79]);
    let code = card::r_recode(s, w, &mut digits, &mut tally);
    let own = *s;
    let peer = catch_unwind(move || Scalar { bytes: own }.as_radix_2w(w));
    if (4..=8).contains(&w) && (w > 4 || s[31] <= 127) {
        let peer = peer.expect("the original panics inside its domain");
        let n = Scalar::to_radix_2w_size_hint(w) as u32;
        r.must(format!("as_radix_2w, width {w}"), s, code == 0 && digits == peer && tally == [n, 0]);
        if w == 4 {
            r.must("as_radix_16".into(), s, digits == Scalar { bytes: *s }.as_radix_16());
        }
        let mut back = [99u8; 32];
        let codes = (card::r_test(&peer, w), card::r_read(&peer, w, &mut back));
        r.must(format!("as_radix_2w, width {w}, tested and read"), s, codes == (0, 0) && back == *s);
        return;
    }
    let refusal = if w == 4 { 4 } else { 3 };
    r.must(format!("as_radix_2w, refused with {refusal}"), s, code == refusal && leaves_digits(&digits, &tally));
    let what = if refusal == 4 { "byte 31 above 127" } else { "width refused" };
    let kind = match peer {
        Err(_) => "a panic".to_string(),
        Ok(d) if w == 4 && d[63] > 8 => "digits come back, the last above 8".to_string(),
        Ok(d) if sums_to(&d, w, s) => "digits come back, the sum is right".to_string(),
        Ok(_) => "digits come back, the sum is wrong".to_string(),
    };
    r.differ(format!("as_radix_2w, width {w}, {what}: {kind}"), s);
}

// Lengths of bytes and words that do not fit, and widths that the size hint does not have.
fn wrong_sizes(r: &mut Record) {
    for bytes in 0..=41usize {
        for words in 0..=5usize {
            if bytes == 8 * words {
                continue;
            }
            let (src, mut dst) = (vec![7u8; bytes], vec![9u64; words]);
            let code = card::read_words(&src, &mut dst);
            r.must("read_le_u64_into, refused with 1".into(), &[bytes as u8], code == 1 && dst.iter().all(|&x| x == 9));
            let ended = catch_unwind(move || original::read_le_u64_into(&vec![7u8; bytes], &mut vec![9u64; words]));
            let kind = if ended.is_ok() { "it returns" } else { "a panic" };
            r.differ(format!("read_le_u64_into, lengths that do not fit: {kind}"), &[bytes as u8, words as u8]);
        }
    }
    for w in (0..4usize).chain(9..64) {
        let kind = if catch_unwind(move || Scalar::to_radix_2w_size_hint(w)).is_ok() { "it returns" } else { "a panic" };
        r.differ(format!("to_radix_2w_size_hint, width refused: {kind}"), &[w as u8]);
    }
}

// The largest width: the place goes back by one at each digit.
fn largest_width(r: &mut Record) {
    let mut two = [0u8; 32];
    two[0] = 2;
    let (mut digits, mut tally) = ([77i8; 256], [78u32, 79]);
    let code = card::n_recode(&two, usize::MAX, &mut digits, &mut tally);
    r.must("non_adjacent_form, refused with 3".into(), &two, code == 3 && leaves_digits(&digits, &tally));
    let (done, ended) = mpsc::channel();
    std::thread::spawn(move || done.send(Scalar { bytes: two }.non_adjacent_form(usize::MAX)));
    let kind = if ended.recv_timeout(Duration::from_secs(5)).is_ok() { "digits come back" } else { "no answer in 5 seconds" };
    r.differ(format!("non_adjacent_form, width 2^64-1, width refused: {kind}"), &two);
}

fn main() {
    std::panic::set_hook(Box::new(|_| {}));
    let mut random = Random(2026);
    let each = 30_000;
    let edges = inputs::edges();
    println!("scalars: {} edges, and {each} each of random, few ones, few zeros, clamped", edges.len());
    let mut all = edges;
    for _ in 0..each {
        all.extend([random.bytes(), random.few_ones(), random.few_zeros(), random.clamped()]);
    }
    println!("scalars in all: {}", all.len());
    let mut r = Record::default();
    let mut with_33 = 0;
    for (i, s) in all.iter().enumerate() {
        without_digits(&mut r, s, &all[(i * 7 + 1) % all.len()]);
        for w in (0..=17).chain([31, 32, 62, 63]) {
            form_n(&mut r, s, w);
        }
        for w in 0..=17 {
            form_r(&mut r, s, w);
        }
        with_33 += (Scalar { bytes: *s }.as_radix_2w(8)[32] != 0) as u32;
    }
    wrong_sizes(&mut r);
    largest_width(&mut r);
    println!("scalars with a 33rd digit at width 8: {with_33}");
    println!("\nequal, or refused as document 01 says:");
    for (name, n) in &r.equal {
        println!("{n:>9}  {name}");
    }
    println!("\noutside the original's domain, what the original did: inputs, the smallest of them");
    for (kind, (n, least)) in &r.apart {
        println!("{n:>9}  {kind}: 0x{}", hex(least));
    }
    println!("\n{} comparisons, {} failures", r.equal.values().sum::<u64>(), r.failures);
    std::process::exit((r.failures != 0) as i32);
}
