// Calls every exported function from Rust: document 01's figures, every refusal, lent buffers between guards, and round trips.

#[path = "../../include/card_digits.rs"]
mod card;

use card::raw;
use std::ptr::null_mut;

#[derive(Default)]
struct Tally {
    checks: u64,
    failures: u64,
}

impl Tally {
    #[track_caller]
    fn check(&mut self, holds: bool) {
        self.checks += 1;
        if !holds {
            self.failures += 1;
            if self.failures <= 40 {
                println!("failed at {}", std::panic::Location::caller());
            }
        }
    }
}

// A buffer to lend, between guards, with a copy of what it held.
struct Lent<T> {
    room: Vec<T>,
    kept: Vec<T>,
}

const GUARD: usize = 40;

impl<T: Copy + PartialEq> Lent<T> {
    fn new(n: usize, fill: T, guard: T) -> Self {
        let mut room = vec![guard; n + 2 * GUARD];
        room[GUARD..GUARD + n].fill(fill);
        Lent { kept: room.clone(), room }
    }
    fn lend(&mut self) -> &mut [T] {
        let end = self.room.len() - GUARD;
        &mut self.room[GUARD..end]
    }
    fn held(&self) -> &[T] {
        &self.room[GUARD..self.room.len() - GUARD]
    }
    fn guarded(&self) -> bool {
        let end = self.room.len() - GUARD;
        self.room[..GUARD] == self.kept[..GUARD] && self.room[end..] == self.kept[end..]
    }
    fn untouched(&self) -> bool {
        self.room == self.kept
    }
}

fn bytes(n: usize) -> Lent<u8> {
    Lent::new(n, 0x11, 0xA5)
}

struct Random(u64);

impl Random {
    fn next(&mut self) -> u64 {
        self.0 ^= self.0 << 13;
        self.0 ^= self.0 >> 7;
        self.0 ^= self.0 << 17;
        self.0
    }
    // Any bytes, few bits, many bits, or a small integer.
    fn scalar(&mut self, turn: usize) -> [u8; 32] {
        let mut s = [0u8; 32];
        for (i, b) in s.iter_mut().enumerate() {
            let (x, y, z) = ((self.next() >> 24) as u8, (self.next() >> 32) as u8, (self.next() >> 16) as u8);
            *b = match turn % 4 {
                0 => x,
                1 => x & y & z,
                2 => x | y | z,
                _ => if i < turn % 32 { x } else { 0 },
            };
        }
        s
    }
}

// A form as document 01 states it.
struct Form {
    n: bool,
    narrowest: usize,
    length: usize,
    recode: fn(&[u8], usize, &mut [i8], &mut [u32]) -> u64,
    test: fn(&[i8], usize) -> u64,
    read: fn(&[i8], usize, &mut [u8]) -> u64,
}

const N: Form = Form { n: true, narrowest: 2, length: 256, recode: card::n_recode, test: card::n_test, read: card::n_read };
const R: Form = Form { n: false, narrowest: 4, length: 64, recode: card::r_recode, test: card::r_test, read: card::r_read };

const R_DIGITS: [usize; 9] = [0, 0, 0, 0, 64, 52, 43, 37, 33];
const R_TOP: [i32; 9] = [0, 0, 0, 0, 8, 2, 16, 16, 1];

fn code(number: u64, position: u64) -> u64 {
    number + 256 * position
}

impl Form {
    fn digits(&self, named: &[(usize, i8)]) -> Vec<i8> {
        let mut d = vec![0i8; self.length];
        for &(i, v) in named {
            d[i] = v;
        }
        d
    }

    fn keeps_rules(&self, w: usize, digits: &[i8]) -> bool {
        let half = 1i32 << (w - 1);
        let mut free_from = 0;
        digits.iter().enumerate().all(|(i, &d)| {
            let d = d as i32;
            if self.n {
                let fine = d == 0 || (d.abs() % 2 == 1 && d.abs() < half && i >= free_from);
                if d != 0 {
                    free_from = i + w;
                }
                fine
            } else if i + 1 < R_DIGITS[w] {
                -half <= d && d < half
            } else if i + 1 == R_DIGITS[w] {
                0 <= d && d <= R_TOP[w]
            } else {
                d == 0
            }
        })
    }

    // Done, with the rules kept, the sum that of the scalar, the right tally, and the bytes read back.
    fn round_trip(&self, t: &mut Tally, w: usize, s: &[u8]) -> Vec<i8> {
        let (mut d, mut tally) = (Lent::new(self.length, 0x11i8, 0x5A), Lent::new(2, 7u32, 0xA5A5));
        t.check((self.recode)(s, w, d.lend(), tally.lend()) == 0);
        t.check(d.guarded() && tally.guarded());
        t.check(self.keeps_rules(w, d.held()));
        t.check(sums_to(d.held(), if self.n { 1 } else { w }, s));
        let count = d.held().iter().rposition(|&x| x != 0).map_or(0, |i| i + 1);
        let additions = d.held().iter().filter(|&&x| x != 0).count();
        let want = if self.n { [count as u32, additions as u32] } else { [R_DIGITS[w] as u32, 0] };
        t.check(tally.held() == want);
        t.check((self.test)(d.held(), w) == 0);
        let mut out = bytes(32);
        t.check((self.read)(d.held(), w, out.lend()) == 0);
        t.check(out.guarded() && out.held() == s);
        d.held().to_vec()
    }

    fn figure(&self, t: &mut Tally, w: usize, s: &[u8], named: &[(usize, i8)]) {
        let made = self.round_trip(t, w, s);
        t.check(made == self.digits(named));
    }

    fn recode_refused(&self, t: &mut Tally, s: &[u8], w: usize, digits: usize, tally: usize, want: u64) {
        let (mut d, mut k) = (Lent::new(digits, 0x44i8, 0x5A), Lent::new(tally, 7u32, 0xA5A5));
        t.check((self.recode)(s, w, d.lend(), k.lend()) == want);
        t.check(d.untouched() && k.untouched());
    }

    fn string_refused(&self, t: &mut Tally, d: &[i8], w: usize, want: u64) {
        t.check((self.test)(d, w) == want);
        let mut out = bytes(32);
        t.check((self.read)(d, w, out.lend()) == want && out.untouched());
    }

    fn bad_string(&self, t: &mut Tally, w: usize, named: &[(usize, i8)], want: u64) {
        self.string_refused(t, &self.digits(named), w, want);
    }

    fn output_refused(&self, t: &mut Tally, d: &[i8], w: usize, n: usize) {
        let mut out = bytes(n);
        t.check((self.read)(d, w, out.lend()) == 1 && out.untouched());
    }

    fn refusals(&self, t: &mut Tally) {
        let (s, d) = ([0xFFu8; 64], [0x7Ei8; 320]);
        for w in [0, 1, self.narrowest - 1, 9, 10, 16, 256 + self.narrowest, (1 << 32) + 5, usize::MAX] {
            self.recode_refused(t, &s[..32], w, self.length, 2, 3);
            self.recode_refused(t, &s[..33], w, self.length, 2, 1);
            self.string_refused(t, &d[..self.length], w, 3);
            self.string_refused(t, &d[..self.length + 1], w, 1);
            self.output_refused(t, &d[..self.length], w, 31);
        }
        for w in self.narrowest..9 {
            for n in [0, 31, 33, 64] {
                self.recode_refused(t, &s[..n], w, self.length, 2, 1);
                self.output_refused(t, &d[..self.length], w, n);
            }
            for n in [0, 1, self.length - 1, self.length + 1, 320 - self.length] {
                self.recode_refused(t, &s[..32], w, n, 2, 1);
                self.string_refused(t, &d[..n], w, 1);
                self.output_refused(t, &d[..n], w, 33);
            }
            for n in [0, 1, 3] {
                self.recode_refused(t, &s[..32], w, self.length, n, 1);
            }
        }
    }

    fn round_trips(&self, t: &mut Tally, random: &mut Random) {
        for w in self.narrowest..9 {
            for turn in 0..300 {
                let mut s = random.scalar(turn);
                if self.n || w == 4 {
                    s[31] |= 128;
                    self.recode_refused(t, &s, w, self.length, 2, 4);
                    s[31] &= 127;
                }
                self.round_trip(t, w, &s);
            }
        }
    }
}

// The sum of the digits, digit i weighing 2^(step * i), added up byte by byte.
fn sums_to(digits: &[i8], step: usize, s: &[u8]) -> bool {
    let mut at = [0i64; 80];
    for (i, &d) in digits.iter().enumerate() {
        at[step * i / 8] += d as i64 * (1 << (step * i % 8));
    }
    let mut carry = 0;
    let same = at.iter().enumerate().all(|(k, &v)| {
        let whole = v + carry;
        carry = whole.div_euclid(256);
        whole.rem_euclid(256) == s.get(k).map_or(0, |&b| b as i64)
    });
    same && carry == 0
}

fn small(value: u8) -> [u8; 32] {
    let mut s = [0; 32];
    s[0] = value;
    s
}

fn figures(t: &mut Tally) {
    let (all, mut low) = ([0xFFu8; 32], [0xFFu8; 32]);
    low[31] = 0x7F;
    N.figure(t, 5, &small(0), &[]);
    N.figure(t, 3, &small(7), &[(0, -1), (3, 1)]);
    N.figure(t, 4, &small(7), &[(0, 7)]);
    N.figure(t, 4, &small(15), &[(0, -1), (4, 1)]);
    for w in 2..9 {
        N.figure(t, w, &low, &[(0, -1), (255, 1)]);
        N.recode_refused(t, &all, w, 256, 2, 4);
    }
    R.figure(t, 4, &small(8), &[(0, -8), (1, 1)]);
    R.figure(t, 4, &small(7), &[(0, 7)]);
    R.figure(t, 5, &small(16), &[(0, -16), (1, 1)]);
    R.figure(t, 8, &small(128), &[(0, -128), (1, 1)]);
    R.figure(t, 4, &low, &[(0, -1), (63, 8)]);
    R.figure(t, 8, &low, &[(0, -1), (31, -128), (32, 1)]);
    R.figure(t, 5, &all, &[(0, -1), (51, 2)]);
    R.figure(t, 6, &all, &[(0, -1), (42, 16)]);
    R.figure(t, 7, &all, &[(0, -1), (36, 16)]);
    R.figure(t, 8, &all, &[(0, -1), (32, 1)]);
    R.recode_refused(t, &all, 4, 64, 2, 4);

    N.bad_string(t, 2, &[(0, 1), (1, 1)], code(6, 1));
    N.bad_string(t, 2, &[(0, 2)], code(5, 0));
    N.bad_string(t, 2, &[(0, -1)], 7);
    N.bad_string(t, 2, &[(255, 1)], 8);
    t.check(card::n_test(&N.digits(&[(0, -1), (255, 1)]), 2) == 0);
    N.bad_string(t, 8, &[(255, -128)], code(5, 255));
    N.bad_string(t, 8, &[(248, 1), (255, 1)], code(6, 255));
    R.bad_string(t, 5, &[(0, 16)], code(5, 0));
    R.bad_string(t, 5, &[(51, 3)], code(5, 51));
    R.bad_string(t, 5, &[(52, 1)], code(5, 52));
    R.bad_string(t, 5, &[(51, 2)], 8);
    R.bad_string(t, 8, &[(63, 1)], code(5, 63));
    R.bad_string(t, 4, &[(0, -1)], 7);
}

fn whole_scalars(t: &mut Tally, random: &mut Random) {
    for turn in 0..300 {
        let (a, b) = (random.scalar(turn), random.scalar(turn + 1));
        let mut out = bytes(32);
        t.check(card::from_bits(&a, out.lend()) == 0);
        t.check(out.guarded() && out.held()[..31] == a[..31] && out.held()[31] == a[31] % 128);
        for (choice, want) in [(0, &a), (1, &b)] {
            let mut out = bytes(32);
            t.check(card::select(&a, &b, choice, out.lend()) == 0 && out.guarded() && out.held() == want);
            t.check(card::select(&b, &b, choice, out.lend()) == 0 && out.guarded() && out.held() == b);
        }
        let mut odd = bytes(1);
        t.check(card::is_odd(&a, odd.lend()) == 0 && odd.guarded() && odd.held() == [a[0] % 2]);
        let mut buf = Lent::new(32, turn as u8, 0xA5);
        t.check(card::zeroize(buf.lend()) == 0 && buf.guarded() && buf.held() == [0; 32]);
    }
    let (a, b) = ([3u8; 64], [4u8; 64]);
    for choice in WRONG_CHOICES {
        let mut out = bytes(32);
        t.check(card::select(&a[..32], &b[..32], choice, out.lend()) == 9 && out.untouched());
        t.check(card::select(&a[..33], &b[..32], choice, out.lend()) == 1 && out.untouched());
    }
    for n in [0, 2, 31, 33, 64] {
        let (mut fit, mut one, mut other) = (bytes(32), bytes(1), bytes(n));
        t.check(card::from_bits(&a[..n], fit.lend()) == 1 && fit.untouched());
        t.check(card::from_bits(&a[..32], other.lend()) == 1 && other.untouched());
        t.check(card::select(&a[..n], &b[..32], 0, fit.lend()) == 1 && fit.untouched());
        t.check(card::select(&a[..32], &b[..n], 0, fit.lend()) == 1 && fit.untouched());
        t.check(card::select(&a[..32], &b[..32], 0, other.lend()) == 1 && other.untouched());
        t.check(card::is_odd(&a[..n], one.lend()) == 1 && one.untouched());
        t.check(card::is_odd(&a[..32], other.lend()) == 1 && other.untouched());
        t.check(card::zeroize(other.lend()) == 1 && other.untouched());
    }
}

fn bits(t: &mut Tally, random: &mut Random) {
    for turn in 0..200 {
        let s = random.scalar(turn);
        let mut b = bytes(256);
        t.check(card::bits(&s, b.lend()) == 0 && b.guarded());
        t.check((0..256).all(|i| b.held()[i] == (s[i / 8] >> (i % 8)) & 1));
        let any: Vec<u8> = b.held().iter().map(|&x| if x == 0 { 0 } else { 1 + (random.next() % 255) as u8 }).collect();
        let mut out = bytes(32);
        t.check(card::from_bit_bytes(&any, out.lend()) == 0 && out.guarded() && out.held() == s);
    }
    let long = [1u8; 512];
    for n in [0, 31, 33, 255, 257] {
        let (mut b, mut out, mut other) = (bytes(256), bytes(32), bytes(n));
        t.check(card::bits(&long[..n], b.lend()) == 1 && b.untouched());
        t.check(card::bits(&long[..32], other.lend()) == 1 && other.untouched());
        t.check(card::from_bit_bytes(&long[..n], out.lend()) == 1 && out.untouched());
        t.check(card::from_bit_bytes(&long[..256], other.lend()) == 1 && other.untouched());
    }
}

fn words(t: &mut Tally, random: &mut Random) {
    let src: Vec<u8> = (0..160).map(|_| random.next() as u8).collect();
    for k in 0..17usize {
        let mut dst = Lent::new(k, 7u64, u64::MAX / 3);
        t.check(card::read_words(&src[..8 * k], dst.lend()) == 0 && dst.guarded());
        t.check((0..k).all(|i| dst.held()[i].to_le_bytes() == src[8 * i..8 * i + 8]));
        let mut back = bytes(8 * k);
        t.check(card::write_words(dst.held(), back.lend()) == 0 && back.guarded() && back.held() == &src[..8 * k]);
        for n in ((8 * k).saturating_sub(9)..8 * k + 10).filter(|&n| n != 8 * k) {
            let (mut short, mut other) = (Lent::new(k, 7u64, 9), bytes(n));
            t.check(card::read_words(&src[..n], short.lend()) == 1 && short.untouched());
            t.check(card::write_words(dst.held(), other.lend()) == 1 && other.untouched());
        }
    }
}

const WRONG_CHOICES: [u32; 8] = [2, 3, 255, 256, 257, 0x1_0000, 0x8000_0000, u32::MAX];

// Every function in one shape, as in tests/c/calls.h: its slices, each with the size of an element and a length that it takes.
#[derive(PartialEq)]
enum Kind {
    Bytes,
    Words,
    Choice,
    Recoder,
    String,
}

struct Call {
    kind: Kind,
    slices: &'static [(usize, usize)],
    make: fn(&[*mut u8], &[usize], usize, u32) -> u64,
}

const S: (usize, usize) = (1, card::SCALAR_BYTES);
const B: (usize, usize) = (1, card::SCALAR_BITS);
const DN: (usize, usize) = (1, card::N_DIGITS);
const DR: (usize, usize) = (1, card::R_ENTRIES);
const T: (usize, usize) = (4, card::TALLY_ENTRIES);

// p: pointers, n: lengths, w: a width, c: a choice
const CALLS: [Call; 14] = [
    Call { kind: Kind::Bytes, slices: &[S, S], make: |p, n, _, _| unsafe { raw::card_from_bits(p[0], n[0], p[1], n[1]) } },
    Call { kind: Kind::Choice, slices: &[S, S, S], make: |p, n, _, c| unsafe { raw::card_select(p[0], n[0], p[1], n[1], c, p[2], n[2]) } },
    Call { kind: Kind::Bytes, slices: &[S, (1, 1)], make: |p, n, _, _| unsafe { raw::card_is_odd(p[0], n[0], p[1], n[1]) } },
    Call { kind: Kind::Bytes, slices: &[S], make: |p, n, _, _| unsafe { raw::card_zeroize(p[0], n[0]) } },
    Call { kind: Kind::Bytes, slices: &[S, B], make: |p, n, _, _| unsafe { raw::card_bits(p[0], n[0], p[1], n[1]) } },
    Call { kind: Kind::Bytes, slices: &[B, S], make: |p, n, _, _| unsafe { raw::card_from_bit_bytes(p[0], n[0], p[1], n[1]) } },
    Call { kind: Kind::Words, slices: &[(1, 40), (8, 5)], make: |p, n, _, _| unsafe { raw::card_read_words(p[0], n[0], p[1].cast(), n[1]) } },
    Call { kind: Kind::Words, slices: &[(8, 5), (1, 40)], make: |p, n, _, _| unsafe { raw::card_write_words(p[0].cast(), n[0], p[1], n[1]) } },
    Call { kind: Kind::Recoder, slices: &[S, DN, T], make: |p, n, w, _| unsafe { raw::card_n_recode(p[0], n[0], w, p[1].cast(), n[1], p[2].cast(), n[2]) } },
    Call { kind: Kind::String, slices: &[DN], make: |p, n, w, _| unsafe { raw::card_n_test(p[0].cast(), n[0], w) } },
    Call { kind: Kind::String, slices: &[DN, S], make: |p, n, w, _| unsafe { raw::card_n_read(p[0].cast(), n[0], w, p[1], n[1]) } },
    Call { kind: Kind::Recoder, slices: &[S, DR, T], make: |p, n, w, _| unsafe { raw::card_r_recode(p[0], n[0], w, p[1].cast(), n[1], p[2].cast(), n[2]) } },
    Call { kind: Kind::String, slices: &[DR], make: |p, n, w, _| unsafe { raw::card_r_test(p[0].cast(), n[0], w) } },
    Call { kind: Kind::String, slices: &[DR, S], make: |p, n, w, _| unsafe { raw::card_r_read(p[0].cast(), n[0], w, p[1], n[1]) } },
];

// A buffer of so many bytes for elements of any size, between guards, or a null pointer of length 0.
struct Room {
    words: Vec<u64>,
    kept: Vec<u64>,
    bytes: usize,
    null: bool,
}

impl Room {
    fn new(bytes: usize, fill: u8) -> Self {
        let mut words = vec![0xA5A5_A5A5_A5A5_A5A5u64; bytes.div_ceil(8) + 2 * GUARD];
        for i in 0..bytes {
            let (at, shift) = (GUARD + i / 8, 8 * (i % 8));
            words[at] = words[at] & !(255 << shift) | (fill as u64) << shift;
        }
        Room { kept: words.clone(), words, bytes, null: false }
    }
    fn null() -> Self {
        Room { null: true, ..Room::new(0, 0) }
    }
    fn pointer(&mut self) -> *mut u8 {
        if self.null { null_mut() } else { self.words[GUARD..].as_mut_ptr().cast() }
    }
    fn untouched(&self) -> bool {
        self.words == self.kept
    }
}

impl Call {
    fn rooms(&self, fill: u8) -> Vec<Room> {
        self.slices.iter().map(|&(size, length)| Room::new(size * length, fill)).collect()
    }

    fn code(&self, rooms: &mut [Room], w: usize, c: u32) -> u64 {
        let p: Vec<*mut u8> = rooms.iter_mut().map(Room::pointer).collect();
        let n: Vec<usize> = rooms.iter().zip(self.slices).map(|(r, s)| r.bytes / s.0).collect();
        (self.make)(&p, &n, w, c)
    }

    // Refused with this code, and no buffer touched, of those that are only read either.
    fn refused(&self, mut rooms: Vec<Room>, w: usize, c: u32, want: u64) -> bool {
        self.code(&mut rooms, w, c) == want && rooms.iter().all(Room::untouched)
    }

    fn lengths(&self, t: &mut Tally, fill: u8, w: usize, c: u32) {
        for (k, &(size, length)) in self.slices.iter().enumerate() {
            for n in [0, length - 1, length + 1] {
                let mut rooms = self.rooms(fill);
                rooms[k] = Room::new(size * n, fill);
                t.check(self.refused(rooms, w, c, card::WRONG_LENGTH));
            }
            let mut rooms = self.rooms(fill);
            rooms[k] = Room::null();
            t.check(self.refused(rooms, w, c, card::WRONG_LENGTH));
        }
        let none = self.slices.iter().map(|_| Room::null()).collect();
        t.check(self.refused(none, w, c, if self.kind == Kind::Words { card::DONE } else { card::WRONG_LENGTH }));
    }

    fn all(&self, t: &mut Tally) {
        t.check(self.code(&mut self.rooms(0), 5, 0) == card::DONE);
        self.lengths(t, 0, 5, 0);
        self.lengths(t, 0xFE, 9, 2);
        if self.kind == Kind::Choice {
            for c in WRONG_CHOICES {
                t.check(self.refused(self.rooms(0x44), 5, c, card::WRONG_CHOICE));
            }
        }
        if self.kind == Kind::Recoder || self.kind == Kind::String {
            for w in [0, 1, 9, 10, 256 + 5, (1 << 32) + 5, (1 << 63) + 5, usize::MAX] {
                t.check(self.refused(self.rooms(0xFE), w, 0, card::WRONG_WIDTH));
            }
        }
        if self.kind == Kind::Recoder {
            t.check(self.refused(self.rooms(0xFE), 4, 0, card::TOO_WIDE));
        }
        if self.kind == Kind::String {
            t.check(self.refused(self.rooms(0x7E), 4, 0, card::BROKEN_DIGIT));
            let mut rooms = self.rooms(0);
            rooms[0].words[GUARD + 7] = 0x7E << 56;
            rooms[0].kept[GUARD + 7] = 0x7E << 56;
            t.check(self.refused(rooms, 4, 0, code(card::BROKEN_DIGIT, 63)));
        }
    }
}

fn codes(t: &mut Tally) {
    for number in [card::DONE, card::WRONG_LENGTH, card::WRONG_WIDTH, card::TOO_WIDE, card::BROKEN_DIGIT, card::CROWDED, card::NEGATIVE, card::PAST_END, card::WRONG_CHOICE] {
        for position in [0, 1, 63, 255, 256, 448, u64::MAX >> 8] {
            let told = code(number, position);
            t.check(card::number(told) == number && card::position(told) == position as usize);
        }
    }
    let told = card::n_test(&N.digits(&[(248, 1), (255, 1)]), 8);
    t.check(card::number(told) == card::CROWDED && card::position(told) == 255);
}

fn main() {
    let (mut t, mut random) = (Tally::default(), Random(0x9E37_79B9_7F4A_7C15));
    codes(&mut t);
    for call in CALLS {
        call.all(&mut t);
    }
    figures(&mut t);
    whole_scalars(&mut t, &mut random);
    bits(&mut t, &mut random);
    words(&mut t, &mut random);
    for form in [N, R] {
        form.refusals(&mut t);
        form.round_trips(&mut t, &mut random);
    }
    if t.failures != 0 {
        println!("rust: {} of {} checks failed", t.failures, t.checks);
        std::process::exit(1);
    }
    println!("rust: {} checks passed", t.checks);
}
