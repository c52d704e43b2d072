//! Compares the proved library with a second program written from document 01, on a seeded stream of requests and matrices: every field of
//! every answer and every byte of every lent buffer, with marked bytes around each.
//!
//! usage: compare [--seed N] [--count N] [--mutants] [--outside FILE] [--job NAME]

mod paper;

use paper::{Drawn, Field, Quirks, Reading, Span};
use std::time::Instant;

/// What is compared: the library, or a stand-in.
trait Subject {
    fn write(&self, payload: &[u8], list: &[u16], level: u32, version: u32, mask: u32, out: &mut [u8]) -> Drawn;
    fn read(&self, matrix: &[u8], payload: &mut [u8], list: &mut [u16]) -> Reading;
    fn part(&self, payload: &[u8], list: &[u16], k: usize) -> Span;
}

mod library {
    use super::paper::{Drawn, Reading, Span};

    // as in include/kqs.h
    extern "C" {
        fn kqs_write(
            payload: *const u8, payload_len: usize, list: *const u16, list_len: usize,
            level: u32, version: u32, mask: u32, out: *mut u8, out_len: usize,
        ) -> Drawn;
        fn kqs_read(
            matrix: *const u8, matrix_len: usize, payload: *mut u8, payload_cap: usize, list: *mut u16, list_cap: usize,
        ) -> Reading;
        fn kqs_part(payload: *const u8, payload_len: usize, list: *const u16, list_len: usize, k: usize) -> Span;
    }

    pub struct Panel;
    impl super::Subject for Panel {
        fn write(&self, payload: &[u8], list: &[u16], level: u32, version: u32, mask: u32, out: &mut [u8]) -> Drawn {
            unsafe { kqs_write(payload.as_ptr(), payload.len(), list.as_ptr(), list.len(), level, version, mask, out.as_mut_ptr(), out.len()) }
        }
        fn read(&self, matrix: &[u8], payload: &mut [u8], list: &mut [u16]) -> Reading {
            unsafe { kqs_read(matrix.as_ptr(), matrix.len(), payload.as_mut_ptr(), payload.len(), list.as_mut_ptr(), list.len()) }
        }
        fn part(&self, payload: &[u8], list: &[u16], k: usize) -> Span {
            unsafe { kqs_part(payload.as_ptr(), payload.len(), list.as_ptr(), list.len(), k) }
        }
    }
}

/// The second program with one error turned on.
struct Mutant<'a> {
    field: &'a Field,
    quirks: Quirks,
}
impl Subject for Mutant<'_> {
    fn write(&self, payload: &[u8], list: &[u16], level: u32, version: u32, mask: u32, out: &mut [u8]) -> Drawn {
        paper::write(self.field, payload, list, level, version, mask, out, &self.quirks)
    }
    fn read(&self, matrix: &[u8], payload: &mut [u8], list: &mut [u16]) -> Reading {
        paper::read(self.field, matrix, payload, list, &self.quirks)
    }
    fn part(&self, payload: &[u8], list: &[u16], k: usize) -> Span {
        paper::part(payload.len(), list, k, &self.quirks)
    }
}

/// A stream of numbers from a seed (splitmix).
struct Seeded(u64);
impl Seeded {
    fn next(&mut self) -> u64 {
        self.0 = self.0.wrapping_add(0x9E3779B97F4A7C15);
        let mut z = self.0;
        z = (z ^ (z >> 30)).wrapping_mul(0xBF58476D1CE4E5B9);
        z = (z ^ (z >> 27)).wrapping_mul(0x94D049BB133111EB);
        z ^ (z >> 31)
    }
    /// below n
    fn below(&mut self, n: usize) -> usize {
        (self.next() % n as u64) as usize
    }
    fn pick<T: Copy>(&mut self, xs: &[T]) -> T {
        xs[self.below(xs.len())]
    }
    /// k different numbers below n
    fn some(&mut self, k: usize, n: usize) -> Vec<usize> {
        let mut all: Vec<usize> = (0..n).collect();
        for i in 0..k.min(n) {
            let j = i + self.below(n - i);
            all.swap(i, j);
        }
        all.truncate(k.min(n));
        all
    }
}

const PLAIN: Quirks = Quirks {
    lone_digit_as_zero: false,
    last_group_in_ten_bits: false,
    checks_block_after_block: false,
    bound_over_symbol: false,
    tie_to_higher_mask: false,
    payload_on_refusal: false,
    pair_six_five: false,
    one_window_form: false,
    surplus_unmasked: false,
    first_block_only: false,
    sums_zero: false,
    one_format_copy: false,
    other_version_ignored: false,
    pads_swapped: false,
    groups_before_body: false,
    wide_counts_at_nine: false,
    part_past_end: false,
    refuses_everything: false,
    draws_nothing: false,
};

struct Run<'a> {
    field: &'a Field,
    subject: &'a dyn Subject,
    rng: Seeded,
    kinds: Vec<(String, usize, usize)>,
    seen: [usize; 17],
    quiet: bool,
    first: Option<String>,
}

const EDGE: usize = 64;

impl<'a> Run<'a> {
    fn new(field: &'a Field, subject: &'a dyn Subject, seed: u64, quiet: bool) -> Run<'a> {
        Run { field, subject, rng: Seeded(seed), kinds: Vec::new(), seen: [0; 17], quiet, first: None }
    }
    fn failed(&self) -> usize {
        self.kinds.iter().map(|k| k.2).sum()
    }
    fn tell(&mut self, ok: bool, what: impl Fn() -> String) {
        let kind = self.kinds.last_mut().unwrap();
        kind.1 += 1;
        if !ok {
            kind.2 += 1;
            let line = format!("{}: {}", kind.0, what());
            if self.first.is_none() {
                self.first = Some(line.clone());
            }
            if !self.quiet && kind.2 <= 3 {
                println!("  differs: {}", line.chars().take(600).collect::<String>());
            }
        }
    }
    fn kind(&mut self, name: &str) {
        self.kinds.push((name.to_string(), 0, 0));
    }
    fn done(&self, start: Instant) {
        if !self.quiet {
            let k = self.kinds.last().unwrap();
            println!("{:<44} {:>7} cases {:>4} differ  {:>6.1} s", k.0, k.1, k.2, start.elapsed().as_secs_f64());
        }
    }

    /// One request, with marked bytes around the output.
    fn request(&mut self, payload: &[u8], list: &[u16], level: u32, version: u32, mask: u32, room: usize) -> (Drawn, Vec<u8>) {
        let before: Vec<u8> = (0..EDGE + room + EDGE).map(|_| self.rng.next() as u8).collect();
        let mut wanted = before.clone();
        let expected = paper::write(self.field, payload, list, level, version, mask, &mut wanted[EDGE..EDGE + room], &PLAIN);
        let mut given = before.clone();
        let got = self.subject.write(payload, list, level, version, mask, &mut given[EDGE..EDGE + room]);
        self.seen[expected.refusal as usize] += 1;
        self.tell(got == expected && given == wanted, || {
            format!("write level {level} version {version} mask {mask} room {room} list {list:?} payload {payload:?}: {got:?}, not {expected:?}; memory {}", given == wanted)
        });
        (expected, wanted[EDGE..EDGE + room].to_vec())
    }
    /// One matrix, with marked numbers around both buffers.
    fn matrix(&mut self, m: &[u8], payload_room: usize, list_room: usize) -> Reading {
        let bytes: Vec<u8> = (0..EDGE + payload_room + EDGE).map(|_| self.rng.next() as u8).collect();
        let numbers: Vec<u16> = (0..EDGE + list_room + EDGE).map(|_| self.rng.next() as u16).collect();
        let (mut wanted, mut wanted_list) = (bytes.clone(), numbers.clone());
        let expected =
            paper::read(self.field, m, &mut wanted[EDGE..EDGE + payload_room], &mut wanted_list[EDGE..EDGE + list_room], &PLAIN);
        let (mut given, mut given_list) = (bytes, numbers);
        let copy = m.to_vec();
        let got = self.subject.read(m, &mut given[EDGE..EDGE + payload_room], &mut given_list[EDGE..EDGE + list_room]);
        self.seen[expected.refusal as usize] += 1;
        self.tell(got == expected && given == wanted && given_list == wanted_list && copy == m, || {
            format!("read {} modules: {got:?}, not {expected:?}; memory {} {}", m.len(), given == wanted, given_list == wanted_list)
        });
        expected
    }
    fn whole(&mut self, m: &[u8]) -> Reading {
        self.matrix(m, 652, 308)
    }

    fn character(&mut self, mode: u16) -> u8 {
        match mode {
            1 => b'0' + self.rng.below(10) as u8,
            2 => b"0123456789ABCDEFGHIJKLMNOPQRSTUVWXYZ $%*+-./:"[self.rng.below(45)],
            _ => self.rng.next() as u8,
        }
    }
    fn characters(&mut self, mode: u16, count: usize) -> Vec<u8> {
        (0..count).map(|_| self.character(mode)).collect()
    }
    /// A lawful message of up to `most` characters in up to `segments` segments.
    fn message(&mut self, segments: usize, most: usize) -> (Vec<u8>, Vec<u16>) {
        let (mut payload, mut list) = (Vec::new(), Vec::new());
        for _ in 0..self.rng.below(segments + 1) {
            let mode = self.rng.pick(&[1u16, 2, 4]);
            let count = if self.rng.below(6) == 0 { 0 } else { self.rng.below(most + 1) };
            payload.extend(self.characters(mode, count));
            list.extend([mode, count as u16]);
        }
        (payload, list)
    }
    /// The most characters of one segment that fit.
    fn capacity(&self, v: usize, level: usize, mode: u16) -> usize {
        (0..3000).take_while(|&k| paper::fits(v, level, &[mode, k as u16], &PLAIN)).last().unwrap_or(0)
    }
    /// A message that fits the version and level.
    fn fitting(&mut self, v: usize, level: usize) -> (Vec<u8>, Vec<u16>) {
        loop {
            let mode = self.rng.pick(&[1u16, 2, 4]);
            let most = self.capacity(v, level, mode);
            let (payload, list) = if self.rng.below(2) == 0 {
                let count = self.rng.below(most + 1);
                (self.characters(mode, count), vec![mode, count as u16])
            } else {
                self.message(4, most / 3 + 1)
            };
            if paper::fits(v, level, &list, &PLAIN) {
                return (payload, list);
            }
        }
    }
    fn drawn(&mut self, v: usize, level: usize, mask: usize) -> Vec<u8> {
        let (payload, list) = self.fitting(v, level);
        let s = paper::side(v);
        let mut out = vec![0; s * s];
        let d = paper::write(self.field, &payload, &list, level as u32, v as u32, mask as u32, &mut out, &PLAIN);
        assert_eq!(d.refusal, 0);
        out
    }
    /// The modules of codeword p of block b.
    fn modules_of(&self, v: usize, level: usize, b: usize, p: usize) -> Vec<usize> {
        let q = paper::sent_order(v, level, &PLAIN).iter().position(|&c| c == (b, p)).unwrap();
        let s = paper::side(v);
        paper::data_modules(v, &PLAIN)[8 * q..8 * q + 8].iter().map(|&(i, j)| i * s + j).collect()
    }
    /// Damages each block by t wrong and e unreadable codewords.
    fn damage(&mut self, m: &mut [u8], v: usize, level: usize, counts: &[(usize, usize)]) {
        let order = paper::sent_order(v, level, &PLAIN);
        let modules = paper::data_modules(v, &PLAIN);
        let s = paper::side(v);
        for (b, &size) in paper::block_sizes(v, level).iter().enumerate() {
            let (t, e) = counts[b];
            let places = self.rng.some(t + e, size + paper::checks(v, level));
            for (k, &p) in places.iter().enumerate() {
                let q = order.iter().position(|&c| c == (b, p)).unwrap();
                let eight: Vec<usize> = modules[8 * q..8 * q + 8].iter().map(|&(i, j)| i * s + j).collect();
                let bits = 1 + self.rng.below(255);
                for (h, &x) in eight.iter().enumerate() {
                    if bits >> h & 1 == 1 {
                        m[x] = if k < t { 1 - m[x] } else { 2 };
                    } else if k >= t && self.rng.below(3) == 0 {
                        m[x] = 1 - m[x];
                    }
                }
            }
        }
    }
    /// Damages the places of a word by d wrong and e unreadable bits.
    fn damage_word(&mut self, m: &mut [u8], s: usize, places: &[(usize, usize)], d: usize, e: usize) {
        for (k, b) in self.rng.some(d + e, places.len()).into_iter().enumerate() {
            let x = places[b].0 * s + places[b].1;
            m[x] = if k < d { 1 - m[x] } else { 2 };
        }
    }
}

fn writing(r: &mut Run, count: usize) {
    let start = Instant::now();
    r.kind("drawn: each version, level and mask");
    for v in 1..=10 {
        for level in 0..4 {
            for mask in 0..9 {
                let (payload, list) = r.fitting(v, level);
                let s = paper::side(v);
                let room = s * s + r.rng.pick(&[0usize, 1, 40]);
                r.request(&payload, &list, level as u32, v as u32, mask, room);
            }
        }
    }
    r.done(start);

    let start = Instant::now();
    r.kind("drawn: at capacity and one past");
    for v in 0..=10usize {
        for level in 0..4 {
            for mode in [1u16, 2, 4] {
                let most = r.capacity(if v == 0 { 10 } else { v }, level, mode);
                for k in [most, most + 1] {
                    let payload = r.characters(mode, k);
                    let mask = r.rng.below(8) as u32;
                    r.request(&payload, &[mode, k as u16], level as u32, v as u32, mask, 3249);
                }
            }
        }
    }
    r.done(start);

    let start = Instant::now();
    r.kind("drawn: smallest version, mask chosen");
    for _ in 0..count / 20 {
        let (payload, list) = r.message(5, 60);
        let level = r.rng.below(4) as u32;
        r.request(&payload, &list, level, 0, 8, 3249);
    }
    for segments in [0, 1, 2, 150, 151, 152, 153, 154, 155, 156] {
        let list: Vec<u16> = (0..segments).flat_map(|_| [4, 0]).collect();
        for version in [0, 9, 10] {
            r.request(&[], &list, 0, version, 3, 3249);
        }
    }
    r.done(start);

    let start = Instant::now();
    r.kind("drawn: masks of equal score");
    for _ in 0..4000 {
        let (payload, list) = r.message(2, 8);
        if !paper::fits(1, 0, &list, &PLAIN) {
            continue;
        }
        let codewords = paper::codewords_of(r.field, 1, 0, &paper::data_of(1, 0, &payload, &list, &PLAIN), &PLAIN);
        let scores: Vec<i64> = (0..8).map(|k| paper::penalty(21, &paper::symbol(1, 0, k, &codewords, &PLAIN), &PLAIN)).collect();
        let least = scores.iter().min().unwrap();
        if scores.iter().filter(|&x| x == least).count() > 1 {
            r.request(&payload, &list, 0, 1, 8, 441);
            if r.kinds.last().unwrap().1 == 20 {
                break;
            }
        }
    }
    r.done(start);

    let start = Instant::now();
    r.kind("drawn or refused: numbers, lists, sums, characters");
    for _ in 0..count / 2 {
        let (mut payload, mut list) = r.message(4, 12);
        let level = if r.rng.below(8) == 0 { r.rng.pick(&[4u32, 5, 255, u32::MAX]) } else { r.rng.below(4) as u32 };
        let version = if r.rng.below(8) == 0 { r.rng.pick(&[11u32, 12, 256, u32::MAX]) } else { r.rng.below(4) as u32 };
        let mask = if r.rng.below(8) == 0 { r.rng.pick(&[9u32, 10, 256, u32::MAX]) } else { r.rng.below(8) as u32 };
        if r.rng.below(5) == 0 {
            let extra = r.rng.below(4) as u16;
            list.push(extra);
        }
        if r.rng.below(5) == 0 && !list.is_empty() {
            let k = r.rng.below((list.len() + 1) / 2) * 2;
            list[k] = r.rng.pick(&[0u16, 3, 5, 7, 8, 257, 65535]);
        }
        if r.rng.below(5) == 0 && list.len() > 1 {
            let k = r.rng.below(list.len() / 2) * 2 + 1;
            list[k] = list[k].wrapping_add(r.rng.pick(&[1u16, 65535, 256]));
        }
        if r.rng.below(5) == 0 && !payload.is_empty() {
            let k = r.rng.below(payload.len());
            payload[k] = r.rng.pick(&[b'a', b'/', b':', b';', b'@', b'[', 0, 255, b' ', b'$', b'%', b'&']);
        }
        if r.rng.below(8) == 0 {
            payload.push(b'0');
        }
        let room = r.rng.pick(&[0usize, 440, 441, 624, 625, 840, 841, 3249]);
        r.request(&payload, &list, level, version, mask, room);
    }
    for (payload, list) in [
        (vec![b'0'; 65536], vec![4u16, 65535, 4, 1]),
        (vec![b'0'; 65535], vec![4, 65535]),
        (vec![b'0'; 0], vec![4, 65535, 4, 1]),
        (vec![b'0'; 653], vec![1, 653]),
        (vec![b'0'; 652], vec![1, 652]),
        (vec![b'x'; 700], vec![1, 700]),
        (vec![b'0'; 1], vec![]),
        (vec![b'0'; 3], vec![1, 1, 1, 1, 1, 1]),
    ] {
        for version in [0, 10] {
            r.request(&payload, &list, 0, version, 1, 3249);
        }
    }
    let long: Vec<u16> = (0..70000).flat_map(|_| [4, 65535]).collect();
    r.request(&[1, 2, 3], &long, 0, 0, 8, 3249);
    r.done(start);
}

fn reading(r: &mut Run, count: usize) {
    let start = Instant::now();
    r.kind("read: clean, each version, level and mask");
    for v in 1..=10 {
        for level in 0..4 {
            for mask in 0..8 {
                let m = r.drawn(v, level, mask);
                r.whole(&m);
            }
        }
    }
    r.done(start);

    for (name, past) in [("read: each block at its bound", 0usize), ("read: a block past its bound", 1)] {
        let start = Instant::now();
        r.kind(name);
        for _ in 0..count / 10 {
            let (v, level) = (1 + r.rng.below(10), r.rng.below(4));
            let mask = r.rng.below(8);
            let mut m = r.drawn(v, level, mask);
            let n = paper::checks(v, level);
            let bad = r.rng.below(paper::blocks(v, level));
            let counts: Vec<(usize, usize)> = (0..paper::blocks(v, level))
                .map(|b| {
                    let bound = if b == bad { n + past } else { r.rng.below(n + 1) };
                    let t = r.rng.below(bound / 2 + 1);
                    (t, bound - 2 * t)
                })
                .collect();
            r.damage(&mut m, v, level, &counts);
            r.whole(&m);
        }
        r.done(start);
    }

    let start = Instant::now();
    r.kind("read: format and version copies");
    for _ in 0..count / 4 {
        let (v, level) = (1 + r.rng.below(10), r.rng.below(4));
        let mask = r.rng.below(8);
        let mut m = r.drawn(v, level, mask);
        let s = paper::side(v);
        for copy in 0..2 {
            match r.rng.below(4) {
                0 => {}
                1 => {
                    let (d, e) = r.rng.pick(&[(3, 0), (2, 2), (1, 4), (0, 6), (0, 7), (4, 0), (3, 1), (2, 3), (1, 5), (7, 0)]);
                    r.damage_word(&mut m, s, &paper::format_places(s, copy), d, e);
                }
                2 => {
                    let other = paper::format_word(r.rng.below(4), r.rng.below(8));
                    for (b, (i, j)) in paper::format_places(s, copy).into_iter().enumerate() {
                        m[i * s + j] = (other >> b & 1) as u8;
                    }
                    let d = r.rng.below(5);
                    r.damage_word(&mut m, s, &paper::format_places(s, copy), d, 0);
                }
                _ => {
                    let e = r.rng.below(16);
                    r.damage_word(&mut m, s, &paper::format_places(s, copy), 0, e);
                }
            }
            if v >= 7 {
                match r.rng.below(4) {
                    0 | 1 => {}
                    2 => {
                        let (d, e) = r.rng.pick(&[(3, 0), (4, 0), (2, 2), (0, 6), (0, 7), (9, 0), (0, 18)]);
                        r.damage_word(&mut m, s, &paper::version_places(s, copy), d, e);
                    }
                    _ => {
                        let other = paper::version_word(7 + r.rng.below(36) as u32);
                        for (b, (i, j)) in paper::version_places(s, copy).into_iter().enumerate() {
                            m[i * s + j] = (other >> b & 1) as u8;
                        }
                        let d = r.rng.below(5);
                        r.damage_word(&mut m, s, &paper::version_places(s, copy), d, 0);
                    }
                }
            }
        }
        r.whole(&m);
    }
    r.done(start);

    let start = Instant::now();
    r.kind("read: streams from raw data codewords");
    for k in 0..count / 2 {
        let (v, level) = (1 + r.rng.below(10), r.rng.below(4));
        let size = paper::data_codewords(v, level);
        let mut data: Vec<u8> = (0..size).map(|_| r.rng.next() as u8).collect();
        if k % 3 != 0 {
            let (payload, list) = r.fitting(v, level);
            data = paper::data_of(v, level, &payload, &list, &PLAIN);
            for _ in 0..1 + r.rng.below(3) {
                let at = r.rng.below(size.min(40));
                data[at] = r.rng.next() as u8;
            }
        } else {
            data[0] = r.rng.pick(&[0x10u8, 0x20, 0x40]) | (data[0] & 15);
            if r.rng.below(2) == 0 {
                data[0] &= 0xF0;
                data[1] &= 0x3F;
            }
        }
        let codewords = paper::codewords_of(r.field, v, level, &data, &PLAIN);
        let m = paper::symbol(v, level, r.rng.below(8), &codewords, &PLAIN);
        r.whole(&m);
    }
    r.done(start);

    let start = Instant::now();
    r.kind("read: nearer to another codeword");
    for _ in 0..count / 10 {
        let (v, level) = (1 + r.rng.below(10), r.rng.below(4));
        let size = paper::data_codewords(v, level);
        let n = paper::checks(v, level);
        let (payload, list) = r.fitting(v, level);
        let data = paper::data_of(v, level, &payload, &list, &PLAIN);
        let mut other = data.clone();
        let at = r.rng.below(size);
        other[at] ^= 1 + r.rng.below(255) as u8;
        let a = paper::codewords_of(r.field, v, level, &data, &PLAIN);
        let b = paper::codewords_of(r.field, v, level, &other, &PLAIN);
        let apart: Vec<usize> = (0..a.len()).filter(|&k| a[k] != b[k]).collect();
        let keep = r.rng.below(n / 2 + 3);
        let mut mixed = b.clone();
        for &k in apart.iter().take(keep) {
            mixed[k] = a[k];
        }
        let m = paper::symbol(v, level, r.rng.below(8), &mixed, &PLAIN);
        r.whole(&m);
    }
    r.done(start);

    let start = Instant::now();
    r.kind("read: random and spoilt matrices");
    for k in 0..count / 4 {
        let v = 1 + r.rng.below(10);
        let s = paper::side(v);
        let mut m: Vec<u8> = match k % 3 {
            0 => (0..s * s).map(|_| r.rng.below(3) as u8).collect(),
            1 => (0..s * s).map(|_| r.rng.below(2) as u8).collect(),
            _ => {
                let level = r.rng.below(4);
                let mask = r.rng.below(8);
                let mut m = r.drawn(v, level, mask);
                for _ in 0..r.rng.below(s * s / 8) {
                    let x = r.rng.below(s * s);
                    m[x] = r.rng.below(3) as u8;
                }
                m
            }
        };
        if r.rng.below(6) == 0 {
            let x = r.rng.below(s * s);
            m[x] = r.rng.pick(&[3u8, 4, 255]);
        }
        r.whole(&m);
    }
    r.done(start);

    let start = Instant::now();
    r.kind("read: lengths and buffers");
    for len in [0usize, 1, 440, 441, 442, 624, 625, 626, 841, 1089, 1369, 1681, 2025, 2401, 2809, 3248, 3249, 3250, 3721, 4000] {
        for (payload, list) in [(652, 308), (651, 308), (652, 307), (0, 0), (700, 400), (651, 307)] {
            let fill = r.rng.pick(&[0u8, 1, 2, 3]);
            let m = vec![fill; len];
            r.matrix(&m, payload, list);
        }
    }
    for _ in 0..count / 20 {
        let (v, level) = (1 + r.rng.below(10), r.rng.below(4));
        let m = r.drawn(v, level, 0);
        let (payload, list) = r.rng.pick(&[(652, 308), (651, 308), (652, 307), (1000, 308), (652, 1000)]);
        r.matrix(&m, payload, list);
    }
    let list: Vec<u16> = (0..154).flat_map(|_| [4, 0]).collect();
    let (_, m) = r.request(&[], &list, 0, 9, 0, 53 * 53);
    r.whole(&m);
    let digits = vec![b'7'; 652];
    let (_, m) = r.request(&digits, &[1, 652], 0, 10, 0, 3249);
    r.whole(&m);
    r.done(start);

    let start = Instant::now();
    r.kind("read: document 01's bounds at 1-L");
    for (t, e) in [(0, 7), (0, 8), (3, 1), (3, 2), (4, 0), (3, 0), (2, 3), (1, 5)] {
        for _ in 0..8 {
            let mut m = r.drawn(1, 0, 2);
            r.damage(&mut m, 1, 0, &[(t, e)]);
            r.whole(&m);
        }
    }
    for p in 0..26 {
        let m = r.drawn(1, 0, 2);
        for x in r.modules_of(1, 0, 0, p) {
            let mut one = m.clone();
            one[x] = 2;
            r.whole(&one);
        }
    }
    r.done(start);
}

fn parts(r: &mut Run, count: usize) {
    let start = Instant::now();
    r.kind("part of a payload");
    for _ in 0..count {
        let (payload, mut list) = r.message(6, 20);
        match r.rng.below(5) {
            0 => list.push(4),
            1 if list.len() > 1 => {
                let k = r.rng.below(list.len() / 2) * 2 + 1;
                list[k] = list[k].wrapping_add(r.rng.pick(&[1u16, 7, 65535]));
            }
            _ => {}
        }
        let k = if r.rng.below(8) == 0 { r.rng.pick(&[usize::MAX, usize::MAX / 2, 1 << 32]) } else { r.rng.below(list.len() / 2 + 2) };
        let expected = paper::part(payload.len(), &list, k, &PLAIN);
        let got = r.subject.part(&payload, &list, k);
        r.tell(got == expected, || format!("part {k} of {list:?}, {} bytes: {got:?}, not {expected:?}", payload.len()));
    }
    r.done(start);
}

/// The second program itself: what document 01 names.
fn examples(r: &mut Run) {
    let start = Instant::now();
    r.kind("document 01's examples, by the second program");
    let data = paper::data_of(1, 1, b"01234567", &[1, 8], &PLAIN);
    r.tell(data == [0x10, 0x20, 0x0C, 0x56, 0x61, 0x80, 0xEC, 0x11, 0xEC, 0x11, 0xEC, 0x11, 0xEC, 0x11, 0xEC, 0x11], || format!("a: {data:x?}"));
    let checks = r.field.checks(&data, 10);
    r.tell(checks == [0xA5, 0x24, 0xD4, 0xC1, 0xED, 0x36, 0xC7, 0x87, 0x2C, 0x55], || format!("a: {checks:x?}"));
    let data = paper::data_of(1, 3, b"AC-42", &[2, 5], &PLAIN);
    r.tell(data == [0x20, 0x29, 0xCE, 0xE7, 0x21, 0x00, 0xEC, 0x11, 0xEC], || format!("b: {data:x?}"));
    r.tell(paper::format_word(1, 5) == 0x40CE, || "d".to_string());
    let words: Vec<u32> = (7..11).map(paper::version_word).collect();
    r.tell(words == [0x07C94, 0x085BC, 0x09A99, 0x0A4D3], || format!("e: {words:x?}"));
    r.tell(paper::block_sizes(5, 2) == [15, 15, 16, 16], || "f".to_string());
    r.tell(paper::mul(2, 128) == 29 && paper::power(255) == 1 && paper::inverse(2) == 142, || "l".to_string());
    r.done(start);
}

/// Symbols that other programs drew with a named version, level and mask: version, level, mask, mode, then the payload's and the
/// matrix's length (high byte first), payload, modules (eight to a byte from its highest bit on).
fn outside(r: &mut Run, file: &[u8]) {
    let start = Instant::now();
    r.kind("outside symbols, forced version, level and mask");
    let mut at = 0;
    while at < file.len() {
        let (v, level, mask, mode) = (file[at] as usize, file[at + 1] as u32, file[at + 2] as u32, file[at + 3] as u16);
        let count = file[at + 4] as usize * 256 + file[at + 5] as usize;
        let payload = &file[at + 8..at + 8 + count];
        let s = paper::side(v);
        let bits = &file[at + 8 + count..];
        let modules: Vec<u8> = (0..s * s).map(|k| bits[k / 8] >> (7 - k % 8) & 1).collect();
        at += 8 + count + (s * s + 7) / 8;
        let (d, drawn) = r.request(payload, &[mode, count as u16], level, v as u32, mask, s * s);
        r.tell(d.refusal == 0 && drawn == modules, || format!("symbol of version {v} level {level} mask {mask} mode {mode}"));
        r.whole(&modules);
    }
    r.done(start);
}

fn compare(field: &Field, subject: &dyn Subject, seed: u64, count: usize, quiet: bool, symbols: &[u8]) -> (usize, usize, Option<String>, [usize; 17]) {
    let mut r = Run::new(field, subject, seed, quiet);
    examples(&mut r);
    outside(&mut r, symbols);
    writing(&mut r, count);
    reading(&mut r, count);
    parts(&mut r, count);
    let all: usize = r.kinds.iter().map(|k| k.1).sum();
    (all - r.failed(), r.failed(), r.first.clone(), r.seen)
}

fn mutants() -> Vec<(&'static str, Quirks)> {
    vec![
        ("a lone last digit read as zero", Quirks { lone_digit_as_zero: true, ..PLAIN }),
        ("a last group of one or two digits in 10 bits", Quirks { last_group_in_ten_bits: true, ..PLAIN }),
        ("checks sent block after block", Quirks { checks_block_after_block: true, ..PLAIN }),
        ("the bound counted over the symbol", Quirks { bound_over_symbol: true, ..PLAIN }),
        ("the highest mask among equals", Quirks { tie_to_higher_mask: true, ..PLAIN }),
        ("a byte written on a refusal", Quirks { payload_on_refusal: true, ..PLAIN }),
        ("the column pair (6,5)", Quirks { pair_six_five: true, ..PLAIN }),
        ("one form of the window", Quirks { one_window_form: true, ..PLAIN }),
        ("the surplus not masked", Quirks { surplus_unmasked: true, ..PLAIN }),
        ("the first block corrected, the others copied", Quirks { first_block_only: true, ..PLAIN }),
        ("sums of zero", Quirks { sums_zero: true, ..PLAIN }),
        ("both format copies asked for", Quirks { one_format_copy: true, ..PLAIN }),
        ("a copy of another version ignored", Quirks { other_version_ignored: true, ..PLAIN }),
        ("pad bytes swapped", Quirks { pads_swapped: true, ..PLAIN }),
        ("groups tested before the body's length", Quirks { groups_before_body: true, ..PLAIN }),
        ("version 10's count widths at 9", Quirks { wide_counts_at_nine: true, ..PLAIN }),
        ("a part past the payload's end", Quirks { part_past_end: true, ..PLAIN }),
        ("everything refused", Quirks { refuses_everything: true, ..PLAIN }),
        ("an answer and nothing drawn", Quirks { draws_nothing: true, ..PLAIN }),
    ]
}

/// One call of the second program, to be counted: the jobs of jobs.c, by the same names and on the same bytes.
fn job(field: &Field, name: &str) -> Option<u32> {
    let (does, rest) = name.split_once(' ')?;
    let (size, how) = rest.split_once(' ')?;
    let (v, level, count, wrong) = match size {
        "1-M" => (1, 1, 14, 5),
        "5-M" => (5, 1, 84, 24),
        "10-L" => (10, 0, 271, 36),
        _ => return None,
    };
    let payload: Vec<u8> = (0..count).map(|n| (n * 37 + 11) as u8).collect();
    let list = [4, count as u16];
    let mut modules = vec![0; paper::side(v) * paper::side(v)];
    let (mut back, mut said) = (vec![0; 652], vec![0; 308]);
    match does {
        "draw" => {
            let mask = if how.ends_with("chosen") { 8 } else { 2 };
            Some(paper_write(field, &payload, &list, level, v as u32, mask, &mut modules).refusal)
        }
        "read" => {
            paper::write(field, &payload, &list, level, v as u32, 2, &mut modules, &PLAIN);
            if how == "bound" {
                let order = paper::data_modules(v, &PLAIN);
                for (i, j) in (0..wrong).map(|k| order[8 * k]) {
                    modules[i * paper::side(v) + j] ^= 1;
                }
            }
            Some(paper_read(field, &modules, &mut back, &mut said).refusal)
        }
        _ => None,
    }
}
#[no_mangle]
#[inline(never)]
fn paper_write(field: &Field, payload: &[u8], list: &[u16], level: u32, version: u32, mask: u32, out: &mut [u8]) -> Drawn {
    paper::write(field, payload, list, level, version, mask, out, &PLAIN)
}
#[no_mangle]
#[inline(never)]
fn paper_read(field: &Field, matrix: &[u8], payload: &mut [u8], list: &mut [u16]) -> Reading {
    paper::read(field, matrix, payload, list, &PLAIN)
}

fn main() {
    let words: Vec<String> = std::env::args().skip(1).collect();
    let option = |name: &str, default: u64| -> u64 {
        words.iter().position(|w| w == name).and_then(|k| words.get(k + 1)).and_then(|x| x.parse().ok()).unwrap_or(default)
    };
    let (seed, count) = (option("--seed", 1), option("--count", 20000) as usize);
    let field = Field::new();
    if let Some(name) = words.iter().position(|w| w == "--job").and_then(|k| words.get(k + 1)) {
        let answer = job(&field, name);
        println!("{name}: {}", answer.map_or("no such job".into(), |n| format!("refusal {n}")));
        std::process::exit((answer != Some(0)) as i32);
    }
    if words.iter().any(|w| w == "--mutants") {
        let (mut caught, mut missed) = (0, 0);
        for (name, quirks) in mutants() {
            let (_, failed, first, _) = compare(&field, &Mutant { field: &field, quirks }, seed, count.min(600), true, &[]);
            if failed > 0 {
                caught += 1;
                println!("caught: {name}: {failed} cases, first in {}", first.unwrap_or_default().chars().take(60).collect::<String>());
            } else {
                missed += 1;
                println!("MISSED: {name}");
            }
        }
        println!("{caught} passed, {missed} failed");
        std::process::exit((missed > 0) as i32);
    }
    println!("seed {seed}, count {count}");
    let symbols = match words.iter().position(|w| w == "--outside").and_then(|k| words.get(k + 1)) {
        Some(name) => std::fs::read(name).expect("the file of outside symbols"),
        None => Vec::new(),
    };
    let (passed, failed, _, seen) = compare(&field, &library::Panel, seed, count, false, &symbols);
    let rows: Vec<String> = seen.iter().enumerate().map(|(k, n)| format!("{k}:{n}")).collect();
    println!("answers by refusal number (0 is none): {}", rows.join(" "));
    println!("{passed} passed, {failed} failed");
    std::process::exit((failed > 0) as i32);
}
