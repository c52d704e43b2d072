//! Document 01 a second time, by naive methods: own tables, long division for checks, linear algebra for correction, plain scans for
//! the penalty. Nothing here is shared with the proved library. `Quirks` turns single errors on, to show that the comparison sees them.

#[derive(Clone, Copy, Default)]
pub struct Quirks {
    pub lone_digit_as_zero: bool,
    pub last_group_in_ten_bits: bool,
    pub checks_block_after_block: bool,
    pub bound_over_symbol: bool,
    pub tie_to_higher_mask: bool,
    pub payload_on_refusal: bool,
    pub pair_six_five: bool,
    pub one_window_form: bool,
    pub surplus_unmasked: bool,
    pub first_block_only: bool,
    pub sums_zero: bool,
    pub one_format_copy: bool,
    pub other_version_ignored: bool,
    pub pads_swapped: bool,
    pub groups_before_body: bool,
    pub wide_counts_at_nine: bool,
    pub part_past_end: bool,
    pub refuses_everything: bool,
    pub draws_nothing: bool,
}

const TOTAL: [usize; 10] = [26, 44, 70, 100, 134, 172, 196, 242, 292, 346];
const CHECK: [[usize; 4]; 10] = [
    [7, 10, 13, 17], [10, 16, 22, 28], [15, 26, 18, 22], [20, 18, 26, 16], [26, 24, 18, 22],
    [18, 16, 24, 28], [20, 18, 18, 26], [24, 22, 22, 26], [30, 22, 20, 24], [18, 26, 24, 28],
];
const BLOCKS: [[usize; 4]; 10] = [
    [1, 1, 1, 1], [1, 1, 1, 1], [1, 1, 2, 2], [1, 2, 2, 4], [1, 2, 4, 4],
    [2, 4, 4, 4], [2, 4, 6, 5], [2, 4, 6, 6], [2, 5, 8, 8], [4, 5, 8, 8],
];
const CENTRES: [&[i32]; 10] = [
    &[], &[6, 18], &[6, 22], &[6, 26], &[6, 30], &[6, 34], &[6, 22, 38], &[6, 24, 42], &[6, 26, 46], &[6, 28, 50],
];
const ALPHABET: &[u8; 45] = b"0123456789ABCDEFGHIJKLMNOPQRSTUVWXYZ $%*+-./:";

pub fn side(v: usize) -> usize {
    17 + 4 * v
}
pub fn total(v: usize) -> usize {
    TOTAL[v - 1]
}
pub fn checks(v: usize, level: usize) -> usize {
    CHECK[v - 1][level]
}
pub fn blocks(v: usize, level: usize) -> usize {
    BLOCKS[v - 1][level]
}
pub fn data_codewords(v: usize, level: usize) -> usize {
    total(v) - checks(v, level) * blocks(v, level)
}
/// Data codewords of each block.
pub fn block_sizes(v: usize, level: usize) -> Vec<usize> {
    let (d, b) = (data_codewords(v, level), blocks(v, level));
    (0..b).map(|k| if k < b - d % b { d / b } else { d / b + 1 }).collect()
}

// ---- the field, by schoolbook products of polynomials

pub fn mul(a: u8, b: u8) -> u8 {
    let mut wide: u32 = 0;
    for i in 0..8 {
        if b >> i & 1 == 1 {
            wide ^= (a as u32) << i;
        }
    }
    for i in (8..15).rev() {
        if wide >> i & 1 == 1 {
            wide ^= 0x11D << (i - 8);
        }
    }
    wide as u8
}
pub fn power(n: usize) -> u8 {
    (0..n % 255).fold(1, |p, _| mul(p, 2))
}
/// The inverse, by trial.
pub fn inverse(a: u8) -> u8 {
    (1..=255u8).find(|&b| mul(a, b) == 1).expect("zero has no inverse")
}
/// The product and the inverse by table, made once from the two above: the comparison makes many of them.
pub struct Field {
    product: Vec<u8>,
    inverse: [u8; 256],
    power: [u8; 255],
}
impl Field {
    pub fn new() -> Field {
        let mut f = Field { product: vec![0; 65536], inverse: [0; 256], power: [0; 255] };
        for a in 0..=255u8 {
            for b in 0..=255u8 {
                f.product[a as usize * 256 + b as usize] = mul(a, b);
            }
            if a != 0 {
                f.inverse[a as usize] = inverse(a);
            }
        }
        for i in 0..255 {
            f.power[i] = power(i);
        }
        f
    }
    fn mul(&self, a: u8, b: u8) -> u8 {
        self.product[a as usize * 256 + b as usize]
    }
    fn power(&self, n: usize) -> u8 {
        self.power[n % 255]
    }
    /// The word's value at x, first codeword the highest power.
    fn value(&self, word: &[u8], x: u8) -> u8 {
        word.iter().fold(0, |y, &c| self.mul(y, x) ^ c)
    }
    pub fn is_codeword(&self, word: &[u8], n: usize) -> bool {
        (0..n).all(|i| self.value(word, self.power(i)) == 0)
    }
    /// The checks, by long division of data·x^n by the product of (x − α^i).
    pub fn checks(&self, data: &[u8], n: usize) -> Vec<u8> {
        let mut generator = vec![1u8];
        for i in 0..n {
            let mut next = vec![0u8; generator.len() + 1];
            for (k, &g) in generator.iter().enumerate() {
                next[k] ^= g;
                next[k + 1] ^= self.mul(g, self.power(i));
            }
            generator = next;
        }
        let mut rest = data.to_vec();
        rest.resize(data.len() + n, 0);
        for k in 0..data.len() {
            let lead = rest[k];
            for (j, &g) in generator.iter().enumerate() {
                rest[k + j] ^= self.mul(lead, g);
            }
        }
        rest[data.len()..].to_vec()
    }

    /// One solution of a linear system over the field, by elimination; none where it has none. Each row ends with its right side.
    fn solve(&self, mut rows: Vec<Vec<u8>>, unknowns: usize) -> Option<Vec<u8>> {
        let mut at = 0;
        let mut leads = Vec::new();
        for column in 0..unknowns {
            let found = match (at..rows.len()).find(|&r| rows[r][column] != 0) { Some(r) => r, None => continue };
            rows.swap(at, found);
            let scale = self.inverse[rows[at][column] as usize];
            for x in rows[at].iter_mut() {
                *x = self.product[*x as usize * 256 + scale as usize];
            }
            for r in 0..rows.len() {
                if r != at && rows[r][column] != 0 {
                    let by = rows[r][column];
                    for k in 0..=unknowns {
                        let term = self.mul(by, rows[at][k]);
                        rows[r][k] ^= term;
                    }
                }
            }
            leads.push(column);
            at += 1;
        }
        if rows[at..].iter().any(|row| row[unknowns] != 0) {
            return None;
        }
        let mut x = vec![0; unknowns];
        for (row, &column) in leads.iter().enumerate() {
            x[column] = rows[row][unknowns];
        }
        Some(x)
    }

    /// The one codeword that stands for a block, with t and e; none where there is none. For t = 0, 1, .. the places of t errors are
    /// sought as roots of a recurrence of length t, found by elimination, and the values by a second elimination.
    pub fn stands(&self, word: &[u8], lost: &[bool], n: usize, room: usize) -> Option<(Vec<u8>, usize, usize)> {
        let e = lost.iter().filter(|&&l| l).count();
        if e > room {
            return None;
        }
        let size = word.len();
        let locator = |j: usize| self.power(size - 1 - j);
        let sums: Vec<u8> = (0..n).map(|i| self.value(word, self.power(i))).collect();
        let mut left = sums.clone();
        for j in (0..size).filter(|&j| lost[j]) {
            let x = locator(j);
            left = (0..left.len() - 1).map(|i| left[i + 1] ^ self.mul(x, left[i])).collect();
        }
        let m = left.len();
        for t in 0..=(room - e) / 2 {
            let rows: Vec<Vec<u8>> = (0..m - t).map(|i| (0..=t).map(|k| left[i + k]).collect()).collect();
            let mut recurrence = match self.solve(rows, t) { Some(r) => r, None => continue };
            recurrence.push(1);
            let at: Vec<usize> = (0..size)
                .filter(|&j| {
                    let x = locator(j);
                    !lost[j] && recurrence.iter().rev().fold(0, |y, &c| self.mul(y, x) ^ c) == 0
                })
                .collect();
            let places: Vec<usize> = (0..size).filter(|&j| lost[j] || at.contains(&j)).collect();
            let rows: Vec<Vec<u8>> = (0..n)
                .map(|i| {
                    let mut row: Vec<u8> = places.iter().map(|&j| self.power((size - 1 - j) * i)).collect();
                    row.push(sums[i]);
                    row
                })
                .collect();
            if places.len() > n {
                return None;
            }
            let values = self.solve(rows, places.len())?;
            let mut c = word.to_vec();
            for (&j, &x) in places.iter().zip(&values) {
                c[j] ^= x;
            }
            let differing = (0..size).filter(|&j| !lost[j] && c[j] != word[j]).count();
            if self.is_codeword(&c, n) && 2 * differing + e <= room {
                return Some((c, differing, e));
            }
            return None;
        }
        None
    }
}

// ---- the stream

fn code(c: u8) -> usize {
    ALPHABET.iter().position(|&x| x == c).unwrap_or(45)
}
fn in_mode(mode: u16, c: u8) -> bool {
    match mode {
        1 => code(c) < 10,
        2 => code(c) < 45,
        _ => true,
    }
}
fn count_width(v: usize, mode: usize, q: &Quirks) -> usize {
    let wide = if q.wide_counts_at_nine { v >= 9 } else { v >= 10 };
    match (mode, wide) {
        (1, false) => 10,
        (2, false) => 9,
        (4, false) => 8,
        (1, true) => 12,
        (2, true) => 11,
        (4, true) => 16,
        _ => unreachable!(),
    }
}
fn body_width(mode: usize, count: usize) -> usize {
    match mode {
        1 => count / 3 * 10 + [0, 4, 7][count % 3],
        2 => count / 2 * 11 + count % 2 * 6,
        _ => 8 * count,
    }
}
pub fn bits_needed(v: usize, list: &[u16], q: &Quirks) -> u128 {
    list.chunks(2).map(|s| 4 + count_width(v, s[0] as usize, q) as u128 + body_width(s[0] as usize, s[1] as usize) as u128).sum()
}
fn put(bits: &mut Vec<u8>, width: usize, x: usize) {
    for k in (0..width).rev() {
        bits.push((x >> k & 1) as u8);
    }
}
pub fn data_of(v: usize, level: usize, payload: &[u8], list: &[u16], q: &Quirks) -> Vec<u8> {
    let mut bits = Vec::new();
    let mut at = 0;
    for s in list.chunks(2) {
        let (mode, count) = (s[0] as usize, s[1] as usize);
        put(&mut bits, 4, mode);
        put(&mut bits, count_width(v, mode, q), count);
        let chars = &payload[at..at + count];
        at += count;
        match mode {
            1 => {
                for g in chars.chunks(3) {
                    let x = g.iter().fold(0, |x, &c| 10 * x + code(c));
                    let width = if q.last_group_in_ten_bits { 10 } else { [4, 7, 10][g.len() - 1] };
                    put(&mut bits, width, x);
                }
            }
            2 => {
                for g in chars.chunks(2) {
                    put(&mut bits, [6, 11][g.len() - 1], g.iter().fold(0, |x, &c| 45 * x + code(c)));
                }
            }
            _ => {
                for &c in chars {
                    put(&mut bits, 8, c as usize);
                }
            }
        }
    }
    let most = 8 * data_codewords(v, level);
    for _ in 0..4 {
        if bits.len() < most {
            bits.push(0);
        }
    }
    while bits.len() % 8 != 0 {
        bits.push(0);
    }
    let mut bytes: Vec<u8> = bits.chunks(8).map(|b| b.iter().fold(0, |x, &b| 2 * x + b)).collect();
    let mut pad = if q.pads_swapped { 17 } else { 236 };
    while bytes.len() < data_codewords(v, level) {
        bytes.push(pad);
        pad = 253 - pad;
    }
    bytes.truncate(data_codewords(v, level));
    bytes
}
pub fn parse(v: usize, data: &[u8], q: &Quirks) -> Result<(Vec<u8>, Vec<u16>), u32> {
    let bits: Vec<u8> = data.iter().flat_map(|&b| (0..8).rev().map(move |k| b >> k & 1)).collect();
    let number = |from: usize, width: usize| bits[from..from + width].iter().fold(0usize, |x, &b| 2 * x + b as usize);
    let (mut at, mut payload, mut list) = (0, Vec::new(), Vec::new());
    loop {
        if bits.len() - at < 4 {
            return Ok((payload, list));
        }
        let mode = number(at, 4);
        if mode == 0 {
            return Ok((payload, list));
        }
        if ![1, 2, 4].contains(&mode) {
            return Err(13);
        }
        at += 4;
        let width = count_width(v, mode, q);
        if bits.len() - at < width {
            return Err(14);
        }
        let count = number(at, width);
        at += width;
        if bits.len() - at < body_width(mode, count) && !q.groups_before_body {
            return Err(14);
        }
        let mut left = count;
        while left > 0 {
            let take = left.min([3, 2, 0, 1][mode - 1]);
            let width = body_width(mode, take);
            if bits.len() - at < width {
                return Err(14);
            }
            let x = number(at, width);
            at += width;
            match (mode, take) {
                (1, _) => {
                    if x >= [10, 100, 1000][take - 1] {
                        return Err(15);
                    }
                    let x = if q.lone_digit_as_zero && take == 1 { 0 } else { x };
                    for k in (0..take).rev() {
                        payload.push(ALPHABET[x / [1, 10, 100][k] % 10]);
                    }
                }
                (2, _) => {
                    if x >= [45, 2025][take - 1] {
                        return Err(15);
                    }
                    if take == 2 {
                        payload.push(ALPHABET[x / 45]);
                    }
                    payload.push(ALPHABET[x % 45]);
                }
                _ => payload.push(x as u8),
            }
            left -= take;
        }
        list.push(mode as u16);
        list.push(count as u16);
    }
}

// ---- blocks

/// The codewords in sent order: (block, place in the block).
pub fn sent_order(v: usize, level: usize, q: &Quirks) -> Vec<(usize, usize)> {
    let (sizes, n) = (block_sizes(v, level), checks(v, level));
    let mut order = Vec::new();
    for p in 0..=sizes[0] {
        for (b, &size) in sizes.iter().enumerate() {
            if p < size {
                order.push((b, p));
            }
        }
    }
    if q.checks_block_after_block {
        for (b, &size) in sizes.iter().enumerate() {
            order.extend((0..n).map(|p| (b, size + p)));
        }
    } else {
        for p in 0..n {
            order.extend(sizes.iter().enumerate().map(|(b, &size)| (b, size + p)));
        }
    }
    order
}
pub fn codewords_of(field: &Field, v: usize, level: usize, data: &[u8], q: &Quirks) -> Vec<u8> {
    let mut at = 0;
    let whole: Vec<Vec<u8>> = block_sizes(v, level)
        .iter()
        .map(|&size| {
            let held = &data[at..at + size];
            at += size;
            [held.to_vec(), field.checks(held, checks(v, level))].concat()
        })
        .collect();
    sent_order(v, level, q).iter().map(|&(b, p)| whole[b][p]).collect()
}

// ---- modules

pub fn format_word(level: usize, mask: usize) -> u32 {
    let d = ([1, 0, 3, 2][level] * 8 + mask) as u32;
    let mut rest = d << 10;
    for k in (10..15).rev() {
        if rest >> k & 1 == 1 {
            rest ^= 0x537 << (k - 10);
        }
    }
    (d << 10 | rest) ^ 0x5412
}
pub fn version_word(v: u32) -> u32 {
    let mut rest = v << 12;
    for k in (12..18).rev() {
        if rest >> k & 1 == 1 {
            rest ^= 0x1F25 << (k - 12);
        }
    }
    v << 12 | rest
}
pub fn format_places(s: usize, copy: usize) -> Vec<(usize, usize)> {
    (0..15)
        .map(|b| match (copy, b) {
            (0, 0..=5) => (b, 8),
            (0, 6) => (7, 8),
            (0, 7) => (8, 8),
            (0, 8) => (8, 7),
            (0, _) => (8, 14 - b),
            (_, 0..=7) => (8, s - 1 - b),
            _ => (s - 15 + b, 8),
        })
        .collect()
}
pub fn version_places(s: usize, copy: usize) -> Vec<(usize, usize)> {
    (0..18).map(|b| if copy == 0 { (b / 3, s - 11 + b % 3) } else { (s - 11 + b % 3, b / 3) }).collect()
}
/// The function patterns drawn one after the other on a sheet: the colour of each, or none for a data module.
fn sheet(v: usize, level: usize, mask: usize) -> Vec<Option<u8>> {
    let s = side(v);
    let mut m = vec![None; s * s];
    for k in 8..=s - 9 {
        m[6 * s + k] = Some(1 - (k % 2) as u8);
        m[k * s + 6] = Some(1 - (k % 2) as u8);
    }
    let far = |i: usize, j: usize, ci: i32, cj: i32| (i as i32 - ci).abs().max((j as i32 - cj).abs());
    let centres = CENTRES[v - 1];
    for &ci in centres {
        for &cj in centres {
            let last = centres[centres.len() - 1];
            if (ci, cj) == (6, 6) || (ci, cj) == (6, last) || (ci, cj) == (last, 6) {
                continue;
            }
            for i in 0..s {
                for j in 0..s {
                    let d = far(i, j, ci, cj);
                    if d <= 2 {
                        m[i * s + j] = Some((d != 1) as u8);
                    }
                }
            }
        }
    }
    for (ci, cj) in [(3, 3), (3, s as i32 - 4), (s as i32 - 4, 3)] {
        for i in 0..s {
            for j in 0..s {
                let d = far(i, j, ci, cj);
                if d <= 4 {
                    m[i * s + j] = Some((d != 2 && d != 4) as u8);
                }
            }
        }
    }
    let word = format_word(level, mask);
    for copy in 0..2 {
        for (b, (i, j)) in format_places(s, copy).into_iter().enumerate() {
            m[i * s + j] = Some((word >> b & 1) as u8);
        }
        if v >= 7 {
            for (b, (i, j)) in version_places(s, copy).into_iter().enumerate() {
                m[i * s + j] = Some((version_word(v as u32) >> b & 1) as u8);
            }
        }
    }
    m[(s - 8) * s + 8] = Some(1);
    m
}
/// The data modules in their order.
pub fn data_modules(v: usize, q: &Quirks) -> Vec<(usize, usize)> {
    let s = side(v);
    let sheet = sheet(v, 0, 0);
    let mut right: Vec<usize> = Vec::new();
    let mut c = s as i32 - 1;
    while c > 0 {
        if c == 6 && !q.pair_six_five {
            c = 5;
        }
        right.push(c as usize);
        c -= 2;
    }
    let mut order = Vec::new();
    for (k, &c) in right.iter().enumerate() {
        for r in 0..s {
            let i = if k % 2 == 0 { s - 1 - r } else { r };
            for j in [c, c - 1] {
                if sheet[i * s + j].is_none() {
                    order.push((i, j));
                }
            }
        }
    }
    order
}
pub fn flips(mask: usize, i: usize, j: usize) -> bool {
    0 == match mask {
        0 => (i + j) % 2,
        1 => i % 2,
        2 => j % 3,
        3 => (i + j) % 3,
        4 => (i / 2 + j / 3) % 2,
        5 => i * j % 2 + i * j % 3,
        6 => (i * j % 2 + i * j % 3) % 2,
        _ => ((i + j) % 2 + i * j % 3) % 2,
    }
}
pub fn symbol(v: usize, level: usize, mask: usize, codewords: &[u8], q: &Quirks) -> Vec<u8> {
    let s = side(v);
    let mut m: Vec<u8> = sheet(v, level, mask).into_iter().map(|x| x.unwrap_or(0)).collect();
    for (k, (i, j)) in data_modules(v, q).into_iter().enumerate() {
        let bit = if k / 8 < codewords.len() { codewords[k / 8] >> (7 - k % 8) & 1 } else { 0 };
        let flip = flips(mask, i, j) && !(q.surplus_unmasked && k / 8 >= codewords.len());
        m[i * s + j] = bit ^ flip as u8;
    }
    m
}

// ---- penalty

pub fn penalty(s: usize, m: &[u8], q: &Quirks) -> i64 {
    let at = |i: usize, j: usize| m[i * s + j];
    let lines: Vec<Vec<u8>> =
        (0..s).map(|i| (0..s).map(|j| at(i, j)).collect()).chain((0..s).map(|j| (0..s).map(|i| at(i, j)).collect())).collect();
    let mut score = 0;
    for line in &lines {
        let mut k = 0;
        while k < s {
            let end = (k..s).find(|&e| line[e] != line[k]).unwrap_or(s);
            if end - k >= 5 {
                score += (end - k) as i64 - 2;
            }
            k = end;
        }
        for w in line.windows(11) {
            if w == [1, 0, 1, 1, 1, 0, 1, 0, 0, 0, 0] || (w == [0, 0, 0, 0, 1, 0, 1, 1, 1, 0, 1] && !q.one_window_form) {
                score += 40;
            }
        }
    }
    for i in 0..s - 1 {
        for j in 0..s - 1 {
            if at(i, j) == at(i, j + 1) && at(i, j) == at(i + 1, j) && at(i, j) == at(i + 1, j + 1) {
                score += 3;
            }
        }
    }
    let dark = m.iter().filter(|&&x| x == 1).count() as i64;
    let area = (s * s) as i64;
    score + 10 * ((20 * dark - 10 * area).abs() / area)
}

// ---- the writer

#[derive(Debug, Clone, Copy, PartialEq, Eq)]
#[repr(C)]
pub struct Drawn {
    pub refusal: u32,
    pub version: u32,
    pub mask: u32,
    pub side: u32,
}
fn no_drawing(n: u32) -> Drawn {
    Drawn { refusal: n, version: 0, mask: 0, side: 0 }
}
pub fn fits(v: usize, level: usize, list: &[u16], q: &Quirks) -> bool {
    bits_needed(v, list, q) <= 8 * data_codewords(v, level) as u128
}
pub fn write(field: &Field, payload: &[u8], list: &[u16], level: u32, version: u32, mask: u32, out: &mut [u8], q: &Quirks) -> Drawn {
    if level > 3 || version > 10 || mask > 8 {
        return no_drawing(1);
    }
    if list.len() % 2 == 1 || list.chunks(2).any(|s| ![1, 2, 4].contains(&s[0])) {
        return no_drawing(2);
    }
    if list.chunks(2).map(|s| s[1] as u128).sum::<u128>() != payload.len() as u128 {
        return no_drawing(3);
    }
    let mut at = 0;
    for s in list.chunks(2) {
        let part = &payload[at..at + s[1] as usize];
        at += s[1] as usize;
        if part.iter().any(|&c| !in_mode(s[0], c)) {
            return no_drawing(4);
        }
    }
    let level = level as usize;
    let fitting = (1..=10).find(|&v| (version == 0 || v == version as usize) && fits(v, level, list, q));
    let v = match fitting { Some(v) => v, None => return no_drawing(5) };
    let s = side(v);
    if out.len() < s * s {
        return no_drawing(6);
    }
    if q.refuses_everything {
        return no_drawing(5);
    }
    let codewords = codewords_of(field, v, level, &data_of(v, level, payload, list, q), q);
    let drawn = |mask: usize| symbol(v, level, mask, &codewords, q);
    let mask = if mask < 8 {
        mask as usize
    } else {
        let scores: Vec<i64> = (0..8).map(|k| penalty(s, &drawn(k), q)).collect();
        let least = scores.iter().min().unwrap();
        let mut equal = (0..8).filter(|&k| scores[k] == *least);
        if q.tie_to_higher_mask { equal.last().unwrap() } else { equal.next().unwrap() }
    };
    if !q.draws_nothing {
        out[..s * s].copy_from_slice(&drawn(mask));
    }
    Drawn { refusal: 0, version: v as u32, mask: mask as u32, side: s as u32 }
}

// ---- the reader

#[derive(Debug, Clone, Copy, PartialEq, Eq, Default)]
#[repr(C)]
pub struct Reading {
    pub refusal: u32,
    pub version: u32,
    pub level: u32,
    pub mask: u32,
    pub payload_len: u32,
    pub segments: u32,
    pub differing: u32,
    pub unreadable: u32,
}
fn no_reading(n: u32) -> Reading {
    Reading { refusal: n, ..Reading::default() }
}
/// What a copy stands for, of the lawful words; `places` has bit 0 first.
fn copy_stands(m: &[u8], s: usize, places: &[(usize, usize)], words: &[u32]) -> Option<usize> {
    words.iter().position(|&word| {
        let (mut d, mut e) = (0, 0);
        for (b, &(i, j)) in places.iter().enumerate() {
            match m[i * s + j] {
                2 => e += 1,
                x if x as u32 != word >> b & 1 => d += 1,
                _ => {}
            }
        }
        2 * d + e <= 6
    })
}
/// Codewords as received, in sent order: the byte and whether it is unreadable.
pub fn received(v: usize, mask: usize, m: &[u8], q: &Quirks) -> Vec<(u8, bool)> {
    let s = side(v);
    let order = data_modules(v, q);
    let bits: Vec<(usize, usize)> = order.iter().cycle().take(8 * total(v)).copied().collect();
    bits.chunks(8)
        .map(|eight| {
            let lost = eight.iter().any(|&(i, j)| m[i * s + j] == 2);
            let byte = eight.iter().fold(0u8, |x, &(i, j)| x << 1 | (m[i * s + j] & 1) ^ flips(mask, i, j) as u8);
            (if lost { 0 } else { byte }, lost)
        })
        .collect()
}
pub fn read(field: &Field, m: &[u8], payload: &mut [u8], list: &mut [u16], q: &Quirks) -> Reading {
    if payload.len() < 652 || list.len() < 308 {
        return no_reading(16);
    }
    let v = match (1..=10).find(|&v| side(v) * side(v) == m.len()) { Some(v) => v, None => return no_reading(7) };
    if m.iter().any(|&x| x > 2) {
        return no_reading(8);
    }
    let s = side(v);
    if v >= 7 && !q.other_version_ignored {
        let words: Vec<u32> = (7..=40).map(version_word).collect();
        for copy in 0..2 {
            if copy_stands(m, s, &version_places(s, copy), &words).map_or(false, |k| k + 7 != v) {
                return no_reading(9);
            }
        }
    }
    let words: Vec<u32> = (0..32).map(|d| format_word(d / 8, d % 8)).collect();
    let copies: Vec<Option<usize>> = (0..2).map(|copy| copy_stands(m, s, &format_places(s, copy), &words)).collect();
    let word = match (copies[0], copies[1]) {
        (None, None) => return no_reading(10),
        (Some(a), Some(b)) if a != b => return no_reading(11),
        (Some(a), Some(_)) => a,
        (Some(a), None) | (None, Some(a)) => {
            if q.one_format_copy {
                return no_reading(10);
            }
            a
        }
    };
    let (level, mask) = (word / 8, word % 8);
    let (sizes, n) = (block_sizes(v, level), checks(v, level));
    let mut words: Vec<Vec<(u8, bool)>> = sizes.iter().map(|&size| vec![(0, false); size + n]).collect();
    for (&(b, p), &x) in sent_order(v, level, q).iter().zip(&received(v, mask, m, q)) {
        words[b][p] = x;
    }
    let (mut data, mut t, mut e) = (Vec::new(), 0, 0);
    for (b, block) in words.iter().enumerate() {
        let word: Vec<u8> = block.iter().map(|x| x.0).collect();
        let lost: Vec<bool> = block.iter().map(|x| x.1).collect();
        let room = if q.bound_over_symbol && b > 0 { n.saturating_sub(2 * t + e) } else { n };
        if q.first_block_only && b > 0 {
            data.extend_from_slice(&word[..sizes[b]]);
            continue;
        }
        let (c, dt, de) = match field.stands(&word, &lost, n, room) { Some(found) => found, None => return no_reading(12) };
        t += dt;
        e += de;
        data.extend_from_slice(&c[..sizes[b]]);
    }
    let parsed = parse(v, &data, q);
    if q.payload_on_refusal && parsed.is_err() {
        payload[0] ^= 1;
    }
    let (bytes, pairs) = match parsed {
        Err(k) => return no_reading(k),
        Ok(x) => x,
    };
    if q.refuses_everything {
        return no_reading(12);
    }
    payload[..bytes.len()].copy_from_slice(&bytes);
    list[..pairs.len()].copy_from_slice(&pairs);
    Reading {
        refusal: 0,
        version: v as u32,
        level: level as u32,
        mask: mask as u32,
        payload_len: bytes.len() as u32,
        segments: (pairs.len() / 2) as u32,
        differing: if q.sums_zero { 0 } else { t as u32 },
        unreadable: if q.sums_zero { 0 } else { e as u32 },
    }
}

// ---- the part call

#[derive(Debug, Clone, Copy, PartialEq, Eq)]
#[repr(C)]
pub struct Span {
    pub start: usize,
    pub len: usize,
}
pub fn part(payload_len: usize, list: &[u16], k: usize, q: &Quirks) -> Span {
    let none = Span { start: 0, len: 0 };
    if list.len() % 2 == 1 || k >= list.len() / 2 {
        return none;
    }
    let start: u128 = list[..2 * k].chunks(2).map(|s| s[1] as u128).sum();
    let len = list[2 * k + 1] as u128;
    if start + len > payload_len as u128 && !q.part_past_end {
        return none;
    }
    Span { start: start as usize, len: len as usize }
}
