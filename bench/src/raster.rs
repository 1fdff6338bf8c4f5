//! The raster operation on many bytes at once, and rows of bytes written by it.
//!
//! A row is worked on four bytes at a time, whatever the depth: colours are repeated through a word, and the operation is the
//! same at each bit. The compiler makes wide stores of such loops.

/// 32 bytes: eight pixels, or a whole number of times eight.
pub type Tile = [u32; 8];

/// A colour at a depth, repeated through a word.
#[inline]
pub fn repeated(depth: usize, color: u32) -> u32 {
    match depth {
        1 => (color & 0xFF) * 0x0101_0101,
        2 => (color & 0xFFFF) * 0x0001_0001,
        _ => color,
    }
}

/// For each byte its eight bits, the highest first, as eight pixels of all ones or all zeros, at each depth.
pub static MASKS_1: [[u32; 2]; 256] = masks(1);
pub static MASKS_2: [[u32; 4]; 256] = masks(2);
pub static MASKS_4: [[u32; 8]; 256] = masks(4);

const fn masks<const W: usize>(depth: usize) -> [[u32; W]; 256] {
    let mut table = [[0; W]; 256];
    let mut i = 0;
    while i < 256 * 8 * depth {
        let (bits, byte) = (i / (8 * depth), i % (8 * depth));
        if bits << (byte / depth) & 0x80 != 0 {
            table[bits][byte / 4] |= 0xFF << (8 * (byte % 4));
        }
        i += 1;
    }
    table
}

/// Eight bits, the highest first, as eight pixels of all ones or all zeros, repeated through a tile.
#[inline]
pub fn spread(depth: usize, bits: u8) -> Tile {
    match depth {
        1 => std::array::from_fn(|i| MASKS_1[bits as usize][i % 2]),
        2 => std::array::from_fn(|i| MASKS_2[bits as usize][i % 4]),
        _ => MASKS_4[bits as usize],
    }
}

// ---- operations

/// A raster code with a pattern value: `a ^ (d & b) ^ (s & (c ^ (d & e)))`.
#[derive(Clone, Copy)]
pub struct Rop {
    pub a: u32,
    pub b: u32,
    pub c: u32,
    pub e: u32,
}

impl Rop {
    /// Leaves what stands there.
    pub const KEEP: Rop = Rop { a: 0, b: !0, c: 0, e: 0 };

    #[inline]
    pub fn of(code: u32, pattern: u32) -> Rop {
        let all = |i: u32| (code >> i & 1).wrapping_neg();
        let both = |i: u32| (all(i) & !pattern) | (all(i + 4) & pattern);
        let (none, d, s, ds) = (both(0), both(1), both(2), both(3));
        Rop { a: none, b: none ^ d, c: none ^ s, e: none ^ d ^ s ^ ds }
    }

    /// Of one source value.
    #[inline]
    pub fn flat(self, source: u32) -> Flat {
        Flat { and: self.b ^ (source & self.e), xor: self.a ^ (source & self.c) }
    }

    #[inline]
    pub fn apply(self, source: u32, there: u32) -> u32 {
        self.a ^ (there & self.b) ^ (source & (self.c ^ (there & self.e)))
    }
}

/// Whether a raster code looks at the source.
#[inline]
pub fn reads_source(code: u32) -> bool {
    (code ^ code >> 2) & 0x33 != 0
}

/// Whether it looks at the pattern.
#[inline]
pub fn reads_pattern(code: u32) -> bool {
    (code ^ code >> 4) & 0x0F != 0
}

/// What is left of it where the source is one value: `(d & and) ^ xor`.
#[derive(Clone, Copy)]
pub struct Flat {
    pub and: u32,
    pub xor: u32,
}

impl Flat {
    /// Leaves what stands there.
    pub const KEEP: Flat = Flat { and: !0, xor: 0 };

    /// A raster code with a pattern and a source value, by a short way where there is one.
    #[inline]
    pub fn of(code: u32, pattern: u32, source: u32) -> Flat {
        match code & 0xFF {
            0xF0 => Flat { and: 0, xor: pattern },
            0xCC => Flat { and: 0, xor: source },
            0x5A => Flat { and: !0, xor: pattern },
            _ => Rop::of(code, pattern).flat(source),
        }
    }

    #[inline]
    pub fn apply(self, there: u32) -> u32 {
        (there & self.and) ^ self.xor
    }
}

/// One word where the mask is clear, another where it is set.
#[inline]
fn chosen(clear: u32, set: u32, mask: &Tile) -> Tile {
    mask.map(|m| clear ^ (m & (clear ^ set)))
}

/// The same for eight pixels that differ.
#[derive(Clone, Copy)]
pub struct FlatTile {
    pub and: Tile,
    pub xor: Tile,
}

impl FlatTile {
    #[inline]
    pub fn solid(f: Flat) -> FlatTile {
        FlatTile { and: [f.and; 8], xor: [f.xor; 8] }
    }

    /// A raster code with the eight pixels of a pattern row, and a source value.
    #[inline]
    pub fn of(code: u32, pattern: &Tile, source: u32) -> FlatTile {
        FlatTile::from(pattern.map(|p| Flat::of(code, p, source)))
    }

    #[inline]
    pub fn from(words: [Flat; 8]) -> FlatTile {
        FlatTile { and: words.map(|f| f.and), xor: words.map(|f| f.xor) }
    }

    #[inline]
    pub fn chosen(clear: Flat, set: Flat, mask: &Tile) -> FlatTile {
        FlatTile { and: chosen(clear.and, set.and, mask), xor: chosen(clear.xor, set.xor, mask) }
    }

    #[inline]
    fn word(&self, i: usize) -> Flat {
        Flat { and: self.and[i], xor: self.xor[i] }
    }

    /// The operation of the pixel at a byte of the row.
    #[inline]
    pub fn at(&self, byte: usize) -> Flat {
        let (f, shift) = (self.word(byte / 4 % 8), 8 * (byte % 4));
        Flat { and: f.and >> shift, xor: f.xor >> shift }
    }
}

/// A raster code with the eight pixels of a pattern row.
#[derive(Clone, Copy)]
pub struct RopTile {
    a: Tile,
    b: Tile,
    c: Tile,
    e: Tile,
}

impl RopTile {
    #[inline]
    pub fn of(code: u32, pattern: &Tile) -> RopTile {
        let rops = pattern.map(|p| Rop::of(code, p));
        RopTile { a: rops.map(|o| o.a), b: rops.map(|o| o.b), c: rops.map(|o| o.c), e: rops.map(|o| o.e) }
    }

    #[inline]
    pub fn chosen(clear: Rop, set: Rop, mask: &Tile) -> RopTile {
        RopTile {
            a: chosen(clear.a, set.a, mask),
            b: chosen(clear.b, set.b, mask),
            c: chosen(clear.c, set.c, mask),
            e: chosen(clear.e, set.e, mask),
        }
    }
}

/// What a row with a colour source is combined by: one operation, or those of a pattern row.
pub trait Operation {
    /// That of the pixel at a byte of the row, in its low bytes.
    fn at(&self, byte: usize) -> Rop;
    /// That of word i of a tile.
    fn word(&self, i: usize) -> Rop;

    /// What a tile or the first part of one becomes: all of it is read before it is written.
    #[inline(always)]
    fn part<const N: usize>(&self, row: &[u8], source: &[u8]) -> [u8; N] {
        let mut new = [0; N];
        for i in 0..N / 4 {
            let at = 4 * i..4 * i + 4;
            put(&mut new[at.clone()], self.word(i).apply(get(&source[at.clone()]), get(&row[at])));
        }
        new
    }

    /// Combines fewer than 32 bytes.
    #[inline(always)]
    fn last(&self, row: &mut [u8], source: &[u8]) {
        let end = self.word(row.len() / 4 % 8);
        let half = row.len() & 16;
        if half != 0 {
            let new: [u8; 16] = self.part(&row[..16], &source[..16]);
            row[..16].copy_from_slice(&new);
        }
        let (mut words, mut sources) = (row[half..].chunks_exact_mut(4), source[half..].chunks_exact(4));
        for (i, (w, s)) in (0..3).zip((&mut words).zip(&mut sources)) {
            put(w, self.word(half / 4 + i).apply(get(s), get(w)));
        }
        for (i, (to, from)) in words.into_remainder().iter_mut().zip(sources.remainder()).enumerate().take(3) {
            *to = (end.apply((*from as u32) << (8 * i), (*to as u32) << (8 * i)) >> (8 * i)) as u8;
        }
    }
}

/// Combines each pixel with one of a source row of the same length.
#[inline(never)]
pub fn combine(row: &mut [u8], source: &[u8], o: &impl Operation) {
    let (mut tiles, mut sources) = (row.chunks_exact_mut(32), source.chunks_exact(32));
    for (t, s) in (&mut tiles).zip(&mut sources) {
        let new: [u8; 32] = o.part(t, s);
        t.copy_from_slice(&new);
    }
    o.last(tiles.into_remainder(), sources.remainder());
}

impl Operation for Rop {
    #[inline(always)]
    fn at(&self, _byte: usize) -> Rop {
        *self
    }

    #[inline(always)]
    fn word(&self, _i: usize) -> Rop {
        *self
    }
}

impl Operation for RopTile {
    #[inline(always)]
    fn at(&self, byte: usize) -> Rop {
        let (rop, shift) = (self.word(byte / 4 % 8), 8 * (byte % 4));
        Rop { a: rop.a >> shift, b: rop.b >> shift, c: rop.c >> shift, e: rop.e >> shift }
    }

    #[inline(always)]
    fn word(&self, i: usize) -> Rop {
        Rop { a: self.a[i], b: self.b[i], c: self.c[i], e: self.e[i] }
    }
}

// ---- words of a row

#[inline(always)]
pub fn get(bytes: &[u8]) -> u32 {
    u32::from_le_bytes(bytes.try_into().unwrap())
}

#[inline(always)]
pub fn put(bytes: &mut [u8], value: u32) {
    bytes.copy_from_slice(&value.to_le_bytes());
}

/// The last bytes of a row, fewer than four.
#[inline]
fn change_last(row: &mut [u8], f: Flat) {
    for (i, to) in row.iter_mut().enumerate().take(3) {
        *to = (f.apply((*to as u32) << (8 * i)) >> (8 * i)) as u8;
    }
}

#[inline]
fn fill_last(row: &mut [u8], value: u32) {
    row.iter_mut().zip(value.to_le_bytes()).take(3).for_each(|(to, byte)| *to = byte);
}

// ---- rows

/// Stores one value at each pixel.
#[inline]
pub fn fill(row: &mut [u8], depth: usize, value: u32) {
    if depth == 1 && row.len() >= 256 {
        row.fill(value as u8);
        return;
    }
    let mut words = row.chunks_exact_mut(4);
    (&mut words).for_each(|w| put(w, value));
    fill_last(words.into_remainder(), value);
}

/// Stores the bytes of words without the first `skip`, which are fewer than four.
#[inline]
pub fn copy_words(row: &mut [u8], words: &[u32], skip: usize) {
    let head = if skip == 0 { 0 } else { row.len().min(4 - skip) };
    let (first, rest) = row.split_at_mut(head);
    first.iter_mut().zip(&words[0].to_le_bytes()[skip..]).for_each(|(to, byte)| *to = *byte);
    let words = &words[(skip != 0) as usize..];
    let mut places = rest.chunks_exact_mut(4);
    let last = words.get(places.len()).copied().unwrap_or(0);
    (&mut places).zip(words).for_each(|(place, word)| put(place, *word));
    fill_last(places.into_remainder(), last);
}

/// Stores a tile again and again.
#[inline]
pub fn fill_tile(row: &mut [u8], tile: &Tile) {
    let mut tiles = row.chunks_exact_mut(32);
    for t in &mut tiles {
        (0..8).for_each(|i| put(&mut t[4 * i..4 * i + 4], tile[i]));
    }
    let rest = tiles.into_remainder();
    let last = tile[rest.len() / 4 % 8];
    let mut words = rest.chunks_exact_mut(4);
    (0..8).zip(&mut words).for_each(|(i, w)| put(w, tile[i]));
    fill_last(words.into_remainder(), last);
}

/// Changes each pixel by one operation without a source.
#[inline]
pub fn change(row: &mut [u8], f: Flat) {
    let mut words = row.chunks_exact_mut(4);
    (&mut words).for_each(|w| put(w, f.apply(get(w))));
    change_last(words.into_remainder(), f);
}

/// The same by a tile of them.
#[inline]
pub fn change_tile(row: &mut [u8], tile: &FlatTile) {
    let one = |i: usize, w: &mut [u8]| put(w, tile.word(i).apply(get(w)));
    let mut tiles = row.chunks_exact_mut(32);
    for t in &mut tiles {
        (0..8).for_each(|i| one(i, &mut t[4 * i..4 * i + 4]));
    }
    let rest = tiles.into_remainder();
    let last = tile.word(rest.len() / 4 % 8);
    let mut words = rest.chunks_exact_mut(4);
    (0..8).zip(&mut words).for_each(|(i, w)| one(i, w));
    change_last(words.into_remainder(), last);
}
