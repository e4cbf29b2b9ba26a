//! The CRC-32C as `iw_crc` takes it, written anew. Words go by tables, in four lanes. Of 112 octets or more, all but the last
//! 96 are folded away before, sixteen at a time, by look-ups of half octets; of 800 or more, all but the last 290 before that.
//! The processor's own instruction for CRCs is not used.
//!
//! Sixteen look-ups of half octets are one instruction of SSSE3, which the compiler makes of no plain code. So one call here
//! is `unsafe`: that of the function which is compiled for it. A build for processors that may lack it is refused.

use std::arch::x86_64::*;

const _: () = assert!(cfg!(target_feature = "ssse3"), "bench/stream/run builds for x86-64-v2");

const POLYNOMIAL: u32 = 0x82f6_3b78;

/// An octet that is folded away is last added to the octet that stands so far behind it.
const SPAN: usize = 290;

/// The last octet of a window that is added to the next octet stands so far from the first.
const REACH: usize = 136;

const BLOCK: usize = 2_048;

/// So many octets of a block are folded at a time.
const PIECE: usize = 64;

/// What a window has besides the octets that are folded: those before them, and zeros behind.
const AROUND: usize = SPAN + REACH;

/// A window takes time to clear: one for so many octets is enough for a frame that an Ethernet segment carries.
const SHORT_BLOCK: usize = 24 * PIECE;

/// From so many octets on, sixteen are folded away at a time.
const MEDIUM: usize = 96 + 16;

/// From so many octets on, all but the last 290 are folded away first.
const LONG: usize = 800;

type Tables = [[u32; 256]; 8];

/// What an octet leaves behind `first` bits, and behind eight bits less each.
const fn tables(first: usize) -> Tables {
    let mut tables = [[0; 256]; 8];
    let mut octet = 0;
    while octet < 256 {
        let mut remainder = octet as u32;
        let mut bits = 1;
        while bits <= first {
            let carry = if remainder & 1 == 1 { POLYNOMIAL } else { 0 };
            remainder = remainder >> 1 ^ carry;
            if bits % 8 == 0 && bits + 64 > first {
                tables[(first - bits) / 8][octet] = remainder;
            }
            bits += 1;
        }
        octet += 1;
    }
    tables
}

static WORD: Tables = tables(64);
static TURN: Tables = tables(256);

#[inline]
fn looked_up(tables: &Tables, word: u64) -> u32 {
    let octets = word.to_le_bytes();
    tables[0][usize::from(octets[0])]
        ^ tables[1][usize::from(octets[1])]
        ^ tables[2][usize::from(octets[2])]
        ^ tables[3][usize::from(octets[3])]
        ^ tables[4][usize::from(octets[4])]
        ^ tables[5][usize::from(octets[5])]
        ^ tables[6][usize::from(octets[6])]
        ^ tables[7][usize::from(octets[7])]
}

/// Half a word, by the later half of a word's tables.
fn half_looked_up(half: u32) -> u32 {
    let octets = half.to_le_bytes();
    WORD[4][usize::from(octets[0])]
        ^ WORD[5][usize::from(octets[1])]
        ^ WORD[6][usize::from(octets[2])]
        ^ WORD[7][usize::from(octets[3])]
}

/// The remainder after fewer octets than a word has: four at once, the others one by one.
fn few_added(mut remainder: u32, octets: &[u8]) -> u32 {
    let (halves, rest) = octets.as_chunks::<4>();
    for half in halves {
        remainder = half_looked_up(remainder ^ u32::from_le_bytes(*half));
    }
    for octet in rest {
        remainder = WORD[7][usize::from(remainder as u8 ^ octet)] ^ remainder >> 8;
    }
    remainder
}

/// The remainder after octets, word by word.
fn words_added(mut remainder: u32, octets: &[u8]) -> u32 {
    let (words, rest) = octets.as_chunks::<8>();
    for word in words {
        remainder = looked_up(&WORD, u64::from(remainder) ^ u64::from_le_bytes(*word));
    }
    few_added(remainder, rest)
}

fn word(turn: &[u8; 32], lane: usize) -> u64 {
    let mut word = [0; 8];
    word.copy_from_slice(&turn[8 * lane..8 * lane + 8]);
    u64::from_le_bytes(word)
}

/// Turns of 32 octets, a word for each lane; over the last turn the lanes come together.
#[inline]
fn turns_added(remainder: u32, turns: &[[u8; 32]], last: &[u8; 32]) -> u32 {
    let mut lanes = [remainder, 0, 0, 0];
    for turn in turns {
        for (lane, so_far) in lanes.iter_mut().enumerate() {
            *so_far = looked_up(&TURN, u64::from(*so_far) ^ word(turn, lane));
        }
    }
    let mut joined = 0;
    for (lane, so_far) in lanes.into_iter().enumerate() {
        joined = looked_up(&WORD, u64::from(joined ^ so_far) ^ word(last, lane));
    }
    joined
}

/// The remainder after any octets: whole turns, and the rest word by word.
fn run_added(remainder: u32, octets: &[u8]) -> u32 {
    let (turns, rest) = octets.as_chunks::<32>();
    match turns.split_last() {
        Some((last, turns)) => words_added(turns_added(remainder, turns, last), rest),
        None => words_added(remainder, octets),
    }
}

/// What the halves of an octet, the lower and the upper, are further on.
type Halves = [[u8; 16]; 2];

const ON_16: Halves = [
    [0, 229, 126, 155, 105, 140, 23, 242, 149, 112, 235, 14, 252, 25, 130, 103],
    [0, 158, 102, 248, 101, 251, 3, 157, 36, 186, 66, 220, 65, 223, 39, 185],
];
const ON_32: Halves = [
    [0, 7, 82, 85, 214, 209, 132, 131, 95, 88, 13, 10, 137, 142, 219, 220],
    [0, 226, 65, 163, 168, 74, 233, 11, 137, 107, 200, 42, 33, 195, 96, 130],
];
const ON_64: Halves = [
    [0, 93, 93, 0, 119, 42, 42, 119, 26, 71, 71, 26, 109, 48, 48, 109],
    [0, 211, 230, 53, 159, 76, 121, 170, 153, 74, 127, 172, 6, 213, 224, 51],
];
const ON_96: Halves = [
    [0, 225, 200, 41, 23, 246, 223, 62, 252, 29, 52, 213, 235, 10, 35, 194],
    [0, 242, 0, 242, 60, 206, 60, 206, 150, 100, 150, 100, 170, 88, 170, 88],
];

#[inline]
#[target_feature(enable = "ssse3")]
fn vector(octets: [u8; 16]) -> __m128i {
    let octets = u128::from_le_bytes(octets);
    _mm_set_epi64x((octets >> 64) as i64, octets as i64)
}

#[inline]
#[target_feature(enable = "ssse3")]
fn octets_of(vector: __m128i) -> [u8; 16] {
    let (low, high) = (_mm_cvtsi128_si64(vector), _mm_cvtsi128_si64(_mm_unpackhi_epi64(vector, vector)));
    (u128::from(high as u64) << 64 | u128::from(low as u64)).to_le_bytes()
}

/// Each octet, as it stands further on.
#[inline]
#[target_feature(enable = "ssse3")]
fn moved(octets: __m128i, [low, high]: Halves) -> __m128i {
    let half = _mm_set1_epi8(15);
    let by_low = _mm_shuffle_epi8(vector(low), _mm_and_si128(octets, half));
    let by_high = _mm_shuffle_epi8(vector(high), _mm_and_si128(_mm_srli_epi16::<4>(octets), half));
    _mm_xor_si128(by_low, by_high)
}

/// The last 96 octets, with what the remainder and those before them, sixteen a step, add to them.
#[target_feature(enable = "ssse3")]
fn shortened(remainder: u32, before: &[[u8; 16]], last: &[[u8; 16]; 6]) -> [[u8; 32]; 3] {
    let zero = _mm_setzero_si128();
    let mut lanes = [_mm_cvtsi32_si128(remainder as i32), zero, zero, zero, zero, zero];
    for sixteen in before {
        let [first, second, third, fourth, fifth, sixth] = lanes;
        let front = _mm_xor_si128(first, vector(*sixteen));
        lanes = [
            _mm_xor_si128(second, moved(front, ON_16)),
            _mm_xor_si128(third, moved(front, ON_32)),
            fourth,
            _mm_xor_si128(fifth, moved(front, ON_64)),
            sixth,
            moved(front, ON_96),
        ];
    }
    let mut turns = [[0; 32]; 3];
    let (places, _) = turns.as_flattened_mut().as_chunks_mut::<16>();
    for (place, (lane, octets)) in places.iter_mut().zip(lanes.into_iter().zip(last)) {
        *place = octets_of(_mm_xor_si128(lane, vector(*octets)));
    }
    turns
}

/// The remainder after octets that are folded away sixteen at a time, all but the last 96 to 111.
fn sixteens_added(remainder: u32, octets: &[u8]) -> u32 {
    let (sixteens, rest) = octets.as_chunks::<16>();
    let Some((before, last)) = sixteens.split_last_chunk::<6>() else {
        return run_added(remainder, octets);
    };
    // SAFETY: the processor has SSSE3, or the build was refused above.
    let [turns @ .., last] = unsafe { shortened(remainder, before, last) };
    words_added(turns_added(0, &turns, &last), rest)
}

/// What a window adds to the octet that stands so far behind its first 290.
#[inline]
fn owed(window: &[u8], at: usize) -> u8 {
    window[at] ^ window[at + 32] ^ window[at + 107] ^ window[at + 113] ^ window[at + REACH]
}

#[inline]
fn fold_piece(window: &mut [u8; SPAN + PIECE], piece: &[u8; PIECE]) {
    for at in 0..PIECE {
        window[at + SPAN] = piece[at] ^ owed(window, at);
    }
}

/// Folds a block away: the octets of the window from the block's length on are then the last that were folded.
#[inline(always)]
fn fold(mut window: &mut [u8], block: &[u8]) {
    let (pieces, rest) = block.as_chunks::<PIECE>();
    for piece in pieces {
        fold_piece(window.first_chunk_mut().expect("room behind the block"), piece);
        window = &mut { window }[PIECE..];
    }
    let window = window.first_chunk_mut::<{ SPAN + PIECE }>().expect("room behind the block");
    for (at, octet) in rest.iter().enumerate() {
        window[at + SPAN] = octet ^ owed(window, at);
    }
}

/// The same as `folded`, in a window of so many octets.
#[inline]
fn folded_in<const WINDOW: usize>(remainder: u32, octets: &[u8]) -> [u8; SPAN] {
    let mut window = [0; WINDOW];
    window[..4].copy_from_slice(&remainder.to_le_bytes());
    let (front, back) = octets.split_last_chunk::<SPAN>().expect("a long run");
    let (blocks, tail) = front.as_chunks::<BLOCK>();
    for block in blocks {
        fold(&mut window, block);
        window.copy_within(BLOCK..BLOCK + SPAN, 0);
    }
    fold(&mut window, tail);
    let window = &mut window[tail.len()..][..AROUND];
    window[SPAN..].fill(0);
    let mut settled = [0; SPAN];
    for (at, (place, octet)) in settled.iter_mut().zip(back).enumerate() {
        *place = octet ^ owed(window, at);
    }
    settled
}

/// 290 octets whose remainder from 0 is that of `octets` from `remainder`.
fn folded(remainder: u32, octets: &[u8]) -> [u8; SPAN] {
    if octets.len() <= SHORT_BLOCK + SPAN {
        folded_in::<{ SHORT_BLOCK + AROUND }>(remainder, octets)
    } else {
        folded_in::<{ BLOCK + AROUND }>(remainder, octets)
    }
}

/// The CRC-32C of the octets.
pub fn crc32c(octets: &[u8]) -> u32 {
    let remainder = match octets.len() {
        ..MEDIUM => run_added(u32::MAX, octets),
        MEDIUM..LONG => sixteens_added(u32::MAX, octets),
        LONG.. => sixteens_added(0, &folded(u32::MAX, octets)),
    };
    !remainder
}
