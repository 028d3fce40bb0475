//! The library's `mask_nodes` against loops in C over the same bytes: counted (a table of no nodes, which refusal 8 tells
//! the number of) and listed.

use std::hint::black_box;

use crate::clock::{self, Side};
use crate::ours;

/// The bytes of a mask: a header's, and the longest of a size path.
const LENGTHS: [usize; 2] = [29, 255];
/// Those over which growth is seen.
const GROWING: [usize; 4] = [32, 256, 1_024, 8_191];
/// What counting may cost of what popcount over words does.
const COUNTED: f64 = 2.0;

unsafe extern "C" {
    fn list_bits(mask: *const u8, length: usize, nodes: *mut u16) -> usize;
    fn count_bits(mask: *const u8, length: usize) -> usize;
    fn count_words(mask: *const u8, length: usize) -> usize;
}

pub fn run() {
    check();
    println!(
        "\n{:5} of counting   C, bits  C, words    ours  ours / bits  ours / words",
        clock::unit()
    );
    for length in LENGTHS {
        let mask = mask(length, 3);
        let [bits, words, ours] =
            clock::time([by(&mask, c_bits), by(&mask, c_words), by(&mask, ours::count_nodes)]);
        let (to_bits, to_words) = (ours.ratio_to(&bits), ours.ratio_to(&words));
        let (bits, words, ours) = (bits.median(), words.median(), ours.median());
        println!("{length:9} bytes  {bits:9.1} {words:9.1} {ours:7.1}  {to_bits:11.2}  {to_words:12.2}");
    }
    println!("(allowed: {COUNTED} of words)");
    println!("\n{:5} of listing    nodes   C, bits    ours  ours / bits", clock::unit());
    for (length, every) in LENGTHS.into_iter().flat_map(|length| [(length, 64), (length, 3), (length, 1)]) {
        let mask = mask(length, every);
        let nodes = ours::count_nodes(&mask);
        let (mut theirs, mut table) = (vec![0; 8 * length], vec![0; 8 * length]);
        let [bits, ours] = clock::time([
            clock::side(|| {
                black_box(c_list(black_box(&mask), &mut theirs));
            }),
            clock::side(|| {
                black_box(ours::mask_nodes(black_box(&mask), &mut table));
            }),
        ]);
        let ratio = ours.ratio_to(&bits);
        let (bits, ours) = (bits.median(), ours.median());
        println!("{length:9} bytes  {nodes:6} {bits:9.1} {ours:7.1}  {ratio:11.2}");
    }
    println!("\ncounting as a mask grows, a byte of it against one of {} bytes", GROWING[0]);
    let masks = GROWING.map(|length| mask(length, 3));
    let costs = clock::time([0, 1, 2, 3].map(|i: usize| by(&masks[i], ours::count_nodes)));
    let first = costs[0].median() / GROWING[0] as f64;
    for (length, cost) in GROWING.into_iter().zip(&costs) {
        println!("{length:9} bytes  {:6.2}", cost.median() / length as f64 / first);
    }
}

/// Stops unless all sides have the same nodes of masks of every length with few, some and all bits.
fn check() {
    for (length, every) in (0..=255).flat_map(|length| [64, 7, 3, 1].map(|every| (length, every))) {
        let mask = mask(length, every);
        let (mut theirs, mut table) = (vec![0; 8 * length], vec![0; 8 * length]);
        let count = c_list(&mask, &mut theirs);
        let counts = [c_bits(&mask), c_words(&mask), ours::count_nodes(&mask), ours::mask_nodes(&mask, &mut table)];
        assert_eq!([count; 4], counts, "the sides count other nodes: {length} bytes, every {every}");
        assert_eq!(theirs[..count], table[..count], "the sides list other nodes: {length} bytes, every {every}");
    }
    println!("\nAll sides have the same nodes of masks of 0 to 255 bytes.");
}

/// A mask with every so manieth bit set.
fn mask(length: usize, every: usize) -> Vec<u8> {
    let set = |byte: usize| (0..8).filter(|bit| (8 * byte + bit) % every == 0).map(|bit| 1 << bit).sum();
    (0..length).map(set).collect()
}

fn by<'a>(mask: &'a [u8], count: impl Fn(&[u8]) -> usize + 'a) -> Side<'a> {
    clock::side(move || {
        black_box(count(black_box(mask)));
    })
}

fn c_bits(mask: &[u8]) -> usize {
    // SAFETY: the slice is valid for the call, which only reads it.
    unsafe { count_bits(mask.as_ptr(), mask.len()) }
}

fn c_words(mask: &[u8]) -> usize {
    // SAFETY: the slice is valid for the call, which only reads it.
    unsafe { count_words(mask.as_ptr(), mask.len()) }
}

fn c_list(mask: &[u8], nodes: &mut [u16]) -> usize {
    assert!(nodes.len() >= 8 * mask.len());
    // SAFETY: the slices are valid for the call, which writes at most a node for each bit.
    unsafe { list_bits(mask.as_ptr(), mask.len(), nodes.as_mut_ptr()) }
}
