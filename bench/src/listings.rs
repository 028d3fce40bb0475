//! `judge_listing` and `write_listing` against `decode_header`, all by the public calls, which check the text each time: our own listing, that of another
//! candidate with all its rows right, and one that differs in its first row.

use std::hint::black_box;

use oracle::definition::frame::FrameDefinition;
use oracle::reading::header::{candidate_rows, decode_header};
use oracle::reading::listing::written;

use crate::clock::{self, Side};
use crate::frames::{self, Frame};
use crate::headers;
use crate::ours;

/// What a judgement may cost of what a header does.
const JUDGED: f64 = 1.5;
/// More bytes than a listing has.
const LISTING: usize = 18_837;

/// Our own listing of a frame; another candidate's; our own with another home id.
struct Listings {
    ours: Vec<u8>,
    another: Vec<u8>,
    differing: Vec<u8>,
}

pub fn run() {
    let definition = frames::definition();
    let all: Vec<(Frame, Listings)> = frames::frames()
        .into_iter()
        .filter_map(|frame| listings(&definition, &frame).map(|listings| (frame, listings)))
        .collect();
    for (frame, listings) in &all {
        check(frame, listings);
    }
    println!("\nOur calls judge and write the listings of every frame as the oracle does.");
    print!("\n{:5} of a listing        bytes     header", clock::unit());
    println!("       ours / header    another / header  differing / header    writing / header");
    for (frame, listings) in &all {
        let [header, ours, another, differing, writing] = clock::time_more([
            headers::header(frames::TEXT, frame, ours::bench_decode_header),
            judging(frame, &listings.ours),
            judging(frame, &listings.another),
            judging(frame, &listings.differing),
            writing(frame),
        ]);
        print!("{:24} {:5}  {:9.0}", frame.name, listings.ours.len(), header.median());
        for cost in [ours, another, differing, writing] {
            print!("  {:10.0}  {:6.2}", cost.median(), cost.ratio_to(&header));
        }
        println!();
    }
    println!("(allowed: {JUDGED} for a judgement)");
}

fn listings(definition: &FrameDefinition, frame: &Frame) -> Option<Listings> {
    let (region, speed) = (u64::from(frames::REGION), u64::from(frame.speed));
    let header = decode_header(definition, &frame.mpdu, region, speed).ok()?;
    let number = header.number as u64;
    let rows_of = |number: u64| candidate_rows(definition, &frame.mpdu, region, speed, number);
    let (another, rows) = (0..64).rev().filter(|&n| n != number).find_map(|n| Some((n, rows_of(n)?)))?;
    let mut differing = header.rows.clone();
    differing[0][5] += 1;
    Some(Listings {
        ours: written(&header.rows, number),
        another: written(&rows, another),
        differing: written(&differing, number),
    })
}

/// Stops unless our calls say what the oracle does.
fn check(frame: &Frame, listings: &Listings) {
    let asked = headers::asked(frames::TEXT, frame);
    let last = listings.another.iter().filter(|&&byte| byte == b'\n').count() as u64;
    let said = |listing: &[u8]| ours::judge_listing(asked, listing);
    assert_eq!((0, 0), said(&listings.ours), "another judgement of '{}'", frame.name);
    assert_eq!((0, last), said(&listings.another), "another judgement of '{}'", frame.name);
    assert_eq!((0, 1), said(&listings.differing), "another judgement of '{}'", frame.name);
    let mut buffer = vec![0; LISTING];
    let length = ours::write_listing(asked, &mut buffer);
    assert_eq!(listings.ours, buffer[..length], "another listing of '{}'", frame.name);
}

fn judging<'a>(frame: &'a Frame, listing: &'a [u8]) -> Side<'a> {
    let asked = headers::asked(frames::TEXT, frame);
    clock::side(move || {
        black_box(ours::judge_listing(black_box(asked), listing));
    })
}

fn writing(frame: &Frame) -> Side<'_> {
    let asked = headers::asked(frames::TEXT, frame);
    let mut buffer = vec![0; LISTING];
    clock::side(move || {
        black_box(ours::write_listing(black_box(asked), &mut buffer));
    })
}
