//! The oracle against answers worked out by hand, and the generator against its own promises.

use oracle::answer::answer;
use oracle::generate::{Generator, KINDS, TODAY};
use oracle::limits;
use oracle::request::Request;
use oracle::sample::{entries_254_and_255, examples, sample};

/// Every kind of request, today's and later ones.
fn all_kinds() -> String {
    let names: Vec<&str> = KINDS.iter().map(|kind| kind.name).collect();
    names.join(",")
}

#[test]
fn examples_are_answered_as_worked_out() {
    for (request, expected) in examples() {
        assert_eq!(expected, answer(request.as_bytes()), "{request}");
    }
}

#[test]
fn bits_and_checksums_are_answered_as_the_document_has_them() {
    for (request, expected) in [
        ("checksum 0 010203ff", "checksum 1"),
        ("checksum 0 00ff", "checksum 1"),
        ("checksum 2 1d0f00", "checksum 1"),
        ("checksum 2 1d0f", "checksum 0"),
        ("checksum 1 -", "checksum 0"),
        ("bits 12 4 a5c3", "bits 3"),
        ("bits 8 4 a5c3", "bits 12"),
        ("bits 0 0 a5c3", "bits -"),
        ("bits 0 65 000000000000000000", "bits -"),
        ("bits 18446744073709551615 2 a5c3", "bits -"),
    ] {
        assert_eq!(expected, answer(request.as_bytes()), "{request}");
    }
}

#[test]
fn limits_are_where_the_document_has_them() {
    let body = |length: usize| Request::Record { body: vec![2; length] }.line();
    assert_eq!("refused 9 0", answer(&body(limits::BODY)));
    assert_eq!("refused 4 2049", answer(&body(limits::BODY + 1)));

    let payload: Vec<u8> = [0x5B, 2, 0, 0x5D].repeat(limits::PAYLOAD / 4 + 1);
    let (taken, refused) = (&payload[..limits::PAYLOAD], &payload[..limits::PAYLOAD + 1]);
    for (request, expected) in [
        (Request::Count { payload: taken.to_vec() }, "count 16383"),
        (Request::Count { payload: refused.to_vec() }, "refused 4 65536"),
        (Request::Body { k: 0, payload: refused.to_vec() }, "body -"),
        (Request::Frames { cap: 0, payload: taken.to_vec() }, "frames 0"),
        (Request::Frames { cap: 0, payload: refused.to_vec() }, "refused 4 65536"),
        (Request::Frametable { cap: 0, payload: refused.to_vec() }, "refused 4 65536"),
    ] {
        assert_eq!(expected, answer(&request.line()));
    }
}

/// E13, of an MPDU and of a command's payload, after the text.
#[test]
fn limits_of_the_walks_are_where_the_document_has_them() {
    let header = |text: &str, length: usize| {
        let text = text.replace('|', "\t").into_bytes();
        let request = Request::Header { cap: 1, region: 0, speed: 0, text, mpdu: vec![1; length] };
        answer(&request.line())
    };
    let text = "B|0\nP|0|0|8|HEX|a|-|-|-\nH|1|0|0000|h\nV|a|1\n";
    assert_eq!("header 0 1 0000 1 0 1 0 0 0 8 1 1 0", header(text, limits::MPDU));
    assert_eq!("refused 4 2049", header(text, limits::MPDU + 1));
    assert_eq!("refused 4 2049", header("", limits::MPDU + 1));
    assert_eq!("refused 1 1", header("B", limits::MPDU + 1));
    assert_eq!("refused 2 0", header(&"\n".repeat(limits::TEXT + 1), limits::MPDU + 1));

    let command = |text: &str, length: usize| {
        let text = text.replace('|', "\t").into_bytes();
        answer(&Request::Command { cap: 1, text, payload: vec![1; length] }.line())
    };
    let text = "Q|0|ARRAY|a|-|-\n";
    assert_eq!("command 1 2048 0 1 0 2 2048 0 0 0 0 0", command(text, limits::COMMAND));
    assert_eq!("refused 4 2049", command(text, limits::COMMAND + 1));
    assert_eq!("refused 1 1", command("Q", limits::COMMAND + 1));
    assert_eq!("refused 2 0", command(&"\n".repeat(limits::TEXT + 1), limits::COMMAND + 1));
}

/// An offset of 254 is as good as any; one of 255 is so in a condition.
#[test]
fn the_last_offsets_count_entries() {
    let (text, payload) = entries_254_and_255();
    let text = text.replace('|', "\t").into_bytes();
    let answer = answer(&Request::Command { cap: 510, text, payload }.line());
    assert!(answer.starts_with("command 510 260 0 1 0 2 3 1 253 0 0 0 2 2 0 3 4 0 0 0 0 0 "));
    let last = " 2 2 0 255 256 0 0 0 252 0 0 3 506 255 256 1 165 0 0 0 \
         0 4 0 256 257 1 2 0 0 0 0 5 0 257 259 1 43707 0 0 0 0 7 0 259 260 1 1 0 0 0";
    assert!(answer.ends_with(last));
}

#[test]
fn requests_follow_from_seed_and_number() {
    let generator = || Generator::new(7, &all_kinds()).unwrap();
    let forward: Vec<_> = (0..500).map(|index| generator().request(index)).collect();
    let backward: Vec<_> = (0..500).rev().map(|index| generator().request(index)).collect();
    assert!(forward.iter().eq(backward.iter().rev()));
    assert!(forward[0] != Generator::new(8, &all_kinds()).unwrap().request(0));
    assert!(Generator::new(7, "rate,rates").is_err());
}

#[test]
fn drawn_lines_are_of_their_kind() {
    let generator = Generator::new(1, &all_kinds()).unwrap();
    for (place, line) in (0..100_000).map(|index| generator.request(index)) {
        assert!(!line.contains(&b'\n'));
        let Some(request) = Request::read(&line) else {
            assert_eq!("bad", generator.kinds()[place].name, "{}", line.escape_ascii());
            continue;
        };
        assert!(line.len() < 400_000, "a replay program need not hold this");
        assert!(line.starts_with(generator.kinds()[place].name.as_bytes()));
        assert_eq!(line, request.line());
    }
}

#[test]
fn the_walks_sample_is_small_and_has_every_refusal() {
    let lines = sample(1, "header,command").unwrap();
    assert!(lines.iter().map(|line| line.len() + 1).sum::<usize>() < 600_000);
    for word in ["header ", "command "] {
        let is_of_word = |line: &&Vec<u8>| line.starts_with(word.as_bytes());
        let answers: Vec<String> =
            lines.iter().filter(is_of_word).map(|line| answer(line)).collect();
        assert!(answers.len() > 300, "{word}");
        assert!(answers.iter().filter(|answer| answer.starts_with(word)).count() > 200, "{word}");
        let refusals = if word == "header " { 1..=8 } else { 1..=5 };
        for number in refusals.chain([8]) {
            let refused = format!("refused {number} ");
            assert!(answers.iter().any(|answer| answer.starts_with(&refused)), "{word}{refused}");
        }
    }
}

#[test]
fn the_sample_is_small_and_has_every_kind() {
    let lines = sample(1, TODAY).unwrap();
    assert!(lines.iter().map(|line| line.len() + 1).sum::<usize>() < 2_600_000);
    for name in TODAY.split(',').filter(|&name| name != "bad") {
        let word = [name.as_bytes(), b" "].concat();
        // A page of totals can have a thousand lines.
        let few = if name == "totals" { 20 } else { 100 };
        assert!(lines.iter().filter(|line| line.starts_with(&word)).count() > few, "{name}");
    }
    for answered in ["bad request", "refused 4 ", "refused 8 ", "refused 9 0", "refused 13 "] {
        let count = lines.iter().filter(|line| answer(line).starts_with(answered)).count();
        assert!(count > 2, "{answered}");
    }
}
