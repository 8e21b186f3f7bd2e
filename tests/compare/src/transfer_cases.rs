//! Which transfers are compared: every limit, and random ones.

use crate::report::Checked;
use crate::run::Run;
use crate::transfers::{check, Case};
use compare::random::Random;
use second::field::{BODY_MAX, HEADING_MAX};
use second::transfer::checksum;
use second::transfer::writer::{write_framed, write_plain};

const BODIES: [usize; 11] = [0, 1, 255, 256, 257, 511, 512, 513, 65_534, BODY_MAX, 65_536];

/// Portions of one size for so many bytes.
fn pieces(size: usize, bytes: usize) -> Vec<usize> {
    vec![size; bytes / size]
}

/// One transfer at once, then byte by byte.
fn check_twice(run: &mut Run, form: u8, bytes: &[u8], store: usize) -> Checked {
    for portions in [vec![], pieces(1, bytes.len())] {
        check(run, &Case { form, bytes, store, portions })?;
    }
    Ok(())
}

pub fn limits(run: &mut Run) -> Checked {
    every_byte_at_every_place(run)?;
    every_header(run)?;
    every_heading_length(run)?;
    every_block_length(run)?;
    spaces_and_forms(run)?;
    for length in BODIES {
        bodies(run, length)?;
    }
    full_store(run)
}

/// Every byte at every place of short transfers, cut at every place.
fn every_byte_at_every_place(run: &mut Run) -> Checked {
    let framed = b"\x01\x0BHI J\x0000000\x00\x02\x02AB\x02\x01C\x04\x3A";
    for (form, example) in [(1, &framed[..]), (0, b"HI J\r\nAB\x1A \r")] {
        for place in 0..example.len() {
            for byte in 0..=255 {
                let mut bytes = example.to_vec();
                bytes[place] = byte;
                for cut in 0..=place + 1 {
                    let portions = vec![cut];
                    check(run, &Case { form, bytes: &bytes, store: 3, portions })?;
                }
            }
        }
    }
    Ok(())
}

/// A framed header with any L, heading and offset, then a byte of data.
fn every_header(run: &mut Run) -> Checked {
    for length in 0..=255 {
        for heading in 0..=90 {
            for offset in 0..=8 {
                let text = [vec![b'x'; heading], vec![b'0'; offset]].join(&0);
                let tail = [0, 2, 1, b'A', 4, 0xBF];
                let bytes = [&[1, length], &text[..], &tail].concat();
                let portions = if offset % 2 == 0 { vec![] } else { vec![2, heading, 1, offset] };
                check(run, &Case { form: 1, bytes: &bytes, store: 1, portions })?;
            }
        }
    }
    Ok(())
}

/// Headings of 0 to 90 bytes with each end of the class, and each offset digit.
fn every_heading_length(run: &mut Run) -> Checked {
    for heading in 0..=90 {
        for byte in [0x1F, 0x20, 0x7F, 0x80, 0xFF] {
            let heading = vec![byte; heading];
            check_twice(run, 0, &write_plain(&heading, b"AB"), 2)?;
            check_twice(run, 1, &write_framed(&heading, b"AB"), 2)?;
        }
    }
    for offset in 0..=8 {
        for place in 0..offset {
            for digit in 0..=255 {
                let mut text = vec![b'0'; offset];
                text[place] = digit;
                let header = [&[1, (offset + 4) as u8], &b"HI\x00"[..], &text, &[0, 4, 0]];
                check_twice(run, 1, &header.concat(), 0)?;
            }
        }
    }
    Ok(())
}

/// One block of each length, and one of which bytes are missing or too many.
fn every_block_length(run: &mut Run) -> Checked {
    for n in 0..=255 {
        let length = if n == 0 { 256 } else { usize::from(n) };
        for present in [length - 1, length, length + 1] {
            let data = vec![2; present];
            let head = &b"\x01\x04T\x000\x00\x02"[..];
            let bytes = [head, &[n], &data, &[4, checksum(&data)]].concat();
            check_twice(run, 1, &bytes, 300)?;
            check_twice(run, 1, &bytes, length - 1)?;
        }
    }
    Ok(())
}

/// Spaces before the last CR; every number of a form.
fn spaces_and_forms(run: &mut Run) -> Checked {
    for spaces in 0..=300 {
        let bytes = [b"T\rA\x1A", &vec![b' '; spaces][..], b"\r\n"].concat();
        check_twice(run, 0, &bytes, 1)?;
    }
    for form in 0..=255 {
        check_twice(run, form, &write_plain(b"T", b"AB"), 2)?;
        check_twice(run, form, &write_framed(b"T", b"AB"), 2)?;
    }
    Ok(())
}

/// A body of this length, with stores below, at and above it.
fn bodies(run: &mut Run, length: usize) -> Checked {
    let plain_body = inputs::body_of(&mut run.random, length, true);
    let packed_body = inputs::body_of(&mut run.random, length, false);
    let plain = write_plain(b"Title", &plain_body);
    let framed = write_framed(b"name", &packed_body);
    for store in [0, length.saturating_sub(1), length, length + 1, length + 5_000] {
        for size in [255, 256, 257, 4096, 100_000] {
            for (form, bytes) in [(0, &plain), (1, &framed)] {
                let portions = pieces(size, bytes.len());
                check(run, &Case { form, bytes, store, portions })?;
            }
        }
    }
    Ok(())
}

/// DECISIONS 20: after 65,535 bytes, and in a full store, an 02 and its n are
/// taken and the data byte is refused.
fn full_store(run: &mut Run) -> Checked {
    for length in [0, 1, 256, BODY_MAX] {
        let body = vec![b'x'; length];
        let mut bytes = write_framed(b"T", &body);
        bytes.truncate(bytes.len() - 2);
        for tail in [&b"\x02"[..], b"\x02\x00", b"\x02\x01A", b"\x04\x00", b"\x05"] {
            let bytes = [&bytes[..], tail].concat();
            for store in [length, BODY_MAX, BODY_MAX + 1] {
                let portions = vec![bytes.len() - tail.len(), 1, 1, 1];
                check(run, &Case { form: 1, bytes: &bytes, store, portions })?;
            }
        }
    }
    Ok(())
}

/// Below, at or above the length of the body, or anything.
fn store_size(random: &mut Random, body: usize) -> usize {
    match random.below(12) {
        0 => 0,
        1 => body.saturating_sub(1),
        2..=4 => body,
        5 | 6 => body + 1,
        7 => random.below(body + 1),
        _ => body + random.below(300),
    }
}

/// All at once, byte by byte, or portions of many lengths, some of them empty.
fn portions(random: &mut Random, bytes: usize) -> Vec<usize> {
    let most = match random.below(6) {
        0 => return vec![],
        1 if bytes < 1000 => return pieces(1, bytes),
        2 if bytes < 1000 => 3,
        3 => bytes / 2 + 1,
        _ => ((bytes + 39) / 40).max(30),
    };
    let mut lengths = Vec::new();
    let mut total = 0;
    while total < bytes {
        let length = random.below(most + 1);
        lengths.push(length);
        total += length.max(1);
    }
    lengths
}

fn random_heading(random: &mut Random) -> Vec<u8> {
    if random.once_in(16) {
        let length = inputs::length(random, HEADING_MAX);
        return vec![b'x'; length];
    }
    inputs::heading(random)
}

/// Damage anywhere, or where it hurts more: in front, or at the end.
fn damaged(random: &mut Random, bytes: Vec<u8>) -> Vec<u8> {
    let split = match random.below(4) {
        0 => bytes.len().min(random.below(100)),
        1 => bytes.len() - bytes.len().min(random.below(8)),
        _ => return inputs::damaged(random, bytes),
    };
    let (front, end) = bytes.split_at(split);
    if random.once_in(2) {
        [&inputs::damaged(random, front.to_vec()), end].concat()
    } else {
        [front, &inputs::damaged(random, end.to_vec())].concat()
    }
}

pub fn random_plain(run: &mut Run) -> Checked {
    let random = &mut run.random;
    let (title, body) = (random_heading(random), inputs::body(random, true));
    let bytes = inputs::plain(random, &title, &body);
    random_case(run, 0, bytes, body.len())
}

pub fn random_framed(run: &mut Run) -> Checked {
    let random = &mut run.random;
    let (heading, body) = (random_heading(random), inputs::body(random, false));
    let bytes = inputs::framed(random, &heading, &body);
    let form = random.pick(&[1, 1, 2, 255]);
    random_case(run, form, bytes, body.len())
}

fn random_case(run: &mut Run, form: u8, bytes: Vec<u8>, body: usize) -> Checked {
    let random = &mut run.random;
    let mut bytes = damaged(random, bytes);
    if random.once_in(4) {
        // What follows a transfer is not read.
        bytes.extend_from_slice(b"\r\nFF\r");
    }
    let store = store_size(random, body);
    let portions = portions(random, bytes.len());
    check(run, &Case { form, bytes: &bytes, store, portions })
}
