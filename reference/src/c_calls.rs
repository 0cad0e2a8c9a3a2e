//! The calls of slips 1, 4 and 8 as a C program makes them, held against our own.
//!
//! The program is tests/c/queries.c, linked with another implementation; its head says how it is asked and what it prints. It runs once
//! for each image, and gets that image at two places in memory.

use crate::compare::{difference, output_and_status, Difference};
use crate::images;
use crate::loglist::hex;
use crate::query;
use crate::rng::Rng;
use crate::samples::samples;
use std::fmt::Write as _;
use std::io;
use std::path::Path;

/// What a run came to.
pub struct Report {
    pub images: u64,
    pub calls: u64,
    /// The name of the image, and the line.
    pub difference: Option<(String, Difference)>,
}

/// Runs the driver on the images of samples and on those of `count` seeds, and stops at the first difference.
pub fn c_calls(driver: &Path, first_seed: u64, count: u64) -> io::Result<Report> {
    let mut report = Report { images: 0, calls: 0, difference: None };
    for (seed, name, bytes) in all_images(first_seed, count) {
        let asked = ask(seed, &bytes);
        let (mut theirs, status) = output_and_status(driver, &asked.input)?;
        // Also where every line was printed before.
        if !status.success() {
            theirs.extend_from_slice(format!("(ended with {status})\n").as_bytes());
        }
        report.images += 1;
        report.calls += asked.answers.len() as u64;
        let difference = difference(seed, "c-calls", asked.text.as_bytes(), &theirs);
        if let Some(difference) = difference {
            report.difference = Some((name, difference));
            break;
        }
    }
    Ok(report)
}

/// The images of samples and those of `count` seeds: the seed of what is asked, a name, the bytes.
pub fn all_images(first_seed: u64, count: u64) -> impl Iterator<Item = (u64, String, Vec<u8>)> {
    let written = samples().into_iter().map(move |sample| (first_seed, sample.name, sample.bytes));
    written.chain((0..count).map(move |i| {
        let seed = first_seed.wrapping_add(i);
        let (name, bytes) = images::image(seed);
        (seed, name.to_string(), bytes)
    }))
}

/// What is asked of one image.
pub struct Asked {
    /// The driver's input.
    pub input: Vec<u8>,
    /// What it owes.
    pub text: String,
    /// The name of each call, and 0 or the refusal that it gives.
    pub answers: Vec<(&'static str, u64)>,
}

pub fn ask(seed: u64, image: &[u8]) -> Asked {
    let mut asked = Asked { input: Vec::new(), text: String::new(), answers: Vec::new() };
    for request in requests(&mut Rng::new(seed), image) {
        request.encode(image, &mut asked.input);
        if let Some((call, result)) = request.answer(image, &mut asked.text) {
            asked.answers.push((call, if result < 0 { result.unsigned_abs() } else { 0 }));
        }
    }
    asked
}

/// Where lent bytes stand.
#[derive(Clone, Copy)]
enum Place {
    Null,
    /// So many bytes behind a page that nobody may touch.
    Behind(u64),
    /// So many bytes before one.
    Before(u64),
}

impl Place {
    fn words(self) -> [u64; 2] {
        match self {
            Place::Null => [0, 0],
            Place::Behind(gap) => [1, gap],
            Place::Before(gap) => [2, gap],
        }
    }

    /// The same, where words may stand.
    fn of_words(self) -> Place {
        match self {
            Place::Null => Place::Null,
            Place::Behind(gap) => Place::Behind(gap / 8 * 8),
            Place::Before(gap) => Place::Before(gap / 8 * 8),
        }
    }

    /// At any address, and often at the very edge.
    fn any(rng: &mut Rng) -> Place {
        let gap = if rng.chance(1, 3) { 0 } else { rng.below(40) };
        if rng.chance(1, 4) {
            Place::Behind(gap)
        } else {
            Place::Before(gap)
        }
    }
}

enum Request {
    Image(Place),
    Count,
    Kind(u64),
    Lsn(u64),
    Epoch(u64),
    /// The output, as it is before the call.
    Payload(u64, Vec<u8>, Place),
    /// The rows, as they are before the call.
    List(Vec<u64>, Place),
    /// Position, length and the output.
    PayloadAt(u64, u64, Vec<u8>, Place),
    Damage,
}

impl Request {
    fn encode(&self, image: &[u8], input: &mut Vec<u8>) {
        let mut put = |words: &[u64], bytes: &[u8]| {
            input.extend(words.iter().flat_map(|word| word.to_le_bytes()));
            input.extend_from_slice(bytes);
        };
        match self {
            Request::Image(place) => {
                let [place, gap] = place.words();
                put(&[1, image.len() as u64, place, gap], image);
            }
            Request::Count => put(&[2], &[]),
            Request::Kind(index) => put(&[3, *index], &[]),
            Request::Lsn(index) => put(&[4, *index], &[]),
            Request::Epoch(index) => put(&[9, *index], &[]),
            Request::Payload(index, output, place) => {
                let [place, gap] = place.words();
                put(&[5, *index, output.len() as u64, place, gap], output);
            }
            Request::List(rows, place) => {
                let [place, gap] = place.words();
                put(&[6, rows.len() as u64, place, gap], &bytes_of(rows));
            }
            Request::PayloadAt(position, length, output, place) => {
                let [place, gap] = place.words();
                put(&[7, *position, *length, output.len() as u64, place, gap], output);
            }
            Request::Damage => put(&[8], &[]),
        }
    }

    /// Puts down the line that is due, and gives the call with its result. An image has none.
    fn answer(&self, image: &[u8], text: &mut String) -> Option<(&'static str, i64)> {
        let (call, result) = match self {
            Request::Image(_) => return None,
            Request::Count => {
                let result = query::count(image);
                let _ = writeln!(text, "count {result}");
                ("count", result)
            }
            Request::Kind(index) => {
                let result = query::kind(image, *index);
                let _ = writeln!(text, "kind {index} {result}");
                ("kind", result)
            }
            Request::Lsn(index) => {
                let result = query::lsn(image, *index);
                let _ = writeln!(text, "lsn {index} {result}");
                ("lsn", result)
            }
            Request::Epoch(index) => {
                let result = query::epoch(image, *index);
                let _ = writeln!(text, "epoch {index} {result}");
                ("epoch", result)
            }
            Request::Payload(index, output, _) => {
                let mut output = output.clone();
                let result = query::payload(image, *index, &mut output);
                let (room, data) = (output.len(), hex(&output));
                let _ = writeln!(text, "payload {index} {room} {result} {data} kept");
                ("payload", result)
            }
            Request::List(rows, _) => {
                let mut rows = rows.clone();
                let result = query::list(image, &mut rows);
                let (room, data) = (rows.len(), hex(&bytes_of(&rows)));
                let _ = writeln!(text, "list {room} {result} {data} kept");
                ("list", result)
            }
            Request::PayloadAt(position, length, output, _) => {
                let mut output = output.clone();
                let result = query::payload_at(image, *position, *length, &mut output);
                let (room, data) = (output.len(), hex(&output));
                let _ =
                    writeln!(text, "payload_at {position} {length} {room} {result} {data} kept");
                ("payload_at", result)
            }
            Request::Damage => {
                let result = query::damage(image);
                let _ = writeln!(text, "damage {result}");
                ("damage", result)
            }
        };
        Some((call, result))
    }
}

/// What is asked of an image: everything at its edge, then everything at another address.
fn requests(rng: &mut Rng, image: &[u8]) -> Vec<Request> {
    let first = if image.is_empty() { Place::Null } else { Place::Before(0) };
    let mut requests = Vec::new();
    for place in [first, Place::any(rng)] {
        requests.extend([Request::Image(place), Request::Count, Request::Damage]);
        for index in indices(rng, image) {
            requests.extend([Request::Kind(index), Request::Lsn(index), Request::Epoch(index)]);
            for room in rooms(image, index) {
                let null = room == 0 && rng.chance(1, 2);
                let place = if null { Place::Null } else { Place::any(rng) };
                requests.push(Request::Payload(index, rng.bytes(room), place));
            }
        }
        for room in list_rooms(image) {
            let null = room == 0 && rng.chance(1, 2);
            let place = if null { Place::Null } else { Place::any(rng).of_words() };
            let rows = (0..room).map(|_| rng.next_u64()).collect();
            requests.push(Request::List(rows, place));
        }
        for (position, length, room) in places(rng, image) {
            let place = if room == 0 { Place::Null } else { Place::any(rng) };
            requests.push(Request::PayloadAt(position, length, rng.bytes(room), place));
        }
    }
    requests
}

/// None, one word too few, just enough, three too many; a few where no list is due.
fn list_rooms(image: &[u8]) -> Vec<u64> {
    match query::count(image) {
        count @ 0.. => {
            let words = 4 * count as u64;
            vec![0, words.saturating_sub(1), words, words + 3]
        }
        _ => vec![0, 3, 40],
    }
}

/// Position, length and room: of the first, the last and any row, each just enough and one byte too few; of no record: any position
/// and length, and the edges of both.
fn places(rng: &mut Rng, image: &[u8]) -> Vec<(u64, u64, u64)> {
    let mut places = Vec::new();
    let count = query::count(image).max(0) as u64;
    if count > 0 {
        let mut rows = vec![0; 4 * count as usize];
        query::list(image, &mut rows);
        for index in [0, count - 1, rng.below(count)] {
            let row = &rows[4 * index as usize..][..4];
            let (length, position) = (row[2], row[3]);
            places
                .extend([(position, length, length), (position, length, length.saturating_sub(1))]);
        }
    }
    let area = (image.len() as u64 / 8).saturating_sub(24);
    let any = rng.below(1_025);
    places.push((rng.below(area.max(1)), any, any + 5));
    places.extend([(area.saturating_sub(1), 1_024, 1_030), (area, 8, 8), (0, 1_025, 1_100)]);
    places.extend([
        ((1 << 32) + rng.below(area.max(1)), 8, 8),
        (u64::MAX, u64::MAX, 3),
        (0, (1 << 32) + 8, 8),
    ]);
    places
}

fn bytes_of(words: &[u64]) -> Vec<u8> {
    words.iter().flat_map(|word| word.to_le_bytes()).collect()
}

/// First, last, any; then those that name no record: the next, and numbers whose lower bits name one.
fn indices(rng: &mut Rng, image: &[u8]) -> Vec<u64> {
    let count = query::count(image).max(0) as u64;
    let any = rng.below(count.max(1));
    let mut indices = vec![0, count.saturating_sub(1), any];
    indices.extend([count, count + 1, (1 << 32) + any, 1 << 63, u64::MAX]);
    indices.push((1 << rng.between(6, 63)) + any);
    indices
}

/// None, one byte too few, just enough, five too many; a few where no payload is due.
fn rooms(image: &[u8], index: u64) -> Vec<u64> {
    match query::payload(image, index, &mut [0; 1_024]) {
        length @ 0.. => {
            vec![0, (length as u64).saturating_sub(1), length as u64, length as u64 + 5]
        }
        _ => vec![0, 1, 13],
    }
}
