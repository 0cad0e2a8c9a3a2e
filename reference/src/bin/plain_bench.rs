//! Times the calls of the plain log. Standard input: five little-endian words, job, bytes, live, count and words. Standard output: the
//! microseconds of CPU time that the timed part took and a CRC-32 of what it left. Bad input: nothing.
//!
//! Jobs: 1 append, 2 CRC-32, 3 recover, 4 list. Jobs 5 to 7 read an image of so many words behind the five numbers and get, in one pass,
//! what tests/bench/calls.c gets call by call: 5 the number of listed records, 6 the last of them, 7 all of them. Jobs 9 to 11 recover it as
//! tests/bench/three.c does: 9 alone, 10 with two copies of it, 11 with one of the copies to repair. Job 12 vets 1,000 ops as tests/bench/vet.c does. Jobs 13 and 14
//! ask for crashes by number, as tests/bench/crashes.c does. Job 15 is job 1 with the one call for an append, job 16 that call with no
//! release, as tests/bench/append.c makes it. Job 1000 + k is the release of the head with k released records behind it, 2000 + k one that is refused behind the soundness test.

use reference::calls::Done;
use reference::layout::{words_of_bytes, TABLE_SIZE};
use reference::plain::{self, State};
use reference::three::{Lent, MODULES};
use std::hint::black_box;
use std::io::{self, Read};

extern "C" {
    fn clock() -> i64;
}

/// CPU time of this process in microseconds.
fn cpu_time() -> i64 {
    // Safe: C's clock takes nothing and only reads the process's time. std has no call for it.
    unsafe { clock() }
}

/// The time that some work takes.
fn time(work: impl FnOnce()) -> i64 {
    let start = cpu_time();
    work();
    cpu_time() - start
}

struct Log {
    image: Vec<u64>,
    op_buffer: Vec<u64>,
    state: State,
    payload: Vec<u8>,
}

impl Log {
    fn new(words: usize, payload: Vec<u8>) -> Log {
        let mut image = vec![0; words];
        let mut op_buffer = vec![0; 8_192];
        let Done { answer: state, .. } =
            plain::format(&mut image, &mut op_buffer).expect("a good size and room for the ops");
        Log { image, op_buffer, state, payload }
    }

    /// A log of `live` records, all of them durable.
    fn with_live(words: usize, payload: Vec<u8>, live: u64) -> Log {
        let mut log = Log::new(words, payload);
        for _ in 0..live {
            log.append();
        }
        if live > 0 {
            let Log { image, op_buffer, state, .. } = &mut log;
            let _ = plain::force(image, op_buffer, state, state.next_lsn - 1, 1);
        }
        log
    }

    /// A refused call leaves the state as it is, and the next one goes on from there.
    fn append(&mut self) {
        let Log { image, op_buffer, state, payload } = self;
        if let Ok(reserved) = plain::reserve(image, op_buffer, state, 1, payload.len() as u64) {
            let lsn = reserved.answer.lsn;
            let _ = plain::copy(image, op_buffer, state, lsn, 0, payload);
            let _ = plain::complete(image, op_buffer, state, lsn);
            let _ = plain::force(image, op_buffer, state, lsn, 8);
        }
    }

    /// The same in one call.
    fn append_once(&mut self) {
        let Log { image, op_buffer, state, payload } = self;
        let _ = black_box(plain::append(image, op_buffer, state, 1, payload, 8));
    }

    /// Gives the oldest durable records back until no more than `live` are left.
    fn trim(&mut self, live: u64) {
        let Log { image, op_buffer, state, .. } = self;
        while state.next_lsn - state.head_lsn > live && state.head_lsn <= state.committed_lsn {
            if plain::release(image, op_buffer, state, state.head_lsn).is_err() {
                break;
            }
        }
    }
}

fn main() -> io::Result<()> {
    let mut input = [0; 40];
    if io::stdin().lock().read_exact(&mut input).is_err() {
        return Ok(());
    }
    let (numbers, _) = input.as_chunks();
    let [job, bytes, live, count, words] = std::array::from_fn(|i| u64::from_le_bytes(numbers[i]));
    if (5..=11).contains(&job) {
        let mut image = Vec::new();
        io::stdin().lock().take(8 * words).read_to_end(&mut image)?;
        let done = if job < 9 { query(job, count, &image) } else { recovery(job, count, &image) };
        if let Some((time, digest)) = done {
            println!("{time} {digest}");
        }
        return Ok(());
    }
    if (13..=14).contains(&job) && (40..=8_192).contains(&words) {
        if let Some((time, digest)) = crashes(job, count, words) {
            println!("{time} {digest}");
        }
        return Ok(());
    }
    if (1..=1_024).contains(&bytes) && live <= TABLE_SIZE as u64 && (40..=8_192).contains(&words) {
        if let Some((time, digest)) = run(job, bytes, live, count, words as usize) {
            println!("{time} {digest}");
        }
    }
    Ok(())
}

/// The time and the digest of a job over an image, if it is not refused.
fn query(job: u64, count: u64, image: &[u8]) -> Option<(i64, u64)> {
    let last = plain::listed(image, |_| {}).ok()?.checked_sub(1)?;
    let mut found = Vec::with_capacity(image.len());
    let mut records = 0;
    let time = time(|| {
        for _ in 0..count {
            found.clear();
            let mut index = 0;
            let done = plain::listed(black_box(image), |record| {
                if job >= 7 || job == 6 && index == last {
                    found.extend_from_slice(&u64::from(record.kind).to_le_bytes());
                    found.extend_from_slice(&record.lsn.to_le_bytes());
                    found.extend_from_slice(record.payload.0);
                    found.extend_from_slice(record.payload.1);
                }
                index += 1;
            });
            records = black_box(done.unwrap_or(0));
            black_box(&found);
        }
    });
    Some((time, if job == 5 { records } else { plain::crc32_of_bytes(&found) }))
}

/// The same for a job that recovers the image, alone or on three modules.
fn recovery(job: u64, count: u64, image: &[u8]) -> Option<(i64, u64)> {
    let image = words_of_bytes(image)?;
    let mut images = [image.clone(), image.clone(), image];
    let mut op_buffers = [(); MODULES].map(|()| vec![0; 24_621]);
    let mut granted = 0;
    let time = time(|| {
        for _ in 0..count {
            let [a, b, c] = &mut images;
            if job == 9 {
                granted += u64::from(black_box(plain::recover(c, &mut op_buffers[2])).is_ok());
                continue;
            }
            // An unused word.
            c[23] ^= u64::from(job == 11);
            let mut op_buffers = op_buffers.iter_mut();
            let mut modules = [a, b, c].map(|image| {
                let op_buffer = op_buffers.next().expect("one for each module");
                Lent { image, op_buffer, present: true }
            });
            granted += u64::from(black_box(plain::recover_three(&mut modules)).is_ok());
        }
    });
    (granted == count).then(|| (time, plain::crc32_of_words(&images[2])))
}

/// The same for a job that asks for one crash after another, and from the first again. The digest is that of all images and points.
fn crashes(job: u64, count: u64, words: u64) -> Option<(i64, u64)> {
    let image: Vec<u64> = (0..words).map(|i| 7 * i + 3).collect();
    let ops: Vec<u64> = match job {
        13 => {
            // Of 11 words, in neither order.
            let stores = (0..11).map(|i| [1, 5 * i % 11 * (words / 11), i]);
            stores.chain([[2, 0, words]]).flatten().collect()
        }
        _ => (0..4_095).flat_map(|i| [2, i % words, 1]).collect(),
    };
    let total = plain::crash_count(&image, &ops).ok()?;
    let mut output = vec![0; image.len()];
    let mut found = 0;
    let time = time(|| {
        for i in 0..count {
            let image = black_box(&image);
            found += u64::from(plain::crash_image(image, &ops, i % total, &mut output).is_ok());
            black_box(&output);
        }
    });
    let mut digest = total;
    for number in 0..total {
        let point = plain::crash_image(&image, &ops, number, &mut output).ok()?;
        for word in output.iter().chain([&point]) {
            digest = digest.wrapping_mul(0x9E37_79B9_7F4A_7C15).wrapping_add(*word);
        }
    }
    (found == count).then_some((time, digest))
}

/// The time and the digest of a job, if there is such a job.
fn run(job: u64, bytes: u64, live: u64, count: u64, words: usize) -> Option<(i64, u64)> {
    let payload: Vec<u8> = (0..bytes).map(|i| (7 * i + 3) as u8).collect();
    match job {
        1 => {
            let mut log = Log::with_live(words, payload, live);
            let time = time(|| {
                for _ in 0..count {
                    log.append();
                    log.trim(live);
                }
            });
            Some((time, plain::crc32_of_words(&log.image)))
        }
        15 => {
            let mut log = Log::with_live(words, payload, live);
            let time = time(|| {
                for _ in 0..count {
                    log.append_once();
                    log.trim(live);
                }
            });
            Some((time, plain::crc32_of_words(&log.image)))
        }
        16 => {
            let mut log = Log::with_live(words, payload, live);
            let now = log.state.clone();
            let time = time(|| {
                for i in 0..count {
                    // Every eighth is followed by the state as it was.
                    if i % 8 == 0 {
                        log.state.clone_from(black_box(&now));
                    }
                    log.append_once();
                }
            });
            Some((time, plain::crc32_of_words(&log.image)))
        }
        2 => {
            let (payload, _) = payload.as_chunks();
            let mut buffer: Vec<u64> =
                payload.iter().map(|word| u64::from_le_bytes(*word)).collect();
            let mut check = 0;
            let time = time(|| {
                for _ in 0..count {
                    check = plain::crc32_of_words(&buffer);
                    if let Some(first) = buffer.first_mut() {
                        *first = check;
                    }
                }
            });
            Some((time, check))
        }
        3 => {
            let Log { mut image, mut op_buffer, .. } = Log::with_live(words, payload, live);
            let time = time(|| {
                for _ in 0..count {
                    let _ = black_box(plain::recover(&mut image, &mut op_buffer));
                }
            });
            Some((time, plain::crc32_of_words(&image)))
        }
        4 => {
            let Log { image, .. } = Log::with_live(words, payload, live);
            let bytes: Vec<u8> = image.iter().flat_map(|word| word.to_le_bytes()).collect();
            let mut text = Vec::with_capacity(140_000);
            let time = time(|| {
                for _ in 0..count {
                    plain::list(black_box(&bytes), &mut text);
                }
            });
            Some((time, plain::crc32_of_bytes(&text)))
        }
        12 => {
            let Log { image, state, .. } = Log::with_live(words, payload, live);
            // Behind the records' words and the terminator.
            let first = state.next_position + 25;
            let free = words as u64 - first;
            let ops: Vec<u64> = (0..1_000_u64)
                .flat_map(|i| match i % 4 {
                    3 => [2, i, 1 + i % 7],
                    _ => [1, first + 37 * i % free, i],
                })
                .collect();
            let mut passed = 0;
            let time = time(|| {
                for _ in 0..count {
                    passed += black_box(plain::vet(black_box(&state), &image, &ops)).unwrap_or(0);
                }
            });
            (passed == 1_000 * count).then_some((time, passed))
        }
        1000..3000 => {
            let mut log = Log::with_live(words, payload, live);
            let head = log.state.head_lsn;
            for lsn in (head + 1..=head + job % 1000).rev() {
                let Log { image, op_buffer, state, .. } = &mut log;
                let _ = plain::release(image, op_buffer, state, lsn);
            }
            let lsn = if job < 2000 { head } else { 0 };
            let Log { mut image, mut op_buffer, state, .. } = log;
            let time = time(|| {
                for _ in 0..count {
                    let mut state = black_box(&state).clone();
                    let _ = black_box(plain::release(&mut image, &mut op_buffer, &mut state, lsn));
                }
            });
            Some((time, plain::crc32_of_words(&image)))
        }
        _ => None,
    }
}
