//! Random scripts for replay: histories that work, and inputs that every refusal answers.
//!
//! The generator carries each command out while it writes it down, so that it knows what is live, what
//! fits and how many ops a call is going to have. The same seed gives the same script.

use crate::calls::{self, Cursor, Next};
use crate::device::Device;
use crate::layout::{
    record_check, record_size, CheckWord, Header, Ring, Superline, FIRST_RING_WORD, HEADER_WORDS,
    LSN_LIMIT, MARK_COMMITTED, MARK_RELEASED, MAX_EPOCH, MAX_IMAGE_WORDS, MAX_KIND, MAX_LENGTH,
    MIN_IMAGE_WORDS, OLD_TABLE_SIZE, REPLACEMENT_KIND, TABLE_SIZE,
};
use crate::ops::OP_WORDS;
use crate::replay::{entry_numbers, fields, Machine};
use crate::rng::Rng;
use crate::script::{
    Answer, Command, Parsed, MAX_SCRIPT_BYTES, MAX_SCRIPT_IMAGE, MAX_SCRIPT_OP_BUFFER,
};
use crate::state::{Entry, Stage, State};

/// Op buffer words enough for every call on an image of so many words: an append of the longest record with a force of all records that
/// there is room for, a recovery at least.
pub fn roomy_op_buffer(words: u64) -> u64 {
    let room = words.saturating_sub(FIRST_RING_WORD + 1);
    let record = 1 + room.min(record_size(MAX_LENGTH));
    let force = 2 + 2 * (room / HEADER_WORDS).min(TABLE_SIZE as u64);
    OP_WORDS as u64 * (record + force).max(11)
}

/// The script for a seed, as bytes.
pub fn script(seed: u64) -> Vec<u8> {
    let mut generator = Generator::new(seed);
    for _ in 0..generator.rng.between(2, 5) {
        generator.chapter();
    }
    generator.finish()
}

/// The bytes of an image that the script of a seed has on its way: some are damaged in a word or two, a few cut short.
pub fn image(seed: u64) -> Vec<u8> {
    let mut rng = Rng::new(seed ^ 0x1A6E);
    let bytes = script(seed);
    let mut words =
        bytes.chunks_exact(8).map(|word| u64::from_le_bytes(word.try_into().expect("eight bytes")));
    let mut machine = Machine::default();
    let mut seen = Vec::new();
    let mut most = 0;
    while let Parsed::Command(command) = Command::parse(&mut words) {
        machine.run(&command);
        // The image with the most records, or now and then another one.
        let records = records_in(&machine.image);
        if records > most || rng.chance(1, 2000) {
            seen = machine.image.clone();
            most = records;
        }
    }
    if !seen.is_empty() && rng.chance(1, 3) {
        for _ in 0..rng.between(1, 2) {
            let word = rng.below(seen.len() as u64) as usize;
            seen[word] ^= 1 << rng.below(64);
        }
    }
    let mut bytes: Vec<u8> = seen.into_iter().flat_map(u64::to_le_bytes).collect();
    if rng.chance(1, 20) {
        bytes.truncate(rng.below(bytes.len() as u64 + 1) as usize);
    }
    bytes
}

/// How many records next gives from open on.
fn records_in(image: &[u64]) -> usize {
    let mut records = 0;
    if let Ok(mut cursor) = calls::open(image) {
        while let Ok(Next::Record { behind, .. }) = calls::next(image, &cursor) {
            cursor = behind;
            records += 1;
        }
    }
    records
}

struct Generator {
    rng: Rng,
    machine: Machine,
    words: Vec<u64>,
    /// The device since the last format, as long as only calls have touched the image.
    device: Option<Device>,
}

impl Generator {
    fn new(seed: u64) -> Generator {
        Generator {
            rng: Rng::new(seed),
            machine: Machine::default(),
            words: Vec::new(),
            device: None,
        }
    }

    fn chapter(&mut self) {
        match self.rng.below(14) {
            0 | 1 => self.small_history(),
            2 => self.appends(),
            13 => self.replacements(),
            3 => self.large_history(),
            4 if self.rng.chance(1, 2) => self.many_records(),
            4 => self.small_history(),
            5 => self.unsound_states(),
            6 => self.forged_states(),
            7 => self.image_sizes(),
            8 => self.damaged_superlines(),
            9 => self.damaged_records(),
            10 => self.last_numbers(),
            11 => self.other_epochs(),
            _ => {
                self.odd_cursors();
                self.noise();
            }
        }
    }

    // ------------------------------------------------------------ chapters

    fn small_history(&mut self) {
        let words = self.rng.between(40, 84);
        let steps = self.rng.between(20, 120);
        self.history(words, steps);
    }

    fn large_history(&mut self) {
        let words = match self.rng.below(3) {
            0 => self.rng.between(100, 700),
            1 => self.rng.between(700, 2_000),
            _ => MAX_IMAGE_WORDS,
        };
        let steps = self.rng.between(20, 80);
        self.history(words, steps);
    }

    fn history(&mut self, words: u64, steps: u64) {
        self.format(words);
        for _ in 0..steps {
            self.step();
        }
        self.look();
    }

    /// More live records than the old table took, up to as many as the table takes, and one more; released in any order. The log
    /// begins at any LSN, so that the live ones go round the end of the table too.
    fn many_records(&mut self) {
        let (old, most) = (OLD_TABLE_SIZE as u64, TABLE_SIZE as u64);
        let wanted = match self.rng.below(8) {
            0..=3 => most,
            4 => self.rng.pick(&[old - 1, old, old + 1, most - 1]),
            5 | 6 => self.rng.between(old + 1, old + 40),
            _ => self.rng.between(old + 41, most - 2),
        };
        let words = (FIRST_RING_WORD + 4 * wanted + self.rng.between(2, 50)).max(300);
        let head_lsn = match self.rng.below(4) {
            0 => 1,
            1 => LSN_LIMIT - wanted - self.rng.below(3),
            _ => self.rng.between(1, 3 * most),
        };
        self.new_image(words);
        let epoch = self.rng.between(1, MAX_EPOCH - 9);
        self.empty_log(head_lsn, epoch);
        self.call(Command::Recover);
        for _ in 0..self.rng.below(9) {
            self.step();
        }
        while self.live_count() < wanted {
            let length = self.rng.below(9);
            let kind = self.rng.between(1, MAX_KIND);
            let command = if self.rng.chance(1, 8) {
                Command::Append { kind, frequency: LSN_LIMIT, bytes: self.rng.bytes(length) }
            } else {
                Command::Reserve { kind, length }
            };
            if self.make(command).is_refused() {
                break;
            }
        }
        self.call(Command::Reserve { kind: 1, length: 0 });
        self.call(Command::Append { kind: 1, frequency: 1, bytes: Vec::new() });
        let mut open = self.live_in(Stage::Open);
        self.rng.shuffle(&mut open);
        for lsn in open {
            self.make(Command::Complete { lsn });
        }
        let live: Vec<u64> = self.machine.state.live().collect();
        for &lsn in &live {
            if self.rng.chance(1, 16) {
                let frequency = self.frequency();
                self.call(Command::Force { lsn, frequency });
            }
        }
        if let Some(&last) = live.last() {
            self.call(Command::Force { lsn: last, frequency: 1 });
        }
        for _ in 0..self.rng.below(4) {
            self.step();
        }
        if self.rng.chance(1, 3) {
            self.crash();
        }
        self.walk();
        let device = self.device.take();
        match self.rng.below(4) {
            0 => self.damage_a_record(),
            _ => self.forge_record_at_end(),
        }
        self.device = device;

        let mut committed = self.live_in(Stage::Committed);
        self.rng.shuffle(&mut committed);
        for lsn in committed.into_iter().take(30) {
            self.call(Command::Release { lsn });
            if self.rng.chance(1, 8) {
                self.step();
            }
        }
        self.call(Command::ReleaseAll);
        self.look();
    }

    /// Records in one call each, deferred and due, of every sort: with open records before them, with none, in a full log and in one that
    /// goes round its end, with op buffers a word too short. Some calls that a record takes otherwise come between.
    fn appends(&mut self) {
        let words = match self.rng.below(4) {
            0 => self.rng.between(200, 500),
            _ => self.rng.between(40, 110),
        };
        self.format(words);
        let frequency = self.rng.pick(&[1, 2, 3, 4, 8]);
        for _ in 0..self.rng.between(20, 80) {
            match self.rng.below(12) {
                0..=4 => {
                    let length = match self.rng.below(4) {
                        0 => self.length().min(MAX_SCRIPT_BYTES),
                        _ => self.rng.below(26),
                    };
                    let (kind, bytes) = (self.kind(), self.rng.bytes(length));
                    self.call(Command::Append { kind, frequency, bytes });
                }
                5 => {
                    let command = self.append_call();
                    self.call(command);
                }
                6 => {
                    let length = self.rng.below(20);
                    self.call(Command::Reserve { kind: 7, length });
                }
                7 | 8 => {
                    let lsn = self.lsn_in(Stage::Open);
                    self.call(Command::Complete { lsn });
                }
                9 | 10 => {
                    let lsn = self.machine.state.head_lsn;
                    self.call(Command::Release { lsn });
                }
                _ => self.step(),
            }
        }
        self.walk();
        self.look();
    }

    /// Inspections and the replacements that rest on them, named before and after they are there, released, unknown or none, some
    /// named by several; released in any order, now and then after a power failure or with a replacement too short to name one.
    fn replacements(&mut self) {
        let words = self.rng.between(80, 300);
        self.format(words);
        for _ in 0..self.rng.between(1, 4) {
            for _ in 0..self.rng.between(2, 12) {
                self.inspection_or_replacement();
            }
            if self.rng.chance(1, 3) {
                let length = self.rng.below(10);
                self.call(Command::Reserve { kind: REPLACEMENT_KIND, length });
            }
            for lsn in self.live_in(Stage::Open) {
                if self.rng.chance(7, 8) {
                    self.make(Command::Complete { lsn });
                }
            }
            let (lsn, frequency) = (self.force_target(), self.frequency());
            self.call(Command::Force { lsn, frequency });
            if self.rng.chance(1, 4) {
                self.shorten_a_replacement();
            }
            if self.rng.chance(1, 6) {
                self.crash();
            }
            let mut live: Vec<u64> = self.machine.state.live().collect();
            match self.rng.below(3) {
                0 => {}
                1 => live.reverse(),
                _ => self.rng.shuffle(&mut live),
            }
            for lsn in live {
                if self.rng.chance(2, 3) {
                    self.call(Command::Release { lsn });
                }
            }
        }
        self.look();
    }

    /// A record complete, mostly one of kind 600 that names a number near its own.
    fn inspection_or_replacement(&mut self) {
        let kind =
            if self.rng.chance(2, 3) { REPLACEMENT_KIND } else { self.rng.pick(&[599, 601, 1]) };
        let length = self.rng.pick(&[8, 8, 8, 9, 16, 20]);
        let lsn = self.machine.state.next_lsn;
        let &State { head_lsn, .. } = &self.machine.state;
        let named = match self.rng.below(10) {
            0 => 0,
            1 => lsn,
            2 => lsn + self.rng.between(1, 3),
            3 => head_lsn.wrapping_sub(1),
            4 => self.number(),
            5 => head_lsn,
            _ => self.rng.between(head_lsn, lsn),
        };
        if self.rng.chance(1, 4) {
            let mut bytes = named.to_le_bytes().to_vec();
            bytes.resize(length as usize, 7);
            let frequency = self.rng.between(1, 4);
            self.call(Command::Append { kind, frequency, bytes });
            return;
        }
        if self.make(Command::Reserve { kind, length }).is_refused() {
            return;
        }
        self.make(Command::Copy { lsn, offset: 0, bytes: named.to_le_bytes().to_vec() });
        if self.rng.chance(9, 10) {
            self.make(Command::Complete { lsn });
        }
    }

    /// Makes the table say that a replacement has fewer than 8 bytes, as one may be stored from before the rule.
    fn shorten_a_replacement(&mut self) {
        let state = self.machine.state.clone();
        if !state.is_sound() {
            return;
        }
        let replacements: Vec<u64> =
            state.live().filter(|&lsn| state.entry(lsn).kind == REPLACEMENT_KIND).collect();
        if replacements.is_empty() {
            return;
        }
        let lsn = self.rng.pick(&replacements);
        let mut wanted = state;
        let length = wanted.entry(lsn).length;
        // A record of 8 bytes has as many words as one of 1 to 7.
        if length == 8 {
            wanted.entry_mut(lsn).length = self.rng.between(1, 7);
            self.set_state(&wanted);
        }
    }

    fn live_count(&self) -> u64 {
        let state = &self.machine.state;
        if state.is_sound() {
            state.next_lsn - state.head_lsn
        } else {
            u64::MAX
        }
    }

    /// Breaks one thing in a sound state at a time and calls.
    fn unsound_states(&mut self) {
        let words = self.rng.between(40, 120);
        let steps = self.rng.between(5, 40);
        self.history(words, steps);
        self.break_state_repeatedly();
    }

    /// Sound states out of nothing, near their limits, on an image that knows nothing of them.
    fn forged_states(&mut self) {
        let words = match self.rng.below(4) {
            0 => self.rng.between(40, 60),
            1 => self.rng.between(60, 1_000),
            2 => MIN_IMAGE_WORDS,
            _ => MAX_IMAGE_WORDS,
        };
        self.new_image(words);
        for _ in 0..self.rng.between(1, 4) {
            let state = self.forged_state(words - FIRST_RING_WORD);
            self.set_state(&state);
            for _ in 0..self.rng.below(12) {
                self.step();
            }
            self.break_state_repeatedly();
        }
    }

    /// All calls on images of wrong and of just right sizes.
    fn image_sizes(&mut self) {
        for _ in 0..4 {
            let sizes = [0, 1, 23, 24, 39, 40, 41, 64, 8_191, 8_192, 8_193, MAX_SCRIPT_IMAGE];
            let words = self.rng.pick(&sizes);
            let value = self.rng.pick(&[0, 1, u64::MAX, 281_474_976_710_656]);
            self.send(Command::Image { words, value });
            let op_words = self.rng.pick(&[0, 32, 33, 34, roomy_op_buffer(words)]);
            self.send(Command::OpBuffer { words: op_words, value: 7 });
            if self.rng.chance(1, 2) {
                let capacity = words.wrapping_sub(FIRST_RING_WORD);
                self.send(Command::Field { field: 0, value: capacity });
            }
            let mut calls = vec![
                Command::Format,
                Command::Recover,
                Command::ReleaseAll,
                Command::Open,
                Command::Next,
                self.fetch(),
            ];
            for _ in 0..6 {
                calls.push(self.state_call());
            }
            self.rng.shuffle(&mut calls);
            for call in calls {
                self.send(call);
            }
        }
    }

    /// A superline that is wrong in one place, with its check right or not.
    fn damaged_superlines(&mut self) {
        let words = self.rng.between(40, 100);
        let steps = self.rng.between(5, 30);
        self.history(words, steps);
        let good = self.machine.image.clone();
        let capacity = words - FIRST_RING_WORD;
        for _ in 0..12 {
            let copy = good[0].min(1);
            let start = Superline::first_word(copy);
            match self.rng.below(4) {
                0 => {
                    let value = self.rng.pick(&[0, 1, 1, 2, u64::MAX, 1 << 32]);
                    self.send(Command::Poke { word: 0, value });
                }
                1 => {
                    let word = start + self.rng.below(6);
                    let value = good[word as usize] ^ 1 << self.rng.below(64);
                    self.send(Command::Poke { word, value });
                }
                _ => {
                    let start = start as usize;
                    let mut superline = Superline {
                        capacity: good[start + 1],
                        head_position: good[start + 2],
                        head_lsn: good[start + 3],
                        epoch: good[start + 4],
                    };
                    match self.rng.below(4) {
                        0 => superline.capacity = self.rng.pick(&[0, capacity - 1, capacity + 1]),
                        1 => {
                            let positions = [0, capacity - 1, capacity, capacity + 1, u64::MAX];
                            superline.head_position = self.rng.pick(&positions);
                        }
                        2 => {
                            let lsns = [0, 1, LSN_LIMIT - 1, LSN_LIMIT, LSN_LIMIT + 1, u64::MAX];
                            superline.head_lsn = self.rng.pick(&lsns);
                        }
                        _ => {
                            let epochs = [0, 1, MAX_EPOCH - 1, MAX_EPOCH, MAX_EPOCH + 1, u64::MAX];
                            superline.epoch = self.rng.pick(&epochs);
                        }
                    }
                    self.poke_superline(copy, superline);
                }
            }
            self.send(Command::Open);
            if self.rng.chance(1, 2) {
                self.walk();
            }
            self.call(Command::Recover);
            self.set_image(&good);
        }
    }

    /// A damaged word in one of the records that a walk meets.
    fn damaged_records(&mut self) {
        let words = self.rng.between(40, 200);
        let steps = self.rng.between(10, 60);
        self.history(words, steps);
        for _ in 0..self.rng.below(3) {
            self.records_of_a_run();
        }
        for _ in 0..12 {
            self.damage_a_record();
        }
    }

    /// Damages a word of a record that a walk meets, walks, recovers, and puts the image back.
    fn damage_a_record(&mut self) {
        let good = self.machine.image.clone();
        let Ok((records, end)) = crate::calls::walk(&good) else {
            return;
        };
        let ring = Ring::of_image(&good).expect("a history's image has a good size");
        let (position, length) = match records.len() as u64 {
            0 => (end.position, 0),
            count => {
                // Where the old table ended, too.
                let first_behind = records.get(OLD_TABLE_SIZE).filter(|_| self.rng.chance(1, 3));
                let record = *first_behind.unwrap_or(&records[self.rng.below(count) as usize]);
                (record.position, record.length)
            }
        };
        let size = record_size(length);
        match self.rng.below(4) {
            0 => {
                // Also the terminator behind it.
                let word = ring.word(position, self.rng.below(size + 1));
                let value = good[word as usize] ^ 1 << self.rng.below(64);
                self.send(Command::Poke { word, value });
            }
            1 => {
                let mut header = Header::of_word(ring.read(&good, position, 0));
                match self.rng.below(3) {
                    0 => {
                        // What just fits, and one word more.
                        let before = records.iter().take_while(|it| it.position != position);
                        let used: u64 = before.map(|it| record_size(it.length)).sum();
                        let most = 8 * (ring.capacity() - used).saturating_sub(1 + HEADER_WORDS);
                        let lengths = [0, 1, most, most + 8, 1_024, 1_025, u32::MAX as u64];
                        header.length = self.rng.pick(&lengths);
                    }
                    1 => header.kind = self.rng.pick(&[0, 1, MAX_KIND]),
                    _ => header.mark = self.rng.pick(&[0, 1, 2, 3, 65_535]),
                }
                self.poke_header_with_check(ring, position, header);
            }
            2 => {
                let before = records.iter().take_while(|record| record.position != position);
                let last = before.last().map_or(0, |record| record.epoch);
                let epoch = self.epoch_near(last, end.superline_epoch);
                self.poke_epoch(ring, position, epoch);
                if self.rng.chance(1, 4) {
                    // Both halves wrong, or the check alone.
                    let word = ring.word(position, 2);
                    let value = self.machine.image[word as usize] ^ 1 << self.rng.below(32);
                    self.send(Command::Poke { word, value });
                }
            }
            _ => {
                let lsn = ring.read(&good, position, 1);
                let value =
                    self.rng.pick(&[0, lsn.wrapping_sub(1), lsn.wrapping_add(1), LSN_LIMIT]);
                self.send(Command::Poke { word: ring.word(position, 1), value });
                let header = Header::of_word(ring.read(&good, position, 0));
                self.poke_header_with_check(ring, position, header);
            }
        }
        self.walk();
        let state = self.machine.state.clone();
        self.call(Command::Recover);
        self.set_state(&state);
        self.set_image(&good);
    }

    /// LSNs near 2^62, epochs near 2^32 - 1.
    fn last_numbers(&mut self) {
        let words = self.rng.between(40, 100);
        self.new_image(words);
        let head_lsn = LSN_LIMIT - self.rng.below(7);
        let epoch = MAX_EPOCH - self.rng.below(5);
        self.empty_log(head_lsn, epoch);
        for _ in 0..self.rng.between(2, 6) {
            self.walk();
            self.call(Command::Recover);
            for _ in 0..self.rng.between(2, 10) {
                self.step();
            }
            self.crash();
        }
        let command = self.append_call();
        self.call(command);
        // A marked record where no LSN is left.
        self.walk();
        self.forge_record_at_end();
    }

    /// Epochs in the records of an image that no run of the calls left there, or that a program from before slip 8 left: all 0, some of
    /// the first 0, any mixture, falling, above the superline's. What recovers goes on for a while.
    fn other_epochs(&mut self) {
        let words = self.rng.between(80, 300);
        self.format(words);
        for _ in 0..self.rng.between(4, 10) {
            for _ in 0..self.rng.between(1, 3) {
                self.records_of_a_run();
            }
            let good = self.machine.image.clone();
            let Ok((records, end)) = calls::walk(&good) else {
                return;
            };
            let ring = Ring::of_image(&good).expect("a history's image has a good size");
            let superline = end.superline_epoch;
            let epochs = self.epochs_of_records(records.len(), superline);
            for (record, epoch) in records.iter().zip(epochs) {
                self.poke_epoch(ring, record.position, epoch);
            }
            if self.rng.chance(1, 4) {
                let copy = good[0];
                let start = Superline::first_word(copy) as usize;
                let epoch = self.epoch_near(superline, superline).max(1);
                let superline = Superline {
                    capacity: good[start + 1],
                    head_position: good[start + 2],
                    head_lsn: good[start + 3],
                    epoch,
                };
                self.poke_superline(copy, superline);
            }
            self.walk();
            self.device = Some(Device::new(&self.machine.image));
            if self.call(Command::Recover).is_refused() {
                self.set_image(&good);
                self.device = Some(Device::new(&good));
                self.call(Command::Recover);
            }
            for _ in 0..self.rng.below(8) {
                self.step();
            }
            self.send(Command::State);
        }
    }

    /// A few records that are durable, and a recovery; the oldest are released if there is no room.
    fn records_of_a_run(&mut self) {
        for _ in 0..self.rng.between(1, 3) {
            let length = self.rng.below(12);
            let answer = self.make(Command::Reserve { kind: 8, length });
            match answer.numbers("ok") {
                Some(&[lsn, _position]) => {
                    self.make(Command::Complete { lsn });
                    self.make(Command::Force { lsn, frequency: 1 });
                }
                _ => {
                    let oldest = self.machine.state.head_lsn;
                    self.make(Command::Release { lsn: oldest });
                }
            }
        }
        self.call(Command::Recover);
    }

    /// So many epochs, in one of the shapes that a walk can meet.
    fn epochs_of_records(&mut self, count: usize, superline: u64) -> Vec<u64> {
        let rng = &mut self.rng;
        let mut epochs: Vec<u64> = (0..count).map(|_| rng.between(0, superline)).collect();
        epochs.sort();
        let which = rng.below(count.max(1) as u64) as usize;
        match rng.below(9) {
            0 => epochs.fill(0),
            1 => epochs.fill(superline),
            2 | 3 => epochs[..which].fill(0),
            4 => epochs.reverse(),
            5 => epochs.iter_mut().filter(|_| rng.chance(1, 2)).for_each(|epoch| *epoch = 0),
            6 => epochs.iter_mut().skip(which).take(1).for_each(|epoch| *epoch = 0),
            7 => {
                let above = (superline + 1).min(MAX_EPOCH);
                epochs.iter_mut().skip(which).for_each(|epoch| *epoch = above);
            }
            _ => {}
        }
        epochs
    }

    /// An epoch at one of the limits of the test, or any other.
    fn epoch_near(&mut self, last: u64, superline: u64) -> u64 {
        let epochs = [
            0,
            last.saturating_sub(1),
            last,
            last + 1,
            superline.saturating_sub(1),
            superline,
            superline + 1,
            MAX_EPOCH,
        ];
        match self.rng.below(12) {
            0 => self.rng.between(0, MAX_EPOCH),
            _ => self.rng.pick(&epochs).min(MAX_EPOCH),
        }
    }

    /// Makes the image an empty log with this head LSN and epoch, its head anywhere; to be recovered.
    fn empty_log(&mut self, head_lsn: u64, epoch: u64) {
        let capacity = self.machine.image.len() as u64 - FIRST_RING_WORD;
        let head_position = self.rng.below(capacity);
        let copy = self.rng.below(2);
        self.poke_superline(copy, Superline { capacity, head_position, head_lsn, epoch });
        self.send(Command::Poke { word: 0, value: copy });
        let head_word = FIRST_RING_WORD + head_position;
        let unmarked = self.rng.pick(&[0, 1, 65_535 << 32]);
        self.send(Command::Poke { word: head_word, value: unmarked });
        self.device = Some(Device::new(&self.machine.image));
    }

    fn odd_cursors(&mut self) {
        let words = self.rng.between(40, 100);
        let steps = self.rng.between(5, 30);
        self.history(words, steps);
        let capacity = words - FIRST_RING_WORD;
        for _ in 0..25 {
            let mut cursor = self.machine.cursor;
            if let Ok(opened) = crate::calls::open(&self.machine.image) {
                cursor = opened;
            }
            let edges = [0, 1, capacity - 1, capacity, u64::MAX];
            match self.rng.below(9) {
                0 => cursor.position = self.rng.pick(&edges),
                1 => cursor.lsn = self.rng.pick(&[0, 1, LSN_LIMIT, LSN_LIMIT + 1, u64::MAX]),
                2 => cursor.used = self.rng.pick(&edges),
                3 => {
                    let (old, most) = (OLD_TABLE_SIZE as u64, TABLE_SIZE as u64);
                    cursor.count =
                        self.rng.pick(&[old, old + 1, most - 1, most, most + 1, u64::MAX]);
                }
                4 => {
                    cursor.used = self.rng.below(capacity);
                    cursor.count = self.rng.below(TABLE_SIZE as u64 + 1);
                }
                // The last epoch at, below and above the superline's; either any number.
                5 => {
                    let epoch = cursor.superline_epoch;
                    let (below, above) = (epoch.wrapping_sub(1), epoch.wrapping_add(1));
                    let edges = [0, 1, below, epoch, above, MAX_EPOCH, MAX_EPOCH + 1, u64::MAX];
                    cursor.last_epoch = self.rng.pick(&edges);
                }
                6 => cursor.superline_epoch = self.rng.pick(&[0, 1, 2, 1 << 32, u64::MAX]),
                7 => {
                    cursor.last_epoch = self.number();
                    let last = cursor.last_epoch;
                    let any = self.number();
                    let edges = [last, last.wrapping_sub(1), last.wrapping_add(1), any];
                    cursor.superline_epoch = self.rng.pick(&edges);
                }
                _ => {
                    cursor.position = self.rng.below(capacity);
                    cursor.lsn = self.number();
                }
            }
            self.send(Command::Cursor(cursor));
            self.send(Command::Next);
            if self.rng.chance(1, 3) {
                self.send(Command::Next);
            }
        }
    }

    /// Any commands with any numbers.
    fn noise(&mut self) {
        for _ in 0..self.rng.between(10, 60) {
            let command = match self.rng.below(20) {
                0 => Command::Image { words: self.rng.between(38, 100), value: self.number() },
                1 => Command::Poke { word: self.rng.below(120), value: self.number() },
                2 => Command::OpBuffer { words: self.rng.below(500), value: self.number() },
                3 => Command::Field { field: self.rng.below(10), value: self.number() },
                4 => Command::Entry {
                    index: self.number(),
                    position: self.number(),
                    length: self.number(),
                    kind: self.number(),
                    stage: self.rng.below(7),
                    epoch: self.number(),
                },
                5 => Command::Cursor(Cursor {
                    position: self.number(),
                    lsn: self.number(),
                    used: self.number(),
                    count: self.number(),
                    last_epoch: self.number(),
                    superline_epoch: self.number(),
                }),
                6 => Command::Format,
                7 => Command::Reserve { kind: self.number(), length: self.number() },
                8 => {
                    let count = self.rng.pick(&[0, 1, 7, 8, 9, 30]);
                    let bytes = self.rng.bytes(count);
                    Command::Copy { lsn: self.number(), offset: self.number(), bytes }
                }
                9 => Command::Complete { lsn: self.number() },
                10 => Command::Force { lsn: self.number(), frequency: self.number() },
                11 => Command::Release { lsn: self.number() },
                12 => Command::ReleaseAll,
                13 => Command::Recover,
                14 => Command::Open,
                15 => Command::Next,
                16 => self.fetch(),
                17 => Command::Words { first: self.number(), count: self.number() },
                18 => {
                    let count = self.rng.pick(&[0, 1, 7, 8, 9, 30]);
                    let bytes = self.rng.bytes(count);
                    Command::Append { kind: self.number(), frequency: self.number(), bytes }
                }
                _ => Command::State,
            };
            self.send(command);
        }
    }

    /// Some scripts end otherwise than by the end of their input.
    fn finish(mut self) -> Vec<u8> {
        let mut tail: Vec<u8> = Vec::new();
        match self.rng.below(10) {
            0 => self.words.extend([0, 10, 31]),
            1 => {
                let number = self.rng.pick(&[7, 8, 9, 19, 23, 29, 32, 255, u64::MAX]);
                self.words.extend([number, 31]);
            }
            2 => {
                let too_long = [
                    [1, MAX_SCRIPT_IMAGE + 1, 0, 31],
                    [1, u64::MAX, 0, 31],
                    [3, MAX_SCRIPT_OP_BUFFER + 1, 0, 31],
                    [3, u64::MAX, 0, 31],
                ];
                let command = self.rng.pick(&too_long);
                self.words.extend(command);
            }
            3 => {
                let count = self.rng.pick(&[MAX_SCRIPT_BYTES + 1, u64::MAX]);
                let number = self.rng.pick(&[12, 18, 22]);
                self.words.extend([number, 1, 0, count]);
            }
            4 => {
                // Cut off, the last two within their data.
                let commands: [&[u64]; 9] = [
                    &[10, 1, 50],
                    &[31, 5, 1, 2, 3, 4, 1],
                    &[31, 6, 1, 2, 3, 4],
                    &[31, 6, 1, 2, 3, 4, 5],
                    &[11, 1],
                    &[31, 22, 1, 2],
                    &[18, 1, 2],
                    &[12, 1, 0, 9, 5],
                    &[18, 1, 1, 9, 5],
                ];
                let command = self.rng.pick(&commands);
                self.words.extend(command);
            }
            5 => {
                self.words.push(31);
                let count = self.rng.between(1, 7);
                tail = self.rng.bytes(count);
            }
            6 => {
                // The longest allowed.
                self.words.extend([12, 1, 0, MAX_SCRIPT_BYTES]);
                self.words.extend([77; MAX_SCRIPT_BYTES as usize / 8]);
                self.words.extend([18, 1, 1, MAX_SCRIPT_BYTES]);
                self.words.extend([78; MAX_SCRIPT_BYTES as usize / 8]);
                self.words.extend([22, 0, MAX_LENGTH, MAX_SCRIPT_BYTES]);
                self.words.extend([3, MAX_SCRIPT_OP_BUFFER, 5, 1, MAX_SCRIPT_IMAGE, 6, 10, 31]);
            }
            _ => {}
        }
        let mut bytes: Vec<u8> = self.words.iter().flat_map(|word| word.to_le_bytes()).collect();
        bytes.extend(tail);
        bytes
    }

    // ------------------------------------------------------------ steps of a history

    fn step(&mut self) {
        match self.rng.below(40) {
            0..=31 => {
                let command = self.writing_call();
                self.call(command);
            }
            32 | 33 => self.crash(),
            34 => {
                self.call(Command::Recover); // without a crash
            }
            35 => self.walk(),
            36 | 37 => {
                let command = self.fetch();
                self.send(command);
            }
            38 => {
                self.send(Command::Open);
                self.send(Command::Next);
            }
            _ => self.look(),
        }
    }

    /// A writing call that mostly succeeds.
    fn writing_call(&mut self) -> Command {
        match self.rng.below(50) {
            0 => Command::ReleaseAll,
            1 if self.rng.chance(1, 4) => Command::Format,
            _ => self.state_call(),
        }
    }

    /// A call with a state, its numbers mostly sensible for the present one.
    fn state_call(&mut self) -> Command {
        let nothing_open = self.live_in(Stage::Open).is_empty();
        match self.rng.below(23) {
            0..=4 => Command::Reserve { kind: self.kind(), length: self.length() },
            20..=22 => self.append_call(),
            5..=7 if nothing_open => Command::Reserve { kind: self.kind(), length: self.length() },
            5..=8 => self.copy_call(),
            9..=12 => Command::Complete { lsn: self.lsn_in(Stage::Open) },
            13..=15 => Command::Force { lsn: self.force_target(), frequency: self.frequency() },
            16..=18 => Command::Release { lsn: self.lsn_in(Stage::Committed) },
            _ => Command::ReleaseAll,
        }
    }

    /// Kind and length as of a reserve, a replacement now and then, also one too short.
    fn append_call(&mut self) -> Command {
        let kind = if self.rng.chance(1, 8) { REPLACEMENT_KIND } else { self.kind() };
        let length = self.length().min(MAX_SCRIPT_BYTES);
        let bytes = self.rng.bytes(length);
        Command::Append { kind, frequency: self.frequency(), bytes }
    }

    fn copy_call(&mut self) -> Command {
        let lsn = self.lsn_in(Stage::Open);
        let length = self.machine.state.entry(lsn).length.min(MAX_LENGTH);
        let offset = self.rng.below(length + 1);
        let room = length - offset;
        let count = match self.rng.below(8) {
            0 => 0,
            1 | 2 => room,
            3 => room + 1,
            _ => self.rng.below(room + 1),
        };
        let offset = if self.rng.chance(1, 16) { self.number() } else { offset };
        Command::Copy { lsn, offset, bytes: self.rng.bytes(count) }
    }

    fn fetch(&mut self) -> Command {
        let capacity = (self.machine.image.len() as u64).saturating_sub(FIRST_RING_WORD).max(1);
        let position = match self.rng.below(6) {
            0 => self.rng.pick(&[0, capacity - 1, capacity, u64::MAX]),
            _ => self.rng.below(capacity),
        };
        let length = match self.rng.below(6) {
            0 => self.rng.pick(&[0, 1, 1_023, 1_024, 1_025, u64::MAX]),
            _ => self.rng.below(100),
        };
        let output = match self.rng.below(3) {
            0 => length.saturating_sub(1),
            1 => length,
            _ => length.saturating_add(self.rng.below(20)),
        };
        Command::Fetch { position, length, output: output.min(MAX_SCRIPT_BYTES) }
    }

    fn walk(&mut self) {
        self.send(Command::Open);
        for _ in 0..TABLE_SIZE + 2 {
            let answer = self.send(Command::Next);
            let Some(&[position, _, _, length, _, _]) = answer.numbers("record") else {
                break;
            };
            if self.rng.chance(1, 4) {
                let output = length + self.rng.below(4);
                self.send(Command::Fetch { position, length, output });
            }
        }
    }

    fn look(&mut self) {
        self.send(Command::State);
        let (first, count) = (self.rng.below(60), self.rng.below(80));
        self.send(Command::Words { first, count });
    }

    /// Cuts power within a call, puts one of the possible images in and recovers from it.
    fn crash(&mut self) {
        let Some(mut device) = self.device.take() else {
            return;
        };
        let command = match self.rng.below(8) {
            0 => Command::Recover,
            _ => self.writing_call(),
        };
        let ops = self.send(command).ops;
        let done = self.rng.below(ops.len() as u64 + 1) as usize;
        for &op in &ops[..done] {
            device.carry_out(op);
        }
        let bias = self.rng.below(3);
        let image: Vec<u64> = device
            .crash_values()
            .iter()
            .map(|values| match bias {
                0 => values[0],
                1 => *values.last().expect("at least the flushed value"),
                _ => self.rng.pick(values),
            })
            .collect();
        self.set_image(&image);
        if self.rng.chance(1, 3) {
            self.set_state(&State::default());
        }
        if self.rng.chance(1, 4) {
            self.walk();
        }
        self.device = Some(Device::new(&image));
        self.call(Command::Recover);
    }

    // ------------------------------------------------------------ states

    /// A sound state with any numbers the ring has room for.
    fn forged_state(&mut self, capacity: u64) -> State {
        let head_lsn = match self.rng.below(5) {
            0 => 1,
            1 => self.rng.between(1, 200),
            2 => self.rng.between(1, LSN_LIMIT),
            3 => LSN_LIMIT - self.rng.below(TABLE_SIZE as u64 + 6),
            _ => LSN_LIMIT - self.rng.below(4),
        };
        let head_position = self.rng.below(capacity);
        let mut state = State {
            head_lsn,
            next_lsn: head_lsn,
            head_position,
            next_position: head_position,
            copy_in_use: self.rng.below(2),
            epoch: match self.rng.below(3) {
                0 => self.rng.pick(&[1, MAX_EPOCH - 1, MAX_EPOCH]),
                _ => self.rng.between(1, MAX_EPOCH),
            },
            ..State::fresh(capacity)
        };
        let (old, most) = (OLD_TABLE_SIZE as u64, TABLE_SIZE as u64);
        let wanted = self.rng.pick(&[0, 1, 2, 5, 20, old, old + 1, most - 1, most]);
        let longest = self.rng.pick(&[0, 8, 30, MAX_LENGTH]);
        let mut used = 0;
        for _ in 0..wanted {
            let mut length = self.rng.below(longest + 1);
            let room = capacity - 1 - used;
            if record_size(length) > room {
                // Fill the ring to its last word.
                let Some(words) = room.checked_sub(HEADER_WORDS) else {
                    break;
                };
                length = 8 * words;
            }
            if state.next_lsn == LSN_LIMIT {
                break;
            }
            let kind = self.rng.between(1, MAX_KIND);
            let position = state.next_position;
            let lsn = state.next_lsn;
            *state.entry_mut(lsn) = Entry { position, length, kind, ..Entry::FREE };
            used += record_size(length);
            state.next_position = (position + record_size(length)) % capacity;
            state.next_lsn += 1;
        }
        state.committed_lsn = self.rng.between(head_lsn - 1, state.next_lsn - 1);
        for lsn in state.live() {
            let stages = if lsn > state.committed_lsn {
                [Stage::Open, Stage::Complete]
            } else if lsn == head_lsn {
                [Stage::Committed, Stage::Committed]
            } else {
                [Stage::Committed, Stage::Released]
            };
            state.entry_mut(lsn).stage = self.rng.pick(&stages);
        }
        // Any that are not above the state's, falling ones too.
        let epoch = state.epoch;
        let shape = self.rng.below(4);
        for lsn in state.live() {
            let entry = state.entry_mut(lsn);
            entry.epoch = match (entry.stage, shape) {
                (Stage::Open, _) | (_, 0) => 0,
                (_, 1) => epoch,
                (_, 2) => self.rng.pick(&[0, 1, epoch - 1, epoch]),
                _ => self.rng.between(0, epoch),
            };
        }
        state
    }

    /// Calls with states that differ from the present one in a field or an entry.
    fn break_state_repeatedly(&mut self) {
        let good = self.machine.state.clone();
        if !good.is_sound() {
            return;
        }
        for _ in 0..self.rng.between(5, 20) {
            let mut calls: Vec<Command> = (0..2).map(|_| self.state_call()).collect();
            if self.rng.chance(1, 4) {
                calls.push(Command::ReleaseAll);
            }
            let broken = self.broken_state(&good);
            self.set_state(&broken);
            for call in calls {
                self.send(call);
            }
            self.set_state(&good);
        }
    }

    fn broken_state(&mut self, good: &State) -> State {
        let mut state = good.clone();
        let index = match self.rng.below(3) {
            0 => self.rng.below(TABLE_SIZE as u64),
            _ => self.rng.between(good.head_lsn, good.next_lsn) % TABLE_SIZE as u64,
        };
        let entry = &mut state.table[index as usize];
        let near = |rng: &mut Rng, value: u64| match rng.below(4) {
            0 => value.wrapping_add(1),
            1 => value.wrapping_sub(1),
            2 => rng.pick(&[0, 1, 2, good.capacity, good.capacity + 1]),
            _ => rng.pick(&[LSN_LIMIT, LSN_LIMIT + 1, MAX_EPOCH, MAX_EPOCH + 1, u64::MAX]),
        };
        let rng = &mut self.rng;
        match rng.below(20) {
            0 => state.capacity = near(rng, good.capacity),
            1 => state.head_position = near(rng, good.head_position),
            2 => state.head_lsn = near(rng, good.head_lsn),
            3 => state.next_position = near(rng, good.next_position),
            4 => state.next_lsn = near(rng, good.next_lsn),
            5 => state.committed_lsn = near(rng, good.committed_lsn),
            6 => state.copy_in_use = rng.pick(&[1 - good.copy_in_use, 2, u64::MAX]),
            7 => state.epoch = rng.pick(&[0, 1, MAX_EPOCH, MAX_EPOCH + 1, u64::MAX]),
            8 => state.next_lsn = good.head_lsn.saturating_add(TABLE_SIZE as u64 + 1),
            9 => state.next_position = rng.below(good.capacity),
            10 => entry.position = near(rng, entry.position) % 65_536,
            11 => entry.length = rng.pick(&[0, entry.length + 1, entry.length + 8, 1_024, 1_025]),
            12 => entry.kind = rng.pick(&[0, 1, 65_535]),
            13 => {
                let stages =
                    [Stage::Free, Stage::Open, Stage::Complete, Stage::Committed, Stage::Released];
                entry.stage = rng.pick(&stages);
            }
            14 => {
                // A second live count of words: the last record fills the ring wholly.
                let last = good.next_lsn - 1;
                if good.is_live(last) {
                    let room = good.capacity - good.used_words();
                    state.entry_mut(last).length += 8 * room;
                    state.next_position = good.head_position;
                }
            }
            // Above the state's, or not; of an open, a free or any other entry.
            15 | 16 => {
                let epochs = [0, 1, good.epoch - 1, good.epoch, good.epoch + 1, MAX_EPOCH];
                entry.epoch = rng.pick(&epochs).min(MAX_EPOCH);
            }
            17 => {
                // An open record with an epoch that would be right for a complete one.
                let open = good.live().find(|&lsn| good.entry(lsn).stage == Stage::Open);
                if let Some(lsn) = open {
                    state.entry_mut(lsn).epoch = rng.pick(&[1, good.epoch]);
                }
            }
            18 => {
                // The state's own epoch at, below and above an entry's.
                let epoch = entry.epoch;
                state.epoch = rng.pick(&[epoch, epoch + 1, epoch.saturating_sub(1)]);
            }
            _ => {
                // Move all places on, which leaves the state sound.
                let capacity = good.capacity;
                state.head_position = (good.head_position + 1) % capacity;
                state.next_position = (good.next_position + 1) % capacity;
                for lsn in good.live() {
                    let entry = state.entry_mut(lsn);
                    entry.position = (entry.position + 1) % capacity;
                }
            }
        }
        state
    }

    /// By field and entry commands.
    fn set_state(&mut self, wanted: &State) {
        let now = self.machine.state.clone();
        for (field, (new, old)) in (0..).zip(fields(wanted).into_iter().zip(fields(&now))) {
            if new != old {
                self.send(Command::Field { field, value: new });
            }
        }
        for (index, (new, old)) in (0..).zip(wanted.table.iter().zip(&now.table)) {
            if new != old {
                let [position, length, kind, stage, epoch] = entry_numbers(new);
                // Now and then another way to say the same.
                let index = index + TABLE_SIZE as u64 * self.rng.below(3);
                let epoch = epoch + (self.rng.pick(&[0, 0, 0, 1, 0xFFFF_FFFF]) << 32);
                self.send(Command::Entry { index, position, length, kind, stage, epoch });
            }
        }
    }

    // ------------------------------------------------------------ images

    fn new_image(&mut self, words: u64) {
        let value = match self.rng.below(4) {
            0 => 0,
            1 => u64::MAX,
            2 => Header { length: 0, kind: 1, mark: MARK_COMMITTED }.word(),
            _ => self.rng.next_u64(),
        };
        self.send(Command::Image { words, value });
        for _ in 0..self.rng.below(6) {
            let word = self.rng.below(words);
            let value = self.number();
            self.send(Command::Poke { word, value });
        }
        self.roomy_op_buffer();
    }

    fn roomy_op_buffer(&mut self) {
        let words = roomy_op_buffer(self.machine.image.len() as u64) + self.rng.below(4);
        let value = self.rng.next_u64();
        self.send(Command::OpBuffer { words, value });
    }

    fn format(&mut self, words: u64) {
        self.new_image(words);
        self.device = Some(Device::new(&self.machine.image));
        self.call(Command::Format);
    }

    /// By poke commands; the size stays.
    fn set_image(&mut self, wanted: &[u64]) {
        let now = self.machine.image.clone();
        for (word, (&new, old)) in (0..).zip(wanted.iter().zip(now)) {
            if new != old {
                self.send(Command::Poke { word, value: new });
            }
        }
    }

    fn poke_superline(&mut self, copy: u64, superline: Superline) {
        for (word, value) in (Superline::first_word(copy)..).zip(superline.words()) {
            self.send(Command::Poke { word, value });
        }
    }

    /// The epoch of the record at a position; its check stays.
    fn poke_epoch(&mut self, ring: Ring, position: u64, epoch: u64) {
        let word = ring.word(position, 2);
        let old = CheckWord::of_word(self.machine.image[word as usize]);
        self.send(Command::Poke { word, value: CheckWord { epoch, ..old }.word() });
    }

    /// A changed word 0 with the check that would be right for it, if there can be one. The epoch stays.
    fn poke_header_with_check(&mut self, ring: Ring, position: u64, header: Header) {
        self.send(Command::Poke { word: ring.word(position, 0), value: header.word() });
        let image = &self.machine.image;
        let lsn = ring.read(image, position, 1);
        let length = header.length.min(2 * MAX_LENGTH);
        let payload = ring.payload(image, position, length);
        let check = record_check(header.length, header.kind, lsn, payload);
        let word = ring.word(position, 2);
        let old = CheckWord::of_word(image[word as usize]);
        self.send(Command::Poke { word, value: CheckWord { check, ..old }.word() });
    }

    /// Puts a marked record where the cursor of a finished walk stands, then walks and recovers.
    fn forge_record_at_end(&mut self) {
        let Some(ring) = Ring::of_image(&self.machine.image) else {
            return;
        };
        let good = self.machine.image.clone();
        let cursor = self.machine.cursor;
        if cursor.position >= ring.capacity() {
            return;
        }
        let mark = self.rng.pick(&[MARK_COMMITTED, MARK_RELEASED, 3]);
        let header = Header { length: 0, kind: self.rng.pick(&[0, 5, 5]), mark };
        self.send(Command::Poke { word: ring.word(cursor.position, 1), value: cursor.lsn });
        self.poke_header_with_check(ring, cursor.position, header);
        let epoch = self
            .epoch_near(cursor.last_epoch.min(MAX_EPOCH), cursor.superline_epoch.min(MAX_EPOCH));
        self.poke_epoch(ring, cursor.position, epoch);
        self.walk();
        let state = self.machine.state.clone();
        self.call(Command::Recover);
        self.set_state(&state);
        self.set_image(&good);
    }

    // ------------------------------------------------------------ numbers

    fn live_in(&self, stage: Stage) -> Vec<u64> {
        let state = &self.machine.state;
        if !state.is_sound() {
            return Vec::new();
        }
        state.live().filter(|&lsn| state.entry(lsn).stage == stage).collect()
    }

    /// Mostly a live record in this stage.
    fn lsn_in(&mut self, stage: Stage) -> u64 {
        let candidates = self.live_in(stage);
        if candidates.is_empty() || self.rng.chance(1, 12) {
            self.any_lsn()
        } else {
            self.rng.pick(&candidates)
        }
    }

    fn any_lsn(&mut self) -> u64 {
        let &State { head_lsn, next_lsn, committed_lsn, .. } = &self.machine.state;
        match self.rng.below(10) {
            0 => self.number(),
            1 => head_lsn.wrapping_sub(1),
            2 => next_lsn,
            3 => committed_lsn,
            4 => committed_lsn.wrapping_add(1),
            5 => head_lsn.wrapping_add(TABLE_SIZE as u64),
            _ if self.machine.state.is_sound() && head_lsn < next_lsn => {
                self.rng.between(head_lsn, next_lsn - 1)
            }
            _ => next_lsn,
        }
    }

    /// Mostly the last record that can be forced now.
    fn force_target(&mut self) -> u64 {
        if self.rng.chance(1, 3) {
            return self.any_lsn();
        }
        let first = self.machine.state.committed_lsn.saturating_add(1);
        let complete = self.live_in(Stage::Complete);
        let last = complete.into_iter().zip(first..).take_while(|(found, lsn)| found == lsn).last();
        match last {
            Some((lsn, _)) => lsn,
            None => self.any_lsn(),
        }
    }

    fn frequency(&mut self) -> u64 {
        match self.rng.below(20) {
            0 => 0,
            1 => self.number(),
            2 => self.rng.pick(&[1, 2, 8, 1 << 62, (1 << 62) - 1, u64::MAX]),
            3..=9 => self.rng.between(1, 9),
            _ => 1,
        }
    }

    fn kind(&mut self) -> u64 {
        match self.rng.below(20) {
            0 => self.rng.pick(&[0, 1, 65_535, 65_536, 70_000, u64::MAX, 1 << 32]),
            _ => self.rng.between(1, MAX_KIND),
        }
    }

    fn length(&mut self) -> u64 {
        match self.rng.below(16) {
            0..=8 => self.rng.below(20),
            9..=11 => self.rng.below(100),
            12 | 13 if self.machine.state.is_sound() => {
                // What just fits, and one byte more.
                let state = &self.machine.state;
                let room = state.capacity - state.used_words();
                let fits = 8 * room.saturating_sub(1 + HEADER_WORDS);
                (fits + self.rng.below(2)).min(MAX_LENGTH)
            }
            14 => self.rng.pick(&[1_023, 1_024, 1_025, 70_000, 1 << 32, u64::MAX]),
            _ => self.rng.below(MAX_LENGTH + 1),
        }
    }

    /// Small numbers, numbers at limits, any numbers.
    fn number(&mut self) -> u64 {
        match self.rng.below(4) {
            0 => self.rng.below(70),
            1 => self.rng.below(TABLE_SIZE as u64 + 14),
            2 => {
                let limits = [
                    u64::MAX,
                    u64::MAX - 1,
                    1 << 63,
                    LSN_LIMIT - 1,
                    LSN_LIMIT,
                    LSN_LIMIT + 1,
                    MAX_EPOCH,
                    MAX_EPOCH + 1,
                    65_535,
                    65_536,
                    70_000,
                    1_024,
                    1_025,
                ];
                self.rng.pick(&limits)
            }
            _ => self.rng.next_u64(),
        }
    }

    // ------------------------------------------------------------ sending

    /// Writes a writing call down; now and then first with too short an op buffer, then with a just
    /// sufficient one.
    fn call(&mut self, command: Command) -> Answer {
        let mut answer =
            if self.rng.chance(1, 6) { self.call_with_tight_op_buffers(&command) } else { None };
        if answer.is_none() {
            answer = Some(self.send(command));
        }
        let answer = answer.expect("the call was made");
        self.carry_out(&answer);
        answer
    }

    /// Writes a writing call down, with the op buffer as it is.
    fn make(&mut self, command: Command) -> Answer {
        let answer = self.send(command);
        self.carry_out(&answer);
        answer
    }

    fn carry_out(&mut self, answer: &Answer) {
        if let Some(device) = &mut self.device {
            answer.ops.iter().for_each(|&op| device.carry_out(op));
        }
    }

    fn call_with_tight_op_buffers(&mut self, command: &Command) -> Option<Answer> {
        let mut trial = self.machine.clone();
        trial.op_buffer = vec![0; roomy_op_buffer(trial.image.len() as u64) as usize];
        let answer = trial.run(command).and_then(|line| Answer::parse(&line))?;
        let needed = (OP_WORDS * answer.ops.len()) as u64;
        if needed == 0 {
            return None;
        }
        let value = self.rng.next_u64();
        let shorter = self.rng.below(needed);
        for words in [needed - 1, shorter] {
            self.send(Command::OpBuffer { words, value });
            self.send(command.clone());
        }
        self.send(Command::OpBuffer { words: needed, value });
        let answer = self.send(command.clone());
        self.roomy_op_buffer();
        Some(answer)
    }

    /// Writes a command down and carries it out. Commands without an answer give an empty one.
    fn send(&mut self, command: Command) -> Answer {
        if matches!(command, Command::Image { .. } | Command::Poke { .. }) {
            self.device = None;
        }
        self.words.extend(command.encode());
        let line = self.machine.run(&command);
        line.and_then(|line| Answer::parse(&line)).unwrap_or_else(Answer::none)
    }
}
