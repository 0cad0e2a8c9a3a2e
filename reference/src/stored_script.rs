//! The stored script of the program replay: every command, every refusal of document 01, epochs of every sort, and the rows of its
//! bench sheet that are about calls. What the script owes is what our own replay answers to it.

use crate::calls::Cursor;
use crate::layout::{record_check, CheckWord, MAX_EPOCH};
use crate::script::Command;

const MOST: u64 = u64::MAX;

/// The script's bytes.
pub fn stored_script() -> Vec<u8> {
    let mut script = Script::default();
    script.nothing_there();
    script.a_log_of_64_words();
    script.damage();
    script.replacements();
    script.appends();
    script.a_full_table();
    script.states_by_hand();
    script.epochs_in_records();
    script.epochs_in_cursors();
    script.epochs_in_states();
    script.bench_sheet();
    script.past_a_limit();
    script.words.into_iter().flat_map(u64::to_le_bytes).collect()
}

#[derive(Default)]
struct Script {
    words: Vec<u64>,
}

impl Script {
    fn run(&mut self, command: Command) {
        self.words.extend(command.encode());
    }

    fn image(&mut self, words: u64, value: u64) {
        self.run(Command::Image { words, value });
    }

    fn poke(&mut self, word: u64, value: u64) {
        self.run(Command::Poke { word, value });
    }

    fn op_buffer(&mut self, words: u64, value: u64) {
        self.run(Command::OpBuffer { words, value });
    }

    fn field(&mut self, field: u64, value: u64) {
        self.run(Command::Field { field, value });
    }

    fn entry(&mut self, index: u64, position: u64, length: u64, kind: u64, stage: u64, epoch: u64) {
        self.run(Command::Entry { index, position, length, kind, stage, epoch });
    }

    /// Position, LSN, used, count, last epoch, superline's epoch.
    fn cursor(&mut self, numbers: [u64; 6]) {
        let [position, lsn, used, count, last_epoch, superline_epoch] = numbers;
        let cursor = Cursor { position, lsn, used, count, last_epoch, superline_epoch };
        self.run(Command::Cursor(cursor));
    }

    fn format(&mut self) {
        self.run(Command::Format);
    }

    fn reserve(&mut self, kind: u64, length: u64) {
        self.run(Command::Reserve { kind, length });
    }

    fn copy(&mut self, lsn: u64, offset: u64, bytes: &[u8]) {
        self.run(Command::Copy { lsn, offset, bytes: bytes.to_vec() });
    }

    fn complete(&mut self, lsn: u64) {
        self.run(Command::Complete { lsn });
    }

    fn force(&mut self, lsn: u64, frequency: u64) {
        self.run(Command::Force { lsn, frequency });
    }

    fn release(&mut self, lsn: u64) {
        self.run(Command::Release { lsn });
    }

    fn release_all(&mut self) {
        self.run(Command::ReleaseAll);
    }

    fn recover(&mut self) {
        self.run(Command::Recover);
    }

    fn append(&mut self, kind: u64, frequency: u64, bytes: &[u8]) {
        self.run(Command::Append { kind, frequency, bytes: bytes.to_vec() });
    }

    fn open(&mut self) {
        self.run(Command::Open);
    }

    fn next(&mut self) {
        self.run(Command::Next);
    }

    fn fetch(&mut self, position: u64, length: u64, output: u64) {
        self.run(Command::Fetch { position, length, output });
    }

    fn print_words(&mut self, first: u64, count: u64) {
        self.run(Command::Words { first, count });
    }

    fn print_state(&mut self) {
        self.run(Command::State);
    }

    /// An image of 0 words, an op buffer of 0, an unsound state.
    fn nothing_there(&mut self) {
        self.print_state();
        self.print_words(0, MOST);
        self.format();
        self.open();
        self.reserve(1, 0);
        self.image(64, 3);
        self.format();
        self.op_buffer(300, 7);
        self.reserve(1, 0);
        self.open();
        self.recover();
    }

    /// Records reserved, filled, completed, forced, read, released, recovered.
    fn a_log_of_64_words(&mut self) {
        self.format();
        self.print_state();
        self.reserve(0, 0);
        self.reserve(70_000, 0);
        self.reserve(5, 1_025);
        self.reserve(5, 20);
        self.copy(1, 0, b"twenty bytes of text");
        self.copy(1, 15, b"six of");
        self.copy(1, MOST, b"6");
        self.copy(1, 20, b"");
        self.copy(2, 0, b"no such record");
        self.copy(1, 3, &[250, 251, 252, 253, 254, 255]);
        self.force(1, 1);
        self.complete(1);
        self.complete(1);
        self.copy(1, 0, b"late");
        self.force(1, 0);
        self.force(1, 2);
        self.force(9, 1);
        self.force(1, 1);
        self.force(1, 3);
        self.reserve(65_535, 40);
        self.reserve(6, 200);
        self.reserve(7, 9);
        self.release(2);
        self.release_all();
        self.complete(3);
        self.force(3, 1);
        self.complete(2);
        self.force(3, 3);
        self.reserve(8, 24);
        self.print_state();
        self.open();
        for _ in 0..5 {
            self.next();
        }
        self.fetch(0, 20, 24);
        self.fetch(0, 20, 19);
        self.fetch(6, 40, 2_048);
        self.fetch(40, 1, 8);
        self.fetch(0, 1_025, 2_048);
        self.release(3);
        self.release(3);
        self.release(1);
        self.release(MOST);
        self.print_words(0, 64);
        self.recover();
        self.print_state();
        self.release_all();
        self.release_all();
        self.release(2);
    }

    /// A replacement and the inspection that it rests on.
    fn replacements(&mut self) {
        self.format();
        self.reserve(600, 7);
        self.reserve(1, 0);
        self.reserve(600, 8);
        self.reserve(600, 9);
        self.copy(2, 0, &[1]);
        self.copy(3, 0, &[1]);
        for lsn in 1..=3 {
            self.complete(lsn);
        }
        self.force(1, 1);
        self.force(3, 1);
        self.release(1);
        self.release(2);
        self.release(1);
        self.release(3);
        self.release(1);
    }

    /// The bench sheet's record in one call, deferred and due; every refusal of append, and op buffers a word too short for it.
    fn appends(&mut self) {
        let long = [9; 1_025];
        self.fresh(16);
        self.append(17, 8, &[0x41, 0x42, 0x43]);
        self.print_words(24, 5);
        self.fresh(16);
        self.append(17, 1, &[0x41, 0x42, 0x43]);
        self.print_words(24, 5);
        self.print_state();
        for kind in [0, 65_536] {
            self.append(kind, 1, &[]);
        }
        self.append(1, 1, &long);
        self.append(1, 0, &[]);
        self.append(600, 1, &long[..7]);
        self.append(1, 1, &long[..1_024]);
        // Deferred up to LSN 4, which all three are due with: op buffers of a word too few and of just enough. Then one that goes round.
        self.release(1);
        for words in [11, 12] {
            self.op_buffer(words, 0);
            self.append(2, 4, &[]);
        }
        self.op_buffer(15, 0);
        self.append(600, 4, &[2, 0, 0, 0, 0, 0, 0, 0]);
        for words in [32, 33] {
            self.op_buffer(words, 0);
            self.append(4, 4, &[]);
        }
        self.append(5, 1, &[1]);
        self.print_state();
        self.print_words(0, 40);
        // An older record is open: no matter where the force is deferred.
        self.fresh(40);
        self.append(1, 3, b"one");
        self.reserve(2, 0);
        self.append(3, 3, b"three");
        self.append(3, 4, b"three");
        self.append(4, 4, b"four");
        self.complete(2);
        self.append(4, 4, b"four");
        self.print_state();
        self.op_buffer(33, 0);
        self.recover();
        self.walk(5);
        // No LSN left; an area that is not the image's.
        self.field(2, 1 << 62);
        self.append(1, 1, &[]);
        self.field(0, 41);
        self.append(1, 1, &[]);
        self.format();
        self.field(2, 1 << 62);
        self.field(4, 1 << 62);
        self.field(5, (1 << 62) - 1);
        self.append(1, 1, &[]);
    }

    /// A damaged record, a damaged superline, a cursor that is not sound or has seen a full table.
    fn damage(&mut self) {
        self.reserve(9, 8);
        self.copy(4, 0, b"8 bytes.");
        self.complete(4);
        self.force(4, 1);
        self.open();
        self.print_words(40, 12);
        self.poke(46, 99);
        self.poke(64, 99);
        self.poke(MOST, 99);
        self.next();
        self.recover();
        self.cursor([19, 4, 0, 256, 0, 2]);
        self.next();
        self.cursor([19, 4, 0, 257, 0, 2]);
        self.next();
        self.cursor([40, 4, 0, 0, 0, 2]);
        self.next();
        self.poke(0, 2);
        self.open();
        self.recover();
    }

    /// Lines that are long: 300 words, a force of 256 records, a full table. All but the last records are put into the table by hand,
    /// which prints nothing. Then the records with LSN 257 and 258 come to the table's entries 1 and 2.
    fn a_full_table(&mut self) {
        self.image(300, MOST);
        self.print_words(0, 300);
        self.print_words(290, 5);
        self.print_words(300, 1);
        self.print_words(298, MOST);
        self.image(800, MOST);
        self.op_buffer(33, 0);
        self.format();
        for lsn in 1..=253 {
            self.entry(lsn, 3 * (lsn - 1), 0, 1, 2, lsn % 2);
        }
        self.field(3, 3 * 253);
        self.field(4, 254);
        for _ in 254..=257 {
            self.reserve(1, 0);
        }
        self.append(1, 1, &[]);
        for lsn in 254..=256 {
            self.complete(lsn);
        }
        self.op_buffer(1_538, 0);
        self.force(256, 256);
        self.op_buffer(1_539, 0);
        self.force(256, 256);
        self.release(3);
        self.reserve(1, 0);
        self.release(1);
        self.reserve(2, 0);
        self.release(2);
        self.reserve(3, 0);
        self.complete(257);
        self.force(257, 1);
        self.print_state();
        self.complete(258);
        self.force(258, 1);
        self.release_all();
        self.print_state();
    }

    /// No LSN left, an area that is not the image's, fields and entries out of range.
    fn states_by_hand(&mut self) {
        self.image(64, 0);
        self.op_buffer(90, 0);
        self.format();
        self.field(2, 1 << 62);
        self.field(4, 1 << 62);
        self.field(5, (1 << 62) - 1);
        self.reserve(1, 0);
        self.field(0, 41);
        self.reserve(1, 0);
        self.field(0, 40);
        self.field(1, 17);
        self.field(3, 17);
        self.field(6, 1);
        self.field(7, 4_294_967_295);
        self.field(8, 1);
        self.entry(256 + 3, 65_536 + 1, 65_536 + 2, 65_536 + 3, 4, (1 << 32) + 4);
        self.entry(64 + 3, 1, 2, 3, 1, 0);
        self.entry(255, 1, 2, 3, 1, MOST);
        self.entry(4, 1, 2, 3, 1, 1 << 32);
        self.entry(5, 1, 2, 3, 2, 5);
        self.entry(6, 1, 2, 3, 3, MAX_EPOCH);
        self.entry(7, 1, 2, 3, 5, 7);
        self.print_state();
        self.complete(1 << 62);
    }

    /// Records of three runs, the first of them from before slip 8. Then the last one's epoch falls, passes the superline's, or stays
    /// between the two; and both halves of its word 2 are wrong.
    fn epochs_in_records(&mut self) {
        self.image(64, 3);
        self.op_buffer(90, 0);
        self.format();
        self.reserve(11, 3);
        self.copy(1, 0, b"old");
        self.complete(1);
        self.force(1, 1);
        self.print_words(26, 1);
        self.poke(26, record_check(3, 11, 1, b"old".iter().copied()));
        self.recover();
        self.print_state();
        self.reserve(12, 0);
        self.reserve(13, 0);
        self.complete(3);
        self.print_state();
        self.complete(2);
        self.force(3, 1);
        self.recover();
        self.reserve(14, 1);
        self.complete(4);
        self.force(4, 1);
        self.walk(5);
        self.print_state();
        self.release(2);
        self.release(1);
        self.print_state();
        // Record 3 has epoch 2, the superline epoch 3, and record 4 its word 2 in word 36.
        let check = record_check(1, 14, 4, [0].into_iter());
        for epoch in [0, 1, 4, MAX_EPOCH, 2, 3] {
            self.poke(36, CheckWord { check, epoch }.word());
            self.walk(3);
        }
        for epoch in [1, 3, 4] {
            self.poke(36, CheckWord { check: check ^ 1, epoch }.word());
            self.walk(2);
        }
        self.recover();
        self.poke(36, CheckWord { check, epoch: 1 }.word());
        self.recover();
        self.poke(36, CheckWord { check, epoch: 4 }.word());
        self.recover();
        self.poke(36, CheckWord { check, epoch: 2 }.word());
        self.recover();
        self.print_state();
    }

    fn walk(&mut self, steps: usize) {
        self.open();
        for _ in 0..steps {
            self.next();
        }
    }

    /// At record 4 of the log above, which has epoch 2.
    fn epochs_in_cursors(&mut self) {
        for (last, superline) in [
            (2, 2),
            (0, MOST),
            (0, 2),
            (2, 1 << 32),
            (3, 3),
            (1, 1),
            (0, 0),
            (MOST, MOST),
            (1 << 32, MOST),
            (1, 0),
            (3, 2),
            (MOST, 3),
            (MOST, MOST - 1),
        ] {
            self.cursor([10, 4, 3, 1, last, superline]);
            self.next();
        }
        // 2 is tested before 13 and before the end.
        self.cursor([10, 4, 3, 256, 3, 2]);
        self.next();
        self.cursor([14, 5, 7, 2, 3, 2]);
        self.next();
        self.cursor([14, 5, 7, 2, 3, 3]);
        self.next();
    }

    /// Entries with the state's epoch, with 0 and falling are sound; one above it is not, nor is one of an open or a free entry.
    fn epochs_in_states(&mut self) {
        self.image(64, 0);
        self.op_buffer(90, 0);
        self.format();
        self.field(7, 5);
        self.entry(1, 0, 0, 1, 2, 5);
        self.entry(2, 3, 0, 1, 2, (1 << 32) + 2);
        self.entry(3, 6, 0, 1, 2, 0);
        self.entry(4, 9, 0, 1, 1, 0);
        self.field(3, 12);
        self.field(4, 5);
        self.print_state();
        self.copy(4, 0, b"");
        self.entry(1, 0, 0, 1, 2, 6);
        self.copy(4, 0, b"");
        self.entry(1, 0, 0, 1, 2, 5);
        for epoch in [1, 5, 6] {
            self.entry(4, 9, 0, 1, 1, epoch);
            self.copy(4, 0, b"");
        }
        self.entry(4, 9, 0, 1, 1, 0);
        self.entry(9, 0, 0, 0, 0, 1);
        self.copy(4, 0, b"");
        self.entry(9, 0, 0, 0, 0, 0);
        self.field(7, 4);
        self.copy(4, 0, b"");
        self.field(7, MAX_EPOCH);
        self.complete(4);
        self.force(4, 1);
        self.release(2);
        self.print_state();
        self.release_all();
        self.print_state();
    }

    /// A fresh log whose ring has `capacity` words, over old contents of sevens.
    fn fresh(&mut self, capacity: u64) {
        self.image(capacity + 24, 7);
        self.op_buffer(1_000, 0);
        self.format();
    }

    /// The rows of the bench sheet, in its order.
    fn bench_sheet(&mut self) {
        // Sizes for L = 0, 1, 8, 9, 1,024: the places of the records say them. The first op of a format is a copy's first word.
        self.fresh(400);
        for length in [0, 1, 8, 9, 1_024, 0] {
            self.reserve(1, length);
        }
        // Format: 40 words with 33 and with 32 op buffer words; 39 words.
        self.image(40, 7);
        self.op_buffer(33, 0);
        self.format();
        self.op_buffer(32, 0);
        self.format();
        self.image(39, 7);
        self.op_buffer(33, 0);
        self.format();
        // C = 16, empty: L 97 and L 96.
        self.fresh(16);
        self.reserve(17, 97);
        self.reserve(17, 96);
        // L 3: its five stores, with word 0 of mark 0; its copy; force(1, 8) and force(1, 1), with word 0 of mark 1.
        self.fresh(16);
        self.reserve(17, 3);
        self.copy(1, 0, &[0x41, 0x42, 0x43]);
        self.complete(1);
        self.force(1, 8);
        self.force(1, 1);
        self.print_words(24, 5);
        // Reserve 1 and 2, complete 2, force(2, 1).
        self.fresh(16);
        self.reserve(17, 3);
        self.reserve(17, 3);
        self.complete(2);
        self.force(2, 1);
        // L 40 forced and released; L 72 goes round, and so does its force.
        self.fresh(16);
        self.reserve(17, 40);
        self.complete(1);
        self.force(1, 1);
        self.release(1);
        self.reserve(17, 72);
        self.complete(2);
        self.force(2, 1);
        // L 12: copies at offsets 6, 9 and 12.
        self.fresh(16);
        self.reserve(17, 12);
        self.copy(1, 6, &[1, 2, 3, 4]);
        self.copy(1, 9, &[1, 2, 3, 4]);
        self.copy(1, 12, &[]);
        // 1 to 9 complete, none committed: force(7, 8), then force(8, 8); another time force(9, 8); another time with 1 to 3
        // committed before them.
        self.nine_complete();
        self.force(7, 8);
        self.force(8, 8);
        self.print_state();
        self.nine_complete();
        self.force(9, 8);
        self.print_state();
        self.nine_complete();
        self.force(3, 1);
        self.force(7, 8);
        self.force(9, 8);
        self.print_state();
    }

    fn nine_complete(&mut self) {
        self.fresh(100);
        for lsn in 1..=9 {
            self.reserve(17, 3);
            self.complete(lsn);
        }
    }

    /// A limit exceeded, which ends the script.
    fn past_a_limit(&mut self) {
        self.words.extend([12, 1, 0, 2_049]);
        self.print_state();
    }
}
