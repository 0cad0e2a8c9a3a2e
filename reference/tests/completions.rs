//! What the crash bench says of a record's epoch: that of the state which completed it, and greater behind a recovery.

use reference::abstract_log::{Completions, WalkedRecord};
use reference::script::{Answer, Command};

/// A history of calls that are all granted.
#[derive(Clone, Default)]
struct History {
    completions: Completions,
    epoch: u64,
}

impl History {
    fn call(&mut self, call: Command, line: &str, ops_done: usize) {
        let answer = Answer::parse(&format!("{line} = 1 2 3")).unwrap();
        self.completions.feed(&call, &answer, ops_done, self.epoch);
    }

    fn format(&mut self) {
        self.epoch = 1;
        self.call(Command::Format, "format ok orders 1 s 0 0", 1);
    }

    fn record(&mut self, lsn: u64) {
        let line = format!("reserve ok {lsn} 0 orders 1 s 0 0");
        self.call(Command::Reserve { kind: 1, length: 0 }, &line, 1);
        self.call(Command::Complete { lsn }, "complete ok orders 1 s 0 0", 1);
    }

    /// A recovery that finds this epoch in the superline, so many of its two ops carried out.
    fn recover(&mut self, found: u64, ops_done: usize) {
        self.epoch = found + 1;
        self.call(Command::Recover, "takeup ok orders 2 s 0 0 f 0 1", ops_done);
    }

    /// Whether records with these epochs, from LSN 1 on, may be walked.
    fn allows(&self, epochs: &[u64]) -> Result<(), String> {
        let walked: Vec<WalkedRecord> = (1..)
            .zip(epochs)
            .map(|(lsn, &epoch)| WalkedRecord {
                position: 0,
                lsn,
                kind: 1,
                length: 0,
                mark: 1,
                epoch,
                bytes_digest: 0,
            })
            .collect();
        self.completions.check(&walked)
    }
}

/// Records 1 and 2 of the first run, 3 of the second.
fn two_runs() -> History {
    let mut history = History::default();
    history.format();
    history.record(1);
    history.record(2);
    history.recover(1, 2);
    history.record(3);
    history
}

#[test]
fn each_record_has_the_epoch_of_the_state_that_completed_it() {
    let history = two_runs();
    for epochs in [&[][..], &[1], &[1, 1], &[1, 1, 2]] {
        assert_eq!(history.allows(epochs), Ok(()));
    }
    for epochs in [&[0][..], &[2], &[1, 0], &[1, 2], &[1, 1, 1], &[1, 1, 0], &[1, 1, 3]] {
        assert!(history.allows(epochs).unwrap_err().contains("instead of"), "{epochs:?}");
    }
    assert!(history.allows(&[1, 1, 2, 2]).unwrap_err().contains("never completed"));
}

/// The record of an LSN that was lost counts no longer once the LSN is reserved again.
#[test]
fn a_new_record_of_the_same_lsn() {
    let mut history = two_runs();
    history.recover(2, 2);
    history.record(3);
    assert_eq!(history.allows(&[1, 1, 3]), Ok(()));
    assert!(history.allows(&[1, 1, 2]).is_err());
    history.format();
    assert!(history.allows(&[1]).is_err());
}

/// A recovery that goes back to an old epoch gives states whose records are not later than others.
#[test]
fn behind_a_recovery_epochs_are_greater() {
    let mut history = two_runs();
    // The superline's copy was not the one that the last recovery wrote.
    history.recover(1, 2);
    history.record(4);
    assert!(history.allows(&[1, 1, 2, 2]).unwrap_err().contains("from before a recovery"));
    let mut history = two_runs();
    history.recover(0, 2);
    history.record(4);
    assert!(history.allows(&[1, 1, 2, 1]).unwrap_err().contains("falls"));
    // One that was cut promises nothing.
    let mut history = two_runs();
    history.recover(1, 1);
    history.record(4);
    assert_eq!(history.allows(&[1, 1, 2, 2]), Ok(()));
}

#[test]
fn records_from_before_there_were_epochs() {
    let mut history = two_runs();
    history.completions.forget_epochs();
    history.recover(2, 2);
    history.record(4);
    assert_eq!(history.allows(&[0, 0, 0, 3]), Ok(()));
    assert!(history.allows(&[1, 1, 2, 3]).is_err());
}
