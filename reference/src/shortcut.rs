//! The five "short cuts that lose records" of document 01, to be switched on one at a time.
//!
//! A log with one of them is broken on purpose: the crash bench must find that out. Only the calls that
//! a short cut can touch stand here; without one they are those of [`crate::calls`].

use crate::calls::{self, Appended, Cursor, Done, Forced, Next};
use crate::layout::{record_size, MARK_RELEASED};
use crate::ops::Op;
use crate::refusal::{RecordTest, Refusal};
use crate::state::State;

#[derive(Clone, Copy, Debug, PartialEq, Eq)]
pub enum Shortcut {
    /// 1: force, and that of an append, stores the marks before it flushes the payload.
    MarkBeforePayloadFlush,
    /// 2: neither flushes the word behind the last record.
    TerminatorNotFlushed,
    /// 3: the walk ends at a released record.
    WalkEndsAtReleased,
    /// 4: release and release all do not flush the selector.
    SelectorNotFlushed,
    /// 5: an unset mark is called damage.
    UnsetMarkIsDamage,
}

impl Shortcut {
    pub const ALL: [Shortcut; 5] = [
        Shortcut::MarkBeforePayloadFlush,
        Shortcut::TerminatorNotFlushed,
        Shortcut::WalkEndsAtReleased,
        Shortcut::SelectorNotFlushed,
        Shortcut::UnsetMarkIsDamage,
    ];

    /// The document's 1st to 5th.
    pub fn numbered(number: usize) -> Option<Shortcut> {
        number.checked_sub(1).and_then(|index| Shortcut::ALL.get(index)).copied()
    }
}

pub fn next(shortcut: Option<Shortcut>, image: &[u64], cursor: &Cursor) -> Result<Next, Refusal> {
    let found = calls::next(image, cursor)?;
    match (shortcut, found) {
        (Some(Shortcut::WalkEndsAtReleased), Next::Record { record, .. })
            if record.mark == MARK_RELEASED =>
        {
            Ok(Next::End { lsn: record.lsn })
        }
        (Some(Shortcut::UnsetMarkIsDamage), Next::End { lsn }) => {
            Err(Refusal::Damaged { lsn, test: RecordTest::Mark })
        }
        _ => Ok(found),
    }
}

pub fn force(
    shortcut: Option<Shortcut>,
    image: &mut [u64],
    op_buffer: &mut [u64],
    state: &mut State,
    lsn: u64,
    frequency: u64,
) -> Result<Done<Forced>, Refusal> {
    let mut plan = calls::plan_force(image, state, lsn, frequency)?;
    bend_force(shortcut, &mut plan.ops);
    plan.carry_out(image, op_buffer, state)
}

pub fn append(
    shortcut: Option<Shortcut>,
    image: &mut [u64],
    op_buffer: &mut [u64],
    state: &mut State,
    kind: u64,
    bytes: &[u8],
    frequency: u64,
) -> Result<Done<Appended>, Refusal> {
    let mut plan = calls::plan_append(image, state, kind, bytes, frequency)?;
    // The force's ops come behind the record's words and the terminator.
    let stores = record_size(bytes.len() as u64) as usize + 1;
    bend_force(shortcut, &mut plan.ops[stores..]);
    plan.carry_out(image, op_buffer, state)
}

/// The ops of a force, which may be none.
fn bend_force(shortcut: Option<Shortcut>, ops: &mut [Op]) {
    let is_store = |op: &Op| matches!(op, Op::Store { .. });
    let payload_flushes = ops.iter().take_while(|op| !is_store(op)).count();
    match shortcut {
        Some(Shortcut::MarkBeforePayloadFlush) => {
            let marks = ops.iter().filter(|op| is_store(op)).count();
            ops[..payload_flushes + marks].rotate_left(payload_flushes);
        }
        Some(Shortcut::TerminatorNotFlushed) if payload_flushes > 0 => {
            let last = payload_flushes - 1;
            if let Op::Flush { first, count } = ops[last] {
                ops[last] = Op::Flush { first, count: count - 1 };
            }
        }
        _ => {}
    }
}

pub fn release(
    shortcut: Option<Shortcut>,
    image: &mut [u64],
    op_buffer: &mut [u64],
    state: &mut State,
    lsn: u64,
) -> Result<Done<()>, Refusal> {
    let mut plan = calls::plan_release(image, state, lsn)?;
    bend_superline_update(shortcut, &mut plan.ops);
    plan.carry_out(image, op_buffer, state)
}

pub fn release_all(
    shortcut: Option<Shortcut>,
    image: &mut [u64],
    op_buffer: &mut [u64],
    state: &mut State,
) -> Result<Done<()>, Refusal> {
    let mut plan = calls::plan_release_all(image, state)?;
    bend_superline_update(shortcut, &mut plan.ops);
    plan.carry_out(image, op_buffer, state)
}

pub fn recover(
    shortcut: Option<Shortcut>,
    image: &mut [u64],
    op_buffer: &mut [u64],
) -> Result<Done<State>, Refusal> {
    let next = |image: &[u64], cursor: &Cursor| next(shortcut, image, cursor);
    calls::plan_recover(image, next)?.start(image, op_buffer)
}

/// Leaves out the selector's flush, the last op of an update.
fn bend_superline_update(shortcut: Option<Shortcut>, ops: &mut Vec<Op>) {
    let ends_in_flush = matches!(ops.last(), Some(Op::Flush { .. }));
    if shortcut == Some(Shortcut::SelectorNotFlushed) && ends_in_flush {
        ops.pop();
    }
}
