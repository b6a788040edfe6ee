//! What a call answers: an answer with its value, or a refusal's number.

/// An accepted call. The comments give the number and the value.
#[derive(Clone, Copy, Debug, PartialEq, Eq)]
pub enum Answer {
    /// 20 with the cell admitted at.
    Admitted(u32),
    /// 21 with the target.
    Begun(u32),
    /// 22: some row has not passed.
    NotYet,
    /// 23: from the first barrier to copying.
    Copying,
    /// 24 with the words done.
    Copied(u32),
    /// 25 with the target.
    Committed(u32),
    /// 26: the header was no longer flagged.
    Aborted,
    /// 27: the old block is freed.
    Released,
    /// 30 with 0, or with the figure that was asked for.
    Done(u32),
    /// 31 with the header's target.
    Ready(u32),
    /// 32 with the record's cell.
    Waiting(u32),
    /// 33 with 1 when the swap cleared the flag, otherwise with 0.
    Swapped(bool),
    /// 34 with the value read.
    Read(u32),
    /// 35: the value is written.
    Written,
}

/// The table "Numbers of refusal", by number.
#[derive(Clone, Copy, Debug, PartialEq, Eq)]
pub enum Refusal {
    /// "arena is not 8,192 words, or table not eight rows", and the other sizes.
    Size = 1,
    /// "state breaks a rule R1 to R8"
    Unsound = 2,
    /// "who above 8"
    Who = 3,
    /// "code is not one of that party's"
    Code = 4,
    /// "meter above 255, kind above 3 or hold above 3, in a number the step uses"
    Range = 5,
    /// "client not attached, and code is not 10"
    NotAttached = 6,
    /// "ATTACH when attached; ADMIT of a present meter"
    Already = 7,
    /// "11 to 15 or 17 by a client not resting; RETIRE or BEGIN with a move in hand"
    Busy = 8,
    /// "GO when resting; ADVANCE with no move in hand"
    Idle = 9,
    /// "RETIRE, BEGIN or OPEN of an absent meter; READ, WRITE or DROP of an empty hold"
    Absent = 10,
    /// "RETIRE of a record some row holds"
    Held = 11,
    /// "ADMIT when no free run of that length exists"
    NoRun = 12,
    /// "BEGIN when no free run of that length starts below the record"
    NoRunBelow = 13,
    /// "word not below the payload size"
    Word = 14,
    /// "BEGIN when begun is 4,294,967,295"
    BegunAtEnd = 15,
}

pub type Outcome = Result<Answer, Refusal>;

/// The number and the value of an outcome. "Values not named are 0."
pub fn numbers(outcome: Outcome) -> (u32, u32) {
    match outcome {
        Ok(Answer::Admitted(cell)) => (20, cell),
        Ok(Answer::Begun(target)) => (21, target),
        Ok(Answer::NotYet) => (22, 0),
        Ok(Answer::Copying) => (23, 0),
        Ok(Answer::Copied(words)) => (24, words),
        Ok(Answer::Committed(target)) => (25, target),
        Ok(Answer::Aborted) => (26, 0),
        Ok(Answer::Released) => (27, 0),
        Ok(Answer::Done(figure)) => (30, figure),
        Ok(Answer::Ready(target)) => (31, target),
        Ok(Answer::Waiting(cell)) => (32, cell),
        Ok(Answer::Swapped(won)) => (33, u32::from(won)),
        Ok(Answer::Read(value)) => (34, value),
        Ok(Answer::Written) => (35, 0),
        Err(refusal) => (refusal as u32, 0),
    }
}

/// The result of an exported call: answer × 2^32 + value.
pub fn packed(outcome: Outcome) -> u64 {
    let (number, value) = numbers(outcome);
    u64::from(number) << 32 | u64::from(value)
}
