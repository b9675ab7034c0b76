//! The numbers of the calls that have cases (CALLS.md).

pub const SOURCE_OF: u8 = 0x01;
pub const ROOM: u8 = 0x02;
pub const JUDGE: u8 = 0x03;
pub const ELEMENT_SIZE: u8 = 0x04;
pub const ELEMENT_COUNT: u8 = 0x05;
pub const SUB_TENSOR: u8 = 0x06;
pub const WITH_FILL: u8 = 0x0b;
pub const ALL: u8 = 0x17;
pub const FIRST_SETTING: u8 = 0x18;
pub const LAST_SETTING: u8 = 0x1f;
pub const MOVE_PLANE: u8 = 0x20;
pub const JUDGE_JOB: u8 = 0x21;
pub const ADVANCE: u8 = 0x22;
pub const SUB_PART: u8 = 0x24;
pub const MOVER_SUB_TENSOR: u8 = 0x25;
pub const PLAIN_MOVE: u8 = 0x26;
pub const PLAIN_ADVANCE: u8 = 0x27;
pub const PIXEL: u8 = 0x28;
pub const READ: u8 = 0x30;
pub const WRITE: u8 = 0x31;
pub const LIST_FAULT: u8 = 0x32;
pub const RECORD_AT: u8 = 0x34;
pub const FIRST_TWO: u8 = 0x36;
pub const APPEND: u8 = 0x38;
pub const LENGTH_IN: u8 = 0x39;
pub const LENGTH_FOR: u8 = 0x3a;
pub const FIELDS_FAULT: u8 = 0x3b;
pub const PREPARE: u8 = 0x41;
pub const START: u8 = 0x42;
pub const STEP: u8 = 0x43;
pub const RELEASE: u8 = 0x44;
pub const POLL: u8 = 0x45;
pub const REQUEST: u8 = 0x50;
pub const GIVE_BACK: u8 = 0x51;
pub const FREE_BEFORE: u8 = 0x53;
pub const PART_OF: u8 = 0x54;

/// Whether a call moves a whole plane, by either engine.
pub fn is_move(number: u8) -> bool {
    [MOVE_PLANE, PLAIN_MOVE].contains(&number)
}

/// Whether a call has a beginning and a budget.
pub fn is_stretch(number: u8) -> bool {
    [ADVANCE, PLAIN_ADVANCE, STEP].contains(&number)
}
