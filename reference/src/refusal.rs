//! The numbers that come back when something can't be done.

/// The sheet is not 5 to 20 whole records, or 6 to 21 where the fifth begins
/// with E (or the settings to be written have not 1 to 16 partitions).
pub const RECORD_COUNT: u8 = 1;
/// A letter, the order, a digit, a space, a line feed or a two-digit number
/// is wrong.
pub const FORM: u8 = 2;
/// The window is out of its limits.
pub const WINDOW: u8 = 3;
/// The cycles a tick are out of their limits.
pub const TICK: u8 = 4;
/// The policy, the core or the edition is out of its limits.
pub const POLICY_CORE_OR_EDITION: u8 = 5;
/// A share is above 100, or the shares don't add up to 100.
pub const SHARES: u8 = 6;
/// The lent buffer is too short.
pub const BUFFER: u8 = 7;
/// The kind is unknown or an unused byte isn't zero.
pub const KIND: u8 = 9;
/// The elapsed time is too long.
pub const ELAPSED: u8 = 10;
/// The thread number is above 63, taken already, or nobody's.
pub const THREAD: u8 = 11;
/// The partition doesn't exist, the mask names no core, or the policy is
/// above 1.
pub const PARTITION: u8 = 12;
/// A ready thread was made ready, or one that isn't was blocked.
pub const READINESS: u8 = 13;
/// The event isn't twelve bytes.
pub const EVENT_LENGTH: u8 = 14;
