//! The numbers of document 01's table "Words from the rack". Each is named once; the comment gives
//! its title in the table. 12, "dead clock", is not used (document 02, U8).

/// The number that a call answers: `DONE` or a refusal.
pub type Number = u32;

/// No refusal: the call did what was asked.
pub const DONE: Number = 0;
/// "smudged sheet": the text has the wrong number of lines, or a line of the wrong form.
pub const MALFORMED_TEXT: Number = 1;
/// "no such depth": n is outside its span.
pub const BAD_DEPTH: Number = 2;
/// "offset count": m is outside its span.
pub const BAD_DEPENDENCE_COUNT: Number = 3;
/// "rack too large": c is outside its span.
pub const BAD_CUBE_DIMENSION: Number = 4;
/// "crossed limits": a loop with a limit outside the span, or without any index.
pub const BAD_LIMITS: Number = 5;
/// "sheet too big": too many iterations.
pub const TOO_MANY_ITERATIONS: Number = 6;
/// "clock span": the time vector leaves its span.
pub const TIME_VECTOR_SPAN: Number = 7;
/// "offset span": a dependence leaves its span.
pub const DEPENDENCE_SPAN: Number = 8;
/// "backward offset": a dependence does not point forward in loop order.
pub const BACKWARD_DEPENDENCE: Number = 9;
/// "doubled offset": a dependence is listed twice.
pub const REPEATED_DEPENDENCE: Number = 10;
/// "against the clock": P·d is not positive for some dependence d.
pub const AGAINST_TIME_VECTOR: Number = 11;
/// "weight span": one of the boundary values or one of the weights leaves its span.
pub const WEIGHT_SPAN: Number = 13;
/// "short tray": a buffer is too short for all iterations.
pub const SHORT_BUFFER: Number = 14;
/// "waiting": the iteration to compute cannot read all its sources yet.
pub const WAITING: Number = 15;
/// "out of turn": what is to be delivered is no message, not ready, or delivered before.
pub const OUT_OF_TURN: Number = 16;
/// "idle card": the processor to compute on has nothing left to do.
pub const IDLE_PROCESSOR: Number = 17;
/// "no such place": a move names a processor, iteration or dependence that does not exist.
pub const NO_SUCH_PLACE: Number = 18;
