// Holds: the parts of this package, and the text form of run files.
// Rests on: the model, whose run files and boards are used as they are.
//
// The form. A text has one statement a line, its words parted by white space. What follows a `#` is a
// comment, and lines without words are passed over. The first three lines, in this order:
//
//   sites N
//   crashes F
//   matrix M
//
// Then at most 4,096 events, a line each:
//
//   offer SITE KIND A B AMOUNT
//   receive FORM POSTING from SITE to SITE
//   order POSTING
//   read SITE
//   crash SITE
//
// Offer, receive and read may end with `cut J`. KIND is TRADE, RATE, CALL, NET or a number; FORM is FIRST,
// SECOND, THIRD, DELIVER or a number. Numbers are written in base ten, or in base sixteen after `0x`. Each may
// be as large as its field of the run file holds: J up to 254, M up to 0xFFFF, AMOUNT up to 4,294,967,295, all
// others up to 255. Whether a value makes sense is judged by the event, not here.

pub mod assemble;
pub mod disassemble;
pub mod filter;
pub mod statement;
pub mod words;

pub use assemble::{assemble, Fault};
pub use disassemble::disassemble;
pub use statement::{played, statement};
