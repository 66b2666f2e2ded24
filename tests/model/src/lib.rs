// Holds: the parts of the model of the posting board, and the readings taken where its paper is open.
// Rests on: document 01 (the law), W2, W3, W5 and W14 of document 02, Figure 1 of document 003 (the two rounds), docs/FORMATS.md (rows); no more.
//
// Readings, each with its reason. R: refusals. S: steps. B: what a board is. L: looking up. P: program.
//
// R1  Receive refuses 7 for `from` as well as `to`: 7 says "a site number", without leaving one out.
// R2  A kind above 3 is 9, and so is an account above 15 unless R12 allows it: such a field lies in no row of the
//     table.
// R3  Crash of a site that is down is 8: the site named is the one that acts.
// R4  14 counts the sites that are down: crashes and cuts are the only ways down, each takes one site.
// R5  14 and 15 are tested last on a cut, 14 first: rising number. With f reached every cut is 14.
// R6  A cut after j is fine for j from 0 up to and including the step's sends: 15 says "more".
// R7  A receipt without effect has 0 sends, so only a cut after 0 fits it.
// R8  A message for a site that is down is 8, in flight or not: 8 is below 11.
// R9  Drain's only refusal is 6; refused, it did 0 events. Any limit is fine, 0 included.
// R10 Quiet is a question, not an event: it is answered on any board and never refused.
// R11 Books refuse 6, 7, 16 for one site and 6, 16 for all; a longer slice is fine, its rest stays.
// R12 255 is allowed as an account in a NET alone, in both places and with amount 0: W14 says "both accounts 255" and
//     "for NET only", and leaves the rest of NET's row (b = a, amount 0). Any other use is 9, or 6 on a board
//     handed in.
// R13 A look-up refuses 6, 7 and 18, in this order: W3 places 18 after 16, and 7 lies before both. 8 is not among
//     them: "showing figures from a site's record is no act". 9 speaks of a posting's fields and 16 of the slice for
//     books, so an account or a slice that does not fit a look-up is 18 alone.
// R14 All pairs handed over are judged, those after the 256th too: 7 leaves no site number out, and 18 no account. So
//     a site of n or more there is 7, although there are too many pairs.
// R15 No pairs at all are fine: "up to 256". They need no slice, visit no place, and write nothing.
// R16 255 is no account to look up: W14 allows it "for NET only", in a posting. It is over 15, so 18.
// R17 A slice longer than four numbers a pair is fine, its rest stays: 18 says "under", and document 01 says "in any
//     lent slice, what lies beyond the numbers filled stays".
//
// S1  A cut offer takes its number and stays offered even when no FIRST went out: "offered ... cut or not".
// S2  An offer leaves the offerer's seen set alone: only FIRST and the SECOND step add to it.
// S3  SECOND or THIRD once n - f sites were heard, once m is stepped or finished, or from a site already
//     heard, changes nothing but the flight: "consumed without effect".
// S4  GOOD and "contains m" are counted among the sites heard: "of those heard".
// S5  A DELIVER that is not the first is consumed; it neither relays nor delivers, even where a board
//     built by hand lacks m in the record: the rule speaks of the first receipt only.
// S6  A FIRST that comes again (only on boards built by hand) acts again: no rule stops it.
// S7  A carried set that holds m delivers m at its rising place: "the carried set in rising number, then m".
// S8  A cut receipt still consumes the message and marks it received: "the sets change".
// S9  An order needs no site that is up: the oracle acts.
// S10 What is noted of a site only grows: GOOD, "contains m" and the union, even where a board built by hand has
//     them before that site is heard. The paper is open here, and docs/DECISIONS.md decides.
// S11 A NET of 255 shares an account with every posting, another NET of 255 included. Whether the two conflict is
//     still the matrix's to say, by their kinds: W14 changes what is shared, not the matrix or its fixed pairs.
// S12 A NET of 255 nets the accounts 0 to 15, each by its own position. 255 itself is no account: it has no figures,
//     and no posting touches it.
// S13 A CALL of a position of zero or below is offered, delivered and in conflict like any other, and what was called
//     before stays: document 02, W5 changes what a CALL adds, and no more; "The fixed pairs are the same five".
//
// B1  C(m) ranges over the postings offered so far: others have no number.
// B2  Site slots from n on are no sites of the board, so what stands in them is not judged; a set, mask or
//     message that names such a site is unsound.
// B3  Anything received under a number not offered names that posting: unsound.
// B4  The word, set or entry kept beside a message or entry that is absent is not judged: it is not there.
// B5  The set of sites down is a set: a site of n or more in it is unsound.
// B6  The pool is a set by posting, so it cannot name one twice; nothing else is asked of sets (held
//     outside seen, more sites down than f, ... are sound): "in just these cases".
// B7  Where several causes of 6 apply, the first in the order of its list is named. A THIRD of a posting not
//     offered has no owner to go to, and such a posting in the pool or the log none to finish it: it is named
//     as not offered.
// B8  In a row of numbers a list longer than 256 names one twice: no more than 256 postings are offered, so it does,
//     or else it names one not offered. A third round under a number not offered names that posting.
// B9  In a row, slots from n on have no meaning (B2). No rule speaks of them, so every call leaves them as they are.
// B10 In a row, a set is four numbers where it was one, posting 0 in the first: W2 says "four 64-bit words in every
//     part of the board", and nothing else of the row is named, so all the rest keeps its order.
//
// L1  Pairs are bytes: site, account, site, account, and so on. W3 leaves the form open, and a byte holds every site
//     and account. An odd last byte is half a pair: it names nothing to look up, and no refusal speaks of it.
// L2  The four numbers of a pair are position, rate, called and settled, those of pair i from 4i on: "every line equals
//     what books would give", and books have them in this order.
// L3  A site that is down is looked up as one that is up: books are those of a site, "up or down".
// L4  A site named in several pairs counts once, with the whole length of its record, whatever the accounts are: it "is
//     gone through once". An empty record counts 0.
//
// P1  A malformed file is `F 1` even if its n, f or matrix would be refused: 1 is the lowest number.
// P2  Each line printed ends with a line feed and has no space at its end.
// P3  A well-formed file without events is fine: "at most 4,096".

pub mod board;
pub mod books;
pub mod call;
pub mod cause;
pub mod drain;
pub mod flight;
pub mod gen;
pub mod lookup;
pub mod malform;
pub mod meaning;
pub mod numbers;
pub mod odd;
pub mod posting;
pub mod prng;
pub mod program;
pub mod refusal;
pub mod row;
pub mod runfile;
pub mod scramble;
pub mod set;
pub mod site;
pub mod sound;
pub mod steps;

pub use board::Board;
pub use call::{Answer, Call};
pub use cause::{Cause, CAUSES};
pub use drain::Ending;
pub use flight::{Flight, Message, DELIVER, FIRST, FORMS, SECOND, THIRD};
pub use posting::{
    conflict, effect, fields_ok, matrix_has_fixed_pairs, matrix_symmetric, nets_house, share,
    touches, Posting, ACCOUNTS, EVERY_ACCOUNT, FIGURES, FIXED_PAIRS, HOUSE_NET,
};
pub use program::run;
pub use refusal::Refusal;
pub use runfile::{decode, encode, Run, MAX_EVENTS};
pub use set::{Set, POSTINGS, SITES, WORDS};
pub use site::Site;
