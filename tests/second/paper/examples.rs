//! 'Table of proved examples', as far as it is about digits and dates, the digit
//! line of document 004, and examples of request 5.

/// Field and its check.
pub const FIELD_CHECKS: [(&[u8], u8); 3] = [
    (b"085910408", b'5'),
    (b"0001111100", b'2'),
    (b"0000000401", b'0'),
];

/// Last digit of 0009, then 39 digits otherwise zero, and the general check.
pub const GENERAL_CHECKS: [(u8, u8); 4] = [(b'0', b'7'), (b'3', b'1'), (b'4', b'1'), (b'9', b'1')];

/// A valid barcode and its digit line.
pub const PAPER_BARCODE: &[u8] = b"08592726900000100001040800011111000000000401";
pub const PAPER_LINE: &[u8] = b"08591040850001111100200000004010272690000010000";

/// As document 004 prints it, with a second field check that is wrong.
pub const DOCUMENT_004_LINE: &[u8] = b"08591040850001111100500000004010372690000010000";

/// Due date and factor, as request 3 of document 02 turns them round.
pub const FACTORS: [([u8; 8], Option<u32>); 4] = [
    (*b"03072000", Some(1_000)),
    (*b"01092017", Some(7_269)),
    (*b"21022025", Some(9_999)),
    (*b"22022025", Some(1_000)),
];

/// Codes of the collection family and their lines. The first five are lines of
/// bills that are public as examples elsewhere; they were remembered and stand in
/// none of the papers, and all five checks of each hold. The last two are the codes
/// of request 5 that differ in one digit and are both right.
pub const COLLECTION_EXAMPLES: [(&[u8], &[u8]); 7] = [
    (
        b"84670000001435900240200240500024384221010811",
        b"846700000017435900240209024050002435842210108119",
    ),
    (
        b"83620000000667800481001809756573100158963608",
        b"836200000005667800481000180975657313001589636081",
    ),
    (
        b"84890000000404201622018060519042958603411122",
        b"848900000002404201622015806051904292586034111220",
    ),
    (
        b"85820000000572503282035607082021053959190446",
        b"858200000007572503282030560708202107539591904460",
    ),
    (
        b"81770000000010936599704113107970300143370831",
        b"817700000000010936599702411310797039001433708318",
    ),
    (
        b"81800000000000000000000000000000000000000002",
        b"818000000004000000000000000000000000000000000027",
    ),
    (
        b"81800000000000000000000000000000000000000008",
        b"818000000004000000000000000000000000000000000086",
    ),
];
