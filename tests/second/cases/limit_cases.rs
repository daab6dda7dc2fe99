//! The files at the limits of document 01, each with the answer it demands.

use std::io;

use crate::making::good_files::{LARGEST_AMOUNT, LARGEST_PAYMENTS, MISSING_CENTS};
use crate::making::limit_files::{
    add_batch, add_batch_of, add_payments, batches, changed_payment, cut, many_collections,
    one_batch, one_boleto, one_credit, one_due, payments_and_another, payments_in_turn,
    two_batches, BYTES_OF_270_LINES, FULL_BILL, MORE_PAYMENTS, PAYMENTS_IN_270_LINES,
};
use crate::making::movements::put_movement;
use crate::making::plain_files::{self, PlainFile, HUNDRED};
use crate::making::plain_records::{self, PAYEES};
use crate::paper::file_state::BatchKind;
use crate::paper::lines::LINE_BYTES;
use crate::paper::places::{AMOUNT_OF_J, BANK, DETAIL_NUMBER, INSTRUCTION, MOVEMENT, SEGMENT};
use crate::paper::record_kinds::{Direction, RecordKind};
use crate::paper::totals::Movement::{Live, Withdrawn};

pub type Write = fn(&mut dyn io::Write) -> io::Result<()>;

#[derive(Clone, Copy, PartialEq, Eq)]
pub enum Pace {
    Ordinary,
    /// So many bytes at a time, each bit flushed.
    InBits(usize),
}

pub struct Case {
    pub name: &'static str,
    pub demanded: &'static str,
    pub write: Write,
    pub pace: Pace,
}

fn case(name: &'static str, demanded: &'static str, write: Write) -> Case {
    let pace = Pace::Ordinary;
    Case {
        name,
        demanded,
        write,
        pace,
    }
}

pub fn all() -> Vec<Case> {
    let mut cases = small_files();
    cases.extend(registrations());
    cases.extend(collections());
    cases.extend(many_batches());
    cases.extend(many_payments());
    cases.extend(behind_many_payments());
    cases.extend(large_sums());
    cases.extend(withdrawn_payments());
    cases.extend(limits_of_both());
    cases.extend(boletos_and_dates());
    cases.extend(due_dates());
    cases.extend(wrong_factors());
    cases.extend(cut_files());
    cases.extend(files_in_bits());
    cases
}

fn small_files() -> Vec<Case> {
    vec![
        case(
            "one payment",
            "OK 1 6 1 10000 0 0",
            plain_files::write_one_payment,
        ),
        case("empty input", "NO 2 1 0", |_| Ok(())),
        case("241 bytes", "NO 1 1 0", |out| {
            out.write_all(&plain_files::one_payment()[..LINE_BYTES - 1])
        }),
        case("no batch", "NO 6 2 8", |out| {
            PlainFile::begin(out, Direction::Remittance)?.close()
        }),
        case("bare line feeds", "NO 5 1 241", |out| {
            let mut bytes = plain_files::one_payment();
            bytes.retain(|byte| *byte != b'\r');
            out.write_all(&bytes)
        }),
        case("a byte behind the end", "NO 3 7 0", |out| {
            plain_files::write_one_payment(out)?;
            out.write_all(b"\n")
        }),
    ]
}

fn registrations() -> Vec<Case> {
    vec![
        case(
            "a CNPJ with letters",
            "OK 2 12 3 343490 0 0",
            plain_files::write_lettered,
        ),
        case(
            "swapped check digits",
            "NO 26 6 19",
            plain_files::write_wrong_check_digit,
        ),
    ]
}

/// Payments of one record.
fn collections() -> Vec<Case> {
    vec![
        case(
            "water, power and taxes",
            "OK 2 11 3 429775 1 54310",
            plain_files::write_collection,
        ),
        case(
            "a return of them",
            "OK 1 8 3 169085 0 0",
            plain_files::write_collection_return,
        ),
        case(
            "a code with swapped digits",
            "NO 55 4 21",
            plain_files::write_wrong_code,
        ),
        case(
            "10,000 collections",
            "OK 1 10004 10000 100000000 0 0",
            |out| many_collections(out, Direction::Remittance, 10_000)?.close(),
        ),
        case("10,001 collections", "NO 20 10003 14", |out| {
            many_collections(out, Direction::Remittance, 10_001)?.close()
        }),
        case(
            "Z behind 10,000 collections",
            "OK 1 10005 10000 100000000 0 0",
            |out| many_collections(out, Direction::Return, 10_000)?.close(),
        ),
    ]
}

fn many_batches() -> Vec<Case> {
    vec![
        case("70 batches", "OK 70 282 70 700000 0 0", |out| {
            batches(out, 70)?.close()
        }),
        case("71 batches", "NO 20 282 8", |out| batches(out, 71)?.close()),
        case("71st batch of another bank", "NO 20 282 8", |out| {
            let mut file = batches(out, 70)?;
            let header =
                plain_records::batch_header(Direction::Remittance, BatchKind::Credit, b"01");
            file.add_changed(RecordKind::BatchHeader, header, |line| {
                BANK.put(line, b"001");
            })
        }),
        case("over 999,999 records", "NO 21 1000102 24", |out| {
            let mut file = PlainFile::begin(out, Direction::Remittance)?;
            for _ in 0..50 {
                add_batch(&mut file, 10_000)?;
            }
            file.close()
        }),
    ]
}

fn many_payments() -> Vec<Case> {
    vec![
        case("10,000 payments", "OK 1 20004 10000 100000000 0 0", |out| {
            one_batch(out, 10_000)
        }),
        case("10,001 payments", "NO 20 20003 14", |out| {
            one_batch(out, 10_001)
        }),
        case("10,001 boletos", "NO 20 20003 14", |out| {
            let mut file = PlainFile::begin(out, Direction::Remittance)?;
            file.open_batch(BatchKind::Boleto)?;
            let records = plain_records::boleto_records(&PAYEES[1], 1, FULL_BILL);
            for _ in 0..10_001 {
                file.add_payment(records.clone())?;
            }
            file.close_batch()
        }),
    ]
}

/// Behind 10,000 payments: one more with something else wrong, or a Z.
fn behind_many_payments() -> Vec<Case> {
    vec![
        case(
            "10,001st payment of another segment",
            "NO 11 20003 14",
            |out| changed_payment(out, |line| SEGMENT.put(line, b"J")),
        ),
        case(
            "10,001st payment with another number",
            "NO 10 20003 9",
            |out| changed_payment(out, |line| DETAIL_NUMBER.put(line, b"20000")),
        ),
        case(
            "10,001st payment with a wrong field",
            "NO 20 20003 14",
            |out| changed_payment(out, |line| MOVEMENT.put(line, b"1")),
        ),
        case(
            "Z behind 10,000 payments",
            "OK 1 20005 10000 100000000 0 0",
            |out| {
                let mut file = PlainFile::begin(out, Direction::Return)?;
                file.open_batch(BatchKind::Credit)?;
                add_payments(&mut file, Live, 10_000, HUNDRED)?;
                file.z()?;
                file.close_batch()?;
                file.close()
            },
        ),
    ]
}

fn large_sums() -> Vec<Case> {
    vec![
        case("a batch of 10^18 cents", "NO 22 2005 24", |out| {
            let mut file = PlainFile::begin(out, Direction::Remittance)?;
            file.open_batch(BatchKind::Credit)?;
            add_payments(&mut file, Live, LARGEST_PAYMENTS, LARGEST_AMOUNT)?;
            file.credit(0, MISSING_CENTS)?;
            file.close_batch()?;
            file.close()
        }),
        case("a batch beyond signed 64 bits", "NO 22 20003 24", |out| {
            let mut file = PlainFile::begin(out, Direction::Remittance)?;
            file.open_batch(BatchKind::Credit)?;
            add_payments(&mut file, Live, 10_000, LARGEST_AMOUNT)?;
            file.close_batch()
        }),
        case("two batches of 10^18 cents", "NO 23 2007 24", |out| {
            two_batches(out, [Live, Live], MISSING_CENTS)
        }),
        case(
            "two batches of one cent less",
            "OK 2 2008 1001 999999999999999999 0 0",
            |out| two_batches(out, [Live, Live], MISSING_CENTS - 1),
        ),
    ]
}

fn withdrawn_payments() -> Vec<Case> {
    vec![
        case("one payment, withdrawn", "OK 1 6 0 0 1 10000", |out| {
            payments_in_turn(out, 1, &[Withdrawn])
        }),
        case("one boleto, withdrawn", "OK 1 6 0 0 1 10000", |out| {
            one_boleto(out, 0, |line| put_movement(line, Withdrawn))
        }),
        case("live, with instruction 99", "OK 1 6 1 10000 0 0", |out| {
            one_boleto(out, 0, |line| INSTRUCTION.put(line, b"99"))
        }),
        case(
            "70 batches, every other one withdrawn",
            "OK 70 282 35 350000 35 350000",
            |out| {
                let mut file = PlainFile::begin(out, Direction::Remittance)?;
                for movement in [Live, Withdrawn].repeat(35) {
                    add_batch_of(&mut file, movement, 1)?;
                }
                file.close()
            },
        ),
        case(
            "10,000 payments, all withdrawn",
            "OK 1 20004 0 0 10000 100000000",
            |out| payments_in_turn(out, 10_000, &[Withdrawn]),
        ),
        case(
            "10,000 payments, every other one withdrawn",
            "OK 1 20004 5000 50000000 5000 50000000",
            |out| payments_in_turn(out, 10_000, &[Live, Withdrawn]),
        ),
        case(
            "Z behind 10,000 payments, all withdrawn",
            "OK 1 20005 0 0 10000 100000000",
            |out| {
                let mut file = PlainFile::begin(out, Direction::Return)?;
                file.open_batch(BatchKind::Credit)?;
                add_payments(&mut file, Withdrawn, 10_000, HUNDRED)?;
                file.z()?;
                file.close_batch()?;
                file.close()
            },
        ),
    ]
}

/// The limits of payments and of cents, which live and withdrawn ones reach
/// together.
pub fn limits_of_both() -> Vec<Case> {
    vec![
        case("10,001 payments, all withdrawn", "NO 20 20003 14", |out| {
            payments_in_turn(out, 10_001, &[Withdrawn])
        }),
        case(
            "10,001 payments, every other one withdrawn",
            "NO 20 20003 14",
            |out| payments_in_turn(out, 10_001, &[Live, Withdrawn]),
        ),
        case(
            "10,001st payment withdrawn, the others live",
            "NO 20 20003 14",
            |out| payments_and_another(out, Live),
        ),
        case(
            "10,001st payment live, the others withdrawn",
            "NO 20 20003 14",
            |out| payments_and_another(out, Withdrawn),
        ),
        case(
            "two batches of 10^18 cents, all withdrawn",
            "NO 23 2007 24",
            |out| two_batches(out, [Withdrawn, Withdrawn], MISSING_CENTS),
        ),
        case(
            "two batches of 10^18 cents, the first withdrawn",
            "NO 23 2007 24",
            |out| two_batches(out, [Withdrawn, Live], MISSING_CENTS),
        ),
        case(
            "two batches of 10^18 cents, the second withdrawn",
            "NO 23 2007 24",
            |out| two_batches(out, [Live, Withdrawn], MISSING_CENTS),
        ),
        case(
            "two batches of one cent less, all withdrawn",
            "OK 2 2008 0 0 1001 999999999999999999",
            |out| two_batches(out, [Withdrawn, Withdrawn], MISSING_CENTS - 1),
        ),
        case(
            "two batches of one cent less, the second withdrawn",
            "OK 2 2008 500 499999999999999500 501 500000000000000499",
            |out| two_batches(out, [Live, Withdrawn], MISSING_CENTS - 1),
        ),
    ]
}

fn boletos_and_dates() -> Vec<Case> {
    vec![
        case("29/02/2100", "NO 15 3 94", |out| {
            one_credit(out, b"29022100")
        }),
        case("29/02/2000", "OK 1 6 1 10000 0 0", |out| {
            one_credit(out, b"29022000")
        }),
        case("discount of all", "OK 1 6 1 0 0 0", |out| {
            one_boleto(out, HUNDRED, |_| {})
        }),
        case("discount of more", "NO 19 3 153", |out| {
            one_boleto(out, HUNDRED + 1, |_| {})
        }),
        case("discount of more, below zero", "NO 19 3 153", |out| {
            one_boleto(out, HUNDRED + 1, |line| {
                AMOUNT_OF_J.put_number(line, u128::from(LARGEST_AMOUNT));
            })
        }),
    ]
}

/// Each with its own factor, or with none.
fn due_dates() -> Vec<Case> {
    vec![
        case(
            "due 01/01/1997 without factor",
            "OK 1 6 1 10000 0 0",
            |out| one_due(out, b"01011997", 0),
        ),
        case(
            "due 07/10/1997 without factor",
            "OK 1 6 1 10000 0 0",
            |out| one_due(out, b"07101997", 0),
        ),
        case(
            "due 08/10/1997 with factor 1",
            "OK 1 6 1 10000 0 0",
            |out| one_due(out, b"08101997", 1),
        ),
        case(
            "due 03/07/2000 with factor 1000",
            "OK 1 6 1 10000 0 0",
            |out| one_due(out, b"03072000", 1_000),
        ),
        case(
            "due 21/02/2025 with factor 9999",
            "OK 1 6 1 10000 0 0",
            |out| one_due(out, b"21022025", 9_999),
        ),
        case(
            "due 22/02/2025 with factor 1000",
            "OK 1 6 1 10000 0 0",
            |out| one_due(out, b"22022025", 1_000),
        ),
        case(
            "due 13/10/2049 with factor 9999",
            "OK 1 6 1 10000 0 0",
            |out| one_due(out, b"13102049", 9_999),
        ),
        case(
            "due 14/10/2049 with factor 1000",
            "OK 1 6 1 10000 0 0",
            |out| one_due(out, b"14102049", 1_000),
        ),
        case(
            "due 31/12/2199 with factor 1864",
            "OK 1 6 1 10000 0 0",
            |out| one_due(out, b"31122199", 1_864),
        ),
    ]
}

/// Around the base and the first turn, with factors of other ways to count.
fn wrong_factors() -> Vec<Case> {
    vec![
        case("due 07/10/1997 with factor 1", "NO 17 3 23", |out| {
            one_due(out, b"07101997", 1)
        }),
        case("due 07/10/1997 with factor 9000", "NO 17 3 23", |out| {
            one_due(out, b"07101997", 9_000)
        }),
        case("due 21/02/2025 with factor 999", "NO 17 3 23", |out| {
            one_due(out, b"21022025", 999)
        }),
        case("due 22/02/2025 with factor 1", "NO 17 3 23", |out| {
            one_due(out, b"22022025", 1)
        }),
        case("due 22/02/2025 with factor 9999", "NO 17 3 23", |out| {
            one_due(out, b"22022025", 9_999)
        }),
    ]
}

/// Around the largest number of whole lines that 64 KiB hold.
fn cut_files() -> Vec<Case> {
    vec![
        case("65,340 bytes", "OK 1 270 133 1330000 0 0", |out| {
            one_batch(out, PAYMENTS_IN_270_LINES)
        }),
        case("65,340 bytes and one", "NO 3 271 0", |out| {
            one_batch(out, PAYMENTS_IN_270_LINES)?;
            out.write_all(b" ")
        }),
        case("cut at 65,339 bytes", "NO 1 270 0", |out| {
            cut(out, BYTES_OF_270_LINES - 1)
        }),
        case("cut at 65,340 bytes", "NO 2 271 0", |out| {
            cut(out, BYTES_OF_270_LINES)
        }),
        case("cut at 65,341 bytes", "NO 1 271 0", |out| {
            cut(out, BYTES_OF_270_LINES + 1)
        }),
    ]
}

/// However a file comes, it is the same file.
fn files_in_bits() -> Vec<Case> {
    let mut cases = vec![
        case(
            "single bytes",
            "OK 1 6 1 10000 0 0",
            plain_files::write_one_payment,
        ),
        case("single bytes, the last one missing", "NO 1 6 0", |out| {
            let bytes = plain_files::one_payment();
            out.write_all(&bytes[..bytes.len() - 1])
        }),
    ];
    for case in &mut cases {
        case.pace = Pace::InBits(1);
    }
    cases.push(case("bits as usual", "OK 1 604 300 3000000 0 0", |out| {
        one_batch(out, MORE_PAYMENTS)
    }));
    for (name, bytes) in [
        ("bits of 7 bytes", 7),
        ("bits of 241 bytes", 241),
        ("bits of 243 bytes", 243),
        ("bits of 1,000 bytes", 1_000),
        ("bits of 65,339 bytes", 65_339),
        ("bits of 65,341 bytes", 65_341),
    ] {
        cases.push(Case {
            name,
            demanded: "OK 1 604 300 3000000 0 0",
            write: |out| one_batch(out, MORE_PAYMENTS),
            pace: Pace::InBits(bytes),
        });
    }
    cases
}
