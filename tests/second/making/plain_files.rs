//! Files that a person can read, made by name: examples for the desk, and a
//! long one to measure speed with. They are the same in every run.

use std::io::{self, Write};

use crate::making::due_dates::{due_date, DueDate};
use crate::making::good_files::put_factor;
use crate::making::movements::put_movement;
use crate::making::numbering::Numbering;
use crate::making::plain_records::{self, Bill, Payee, BANK, ISSUERS, PAYEES};
use crate::making::plain_records::{LETTERED_PAYEE, MISTYPED_PAYEE};
use crate::paper::calendar::MONTHS;
use crate::paper::due_factors::LARGEST_FACTOR;
use crate::paper::file_state::BatchKind;
use crate::paper::layout_table::COLLECTION_FORM;
use crate::paper::lines::MOST_PAYMENTS;
use crate::paper::places::{CODE, INSTRUCTION, NOT_THERE_YET};
use crate::paper::record_kinds::{Direction, RecordKind};
use crate::paper::totals::Movement;

/// Names of the files, as they are asked for.
pub const NAMES: [&str; 16] = [
    "one-payment",
    "boleto",
    "last-round",
    "return",
    "batches",
    "withdrawn",
    "withdrawn-return",
    "not-paid-yet",
    "half-blank",
    "lettered",
    "wrong-check-digit",
    "collection",
    "collection-return",
    "wrong-code",
    "bench N",
    "bench credit|boleto|collection N",
];
const BENCH: &str = "bench";
/// The kinds of batch of the mixed one, in turns.
const BENCH_MIXED: [BatchKind; 2] = [BatchKind::Credit, BatchKind::Boleto];
/// Two records each, and enough left of 999,999 for the ends of all batches.
const MOST_BENCH_PAYMENTS: u64 = 499_900;

/// The amount of the payment in the paper's own example.
pub const HUNDRED: u64 = 10_000;
pub const CREDIT_FORM: &[u8] = b"41";
pub const BOLETO_FORM: &[u8] = b"31";
/// Instruction codes: included but held back, and excluded.
const HELD: &[u8] = b"09";
const EXCLUDED: &[u8] = b"99";
/// When a payment was made, and that it was not: two numbers are left blank then.
const PAID_ON: &[u8] = b"17112026";
const NO_DAY: &[u8] = b"        ";
const NO_CENTS: &[u8] = b"               ";
/// Due three days before the day these files are made, and later.
const DUE_PAST: DueDate = *b"13112026";
const DUE_SOON: DueDate = *b"19112026";
const DUE_LATER: DueDate = *b"15122026";
/// The due dates of the long file: so many years, and in each month the days
/// that every month has.
const FIRST_BENCH_YEAR: u64 = 2026;
const BENCH_YEARS: u64 = 20;
const BENCH_MONTHS: u64 = MONTHS as u64;
const BENCH_DAYS: u64 = 28;

/// A file that is written line by line and never held as a whole.
pub struct PlainFile<'a> {
    out: &'a mut dyn Write,
    direction: Direction,
    numbering: Numbering,
    documents: u64,
}

impl PlainFile<'_> {
    /// Writes the file header.
    pub fn begin(out: &mut dyn Write, direction: Direction) -> io::Result<PlainFile<'_>> {
        let mut file = PlainFile {
            out,
            direction,
            numbering: Numbering::of_bank(BANK),
            documents: 0,
        };
        file.add(
            RecordKind::FileHeader,
            plain_records::file_header(direction),
        )?;
        Ok(file)
    }

    pub fn add(&mut self, kind: RecordKind, record: Vec<u8>) -> io::Result<()> {
        self.add_changed(kind, record, |_| {})
    }

    /// Adds a line that is changed after its numbers were filled in.
    pub fn add_changed(
        &mut self,
        kind: RecordKind,
        record: Vec<u8>,
        change: impl Fn(&mut [u8]),
    ) -> io::Result<()> {
        let mut line = self.numbering.next_line(kind, record);
        change(&mut line);
        self.out.write_all(&line)
    }

    pub fn open_batch(&mut self, kind: BatchKind) -> io::Result<()> {
        let form = match kind {
            BatchKind::Credit => CREDIT_FORM,
            BatchKind::Boleto => BOLETO_FORM,
            BatchKind::Collection => COLLECTION_FORM,
        };
        let record = plain_records::batch_header(self.direction, kind, form);
        self.add(RecordKind::BatchHeader, record)
    }

    pub fn credit(&mut self, payee: usize, cents: u64) -> io::Result<()> {
        self.changed_credit(payee, cents, |_| {})
    }

    /// Adds a credit whose A is changed.
    fn changed_credit(
        &mut self,
        payee: usize,
        cents: u64,
        change: fn(&mut [u8]),
    ) -> io::Result<()> {
        self.credit_to(&PAYEES[payee], cents, change)
    }

    fn credit_to(&mut self, payee: &Payee, cents: u64, change: fn(&mut [u8])) -> io::Result<()> {
        self.documents += 1;
        let [(kind, mut first), second] =
            plain_records::credit_records(payee, self.documents, cents);
        change(&mut first);
        self.add_payment([(kind, first), second])
    }

    pub fn boleto(&mut self, payee: usize, bill: Bill) -> io::Result<()> {
        self.changed_boleto(payee, bill, |_| {})
    }

    /// Adds a boleto whose J is changed.
    fn changed_boleto(
        &mut self,
        payee: usize,
        bill: Bill,
        change: fn(&mut [u8]),
    ) -> io::Result<()> {
        self.boleto_of(&PAYEES[payee], bill, change)
    }

    fn boleto_of(&mut self, payee: &Payee, bill: Bill, change: fn(&mut [u8])) -> io::Result<()> {
        self.documents += 1;
        let [(kind, mut first), second] =
            plain_records::boleto_records(payee, self.documents, bill);
        change(&mut first);
        self.add_payment([(kind, first), second])
    }

    /// Adds a payment of one record, by a code of one of the issuers.
    pub fn collection(&mut self, issuer: usize, cents: u64) -> io::Result<()> {
        self.changed_collection(issuer, cents, |_| {})
    }

    /// Adds one whose O is changed.
    fn changed_collection(
        &mut self,
        issuer: usize,
        cents: u64,
        change: fn(&mut [u8]),
    ) -> io::Result<()> {
        self.documents += 1;
        let issuer = &ISSUERS[issuer];
        let (kind, mut record) = plain_records::collection_record(issuer, self.documents, cents);
        change(&mut record);
        self.add(kind, record)
    }

    pub fn add_payment(&mut self, records: [(RecordKind, Vec<u8>); 2]) -> io::Result<()> {
        for (kind, record) in records {
            self.add(kind, record)?;
        }
        Ok(())
    }

    /// Only a return has it.
    pub fn z(&mut self) -> io::Result<()> {
        let record = plain_records::z_record(self.documents);
        self.add(RecordKind::Z, record)
    }

    fn z_of_a_withdrawal(&mut self) -> io::Result<()> {
        let record = plain_records::z_record_of_a_withdrawal(self.documents);
        self.add(RecordKind::Z, record)
    }

    pub fn close_batch(&mut self) -> io::Result<()> {
        let kind = RecordKind::BatchTrailer;
        self.add(kind, plain_records::trailer(kind))
    }

    /// As many of the payments left as a batch may have; no batch without one.
    fn bench_batch(&mut self, kind: BatchKind, left: &mut u64) -> io::Result<()> {
        let payments = MOST_PAYMENTS.min(*left);
        *left -= payments;
        if payments == 0 {
            return Ok(());
        }
        self.open_batch(kind)?;
        for _ in 0..payments {
            let number = self.documents;
            let payee = number as usize % PAYEES.len();
            let cents = HUNDRED + number * 37;
            let due = Some(bench_due_date(number));
            match kind {
                BatchKind::Credit => self.credit(payee, cents)?,
                BatchKind::Boleto => self.boleto(payee, bill(cents, number % 100, 0, due))?,
                BatchKind::Collection => self.collection(payee, cents)?,
            }
        }
        self.close_batch()
    }

    pub fn close(&mut self) -> io::Result<()> {
        let kind = RecordKind::FileTrailer;
        self.add(kind, plain_records::trailer(kind))
    }
}

/// The smallest file there is, as document 01 names it.
pub fn one_payment() -> Vec<u8> {
    let mut bytes = Vec::new();
    // Writing into memory does not fail.
    let _ = write_one_payment(&mut bytes);
    bytes
}

pub fn write_one_payment(out: &mut dyn Write) -> io::Result<()> {
    let mut file = PlainFile::begin(out, Direction::Remittance)?;
    file.open_batch(BatchKind::Credit)?;
    file.credit(0, HUNDRED)?;
    file.close_batch()?;
    file.close()
}

/// Writes the file of this name; nothing is written for any other.
pub fn write(out: &mut dyn Write, name: &[String]) -> Result<(), String> {
    let name: Vec<&str> = name.iter().map(String::as_str).collect();
    let written = match name.as_slice() {
        ["one-payment"] => write_one_payment(out),
        ["boleto"] => write_boletos(out, |_| {}),
        // The factor of 21 February 2025, the last day of the round before.
        ["last-round"] => write_boletos(out, |record| put_factor(record, LARGEST_FACTOR)),
        ["return"] => write_return(out),
        ["batches"] => write_batches(out),
        ["withdrawn"] => write_withdrawn(out),
        ["withdrawn-return"] => write_withdrawn_return(out),
        ["not-paid-yet"] => write_unpaid_return(out, |record| put_paid(record, NO_DAY, NO_CENTS)),
        ["half-blank"] => {
            write_unpaid_return(out, |record| put_paid(record, PAID_ON, b"          89990"))
        }
        ["lettered"] => write_lettered(out),
        ["wrong-check-digit"] => write_wrong_check_digit(out),
        ["collection"] => write_collection(out),
        ["collection-return"] => write_collection_return(out),
        ["wrong-code"] => write_wrong_code(out),
        [BENCH, payments] => write_bench(out, &BENCH_MIXED, bench_payments(payments)?),
        [BENCH, kind, payments] => {
            write_bench(out, &[bench_kind(kind)?], bench_payments(payments)?)
        }
        _ => return Err(format!("no file is named {}", name.join(" "))),
    };
    let written = written.and_then(|()| out.flush());
    written.map_err(|error| format!("cannot write the file: {error}"))
}

/// Two boletos, the second of which has no due date in its barcode; its J is
/// changed.
fn write_boletos(out: &mut dyn Write, change: fn(&mut [u8])) -> io::Result<()> {
    let mut file = PlainFile::begin(out, Direction::Remittance)?;
    file.open_batch(BatchKind::Boleto)?;
    file.boleto(0, bill(125_000, 2_500, 0, Some(DUE_LATER)))?;
    file.changed_boleto(1, bill(48_750, 0, 975, None), change)?;
    file.close_batch()?;
    file.close()
}

fn write_return(out: &mut dyn Write) -> io::Result<()> {
    let mut file = PlainFile::begin(out, Direction::Return)?;
    file.open_batch(BatchKind::Credit)?;
    file.credit(0, 315_000)?;
    file.z()?;
    file.credit(2, 89_990)?;
    file.close_batch()?;
    file.open_batch(BatchKind::Boleto)?;
    file.boleto(1, bill(48_750, 0, 975, Some(DUE_PAST)))?;
    file.boleto(3, bill(21_435, 0, 0, Some(DUE_SOON)))?;
    file.z()?;
    file.close_batch()?;
    file.close()
}

fn write_batches(out: &mut dyn Write) -> io::Result<()> {
    let mut file = PlainFile::begin(out, Direction::Remittance)?;
    file.open_batch(BatchKind::Credit)?;
    file.credit(0, 315_000)?;
    file.credit(1, 76_420)?;
    file.credit(2, 89_990)?;
    file.close_batch()?;
    file.open_batch(BatchKind::Boleto)?;
    file.boleto(1, bill(48_750, 0, 975, Some(DUE_PAST)))?;
    file.boleto(3, bill(21_435, 435, 0, None))?;
    file.close_batch()?;
    file.open_batch(BatchKind::Credit)?;
    file.credit(3, 12_500)?;
    file.close_batch()?;
    file.close()
}

/// One of three credits and one of two boletos are withdrawn. The instruction
/// codes are those that banks expect, but for the boleto's: they have no say.
fn write_withdrawn(out: &mut dyn Write) -> io::Result<()> {
    let mut file = PlainFile::begin(out, Direction::Remittance)?;
    file.open_batch(BatchKind::Credit)?;
    file.credit(0, 315_000)?;
    file.changed_credit(1, 76_420, withdraw_and_exclude)?;
    file.changed_credit(2, 89_990, |record| INSTRUCTION.put(record, HELD))?;
    file.close_batch()?;
    file.open_batch(BatchKind::Boleto)?;
    file.boleto(1, bill(48_750, 0, 975, Some(DUE_PAST)))?;
    file.changed_boleto(3, bill(21_435, 435, 0, Some(DUE_SOON)), withdraw)?;
    file.close_batch()?;
    file.close()
}

fn write_withdrawn_return(out: &mut dyn Write) -> io::Result<()> {
    let mut file = PlainFile::begin(out, Direction::Return)?;
    file.open_batch(BatchKind::Credit)?;
    file.credit(0, 315_000)?;
    file.z()?;
    file.changed_credit(1, 76_420, withdraw_and_exclude)?;
    file.z_of_a_withdrawal()?;
    file.close_batch()?;
    file.open_batch(BatchKind::Boleto)?;
    file.changed_boleto(3, bill(21_435, 435, 0, Some(DUE_SOON)), withdraw)?;
    file.close_batch()?;
    file.close()
}

/// Of three credits one is paid, one is not and one says that nothing is paid;
/// the A of the second is changed.
fn write_unpaid_return(out: &mut dyn Write, change: fn(&mut [u8])) -> io::Result<()> {
    let mut file = PlainFile::begin(out, Direction::Return)?;
    file.open_batch(BatchKind::Credit)?;
    file.changed_credit(0, 315_000, |record| {
        put_paid(record, PAID_ON, b"000000000315000")
    })?;
    file.z()?;
    file.changed_credit(2, 89_990, change)?;
    file.credit(1, 76_420)?;
    file.close_batch()?;
    file.close()
}

/// A credit and a boleto of a company whose CNPJ has letters.
pub fn write_lettered(out: &mut dyn Write) -> io::Result<()> {
    let mut file = PlainFile::begin(out, Direction::Remittance)?;
    file.open_batch(BatchKind::Credit)?;
    file.credit_to(&LETTERED_PAYEE, 189_000, |_| {})?;
    file.credit(2, 89_990)?;
    file.close_batch()?;
    file.open_batch(BatchKind::Boleto)?;
    let bill = bill(64_500, 0, 0, Some(DUE_SOON));
    file.boleto_of(&LETTERED_PAYEE, bill, |_| {})?;
    file.close_batch()?;
    file.close()
}

/// Of two credits the second is for a CNPJ that was mistyped.
pub fn write_wrong_check_digit(out: &mut dyn Write) -> io::Result<()> {
    let mut file = PlainFile::begin(out, Direction::Remittance)?;
    file.open_batch(BatchKind::Credit)?;
    file.credit(0, 315_000)?;
    file.credit_to(&MISTYPED_PAYEE, 76_420, |_| {})?;
    file.close_batch()?;
    file.close()
}

/// Water, power and taxes, one of them withdrawn, beside a credit.
pub fn write_collection(out: &mut dyn Write) -> io::Result<()> {
    let mut file = PlainFile::begin(out, Direction::Remittance)?;
    file.open_batch(BatchKind::Collection)?;
    file.collection(0, 18_745)?;
    file.collection(1, 96_030)?;
    file.changed_collection(2, 54_310, withdraw_and_exclude)?;
    file.close_batch()?;
    file.open_batch(BatchKind::Credit)?;
    file.credit(0, 315_000)?;
    file.close_batch()?;
    file.close()
}

/// Of three payments by codes one has a Z behind it.
pub fn write_collection_return(out: &mut dyn Write) -> io::Result<()> {
    let mut file = PlainFile::begin(out, Direction::Return)?;
    file.open_batch(BatchKind::Collection)?;
    file.collection(0, 18_745)?;
    file.z()?;
    file.collection(3, 96_030)?;
    file.collection(2, 54_310)?;
    file.close_batch()?;
    file.close()
}

/// Of two codes the second was mistyped: its last two digits are swapped.
pub fn write_wrong_code(out: &mut dyn Write) -> io::Result<()> {
    let mut file = PlainFile::begin(out, Direction::Remittance)?;
    file.open_batch(BatchKind::Collection)?;
    file.collection(0, 18_745)?;
    file.changed_collection(2, 54_310, |record| {
        record.swap(CODE.last - 2, CODE.last - 1);
    })?;
    file.close_batch()?;
    file.close()
}

/// The two numbers that a bank leaves blank until the payment is made.
fn put_paid(record: &mut [u8], day: &[u8], cents: &[u8]) {
    for (part, content) in NOT_THERE_YET.into_iter().zip([day, cents]) {
        part.put(record, content);
    }
}

fn withdraw(record: &mut [u8]) {
    put_movement(record, Movement::Withdrawn);
}

fn withdraw_and_exclude(record: &mut [u8]) {
    withdraw(record);
    INSTRUCTION.put(record, EXCLUDED);
}

/// So many payments of these kinds, as many of each, in batches as large as
/// they may be.
fn write_bench(out: &mut dyn Write, kinds: &[BatchKind], payments: u64) -> io::Result<()> {
    let mut file = PlainFile::begin(out, Direction::Remittance)?;
    let mut left = shared_out(payments, kinds.len() as u64);
    while left.iter().any(|left| *left > 0) {
        for (kind, left) in kinds.iter().zip(&mut left) {
            file.bench_batch(*kind, left)?;
        }
    }
    file.close()
}

/// As many payments to each of so many kinds, the first having what is left over.
fn shared_out(payments: u64, kinds: u64) -> Vec<u64> {
    let each = payments / kinds;
    let mut shares = vec![each; kinds as usize];
    shares[0] += payments % kinds;
    shares
}

/// The kind of batch that a long file of one kind is asked for by.
fn bench_kind(given: &str) -> Result<BatchKind, String> {
    match given {
        "credit" => Ok(BatchKind::Credit),
        "boleto" => Ok(BatchKind::Boleto),
        "collection" => Ok(BatchKind::Collection),
        _ => Err(format!("no kind of batch is called {given}")),
    }
}

/// Refuses a number of payments that the long file cannot have.
fn bench_payments(given: &str) -> Result<u64, String> {
    let payments = given.parse().ok();
    let possible = payments.filter(|payments| (1..=MOST_BENCH_PAYMENTS).contains(payments));
    possible.ok_or_else(|| format!("the long file has 1 to {MOST_BENCH_PAYMENTS} payments"))
}

/// Every due date before any comes again.
fn bench_due_date(number: u64) -> DueDate {
    let day = 1 + number % BENCH_DAYS;
    let month = 1 + number / BENCH_DAYS % BENCH_MONTHS;
    let year = FIRST_BENCH_YEAR + number / BENCH_DAYS / BENCH_MONTHS % BENCH_YEARS;
    due_date(day as u32, month as u32, year as u32)
}

fn bill(nominal: u64, discount: u64, fine: u64, due: Option<DueDate>) -> Bill {
    Bill {
        nominal,
        discount,
        fine,
        due,
    }
}
