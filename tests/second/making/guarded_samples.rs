//! The files whose bytes are changed one at a time: small, and together of
//! every shape that document 01 allows. Fields are filled at random, from a
//! seed that stays the same.

use crate::making::good_codes::code_that;
use crate::making::good_files::{put_amount, record_for_a_file, MadeFile, MadeLine};
use crate::making::random::Random;
use crate::paper::collection_codes::CODE_CHECK_PLACE;
use crate::paper::file_state::BatchKind;
use crate::paper::guarded_places::{WEAK_CHECK, WEAK_CODE_CHECK};
use crate::paper::layout_table::CREDIT_SERVICE;
use crate::paper::layout_table::{BOLETO_FORMS, COLLECTION_FORM, COLLECTION_SERVICE};
use crate::paper::places::SERVICE_AND_FORM;
use crate::paper::places::{BARCODE_CENTS, BARCODE_CHECK, CODE, FACTOR, SEGMENT};
use crate::paper::record_kinds::{Direction, RecordKind};

/// Not every seed shows all that is demanded of the samples; with this one a live
/// boleto in a return is among them.
const SEED: u64 = 20;

pub struct Sample {
    pub name: &'static str,
    pub file: MadeFile,
}

struct Shape {
    name: &'static str,
    direction: Direction,
    batches: &'static [BatchPlan],
}

/// The form says whether payments are credits, boletos or O records.
struct BatchPlan {
    form: &'static [u8],
    payments: &'static [Tail],
}

/// What stands behind the records of a payment.
#[derive(Clone, Copy, PartialEq, Eq)]
enum Tail {
    Bare,
    Z,
}

use Tail::{Bare, Z};

const SHAPES: [Shape; 14] = [
    Shape {
        name: "credit remittance",
        direction: Direction::Remittance,
        batches: &[batch(b"01", &[Bare])],
    },
    Shape {
        name: "boleto remittance",
        direction: Direction::Remittance,
        batches: &[batch(b"30", &[Bare])],
    },
    Shape {
        name: "remittance of two boletos",
        direction: Direction::Remittance,
        batches: &[batch(b"31", &[Bare, Bare])],
    },
    Shape {
        name: "remittance of both",
        direction: Direction::Remittance,
        batches: &[batch(b"41", &[Bare, Bare]), batch(b"30", &[Bare])],
    },
    Shape {
        name: "remittance of three batches",
        direction: Direction::Remittance,
        batches: &[
            batch(b"31", &[Bare]),
            batch(b"45", &[Bare]),
            batch(b"10", &[Bare]),
        ],
    },
    Shape {
        name: "credit return",
        direction: Direction::Return,
        batches: &[batch(b"10", &[Z, Bare, Z])],
    },
    Shape {
        name: "boleto return without Z",
        direction: Direction::Return,
        batches: &[batch(b"30", &[Bare])],
    },
    Shape {
        name: "boleto return",
        direction: Direction::Return,
        batches: &[batch(b"31", &[Bare, Z])],
    },
    Shape {
        name: "return of both",
        direction: Direction::Return,
        batches: &[batch(b"45", &[Bare, Z]), batch(b"30", &[Z])],
    },
    Shape {
        name: "collection remittance",
        direction: Direction::Remittance,
        batches: &[batch(b"11", &[Bare, Bare, Bare, Bare])],
    },
    Shape {
        name: "remittance of credits and collections",
        direction: Direction::Remittance,
        batches: &[batch(b"11", &[Bare]), batch(b"01", &[Bare])],
    },
    Shape {
        name: "collection return",
        direction: Direction::Return,
        batches: &[batch(b"11", &[Z, Bare, Z, Bare])],
    },
    Shape {
        name: "return of all three",
        direction: Direction::Return,
        batches: &[
            batch(b"11", &[Bare, Z]),
            batch(b"31", &[Z]),
            batch(b"41", &[Z, Bare]),
        ],
    },
    WITHOUT_CENTS,
];

/// Its second O has no cents, so that its letter costs nothing.
const WITHOUT_CENTS: Shape = Shape {
    name: "return of two collections, the second without cents",
    direction: Direction::Return,
    batches: &[batch(b"11", &[Bare, Bare])],
};

const fn batch(form: &'static [u8], payments: &'static [Tail]) -> BatchPlan {
    BatchPlan { form, payments }
}

pub fn samples() -> Vec<Sample> {
    let mut maker = SampleMaker {
        random: Random::with_seed(SEED),
        boletos: 0,
        collections: 0,
    };
    let shapes = SHAPES.iter();
    let samples = shapes.map(|shape| Sample {
        name: shape.name,
        file: maker.file(shape),
    });
    let mut samples: Vec<Sample> = samples.collect();
    samples.extend(with_a_z_for_an_o(&samples));
    samples
}

/// The sample without cents with a Z in the place of its second O, which says all
/// that an O says but its letter.
fn with_a_z_for_an_o(samples: &[Sample]) -> Option<Sample> {
    let mut named = samples.iter();
    let sample = named.find(|sample| sample.name == WITHOUT_CENTS.name)?;
    let mut file = sample.file.clone();
    let second = file.positions(RecordKind::O)[1];
    let line = &mut file.lines[second];
    line.kind = RecordKind::Z;
    SEGMENT.put(&mut line.bytes, b"Z");
    Some(Sample {
        name: "return of a collection and a Z that might be one",
        file,
    })
}

struct SampleMaker {
    random: Random,
    /// So many boletos have been made, and so many O records.
    boletos: usize,
    collections: usize,
}

impl SampleMaker {
    fn file(&mut self, shape: &Shape) -> MadeFile {
        let mut file = MadeFile {
            direction: shape.direction,
            lines: Vec::new(),
        };
        self.add(&mut file, RecordKind::FileHeader);
        for plan in shape.batches {
            self.add_batch(&mut file, plan);
        }
        self.add(&mut file, RecordKind::FileTrailer);
        if shape.name == WITHOUT_CENTS.name {
            let second = file.positions(RecordKind::O)[1];
            put_amount(&mut file.lines[second], 0);
        }
        file.renumber();
        file
    }

    fn add_batch(&mut self, file: &mut MadeFile, plan: &BatchPlan) {
        let (service, kind) = if BOLETO_FORMS.contains(&plan.form) {
            (file.direction.boleto_service(), BatchKind::Boleto)
        } else if plan.form == COLLECTION_FORM {
            (COLLECTION_SERVICE, BatchKind::Collection)
        } else {
            (CREDIT_SERVICE, BatchKind::Credit)
        };
        self.add(file, RecordKind::BatchHeader);
        if let Some(header) = file.lines.last_mut() {
            SERVICE_AND_FORM.put(&mut header.bytes, &[service, plan.form].concat());
        }
        for tail in plan.payments {
            for record in kind.payment_kinds() {
                self.add(file, *record);
            }
            if *tail == Z {
                self.add(file, RecordKind::Z);
            }
        }
        self.add(file, RecordKind::BatchTrailer);
    }

    fn add(&mut self, file: &mut MadeFile, kind: RecordKind) {
        let bytes = match kind {
            RecordKind::J => self.boleto(file.direction),
            RecordKind::O => self.collection(file.direction),
            _ => record_for_a_file(&mut self.random, kind, file.direction),
        };
        file.lines.push(MadeLine { kind, bytes });
    }

    fn boleto(&mut self, direction: Direction) -> Vec<u8> {
        let wanted = Traits::of_boleto_number(self.boletos);
        self.boletos += 1;
        loop {
            let record = record_for_a_file(&mut self.random, RecordKind::J, direction);
            if Traits::of_record(&record) == wanted {
                return record;
            }
        }
    }
}

/// What decides which digits of a code are seen, one behind the other: those of
/// modulus 11 with check 0 are not.
const CODES: [(u8, bool); 4] = [(b'8', true), (b'6', false), (b'9', false), (b'7', true)];

impl SampleMaker {
    fn collection(&mut self, direction: Direction) -> Vec<u8> {
        let (identifier, weak) = CODES[self.collections % CODES.len()];
        self.collections += 1;
        let mut record = record_for_a_file(&mut self.random, RecordKind::O, direction);
        let code = code_that(&mut self.random, identifier, |code| {
            (code[CODE_CHECK_PLACE - 1] == WEAK_CODE_CHECK) == weak
        });
        CODE.put(&mut record, &code);
        record
    }
}

/// What decides which rules look at a barcode.
#[derive(PartialEq, Eq)]
struct Traits {
    weak_check: bool,
    due_date: bool,
    cents: bool,
}

impl Traits {
    /// Eight boletos in a row have every combination.
    fn of_boleto_number(number: usize) -> Traits {
        Traits {
            weak_check: number & 1 != 0,
            due_date: number & 2 != 0,
            cents: number & 4 != 0,
        }
    }

    fn of_record(record: &[u8]) -> Traits {
        Traits {
            weak_check: BARCODE_CHECK.of(record) == [WEAK_CHECK],
            due_date: FACTOR.number(record) != 0,
            cents: BARCODE_CENTS.number(record) != 0,
        }
    }
}
