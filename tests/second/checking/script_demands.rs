//! What the scripts of a run have to show, so that a sort of script which no
//! longer comes up is noticed.

use crate::asking::values::NO_NUMBERS;
use crate::asking::writer_script::{NUMBERS_OF_A_RECORD, OTHER_MISFITS};
use crate::cases::script_kind_cases::POSITIONS;
use crate::cases::script_turn_cases::{Standing, STANDINGS};
use crate::checking::movement_tally::{COUNTED, MIXES};
use crate::checking::script_sights::{code, wrong_kind, Class, Distance, Sight, MOST_BESIDE};
use crate::making::good_calls::{given_numbers, given_texts, takes_number};
use crate::paper::file_state::{BatchKind, BATCH_KINDS};
use crate::paper::layout_table::{self as table, Entry};
use crate::paper::numbers::WRONG_REGISTRATION;
use crate::paper::numbers::{WRONG_CODE_CHECK, WRONG_IDENTIFIER, WRONG_PRODUCT};
use crate::paper::places::{AMOUNT_OF_J, BARCODE_CENTS, BARCODE_CHECK, FACTOR};
use crate::paper::places::{CODE_CHECK, CODE_IDENTIFIER, CODE_PRODUCT};
use crate::paper::record_kinds::{Direction, RecordKind, DIRECTIONS, RECORD_KINDS};
use crate::paper::totals::MOVEMENTS;
use crate::paper::writer_calls::{CallKind, CALL_KINDS};

const MOST_LINES: usize = 7;
const NUMBERS_BEFORE_GOING_ON: [u32; 17] = [
    4, 8, 11, 12, 13, 14, 15, 16, 17, 18, 19, 20, 26, 50, 52, 53, 55,
];

/// All that has to be seen in a run.
pub fn demanded() -> Vec<Sight> {
    let mut sights = Vec::new();
    for kind in RECORD_KINDS {
        sights.extend(faults_of(kind));
        sights.extend(ignored_in(kind));
        sights.extend((0..NUMBERS_OF_A_RECORD).map(|index| {
            let kind = code(kind);
            Sight::LargestNumber { kind, index }
        }));
    }
    sights.extend(boleto_faults());
    sights.extend(code_faults());
    sights.extend(wrong_registrations());
    sights.extend(calls_out_of_turn());
    sights.extend(wrong_kinds());
    sights.extend(two_faults());
    sights.extend(rooms());
    sights.extend(closed_files());
    sights.extend(movements());
    let going_on = NUMBERS_BEFORE_GOING_ON.into_iter().chain([51]);
    sights.extend(going_on.map(|number| Sight::AcceptedBehind { number }));
    sights.extend(NO_NUMBERS.map(|reason| Sight::NoNumber { reason }));
    sights.extend(OTHER_MISFITS.map(|misfit| Sight::NoScript { misfit }));
    sights.push(Sight::NoCall);
    sights
}

/// Each field that a caller can fill wrongly.
fn faults_of(kind: RecordKind) -> Vec<Sight> {
    let mut sights = Vec::new();
    for (index, field) in given_numbers(kind) {
        let number = match field.entry {
            Entry::OneOf(_) | Entry::Service => Some(14),
            Entry::Date | Entry::Time => Some(15),
            // A wrong form is named at the service.
            _ => None,
        };
        let (kind, place) = (code(kind), field.first);
        sights.push(Sight::TooWide { kind, index });
        if matches!(field.entry, Entry::Number | Entry::OptionalNumber) {
            sights.push(Sight::AllNines { kind, index });
        }
        sights.extend(number.map(|number| Sight::Fault {
            number,
            kind,
            place,
        }));
    }
    for field in given_texts(kind) {
        let (kind, place) = (code(kind), field.first);
        sights.push(Sight::WrongByte { kind, place });
        let number = match field.entry {
            Entry::Text => Some(13),
            Entry::Identifier | Entry::Barcode | Entry::Code => Some(8),
            Entry::BlankInRemittance => Some(12),
            _ => None,
        };
        sights.extend(number.map(|number| Sight::Fault {
            number,
            kind,
            place,
        }));
    }
    sights
}

/// The barcode's currency, and the rules over several fields.
fn boleto_faults() -> Vec<Sight> {
    let faults = [
        (14, BARCODE_CHECK.first - 1),
        (16, BARCODE_CHECK.first),
        (17, FACTOR.first),
        (18, BARCODE_CENTS.first),
        (19, AMOUNT_OF_J.first),
    ];
    let kind = code(RecordKind::J);
    let sights = faults.map(|(number, place)| Sight::Fault {
        number,
        kind,
        place,
    });
    sights.to_vec()
}

/// The code of an O.
fn code_faults() -> Vec<Sight> {
    let faults = [
        (WRONG_PRODUCT, CODE_PRODUCT),
        (WRONG_IDENTIFIER, CODE_IDENTIFIER),
        (WRONG_CODE_CHECK, CODE_CHECK),
    ];
    let kind = code(RecordKind::O);
    let sights = faults.map(|(number, part)| Sight::Fault {
        number,
        kind,
        place: part.first,
    });
    sights.to_vec()
}

/// Every CPF or CNPJ that a caller can give.
fn wrong_registrations() -> Vec<Sight> {
    let mut sights = Vec::new();
    for kind in RECORD_KINDS {
        let fields = table::registrations(kind).into_iter();
        sights.extend(fields.map(|field| Sight::Fault {
            number: WRONG_REGISTRATION,
            kind: code(kind),
            place: field.first,
        }));
    }
    sights
}

fn ignored_in(kind: RecordKind) -> Vec<Sight> {
    let mut sights = Vec::new();
    for (index, field) in table::fields(kind).into_iter().enumerate() {
        let (number_counts, kind) = (takes_number(kind, field), code(kind));
        let place = field.first;
        if field.is_number() && !number_counts {
            sights.push(Sight::OtherNumberIgnored { kind, index });
            sights.push(Sight::WideNumberIgnored { kind, index });
        }
        if field.is_number() || field.fixed_content().is_some() {
            sights.push(Sight::WrongByteIgnored { kind, place });
        }
    }
    sights
}

fn calls_out_of_turn() -> Vec<Sight> {
    let mut sights = Vec::new();
    for standing in STANDINGS {
        for kind in CALL_KINDS {
            let in_turn = matches!(
                (standing, kind),
                (Standing::NoFile, CallKind::OpenFile)
                    | (Standing::NoBatch, CallKind::OpenBatch)
                    | (Standing::EmptyBatch, CallKind::Payment)
                    | (Standing::Batch, CallKind::Payment | CallKind::CloseBatch)
                    | (
                        Standing::BetweenBatches,
                        CallKind::OpenBatch | CallKind::CloseFile
                    )
            );
            let call = char::from(kind.code());
            if !in_turn {
                sights.push(Sight::OutOfTurn { standing, call });
            }
        }
    }
    sights
}

fn wrong_kinds() -> Vec<Sight> {
    let mut sights = Vec::new();
    for direction in DIRECTIONS {
        for batch in BATCH_KINDS {
            for position in 0..positions(direction, batch) {
                let others = RECORD_KINDS.into_iter();
                let others = others.filter(|kind| !is_right(direction, batch, position, *kind));
                sights.extend(others.map(|kind| wrong_kind(direction, batch, position, kind)));
            }
        }
    }
    sights
}

/// Behind a Z nothing is right, and a remittance has none to stand behind.
fn positions(direction: Direction, batch: BatchKind) -> usize {
    match (direction, batch) {
        (Direction::Remittance, BatchKind::Collection) => POSITIONS - 1,
        _ => POSITIONS,
    }
}

fn is_right(direction: Direction, batch: BatchKind, position: usize, kind: RecordKind) -> bool {
    match batch.payment_kinds().get(position) {
        Some(own) => kind == *own,
        None if position > batch.payment_kinds().len() => false,
        None => kind == RecordKind::Z && direction == Direction::Return,
    }
}

/// Two faults, of which one at least is about the call as a whole.
const OF_A_CALL: [(Class, Class); 15] = [
    (Class::Turn, Class::Limit),
    (Class::Turn, Class::Byte),
    (Class::Turn, Class::Field),
    (Class::Turn, Class::Registration),
    (Class::Turn, Class::Room),
    (Class::Limit, Class::Byte),
    (Class::Limit, Class::Field),
    (Class::Limit, Class::Registration),
    (Class::Limit, Class::Room),
    (Class::Byte, Class::Room),
    (Class::Kind, Class::Room),
    (Class::Field, Class::Room),
    (Class::Registration, Class::Room),
    (Class::Boleto, Class::Room),
    (Class::Code, Class::Room),
];
/// Two faults of one record.
const OF_A_RECORD: [(Class, Class); 15] = [
    (Class::Byte, Class::Kind),
    (Class::Byte, Class::Field),
    (Class::Byte, Class::Registration),
    (Class::Byte, Class::Boleto),
    (Class::Kind, Class::Field),
    (Class::Kind, Class::Registration),
    (Class::Field, Class::Field),
    (Class::Field, Class::Registration),
    (Class::Registration, Class::Registration),
    (Class::Field, Class::Boleto),
    (Class::Boleto, Class::Boleto),
    (Class::Byte, Class::Code),
    (Class::Kind, Class::Code),
    (Class::Field, Class::Code),
    (Class::Code, Class::Code),
];

fn two_faults() -> Vec<Sight> {
    let with = |distance| {
        move |(first, second)| Sight::TwoFaults {
            first,
            second,
            distance,
        }
    };
    let of_a_call = OF_A_CALL.into_iter().map(with(Distance::Call));
    let of_a_record = OF_A_RECORD.into_iter().map(with(Distance::OneRecord));
    let of_two = of_two_records().into_iter().map(with(Distance::TwoRecords));
    of_a_call.chain(of_a_record).chain(of_two).collect()
}

fn of_two_records() -> Vec<(Class, Class)> {
    let firsts = [Class::Byte, Class::Kind, Class::Field, Class::Boleto];
    let seconds = [Class::Byte, Class::Kind, Class::Field, Class::Registration];
    let pairs = firsts.into_iter();
    let pairs = pairs.flat_map(|first| seconds.map(|second| (first, second)));
    // Only a Z may come behind a record with a CPF or a CNPJ.
    let behind_a_number = [Class::Byte, Class::Kind];
    let behind_a_number = behind_a_number.map(|second| (Class::Registration, second));
    // Behind an O too.
    let behind_a_code = [Class::Byte, Class::Kind].map(|second| (Class::Code, second));
    let behind = behind_a_number.into_iter().chain(behind_a_code);
    pairs.chain(behind).collect()
}

/// Calls by their letters, and how many records they may have.
const LENGTHS_OF_CALLS: [(char, usize); 7] = [
    ('O', 1),
    ('L', 1),
    ('P', 1),
    ('P', 2),
    ('P', 3),
    ('C', 1),
    ('E', 1),
];

fn rooms() -> Vec<Sight> {
    let mut sights = vec![Sight::LentMoreThanAll];
    for bytes in -MOST_BESIDE..=MOST_BESIDE {
        for (call, records) in LENGTHS_OF_CALLS {
            sights.push(Sight::LentBeside {
                call,
                records,
                bytes,
            });
        }
        let lines = (0..=MOST_LINES).filter(|lines| *lines > 0 || bytes >= 0);
        sights.extend(lines.map(|lines| Sight::RoomBeside { lines, bytes }));
    }
    for call in ['L', 'P', 'C', 'E'] {
        sights.push(Sight::LentLessThanWritten { call });
        sights.push(Sight::Overwritten { call });
    }
    sights
}

/// Which kinds of batches a file has: all but none of them.
const KINDS_OF_A_FILE: [[bool; 3]; 7] = [
    [true, false, false],
    [false, true, false],
    [false, false, true],
    [true, true, false],
    [true, false, true],
    [false, true, true],
    [true, true, true],
];

fn closed_files() -> Vec<Sight> {
    let mut sights = Vec::new();
    for direction in DIRECTIONS {
        let direction = char::from(direction.code());
        for kinds in KINDS_OF_A_FILE {
            sights.push(Sight::Closed { direction, kinds });
        }
    }
    let firsts = BATCH_KINDS.map(|kind| code(kind.first_kind()));
    sights.extend(firsts.map(|first| Sight::ClosedWithZ { first }));
    sights.extend([1, 2, 3, 70].map(|batches| Sight::ClosedWithBatches { batches }));
    sights
}

/// Live and withdrawn payments of every kind, and what closing says of them.
fn movements() -> Vec<Sight> {
    let mut sights = Vec::new();
    for batch in BATCH_KINDS {
        let first = code(batch.first_kind());
        for direction in DIRECTIONS {
            let with_z = direction == Direction::Return;
            let direction = char::from(direction.code());
            for movement in MOVEMENTS {
                let zs = [false, true].into_iter().take(1 + usize::from(with_z));
                sights.extend(zs.map(|has_z| Sight::Paid {
                    direction,
                    first,
                    movement,
                    has_z,
                }));
            }
            sights.extend(MIXES.map(|mix| Sight::ClosedBatch {
                direction,
                first,
                mix,
            }));
        }
        let instead = MOVEMENTS.map(|movement| Sight::PaidInsteadOfTheOther { first, movement });
        sights.extend(instead);
    }
    sights.extend(COUNTED.map(|counted| Sight::ClosedWithNumbers { counted }));
    sights
}
