//! Mistakes in the order in which CPF and CNPJ are tested.

use super::order::move_before;
use super::registration_faults::RegistrationFault;
use crate::paper::line_order::Row as LineRow;
use crate::paper::writer_order::Row as CallRow;

/// The order in which the numbers of a line are tested.
pub fn disturb_line(rows: &mut Vec<LineRow>, fault: RegistrationFault) {
    let is_number = |row: &LineRow| matches!(row, LineRow::Registration(_));
    let mut fields = rows.iter().filter(|row| matches!(row, LineRow::Field(_)));
    let first_field = fields.next().copied();
    match fault {
        RegistrationFault::TestedBeforeAllFields => move_all(rows, is_number, first_field),
        RegistrationFault::RightmostFirst => turn_round(rows, is_number),
        _ => {}
    }
}

/// The same for a call to the writer.
pub fn disturb_call(rows: &mut Vec<CallRow>, fault: RegistrationFault) {
    let is_number = |row: &CallRow| matches!(row, CallRow::Registration(..));
    let boleto = |row: &&CallRow| matches!(row, CallRow::Boleto(..));
    let first_of_boleto = rows.iter().find(boleto).copied();
    match fault {
        RegistrationFault::TestedBeforeAllFields => {
            for number in numbers_in(rows, is_number) {
                let of_record = |row: &&CallRow| {
                    matches!(row, CallRow::Field(..)) && row.record() == number.record()
                };
                let first_field = rows.iter().find(of_record).copied();
                move_all(rows, |row| *row == number, first_field);
            }
        }
        RegistrationFault::RightmostFirst => turn_round(rows, is_number),
        RegistrationFault::NumbersOfAllRecordsFirst => {
            move_all(rows, is_number, Some(CallRow::Bytes(0)));
        }
        RegistrationFault::NumbersBehindAllRecords => {
            move_all(rows, is_number, Some(CallRow::Total));
        }
        RegistrationFault::NumbersBeforeBoletoRules => move_all(rows, is_number, first_of_boleto),
        RegistrationFault::NumbersBehindRoom => {
            let numbers = numbers_in(rows, is_number);
            rows.retain(|row| !is_number(row));
            rows.extend(numbers);
        }
        _ => {}
    }
}

fn numbers_in<Row: Copy>(rows: &[Row], is_number: impl Fn(&Row) -> bool) -> Vec<Row> {
    rows.iter().copied().filter(|row| is_number(row)).collect()
}

/// All of them before another row, if there is one.
fn move_all<Row: Copy + PartialEq>(
    rows: &mut Vec<Row>,
    is_number: impl Fn(&Row) -> bool,
    other: Option<Row>,
) {
    for number in numbers_in(rows, is_number) {
        if let Some(other) = other {
            move_before(rows, number, other);
        }
    }
}

/// The rows stay where they are and change places with each other.
fn turn_round<Row: Copy>(rows: &mut [Row], is_number: impl Fn(&Row) -> bool) {
    let mut turned = numbers_in(rows, &is_number);
    for row in rows.iter_mut().filter(|row| is_number(row)) {
        *row = turned.pop().unwrap_or(*row);
    }
}
