//! Mistakes sown in the rules of the papers, one at a time. Each rule of `paper`
//! is a method of a trait; here the same traits are taken with the one method
//! that a fault is about replaced. What a fault does to the state between two
//! calls, or to the memory behind one, is done around the paper's own checkers
//! and writer. No model knows of its faults.

mod absence_faults;
mod absences;
pub mod answers;
mod boletos;
mod calendar;
mod collection_faults;
mod collection_fields;
mod collection_records;
mod collection_rows;
mod collection_turns;
mod collections;
mod digit_strings;
mod due_factors;
pub mod faults;
mod limits;
mod line_checker;
mod line_rules;
mod names;
mod order;
mod part_faults;
mod part_slips;
mod parts;
mod record_rooms;
mod records;
mod registration_characters;
mod registration_faults;
mod registration_order;
mod registrations;
mod totals;
mod writer;
mod writer_faults;
mod writer_fill;
mod writer_order;
mod writer_rules;
mod writer_slips;

pub use due_factors::mistaken_factors;

use absence_faults::AbsenceFault;
use collection_faults::CollectionFault;
use faults::Fault;
use limits::LimitFault;
use part_faults::PartFault;
use record_rooms::RecordRoomFault;
use registration_faults::RegistrationFault;
use totals::TotalsFault;
use writer_faults::WriterFault;

/// The rules of the papers with one fault in them.
#[derive(Clone, Copy)]
pub struct Sown {
    fault: Fault,
}

impl Sown {
    pub fn with(fault: Fault) -> Sown {
        Sown { fault }
    }

    fn has(self, fault: Fault) -> bool {
        self.fault == fault
    }

    /// The fault, if it is one about numbers that are not given.
    fn absence_fault(self) -> Option<AbsenceFault> {
        match self.fault {
            Fault::Absence(fault, _) => Some(fault),
            _ => None,
        }
    }

    /// The fault, if it is one about CPF and CNPJ.
    fn registration_fault(self) -> Option<RegistrationFault> {
        match self.fault {
            Fault::Registration(fault, _) => Some(fault),
            _ => None,
        }
    }

    /// The fault, if it is one about O records and collection codes.
    fn collection_fault(self) -> Option<CollectionFault> {
        match self.fault {
            Fault::Collection(fault, _) => Some(fault),
            _ => None,
        }
    }

    /// The fault, if it is one about the room for a batch.
    fn record_room_fault(self) -> Option<RecordRoomFault> {
        match self.fault {
            Fault::WriterRecordRoom(fault) => Some(fault),
            _ => None,
        }
    }

    /// The fault, if it is one of the checker in parts.
    fn part_fault(self) -> Option<PartFault> {
        match self.fault {
            Fault::Parts(fault) => Some(fault),
            _ => None,
        }
    }

    /// The fault, if it is one of the writer.
    fn writer_fault(self) -> Option<WriterFault> {
        match self.fault {
            Fault::Writer(fault) => Some(fault),
            _ => None,
        }
    }

    /// The fault, if it is one of the reader in the totals.
    fn totals_fault(self) -> Option<TotalsFault> {
        match self.fault {
            Fault::Totals(fault) => Some(fault),
            _ => None,
        }
    }

    fn writer_totals_fault(self) -> Option<TotalsFault> {
        match self.fault {
            Fault::WriterTotals(fault) => Some(fault),
            _ => None,
        }
    }

    fn limit_fault(self) -> Option<LimitFault> {
        match self.fault {
            Fault::Limit(fault) => Some(fault),
            _ => None,
        }
    }

    fn writer_limit_fault(self) -> Option<LimitFault> {
        match self.fault {
            Fault::WriterLimit(fault) => Some(fault),
            _ => None,
        }
    }
}
