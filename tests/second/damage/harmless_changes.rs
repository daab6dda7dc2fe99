//! Changes of one byte at places that carry no claim, and that break no rule:
//! they must be accepted. A program that refuses every changed file fails here,
//! and so does a list of guarded places that lacks an amount or a count.

use crate::damage::changes::{Change, Demand};
use crate::making::good_files::{MadeFile, MadeLine};
use crate::making::random::Random;
use crate::paper::boleto_rules::{BoletoRules, BOLETO_RULES};
use crate::paper::collection_rules::{CollectionRules, COLLECTION_RULES};
use crate::paper::guarded_places::guarded_places;
use crate::paper::layout_table as table;
use crate::paper::lines::RECORD_BYTES;
use crate::paper::places::{self, DIRECTION, MOVEMENT};
use crate::paper::record_kinds::{Direction, RecordKind, Subject};
use crate::paper::records::Records;
use crate::paper::registration::RegistrationRules;
use crate::paper::Paper;

/// One change at each unguarded place at which one is known.
pub fn harmless_changes(random: &mut Random, file: &MadeFile) -> Vec<Change> {
    let harmless = HarmlessBytes { file };
    let mut changes = Vec::new();
    for (before, line) in file.lines.iter().enumerate() {
        let guarded = guarded_places(file.line_at(before));
        let unguarded = (1..=RECORD_BYTES).filter(|place| !guarded.contains(place));
        for place in unguarded {
            let byte = harmless.byte_for(random, line, place);
            changes.extend(byte.map(|byte| Change {
                line: before + 1,
                place,
                byte,
                demand: demand_at(line.kind, place),
            }));
        }
    }
    changes
}

/// A movement that breaks no rule withdraws a payment, or makes it live.
fn demand_at(kind: RecordKind, place: usize) -> Demand {
    let begins_payment = places::amount(kind).is_some();
    if begins_payment && place == MOVEMENT.first {
        Demand::OtherTotals
    } else {
        Demand::Acceptance
    }
}

/// Bytes that break no rule of the file's lines.
struct HarmlessBytes<'a> {
    file: &'a MadeFile,
}

impl HarmlessBytes<'_> {
    fn byte_for(&self, random: &mut Random, line: &MadeLine, place: usize) -> Option<u8> {
        let is_direction = line.kind == RecordKind::FileHeader && place == DIRECTION.first;
        if is_direction && !self.may_turn() {
            return None;
        }
        let mut changed = line.clone();
        let mut others: Vec<u8> = (b' '..=b'~').collect();
        others.retain(|other| *other != line.bytes[place - 1]);
        random.shuffle(&mut others);
        others.into_iter().find(|other| {
            changed.bytes[place - 1] = *other;
            self.allow(&changed)
        })
    }

    /// A remittance of credits alone is a good return as well: O may be blank
    /// there, and the service of a credit is the same.
    fn may_turn(&self) -> bool {
        let has_boletos = !self.file.positions(RecordKind::J).is_empty();
        self.file.direction == Direction::Remittance && !has_boletos
    }

    /// Of unguarded places other lines look at the direction alone. So a line
    /// stays good where its record does, its CPF and CNPJ numbers stay right, a J
    /// keeps the rules over its fields, and an O those for its code.
    fn allow(&self, line: &MadeLine) -> bool {
        let (kind, direction) = (line.kind, self.file.direction);
        let record = &line.bytes[..RECORD_BYTES];
        let subject = Subject { kind, direction };
        let alone = Paper.read_record(subject, record);
        let mut numbers = table::registrations(kind).into_iter();
        let is_right = |field| Paper.registration_refusal(field, subject, record).is_none();
        let mut rules = BOLETO_RULES.into_iter();
        let keeps_rules = |rule| Paper.boleto_refusal(rule, record).is_none();
        let mut code_rules = COLLECTION_RULES.into_iter();
        let keeps_code_rules = |rule| {
            let refusal = Paper.collection_refusal(rule, subject, record);
            refusal.is_none()
        };
        alone.accepts()
            && numbers.all(is_right)
            && (kind != RecordKind::J || rules.all(keeps_rules))
            && (kind != RecordKind::O || code_rules.all(keeps_code_rules))
    }
}
