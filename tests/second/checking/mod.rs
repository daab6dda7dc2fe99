//! Tests of the tests. Claims of the papers are held against the models of
//! `paper`; what a run has to show is counted, so that a sort of case that no
//! longer comes up is noticed; and every fault of `sown` has to be caught.

pub mod absence_claims;
pub mod absence_demands;
pub mod absence_sights;
pub mod absence_tally;
pub mod call_sights;
pub mod collection_arithmetic;
pub mod collection_claims;
pub mod collection_demands;
pub mod collection_sights;
pub mod collection_tally;
pub mod collection_vectors;
pub mod digit_claims;
pub mod due_claims;
pub mod due_tally;
pub mod fault_hunt;
pub mod file_claims;
pub mod judged_records;
pub mod limit_hunt;
pub mod movement_tally;
pub mod part_claims;
pub mod part_demands;
pub mod part_sights;
pub mod part_tally;
pub mod record_claims;
pub mod record_room_claims;
pub mod registration_arithmetic;
pub mod registration_claims;
pub mod registration_demands;
pub mod registration_sights;
pub mod registration_tally;
pub mod registration_vectors;
pub mod sample_sights;
pub mod script_demands;
pub mod script_sights;
pub mod script_tally;
pub mod sown_mistakes;
pub mod stand_in;
pub mod tally;
pub mod writer_claims;
