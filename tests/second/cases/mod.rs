//! The requests of a run, made of good input and of damage, and the files at the
//! limits of document 01. The rules of the papers alone make them, so that a
//! seeded fault changes what is expected and never what is asked.

pub mod absence_cases;
pub mod absence_file_cases;
pub mod code_cases;
pub mod collection_file_cases;
pub mod collection_record_cases;
pub mod digit_cases;
pub mod due_cases;
pub mod file_cases;
pub mod large_file_cases;
pub mod limit_cases;
pub mod line_call_cases;
pub mod part_cases;
pub mod part_cut_cases;
pub mod part_order_cases;
pub mod record_cases;
pub mod record_write_cases;
pub mod registration_cases;
pub mod registration_file_cases;
pub mod script_absence_cases;
pub mod script_cases;
pub mod script_collection_cases;
pub mod script_field_cases;
pub mod script_kind_cases;
pub mod script_malformed_cases;
pub mod script_mixture_cases;
pub mod script_pair_cases;
pub mod script_registration_cases;
pub mod script_room_cases;
pub mod script_turn_cases;
pub mod script_withdrawn_cases;
pub mod streams;
pub mod withdrawn_cases;
