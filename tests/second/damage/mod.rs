//! What can be wrong: fields, lines, files, calls, scripts and requests spoiled
//! on purpose, and single bytes changed in accepted input.

pub mod absence_flaws;
pub mod absence_requests;
pub mod call_flaws;
pub mod changes;
pub mod code_string_flaws;
pub mod collection_flaws;
pub mod digit_flaws;
pub mod due_flaws;
pub mod file_damage;
pub mod file_trials;
pub mod free_letters;
pub mod guarded_codes;
pub mod guarded_digits;
pub mod harmless_changes;
pub mod line_flaws;
pub mod malformed_parts;
pub mod malformed_requests;
pub mod malformed_scripts;
pub mod other_bytes;
pub mod record_flaws;
pub mod registration_flaws;
pub mod value_flaws;
