//! Good input: barcodes, records, files and writer calls made at random from a
//! fixed seed, and files that a person can read. Every one of them keeps the
//! rules of the papers.

pub mod absences;
pub mod cuttings;
pub mod due_dates;
pub mod good_barcodes;
pub mod good_calls;
pub mod good_codes;
pub mod good_files;
pub mod good_records;
pub mod good_requests;
pub mod guarded_samples;
pub mod limit_files;
pub mod movements;
pub mod numbering;
pub mod plain_files;
pub mod plain_records;
pub mod random;
pub mod registrations;
