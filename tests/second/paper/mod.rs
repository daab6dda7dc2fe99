//! The papers read again: document 01, with requests 2, 3, 5, 7 and 13 of document
//! 02 in it, and request 1, which adds calls of its own. To be laid beside document
//! 01, section by section:
//!
//! | section of document 01 | here |
//! |---|---|
//! | Lines | `lines`, `record_kinds` |
//! | The layout table | `layout_table`, `places`, `calendar` |
//! | Boleto digits | `digit_strings`, `due_factors`, `boleto_rules` |
//! | Numbers we act on: the table | `numbers`, `answers` |
//! | .. one record alone | `record_rules`, `records` |
//! | .. the line checker, whole files | `line_order`, `line_rules`, `file_state`, `totals`, `payments`, `line_checker`, `file_reader` |
//! | .. the writer's calls | `writer_calls`, `writer_order`, `writer_rules`, `writer_record_rules`, `writer_fill`, `writer` |
//! | Guarded places | `guarded_places` |
//! | Table of proved examples | `examples` |
//! | (document 02) request 1 | `parts` |
//! | .. request 2 | `layout_table`, `record_rules`, `records`, `answers` |
//! | .. request 5 | `collection_codes`, `collection_rules`, `layout_table`, `file_state`, `writer_rules` |
//! | .. request 7 | `registration`, `record_rules`, `line_order`, `writer_order` |
//!
//! A rule is a method of a trait, and its body is what the paper says. `Paper`
//! takes every rule as it stands. That a rule can be replaced from outside is
//! all that tests of the tests need, and nothing here knows of them.

pub mod answers;
pub mod boleto_rules;
pub mod calendar;
pub mod collection_codes;
pub mod collection_rules;
pub mod digit_strings;
pub mod due_factors;
pub mod examples;
pub mod file_reader;
pub mod file_state;
pub mod guarded_places;
pub mod layout_table;
pub mod line_checker;
pub mod line_order;
pub mod line_rules;
pub mod lines;
pub mod numbers;
pub mod parts;
pub mod payments;
pub mod places;
pub mod record_kinds;
pub mod record_rules;
pub mod records;
pub mod registration;
pub mod totals;
pub mod writer;
pub mod writer_calls;
pub mod writer_fill;
pub mod writer_order;
pub mod writer_record_rules;
pub mod writer_rules;

/// All rules as the papers have them.
#[derive(Clone, Copy)]
pub struct Paper;
