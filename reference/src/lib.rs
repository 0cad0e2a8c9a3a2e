//! An executable reading of document 01, "The drive log on one module", and of the change requests of document 02 that landed.
//!
//! It is written from the documents alone and shares nothing with the proved implementation, so that
//! each can be measured against the other. Plain Rust, standard library only.
//!
//! | document     | here          | document | here         |
//! |--------------|---------------|----------|--------------|
//! | tape         | op buffer     | order    | op           |
//! | place        | ring position | stop     | terminator   |
//! | take up      | recover       | cut      | crash        |
//! | book         | abstract log  | kept     | durable      |
//! | put off      | deferred      | module   | device       |

#![forbid(unsafe_code)]

// The log of document 01, and the calls that document 02 adds.
pub mod calls;
pub mod layout;
pub mod numbered_crashes;
pub mod ops;
pub mod query;
pub mod refusal;
pub mod state;
pub mod three;
pub mod vet;

// The same written for speed, to measure against.
pub mod plain;

// What a power failure does, and what must survive it.
pub mod abstract_log;
pub mod device;
pub mod planned;
pub mod three_system;

// Programs.
pub mod bench;
pub mod c_calls;
pub mod cells;
pub mod compare;
pub mod cover;
pub mod crash;
pub mod crash_three;
pub mod example;
pub mod gen;
pub mod images;
pub mod load;
pub mod loglist;
pub mod logload;
pub mod logorphans;
pub mod logwhy;
pub mod loss;
pub mod numbered_calls;
pub mod replay;
pub mod rng;
pub mod samples;
pub mod script;
pub mod shortcut;
pub mod stored_script;
pub mod three_calls;
pub mod time;
pub mod triples;
pub mod vet_calls;
pub mod vet_cases;
