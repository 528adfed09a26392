//! What the programs `explore` and `possible` share: the machine, the words of a text, and manners. The machine is the proved library's (hosts/rust); there is no second one.

pub mod interrupts;
pub mod json;
pub mod machine;
pub mod manners;
pub mod possible;
pub mod scenario;
pub mod search;
pub mod table;
pub mod words;
pub mod world;
