//! What comparison and bench share: the C calls of the archives (`header`), sound records, files of groups and seals
//! that are made from a seed (`seeds`, `records`, `files`, `seals`), a night's list (`night`), the presentations and the files
//! of groups that give the most to do (`worst`, `insides`, `details`), and how a number is printed (`grouped`).

pub mod details;
pub mod files;
pub mod grouped;
pub mod header;
pub mod insides;
pub mod night;
pub mod records;
pub mod seals;
pub mod seeds;
pub mod worst;
