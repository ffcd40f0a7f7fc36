//! Compares the library with the second implementation. Both run on the same generated, spoiled and
//! damaged blocks, files and calls of the encoder, through the functions of `include/ora.h`, and
//! everything that they give is compared:
//!
//! - the returned number and all sixteen slots of each answer: number, indices, length or number of
//!   blocks, counts, offset and length of a section, unused slots 0;
//! - letters, ends, names, name ends and bytes written, and that a lent buffer holds what it held
//!   past them, after a refusal all over, and around it in any case;
//! - b_id, and the length of the block;
//! - that a block which was written reads back as the letters, ends, names and name ends that it
//!   was made of.
//!
//! Every refusal of every call that owns it, and every path in `paths`, has to be met often enough,
//! or the run fails. `make compare` runs a million cases; `make compare-valgrind` runs fewer in a
//! memory checker. The same seed gives the same cases on any number of threads.
//!
//! | Module | Carries |
//! |---|---|
//! | `library` | the seven calls, of the library and of the second implementation |
//! | `case`, `lent` | what a case is; lent buffers that tell what was written |
//! | `draw`, `readings`, `writings`, `stock` | the families of cases, and what they draw from |
//! | `check` | one case through both sides |
//! | `tally`, `paths`, `observe` | what was met how often |
//! | `run` | many cases on all cores |
//! | `shrink`, `report` | what is printed where the two differ |
//! | `sample` | the files of `examples/data` |

pub mod case;
pub mod check;
pub mod draw;
pub mod lent;
pub mod library;
pub mod observe;
pub mod paths;
pub mod readings;
pub mod report;
pub mod run;
pub mod sample;
pub mod shrink;
pub mod stock;
pub mod tally;
pub mod writings;
