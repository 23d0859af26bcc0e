//! Fresh random cases, each put to the proved library and to the second program (`oracle`), with every
//! result number and every byte compared; runs of calls are judged by the second program's ledger too.
//!
//! A `case` is drawn whole from its kind and its seed, so one line replays it. `soaking` puts cases in turn on
//! all cores: no call keeps anything between calls, so they can be made on several threads. `sums` counts
//! what was compared, and `proved` binds the library's calls to the second program's answers. Of the calls on an
//! image one in four is made in its lent form too (`lent`).

mod also_lent;
pub mod case;
mod damage;
mod edges;
mod formats;
pub mod lent;
pub mod proved;
pub mod soaking;
pub mod sums;
