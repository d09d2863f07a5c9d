//! Safe calls on libcyrs, the type inference of cyrs-sema ported to Rattle and proved. The library is the archive that `CYRS_LIB`
//! names, by a whole path, when this crate is built.
//!
//! ```
//! let sheet = b"cyrs,1\nb,1,N\nret,0,1\npro,-\nbin,0\nint,1\nbool,1\nend\n";
//! match cyrs::infer_types(sheet) {
//!     Ok(report) => {
//!         for line in report.types() {
//!             println!("type {}", line.escape_ascii());
//!         }
//!         println!("{} faults", report.fault_count());
//!     }
//!     Err(refusal) => println!("{refusal}"),
//! }
//! ```
//!
//! A call ends with an answer or a [`Refusal`], decided by the bytes alone; no call panics. The library has no state, so calls may
//! run in any threads at once; each needs [`limits::STACK`] bytes of stack. Names, sheets and lines are bytes and need not be UTF-8.
//!
//! [`lent`] has the calls on buffers that the caller keeps, [`raw`] the C functions themselves.

pub mod limits;

#[cfg(cyrs_linked)]
mod calls;
#[cfg(cyrs_linked)]
pub mod lent;
#[cfg(cyrs_linked)]
pub mod raw;
#[cfg(cyrs_linked)]
mod refusal;
#[cfg(cyrs_linked)]
mod report;
#[cfg(cyrs_linked)]
mod store;

#[cfg(cyrs_linked)]
pub use calls::{check_sheet, infer_types, regular_line, unify, Unified};
#[cfg(cyrs_linked)]
pub use refusal::{number, Refusal};
#[cfg(cyrs_linked)]
pub use report::Report;
#[cfg(cyrs_linked)]
pub use store::{Entered, Live, Store};
