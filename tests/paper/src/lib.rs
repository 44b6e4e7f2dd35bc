//! What the papers say, in plain Rust and for reading rather than for proving. Nothing here is taken from the proved
//! sources, and nothing here knows of the archive.
//!
//! From below: `refusal` and `answer`; `form`, `field`, `data`, `record`, `personal` and `text`; `entry`, `opened` and `list`;
//! `sha256`; `tlv`, `group`, `inside`, `details`, `lds`, `com`, `object` and `presentation`; `c40`, `day` and `seal`; `calls` on
//! top. `specimens` and `published` are what the papers print.

pub mod answer;
pub mod c40;
pub mod calls;
pub mod com;
pub mod data;
pub mod day;
pub mod details;
pub mod entry;
pub mod field;
pub mod form;
pub mod group;
pub mod inside;
pub mod lds;
pub mod list;
pub mod object;
pub mod opened;
pub mod personal;
pub mod presentation;
pub mod published;
pub mod record;
pub mod refusal;
pub mod seal;
pub mod sha256;
pub mod specimens;
pub mod text;
pub mod tlv;
