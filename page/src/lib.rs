//! A page for a browser from the text that `explain` writes of a recording: a sequence chart, the account with its balance, the
//! kept requests and the report. It knows no rule of document 01: whatever the page says stands in the text.

pub mod account;
pub mod blocks;
pub mod chart;
pub mod fold;
pub mod kept;
pub mod legend;
pub mod look;
pub mod markup;
pub mod page;
pub mod told;

pub use page::draw;
