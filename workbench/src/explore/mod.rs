//! Every way a hall can go.
//!
//! A situation is what stands in the trays and which stations there are, open
//! attempts read as blocks not begun. It is proved of the engine that a block
//! takes effect whole, at the moment of its commit; so the situations that its
//! runs come to are those of runs in which a block acts in one go.
//!
//! | Module | What it holds |
//! |---|---|
//! | [`model`] | stations as codes, situations as bytes |
//! | [`steps`] | what can happen next |
//! | [`store`], [`situations`] | records, each kept once; situations in few bytes |
//! | [`question`], [`events`] | what is asked of them; what can happen to a block |
//! | [`search`] | all of them, breadth first |
//! | [`investigate`] | whether that was exact; once more with notes where not |
//! | [`endless`] | runs that never end |
//! | `possible` | the nearest situation from which something is not possible any more |
//! | [`leads_to`], `fair` | runs that never come to what they should lead to |
//! | `never_left`, [`rounds`], [`round_sorts`] | rounds that are never left; what is kept of them |
//! | [`replay`] | a way to a situation, made on the library |
//! | [`broken`] | broken questions with their ways |
//! | [`ways_told`] | a way in lines, by steps or as choices |
//! | [`labels`] | what the stations of a code are called |
//! | [`waiting`] | who is left at an end, and why |
//! | [`groups`], [`start_line`] | every group of stations, and the line that opens it |
//! | [`facts`] | what there is to say of it all |
//! | [`report`], [`objects`] | how that is said, to people and to programs |
//! | [`dot`], [`graph`] | situations and the steps between them, drawn and for programs |
//! | [`engine`], [`components`] | all halls by the library's own steps, and the sets never left |

pub mod broken;
pub mod components;
pub mod dot;
pub mod endless;
pub mod engine;
pub mod events;
pub mod facts;
mod fair;
pub mod graph;
pub mod groups;
pub mod investigate;
pub mod labels;
pub mod leads_to;
pub mod model;
mod never_left;
pub mod objects;
mod possible;
pub mod question;
pub mod replay;
pub mod report;
pub mod round_sorts;
pub mod rounds;
pub mod search;
pub mod situations;
pub mod start_line;
pub mod steps;
pub mod store;
pub mod waiting;
pub mod ways_told;
