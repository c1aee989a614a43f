//! Random requests, calls, states and damaged memories for the model and what is compared
//! with it. All is drawn from a seed, so that a failure can be run again.

mod body;
mod broker;
mod call;
mod clients;
mod condition_damages;
mod condition_layout;
mod condition_leaves;
mod condition_meaning;
mod condition_state;
mod condition_wishes;
mod conditions;
mod counts;
mod cuts;
mod damage;
mod damage_list;
mod damaged;
mod fields;
mod groups;
mod link_wishes;
mod links;
mod packed_damages;
mod packed_layout;
mod pair_damages;
mod pairs;
mod partners;
mod put_back;
mod put_back_cases;
mod put_back_lists;
mod put_back_wishes;
mod restrictions;
mod rng;
mod roots;
mod seeds;
mod session;
mod sid_cases;
mod sid_grounds;
mod sid_state;
mod sid_wishes;
mod sids;
mod state;
mod table_damages;
mod vectors;
mod wishes;

pub use body::{body, condition_body, sid_body};
pub use broker::{run, run_with_sids, status, Broker, Calls, Step};
pub use call::{Call, Script};
pub use condition_state::with_conditions;
pub use counts::Counts;
pub use cuts::{check_cuts, record, Event};
pub use damage_list::{Damage, DAMAGES};
pub use damaged::{each_damage, filled, garbage, poke};
pub use fields::{fields, flat, Field};
pub use pairs::with_pairs;
pub use put_back::PutBack;
pub use put_back_cases::PutBackCounts;
pub use put_back_lists::{put_back_list, put_back_state};
pub use rng::Rng;
pub use seeds::{each_seed, one_seed};
pub use session::{session, write_chunk};
pub use sid_state::with_sids;
pub use state::{
    near_the_last_numbers, state, with_clients, with_copies, with_groups, with_restrictions,
};
pub use vectors::{vectors, Answer, Vector};
pub use wishes::NEEDED;
