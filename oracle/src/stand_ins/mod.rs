//! What the extract leans on and does not contain, written anew and as small
//! as it can be. Each file says what it stands in for and what it could hide.

pub mod final_data;
pub mod ghost_cell;
pub mod jet;
pub mod node;
pub mod precomputed;
pub mod tmr;
pub mod value;
