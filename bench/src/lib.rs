//! What the timing programs share: their floors, the linear systems on both sides, the words of a command, and tables of times.

pub mod floors;
pub mod systems;
pub mod time;
pub mod triangulation;
pub mod words;
