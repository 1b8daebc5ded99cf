//! Tables, damaged tables, values for the writer, states and histories, most of them from seeds.

pub mod beats;
pub mod blocking;
pub mod curves;
pub mod damage;
pub mod edges;
pub mod histories;
pub mod normal_edges;
pub mod states;
pub mod tables;
pub mod values;
pub mod worst;
pub mod write_edges;
