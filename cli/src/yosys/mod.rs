//! yosys: a stand-in for ABC in its flow, and the way from Verilog in one command. yosys keeps ports, buses, registers and tri-state drivers; what is
//! mapped is the logic between them.

pub mod blif;
pub mod compare;
pub mod design;
pub mod figures;
pub mod forms;
pub mod names;
pub mod script;
pub mod standin;
pub mod verilog;
