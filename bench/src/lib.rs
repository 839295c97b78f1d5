//! The proved library beside two others that answer the same questions, and tables to ask them about.

pub mod double_loop;
pub mod fms;
pub mod made;
pub mod naive;
pub mod question;
pub mod tuned;
