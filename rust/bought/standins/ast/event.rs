//! Stand-in: the events of a machine. No formula reaches them.

#[derive(Debug, Clone, PartialEq, Eq)]
pub struct Event;

#[derive(Debug, Clone, PartialEq, Eq)]
pub struct EventStatus;

#[derive(Debug, Clone, PartialEq, Eq)]
pub struct InitialisationEvent;
