//! Stand-in for v2.rs: the container's second format, of which document 01 says nothing. Only the names that the
//! folder's files import.

#[derive(Debug, Clone, Default)]
pub struct MetadataReport;

#[derive(Debug, Clone)]
pub struct DamagedSlot;

#[derive(Debug, Clone)]
pub struct Healed;

#[derive(Debug, Clone)]
pub struct SlotDamage;

pub(crate) struct Meta2;
