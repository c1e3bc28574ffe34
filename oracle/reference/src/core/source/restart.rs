//! The source ended and started again.

use super::Source;
use crate::state::{Contact, ContactRow, CourierRow, Device, QueuedRow};

impl Source {
    /// A new core, and in it the device that `Device::restore` makes of the rows that the old one writes. The caller counts contacts and
    /// message numbers; its counts are set above those that are there.
    pub fn restarted(mut self) -> Option<Self> {
        let device = self.device_mut();
        let highest = device.contacts.iter().map(|contact| contact.id.0).max();
        device.next_contact = highest.map_or(0, |id| id.saturating_add(1));
        for contact in &mut device.contacts {
            contact.sent_msgno = contact.queued.keys().last().copied().unwrap_or(0);
        }
        let contacts: Vec<ContactRow> = device.contacts.iter().map(Contact::row).collect();
        let queued = device.contacts.iter().flat_map(|contact| {
            let rows = contact.queued.iter();
            rows.map(|(&message, outgoing)| outgoing.row(contact.id, message))
        });
        let queued: Vec<QueuedRow> = queued.collect();
        let held: Vec<CourierRow> = device.held.iter().map(|(&slot, held)| held.row(slot)).collect();
        let restored = Device::restore(&device.row(), &contacts, &queued, &held).ok()?;
        let mut source = Self::new(self.core.sessions.len());
        source.core.device = Some(restored);
        Some(source)
    }
}
