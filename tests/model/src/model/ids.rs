//! Where an id stands in its list.

/// A table from ids to positions, with open addressing. `SLOTS` is a power of two, at least twice the list's limit.
pub struct Ids<const SLOTS: usize> {
    /// The id in each slot, 0 for none: no entry of a sound register has the id 0.
    ids: [u16; SLOTS],
    positions: [u8; SLOTS],
}

impl<const SLOTS: usize> Ids<SLOTS> {
    /// The table of a list, or `None` where an id is outside 1 to 65,535 or stands twice.
    pub fn of(list: impl Iterator<Item = u32>) -> Option<Self> {
        let mut table = Ids { ids: [0; SLOTS], positions: [0; SLOTS] };
        for (position, id) in list.enumerate() {
            let id = u16::try_from(id).ok().filter(|&id| id != 0)?;
            let slot = table.slot(id);
            if table.ids[slot] == id {
                return None;
            }
            table.ids[slot] = id;
            table.positions[slot] = position as u8;
        }
        Some(table)
    }

    /// The position of an id. Any number may be asked for; one out of range does not stand.
    pub fn find(&self, id: u32) -> Option<usize> {
        let id = u16::try_from(id).ok().filter(|&id| id != 0)?;
        let slot = self.slot(id);
        (self.ids[slot] == id).then(|| usize::from(self.positions[slot]))
    }

    /// The slot that holds the id, else the free one where it would go.
    fn slot(&self, id: u16) -> usize {
        let mut slot = usize::from(id.wrapping_mul(0x9E37) >> 4) & (SLOTS - 1);
        while self.ids[slot] != 0 && self.ids[slot] != id {
            slot = (slot + 1) & (SLOTS - 1);
        }
        slot
    }
}
