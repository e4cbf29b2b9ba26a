use super::Fault;

/// Names a region: its domain, its slot there, and the key of the slot's use.
#[derive(Clone, Copy, Debug, PartialEq, Eq)]
pub struct Stag(pub u32);

impl Stag {
    fn new(domain: u8, slot: usize, key: u8) -> Stag {
        Stag(u32::from(domain) << 24 | (slot as u32) << 8 | u32::from(key))
    }

    fn domain(self) -> u8 {
        (self.0 >> 24) as u8
    }

    fn slot(self) -> usize {
        (self.0 >> 8 & 0xffff) as usize
    }

    fn key(self) -> u8 {
        self.0 as u8
    }
}

/// Octets that peers may write to, their tagged offsets from `base` on.
struct Region {
    base: u64,
    octets: Vec<u8>,
    write: bool,
    valid: bool,
}

struct Slot {
    key: u8,
    region: Option<usize>,
}

/// The registered regions, by domain.
pub struct Memory {
    domains: Vec<Vec<Slot>>,
    regions: Vec<Region>,
}

impl Memory {
    pub fn new() -> Memory {
        let mut domains = Vec::new();
        domains.resize_with(256, Vec::new);
        Memory { domains, regions: Vec::new() }
    }

    /// Registers octets that a peer may write to, from tagged offset `base` on.
    pub fn register(&mut self, domain: u8, base: u64, octets: Vec<u8>) -> Stag {
        let slots = &mut self.domains[usize::from(domain)];
        slots.push(Slot { key: 0, region: Some(self.regions.len()) });
        self.regions.push(Region { base, octets, write: true, valid: true });
        Stag::new(domain, slots.len() - 1, 0)
    }

    fn place_of(&self, stag: Stag) -> Option<usize> {
        let slot = self.domains[usize::from(stag.domain())].get(stag.slot())?;
        if slot.key == stag.key() { slot.region } else { None }
    }

    /// The octets of a region, for its owner.
    pub fn local(&self, stag: Stag) -> Option<&[u8]> {
        let region = self.regions.get(self.place_of(stag)?)?;
        Some(&region.octets)
    }

    /// The `n` octets from tagged offset `to` on, where a peer in this domain may write to them (RFC 5041 7.1).
    pub fn part_mut(&mut self, domain: u8, stag: Stag, to: u64, n: usize) -> Result<&mut [u8], Fault> {
        if n == 0 {
            return Ok(&mut []);
        }
        if stag.domain() != domain {
            return Err(Fault::NotAssociated);
        }
        let region = match self.place_of(stag) {
            Some(place) => &mut self.regions[place],
            None => return Err(Fault::InvalidStag),
        };
        if !region.valid {
            return Err(Fault::InvalidStag);
        }
        let Some(end) = to.checked_add(n as u64 - 1) else {
            return Err(Fault::OffsetWrap);
        };
        if to < region.base || end - region.base >= region.octets.len() as u64 {
            return Err(Fault::Bounds);
        }
        if !region.write {
            return Err(Fault::Rights);
        }
        let at = (to - region.base) as usize;
        Ok(&mut region.octets[at..at + n])
    }
}
