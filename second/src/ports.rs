//! Ports.

use crate::tables::{PhyRecord, Record};

/// Whether two phys are in one port, by the phy table as it is now. A port is all ready phys with the same attached
/// address; a phy with address zero is a port by itself, and one that is not ready is in no port with others.
pub fn same_port(phys: &[Record], a: usize, b: usize) -> bool {
    a == b || are_sisters(&PhyRecord::from(&phys[a]), &PhyRecord::from(&phys[b]))
}

/// Whether two phys' records, which are not one phy's, make them sisters in one port.
fn are_sisters(a: &PhyRecord, b: &PhyRecord) -> bool {
    a.ready && b.ready && a.address == b.address && a.address != 0
}

#[cfg(test)]
mod tests {
    use super::*;

    const READY: u8 = 1;
    const DOWN: u8 = 2;
    const HOST: u64 = 0x5000_0000_0000_0010;

    /// A phy in this state with this address; all else is zero.
    fn phy(state: u8, address: u64) -> Record {
        let mut record = [0; 16];
        record[2] = state;
        record[4..12].copy_from_slice(&address.to_be_bytes());
        record
    }

    fn pairs(phys: &[Record]) -> Vec<(usize, usize)> {
        let all = (0..phys.len()).flat_map(|a| (0..phys.len()).map(move |b| (a, b)));
        all.filter(|&(a, b)| a < b && same_port(phys, a, b)).collect()
    }

    #[test]
    fn ready_phys_with_one_address() {
        let other = HOST + 1;
        let phys = [HOST, other, HOST, HOST, other].map(|address| phy(READY, address));
        assert_eq!(pairs(&phys), [(0, 2), (0, 3), (1, 4), (2, 3)]);
        assert!((0..5).all(|i| same_port(&phys, i, i)));
        assert!(same_port(&phys, 3, 0) && same_port(&phys, 4, 1), "whichever is named first");
    }

    #[test]
    fn address_zero_is_a_port_by_itself() {
        let phys = [0, 0, HOST, 0].map(|address| phy(READY, address));
        assert_eq!(pairs(&phys), []);
        assert!(same_port(&phys, 1, 1));
    }

    #[test]
    fn one_that_is_not_ready_is_no_sister() {
        let phys = [phy(DOWN, HOST), phy(READY, HOST), phy(DOWN, HOST), phy(READY, HOST)];
        assert_eq!(pairs(&phys), [(1, 3)]);
    }

    #[test]
    fn only_readiness_and_address_count() {
        let mut phys = [phy(READY, HOST); 2];
        phys[1][..4].copy_from_slice(&[0xff, 0x88, 0xff, 0xff]);
        phys[1][12..].copy_from_slice(&[0x02, 0x05, 0xff, 0xff]);
        assert_eq!(
            pairs(&phys),
            [(0, 1)],
            "another group, participating, with a priority, another type and phy attached"
        );
        for place in 0..64 {
            let phys = [HOST, HOST ^ 1 << place].map(|address| phy(READY, address));
            assert_eq!(pairs(&phys), [], "bit {place} differs");
        }
    }
}
