//! The settings of the end point, and the lines of "Numbers" that they must keep.

use crate::numbers::{Whole, LARGEST_LEVEL, LARGEST_MEP_ID, PEER_SLOTS};
use crate::octets::{little_endian, Stored};

/// In the order of a kind 1 record's body.
#[derive(Clone, PartialEq, Debug)]
pub struct Settings {
    pub level: Whole,
    pub mep_id: Whole,
    pub own_address: [u8; 6],
    pub period_code: Whole,
    pub meg_id: [u8; 48],
    pub loss_peer: [u8; 6],
    pub peer_count: Whole,
    pub peers: [Whole; 8],
}

impl Settings {
    /// "level 1, MEP ID 2, own address 6, period code 1, MEG ID 48, loss peer 6, peer count 1, eight IDs of 2".
    pub fn from_stored(stored: &mut Stored) -> Settings {
        Settings {
            level: stored.number(1),
            mep_id: stored.number(2),
            own_address: stored.array(),
            period_code: stored.number(1),
            meg_id: stored.array(),
            loss_peer: stored.array(),
            peer_count: stored.number(1),
            peers: std::array::from_fn(|_| stored.number(2)),
        }
    }

    /// The same 81 octets again.
    pub fn to_octets(&self) -> Vec<u8> {
        let mut octets = little_endian(self.level, 1);
        octets.extend(little_endian(self.mep_id, 2));
        octets.extend(self.own_address);
        octets.extend(little_endian(self.period_code, 1));
        octets.extend(self.meg_id);
        octets.extend(self.loss_peer);
        octets.extend(little_endian(self.peer_count, 1));
        octets.extend(self.peers.iter().flat_map(|id| little_endian(*id, 2)));
        octets
    }

    /// "Used peer slots come first".
    pub fn used_peers(&self) -> impl Iterator<Item = (usize, Whole)> + '_ {
        let used = usize::try_from(self.peer_count).unwrap_or(0);
        self.peers.iter().copied().enumerate().take(used)
    }

    /// The slots behind the used ones.
    pub fn unused_peers(&self) -> impl Iterator<Item = (usize, Whole)> + '_ {
        let used = usize::try_from(self.peer_count).unwrap_or(0);
        self.peers.iter().copied().enumerate().skip(used)
    }

    /// The slot of the peer with this MEP ID, if it is one.
    pub fn slot_of_peer(&self, mep_id: Whole) -> Option<usize> {
        self.used_peers().find(|(_, id)| *id == mep_id).map(|(slot, _)| slot)
    }
}

/// Refusal 4 "a setting breaks a line above": all those lines.
pub fn settings_are_valid(settings: &Settings) -> bool {
    period_code_is_valid(settings)
        && level_is_valid(settings)
        && mep_id_is_valid(settings.mep_id)
        && peers_are_valid(settings)
        && addresses_are_valid(settings)
        && unused_slots_are_zero(settings)
}

/// "Period codes 1 to 7; 0 is invalid".
fn period_code_is_valid(settings: &Settings) -> bool {
    1 <= settings.period_code && settings.period_code <= 7
}

/// "Level 0 to 7".
fn level_is_valid(settings: &Settings) -> bool {
    settings.level <= LARGEST_LEVEL
}

/// "MEP ID 1 to 8,191".
fn mep_id_is_valid(id: Whole) -> bool {
    1 <= id && id <= LARGEST_MEP_ID
}

/// "Peers 1 to 8, distinct, none equal to the own ID", each a MEP ID.
fn peers_are_valid(settings: &Settings) -> bool {
    1 <= settings.peer_count
        && settings.peer_count <= PEER_SLOTS
        && settings.used_peers().all(|(_, id)| mep_id_is_valid(id))
        && peers_are_distinct(settings)
        && settings.used_peers().all(|(_, id)| id != settings.mep_id)
}

/// No two used slots hold the same ID: each ID is first found in its own slot.
fn peers_are_distinct(settings: &Settings) -> bool {
    settings.used_peers().all(|(slot, id)| settings.slot_of_peer(id) == Some(slot))
}

/// "The own address and the loss peer's address have no group bit and differ".
fn addresses_are_valid(settings: &Settings) -> bool {
    !has_group_bit(&settings.own_address)
        && !has_group_bit(&settings.loss_peer)
        && settings.own_address != settings.loss_peer
}

/// "group bit (lowest bit of the first octet)".
pub fn has_group_bit(address: &[u8]) -> bool {
    address.first().is_some_and(|octet| octet % 2 == 1)
}

/// "unused ones hold 0".
fn unused_slots_are_zero(settings: &Settings) -> bool {
    settings.unused_peers().all(|(_, id)| id == 0)
}
