//! The spare reckoned from history (RULES 3.8), kept from the calls and their answers alone, beside the
//! model.

use crate::model::{Call, Outcome, World, GRANTED};
use crate::model::{DEFAULT_CONTAINER_QUOTA, DEFAULT_SEGMENT_QUOTA, ROOT_QUOTA};
use std::collections::BTreeMap;

/// RULES 3.8: "Take the units it was created with .., add those moved into it, and subtract those moved back
/// out of it, .."
#[derive(Clone, Debug, Default)]
struct Account {
    granted: i64,
    moved_in: i64,
    moved_back: i64,
}

/// RULES 3.8: ".. the quota it had when that link was made and the units moved from D into it since, and add
/// the units moved back from it since."
#[derive(Clone, Debug, Default)]
struct Charge {
    when_linked: i64,
    moved_into: i64,
    taken_back: i64,
}

#[derive(Clone, Debug)]
pub struct Ledger {
    accounts: BTreeMap<u64, Account>,
    charges: BTreeMap<(u64, u64), Charge>,
}

impl Ledger {
    /// What a start leaves: the root's 256, and one thread charged to it.
    pub fn start(first: u64) -> Ledger {
        let mut ledger = Ledger { accounts: BTreeMap::new(), charges: BTreeMap::new() };
        ledger.open(first, ROOT_QUOTA as i64);
        ledger.charge(first, first + 1, 1);
        ledger
    }

    /// Notes a call; of the world after it, only which links are left.
    pub fn note(&mut self, call: &Call, outcome: &Outcome, after: &World) {
        if outcome.answer != GRANTED {
            return;
        }
        let new = outcome.value;
        match call {
            Call::CreateContainer { d, quota, .. } => {
                let quota = or_default(*quota, DEFAULT_CONTAINER_QUOTA);
                self.open(new, quota);
                self.charge(*d, new, quota);
            }
            Call::CreateSegment { d, quota, .. } => {
                let quota = or_default(*quota, DEFAULT_SEGMENT_QUOTA);
                self.open(new, quota);
                self.charge(*d, new, quota);
            }
            Call::CreateGate { d, .. } | Call::CreateThread { d, .. } => self.charge(*d, new, 1),
            Call::LinkSegment { o, d, .. } => {
                let quota = self.quota(*o);
                self.charge(*d, *o, quota);
            }
            Call::MoveQuota { d, o, n } => self.move_quota(*d, *o, *n),
            Call::Unreference { .. } => self.charges.retain(|link, _| after.links.contains(link)),
            _ => {}
        }
    }

    fn open(&mut self, id: u64, granted: i64) {
        self.accounts.insert(id, Account { granted, moved_in: 0, moved_back: 0 });
    }

    fn charge(&mut self, d: u64, o: u64, quota: i64) {
        self.charges.insert((d, o), Charge { when_linked: quota, moved_into: 0, taken_back: 0 });
    }

    fn move_quota(&mut self, d: u64, o: u64, n: i64) {
        let account = self.accounts.get_mut(&o).expect("the object has an account");
        let charge = self.charges.get_mut(&(d, o)).expect("the link has a charge");
        if n > 0 {
            account.moved_in += n;
            charge.moved_into += n;
        } else {
            account.moved_back -= n;
            charge.taken_back -= n;
        }
    }

    fn quota(&self, id: u64) -> i64 {
        let account = &self.accounts[&id];
        account.granted + account.moved_in - account.moved_back
    }

    /// A container's spare.
    pub fn spare(&self, container: u64) -> i64 {
        let here = self.charges.iter().filter(|((d, _), _)| *d == container);
        let charged: i64 = here.map(|(_, c)| c.when_linked + c.moved_into - c.taken_back).sum();
        self.quota(container) - 1 - charged
    }
}

fn or_default(quota: u64, default: u64) -> i64 {
    if quota == 0 {
        default as i64
    } else {
        quota as i64
    }
}
