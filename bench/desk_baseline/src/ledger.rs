// Time accounts: their balances, and what is held of them.

use crate::network::full;
use crate::read::{refuse, Read};
use serde_json::{json, Value};
use std::collections::BTreeMap;

#[derive(Clone, Copy, PartialEq, Eq, PartialOrd, Ord, Debug)]
pub enum Account {
    Standard,
    TimeCritical,
    RapidResponse,
    Ipp,
}

pub const ACCOUNTS: [(&str, Account); 4] = [
    ("standard", Account::Standard),
    ("time_critical", Account::TimeCritical),
    ("rapid_response", Account::RapidResponse),
    ("ipp", Account::Ipp),
];

/// A proposal's account, on an instrument type that is empty for ipp.
#[derive(Clone, PartialEq, Eq, PartialOrd, Ord, Debug)]
pub struct Key {
    pub proposal: String,
    pub account: Account,
    pub instrument: String,
}

#[derive(Clone, Copy, Default)]
struct Balance {
    balance: u64,
    held: u64,
}

#[derive(Default)]
pub struct Ledger {
    accounts: BTreeMap<Key, Balance>,
}

pub type Hold = (Key, u64);

/// What a group gives back before another takes its place.
#[derive(Default)]
pub struct Freed<'a> {
    pub holds: &'a [Hold],
    pub ipp: u64,
}

pub fn ipp_key(proposal: &str) -> Key {
    Key {
        proposal: proposal.to_owned(),
        account: Account::Ipp,
        instrument: String::new(),
    }
}

impl Ledger {
    pub fn grant(&mut self, key: Key, seconds: u64) -> Read<u64> {
        if !self.accounts.contains_key(&key) && self.accounts.len() == 1_024 {
            return full("accounts", 1_024);
        }
        let account = self.accounts.entry(key).or_default();
        account.balance += seconds;
        Ok(account.balance)
    }

    fn has_proposal(&self, proposal: &str) -> bool {
        let from = Key {
            proposal: proposal.to_owned(),
            account: Account::Standard,
            instrument: String::new(),
        };
        self.accounts
            .range(from..)
            .next()
            .is_some_and(|(key, _)| key.proposal == proposal)
    }

    fn test(&self, key: &Key, needed: u64, freed: u64) -> Read<()> {
        let Some(account) = self.accounts.get(key) else {
            let word = ACCOUNTS[key.account as usize].0;
            return refuse(18, "NoSuchAllocation", vec![("account", word.into())]);
        };
        let available = account.balance - account.held + freed;
        if needed > available {
            return refuse(
                19,
                "NotEnoughTime",
                vec![("available", available.into()), ("needed", needed.into())],
            );
        }
        Ok(())
    }

    /// Whether the holds, which rise, and the ipp charge can be booked once what is freed is given back.
    pub fn can_book(&self, proposal: &str, holds: &[Hold], ipp: u64, freed: &Freed) -> Read<()> {
        if !self.has_proposal(proposal) {
            return refuse(17, "NoSuchProposal", vec![]);
        }
        for (key, seconds) in holds {
            let back = freed
                .holds
                .iter()
                .find(|(other, _)| other == key)
                .map_or(0, |(_, seconds)| *seconds);
            self.test(key, *seconds, back)?;
        }
        match ipp {
            0 => Ok(()),
            ipp => self.test(&ipp_key(proposal), ipp, freed.ipp),
        }
    }

    fn account(&mut self, key: &Key) -> &mut Balance {
        self.accounts.get_mut(key).expect("the account has a grant")
    }

    pub fn hold(&mut self, holds: &[Hold]) {
        for (key, seconds) in holds {
            self.account(key).held += seconds;
        }
    }

    pub fn release(&mut self, holds: &[Hold]) {
        for (key, seconds) in holds {
            self.account(key).held -= seconds;
        }
    }

    pub fn charge(&mut self, key: &Key, seconds: u64) {
        self.account(key).balance -= seconds;
    }

    pub fn refund(&mut self, key: &Key, seconds: u64) {
        self.account(key).balance += seconds;
    }

    pub fn balances(&self) -> Value {
        let row = |(key, of): (&Key, &Balance)| {
            json!({
                "account": ACCOUNTS[key.account as usize].0,
                "available": of.balance - of.held,
                "balance": of.balance,
                "instrument_type": key.instrument,
                "proposal": key.proposal,
            })
        };
        self.accounts.iter().map(row).collect()
    }
}
