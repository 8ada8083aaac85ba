// Instruments, sites, telescopes and targets by number; nights, closures and skies.

use crate::document::Location;
use crate::read::{refuse, Read};
use crate::spans::{Span, Spans};
use std::collections::{BTreeMap, HashMap};

#[derive(Clone, Copy)]
pub struct Times {
    pub front: u64,
    pub config: u64,
    pub readout: u64,
    pub change: u64,
}

pub struct Telescope {
    pub site: u16,
    site_name: String,
    enclosure: String,
    code: String,
    class: String,
    instruments: Vec<String>,
    closed: Spans,
}

/// A telescope by its codes, or all of a site.
pub enum Scope {
    Telescope {
        site: String,
        enclosure: String,
        telescope: String,
    },
    Site(String),
}

#[derive(Default)]
pub struct Network {
    instruments: HashMap<String, Times>,
    sites: HashMap<String, u16>,
    nights: Vec<Spans>,
    pub telescopes: Vec<Telescope>,
    targets: HashMap<String, u16>,
    names: Vec<String>,
    pub skies: BTreeMap<(u16, u16), Spans>,
    pieces: usize,
}

pub fn full<T>(what: &'static str, limit: u32) -> Read<T> {
    refuse(
        16,
        "Full",
        vec![("limit", limit.into()), ("what", what.into())],
    )
}

impl Network {
    pub fn times(&self, name: &str) -> Option<Times> {
        self.instruments.get(name).copied()
    }

    pub fn add_instrument(&mut self, name: String, times: Times) -> Read<()> {
        if self.instruments.contains_key(&name) {
            return refuse(15, "Repeated", vec![]);
        }
        if self.instruments.len() == 64 {
            return full("instruments", 64);
        }
        self.instruments.insert(name, times);
        Ok(())
    }

    pub fn add_telescope(
        &mut self,
        (site_name, enclosure, code): (String, String, String),
        class: String,
        instruments: Vec<String>,
    ) -> Read<usize> {
        if let Some(index) = instruments
            .iter()
            .position(|name| !self.instruments.contains_key(name))
        {
            return refuse(36, "NoSuchInstrument", vec![("index", index.into())]);
        }
        if self.find(&site_name, &enclosure, &code).is_some() {
            return refuse(15, "Repeated", vec![]);
        }
        if self.telescopes.len() == 32 {
            return full("telescopes", 32);
        }
        if !self.sites.contains_key(&site_name) && self.nights.len() == 16 {
            return full("sites", 16);
        }
        let next = self.nights.len() as u16;
        let site = *self.sites.entry(site_name.clone()).or_insert(next);
        if site == next {
            self.nights.push(Spans::default());
        }
        let closed = Spans::default();
        self.telescopes.push(Telescope {
            site,
            site_name,
            enclosure,
            code,
            class,
            instruments,
            closed,
        });
        Ok(self.telescopes.len() - 1)
    }

    fn find(&self, site: &str, enclosure: &str, code: &str) -> Option<usize> {
        let is = |one: &Telescope| {
            one.site_name == site && one.enclosure == enclosure && one.code == code
        };
        self.telescopes.iter().position(is)
    }

    fn site(&self, name: &str) -> Read<u16> {
        self.sites
            .get(name)
            .copied()
            .map_or_else(|| refuse(14, "NoSuchSite", vec![]), Ok)
    }

    pub fn set_night(&mut self, site: &str, spans: &[Span]) -> Read<()> {
        let site = self.site(site)?;
        self.nights[usize::from(site)] = Spans::from_list(spans);
        Ok(())
    }

    pub fn set_visibility(&mut self, target: &str, site: &str, spans: &[Span]) -> Read<()> {
        let site = self.site(site)?;
        if !self.targets.contains_key(target) && self.names.len() == 2_048 {
            return full("targets", 2_048);
        }
        let set = Spans::from_list(spans);
        let known = self.targets.get(target);
        let old = known
            .and_then(|target| self.skies.get(&(*target, site)))
            .map_or(0, |sky| sky.items.len());
        if self.pieces - old + set.items.len() > 262_144 {
            return full("visibility", 262_144);
        }
        self.pieces = self.pieces - old + set.items.len();
        let target = self.target(target);
        self.skies.insert((target, site), set);
        Ok(())
    }

    pub fn change_closures(&mut self, scope: &Scope, spans: &[Span], closes: bool) -> Read<()> {
        let of = match scope {
            Scope::Telescope {
                site,
                enclosure,
                telescope,
            } => match self.find(site, enclosure, telescope) {
                Some(place) => vec![place],
                None => return refuse(13, "NoSuchTelescope", vec![]),
            },
            Scope::Site(name) => {
                let site = self.site(name)?;
                (0..self.telescopes.len())
                    .filter(|place| self.telescopes[*place].site == site)
                    .collect()
            }
        };
        let set = Spans::from_list(spans);
        let change = |place: &usize| {
            let closed = &self.telescopes[*place].closed;
            if closes {
                closed.union(&set)
            } else {
                closed.minus(&set)
            }
        };
        let changed: Vec<_> = of.iter().map(change).collect();
        if changed.iter().any(|closed| closed.items.len() > 512) {
            return full("closures", 512);
        }
        for (place, closed) in of.into_iter().zip(changed) {
            self.telescopes[place].closed = closed;
        }
        Ok(())
    }

    pub fn usable(&self, telescope: usize) -> Spans {
        let telescope = &self.telescopes[telescope];
        self.nights[usize::from(telescope.site)].minus(&telescope.closed)
    }

    pub fn targets(&self) -> usize {
        self.names.len()
    }

    pub fn find_target(&self, name: &str) -> Option<u16> {
        self.targets.get(name).copied()
    }

    /// The number of a target, added where it is new.
    pub fn target(&mut self, name: &str) -> u16 {
        if let Some(number) = self.targets.get(name) {
            return *number;
        }
        let number = self.names.len() as u16;
        self.targets.insert(name.to_owned(), number);
        self.names.push(name.to_owned());
        number
    }

    /// The telescopes that a request may be observed on.
    pub fn fitting(&self, at: &Location, instrument: &str) -> Vec<u16> {
        let is =
            |wanted: &Option<String>, has: &str| wanted.as_ref().is_none_or(|wanted| wanted == has);
        let fits = |one: &Telescope| {
            one.class == at.class
                && is(&at.site, &one.site_name)
                && is(&at.enclosure, &one.enclosure)
                && is(&at.telescope, &one.code)
                && one.instruments.iter().any(|name| name == instrument)
        };
        (0..self.telescopes.len() as u16)
            .filter(|place| fits(&self.telescopes[usize::from(*place)]))
            .collect()
    }
}
