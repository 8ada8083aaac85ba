// The desk's state, and what each command does to it.

use crate::check::check;
use crate::command::{Command, Opening};
use crate::document::{write_group, Cadence, GroupDoc, Kind, RequestDoc, When};
use crate::ledger::{ipp_key, Account, Freed, Hold, Key, Ledger};
use crate::network::{full, Network, Times};
use crate::read::{refuse, Read, Refusal};
use crate::snapshot::{
    write_claim, write_snapshot, Claim, Group as GroupPart, Op, Request as RequestPart, Sky,
    Snapshot, Telescope,
};
use crate::spans::{Span, Spans};
use serde_json::{json, Value};
use std::collections::{BTreeMap, BTreeSet};

#[derive(Clone, Copy, PartialEq, Eq)]
enum State {
    Pending,
    Completed,
    WindowExpired,
    Canceled,
}

impl State {
    fn word(self) -> &'static str {
        ["PENDING", "COMPLETED", "WINDOW_EXPIRED", "CANCELED"][self as usize]
    }
}

struct Request {
    group: usize,
    seconds: u64,
    value: u64,
    windows: Vec<Span>,
    targets: Vec<u16>,
    document: usize,
    state: State,
    running: bool,
}

struct Group {
    document: GroupDoc,
    op: Op,
    requests: std::ops::Range<usize>,
    holds: Vec<Hold>,
    ipp: u64,
}

/// A request that passed all tests: its seconds and windows, and the place of its document.
struct Made {
    seconds: u64,
    windows: Vec<Span>,
    document: usize,
}

#[derive(Clone, Copy)]
struct Placed {
    request: usize,
    telescope: u16,
    slice: u64,
}

#[derive(Default)]
pub struct Desk {
    pub version: u64,
    opening: Option<Opening>,
    now: u64,
    network: Network,
    ledger: Ledger,
    groups: Vec<Group>,
    requests: Vec<Request>,
    open: BTreeSet<usize>,
    pending: usize,
    kept: Vec<Placed>,
    running: Vec<Placed>,
    publication: Option<(Snapshot, Claim)>,
}

/// What a moment changed, as request numbers and refunds.
#[derive(Default)]
struct Moved {
    started: BTreeSet<usize>,
    failed: BTreeSet<usize>,
    expired: BTreeSet<usize>,
    refunded: BTreeMap<usize, u64>,
}

/// The ok word, the further members, and whether the desk changed.
pub type Reply = (&'static str, Value, bool);

fn changed(ok: &'static str, members: Value) -> Read<Reply> {
    Ok((ok, members, true))
}

fn numbers<'a>(places: impl IntoIterator<Item = &'a usize>) -> Value {
    places
        .into_iter()
        .map(|place| Value::from(place + 1))
        .collect()
}

fn refunds(of: &BTreeMap<usize, u64>) -> Value {
    of.iter()
        .map(|(group, seconds)| json!([group + 1, seconds]))
        .collect()
}

fn seconds_of(of: &RequestDoc, times: Times) -> u64 {
    let each = |(ms, count): &(u64, u64)| count * (ms + times.readout) + times.change;
    let configuration = |one: &crate::document::Configuration| {
        times.config + one.exposures.iter().map(each).sum::<u64>()
    };
    (times.front + of.configurations.iter().map(configuration).sum::<u64>()).div_ceil(1_000)
}

fn expand(of: Cadence, seconds: u64, index: usize) -> Read<Vec<Span>> {
    let bad = || refuse(10, "BadCadence", vec![("index", index.into())]);
    if of.period == 0 || of.jitter == 0 || of.start >= of.end {
        return bad();
    }
    let count = (of.end - of.start).div_ceil(of.period);
    if count > 256 {
        return refuse(
            11,
            "TooManyWindows",
            vec![("count", count.into()), ("index", index.into())],
        );
    }
    let half = of.jitter / 2;
    let window = |place: u64| {
        let centre = of.start + place * of.period;
        Span {
            from: centre.saturating_sub(half).max(of.start),
            to: (centre + of.jitter - half).min(of.end),
        }
    };
    let long = |span: &Span| span.to >= span.from + seconds;
    let windows: Vec<_> = (0..count).map(window).filter(long).collect();
    if windows.is_empty() {
        bad()
    } else {
        Ok(windows)
    }
}

impl Desk {
    /// Takes the snapshot that a `plan` line plans, where the desk is opened.
    pub fn take(&self) -> Read<(Snapshot, u32, u32)> {
        match &self.opening {
            Some(opening) => Ok((self.snapshot(opening), opening.lanes, opening.rounds)),
            None => refuse(20, "NotOpened", vec![]),
        }
    }

    pub fn publish(&mut self, snapshot: Snapshot, claim: Claim) -> Value {
        let kept = claim.placements.iter().map(|p| Placed {
            request: p.request as usize - 1,
            telescope: p.telescope,
            slice: p.slice,
        });
        self.kept = kept.collect();
        let text = write_claim(&claim);
        self.publication = Some((snapshot, claim));
        self.version += 1;
        json!({ "claim": text })
    }

    pub fn apply(&mut self, command: Command) -> Read<Reply> {
        match (&command, &self.opening) {
            (Command::Open(_), Some(_)) => return refuse(21, "AlreadyOpened", vec![]),
            (Command::Open(_), None) | (_, Some(_)) => {}
            (_, None) => return refuse(20, "NotOpened", vec![]),
        }
        let reply = self.step(command)?;
        self.version += u64::from(reply.2);
        Ok(reply)
    }

    fn step(&mut self, command: Command) -> Read<Reply> {
        let none = || json!({});
        match command {
            Command::Open(opening) => {
                self.now = opening.now;
                self.opening = Some(opening);
                changed("opened", none())
            }
            Command::Instrument { name, times } => {
                self.network.add_instrument(name, times)?;
                changed("instrument", none())
            }
            Command::Telescope {
                codes,
                class,
                instruments,
            } => {
                let number = self.network.add_telescope(codes, class, instruments)?;
                changed("telescope", json!({ "telescope": number }))
            }
            Command::Night { site, spans } => {
                self.network.set_night(&site, &spans)?;
                changed("night", none())
            }
            Command::Visibility {
                target,
                site,
                spans,
            } => {
                self.network.set_visibility(&target, &site, &spans)?;
                changed("visibility", none())
            }
            Command::Close {
                scope,
                spans,
                closes,
            } => {
                self.network.change_closures(&scope, &spans, closes)?;
                changed(if closes { "closed" } else { "reopened" }, none())
            }
            Command::Grant { key, seconds } => self.grant(key, seconds),
            Command::Submit(document) => self.submit(document),
            Command::Amend { group, document } => self.amend(group, document),
            Command::Withdraw { group } => self.withdraw(group),
            Command::Clock { at } => self.clock(at),
            Command::Report {
                request,
                percent,
                used,
            } => self.report(request, percent, used),
            Command::Plan => unreachable!("a plan is no step"),
            Command::Publish { version, claim } => self.judge(version, claim),
            Command::Export => self.export(),
            Command::Balances => Ok((
                "balances",
                json!({"balances": self.ledger.balances()}),
                false,
            )),
            Command::Show { group } => self.show(group),
        }
    }

    fn grant(&mut self, key: Key, seconds: u64) -> Read<Reply> {
        if key.account != Account::Ipp && self.network.times(&key.instrument).is_none() {
            return refuse(36, "NoSuchInstrument", vec![("index", 0.into())]);
        }
        let balance = self.ledger.grant(key, seconds)?;
        changed("granted", json!({ "balance": balance }))
    }

    fn test_request(&self, of: &GroupDoc, index: usize) -> Read<Vec<Made>> {
        let at = || vec![("index", index.into())];
        let request = &of.requests[index];
        let Some(times) = self.network.times(&request.instrument) else {
            return refuse(36, "NoSuchInstrument", at());
        };
        let seconds = seconds_of(request, times);
        if seconds > 86_400 {
            return refuse(
                12,
                "TooLong",
                vec![("index", index.into()), ("seconds", seconds.into())],
            );
        }
        let lists: Vec<Vec<Span>> = match &request.when {
            When::Windows(windows) => vec![windows.clone()],
            When::Cadence(_) if of.op != Op::Single => return refuse(10, "BadCadence", at()),
            When::Cadence(cadence) => expand(*cadence, seconds, index)?
                .into_iter()
                .map(|span| vec![span])
                .collect(),
        };
        let semester = self.opening.as_ref().expect("the desk is opened").semester;
        if lists
            .iter()
            .flatten()
            .any(|span| span.from < semester.from || semester.to < span.to)
        {
            return refuse(22, "OutsideSemester", at());
        }
        if lists
            .iter()
            .any(|list| list.iter().all(|span| span.to <= self.now))
        {
            return refuse(40, "WindowPast", at());
        }
        if self
            .network
            .fitting(&request.location, &request.instrument)
            .is_empty()
        {
            return refuse(23, "NoTelescope", at());
        }
        Ok(lists
            .into_iter()
            .map(|windows| Made {
                seconds,
                windows,
                document: index,
            })
            .collect())
    }

    fn new_targets(&self, of: &GroupDoc) -> usize {
        let names = of
            .requests
            .iter()
            .flat_map(|request| &request.configurations)
            .map(|one| one.target.as_str());
        names
            .filter(|name| self.network.find_target(name).is_none())
            .collect::<BTreeSet<_>>()
            .len()
    }

    /// Tests a document, where a group that is to be replaced gives back what it holds.
    fn test(&self, of: &GroupDoc, old: Option<usize>) -> Read<(Vec<Made>, Op, Vec<Hold>, u64)> {
        let mut made = Vec::new();
        for index in 0..of.requests.len() {
            made.append(&mut self.test_request(of, index)?);
        }
        let pending = |group: usize| {
            self.groups[group]
                .requests
                .clone()
                .filter(|r| self.is_pending(*r))
                .count()
        };
        if self.pending - old.map_or(0, pending) + made.len() > 1_024 {
            return full("requests", 1_024);
        }
        if self.network.targets() + self.new_targets(of) > 2_048 {
            return full("targets", 2_048);
        }
        let op = if made.len() > of.requests.len() {
            Op::Many
        } else {
            of.op
        };
        let holds = holds_of(of, op, made.iter().map(|one| (one.document, one.seconds)));
        let held: u64 = holds.iter().map(|(_, seconds)| seconds).sum();
        let ipp = (of.ipp.saturating_sub(1_000) * held).div_ceil(1_000);
        let freed = old.map_or(Freed::default(), |old| Freed {
            holds: &self.groups[old].holds,
            ipp: if self.groups[old].document.proposal == of.proposal {
                self.groups[old].ipp
            } else {
                0
            },
        });
        self.ledger.can_book(&of.proposal, &holds, ipp, &freed)?;
        Ok((made, op, holds, ipp))
    }

    fn add(
        &mut self,
        document: GroupDoc,
        (made, op, holds, ipp): (Vec<Made>, Op, Vec<Hold>, u64),
    ) -> Value {
        let group = self.groups.len();
        let first = self.requests.len();
        self.ledger.hold(&holds);
        if ipp > 0 {
            self.ledger.charge(&ipp_key(&document.proposal), ipp);
        }
        for one in made {
            let of = &document.requests[one.document];
            let targets: BTreeSet<_> = of
                .configurations
                .iter()
                .map(|it| self.network.target(&it.target))
                .collect();
            let value = document.priority * document.ipp * one.seconds.div_ceil(60);
            self.requests.push(Request {
                group,
                seconds: one.seconds,
                value,
                windows: one.windows,
                targets: targets.into_iter().collect(),
                document: one.document,
                state: State::Pending,
                running: false,
            });
        }
        let requests = first..self.requests.len();
        self.pending += requests.len();
        self.open.insert(group);
        let places: Vec<_> = requests.clone().collect();
        self.groups.push(Group {
            document,
            op,
            requests,
            holds,
            ipp,
        });
        json!({"group": group + 1, "ipp_charged": ipp, "requests": numbers(&places)})
    }

    fn submit(&mut self, document: GroupDoc) -> Read<Reply> {
        let tested = self.test(&document, None)?;
        changed("submitted", self.add(document, tested))
    }

    fn find(&self, number: u32) -> Read<usize> {
        match (number as usize).checked_sub(1) {
            Some(group) if group < self.groups.len() => Ok(group),
            _ => refuse(24, "NoSuchGroup", vec![]),
        }
    }

    fn find_open(&self, number: u32) -> Read<usize> {
        let group = self.find(number)?;
        match self.state_of(group) {
            State::Pending => Ok(group),
            state => refuse(25, "GroupClosed", vec![("state", state.word().into())]),
        }
    }

    fn refuse_started(&self, group: usize, is_started: impl Fn(&Request) -> bool) -> Read<()> {
        match self.groups[group]
            .requests
            .clone()
            .find(|place| is_started(&self.requests[*place]))
        {
            Some(place) => refuse(26, "GroupStarted", vec![("request", (place + 1).into())]),
            None => Ok(()),
        }
    }

    fn amend(&mut self, number: u32, document: GroupDoc) -> Read<Reply> {
        let group = self.find_open(number)?;
        self.refuse_started(group, |of| of.running || of.state == State::Completed)?;
        let tested = self.test(&document, Some(group))?;
        let refunded = self.cancel(group);
        let mut members = self.add(document, tested);
        members["refunded"] = refunds(&refunded);
        members["replaces"] = number.into();
        changed("amended", members)
    }

    fn withdraw(&mut self, number: u32) -> Read<Reply> {
        let group = self.find_open(number)?;
        self.refuse_started(group, |of| of.running)?;
        let refunded = self.cancel(group);
        changed("withdrawn", json!({"refunded": refunds(&refunded)}))
    }

    fn cancel(&mut self, group: usize) -> BTreeMap<usize, u64> {
        for place in self.groups[group].requests.clone() {
            self.leave(place, State::Canceled);
        }
        self.drop_kept();
        let mut refunded = BTreeMap::new();
        self.settle_group(group, &mut refunded);
        refunded
    }

    fn is_pending(&self, place: usize) -> bool {
        self.requests[place].state == State::Pending
    }

    /// A pending request gets another state.
    fn leave(&mut self, place: usize, state: State) {
        if self.is_pending(place) {
            self.requests[place].state = state;
            self.pending -= 1;
        }
    }

    fn drop_kept(&mut self) {
        let requests = &self.requests;
        self.kept
            .retain(|placed| requests[placed.request].state == State::Pending);
    }

    fn state_of(&self, group: usize) -> State {
        let states = || {
            self.requests[self.groups[group].requests.clone()]
                .iter()
                .map(|request| request.state)
        };
        let has = |state| states().any(|one| one == state);
        if has(State::Pending) {
            return State::Pending;
        }
        let done = if self.groups[group].op == Op::And {
            states().all(|one| one == State::Completed)
        } else {
            has(State::Completed)
        };
        match (done, has(State::Canceled)) {
            (true, _) => State::Completed,
            (false, true) => State::Canceled,
            (false, false) => State::WindowExpired,
        }
    }

    /// Holds what the pending requests of a group need; one that isn't pending any more is closed, perhaps with a refund.
    fn settle_group(&mut self, group: usize, refunded: &mut BTreeMap<usize, u64>) {
        let of = &self.groups[group];
        let pending = of.requests.clone().filter(|place| self.is_pending(*place));
        let holds = holds_of(
            &of.document,
            of.op,
            pending.map(|place| (self.requests[place].document, self.requests[place].seconds)),
        );
        self.ledger.release(&of.holds);
        self.ledger.hold(&holds);
        self.groups[group].holds = holds;
        if self.state_of(group) == State::Pending {
            return;
        }
        self.open.remove(&group);
        let of = &self.groups[group];
        let completed = self.requests[of.requests.clone()]
            .iter()
            .any(|request| request.state == State::Completed);
        if of.ipp > 0 && !completed {
            self.ledger.refund(&ipp_key(&of.document.proposal), of.ipp);
            refunded.insert(group, of.ipp);
        }
    }

    /// Does what the present moment does: starts, ends and expires.
    fn settle(&mut self) -> Moved {
        let len = self.opening.as_ref().expect("the desk is opened").slice;
        let now = self.now;
        let mut moved = Moved::default();
        let (begun, kept) = std::mem::take(&mut self.kept)
            .into_iter()
            .partition(|placed: &Placed| placed.slice * len < now);
        self.kept = kept;
        for placed in begun {
            self.requests[placed.request].running = true;
            moved.started.insert(placed.request);
            self.running.push(placed);
        }
        let requests = &mut self.requests;
        self.running.retain(|placed| {
            let ended = placed.slice * len + requests[placed.request].seconds < now;
            if ended {
                requests[placed.request].running = false;
                moved.failed.insert(placed.request);
            }
            !ended
        });
        self.expire(&mut moved);
        self.drop_kept();
        let touched: BTreeSet<_> = moved
            .expired
            .iter()
            .map(|place| self.requests[*place].group)
            .collect();
        for group in touched {
            self.settle_group(group, &mut moved.refunded);
        }
        moved
    }

    fn expire(&mut self, moved: &mut Moved) {
        let open: Vec<_> = self.open.iter().copied().collect();
        for group in open {
            let waits = |desk: &Desk, place: &usize| {
                desk.is_pending(*place) && !desk.requests[*place].running
            };
            let range = self.groups[group].requests.clone();
            let past = |place: &usize| {
                self.requests[*place]
                    .windows
                    .iter()
                    .all(|span| span.to <= self.now)
            };
            let mut gone: Vec<_> = range
                .clone()
                .filter(|place| waits(self, place) && past(place))
                .collect();
            let before = range
                .clone()
                .any(|place| self.requests[place].state == State::WindowExpired);
            if self.groups[group].op == Op::And && (before || !gone.is_empty()) {
                gone = range.filter(|place| waits(self, place)).collect();
            }
            for place in gone {
                self.leave(place, State::WindowExpired);
                moved.expired.insert(place);
            }
        }
    }

    fn clock(&mut self, at: u64) -> Read<Reply> {
        if at < self.now {
            return refuse(
                30,
                "ClockBack",
                vec![("asked", at.into()), ("now", self.now.into())],
            );
        }
        self.now = at;
        let moved = self.settle();
        changed(
            "clocked",
            json!({
                "expired": numbers(&moved.expired), "failed": numbers(&moved.failed),
                "refunded": refunds(&moved.refunded), "started": numbers(&moved.started),
            }),
        )
    }

    fn report(&mut self, number: u32, percent: u8, used: u64) -> Read<Reply> {
        let place = match (number as usize).checked_sub(1) {
            Some(place) if place < self.requests.len() => place,
            _ => return refuse(27, "NoSuchRequest", vec![]),
        };
        let request = &self.requests[place];
        if !request.running {
            return refuse(28, "NotRunning", vec![]);
        }
        if used > request.seconds {
            return refuse(
                29,
                "UsedTooLong",
                vec![("most", request.seconds.into()), ("used", used.into())],
            );
        }
        let group = request.group;
        let document = &self.groups[group].document;
        let done = percent >= document.requests[request.document].threshold;
        let key = key_of(document, &document.requests[request.document].instrument);
        self.requests[place].running = false;
        self.running.retain(|placed| placed.request != place);
        if done {
            return self.complete(place, group, &key, used);
        }
        let moved = self.settle();
        changed(
            "failed",
            json!({"expired": numbers(&moved.expired), "refunded": refunds(&moved.refunded)}),
        )
    }

    fn complete(&mut self, place: usize, group: usize, key: &Key, used: u64) -> Read<Reply> {
        self.leave(place, State::Completed);
        let mut canceled = Vec::new();
        if self.groups[group].op == Op::OneOf {
            canceled = self.groups[group]
                .requests
                .clone()
                .filter(|other| self.is_pending(*other))
                .collect();
            for other in &canceled {
                self.leave(*other, State::Canceled);
            }
        }
        self.settle_group(group, &mut BTreeMap::new());
        self.ledger.charge(key, used);
        self.settle();
        changed(
            "completed",
            json!({"canceled": numbers(&canceled), "charged": used}),
        )
    }

    fn judge(&mut self, version: u64, claim: Claim) -> Read<Reply> {
        if version != self.version {
            return refuse(
                31,
                "Stale",
                vec![("asked", version.into()), ("newer", self.version.into())],
            );
        }
        let (snapshot, _, _) = self.take()?;
        if let Err((_, name, fields)) = check(&snapshot, &claim) {
            return Err(rejected(name, fields));
        }
        let members = self.publish(snapshot, claim);
        self.version -= 1;
        changed("published", members)
    }

    fn export(&self) -> Read<Reply> {
        match &self.publication {
            Some((snapshot, claim)) => Ok((
                "exported",
                json!({"claim": write_claim(claim), "snapshot": write_snapshot(snapshot)}),
                false,
            )),
            None => refuse(37, "NothingPublished", vec![]),
        }
    }

    fn show(&self, number: u32) -> Read<Reply> {
        let group = self.find(number)?;
        let of = &self.groups[group];
        let state = |place: usize| json!({"request": place + 1, "state": self.requests[place].state.word()});
        let requests: Vec<_> = of.requests.clone().map(state).collect();
        let members = json!({
            "document": write_group(&of.document), "group": number, "requests": requests,
            "state": self.state_of(group).word(),
        });
        Ok(("shown", members, false))
    }

    fn request_part(&self, place: usize, document: &GroupDoc) -> RequestPart {
        let of = &self.requests[place];
        let asked = &document.requests[of.document];
        RequestPart {
            number: place as u32 + 1,
            seconds: of.seconds,
            value: of.value,
            windows: of.windows.clone(),
            telescopes: self.network.fitting(&asked.location, &asked.instrument),
            targets: of.targets.clone(),
            fade: asked.fade.into(),
        }
    }

    fn usable(&self, telescope: usize, len: u64, horizon: &Spans) -> Spans {
        let busy = self
            .running
            .iter()
            .filter(|placed| usize::from(placed.telescope) == telescope);
        let busy: Vec<_> = busy
            .map(|placed| Span {
                from: placed.slice * len,
                to: placed.slice * len + self.requests[placed.request].seconds,
            })
            .collect();
        self.network
            .usable(telescope)
            .minus(&Spans::from_list(&busy))
            .meet(horizon)
    }

    fn snapshot(&self, opening: &Opening) -> Snapshot {
        let (len, slices) = (opening.slice, opening.horizon);
        let first = self.now.div_ceil(len);
        let horizon = Spans::from_list(&[Span {
            from: first * len,
            to: (first + slices) * len,
        }]);
        let telescopes = self.network.telescopes.iter().enumerate();
        let telescopes = telescopes.map(|(number, one)| Telescope {
            site: one.site,
            usable: self.usable(number, len, &horizon),
        });
        let mut out = Snapshot {
            version: self.version,
            len,
            first,
            slices,
            telescopes: telescopes.collect(),
            skies: Vec::new(),
            groups: Vec::new(),
            requests: Vec::new(),
            group_of: Vec::new(),
            quotas: Vec::new(),
        };
        self.list_groups(&mut out, opening.quota);
        let named: BTreeSet<_> = out
            .requests
            .iter()
            .flat_map(|request| request.targets.iter().copied())
            .collect();
        for ((target, site), spans) in &self.network.skies {
            let spans = spans.meet(&horizon);
            if named.contains(target) && !spans.items.is_empty() {
                out.skies.push(Sky {
                    target: *target,
                    site: *site,
                    spans,
                });
            }
        }
        out
    }

    fn list_groups(&self, out: &mut Snapshot, quota: Option<u64>) {
        let mut places = BTreeMap::new();
        for number in &self.open {
            let group = &self.groups[*number];
            let runs = group
                .requests
                .clone()
                .any(|place| self.requests[place].running);
            let waits = |place: &usize| self.is_pending(*place) && !self.requests[*place].running;
            let listed: Vec<_> = group.requests.clone().filter(waits).collect();
            if listed.is_empty() || (group.op == Op::OneOf && runs) {
                continue;
            }
            let quota = quota.map(|most| {
                let next = out.quotas.len();
                let place = *places
                    .entry(group.document.proposal.as_str())
                    .or_insert(next);
                if place == next {
                    out.quotas.push(most);
                }
                place
            });
            let from = out.requests.len();
            out.requests.extend(
                listed
                    .iter()
                    .map(|place| self.request_part(*place, &group.document)),
            );
            out.group_of.resize(out.requests.len(), out.groups.len());
            let requests = from..out.requests.len();
            out.groups.push(GroupPart {
                number: *number as u32 + 1,
                op: group.op,
                requests,
                quota,
            });
        }
    }
}

pub fn rejected(name: &'static str, fields: Value) -> Refusal {
    let mut members = vec![("reason", Value::from(name))];
    if let Value::Object(fields) = fields {
        for (member, value) in fields {
            let known = [
                "index", "group", "given", "wanted", "claimed", "found", "quota", "seconds", "most",
            ];
            members.extend(
                known
                    .iter()
                    .find(|name| **name == member)
                    .map(|name| (*name, value)),
            );
        }
    }
    Refusal {
        no: 32,
        name: "Rejected",
        fields: members,
    }
}

fn key_of(of: &GroupDoc, instrument: &str) -> Key {
    let account = match of.kind {
        Kind::Normal => Account::Standard,
        Kind::TimeCritical => Account::TimeCritical,
        Kind::RapidResponse => Account::RapidResponse,
    };
    Key {
        proposal: of.proposal.clone(),
        account,
        instrument: instrument.to_owned(),
    }
}

/// What requests, each by its document and seconds, hold: a `ONEOF` the greatest, the others the sum.
fn holds_of(of: &GroupDoc, op: Op, requests: impl Iterator<Item = (usize, u64)>) -> Vec<Hold> {
    let mut holds: BTreeMap<Key, u64> = BTreeMap::new();
    for (document, seconds) in requests {
        let held = holds
            .entry(key_of(of, &of.requests[document].instrument))
            .or_default();
        *held = if op == Op::OneOf {
            seconds.max(*held)
        } else {
            *held + seconds
        };
    }
    holds.into_iter().collect()
}
