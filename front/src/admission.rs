//! Clients that come and go: what is counted for their users and groups, and who is refused.

use crate::front::Front;
use crate::groups::group_of;
use crate::lines::NOBODY;
use crate::naming::session_in;
use crate::people::{ClientKey, GroupKey, Owner, SessionKey, SpeakerKey, Speech};
use crate::quotas::{
    scope_over, who_is, Account, Held, Refusal, CONNECTIONS, GROUP, NO_RIGHT, SESSIONS, TIME_TO_TAKE, USER,
};
use crate::rights::Who;

impl Front {
    /// Begins a client's account, and refuses a client that is one too many.
    pub fn admit_client(&mut self, key: ClientKey) {
        let quotas = match &mut self.quotas {
            Some(quotas) => quotas,
            None => return,
        };
        let client = &mut self.clients[key];
        let certificate = client.peer.as_ref().and_then(|peer| peer.certificate.clone());
        let who = Who { certificate, ..who_is(&client.link) };
        let place = quotas.users.place(who.uid);
        let user = quotas.users.at(place, who.uid);
        user.connections += 1;
        let is_over = quotas.limits.of_user(who.uid).connections.map_or(false, |most| user.connections > most);
        let (is_in, may_be_in) = quotas.limits.rights.as_ref().map_or((true, true), |rights| rights.may_come(&who));
        if let Speech::One(speaker) = &client.speech {
            let pace = &mut self.speakers[*speaker].pace;
            (pace.who, pace.user) = (who.clone(), place);
        }
        client.quota = Some(Box::new(Held::new(who, place, is_in, self.now)));
        if !may_be_in {
            self.refuse_entry(key);
        } else if is_over {
            self.refuse_client(key, CONNECTIONS.refusal(USER));
        }
    }

    /// Refuses a client that has no right to connect.
    pub fn refuse_entry(&mut self, key: ClientKey) {
        self.refuse(key, NO_RIGHT, "it may not connect");
        self.close_in_time(key);
    }

    /// Refuses a client at its beginning, and closes it.
    fn refuse_client(&mut self, key: ClientKey, refusal: Refusal) {
        let (link, line) = (&mut self.clients[key].link, refusal.line(NOBODY));
        link.tell(&line);
        link.refuse(&format!("it exceeds {}", refusal.limit));
        self.metrics.exceed(refusal, &line);
        self.close_in_time(key);
    }

    pub fn close_in_time(&mut self, key: ClientKey) {
        let until = self.now + TIME_TO_TAKE;
        if let Some(held) = &mut self.clients[key].quota {
            held.until = Some(until);
        }
        self.touch(key);
    }

    /// Counts a client's own session; refuses a client that is one too many, of its user or of its group. The group may not be
    /// there yet. Returns whether the client may go on.
    pub fn has_room(&mut self, key: ClientKey, session: SessionKey) -> bool {
        let refusal = match self.room_over(key, session) {
            Some(refusal) => refusal,
            None => return self.clients[key].link.fault.is_empty(),
        };
        if let Some(refusal) = refusal {
            self.refuse_client(key, refusal);
            return false;
        }
        let is_own = !self.sessions[session].is_shared;
        if let (Some(held), Some(quotas)) = (&mut self.clients[key].quota, &mut self.quotas) {
            held.is_counted = true;
            held.has_session = is_own;
            quotas.user(held.who.uid).sessions += u64::from(is_own);
        }
        true
    }

    /// The limit that a client would exceed by going on, unless it is counted already.
    fn room_over(&self, key: ClientKey, session: SessionKey) -> Option<Option<Refusal>> {
        let (quotas, client) = (self.quotas.as_ref()?, &self.clients[key]);
        let held = client.quota.as_ref().filter(|held| !held.is_counted && client.link.fault.is_empty())?;
        let session = &self.sessions[session];
        let name = group_of(&session.name);
        let group = self.pool.as_ref().and_then(|pool| pool.groups.get(name)).map(|group| &self.groups[*group]);
        let (clients, sessions) = group.map_or((0, 0), |group| (group.account.connections, group.sessions.len() as u64));
        let [_, of_user, of_group] = quotas.limits.quotas(held.who.uid);
        if of_group.connections.map_or(false, |most| clients >= most) {
            return Some(Some(CONNECTIONS.refusal(GROUP)));
        }
        if session.is_shared {
            return Some(None);
        }
        let has = [0, quotas.account(held.who.uid).map_or(0, |user| user.sessions), sessions];
        let over = scope_over([None, of_user.sessions, of_group.sessions], has, 1);
        Some(over.map(|scope| SESSIONS.refusal(scope)))
    }

    /// Counts a client that has entered a group.
    pub fn count_in_group(&mut self, key: ClientKey, group: Option<GroupKey>) {
        if let (Some(group), Some(held)) = (group, &mut self.clients[key].quota) {
            held.group = Some(group);
            self.groups[group].account.connections += 1;
        }
    }

    /// Ends a client's account.
    pub fn leave_quotas(&mut self, held: Option<Box<Held>>) {
        let (held, quotas) = match (held, &mut self.quotas) {
            (Some(held), Some(quotas)) => (held, quotas),
            _ => return,
        };
        quotas.held -= held.holds;
        let end = |account: &mut Account| {
            account.connections = account.connections.saturating_sub(1);
            account.unread = account.unread.saturating_sub(held.own.unread);
            account.half_line = account.half_line.saturating_sub(held.own.half_line);
            account.joins = account.joins.saturating_sub(held.own.joins);
        };
        let user = quotas.user(held.who.uid);
        end(user);
        user.sessions = user.sessions.saturating_sub(u64::from(held.has_session));
        if let Some(group) = held.group.and_then(|group| self.groups.get_mut(group)) {
            end(&mut group.account);
        }
    }

    /// The account of a group that comes, which may have been here before.
    pub fn account_of_group(&mut self, name: &str) -> Account {
        self.quotas.as_mut().and_then(|quotas| quotas.gone.remove(name)).unwrap_or_default()
    }

    /// Keeps the account of a group that goes, for as long as it matters.
    pub fn keep_account(&mut self, name: &str, account: Account) {
        if let Some(quotas) = &mut self.quotas {
            let account = Account { commands: account.commands, bytes: account.bytes, ..Account::default() };
            if !account.is_void(self.now) {
                quotas.gone.insert(name.to_string(), account);
            }
        }
    }

    // ---- sessions that clients name ----

    /// Counts a session that a client names first.
    pub fn count_session(&mut self, session: SessionKey, uid: Option<u32>) {
        if let Some(quotas) = &mut self.quotas {
            quotas.user(uid).sessions += 1;
            quotas.namers.insert(session, uid);
        }
    }

    /// Counts a session that a client names for the first time.
    pub fn count_named(&mut self, key: ClientKey, name: &str) {
        if let Some(held) = self.clients[key].quota.as_mut().filter(|_| name != NOBODY) {
            held.own.sessions += 1;
        }
    }

    /// Ends the count of a session that is gone.
    pub fn forget_namer(&mut self, session: SessionKey) {
        if let Some(quotas) = &mut self.quotas {
            if let Some(uid) = quotas.namers.remove(&session) {
                let user = quotas.user(uid);
                user.sessions = user.sessions.saturating_sub(1);
            }
        }
    }

    /// Whether a client names one session too many by this name.
    pub fn is_beyond(&self, key: ClientKey, name: &str) -> bool {
        self.sessions_beyond(key, name).is_some()
    }

    fn sessions_beyond(&self, key: ClientKey, name: &str) -> Option<usize> {
        let (quotas, pool) = (self.quotas.as_ref()?, self.pool.as_ref()?);
        let (client, held) = (&self.clients[key], self.clients[key].quota.as_ref()?);
        let group = pool.groups.get(group_of(name)).map(|group| (*group, &self.groups[*group]));
        let session = group.and_then(|(_, group)| group.sessions.get(name));
        let voices = match &client.speech {
            Speech::Named(voices) => voices,
            Speech::One(_) => return None,
        };
        let voice =
            group.and_then(|(group, _)| voices.of_groups.get(&group)).and_then(|voice| self.speakers[*voice].more.as_ref());
        let is_known = session.map_or(false, |session| voice.map_or(false, |more| more.members.contains(session)));
        let is_new = u64::from(session.is_none());
        let [of_client, of_user, of_group] = quotas.limits.quotas(held.who.uid);
        let own = scope_over([of_client.sessions, None, None], [held.own.sessions; 3], u64::from(!is_known));
        let has = [
            0,
            quotas.account(held.who.uid).map_or(0, |user| user.sessions),
            group.map_or(0, |(_, it)| it.sessions.len() as u64),
        ];
        let shared = scope_over([None, of_user.sessions, of_group.sessions], has, is_new);
        own.filter(|_| !is_known).or_else(|| shared.filter(|_| is_new > 0))
    }

    /// Which limit the session of a speaker's next line exceeds.
    pub fn sessions_over(&self, key: SpeakerKey) -> Option<Refusal> {
        let speaker = &self.speakers[key];
        let client = match speaker.owner {
            Owner::Client(client) => client,
            _ => return None,
        };
        let name = session_in(speaker.waiting.first()?);
        self.sessions_beyond(client, &name).map(|scope| SESSIONS.refusal(scope))
    }
}
