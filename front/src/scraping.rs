//! The page of metrics in the text format of Prometheus, version 0.0.4.
//!
//! No label has a value of a client: labels are numbers of workers, codes, and words of the front.

use std::fmt::{Display, Write};
use std::fs;
use std::time::SystemTime;

use crate::compacting::OUTCOMES;
use crate::front::Front;
use crate::guests::Errand;
use crate::log::LEVELS;
use crate::metrics::{Histogram, Metrics, BOUNDS, LEAVINGS, PURPOSES};

/// The type of the page's content.
pub const CONTENT: &str = "text/plain; version=0.0.4; charset=utf-8";
/// The path of the page.
pub const PATH: &[u8] = b"/metrics";
/// The most requests for the page that are answered at the same time.
pub const SCRAPES_MOST: usize = 4;
const PREFIX: &str = "metad_front";
/// The version of the program with which the front was built.
const VERSION: &str = match option_env!("METAD_VERSION") {
    Some(version) => version,
    None => env!("CARGO_PKG_VERSION"),
};

/// A page that is being written.
struct Page(String);

impl Page {
    /// Begins a family of samples: `gauge`, `counter` or `histogram`.
    fn family(&mut self, name: &str, kind: &str, help: &str) {
        let _ = write!(self.0, "# HELP {PREFIX}_{name} {help}\n# TYPE {PREFIX}_{name} {kind}\n");
    }

    /// Writes a sample, whose label is written as `{name="value"}` or empty.
    fn sample(&mut self, name: &str, label: &str, value: impl Display) {
        let _ = writeln!(self.0, "{PREFIX}_{name}{label} {value}");
    }

    /// Writes a family of one sample.
    fn one(&mut self, name: &str, kind: &str, help: &str, value: impl Display) {
        self.family(name, kind, help);
        self.sample(name, "", value);
    }

    /// Writes a family with a sample for each value of a label.
    fn each<V: Display>(
        &mut self,
        name: &str,
        kind: &str,
        help: &str,
        label: &str,
        all: impl IntoIterator<Item = (String, V)>,
    ) {
        self.family(name, kind, help);
        for (value, count) in all {
            self.sample(name, &format!("{{{label}=\"{value}\"}}"), count);
        }
    }

    fn histogram(&mut self, name: &str, help: &str, histogram: &Histogram) {
        self.family(name, "histogram", help);
        let bounds = BOUNDS.iter().map(f64::to_string).chain(["+Inf".to_string()]);
        let mut all = 0;
        for (bound, count) in bounds.zip(histogram.up_to()) {
            self.sample(&format!("{name}_bucket"), &format!("{{le=\"{bound}\"}}"), count);
            all = count;
        }
        self.sample(&format!("{name}_sum"), "", histogram.seconds());
        self.sample(&format!("{name}_count"), "", all);
    }
}

/// The resident memory of a process in bytes, if it is there.
fn memory_of(process: &str) -> Option<u64> {
    let status = fs::read_to_string(format!("/proc/{process}/status")).ok()?;
    let size = status.lines().find_map(|line| line.strip_prefix("VmRSS:"))?;
    let kilobytes: u64 = size.trim().strip_suffix(" kB")?.trim().parse().ok()?;
    Some(kilobytes * 1024)
}

fn named<V: Copy>(names: &[&str], values: &[V]) -> Vec<(String, V)> {
    names.iter().map(|name| name.to_string()).zip(values.iter().copied()).collect()
}

impl Front {
    /// The page of metrics.
    pub fn page_of_metrics(&self) -> String {
        let mut page = Page(String::with_capacity(16_384));
        page.each("build_info", "gauge", "The version of the front.", "version", [(VERSION.to_string(), 1)]);
        let begun = self.metrics.begun.duration_since(SystemTime::UNIX_EPOCH).map_or(0.0, |time| time.as_secs_f64());
        page.one("start_time_seconds", "gauge", "When the front began, in seconds since 1970.", begun);
        if let Some(memory) = memory_of("self") {
            page.one("resident_memory_bytes", "gauge", "Resident memory of the front.", memory);
        }
        self.write_people(&mut page);
        write_traffic(&mut page, &self.metrics);
        self.write_workers(&mut page);
        self.write_groups(&mut page);
        let logged = named(&LEVELS, &self.log.logged);
        page.each("log_lines_total", "counter", "Lines of the log.", "level", logged);
        page.one("log_lines_missing_total", "counter", "Lines that were left out of the log.", self.log.missing);
        page.0
    }

    /// Writes what is known of clients, guests and sessions.
    fn write_people(&self, page: &mut Page) {
        let metrics = &self.metrics;
        page.one("clients", "gauge", "Connected clients.", self.clients.len());
        page.one("clients_connected_total", "counter", "Clients that have connected.", metrics.clients);
        let left = named(&LEAVINGS, &metrics.left);
        page.each("clients_disconnected_total", "counter", "Clients that have left or were closed.", "reason", left);
        page.one("clients_leaving", "gauge", "Disconnected clients with commands still to be done.", self.left);
        page.one("clients_refused", "gauge", "1 if no more clients are accepted for now.", u8::from(self.doors.are_shut()));
        page.one("monitors", "gauge", "Connected monitors.", self.monitors);
        let operators = self.guests.values().filter(|guest| matches!(guest.errand, Errand::Operator(_))).count();
        page.one("operators", "gauge", "Connected operators.", operators);
        page.one("sessions", "gauge", "Sessions of clients, and sessions that may be shared.", self.sessions.len() - 1);
        page.one("live_sessions", "gauge", "Sessions that receive their events as they come.", self.live.count());
        page.one("unread_bytes", "gauge", "Bytes that clients have not read yet.", self.unread);
        let waiting: usize = self.speakers.iter().map(|(_, speaker)| speaker.waiting.count()).sum();
        page.one("commands_waiting", "gauge", "Commands that wait for their turns.", waiting);
    }

    /// Writes what is known of the servers.
    fn write_workers(&self, page: &mut Page) {
        let each = || self.workers.iter().map(|worker| worker.number.to_string());
        let metrics = &self.metrics;
        page.one("workers", "gauge", "Servers that the front is to have.", self.workers.len());
        let up = self.workers.iter().map(|worker| u8::from(worker.server.is_some() && worker.replays.is_empty()));
        page.each("worker_up", "gauge", "1 if the server runs and nothing is replayed on it.", "worker", each().zip(up));
        let restarts = each().zip(metrics.restarts.iter().copied());
        page.each("worker_restarts_total", "counter", "Servers that were replaced.", "worker", restarts);
        let waiting = self.workers.iter().map(|worker| worker.turns.waiting());
        let help = "Clients of the server whose commands wait for their turns, about.";
        page.each("worker_queue_clients", "gauge", help, "worker", each().zip(waiting));
        let under_way = self.workers.iter().map(|worker| worker.turns.under_way.len());
        page.each(
            "commands_under_way",
            "gauge",
            "Commands that the server has not answered.",
            "worker",
            each().zip(under_way),
        );
        let answered = each().zip(metrics.answered.iter().copied());
        page.each(
            "commands_answered_total",
            "counter",
            "Commands of clients that the server has answered, and spins.",
            "worker",
            answered,
        );
        let memory = self.workers.iter().filter_map(|worker| {
            let server = worker.server.as_ref()?;
            Some((worker.number.to_string(), memory_of(&server.child.id().to_string())?))
        });
        page.each("server_resident_memory_bytes", "gauge", "Resident memory of the server.", "worker", memory);
    }

    /// Writes what is known of groups, their records and replays.
    fn write_groups(&self, page: &mut Page) {
        let mut groups = vec![0_usize; self.workers.len()];
        self.groups.iter().for_each(|(_, group)| groups[group.worker] += 1);
        let numbers = self.workers.iter().map(|worker| worker.number.to_string());
        page.each("groups", "gauge", "Groups of sessions on the server.", "worker", numbers.zip(groups));
        let records = self.groups.iter().filter_map(|(_, group)| group.record.as_ref());
        let (mut bytes, mut broken) = (0, 0);
        for record in records {
            bytes += record.size();
            broken += usize::from(!record.is_whole);
        }
        page.one("record_bytes", "gauge", "Size of the records of all groups.", bytes);
        page.one("records_broken", "gauge", "Groups whose records can restore nothing.", broken);
        let outcomes = named(&OUTCOMES, &self.compacting.outcomes);
        page.each("compactions_total", "counter", "Records that were to be compacted.", "outcome", outcomes);
        let replays = named(&PURPOSES, &self.metrics.replays);
        page.each("replays_total", "counter", "Groups that were to be restored from their records.", "purpose", replays);
        page.one("replays_failed_total", "counter", "Groups that could not be restored.", self.metrics.replays_failed);
        page.one("replays_under_way", "gauge", "Groups that are being restored.", self.replays.len());
    }
}

/// Writes what went to and fro, and how long it took.
fn write_traffic(page: &mut Page, metrics: &Metrics) {
    page.one("received_lines_total", "counter", "Lines of clients.", metrics.received.lines);
    page.one("received_bytes_total", "counter", "Bytes of clients.", metrics.received.bytes);
    page.one("sent_lines_total", "counter", "Lines for clients.", metrics.sent.lines);
    page.one("sent_bytes_total", "counter", "Bytes for clients.", metrics.sent.bytes);
    page.each(
        "errors_total",
        "counter",
        "Errors that clients, monitors and operators were answered.",
        "code",
        metrics.errors.all(),
    );
    let help = "Errors by which the front has enforced limits and rights.";
    page.each("refusals_total", "counter", help, "code", metrics.errors.of_limits());
    page.one("refused_requests_total", "counter", "Requests to the front itself that it refused.", metrics.refused);
    page.one("spins_total", "counter", "Commands spin that the front gave for live sessions.", metrics.spins);
    page.histogram(
        "command_wait_seconds",
        "Time from a client's command to the moment its server begins it.",
        &metrics.waiting,
    );
    page.histogram(
        "command_service_seconds",
        "Time that a server took for a command, as the front sees it.",
        &metrics.service,
    );
}
