//! A live site with its packets, and the watch that goes along with every call.

use crate::commands::watch::{Slot, Watch};
use crate::second::calls::{admission, release};
use crate::second::rules::{Flow, Refusal, Site};
use crate::second::slots::{check_slot, start, Packets};

pub struct Rehearsal {
    pub site: Site,
    pub packets: Packets,
    pub watch: Watch,
}

impl Rehearsal {
    /// The rehearsal of this site, started.
    pub fn of_site(site: Site) -> Rehearsal {
        let mut rehearsal = Rehearsal {
            site,
            packets: Packets::none(),
            watch: Watch::new(),
        };
        rehearsal.watch.started(&rehearsal.site, &rehearsal.packets);
        rehearsal
    }

    /// A call that works on the counters: the packets it leaves in place keep their slots of arrival.
    fn on_counters(
        &mut self,
        call: impl FnOnce(&mut Site, &mut [u32]) -> Result<(), Refusal>,
        accepted: impl FnOnce(&mut Watch, &Site, &Packets),
    ) -> Result<(), Refusal> {
        let mut counters = self.packets.counters();
        let answer = call(&mut self.site, &mut counters);
        self.packets.adopt(&counters);
        if answer.is_ok() {
            accepted(&mut self.watch, &self.site, &self.packets);
        }
        self.watch.after_call(&self.packets);
        answer
    }

    pub fn start(&mut self) -> Result<(), Refusal> {
        self.on_counters(
            |site, counters| start(site, counters),
            |watch, site, packets| watch.started(site, packets),
        )
    }

    pub fn admission(&mut self, flow: Flow) -> Result<(), Refusal> {
        self.on_counters(
            |site, counters| admission(site, counters, flow),
            |watch, site, packets| watch.admitted(site, packets, flow.number),
        )
    }

    pub fn release(&mut self, number: usize) -> Result<(), Refusal> {
        self.on_counters(
            |site, counters| release(site, counters, number),
            |watch, _, _| watch.released(number),
        )
    }

    pub fn slot(&mut self, arrivals: &[u16], number: u32) -> Result<(), Refusal> {
        let answer = check_slot(&self.site, &self.packets.counters(), arrivals);
        if answer.is_ok() {
            let left = self.packets.pass_slot(&self.site, arrivals, number);
            let slot = Slot {
                number,
                arrivals,
                left: &left,
            };
            self.watch.passed(&slot, &self.packets);
        }
        self.watch.after_call(&self.packets);
        answer
    }
}
