//! A list of calls that differs, made smaller as long as it still differs.

mod schedules;

use crate::library::host_calls::{Call, List};
use crate::second::bytes::{read_assigned, COMMAND_LENGTH, END, FLOW, NODE};
use crate::second::calls::CELLS;

/// Without a node other links send in a slot. Of a small site one of these numbers shows what a large one shows.
const SLOTS: u32 = 64;

/// A list on which the two implementations differ, with what tells it.
struct Shrinking<'a> {
    list: List,
    differs: &'a dyn Fn(&List) -> bool,
}

/// The smallest list that dropping calls, dropping commands and setting numbers to 0 one after the other lead to.
pub fn shrink(list: List, differs: &dyn Fn(&List) -> bool) -> List {
    let mut shrinking = Shrinking { list, differs };
    loop {
        let before = shrinking.list.clone();
        shrinking.drop_calls();
        shrinking.drop_other_plans_and_counters();
        shrinking.lower_operands();
        shrinking.drop_commands();
        shrinking.clear_counters();
        shrinking.clear_arrivals();
        shrinking.drop_gaps();
        shrinking.shrink_schedules();
        if shrinking.list == before {
            return before;
        }
    }
}

impl Shrinking<'_> {
    /// Takes a smaller list if it differs too.
    fn attempt(&mut self, smaller: List) -> bool {
        let taken = smaller != self.list && (self.differs)(&smaller);
        if taken {
            self.list = smaller;
        }
        taken
    }

    fn attempt_with(&mut self, change: impl FnOnce(&mut List)) -> bool {
        let mut smaller = self.list.clone();
        change(&mut smaller);
        self.attempt(smaller)
    }

    /// From the last to the first, so that an index stays that of the same call.
    fn drop_calls(&mut self) {
        for index in (0..self.list.steps.len()).rev() {
            self.attempt_with(|list| {
                list.steps.remove(index);
            });
        }
    }

    /// Bytes handed in once often do as the host's plan, and then the plan before is not needed.
    fn drop_other_plans_and_counters(&mut self) {
        for index in 0..self.list.steps.len() {
            self.attempt_with(|list| list.steps[index].counters = None);
            let dropped = self.attempt_with(|list| list.steps[index].other_plan = None);
            if !dropped {
                self.attempt_with(|list| {
                    if let Some(plan) = list.steps[index].other_plan.take() {
                        list.plan = plan;
                    }
                });
            }
        }
    }

    /// Rooms and numbers that go with a long plan would keep it long.
    fn lower_operands(&mut self) {
        let lower: [fn(&mut Call); 4] = [
            |call| set_room(call, |_| 0),
            |call| set_room(call, |room| room / 2),
            |call| set_room(call, |room| room.saturating_sub(1)),
            lower_deadline,
        ];
        for index in 0..self.list.steps.len() {
            for lower in lower {
                self.attempt_with(|list| lower(&mut list.steps[index].call));
            }
            self.attempt_with_slots(|list, slot| lower_slot(&mut list.steps[index].call, slot));
        }
    }

    /// Tries small numbers of slots until one is taken.
    fn attempt_with_slots(&mut self, change: impl Fn(&mut List, u32)) {
        (0..SLOTS).any(|slot| self.attempt_with(|list| change(list, slot)));
    }

    fn drop_commands(&mut self) {
        self.drop_commands_of(None);
        for index in 0..self.list.steps.len() {
            self.drop_commands_of(Some(index));
        }
    }

    /// All commands of a plan at once, then each; a FLOW with its widths, a NODE with the numbers of nodes as they stand, or with
    /// those above it one smaller. Then bytes behind END, from the last on.
    fn drop_commands_of(&mut self, of: Option<usize>) {
        let length = plan_of(&mut self.list, of).map_or(0, |plan| plan.len());
        self.attempt_with(|list| plan_of(list, of).into_iter().for_each(Vec::clear));
        for at in (0..length).step_by(COMMAND_LENGTH).rev() {
            let dropped = self.attempt_with(|list| drop_command(list, of, at))
                || self.attempt_with(|list| drop_flow(list, of, at))
                || self.attempt_with(|list| drop_node(list, of, at));
            if !dropped {
                self.attempt_with_slots(|list, slot| {
                    drop_node(list, of, at);
                    let calls = list.steps.iter_mut().map(|step| &mut step.call);
                    calls.for_each(|call| lower_slot(call, slot));
                });
            }
        }
        while self.attempt_with(|list| drop_byte_behind_end(list, of)) {}
    }

    /// All of a call, then those of each flow number, then each.
    fn clear_counters(&mut self) {
        for index in 0..self.list.steps.len() {
            let length = self.list.steps[index].counters.as_ref().map_or(0, Vec::len);
            for part in [length.max(1), CELLS, 1] {
                for first in (0..length).step_by(part) {
                    self.attempt_with(|list| {
                        let counters = list.steps[index].counters.as_mut();
                        counters
                            .into_iter()
                            .for_each(|cells| cells[first..(first + part).min(length)].fill(0));
                    });
                }
            }
        }
    }

    fn clear_arrivals(&mut self) {
        for index in 0..self.list.steps.len() {
            let Call::Slot { arrivals, .. } = &self.list.steps[index].call else {
                continue;
            };
            let length = arrivals.len();
            for part in [length.max(1), 1] {
                for first in (0..length).step_by(part) {
                    self.attempt_with(|list| clear_part(&mut list.steps[index].call, first, part));
                }
            }
        }
    }

    /// A gap goes with its offset and its period. One that has to stay becomes 1 if it can.
    fn drop_gaps(&mut self) {
        for index in 0..self.list.steps.len() {
            let Call::Assign { gaps, .. } = &self.list.steps[index].call else {
                continue;
            };
            for child in (0..gaps.len()).rev() {
                if !self.attempt_with(|list| drop_gap(&mut list.steps[index].call, child)) {
                    self.attempt_with(|list| lower_gap(&mut list.steps[index].call, child));
                }
            }
        }
    }
}

fn drop_gap(call: &mut Call, child: usize) {
    if let Call::Assign {
        gaps,
        offsets,
        periods,
    } = call
    {
        gaps.remove(child);
        *offsets = offsets.saturating_sub(1);
        *periods = periods.saturating_sub(1);
    }
}

fn lower_gap(call: &mut Call, child: usize) {
    if let Call::Assign { gaps, .. } = call {
        gaps[child] = gaps[child].min(1);
    }
}

fn set_room(call: &mut Call, change: impl Fn(usize) -> usize) {
    match call {
        Call::Schedule { room }
        | Call::WriteSchedule { room, .. }
        | Call::Admit { room, .. }
        | Call::Release { room, .. } => {
            *room = change(*room);
        }
        _ => (),
    }
}

fn lower_deadline(call: &mut Call) {
    if let Call::Admit { flow, .. } = call {
        flow.deadline = flow.deadline.min(1);
    }
}

/// A number that is smaller already stays.
fn lower_slot(call: &mut Call, lowest: u32) {
    match call {
        Call::Slot { number, .. } => *number = lowest.min(*number),
        Call::Sender { slot, .. } => *slot = lowest.min(*slot),
        _ => (),
    }
}

fn clear_part(call: &mut Call, first: usize, part: usize) {
    if let Call::Slot { arrivals, .. } = call {
        arrivals[first..first + part].fill(0);
    }
}

/// The plan that the host begins with, or the one that a call alone is given.
fn plan_of(list: &mut List, of: Option<usize>) -> Option<&mut Vec<u8>> {
    match of {
        None => Some(&mut list.plan),
        Some(index) => list.steps[index].other_plan.as_mut(),
    }
}

fn drop_command(list: &mut List, of: Option<usize>, at: usize) {
    if let Some(plan) = plan_of(list, of) {
        let end = (at + COMMAND_LENGTH).min(plan.len());
        plan.drain(at.min(end)..end);
    }
}

fn drop_byte_behind_end(list: &mut List, of: Option<usize>) {
    if let Some(plan) = plan_of(list, of) {
        let mut commands = plan.chunks(COMMAND_LENGTH);
        let end = commands.position(|command| command[0] == END);
        if end.is_some_and(|end| plan.len() > end * COMMAND_LENGTH + 1) {
            plan.pop();
        }
    }
}

fn drop_flow(list: &mut List, of: Option<usize>, at: usize) {
    if let Some(plan) = plan_of(list, of) {
        without_flow(plan, at);
    }
}

/// Each link of the route loses the flow's width, so that as much is left for others. None: there is no FLOW, or slots are not assigned.
fn without_flow(plan: &mut Vec<u8>, at: usize) -> Option<()> {
    let site = read_assigned(plan).ok()?;
    let &[FLOW, number, ..] = plan.get(at..at + COMMAND_LENGTH)? else {
        return None;
    };
    let flow = usize::from(number);
    for link in site.route_of_flow(flow) {
        let left = site.capacities[link - 1].saturating_sub(site.width(flow, link));
        let capacity = (link - 1) * COMMAND_LENGTH + 2;
        plan[capacity..capacity + 2].copy_from_slice(&(left.max(1) as u16).to_le_bytes());
    }
    plan.drain(at..at + COMMAND_LENGTH);
    Some(())
}

/// In the calls that go with the plan, nodes are renumbered too.
fn drop_node(list: &mut List, of: Option<usize>, at: usize) {
    let dropped = plan_of(list, of).and_then(|plan| without_node(plan, at));
    let Some(dropped) = dropped else {
        return;
    };
    let steps = list.steps.iter_mut().enumerate();
    for (_, step) in steps.filter(|&(index, _)| of.is_none_or(|of| of == index)) {
        match &mut step.call {
            Call::Admit { flow, .. } => dropped.renumber(&mut flow.entry),
            Call::Sender { parent, .. } => dropped.renumber(parent),
            _ => (),
        }
    }
}

/// A node that is no longer there, and the parent that it had.
#[derive(Clone, Copy)]
struct Dropped {
    node: usize,
    parent: u8,
}

impl Dropped {
    fn renumber(self, operand: &mut u8) {
        if usize::from(*operand) == self.node {
            *operand = self.parent;
        } else if usize::from(*operand) > self.node {
            *operand -= 1;
        }
    }
}

/// A node's number is one more than the number of commands before it. Its children go to its parent, flows too.
fn without_node(plan: &mut Vec<u8>, at: usize) -> Option<Dropped> {
    let command = plan.get(at..at + COMMAND_LENGTH)?;
    if command[0] != NODE {
        return None;
    }
    let dropped = Dropped {
        node: at / COMMAND_LENGTH + 1,
        parent: command[1],
    };
    plan.drain(at..at + COMMAND_LENGTH);
    for command in plan[at..].chunks_exact_mut(COMMAND_LENGTH) {
        match command[0] {
            NODE => dropped.renumber(&mut command[1]),
            FLOW => dropped.renumber(&mut command[2]),
            _ => (),
        }
    }
    Some(dropped)
}

#[cfg(test)]
mod tests {
    use super::*;
    use crate::library::host_calls::Step;
    use crate::second::bytes::{flow_command, node_command};
    use crate::second::calls::COUNTERS;
    use crate::second::rules::FLOW_NUMBERS;

    fn slot(arrivals: [u16; FLOW_NUMBERS], number: u32) -> Step {
        Step::of(Call::Slot {
            lent: COUNTERS,
            arrivals: arrivals.to_vec(),
            number,
        })
    }

    fn commands(nodes: u64, entry: u64) -> Vec<u8> {
        let mut plan: Vec<u8> = (0..nodes)
            .flat_map(|parent| node_command(parent, 9, 1))
            .collect();
        plan.extend(flow_command(3, entry, 1, 9));
        plan.push(END);
        plan
    }

    /// Only two of the calls, a flow, and a few numbers have to stay.
    fn long_list() -> List {
        let mut steps: Vec<Step> = (0..20).map(|number| slot([7; 64], number)).collect();
        steps[4] = Step::of(Call::Start { lent: COUNTERS });
        steps[4].counters = Some(vec![5; COUNTERS]);
        steps[9].counters = Some(vec![6; COUNTERS]);
        steps[9].other_plan = Some(commands(4, 2));
        List {
            plan: commands(6, 5),
            steps,
        }
    }

    fn coming(step: &Step) -> u16 {
        match &step.call {
            Call::Slot { arrivals, .. } => arrivals[3],
            _ => 0,
        }
    }

    /// A start on a set counter 44, and after it packets of flow 3, whose FLOW is in the plan.
    fn differs(list: &List) -> bool {
        let set = |step: &Step| step.counters.as_ref().is_some_and(|cells| cells[44] > 0);
        let start = list.steps.iter().position(set);
        let after = start.map_or(&[][..], |start| &list.steps[start + 1..]);
        list.plan
            .chunks(COMMAND_LENGTH)
            .any(|command| command[0] == FLOW)
            && after.iter().any(|step| coming(step) > 0)
    }

    #[test]
    fn calls_commands_and_numbers_that_are_not_needed_go() {
        let small = shrink(long_list(), &differs);
        assert_eq!(small.plan, flow_command(3, 5, 1, 9));
        assert_eq!(small.steps.len(), 2, "{small}");
        let counters = small.steps[0].counters.as_ref().unwrap();
        let set: Vec<usize> = (0..COUNTERS).filter(|&index| counters[index] > 0).collect();
        assert_eq!(set, [44]);
        let mut arrivals = [0; FLOW_NUMBERS];
        arrivals[3] = 7;
        let Call::Slot { number, .. } = small.steps[1].call else {
            panic!("{small}");
        };
        assert_eq!(small.steps[1], slot(arrivals, number));
        assert!(differs(&small));
    }

    #[test]
    fn bytes_behind_the_end_of_a_plan_go_one_by_one() {
        let goes_on = |list: &List| {
            let end = list.plan.iter().position(|&byte| byte == END);
            end.is_some_and(|end| list.plan.len() > end + 1)
        };
        for behind in [1, 5, 6, 7, 40] {
            let list = List {
                plan: [vec![END], vec![7; behind]].concat(),
                steps: Vec::new(),
            };
            assert_eq!(shrink(list, &goes_on).plan, [END, 7]);
        }
    }

    #[test]
    fn a_dropped_node_leaves_its_children_to_its_parent() {
        let mut plan = commands(4, 4);
        without_node(&mut plan, COMMAND_LENGTH);
        assert_eq!(plan, commands(3, 3));
        let mut plan = commands(2, 1);
        without_node(&mut plan, 0);
        assert_eq!(plan, commands(1, 0));
        let mut flow = flow_command(3, 1, 1, 9);
        assert!(without_node(&mut flow, 0).is_none());
        assert_eq!(flow, flow_command(3, 1, 1, 9));
    }

    /// Gaps 5 and 8 have periods of 5. Of 20 packets on link 2 the flow has 3 times 5, of 9 on link 3 all.
    #[test]
    fn a_dropped_flow_leaves_what_was_left() {
        let plan = |second, third, flows: &[Vec<u8>]| {
            let nodes = [(0, 17, 5), (0, second, 8), (2, third, 3)];
            let nodes = nodes.map(|(parent, capacity, gap)| node_command(parent, capacity, gap));
            [&nodes[..], flows, &[vec![END]]].concat().concat()
        };
        let flows = [flow_command(2, 2, 1, 9), flow_command(3, 3, 3, 9)];
        let mut changed = plan(20, 9, &flows);
        assert_eq!(without_flow(&mut changed, 4 * COMMAND_LENGTH), Some(()));
        let expected = plan(5, 1, &flows[..1]);
        assert_eq!(changed, expected);
        assert_eq!(without_flow(&mut changed, 0), None);
        assert_eq!(changed, expected);
    }

    /// The bytes handed in once are enough.
    #[test]
    fn other_bytes_take_the_place_of_the_plan() {
        let has_four_nodes = |list: &List| {
            let steps = list.steps.iter().map(|step| &step.other_plan);
            let mut plans = steps.map(|plan| plan.as_ref().unwrap_or(&list.plan));
            plans.any(|plan| *plan == commands(4, 2))
        };
        let small = shrink(long_list(), &has_four_nodes);
        assert_eq!(small.plan, commands(4, 2));
        assert_eq!(small.steps.len(), 1);
        assert_eq!(small.steps[0].other_plan, None);
    }
}
