//! What has been met of lists, so that a test can say that each kind of it was.

use crate::second_machine::tables::load;
use crate::second_machine::{End, Goal, Machine, Phase, Record};
use chezumobari::{Sizes, Tables};
use std::collections::BTreeSet;

/// What steps have done with lists.
#[derive(Clone, Debug, Default)]
pub struct Lists {
    /// steps that joined a list
    pub joined: u64,
    /// steps that would have, and failed since the sleeper had seen another version
    pub differed: u64,
    /// lists that were emptied when their sleepers were woken
    pub emptied: u64,
    /// those of them whose sleepers were woken by a list: the chain has three tasks or more
    pub in_a_chain: u64,
    /// tasks on such lists that were still taking, and failed
    pub takers: u64,
}

/// The phase and the list of each task.
pub struct Before(Vec<(Phase, BTreeSet<usize>)>);

impl Before {
    pub fn of(machine: &Machine) -> Before {
        Before(machine.tasks.iter().map(|task| (task.phase, task.list.clone())).collect())
    }

    /// Whether the sleeper has been woken since, with somebody on its list.
    fn emptied(&self, sleeper: usize, now: &Machine) -> bool {
        let (phase, list) = &self.0[sleeper];
        *phase == Phase::Asleep && !list.is_empty() && now.tasks[sleeper].phase != Phase::Asleep
    }

    /// Whether the task was on a list that has been emptied since.
    fn was_listed(&self, task: usize, now: &Machine) -> bool {
        (0..self.0.len()).any(|sleeper| self.0[sleeper].1.contains(&task) && self.emptied(sleeper, now))
    }
}

impl Lists {
    /// The task has made a step.
    pub fn note(&mut self, task: usize, before: &Before, now: &Machine) {
        let all = || 0..before.0.len();
        let count = |met: bool| u64::from(met);
        self.joined += count(all().any(|w| now.tasks[w].list.contains(&task) && !before.0[w].1.contains(&task)));
        self.differed += count(before.0.get(task).is_some_and(|&(phase, _)| met_a_sleeper(task, phase, now)));
        let failed = |t: usize| now.tasks[t].phase == Phase::Releasing(End::Failed, 0);
        let took = |t: usize| matches!(before.0[t].0, Phase::Taking(..));
        for other in all() {
            let (emptied, listed) = (before.emptied(other, now), before.was_listed(other, now));
            self.emptied += count(emptied);
            self.in_a_chain += count(emptied && listed);
            self.takers += count(listed && took(other) && failed(other));
        }
    }

    pub fn assert_more_than(&self, least: u64) {
        let all = [self.joined, self.differed, self.emptied, self.in_a_chain, self.takers];
        assert!(all.iter().all(|&met| met > least), "too seldom: {self:?}");
    }
}

/// Whether a task has failed on its way to sleep at a record of one that sleeps on.
fn met_a_sleeper(task: usize, before: Phase, now: &Machine) -> bool {
    let it = &now.tasks[task];
    let (Phase::Taking(Goal::Sleep, at), Phase::Releasing(End::Failed, 0)) = (before, it.phase) else { return false };
    let record = it.uses[at].address % now.records.len();
    matches!(now.records[record], Record::Owner(owner) if now.tasks[owner].phase == Phase::Asleep)
}

/// How often tables were unsound by their lists alone, and why.
#[derive(Clone, Debug, Default)]
pub struct BadLists {
    /// a bit that is no task's
    pub no_task: u64,
    /// a list of one that does not sleep, or somebody on it whose phase does not allow it
    pub phases: u64,
    /// a way from list to list that comes back
    pub cycles: u64,
    /// and how often lists were sound that no step had made so
    pub sound: u64,
}

impl BadLists {
    pub fn note(&mut self, sizes: Sizes, tables: &Tables) {
        let mut without = tables.clone();
        without.places.iter_mut().for_each(|place| place[3] = 0);
        let Some(machine) = load(sizes, &without) else { return };
        let joins = |t: usize| (0..32).filter(move |w| tables.places[t][3] >> w & 1 == 1);
        let may_join = |t: usize| {
            matches!(machine.tasks[t].phase, Phase::Taking(Goal::Sleep, _) | Phase::Asleep | Phase::Releasing(..))
        };
        let fits = |t: usize, w: usize| may_join(t) && machine.tasks[w].phase == Phase::Asleep;
        if (0..sizes.tasks).any(|t| joins(t).any(|w| w >= sizes.tasks)) {
            self.no_task += 1;
        } else if (0..sizes.tasks).any(|t| joins(t).any(|w| !fits(t, w))) {
            self.phases += 1;
        } else if load(sizes, tables).is_none() {
            self.cycles += 1;
        } else if (0..sizes.tasks).any(|t| tables.places[t][3] != 0) {
            self.sound += 1;
        }
    }

    pub fn assert_more_than(&self, least: u64) {
        let all = [self.no_task, self.phases, self.cycles, self.sound];
        assert!(all.iter().all(|&met| met > least), "too seldom: {self:?}");
    }
}
