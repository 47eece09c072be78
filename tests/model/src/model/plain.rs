//! The plain gate (02, T-06): one walk through the claims from first to last fills a table of what the actor and its owner cover, for
//! each resource and right, at one moment. Uses are then looked up in it.

use super::paths::contains;
use super::{Fault, Model, Refusal, Sound};
use crate::types::*;

const RIGHTS: usize = RIGHT_MAX as usize + 1;

/// What is remarked on a claim when the walk comes past it.
#[derive(Clone, Copy)]
struct Remark {
    hops: usize,
    lives: bool,
}

/// What stands in a cell: nothing, public, or a claim by its place, with its hop count and the length of its resource's trimmed path.
#[derive(Clone, Copy)]
enum Cell {
    Nothing,
    Public,
    Claim { place: usize, hops: usize, length: usize },
}

/// A row for each resource, in it a cell for each right.
struct Table {
    rows: [[Cell; RIGHTS]; RESOURCES],
}

impl Table {
    /// Before the first claim: public at READ of each public resource.
    fn open(sound: &Sound) -> Self {
        let mut rows = [[Cell::Nothing; RIGHTS]; RESOURCES];
        for (row, resource) in rows.iter_mut().zip(sound.resources) {
            if resource.is_public == 1 {
                row[READ as usize] = Cell::Public;
            }
        }
        Table { rows }
    }

    /// The claim speaks in the cell of each resource whose path its own contains, for each right it has, unless the cell has a claim
    /// whose trimmed path is as long or longer.
    fn enter(&mut self, sound: &Sound, place: usize, hops: usize) {
        let claim = &sound.claims[place];
        let Some(outer) = sound.resource(claim.resource).and_then(Resource::path) else {
            return;
        };
        for (row, resource) in self.rows.iter_mut().zip(sound.resources) {
            let Some(length) = resource.path().and_then(|inner| contains(outer, inner)) else {
                continue;
            };
            for (right, cell) in row.iter_mut().enumerate() {
                let keeps_off = matches!(cell, Cell::Claim { length: most, .. } if *most >= length);
                if claim.has_right(right as u32) && !keeps_off {
                    *cell = Cell::Claim { place, hops, length };
                }
            }
        }
    }

    /// The cells of every row as numbers.
    fn numbers(&self) -> [u32; CELLS] {
        let mut numbers = [CELL_NOTHING; CELLS];
        for (number, cell) in numbers.iter_mut().zip(self.rows.iter().flatten()) {
            *number = match cell {
                Cell::Nothing => CELL_NOTHING,
                Cell::Public => CELL_PUBLIC,
                Cell::Claim { place, .. } => *place as u32,
            };
        }
        numbers
    }

    /// The cell of a use: nothing where its resource does not stand.
    fn cell(&self, sound: &Sound, usage: &Usage) -> Cell {
        sound.resource_position(usage.resource).map_or(Cell::Nothing, |row| self.rows[row][usage.right as usize])
    }
}

/// The walk: a remark on each claim by the remark on its parent, and each claim that lives entered in the table of its holder.
fn walk(sound: &Sound, holders: [Option<u32>; 2], now: u64) -> ([Remark; CLAIMS], [Table; 2]) {
    let mut tables = [Table::open(sound), Table::open(sound)];
    let mut remarks = [Remark { hops: 0, lives: false }; CLAIMS];
    for (place, claim) in sound.claims.iter().enumerate() {
        let parent = sound.claim_position(claim.parent).map(|above| remarks[above]);
        let lasts = claim.weight > 0 && (claim.expiry == 0 || claim.expiry > now);
        let hops = parent.map_or(0, |parent| parent.hops + 1);
        let lives = lasts && parent.map_or(true, |parent| parent.lives);
        remarks[place] = Remark { hops, lives };
        for (table, holder) in tables.iter_mut().zip(holders) {
            if lives && holder == Some(claim.holder) {
                table.enter(sound, place, hops);
            }
        }
    }
    (remarks, tables)
}

fn add(verdict: &mut Verdict, kind: u32, value: u32) {
    verdict.violations[verdict.count] = Violation { kind, value };
    verdict.count += 1;
}

/// An action that passed the tests, judged by its own tables.
fn judge(sound: &Sound, action: &Action, actor: &Actor) -> Verdict {
    let mut verdict = Verdict::EMPTY;
    let machine = actor.kind == MACHINE;
    let owner = (machine && actor.owner != 0).then_some(actor.owner);
    (0..10).filter(|flag| action.flags >> flag & 1 == 1).for_each(|flag| add(&mut verdict, 1, flag));
    if machine && owner.is_none() {
        add(&mut verdict, 2, actor.id);
    }
    if machine {
        (0..action.governed).for_each(|position| add(&mut verdict, 3, position as u32));
    }
    let (_, [own, owners]) = walk(sound, [Some(actor.id), owner], action.now);
    for (position, usage) in action.uses[..action.used].iter().enumerate() {
        let cell = own.cell(sound, usage);
        if let Cell::Claim { hops, .. } = cell {
            verdict.hops[position] = hops;
        }
        if matches!(cell, Cell::Nothing) {
            add(&mut verdict, 4, position as u32);
        } else if owner.is_some() && matches!(owners.cell(sound, usage), Cell::Nothing) {
            add(&mut verdict, 5, position as u32);
        }
    }
    verdict.decision = if verdict.count == 0 { PERMITTED } else { REFUSED };
    verdict
}

impl Model {
    /// What is said of a claim on which it is remarked whether it lives.
    fn state(&self, claim: &Claim, lives: bool, now: u64) -> u32 {
        if claim.weight == 0 {
            WEIGHTLESS
        } else if claim.expiry != 0 && claim.expiry <= now {
            EXPIRED
        } else if lives || self.has(Fault::DeadSourceShown) {
            LIVES
        } else {
            SOURCE_DEAD
        }
    }

    /// The remarks and the tables by themselves.
    pub fn cover_table(&self, register: &Register, actor: u32, now: u64) -> CoverTable {
        let refused = |refusal: Refusal| CoverTable { refusal: refusal as u32, ..CoverTable::EMPTY };
        let Some(sound) = Sound::of(register) else {
            return refused(Refusal::Unsound);
        };
        if actor > ID_MAX || now > MOMENT_MAX {
            return refused(Refusal::Range);
        }
        let Some(actor) = sound.actor(actor) else {
            return refused(Refusal::Absent);
        };
        let owner = (actor.kind == MACHINE && actor.owner != 0).then_some(actor.owner);
        let (remarks, [own, owners]) = walk(&sound, [Some(actor.id), owner], now);
        let mut table = CoverTable { accepted: 1, owner: owner.unwrap_or(0), own: own.numbers(), ..CoverTable::EMPTY };
        if owner.is_some() {
            table.owners = owners.numbers();
        }
        for (place, (claim, remark)) in sound.claims.iter().zip(remarks).enumerate() {
            table.hops[place] = remark.hops as u32;
            table.states[place] = self.state(claim, remark.lives, now);
        }
        table
    }

    pub fn plain_gate(&self, register: &Register, action: &Action) -> Verdict {
        let Some(sound) = Sound::of(register) else {
            return Verdict::stopped(Refusal::Unsound);
        };
        match self.acting(&sound, action) {
            Ok(actor) => judge(&sound, action, actor),
            Err(refusal) => Verdict::stopped(refusal),
        }
    }

    pub fn plain_plan(&self, register: &Register, plan: &Plan) -> PlanVerdict {
        let Some(sound) = Sound::of(register) else {
            return PlanVerdict::stopped(Refusal::Unsound, 0);
        };
        let Some(actions) = plan.actions.get(..plan.count) else {
            return PlanVerdict::stopped(Refusal::Range, 0);
        };
        let mut actors = [&Actor::ZERO; ACTIONS];
        for (position, action) in actions.iter().enumerate() {
            match self.acting(&sound, action) {
                Ok(actor) => actors[position] = actor,
                Err(refusal) => return PlanVerdict::stopped(refusal, position),
            }
        }
        let mut verdict = PlanVerdict { accepted: 1, count: plan.count, ..PlanVerdict::EMPTY };
        let mut cancelled = false;
        for ((judgement, action), actor) in verdict.list.iter_mut().zip(actions).zip(actors) {
            *judgement = if cancelled {
                Judgement { decision: CANCELLED, violations: 0 }
            } else {
                let judged = judge(&sound, action, actor);
                Judgement { decision: judged.decision, violations: judged.count as u32 }
            };
            cancelled |= action.flags != 0;
        }
        verdict
    }
}
