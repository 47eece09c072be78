//! What the calls are timed on, the same in every run.

use crate::random::Random;
use guvrendik_model::model::json::{FLAG_NAMES, KEYS, KINDS};
use guvrendik_model::model::proposals::Question;
use guvrendik_model::model::{Model, Sound};
pub use guvrendik_model::shapes::*;
use guvrendik_model::types::*;

/// How many different inputs a call goes through in turn.
pub const VARIED: usize = 16;

/// The moment of every grant and action. Every claim is live then.
pub const NOW: u64 = 1_700_000_000;

pub const SHAPES: [Shape; 3] = [SMALL, MEDIUM, FULL];

/// How many claims the acting human and the acting machine hold.
#[derive(Clone, Copy)]
pub struct Holding {
    pub human: usize,
    pub machine: usize,
}

/// A sound register, and who acts in it.
pub struct World {
    pub register: Box<Register>,
    pub human: u32,
    /// Owned by the human.
    pub machine: u32,
    /// What the human holds, in the order of the list. The machine holds the same where it holds as many.
    held: Vec<Usage>,
}

fn ids(random: &mut Random, count: usize) -> Vec<u32> {
    let mut ids = Vec::with_capacity(count);
    while ids.len() < count {
        let id = random.between(1, ID_MAX as usize) as u32;
        if !ids.contains(&id) {
            ids.push(id);
        }
    }
    ids
}

/// Folders in folders: four to a laboratory.
fn path(at: usize) -> Vec<u8> {
    let folders = ["", "/reports", "/reports/2024", "/reports/2024/blood-panel"];
    format!("/delivery/site-{:02}{}", at / folders.len(), folders[at % folders.len()]).into_bytes()
}

/// A register of this shape. The claims of the acting two stand evenly among those of the others, which are in chains.
pub fn world(shape: Shape, holding: Holding) -> World {
    let random = &mut Random::new(7);
    let mut register = Box::new(Register::EMPTY);
    let actors = ids(random, shape.actors);
    let [keeper, human, machine] = [actors[0], actors[1], actors[2]];
    for (at, &id) in actors.iter().enumerate() {
        let is_machine = at == 2 || at > 3 && random.chance(40);
        let (kind, owner) = if is_machine { (MACHINE, human) } else { (HUMAN, 0) };
        register.actors.push(Actor { id, kind, owner });
    }
    for (at, id) in ids(random, shape.resources).into_iter().enumerate() {
        let path = path(at);
        let mut resource = Resource { id, is_public: 0, keeper, len: path.len() as u32, ..Resource::ZERO };
        resource.path[..path.len()].copy_from_slice(&path);
        register.resources.push(resource);
    }
    let mut held = Vec::new();
    let mut machine_held = 0;
    for (at, id) in ids(random, shape.claims).into_iter().enumerate() {
        let claim = if (at + 1) * holding.human / shape.claims > held.len() {
            let usage = usage(&register, held.len());
            held.push(usage);
            root(&register, id, human, usage)
        } else if ((at + 1) * holding.machine).div_ceil(shape.claims) > machine_held {
            machine_held += 1;
            root(&register, id, machine, usage(&register, machine_held - 1))
        } else {
            others(random, &register, id, &actors[3..])
        };
        register.claims.push(claim);
    }
    assert_eq!((held.len(), machine_held), (holding.human, holding.machine));
    assert!(Sound::of(&register).is_some() && register.claims.count == shape.claims);
    World { register, human, machine, held }
}

/// The use that the holder's claim of this number is for: by resource, then by right.
fn usage(register: &Register, number: usize) -> Usage {
    let resources = register.resources.count;
    Usage { resource: register.resources.list[number % resources].id, right: 1 + (number / resources) as u32 }
}

fn root(register: &Register, id: u32, holder: u32, usage: Usage) -> Claim {
    Claim {
        id,
        parent: 0,
        grantor: register.actors.list[0].id,
        holder,
        resource: usage.resource,
        rights: 1 << usage.right,
        weight: 500,
        left: LEFT_MAX,
        expiry: if id & 1 == 0 { 0 } else { MOMENT_MAX },
    }
}

/// A claim of someone else: one in five a root, the others under one that stands, where the rules leave some.
fn others(random: &mut Random, register: &Register, id: u32, actors: &[u32]) -> Claim {
    let claims = &register.claims.list[..register.claims.count];
    let tries = if random.chance(20) { 0 } else { 40 };
    for _ in 0..tries {
        // Under one of the last, so that chains are long.
        let Some(parent) = claims.len().checked_sub(1 + random.below(6)).map(|at| &claims[at]) else {
            break;
        };
        let claim = Claim {
            id,
            parent: parent.id,
            grantor: parent.holder,
            holder: *random.pick(actors),
            rights: parent.rights & !NOT_BY_MACHINE,
            ..*parent
        };
        if Model::default().grantable(register, &claim, NOW).is_ok() {
            return claim;
        }
    }
    let resource = random.pick(&register.resources.list[..register.resources.count]).id;
    let holder = *random.pick(actors);
    Claim { rights: RIGHTS_MAX & !(1 << 16), ..root(register, id, holder, Usage { resource, right: 0 }) }
}

/// A full register whose chains are as long as the rules allow, and stand in each other's way: the first of each, then the second
/// of each, and so on.
pub fn deep() -> World {
    const CHAINS: usize = CLAIMS / (HOPS + 1);
    let mut world = world(FULL, Holding { human: 1, machine: 0 }).cut(0);
    let humans: Vec<u32> =
        world.register.actors.list.iter().filter(|actor| actor.kind == HUMAN).map(|actor| actor.id).collect();
    for (at, id) in ids(&mut Random::new(17), CLAIMS).into_iter().enumerate() {
        // The first human is the keeper, who grants the roots.
        let holder = humans[1 + at / CHAINS % (HOPS + 1)];
        let claim = match at.checked_sub(CHAINS).filter(|_| at / CHAINS <= HOPS) {
            Some(above) => {
                let parent = &world.register.claims.list[above];
                Claim { id, parent: parent.id, grantor: parent.holder, holder, ..*parent }
            }
            None => {
                let resource = world.register.resources.list[at % RESOURCES].id;
                Claim { rights: RIGHTS_MAX, ..root(&world.register, id, holder, Usage { resource, right: 0 }) }
            }
        };
        world.register.claims.push(claim);
    }
    assert!(Sound::of(&world.register).is_some_and(|sound| sound.hops(CHAINS * HOPS) == HOPS));
    // Who holds the claims of 16 hops acts.
    world.human = humans[1 + HOPS];
    world.held = (0..CHAINS).map(|at| Usage { resource: world.register.resources.list[at].id, right: 1 }).collect();
    world
}

/// What covers the uses, of a human who holds all 256 claims, each with every right.
#[derive(Clone, Copy, PartialEq, Eq)]
pub enum Covering {
    /// All claims are on one path, in which every other lies.
    OnePath,
    /// The 64 paths lie in each other, but for slashes at their ends; those of the claims from the outermost on, four to a path.
    Nested,
}

/// A full register in which every claim covers every use.
pub fn covering(by: Covering) -> World {
    let mut world = world(FULL, Holding { human: CLAIMS, machine: 0 });
    let register = &mut world.register;
    for (at, resource) in register.resources.list.iter_mut().enumerate() {
        let path = match by {
            Covering::OnePath if at == 0 => b"/delivery".to_vec(),
            Covering::OnePath => path(at),
            Covering::Nested => "a/".repeat(PATH / 2).into_bytes()[..=at].to_vec(),
        };
        resource.len = path.len() as u32;
        resource.path = [0; PATH];
        resource.path[..path.len()].copy_from_slice(&path);
    }
    let resource = |at: usize| register.resources.list[at].id;
    for (at, claim) in register.claims.list.iter_mut().enumerate() {
        claim.resource = if by == Covering::Nested { resource(at / 4) } else { resource(0) };
        claim.rights = RIGHTS_MAX;
    }
    let used = |at: usize| if by == Covering::Nested { RESOURCES - 1 } else { at % RESOURCES };
    world.held = (0..CLAIMS).map(|at| Usage { resource: resource(used(at)), right: at as u32 % 17 }).collect();
    assert!(Sound::of(&world.register).is_some());
    world
}

/// Whether the uses of an action are covered.
#[derive(Clone, Copy, PartialEq, Eq)]
pub enum Covered {
    All,
    None,
}

impl World {
    /// Actions with this many uses, spread over what the human holds.
    pub fn actions(&self, actor: u32, used: usize, covered: Covered) -> Vec<Action> {
        let action = |number: usize| {
            let mut action = Action { actor, now: NOW, used, ..Action::ZERO };
            for (at, usage) in action.uses[..used].iter_mut().enumerate() {
                // A single use is of the last ones held.
                let step = if used == 1 { self.held.len() - 1 } else { at * self.held.len() / used };
                *usage = self.held[(step + self.held.len() - number % self.held.len()) % self.held.len()];
                if covered == Covered::None {
                    usage.right = RIGHT_MAX;
                }
            }
            action
        };
        (0..VARIED).map(action).collect()
    }

    /// The same, where what the human holds gives READ and WRITE as well. Nothing is drawn from these claims.
    pub fn with_read_and_write(mut self) -> World {
        let human = self.human;
        for claim in self.register.claims.list.iter_mut().filter(|claim| claim.holder == human) {
            claim.rights |= 1 << READ | 1 << WRITE;
        }
        assert!(Sound::of(&self.register).is_some());
        self
    }

    /// Actions of the human with one use of what it holds, with this right.
    pub fn single_uses(&self, right: u32) -> Vec<Action> {
        let mut actions = self.actions(self.human, 1, Covered::All);
        actions.iter_mut().for_each(|action| action.uses[0].right = right);
        actions
    }

    /// A full book, the register's resources first.
    pub fn book(&self) -> Book {
        let resources = &self.register.resources;
        let known = resources.list[..resources.count].iter().map(|resource| resource.id);
        let mut book = Book { count: PLACES, ..Book::EMPTY };
        for (at, number) in known.chain(ID_MAX + 1..).take(PLACES).enumerate() {
            let fingerprint = Fingerprint { bytes: std::array::from_fn(|byte| (at + byte) as u8) };
            book.entries[at] = Entry { resource: number, fingerprint };
        }
        book
    }

    /// An action of the holder of some claim.
    fn some_action(&self, random: &mut Random, used: usize) -> Action {
        let register = &self.register;
        let claim = random.pick(&register.claims.list[..register.claims.count]);
        let mut action = Action { actor: claim.holder, now: NOW, used, ..Action::ZERO };
        for usage in &mut action.uses[..used] {
            let resource = random.pick(&register.resources.list[..register.resources.count]).id;
            let right = random.below(17) as u32;
            *usage =
                if random.chance(50) { Usage { resource: claim.resource, right } } else { Usage { resource, right } };
        }
        action
    }

    /// Plans of sixteen actions of all sorts of actors.
    pub fn plans(&self, used: usize) -> Vec<Plan> {
        let random = &mut Random::new(11);
        let plan = |_| {
            let mut plan = Plan { count: ACTIONS, ..Plan::EMPTY };
            plan.actions.fill_with(|| self.some_action(random, used));
            plan
        };
        (0..VARIED).map(plan).collect()
    }

    /// Texts of plans with 64 such actions.
    pub fn plan_texts(&self, used: usize, levels: Levels) -> Vec<Vec<u8>> {
        let random = &mut Random::new(37);
        let text = |_| {
            let mut text = match levels {
                Levels::One => format!("plan={TEXT_ACTIONS}\n"),
                Levels::Eight => {
                    let own = TEXT_ACTIONS / LEVELS;
                    format!("plan={}\nstep=plan\n", own + 1).repeat(LEVELS - 1) + &format!("plan={own}\n")
                }
            }
            .into_bytes();
            for _ in 0..TEXT_ACTIONS {
                text.extend(b"step=action\n");
                text.extend(action_text(&self.some_action(random, used)));
            }
            text
        };
        (0..VARIED).map(text).collect()
    }

    /// Grants that are accepted: under claims that stand where the rules leave some, else roots.
    pub fn grants(&self) -> Vec<Claim> {
        let random = &mut Random::new(13);
        let register = &self.register;
        let actors: Vec<u32> = register.actors.list[..register.actors.count].iter().map(|actor| actor.id).collect();
        let grant = |number| loop {
            let id = random.between(1, ID_MAX as usize) as u32;
            let holder = *random.pick(&actors);
            let claims = &register.claims.list[..register.claims.count];
            let mut claim = root(register, id, holder, usage(register, number % 4));
            if number % 4 != 0 && random.chance(99) && !claims.is_empty() {
                let parent = random.pick(claims);
                let rights = parent.rights & !NOT_BY_MACHINE;
                let left = parent.left.saturating_sub(1);
                claim = Claim { id, parent: parent.id, grantor: parent.holder, holder, rights, left, ..*parent };
            }
            if Model::default().grantable(register, &claim, NOW).is_ok() {
                return claim;
            }
        };
        (0..VARIED).map(grant).collect()
    }

    /// Questions to which the grants would be an answer, each with who signs it behind seven who hold claims.
    pub fn questions(&self, grants: &[Claim]) -> Vec<Question> {
        let holders = &self.register.claims.list[..self.register.claims.count];
        let question = |grant: &Claim| {
            let mut list: [u32; SIGNERS] = std::array::from_fn(|at| holders[at % holders.len()].holder);
            list[SIGNERS - 1] = grant.grantor;
            let usage = Usage { resource: grant.resource, right: RIGHT_MAX.min(grant.rights.trailing_zeros()) };
            Question { actor: grant.holder, usage, moment: NOW, signers: Signers { list, count: SIGNERS } }
        };
        grants.iter().map(question).collect()
    }

    /// Questions of who granted the roots about claims of 15 hops, by the holders of eight claims on the chain: all fail at the circle.
    pub fn circling_questions(&self) -> Vec<Question> {
        let register = &self.register;
        let sound = Sound::of(register).expect("it is sound");
        let ends: Vec<usize> = (0..register.claims.count).filter(|&at| sound.hops(at) == HOPS - 1).collect();
        let question = |number: usize| {
            let end = ends[number % ends.len()];
            let chain: Vec<&Claim> = sound.chain(end).collect();
            let list = std::array::from_fn(|at| chain[at].holder);
            let root = chain[HOPS - 1];
            let usage = Usage { resource: root.resource, right: WRITE };
            Question { actor: root.grantor, usage, moment: NOW, signers: Signers { list, count: SIGNERS } }
        };
        (0..VARIED).map(question).collect()
    }

    /// Grants that are accepted under claims of 15 hops.
    pub fn deep_grants(&self) -> Vec<Claim> {
        let random = &mut Random::new(29);
        let register = &self.register;
        let sound = Sound::of(register).expect("it is sound");
        let parents: Vec<usize> = (0..register.claims.count).filter(|&at| sound.hops(at) == HOPS - 1).collect();
        let grant = |number: usize| loop {
            let parent = &register.claims.list[parents[number % parents.len()]];
            let id = random.between(1, ID_MAX as usize) as u32;
            let holder = random.pick(&register.actors.list[..register.actors.count]).id;
            let claim = Claim { id, parent: parent.id, grantor: parent.holder, holder, ..*parent };
            if Model::default().grantable(register, &claim, NOW).is_ok() {
                return claim;
            }
        };
        (0..VARIED).map(grant).collect()
    }

    /// Revocations that are accepted: of claims all over the list.
    pub fn revocations(&self) -> Vec<(u32, Withdrawn)> {
        let claims = &self.register.claims.list[..self.register.claims.count];
        let revocation = |number: usize| {
            let claim = &claims[number * claims.len() / VARIED];
            (claim.grantor, Withdrawn::Claim(claim.id))
        };
        (0..VARIED).map(revocation).collect()
    }

    /// Clearings of resources all over the list, each by its keeper.
    pub fn resource_clearings(&self) -> Vec<(u32, Withdrawn)> {
        let resources = &self.register.resources.list[..self.register.resources.count];
        let clearing = |number: usize| {
            let resource = &resources[number * resources.len() / VARIED];
            (resource.keeper, Withdrawn::Resource(resource.id))
        };
        (0..VARIED).map(clearing).collect()
    }

    /// The register with one claim in eight run out by now, and clearings of those by keepers.
    pub fn expired_clearings(mut self) -> (World, Vec<(u32, Withdrawn)>) {
        let count = self.register.claims.count;
        self.register.claims.list[..count].iter_mut().step_by(8).for_each(|claim| claim.expiry = NOW);
        let clearings =
            self.resource_clearings().iter().map(|(keeper, _)| (*keeper, Withdrawn::Expired(NOW))).collect();
        (self, clearings)
    }

    /// The register as version 2, each claim with what it has left in version 1.
    pub fn as_two(mut self) -> World {
        let sound = Sound::of(&self.register).expect("it is sound");
        let lefts: Vec<u32> = (0..self.register.claims.count).map(|at| sound.left(at)).collect();
        self.register.claims.list.iter_mut().zip(lefts).for_each(|(claim, left)| claim.left = left);
        self.register.version = VERSION_2;
        assert!(Sound::of(&self.register).is_some());
        self
    }

    /// The register without the claims from this number on.
    pub fn cut(mut self, claims: usize) -> World {
        self.register.claims.count = claims;
        self.register.claims.list[claims..].fill(Claim::ZERO);
        self
    }
}

/// How deep the plans of a text stand in each other.
#[derive(Clone, Copy)]
pub enum Levels {
    One,
    /// As many actions on each level, behind the plan in it.
    Eight,
}

/// What is withdrawn: a claim, all claims on a resource, or those that have expired at a moment.
#[derive(Clone, Copy)]
pub enum Withdrawn {
    Claim(u32),
    Resource(u32),
    Expired(u64),
}

pub fn register_text(register: &Register) -> Vec<u8> {
    let mut text = vec![0; REGISTER_TEXT];
    let length = Model::default().write_register(register, &mut text).expect("it is sound and fits");
    text.truncate(length);
    text
}

pub fn action_text(action: &Action) -> Vec<u8> {
    let mut text =
        format!("now={}\nactor={}\nflags={}\nuses={}\n", action.now, action.actor, action.flags, action.used);
    for usage in &action.uses[..action.used] {
        text += &format!("use={}\nright={}\n", usage.resource, usage.right);
    }
    text += &format!("governs={}\n", action.governed);
    for governed in &action.governs[..action.governed] {
        text += &format!("govern={governed}\n");
    }
    text.into_bytes()
}

/// A JSON action with what stands beside it.
pub struct JsonAction {
    pub action: Action,
    pub id: Vec<u8>,
    pub kind: u32,
}

/// JSON actions with this many uses of READ, WRITE and EXECUTE in turn, all of one length when written.
pub fn json_actions(used: usize) -> Vec<JsonAction> {
    let random = &mut Random::new(19);
    let json_action = |number: usize| {
        let mut action = Action { actor: 60_000 + number as u32, now: NOW, used, ..Action::ZERO };
        for (at, usage) in action.uses[..used].iter_mut().enumerate() {
            *usage = Usage { resource: random.between(10_000, ID_MAX as usize) as u32, right: at as u32 % 3 };
        }
        JsonAction { action, id: format!("3f2b8c1e-77a0-4d6b-9c55-0e1f2a3b{number:04x}").into_bytes(), kind: 1 }
    };
    (0..VARIED).map(json_action).collect()
}

impl JsonAction {
    /// In 002's order, without blanks.
    pub fn text(&self) -> Vec<u8> {
        let mut text = vec![0; JSON_TEXT];
        let length = Model::default().write_json(&self.action, &self.id, self.kind, &mut text);
        text.truncate(length.expect("it is in range and has a place for all"));
        text
    }

    /// In another order, the flags too, a line to each member and a space where a reader expects one.
    pub fn shuffled_text(&self, random: &mut Random) -> Vec<u8> {
        let Action { actor, uses, used, .. } = &self.action;
        let array = |right| {
            let its = uses[..*used].iter().filter(|usage| usage.right == right);
            let numbers: Vec<String> = its.map(|usage| format!("\"{}\"", usage.resource)).collect();
            format!("[{}]", numbers.join(", "))
        };
        let mut flags = FLAG_NAMES.map(|name| format!("    \"{name}\": false"));
        random.shuffle(&mut flags);
        let values = [
            format!("\"{}\"", String::from_utf8_lossy(&self.id)),
            format!("\"{actor}\""),
            format!("\"{}\"", KINDS[self.kind as usize]),
            array(0),
            array(1),
            array(2),
            format!("{{\n{}\n  }}", flags.join(",\n")),
            "\"default\"".to_owned(),
            "0".to_owned(),
        ];
        let mut members: Vec<String> =
            KEYS.iter().zip(values).map(|(key, value)| format!("  \"{key}\": {value}")).collect();
        random.shuffle(&mut members);
        format!("{{\n{}\n}}\n", members.join(",\n")).into_bytes()
    }
}

/// Pairs of paths for containment, by name: (name, outer, inner).
pub fn paths() -> Vec<(&'static str, Vec<u8>, Vec<u8>)> {
    let folders = |length: usize| -> Vec<u8> { b"/reports-and-more".iter().copied().cycle().take(length).collect() };
    let within = |length: usize| [&folders(length)[..], b"/x"].concat();
    let climbing = |length: usize| [&folders(length)[..], b"/.."].concat();
    vec![
        ("7 bytes, contained", b"/site-1".to_vec(), b"/site-1/reports".to_vec()),
        ("16 in 18 bytes, contained", folders(16), within(16)),
        ("62 in 64 bytes, contained", folders(62), within(62)),
        ("64 bytes, another folder", folders(64), [&b"/b"[..], &folders(62)].concat()),
        ("61 in 64 bytes, climbing", folders(61), climbing(61)),
        ("4,096 bytes, contained", folders(4_096), within(4_096)),
        ("4,096 slashes", vec![b'/'; 4_096], vec![b'/'; 4_096]),
    ]
}
