//! Two registers that look alike to the actor of an action: what the theorems `guess-blind`, `attach-blind` and `fetch-blind-register` of
//! the crate `guesses` say of the answers.

use crate::case::{Call, Script};
use guvrendik_model::model::paths::contains;
use guvrendik_model::model::{Model, Sound};
use guvrendik_model::types::*;

/// Two registers and one action, whose actor can not tell them apart, with a book and a fingerprint to attach.
pub struct Guess {
    pub registers: [Box<Register>; 2],
    pub action: Box<Action>,
    pub book: Box<Book>,
    pub fingerprint: Fingerprint,
}

impl Guess {
    /// The calls on each of the two registers: the gates, and an attach and a fetch of one of the used numbers.
    pub fn scripts(self) -> [Script; 2] {
        let asked = asked(&self.registers, &self.action);
        let Guess { registers, action, book, fingerprint } = self;
        let Action { actor, now, .. } = *action;
        let mut calls = vec![Call::Gate(action)];
        if let Some(resource) = asked {
            calls.push(Call::Attach { book: book.clone(), actor, resource, now, fingerprint });
            calls.push(Call::Fetch { book, actor, resource, now });
        }
        registers.map(|register| Script { register: Some(register), calls: calls.clone() })
    }

    /// Whether the record of a used number differs.
    pub fn aims(&self) -> bool {
        uses(&self.action).iter().any(|usage| differs(&self.registers, usage.resource))
    }

    /// Whether the book has an entry of the number that is asked for.
    pub fn enters(&self) -> bool {
        let entries = self.book.entries.get(..self.book.count).unwrap_or(&[]);
        asked(&self.registers, &self.action).is_some_and(|asked| entries.iter().any(|entry| entry.resource == asked))
    }
}

/// The used number that an attach and a fetch are of: the first whose record differs, else the first.
pub fn asked(registers: &[Box<Register>; 2], action: &Action) -> Option<u32> {
    let mut numbers = uses(action).iter().map(|usage| usage.resource);
    let first = numbers.clone().next();
    numbers.find(|&resource| differs(registers, resource)).or(first)
}

/// Whether the record of a number differs in two sound registers.
fn differs(registers: &[Box<Register>; 2], resource: u32) -> bool {
    let [first, second] = [0, 1].map(|at| Sound::of(&registers[at]).expect("both are sound"));
    standing(&first, resource) != standing(&second, resource)
}

/// What is seen of a claim.
#[derive(PartialEq)]
struct Seen<'r> {
    holder: u32,
    resource: u32,
    rights: u32,
    hops: usize,
    lives: bool,
    path: &'r [u8],
}

/// Whether the registers are sound, of one version, and agree on all that the actor sees: its record and its owner's, what is seen of each
/// claim that one of them holds, in register order, and for each use the resource's record, or that it is hidden in both.
pub fn alike(first: &Register, second: &Register, action: &Action) -> bool {
    let (Some(first), Some(second)) = (Sound::of(first), Sound::of(second)) else {
        return false;
    };
    let actor = action.actor;
    let owners = [owner(&first, actor), owner(&second, actor)];
    first.version == second.version
        && first.actor(actor) == second.actor(actor)
        && first.actor(owners[0]) == second.actor(owners[1])
        && seen(&first, action) == seen(&second, action)
        && uses(action).iter().all(|&Usage { resource, .. }| {
            standing(&first, resource) == standing(&second, resource)
                || hidden(&first, actor, resource) && hidden(&second, actor, resource)
        })
}

fn uses(action: &Action) -> &[Usage] {
    &action.uses[..action.used.min(USES)]
}

fn owner(sound: &Sound, actor: u32) -> u32 {
    sound.actor(actor).map_or(0, |actor| actor.owner)
}

/// The positions of the claims that the actor or its owner holds, dead ones too.
fn held(sound: &Sound, actor: u32) -> Vec<usize> {
    let holders = [actor, owner(sound, actor)];
    (0..sound.claims.len()).filter(|&at| holders.contains(&sound.claims[at].holder)).collect()
}

fn path<'r>(sound: &Sound<'r>, resource: u32) -> &'r [u8] {
    sound.resource(resource).and_then(Resource::path).expect("a claim's resource stands")
}

fn seen<'r>(sound: &Sound<'r>, action: &Action) -> Vec<Seen<'r>> {
    let see = |at: usize| {
        let Claim { holder, resource, rights, .. } = sound.claims[at];
        let lives = Model::default().live(sound, at, action.now);
        Seen { holder, resource, rights, hops: sound.hops(at), lives, path: path(sound, resource) }
    };
    held(sound, action.actor).into_iter().map(see).collect()
}

/// Whether no resource has the number, or it is not public and no resource of a claim that is seen contains it.
pub fn hidden(sound: &Sound, actor: u32, resource: u32) -> bool {
    let Some(used) = sound.resource(resource) else {
        return true;
    };
    let inner = path(sound, used.id);
    let held = held(sound, actor);
    let outer = |at: &usize| contains(path(sound, sound.claims[*at].resource), inner).is_some();
    used.is_public == 0 && !held.iter().any(outer)
}

/// The record of a resource: bytes past its path are no part of it.
fn standing<'r>(sound: &Sound<'r>, resource: u32) -> Option<(u32, u32, &'r [u8])> {
    sound.resource(resource).map(|used| (used.is_public, used.keeper, path(sound, used.id)))
}

#[cfg(test)]
mod tests {
    use super::*;
    use crate::case::{violation, Outcome, YES};
    use guvrendik_model::model::Refusal;

    /// Human 1 keeps report 1 and lets human 2 read it; human 3 keeps report 2.
    fn two_keepers() -> Box<Register> {
        let mut register = Box::new(Register::EMPTY);
        (1..=3).for_each(|id| register.actors.push(Actor { id, kind: HUMAN, owner: 0 }));
        for (id, keeper, byte) in [(1, 1, b'a'), (2, 3, b'b')] {
            let mut resource = Resource { id, keeper, len: 1, ..Resource::ZERO };
            resource.path[0] = byte;
            register.resources.push(resource);
        }
        let claim = Claim { id: 1, grantor: 1, holder: 2, resource: 1, rights: 1, weight: 1, ..Claim::ZERO };
        register.claims.push(claim);
        register
    }

    fn reading(resource: u32) -> Action {
        let mut action = Action { actor: 2, used: 1, ..Action::ZERO };
        action.uses[0] = Usage { resource, right: READ };
        action
    }

    /// A guess of a number, with a book that has an entry of it.
    fn guess(registers: [Box<Register>; 2], action: Action) -> Guess {
        let fingerprint = Fingerprint { bytes: [7; 32] };
        let mut book = Box::new(Book::EMPTY);
        book.entries[0] = Entry { resource: action.uses[0].resource, fingerprint };
        book.count = 1;
        Guess { registers, action: Box::new(action), book, fingerprint }
    }

    /// What the calls on each of the two registers come to.
    fn outcomes(guess: Guess) -> [Vec<Outcome>; 2] {
        guess.scripts().map(|script| {
            let (mut register, mut out) = (script.start(), Vec::new());
            script.calls.iter().map(|call| call.answer(&Model::default(), &mut register, &mut out)).collect()
        })
    }

    const REFUSED_ALL: [Outcome; 3] =
        [violation(4), Refusal::NotPermitted as Outcome, Refusal::NotPermitted as Outcome];

    #[test]
    fn a_report_that_is_gone() {
        let (first, mut second) = (two_keepers(), two_keepers());
        second.resources.count = 1;
        assert!(alike(&first, &second, &reading(2)));
        let guess = guess([first, second], reading(2));
        assert!(guess.aims() && guess.enters());
        assert_eq!(outcomes(guess), [REFUSED_ALL, REFUSED_ALL]);
    }

    #[test]
    fn a_report_that_is_public() {
        let (first, mut second) = (two_keepers(), two_keepers());
        second.resources.list[1].is_public = 1;
        assert!(!alike(&first, &second, &reading(2)));
        assert!(alike(&first, &second, &reading(1)));
        let fetched = [YES, Refusal::NotPermitted as Outcome, YES];
        assert_eq!(outcomes(guess([first, second], reading(2))), [REFUSED_ALL, fetched]);
    }

    #[test]
    fn the_number_asked_is_one_that_differs() {
        let (first, mut second) = (two_keepers(), two_keepers());
        second.resources.count = 1;
        let registers = [first, second];
        let mut action = reading(1);
        assert_eq!(asked(&registers, &action), Some(1));
        action.uses[1].resource = 2;
        action.used = 2;
        assert_eq!(asked(&registers, &action), Some(2));
        action.used = 0;
        assert_eq!(asked(&registers, &action), None);
    }

    #[test]
    fn a_claim_that_is_held() {
        for change in [
            |claim: &mut Claim| claim.rights = 2,
            |claim: &mut Claim| claim.weight = 0,
            |claim: &mut Claim| claim.holder = 3,
        ] {
            let (first, mut second) = (two_keepers(), two_keepers());
            change(&mut second.claims.list[0]);
            assert!(!alike(&first, &second, &reading(2)));
        }
    }
}
