//! The texts of a register, an action, a plan and a verdict.

use super::{Fault, Model, Refusal, Sound};
use crate::types::*;
use std::ops::RangeInclusive;

/// Why a text was not read: the refusal, and the line it is at, from 1; 0 where no single line is at fault.
#[derive(Clone, Copy, Debug, PartialEq, Eq)]
pub struct Unread {
    pub refusal: Refusal,
    pub line: usize,
}

/// The lines of a text not yet read.
struct Lines<'t> {
    rest: &'t [u8],
    /// The number of the line read last.
    line: usize,
    leading_zeros: bool,
    /// Whether the actions are counted anew in each plan.
    room_per_plan: bool,
}

const ANY_ID: RangeInclusive<u64> = 0..=ID_MAX as u64;
const REAL_ID: RangeInclusive<u64> = 1..=ID_MAX as u64;

/// The decimal that the digits are, of any length; one above 2^64 - 1 is given as that.
pub fn decimal(digits: &[u8], leading_zeros: bool) -> Option<u64> {
    let is_decimal = match digits {
        [] => false,
        [b'0', _, ..] if !leading_zeros => false,
        _ => digits.iter().all(u8::is_ascii_digit),
    };
    is_decimal.then(|| {
        digits.iter().fold(0, |number: u64, digit| number.saturating_mul(10).saturating_add(u64::from(digit - b'0')))
    })
}

impl<'t> Lines<'t> {
    fn fail<T>(&self, refusal: Refusal) -> Result<T, Unread> {
        Err(Unread { refusal, line: self.line })
    }

    /// The value of the next line, which must have this key and be ended by LF.
    fn value(&mut self, key: &str) -> Result<&'t [u8], Unread> {
        self.line += 1;
        let value = self.rest.strip_prefix(key.as_bytes()).and_then(|rest| rest.strip_prefix(b"="));
        let Some((value, end)) = value.and_then(|value| Some((value, value.iter().position(|&byte| byte == b'\n')?)))
        else {
            return self.fail(Refusal::Form);
        };
        self.rest = &value[end + 1..];
        Ok(&value[..end])
    }

    /// The decimal on the next line.
    fn decimal(&mut self, key: &str) -> Result<u64, Unread> {
        let digits = self.value(key)?;
        match decimal(digits, self.leading_zeros) {
            Some(number) => Ok(number),
            None => self.fail(Refusal::Form),
        }
    }

    fn number(&mut self, key: &str, range: RangeInclusive<u64>) -> Result<u64, Unread> {
        let number = self.decimal(key)?;
        if range.contains(&number) {
            Ok(number)
        } else {
            self.fail(Refusal::Form)
        }
    }

    fn id(&mut self, key: &str, range: RangeInclusive<u64>) -> Result<u32, Unread> {
        self.number(key, range).map(|number| number as u32)
    }

    fn count(&mut self, key: &str, limit: usize) -> Result<usize, Unread> {
        let number = self.decimal(key)?;
        if number <= limit as u64 {
            Ok(number as usize)
        } else {
            self.fail(Refusal::Count)
        }
    }

    fn end(&mut self) -> Result<(), Unread> {
        self.line += 1;
        if self.rest.is_empty() {
            Ok(())
        } else {
            self.fail(Refusal::Form)
        }
    }

    fn actor(&mut self) -> Result<Actor, Unread> {
        let id = self.id("actor", REAL_ID)?;
        let kind = match self.value("kind")? {
            b"human" => HUMAN,
            b"machine" => MACHINE,
            _ => return self.fail(Refusal::Form),
        };
        Ok(Actor { id, kind, owner: self.id("owner", ANY_ID)? })
    }

    fn resource(&mut self, resource: &mut Resource) -> Result<(), Unread> {
        resource.id = self.id("resource", REAL_ID)?;
        resource.is_public = self.id("public", 0..=1)?;
        resource.keeper = self.id("keeper", REAL_ID)?;
        let scope = self.value("scope")?;
        if scope.len() > PATH || !scope.iter().all(|byte| (0x21..=0x7E).contains(byte)) {
            return self.fail(Refusal::Form);
        }
        resource.len = scope.len() as u32;
        resource.path[..scope.len()].copy_from_slice(scope);
        Ok(())
    }

    /// A claim of a register of this version. One of version 1 says nothing of what it has left.
    fn claim(&mut self, version: u64) -> Result<Claim, Unread> {
        Ok(Claim {
            id: self.id("claim", REAL_ID)?,
            parent: self.id("parent", ANY_ID)?,
            grantor: self.id("grantor", REAL_ID)?,
            holder: self.id("holder", REAL_ID)?,
            resource: self.id("resource", REAL_ID)?,
            rights: self.id("rights", 1..=RIGHTS_MAX.into())?,
            weight: self.id("weight", 0..=WEIGHT_MAX.into())?,
            left: if version == VERSION_2 { self.id("left", 0..=LEFT_MAX.into())? } else { 0 },
            expiry: self.number("expiry", 0..=MOMENT_MAX)?,
        })
    }

    /// Reads into an empty register.
    fn register(&mut self, register: &mut Register) -> Result<(), Unread> {
        register.version = self.number("register", VERSION_1..=VERSION_2)?;
        register.actors.count = self.count("actors", ACTORS)?;
        for actor in &mut register.actors.list[..register.actors.count] {
            *actor = self.actor()?;
        }
        register.resources.count = self.count("resources", RESOURCES)?;
        for resource in &mut register.resources.list[..register.resources.count] {
            self.resource(resource)?;
        }
        register.claims.count = self.count("claims", CLAIMS)?;
        for claim in &mut register.claims.list[..register.claims.count] {
            *claim = self.claim(register.version)?;
        }
        self.end()
    }

    /// Reads an action's lines into the action of all zeros.
    fn action(&mut self, action: &mut Action) -> Result<(), Unread> {
        action.now = self.number("now", 0..=MOMENT_MAX)?;
        action.actor = self.id("actor", ANY_ID)?;
        action.flags = self.id("flags", 0..=FLAGS_MAX.into())?;
        action.used = self.count("uses", USES)?;
        for usage in &mut action.uses[..action.used] {
            *usage = Usage { resource: self.id("use", ANY_ID)?, right: self.id("right", 0..=RIGHT_MAX.into())? };
        }
        action.governed = self.count("governs", GOVERNS)?;
        for governed in &mut action.governs[..action.governed] {
            *governed = self.id("govern", ANY_ID)?;
        }
        Ok(())
    }

    /// Reads a plan that stands at a level, the outermost being 1, and the plans in it.
    fn plan(&mut self, level: usize, plan: &mut PlanText) -> Result<(), Unread> {
        let number = plan.plans;
        plan.plans += 1;
        let counted_from = if self.room_per_plan { plan.actions.len() } else { 0 };
        let steps = self.count("plan", STEPS)?;
        for _ in 0..steps {
            let is_full = plan.actions.len() - counted_from == TEXT_ACTIONS;
            match self.value("step")? {
                b"action" if is_full => return self.fail(Refusal::TooManyActions),
                b"action" => {
                    let mut action = Action::ZERO;
                    self.action(&mut action)?;
                    plan.actions.push(action);
                    plan.homes.push(number);
                }
                b"plan" if level == LEVELS => return self.fail(Refusal::TooDeep),
                b"plan" => self.plan(level + 1, plan)?,
                _ => return self.fail(Refusal::Form),
            }
        }
        Ok(())
    }
}

/// What a plan's text says.
#[derive(Default)]
pub struct PlanText {
    /// In reading order.
    pub actions: Vec<Action>,
    /// By action: the number of the plan that it is a step of, from 0 in reading order.
    pub homes: Vec<usize>,
    /// How many plans there are.
    pub plans: usize,
}

/// Where a text goes.
pub trait Sink {
    fn bytes(&mut self, bytes: &[u8]);

    fn number(&mut self, number: u64) {
        // Twenty digits hold every u64.
        let mut digits = [0; 20];
        let mut start = digits.len();
        let mut rest = number;
        loop {
            start -= 1;
            digits[start] = b'0' + (rest % 10) as u8;
            rest /= 10;
            if rest == 0 {
                break;
            }
        }
        self.bytes(&digits[start..]);
    }

    fn line(&mut self, key: &str, number: u64) {
        self.bytes(key.as_bytes());
        self.bytes(b"=");
        self.number(number);
        self.bytes(b"\n");
    }

    fn words(&mut self, key: &str, value: &[u8]) {
        self.bytes(key.as_bytes());
        self.bytes(b"=");
        self.bytes(value);
        self.bytes(b"\n");
    }
}

/// Counts a text's bytes.
struct Length(usize);

impl Sink for Length {
    fn bytes(&mut self, bytes: &[u8]) {
        self.0 += bytes.len();
    }
}

/// Fills a buffer that has room for the text.
struct Filling<'b> {
    buffer: &'b mut [u8],
    at: usize,
}

impl Sink for Filling<'_> {
    fn bytes(&mut self, bytes: &[u8]) {
        self.buffer[self.at..][..bytes.len()].copy_from_slice(bytes);
        self.at += bytes.len();
    }
}

/// Something with a text.
pub trait Text {
    fn text(&self, out: &mut impl Sink);

    /// Writes the text to the front of the buffer and answers its length. A buffer too short is left as it was.
    fn write(&self, buffer: &mut [u8]) -> Result<usize, Refusal> {
        let mut length = Length(0);
        self.text(&mut length);
        if length.0 > buffer.len() {
            return Err(Refusal::Buffer);
        }
        self.text(&mut Filling { buffer, at: 0 });
        Ok(length.0)
    }
}

/// Of a sound register.
impl Text for Register {
    fn text(&self, out: &mut impl Sink) {
        out.line("register", self.version);
        out.line("actors", self.actors.count as u64);
        for actor in &self.actors.list[..self.actors.count] {
            out.line("actor", actor.id.into());
            out.words("kind", if actor.kind == HUMAN { b"human" } else { b"machine" });
            out.line("owner", actor.owner.into());
        }
        out.line("resources", self.resources.count as u64);
        for resource in &self.resources.list[..self.resources.count] {
            out.line("resource", resource.id.into());
            out.line("public", resource.is_public.into());
            out.line("keeper", resource.keeper.into());
            out.words("scope", &resource.path[..resource.len as usize]);
        }
        out.line("claims", self.claims.count as u64);
        for claim in &self.claims.list[..self.claims.count] {
            out.line("claim", claim.id.into());
            out.line("parent", claim.parent.into());
            out.line("grantor", claim.grantor.into());
            out.line("holder", claim.holder.into());
            out.line("resource", claim.resource.into());
            out.line("rights", claim.rights.into());
            out.line("weight", claim.weight.into());
            if self.version == VERSION_2 {
                out.line("left", claim.left.into());
            }
            out.line("expiry", claim.expiry);
        }
    }
}

impl Text for Verdict {
    fn text(&self, out: &mut impl Sink) {
        if self.decision == STOPPED {
            out.words("verdict", b"stopped");
            out.line("refusal", self.refusal.into());
            return;
        }
        out.words("verdict", if self.decision == PERMITTED { b"permitted" } else { b"refused" });
        out.line("violations", self.count as u64);
        for violation in &self.violations[..self.count] {
            out.line("violation", violation.kind.into());
            out.line("at", violation.value.into());
        }
    }
}

impl Model {
    fn lines<'t>(&self, text: &'t [u8]) -> Lines<'t> {
        Lines {
            rest: text,
            line: 0,
            leading_zeros: self.has(Fault::LeadingZero),
            room_per_plan: self.has(Fault::RoomPerPlan),
        }
    }

    /// Reads a register's text into an empty register, each claim with what it has left. Refused, the register is left empty.
    pub fn read_register(&self, text: &[u8], register: &mut Register) -> Result<(), Unread> {
        let read = self.read_lines(text, register).and_then(|()| {
            let sound = Sound::of(register).ok_or(Unread { refusal: Refusal::Unsound, line: 0 })?;
            let lefts: [u32; CLAIMS] =
                std::array::from_fn(|at| if at < sound.claims.len() { sound.left(at) } else { 0 });
            register.claims.list.iter_mut().zip(lefts).for_each(|(claim, left)| claim.left = left);
            Ok(())
        });
        if read.is_err() {
            *register = Register::EMPTY;
        }
        read
    }

    /// Reads the lines of a register's text, and judges nothing.
    pub(super) fn read_lines(&self, text: &[u8], register: &mut Register) -> Result<(), Unread> {
        self.lines(text).register(register)
    }

    /// Writes the register's text to the front of the buffer and answers its length. Refused, the buffer is untouched.
    pub fn write_register(&self, register: &Register, buffer: &mut [u8]) -> Result<usize, Refusal> {
        if self.sound(register) {
            register.write(buffer)
        } else {
            Err(Refusal::Unsound)
        }
    }

    pub fn read_action(&self, text: &[u8]) -> Result<Action, Unread> {
        let mut action = Action::ZERO;
        let mut lines = self.lines(text);
        lines.action(&mut action).and_then(|()| lines.end()).map(|()| action)
    }

    pub fn read_plan(&self, text: &[u8]) -> Result<PlanText, Unread> {
        let mut plan = PlanText::default();
        plan.actions.reserve(TEXT_ACTIONS);
        plan.homes.reserve(TEXT_ACTIONS);
        let mut lines = self.lines(text);
        lines.plan(1, &mut plan).and_then(|()| lines.end()).map(|()| plan)
    }

    /// The moment that a clock's text gives: one line, its number of any size.
    fn read_clock(&self, text: &[u8]) -> Result<u64, Unread> {
        let mut lines = self.lines(text);
        let now = lines.decimal("now")?;
        lines.end().map(|()| now)
    }

    /// Writes what the program for JSON actions prints for these three texts, and answers its length.
    pub fn json_verdict_text(
        &self,
        register: &[u8],
        clock: &[u8],
        action: &[u8],
        buffer: &mut [u8],
    ) -> Result<usize, Refusal> {
        let mut read = Register::EMPTY;
        let now = self.read_register(register, &mut read).and_then(|()| self.read_clock(clock));
        let verdict = match now.map(|now| self.read_json(action, now)) {
            Err(unread) => Verdict::stopped(unread.refusal),
            Ok(JsonRead { accepted: 0, refusal, .. }) => Verdict { decision: STOPPED, refusal, ..Verdict::EMPTY },
            Ok(JsonRead { action, .. }) => self.gate(&read, &action),
        };
        verdict.write(buffer)
    }

    /// Writes what the printing program prints for these two texts, and answers its length.
    pub fn verdict_text(&self, register: &[u8], action: &[u8], buffer: &mut [u8]) -> Result<usize, Refusal> {
        let mut read = Register::EMPTY;
        let verdict = self
            .read_register(register, &mut read)
            .and_then(|()| self.read_action(action))
            .map_or_else(|unread| Verdict::stopped(unread.refusal), |action| self.gate(&read, &action));
        verdict.write(buffer)
    }
}
