//! The comparison: scripts go to the driver in batches, and each whole answer is held against the model's.

use crate::case::{outcome_name, Call, Outcome, Script, CALLS, KINDS, NAMES, WITHDRAWALS, YES};
use crate::driver::Driver;
use crate::generate::random::Random;
use crate::generate::{actions, changes, json, registers, texts, trees};
use crate::guesses::Guess;
use crate::pairs::{Answers, Pair, DEMANDED};
use crate::{saved, shrink};
use guvrendik_model::model::words::Words;
use guvrendik_model::model::{Model, Refusal};
use guvrendik_model::requests::{put_request, Request, STACK_ORDER};
use guvrendik_model::shapes::*;
use guvrendik_model::types::*;
use guvrendik_model::wire::Wire;
use std::collections::BTreeMap;
use std::io;
use std::mem::size_of;
use std::path::{Path, PathBuf};

/// A batch is sent when its registers and answers come to this many bytes.
const BATCH: usize = 2 << 20;

/// How many differences are made smaller and saved; the rest are only counted.
const SHOWN: usize = 5;

/// Where a script's answer was not the model's.
pub struct Difference {
    /// The call's position in the script.
    pub call: usize,
    pub expected: Vec<u8>,
    /// `None` where the driver died.
    pub got: Option<Vec<u8>>,
}

/// A script that showed a difference.
pub struct Finding {
    pub script: Script,
    pub difference: Difference,
}

#[derive(Default)]
pub struct Tally {
    pub passed: u64,
    pub failed: u64,
    /// Cases by call.
    pub calls: [u64; CALLS],
    /// How often each outcome of each call was met.
    pub outcomes: BTreeMap<(usize, Outcome), u64>,
    /// How many pairs had these calls, by `Call::number`, in this order.
    pub pairs: BTreeMap<(usize, usize), u64>,
    pub pairs_on_one_chain: u64,
    /// How often a call of a pair had these outcomes, when it came first and when it came second.
    pub pair_outcomes: BTreeMap<(Outcome, Outcome), u64>,
    /// How many registers were alike to an action's actor, how many of these had a used number whose record differs, and how many of these
    /// came with a book that has an entry of it.
    pub alike: u64,
    pub aimed: u64,
    pub entered: u64,
    /// How many calls were made on a register of each version; and of the grants among them, how often each outcome was met.
    pub versions: BTreeMap<u64, u64>,
    pub grants: BTreeMap<(u64, Outcome), u64>,
    /// How many violations of each kind the gate of the library listed.
    pub kinds: BTreeMap<u32, u64>,
}

pub struct Comparison<'c> {
    pub model: Model,
    command: &'c [String],
    driver: Driver,
    pub tally: Tally,
}

/// The next scripts, up to a batch.
fn next_batch(scripts: &mut impl Iterator<Item = Script>) -> Vec<Script> {
    let mut size = 0;
    let mut batch = Vec::new();
    while size < BATCH {
        let Some(script) = scripts.next() else {
            break;
        };
        size += size_of::<Register>() + script.calls.iter().map(Call::answer_size).sum::<usize>();
        batch.push(script);
    }
    batch
}

impl<'c> Comparison<'c> {
    pub fn start(command: &'c [String], model: Model) -> io::Result<Self> {
        Ok(Comparison { model, command, driver: Driver::start(command)?, tally: Tally::default() })
    }

    /// Compares the scripts until there are `most` findings, and answers these. While the driver works on one batch, the model
    /// works on the one before.
    pub fn run(&mut self, mut scripts: impl Iterator<Item = Script>, most: usize) -> io::Result<Vec<Finding>> {
        let mut findings = Vec::new();
        let mut sent = next_batch(&mut scripts);
        self.send(&sent);
        while !sent.is_empty() {
            let next = next_batch(&mut scripts);
            self.send(&next);
            if !self.check(&sent, &mut findings)? {
                // The next one was lost with the driver.
                self.send(&next);
            }
            sent = next;
            if findings.len() >= most {
                self.restart()?;
                break;
            }
        }
        Ok(findings)
    }

    fn send(&self, scripts: &[Script]) {
        let mut requests = Vec::new();
        scripts.iter().for_each(|script| script.request(&mut requests));
        self.driver.send(requests);
    }

    /// Reads the answers to a batch that was sent. `false` where the driver died over it; then each script was tried alone.
    fn check(&mut self, batch: &[Script], findings: &mut Vec<Finding>) -> io::Result<bool> {
        let before = (self.tally.passed, self.tally.failed, self.tally.calls);
        let known = findings.len();
        for script in batch {
            match self.check_answers(script) {
                Ok(None) => (),
                Ok(Some(difference)) => findings.push(Finding { script: script.clone(), difference }),
                Err(_) => {
                    (self.tally.passed, self.tally.failed, self.tally.calls) = before;
                    findings.truncate(known);
                    self.restart()?;
                    self.check_singly(batch, findings)?;
                    return Ok(false);
                }
            }
        }
        Ok(true)
    }

    /// Sends each script of a batch alone, to find those that the driver dies of.
    fn check_singly(&mut self, batch: &[Script], findings: &mut Vec<Finding>) -> io::Result<()> {
        for script in batch {
            if let Some(difference) = self.ask(script)? {
                findings.push(Finding { script: script.clone(), difference });
            }
        }
        Ok(())
    }

    fn restart(&mut self) -> io::Result<()> {
        self.driver = Driver::start(self.command)?;
        Ok(())
    }

    /// Sends one script and compares its answers. A driver that dies is a difference too.
    pub fn ask(&mut self, script: &Script) -> io::Result<Option<Difference>> {
        self.ask_seeing(script, |_| ())
    }

    /// The same, showing each answer.
    fn ask_seeing(&mut self, script: &Script, see: impl FnMut(&[u8])) -> io::Result<Option<Difference>> {
        self.send(std::slice::from_ref(script));
        match self.check_seeing(script, see) {
            Ok(difference) => Ok(difference),
            Err(call) => {
                self.tally.failed += 1;
                self.restart()?;
                Ok(Some(Difference { call, expected: self.expected(script, call), got: None }))
            }
        }
    }

    /// Reads the answers to a script that was sent, all of them, and answers the first that differs: after it the two may stand
    /// at different registers. `Err` with the call's position where the driver died.
    fn check_answers(&mut self, script: &Script) -> Result<Option<Difference>, usize> {
        self.check_seeing(script, |_| ())
    }

    /// The same, showing each answer.
    fn check_seeing(&mut self, script: &Script, mut see: impl FnMut(&[u8])) -> Result<Option<Difference>, usize> {
        let mut state = script.start();
        let mut found: Option<Difference> = None;
        let (mut expected, mut got) = (Vec::new(), Vec::new());
        for (position, call) in script.calls.iter().enumerate() {
            self.driver.receive(call.answer_size(), &mut got).map_err(|_| position)?;
            see(&got);
            if found.is_some() {
                continue;
            }
            expected.clear();
            let version = state.version;
            let outcome = call.answer(&self.model, &mut state, &mut expected);
            self.tally.calls[call.number()] += 1;
            if script.register.is_some() {
                *self.tally.versions.entry(version).or_default() += 1;
            }
            if let Call::Grant { .. } = call {
                *self.tally.grants.entry((version, outcome)).or_default() += 1;
            }
            *self.tally.outcomes.entry((call.number(), outcome)).or_default() += 1;
            call.kinds(&got).into_iter().for_each(|kind| *self.tally.kinds.entry(kind).or_default() += 1);
            if expected == got {
                self.tally.passed += 1;
            } else {
                self.tally.failed += 1;
                found = Some(Difference { call: position, expected: expected.clone(), got: Some(got.clone()) });
            }
        }
        Ok(found)
    }

    /// Compares pairs of withdrawals in both orders until there are `most` findings, and answers these: each answer with the
    /// model's, and the library's answers in one order with those in the other.
    pub fn pairs(&mut self, pairs: impl Iterator<Item = Pair>, most: usize) -> io::Result<Vec<Finding>> {
        let mut findings = Vec::new();
        for pair in pairs {
            let known = findings.len();
            let scripts = pair.scripts();
            let mut seen = Vec::new();
            for script in &scripts {
                let see = |answer: &[u8]| seen.push(Revoked::take(&mut &answer[size_of::<u32>()..]));
                if let Some(difference) = self.ask_seeing(script, see)? {
                    findings.push(Finding { script: script.clone(), difference });
                }
            }
            if let ([one, two, three, four], true) = (&seen[..], findings.len() == known) {
                self.check_orders(&pair, &scripts, &Answers([[one, two], [three, four]], pair.revokes()));
            }
            if findings.len() >= most {
                break;
            }
        }
        Ok(findings)
    }

    /// Counts a pair, passed where its answers are as proved.
    fn check_orders(&mut self, pair: &Pair, scripts: &[Script], answers: &Answers) {
        let [one, two] = [0, 1].map(|at| pair.calls[at].number());
        for calls in [(one, two), (two, one)] {
            *self.tally.pairs.entry(calls).or_default() += 1;
        }
        self.tally.pairs_on_one_chain += u64::from(pair.on_one_chain);
        for told in answers.told() {
            *self.tally.pair_outcomes.entry(told).or_default() += 1;
        }
        match answers.broken() {
            None => self.tally.passed += 1,
            Some(how) => {
                self.tally.failed += 1;
                println!("two withdrawals: {how}");
                scripts.iter().for_each(|script| print!("{}", saved::write(script)));
            }
        }
    }

    /// Compares the answers on registers that look alike to an action's actor until there are `most` findings, and answers these: each
    /// answer with the model's, and the library's on the one with those on the other.
    pub fn guesses(&mut self, guesses: impl Iterator<Item = Guess>, most: usize) -> io::Result<Vec<Finding>> {
        let mut findings = Vec::new();
        for guess in guesses {
            let known = findings.len();
            self.tally.alike += 1;
            self.tally.aimed += u64::from(guess.aims());
            self.tally.entered += u64::from(guess.aims() && guess.enters());
            let scripts = guess.scripts();
            let mut told = [Vec::new(), Vec::new()];
            // Of the gate, which comes first, the verdicts alone: the table behind them shows the register whole.
            let verdicts = size_of::<u32>() + 3 * size_of::<Verdict>();
            for (script, answers) in scripts.iter().zip(&mut told) {
                let seeing = |answer: &[u8]| {
                    let seen = if answers.is_empty() { verdicts } else { answer.len() };
                    answers.push(answer[..seen].to_vec());
                };
                if let Some(difference) = self.ask_seeing(script, seeing)? {
                    findings.push(Finding { script: script.clone(), difference });
                }
            }
            self.tally.count(told[0] == told[1]);
            if told[0] != told[1] && findings.len() == known {
                println!("two registers that look alike get two answers:");
                scripts.iter().for_each(|script| print!("{}", saved::write(script)));
            }
            if findings.len() >= most {
                break;
            }
        }
        Ok(findings)
    }

    /// The model's answer to one call of a script.
    fn expected(&self, script: &Script, position: usize) -> Vec<u8> {
        let mut state = script.start();
        let mut answer = Vec::new();
        for call in &script.calls[..=position] {
            answer.clear();
            call.answer(&self.model, &mut state, &mut answer);
        }
        answer
    }

    /// The finding made small: the one call on the register it was made on, where that differs too, then shrunk. As it was where
    /// the difference does not show again.
    pub fn reduce(&mut self, finding: Finding) -> io::Result<Finding> {
        let tally = std::mem::take(&mut self.tally);
        let alone = self.alone(&finding.script, finding.difference.call);
        let start = if self.ask(&alone)?.is_some() { alone } else { finding.script.clone() };
        let mut broken = None;
        let script = shrink::shrink(start, |smaller| match self.ask(smaller) {
            Ok(difference) => difference.is_some(),
            Err(error) => {
                broken = Some(error);
                false
            }
        });
        let again = self.ask(&script)?;
        self.tally = tally;
        match (broken, again) {
            (Some(error), _) => Err(error),
            (None, Some(difference)) => Ok(Finding { script, difference }),
            (None, None) => {
                println!("a difference that did not show again:");
                Ok(finding)
            }
        }
    }

    /// One call of a script with the register that it is made on.
    fn alone(&self, script: &Script, position: usize) -> Script {
        let mut state = script.start();
        let mut answer = Vec::new();
        for call in &script.calls[..position] {
            answer.clear();
            call.answer(&self.model, &mut state, &mut answer);
        }
        let register = script.register.as_ref().map(|_| Box::new(state));
        Script { register, calls: vec![script.calls[position].clone()] }
    }

    /// Replays the saved scripts of a folder, in the order of their names.
    pub fn replay(&mut self, folder: &Path) -> io::Result<()> {
        let mut files: Vec<PathBuf> = match std::fs::read_dir(folder) {
            Ok(entries) => entries.map(|entry| Ok(entry?.path())).collect::<io::Result<_>>()?,
            Err(error) if error.kind() == io::ErrorKind::NotFound => Vec::new(),
            Err(error) => return Err(error),
        };
        files.retain(|file| file.extension().is_some_and(|extension| extension == "case"));
        files.sort();
        for file in &files {
            let failed = self.tally.failed;
            match saved::read(&std::fs::read_to_string(file)?) {
                Ok(script) if saved::read(&saved::write(&script)).as_ref() != Ok(&script) => {
                    println!("{}: not read as it is written", file.display());
                    self.tally.failed += 1;
                }
                Ok(script) => {
                    if let Some(difference) = self.ask(&script)? {
                        println!("{}: still differs", file.display());
                        print!("{}", remarks(&script, &difference));
                        self.tally.failed = failed + 1;
                    }
                }
                Err(why) => {
                    println!("{}: {why}", file.display());
                    self.tally.failed += 1;
                }
            }
        }
        println!("{} saved cases replayed", files.len());
        Ok(())
    }

    /// Shows findings, the first few made small and saved.
    pub fn report(&mut self, findings: Vec<Finding>, folder: &Path, seed: u64) -> io::Result<()> {
        let more = findings.len().saturating_sub(SHOWN);
        for finding in findings.into_iter().take(SHOWN) {
            let Finding { script, difference } = self.reduce(finding)?;
            let text = saved::write(&script);
            let remarks = remarks(&script, &difference);
            let name = format!("{}-{:08x}.case", script.calls[difference.call].name(), hash(&text));
            let file = folder.join(name);
            std::fs::create_dir_all(folder)?;
            std::fs::write(&file, format!("# Found with seed {seed}.\n{remarks}{text}"))?;
            println!("difference, saved as {}", file.display());
            print!("{remarks}{text}");
        }
        if more > 0 {
            println!("and {more} scripts more with a difference");
        }
        Ok(())
    }

    /// Sends a request of its own kind and reads its answer, without the marks.
    fn special(&mut self, request: Request, size: usize, put: impl FnOnce(&mut Vec<u8>)) -> io::Result<Vec<u8>> {
        let mut bytes = Vec::new();
        put_request(&mut bytes, request, put);
        self.driver.send(bytes);
        let mut answer = Vec::new();
        self.driver.receive(size_of::<u32>() + size, &mut answer)?;
        answer.drain(..size_of::<u32>());
        Ok(answer)
    }

    fn counted(&mut self, name: &str, request: Request, put: impl FnOnce(&mut Vec<u8>)) -> io::Result<()> {
        match self.special(request, 2 * size_of::<u32>(), put) {
            Ok(counts) => {
                let [passed, failed] = <[u32; 2]>::take(&mut &counts[..]);
                println!("{name}: {passed} passed, {failed} failed");
                self.tally.passed += u64::from(passed);
                self.tally.failed += u64::from(failed);
                Ok(())
            }
            Err(error) => {
                println!("{name}: the driver died ({error})");
                self.tally.failed += 1;
                self.restart()
            }
        }
    }

    /// Structs with a number of its own in every field, passed through and back.
    pub fn boundary(&mut self, random: &mut Random) -> io::Result<()> {
        let one = registers::sound(random, FULL, false);
        let two = registers::as_two(random, &one, false);
        let register = texts::register_text(&two);
        let action = texts::action_text(&Action {
            actor: 60_001,
            flags: 777,
            now: 4_000_000_001,
            uses: std::array::from_fn(|at| Usage { resource: 61_000 + at as u32, right: at as u32 % 17 }),
            used: USES,
            governs: std::array::from_fn(|at| 62_000 + at as u32),
            governed: GOVERNS,
        });
        self.counted("structs through the boundary", Request::Boundary, |out| {
            [register.len(), action.len()].put(out);
            out.extend(register);
            out.extend(action);
        })
    }

    /// Eight threads at once, on the same and on different inputs.
    pub fn threads(&mut self, random: &mut Random) -> io::Result<()> {
        const INPUTS: u32 = 10;
        const ROUNDS: u32 = 8;
        self.counted("eight threads", Request::Threads, |out| {
            [ROUNDS, INPUTS].put(out);
            for input in 0..INPUTS {
                let shape = if input == 0 { FULL } else { MEDIUM };
                put_input(random, shape, out);
            }
        })
    }

    /// Prints how much stack each call took at most, over inputs from small to full, and counts it where it is no more than the header says.
    pub fn stack(&mut self, random: &mut Random) -> io::Result<()> {
        const MEASURED: usize = STACK_ORDER.len();
        let mut most = [0; MEASURED];
        for shape in [SMALL, MEDIUM, FULL].repeat(8) {
            let answer =
                self.special(Request::Stack, MEASURED * size_of::<u64>(), |out| put_input(random, shape, out))?;
            let used = <[u64; MEASURED]>::take(&mut &answer[..]);
            most = std::array::from_fn(|call| most[call].max(used[call]));
        }
        for (name, used) in STACK_ORDER.iter().zip(most) {
            let said = said_stack(name);
            println!("stack of guvrendik_{name}: {used} bytes, and the header says {said}");
            self.tally.count(used <= said);
        }
        Ok(())
    }

    /// The words for every number up to `MOST_NUMBER`, and for the first ones into every buffer that is shorter than the longest; then the
    /// stack of each call.
    pub fn words(&mut self) -> io::Result<()> {
        const MOST_NUMBER: u32 = 70_000;
        const FIRST_NUMBERS: u32 = 40;
        for (name, words) in Words::ALL {
            let failed = self.tally.failed;
            self.words_among(words, MOST_NUMBER + 1, WORD_TEXT)?;
            for room in 0..WORD_TEXT {
                self.words_among(words, FIRST_NUMBERS, room)?;
            }
            println!("words of guvrendik_{name}: {} differ", self.tally.failed - failed);
        }
        let answer = self.special(Request::WordStack, Words::ALL.len() * size_of::<u64>(), |_| ())?;
        let used = <[u64; Words::ALL.len()]>::take(&mut &answer[..]);
        for ((name, _), used) in Words::ALL.iter().zip(used) {
            let said = said_stack(name);
            println!("stack of guvrendik_{name}: {used} bytes, and the header says {said}");
            self.tally.count(used <= said);
        }
        Ok(())
    }

    /// The words for so many numbers from 0 on, into a buffer of that room: each answer, what was noticed beside it, and the whole buffer.
    fn words_among(&mut self, words: Words, count: u32, room: usize) -> io::Result<()> {
        const FILL: u8 = 0x5A;
        let mut request = Vec::new();
        put_request(&mut request, Request::Words, |out| [words as u32, 0, count, room as u32, FILL.into()].put(out));
        self.driver.send(request);
        let (mut expected, mut got) = (Vec::new(), Vec::new());
        for number in 0..count {
            let mut buffer = vec![FILL; room];
            let written = Written::from(words.write(number, &mut buffer));
            expected.clear();
            0u32.put(&mut expected);
            written.put(&mut expected);
            expected.extend(buffer);
            self.driver.receive(expected.len(), &mut got)?;
            if expected != got && self.tally.failed < SHOWN as u64 {
                println!("{words:?} {number} in {room} bytes: {:?}", String::from_utf8_lossy(&got));
            }
            self.tally.count(expected == got);
        }
        Ok(())
    }

    /// Prints how much stack the containment of lent paths took, short and long. Counts each that is at most `bound` and answered
    /// rightly, and each shape that takes the same for every length: no copy of a path is made. Last the driver copies a path itself,
    /// which must be measured above the bound.
    pub fn lent_stack(&mut self, bound: u64) -> io::Result<()> {
        const LENGTHS: [usize; 3] = [PATH, 4_096, 65_536];
        // The last byte that is compared with the outer path's, what follows it, and the answer.
        let shapes: [(&str, u8, &[u8], u64); 3] = [
            ("contained", b'a', b"/bb", 1),
            ("parted at the last byte", b'b', b"/bb", 0),
            ("with `..` at the end", b'a', b"/..", 0),
        ];
        for (name, last, tail, contained) in shapes {
            let mut used = Vec::new();
            for length in LENGTHS {
                let inner = [&vec![b'a'; length - 4][..], &[last], tail].concat();
                let told = self.contains_stack(false, &slashed(length), &inner)?;
                self.tally.count(told[0] <= bound && told[1] == contained);
                used.push(told[0]);
            }
            println!("stack of guvrendik_contains, paths of {LENGTHS:?} bytes, {name}: {used:?} bytes");
            self.tally.count(used.iter().all(|each| *each == used[0]));
        }
        let told = self.contains_stack(true, &slashed(PATH), &[b'a'; PATH - 3])?;
        println!("stack of a caller that copies a path of {PATH} bytes: {} bytes, and the bound is {bound}", told[0]);
        self.tally.count(told[0] > bound && told[1] == 1);
        Ok(())
    }

    /// The stack of one call on lent paths, by a caller that copies the outer one or not, and the answer.
    fn contains_stack(&mut self, copies: bool, outer: &[u8], inner: &[u8]) -> io::Result<[u64; 2]> {
        let answer = self.special(Request::LentStack, 2 * size_of::<u64>(), |out| {
            u32::from(copies).put(out);
            [outer.len(), inner.len()].put(out);
            out.extend_from_slice(outer);
            out.extend_from_slice(inner);
        })?;
        Ok(Wire::take(&mut &answer[..]))
    }
}

/// A path that ends in three slashes.
fn slashed(length: usize) -> Vec<u8> {
    [&vec![b'a'; length - 3][..], b"///"].concat()
}

/// The bytes of stack that the header gives a call, whose declaration follows the comment that has them.
fn said_stack(name: &str) -> u64 {
    const HEADER: &str = include_str!("../../../include/guvrendik.h");
    let declared = HEADER.find(&format!("guvrendik_{name}(")).expect("the header declares each call");
    let said = HEADER[..declared].rsplit("Stack: ").next().expect("a comment before it");
    said.chars().take_while(|c| *c != ' ').filter(char::is_ascii_digit).collect::<String>().parse().unwrap_or(0)
}

/// An input for all calls at once, of either version.
fn put_input(random: &mut Random, shape: Shape, out: &mut Vec<u8>) {
    let mut register = registers::sound(random, shape, false);
    if random.chance(50) {
        register = registers::as_two(random, &register, false);
    }
    let action = actions::action(random, &register);
    let text = texts::action_text(&action);
    register.put(out);
    action.put(out);
    actions::plan(random, &register).put(out);
    if let Call::Grant { claim, now, .. } = changes::grant(random, &register, false) {
        claim.put(out);
        now.put(out);
    }
    if let Call::Revoke { revoker, claim, .. } = changes::revoke(random, &register, false) {
        [revoker, claim].put(out);
    }
    if let Call::ClearResource { caller, resource, .. } = changes::clear_resource(random, &register, false) {
        [caller, resource].put(out);
    }
    if let Call::ClearExpired { caller, now, .. } = changes::clear_expired(random, &register, false) {
        caller.put(out);
        now.put(out);
    }
    for text in [text, json::full_page(random), trees::deepest(random, &register)] {
        text.len().put(out);
        out.extend(text);
    }
}

impl Tally {
    fn count(&mut self, holds: bool) {
        self.passed += u64::from(holds);
        self.failed += u64::from(!holds);
    }

    /// Prints the cases of each call and the violations of each kind, and counts each outcome and kind that a full run must meet. A kind that
    /// there is not has failed.
    pub fn summarise(&mut self) {
        for (number, (name, demanded)) in NAMES.iter().enumerate() {
            let met: Vec<String> = self
                .outcomes
                .iter()
                .filter(|((call, _), _)| *call == number)
                .map(|((_, outcome), count)| format!("{} {count}", outcome_name(*outcome)))
                .collect();
            println!("{:>7} cases of {name}: {}", self.calls[number], met.join(", "));
            for outcome in *demanded {
                if self.outcomes.contains_key(&(number, *outcome)) {
                    self.passed += 1;
                } else {
                    println!("{name}: never met {}", outcome_name(*outcome));
                    self.failed += 1;
                }
            }
        }
        println!("{:>7} cases", self.calls.iter().sum::<u64>());
        self.summarise_versions();
        self.summarise_kinds();
        self.summarise_pairs();
        println!("{:>7} registers that look alike, {} with a used number whose record differs", self.alike, self.aimed);
        println!("{:>7} of these with a book that has an entry of it", self.entered);
        self.count(10 * self.aimed >= self.alike && 10 * self.entered >= self.aimed && self.entered > 0);
    }

    /// Prints how many calls were on a register of each version, and counts that 0 to 3 were met, and in 1 and 2 each refusal that the version
    /// has a part in.
    fn summarise_versions(&mut self) {
        for version in 0..=3 {
            let count = self.versions.get(&version).copied().unwrap_or(0);
            println!("{count:>7} cases on a register of version {version}");
            self.count(count > 0);
        }
        for version in [VERSION_1, VERSION_2] {
            for outcome in [YES, Refusal::Range as Outcome, Refusal::Hops as Outcome] {
                let count = self.grants.get(&(version, outcome)).copied().unwrap_or(0);
                println!("{count:>7} grants in version {version}: {}", outcome_name(outcome));
                self.count(count > 0);
            }
        }
    }

    /// Prints the violations of each kind, and counts each kind as met; one that there is not has failed.
    fn summarise_kinds(&mut self) {
        for kind in KINDS {
            self.kinds.entry(kind).or_default();
        }
        for (kind, count) in &self.kinds {
            println!("{count:>7} violations of kind {kind}");
            let due = KINDS.contains(kind) && *count > 0;
            self.passed += u64::from(due);
            self.failed += u64::from(!due);
        }
    }

    /// Prints the pairs of withdrawals, and counts that each of the nine kinds was met and each demanded change, and that enough of the pairs
    /// of revocations were on one chain.
    fn summarise_pairs(&mut self) {
        let met: Vec<String> = self
            .pair_outcomes
            .iter()
            .map(|((first, second), count)| format!("{} to {} {count}", outcome_name(*first), outcome_name(*second)))
            .collect();
        println!("pairs of withdrawals in both orders: {}", met.join(", "));
        for first in WITHDRAWALS {
            for second in WITHDRAWALS {
                let count = self.pairs.get(&(first, second)).copied().unwrap_or(0);
                println!("{count:>7} pairs of {} and then {}", NAMES[first].0, NAMES[second].0);
                self.count(count > 0);
            }
        }
        // A pair of two calls of one kind was counted in both orders.
        let pairs = self.pairs.get(&(WITHDRAWALS[0], WITHDRAWALS[0])).copied().unwrap_or(0) / 2;
        let chained = self.pairs_on_one_chain;
        println!("{pairs:>7} pairs of revocations, {chained} on one chain");
        for (first, second) in DEMANDED {
            if self.pair_outcomes.contains_key(&(first, second)) {
                self.passed += 1;
            } else {
                println!("pairs: never met {} to {}", outcome_name(first), outcome_name(second));
                self.failed += 1;
            }
        }
        if 3 * chained >= pairs {
            self.passed += 1;
        } else {
            println!("pairs: less than a third on one chain");
            self.failed += 1;
        }
    }
}

/// What differs, as remarks for a saved file.
fn remarks(script: &Script, difference: &Difference) -> String {
    const LINES: usize = 12;
    let call = &script.calls[difference.call];
    let mut out = format!("# Call {} of {}, guvrendik_{}:\n", difference.call + 1, script.calls.len(), call.name());
    let Some(got) = &difference.got else {
        out.push_str("# the driver died.\n");
        return out;
    };
    let fields = call.describe(&difference.expected).into_iter().zip(call.describe(got));
    let differing: Vec<String> = fields
        .filter(|((_, expected), (_, got))| expected != got)
        .map(|((field, expected), (_, got))| format!("# {field}: the model has {expected}, the library {got}\n"))
        .collect();
    out.extend(differing.iter().take(LINES).cloned());
    if differing.len() > LINES {
        out.push_str(&format!("# and {} fields more\n", differing.len() - LINES));
    }
    out
}

/// FNV-1a.
fn hash(text: &str) -> u32 {
    text.bytes().fold(0x811C_9DC5, |hash, byte| (hash ^ u32::from(byte)).wrapping_mul(0x0100_0193))
}
