//! JSON actions: in every way that is taken, with something wrong, and to be written.

use super::actions;
use super::random::Random;
use super::texts::{self, NUMBERS};
use crate::case::{Call, Script};
use guvrendik_model::model::json::{FLAG_NAMES, KEYS, KINDS};
use guvrendik_model::model::Model;
use guvrendik_model::types::*;

const BLANKS: &[u8] = b" \t\n\r";
const MARKS: [&str; 6] = ["{", "}", "[", "]", ":", ","];
/// What is no blank, though it may look like one: vertical tab, form feed, NUL, two that are blanks elsewhere, a byte order mark.
const NO_BLANKS: [&[u8]; 6] = [b"\x0B", b"\x0C", b"\0", b"\xA0", b"\xE2\x80\xA8", b"\xEF\xBB\xBF"];

/// Values that are right under one key at most.
const VALUES: [&str; 62] = [
    "7",
    "\"7\"",
    "\"\"",
    "\"0\"",
    "\"07\"",
    "\"00\"",
    "\"+7\"",
    "\"-7\"",
    "\" 7\"",
    "\"7 \"",
    "\"7\\u0030\"",
    "\"0x7\"",
    "\"7.0\"",
    "\"1e2\"",
    "\"65535\"",
    "\"65536\"",
    "\"65543\"",
    "\"4294967303\"",
    "\"99999999999999999999999999999999999999999999999999\"",
    "null",
    "true",
    "false",
    "True",
    "FALSE",
    "falsey",
    "tru",
    "\"true\"",
    "0",
    "1",
    "00",
    "01",
    "-0",
    "+0",
    "0.0",
    "0e0",
    "1e2",
    "{}",
    "[]",
    "[\"10\"]",
    "[10]",
    "[\"10\",]",
    "[,\"10\"]",
    "[,]",
    "[\"10\" \"11\"]",
    "[\"10\",,\"11\"]",
    "[[\"10\"]]",
    "[null]",
    "[\"\"]",
    "[\"010\"]",
    "[\"65536\"]",
    "[\"10\"",
    "\"default\"",
    "\"research\"",
    "\"Default\"",
    "default",
    "\"READ\"",
    "\"Read\"",
    "\"READ \"",
    "\"POLICY\"",
    "\"POLICY_MODIFY\"",
    "\"a\\\\b\"",
    "\"",
];

type Token = Vec<u8>;

#[derive(Clone)]
struct Member {
    key: Token,
    value: Vec<Token>,
}

/// A page by its members: the flags' own stand apart, and under the key there is no value.
#[derive(Clone)]
struct Page {
    members: Vec<Member>,
    flags: Vec<Member>,
}

fn quoted(text: &[u8]) -> Token {
    [b"\"", text, b"\""].concat()
}

fn token(text: &str) -> Token {
    text.as_bytes().to_vec()
}

/// Entries between two marks, with commas between them.
fn between(open: &str, entries: &[Vec<Token>], close: &str) -> Vec<Token> {
    let inside = entries.join(&token(","));
    [vec![token(open)], inside, vec![token(close)]].concat()
}

fn object(members: &[Member]) -> Vec<Token> {
    let entry = |member: &Member| [vec![member.key.clone(), token(":")], member.value.clone()].concat();
    between("{", &members.iter().map(entry).collect::<Vec<_>>(), "}")
}

fn array(numbers: impl Iterator<Item = u32>) -> Vec<Token> {
    let entries: Vec<Vec<Token>> = numbers.map(|number| vec![quoted(number.to_string().as_bytes())]).collect();
    between("[", &entries, "]")
}

impl Page {
    /// All keys in 002's order. Of uses whose right has no array nothing is there.
    fn of(action: &Action, id: &[u8], kind: usize) -> Self {
        let uses = &action.uses[..action.used.min(USES)];
        let resources = |right| array(uses.iter().filter(|usage| usage.right == right).map(|usage| usage.resource));
        let values = [
            vec![quoted(id)],
            vec![quoted(action.actor.to_string().as_bytes())],
            vec![quoted(KINDS[kind].as_bytes())],
            resources(0),
            resources(1),
            resources(2),
            Vec::new(),
            vec![quoted(b"default")],
            vec![token("0")],
        ];
        let member = |(key, value): (&&str, Vec<Token>)| Member { key: quoted(key.as_bytes()), value };
        let flag = |flag: usize| vec![token(if action.flags >> flag & 1 == 1 { "true" } else { "false" })];
        Page {
            members: KEYS.iter().zip(values).map(member).collect(),
            flags: FLAG_NAMES.iter().enumerate().map(|(at, name)| member((name, flag(at)))).collect(),
        }
    }

    fn tokens(&self) -> Vec<Token> {
        let mut members = self.members.clone();
        for member in members.iter_mut().filter(|member| member.value.is_empty()) {
            member.value = object(&self.flags);
        }
        object(&members)
    }

    fn text(&self) -> Vec<u8> {
        self.tokens().concat()
    }

    /// Without the two keys that may be missing.
    fn without_optional(mut self) -> Self {
        self.members.truncate(KEYS.len() - 2);
        self
    }
}

/// An action of a few uses of each right.
fn small_action() -> Action {
    let mut action = Action { actor: 2, flags: 0b10_0000_0001, now: 1_999, used: 4, ..Action::ZERO };
    for (at, usage) in action.uses[..4].iter_mut().enumerate() {
        *usage = Usage { resource: 10 + at as u32, right: [0, 1, 2, 0][at] };
    }
    action
}

/// The longest page: every number of five digits, all uses in one array, no flag set.
fn longest() -> (Action, [u8; JSON_ID], usize) {
    let mut action = Action { actor: 60_001, now: MOMENT_MAX, used: USES, ..Action::ZERO };
    action.uses = std::array::from_fn(|at| Usage { resource: 61_000 + at as u32, right: 1 });
    (action, std::array::from_fn(|at| b"builder's action, "[at % 18]), 11)
}

/// The tokens with blanks around so many of a hundred of them.
fn blanked(random: &mut Random, tokens: &[Token], percent: usize) -> Vec<u8> {
    let mut text = Vec::new();
    for gap in 0..=tokens.len() {
        while random.chance(percent) {
            text.push(*random.pick(BLANKS));
        }
        text.extend(tokens.get(gap).into_iter().flatten());
    }
    text
}

fn some_id(random: &mut Random) -> Vec<u8> {
    let length = match random.below(12) {
        0 => 0,
        1..=2 => JSON_ID,
        3 if random.chance(50) => JSON_ID + 1,
        _ => random.between(1, 20),
    };
    let mut id: Vec<u8> = (0..length)
        .map(|_| loop {
            let byte = random.between(0x20, 0x7E) as u8;
            if byte != b'"' && byte != b'\\' {
                break byte;
            }
        })
        .collect();
    if random.chance(6) && !id.is_empty() {
        let at = random.below(id.len());
        id[at] = *random.pick(&[0x00, 0x0A, 0x1F, 0x22, 0x5C, 0x7F, 0x80, 0xFF]);
    }
    id
}

/// An action that can be written as JSON, with something past its counts or not.
fn some_action(random: &mut Random) -> Box<Action> {
    let mut action = Box::new(Action::ZERO);
    if random.chance(50) {
        action.uses.fill_with(|| Usage { resource: random.word(), right: random.word() });
        action.governs.fill_with(|| random.word());
    }
    let number = |random: &mut Random| match random.below(6) {
        0 => *random.pick(&[0, 1, 9, 10, 99, 100, 999, 1_000, 9_999, 10_000, ID_MAX]),
        _ => random.below(ID_MAX as usize + 1) as u32,
    };
    action.actor = number(random);
    action.flags = match random.below(4) {
        0 => 0,
        1 => FLAGS_MAX,
        2 => 1 << random.below(10),
        _ => random.word() & FLAGS_MAX,
    };
    action.now = some_moment(random);
    action.used = match random.below(8) {
        0 => 0,
        1..=2 => USES,
        3 => random.between(1, USES),
        _ => random.between(1, 6),
    };
    for at in 0..action.used {
        let again = at > 0 && random.chance(10);
        let resource = if again { action.uses[at - 1].resource } else { number(random) };
        action.uses[at] = Usage { resource, right: random.below(3) as u32 };
    }
    action
}

fn some_moment(random: &mut Random) -> u64 {
    match random.below(4) {
        0 => 0,
        1 => MOMENT_MAX,
        _ => random.next() >> 32,
    }
}

/// Drops, doubles, renames or gives another value.
fn spoil_members(random: &mut Random, members: &mut Vec<Member>, names: &[&str]) {
    if members.is_empty() {
        return;
    }
    let at = random.below(members.len());
    match random.below(10) {
        0..=1 => {
            members.remove(at);
        }
        2..=6 => {
            // The second of the keys is the actor, or flag 1.
            let of = if random.chance(50) { quoted(names[1].as_bytes()) } else { members[at].key.clone() };
            if let Some(found) = members.iter().position(|member| member.key == of) {
                let mut again = members[found].clone();
                if random.chance(40) && !again.value.is_empty() {
                    again.value = vec![token(random.pick::<&str>(&VALUES))];
                }
                members.insert(random.below(members.len() + 1), again);
            }
        }
        7 => members[at].key = quoted(random.pick(names).as_bytes()),
        _ => members[at].value = vec![token(random.pick::<&str>(&VALUES))],
    }
}

fn spoil_tokens(random: &mut Random, tokens: &mut Vec<Token>) {
    let at = random.below(tokens.len());
    let next = (at + 1) % tokens.len();
    match random.below(5) {
        0 => {
            tokens.remove(at);
        }
        1 => tokens.insert(at, tokens[at].clone()),
        2 => tokens.swap(at, next),
        3 => tokens[at] = token(random.pick::<&str>(&MARKS)),
        _ => tokens.insert(at, token(random.pick::<&str>(&VALUES))),
    }
}

fn spoil_bytes(random: &mut Random, text: &mut Vec<u8>) {
    let at = random.below(text.len());
    match random.below(7) {
        0 => text[at] = random.word() as u8,
        1 => text[at] = *random.pick(b"\"\\{}[]:,0159 \n\t\0x"),
        2 => {
            text.remove(at);
        }
        3 => text.insert(at, *random.pick(b"\"\\{}[]:,0 \n\x0B\0x")),
        4 => text.truncate(at),
        5 => text.splice(at..at, random.pick(&NO_BLANKS).iter().copied()).for_each(drop),
        _ => text.extend(*random.pick(&[&b"x"[..], b",", b"}", b"{}", b"\0", b" \x0B", b"0"])),
    }
}

/// A reading: in any order and with blanks, mostly with nothing or one thing wrong.
pub fn reading(random: &mut Random) -> Call {
    let mut page = Page::of(&some_action(random), &some_id(random), random.below(KINDS.len()));
    // From the last: the other keeps its place.
    for optional in [8, 7] {
        if random.chance(35) {
            page.members.remove(optional);
        }
    }
    if random.chance(4) {
        // One use more than there is room for, or a few.
        let numbers = random.between(USES, USES + 2);
        page.members[random.between(3, 5)].value = array((0..numbers as u32).map(|number| 7 * number));
    }
    if random.chance(70) {
        random.shuffle(&mut page.members);
    }
    if random.chance(50) {
        random.shuffle(&mut page.flags);
    }
    let wrong = random.below(12);
    match wrong {
        0..=1 => spoil_members(random, &mut page.members, &KEYS),
        2 => spoil_members(random, &mut page.flags, &FLAG_NAMES),
        _ => (),
    }
    let mut tokens = page.tokens();
    if wrong == 3 {
        spoil_tokens(random, &mut tokens);
    }
    let percent = *random.pick(&[0, 0, 10, 40]);
    let mut text = blanked(random, &tokens, percent);
    if wrong == 4 {
        spoil_bytes(random, &mut text);
    }
    let now = match random.below(16) {
        0 => *random.pick(&[1 << 32, (1 << 32) + 1_999, u64::MAX]),
        _ => some_moment(random),
    };
    Call::ReadJson { text, now }
}

/// A writing, mostly of what can be written, into a buffer of about the right size.
pub fn writing(random: &mut Random) -> Call {
    let mut action = some_action(random);
    let mut kind = random.below(KINDS.len()) as u32;
    if random.chance(8) && action.used > 0 {
        action.uses[random.below(action.used)].right = random.between(3, 16) as u32;
    }
    if random.chance(6) {
        action.governed = random.between(1, GOVERNS);
        let governed = action.governed;
        action.governs[..governed].fill(7);
    }
    if random.chance(8) {
        actions::spoil(random, &mut action);
    }
    if random.chance(3) {
        kind = *random.pick(&[17, 18, 256, 65_536, u32::MAX]);
    }
    let id = some_id(random);
    let length = written_length(&action, &id, kind);
    let room = texts::room(random, length, JSON_TEXT);
    Call::WriteJson { action, id, kind, room, fill: random.word() as u8 }
}

/// Of what is refused, about a page's length.
fn written_length(action: &Action, id: &[u8], kind: u32) -> usize {
    let mut buffer = [0; JSON_TEXT];
    Model::default().write_json(action, id, kind, &mut buffer).unwrap_or(500)
}

/// A page of 32 uses in some order and with blanks: an input that asks much of a reading, and then of a writing.
pub fn full_page(random: &mut Random) -> Vec<u8> {
    let (action, id, kind) = longest();
    let mut page = Page::of(&action, &id, kind);
    random.shuffle(&mut page.members);
    random.shuffle(&mut page.flags);
    blanked(random, &page.tokens(), 30)
}

/// The readings and writings that are the same in every run.
pub fn fixed() -> Vec<Script> {
    let (action, id, kind) = longest();
    let small = Page::of(&small_action(), b"a-1", 1);
    let short = Page::of(&Action { used: 1, ..small_action() }, b"", 0).without_optional();
    let mut texts = damages(&short.text(), &(0..=255).collect::<Vec<u8>>());
    texts.extend(damages(&Page::of(&action, &id, kind).text(), b"\"\\{}[]:,019 atR\x1F\x7F"));
    texts.extend(orders(&small));
    texts.extend(values(&small));
    texts.extend(tokens(&small));
    texts.extend(ids());
    texts.extend(numbers());
    texts.extend(uses());
    texts.extend(kinds());
    texts.extend(large(&small));
    let mut calls: Vec<Call> = texts.into_iter().map(|text| Call::ReadJson { text, now: 1_999 }).collect();
    calls.extend(moments(&small.text()));
    calls.extend(writings());
    // Calls after the first that differs are not compared: few to a script.
    calls.chunks(100).map(|calls| Script { register: None, calls: calls.to_vec() }).collect()
}

/// The text cut at every byte, without each byte, and with each byte changed to each of these.
fn damages(text: &[u8], bytes: &[u8]) -> Vec<Vec<u8>> {
    let mut texts: Vec<Vec<u8>> = (0..=text.len()).map(|at| text[..at].to_vec()).collect();
    for at in 0..text.len() {
        texts.push([&text[..at], &text[at + 1..]].concat());
        for &byte in bytes.iter().filter(|byte| **byte != text[at]) {
            let mut changed = text.to_vec();
            changed[at] = byte;
            texts.push(changed);
        }
    }
    texts
}

/// The page with other orders of its members, and of those of the flags; each one dropped, doubled and under another key.
fn orders(page: &Page) -> Vec<Vec<u8>> {
    let flags = |flags| Page { flags, ..page.clone() };
    let members = |members| Page { members, ..page.clone() };
    let mut pages: Vec<Page> = reordered(&page.flags).into_iter().map(flags).collect();
    pages.extend(reordered(&page.members).into_iter().map(members));
    pages.push(page.clone().without_optional());
    pages.iter().map(Page::text).collect()
}

fn reordered(members: &[Member]) -> Vec<Vec<Member>> {
    let mut lists = vec![Vec::new(), members.iter().rev().cloned().collect()];
    let mut edit = |change: &dyn Fn(&mut Vec<Member>)| {
        let mut list = members.to_vec();
        change(&mut list);
        lists.push(list);
    };
    for one in 0..members.len() {
        let Member { key, value } = &members[one];
        let name = &key[1..key.len() - 1];
        (0..one).for_each(|two| edit(&|list| list.swap(one, two)));
        (0..=members.len()).for_each(|two| edit(&|list| list.insert(two, members[one].clone())));
        edit(&|list| drop(list.remove(one)));
        let keys = [&b""[..], b"extra", b"\\u0069d", &name[1..], &[name, b" "].concat(), &name.to_ascii_uppercase()];
        for key in keys {
            edit(&|list| list[one].key = quoted(key));
            edit(&|list| list.insert(one, Member { key: quoted(key), value: value.clone() }));
        }
        edit(&|list| list[one].key = name.to_vec());
    }
    lists
}

/// Each of the values under each key and each flag.
fn values(page: &Page) -> Vec<Vec<u8>> {
    let mut texts = Vec::new();
    for value in VALUES {
        for at in 0..page.members.len() {
            let mut page = page.clone();
            page.members[at].value = vec![token(value)];
            texts.push(page.text());
        }
        for at in 0..page.flags.len() {
            let mut page = page.clone();
            page.flags[at].value = vec![token(value)];
            texts.push(page.text());
        }
    }
    texts
}

/// Each token dropped, doubled, changed for the next and for each mark; each blank, and what is none, in each gap.
fn tokens(page: &Page) -> Vec<Vec<u8>> {
    let tokens = page.tokens();
    let mut texts = Vec::new();
    for at in 0..tokens.len() {
        let (before, after) = (tokens[..at].concat(), tokens[at + 1..].concat());
        texts.push([&before[..], &after].concat());
        texts.push([&before[..], &tokens[at], &tokens[at], &after].concat());
        texts.extend(MARKS.map(|mark| [&before[..], mark.as_bytes(), &after].concat()));
        let mut swapped = tokens.clone();
        swapped.swap(at, (at + 1) % tokens.len());
        texts.push(swapped.concat());
    }
    for gap in 0..=tokens.len() {
        let (before, after) = (tokens[..gap].concat(), tokens[gap..].concat());
        texts.extend(BLANKS.iter().map(|blank| [&before[..], &[*blank], &after].concat()));
        texts.extend(NO_BLANKS.map(|byte| [&before[..], byte, &after].concat()));
        texts.extend(MARKS.map(|mark| [&before[..], mark.as_bytes(), &after].concat()));
    }
    let text = page.text();
    texts.push([&text[..], &text].concat());
    texts.push([&text[..], b" ", &text].concat());
    texts.push(tokens.join(&b" \t\r\n"[..]));
    texts.extend([&b""[..], b" ", b"{}", b"[]", b"null", b"\"", b"{"].map(<[u8]>::to_vec));
    texts
}

/// Ids of every length about 64, and with every byte.
fn ids() -> Vec<Vec<u8>> {
    let page = |id: &[u8]| Page::of(&small_action(), id, 0).text();
    let mut texts: Vec<Vec<u8>> = (0..=JSON_ID + 3).map(|length| page(&vec![b'~'; length])).collect();
    texts.extend((0..=255).flat_map(|byte| [page(&[byte]), page(&[b'a', byte, b'b'])]));
    texts
}

/// Numbers at every edge, of the actor and in each array.
fn numbers() -> Vec<Vec<u8>> {
    let page = Page::of(&small_action(), b"a-1", 0);
    let mut texts = Vec::new();
    let nines = [5, 6, 20, 50, 1_000, 60_000].map(|length| "9".repeat(length));
    let zeros = ["00", "000010", "01", "0065535"].map(str::to_owned);
    for number in NUMBERS.map(str::to_owned).into_iter().chain(nines).chain(zeros) {
        for at in [1, 3, 4, 5] {
            let mut page = page.clone();
            let value = vec![quoted(number.as_bytes())];
            page.members[at].value = if at == 1 { value } else { between("[", &[value], "]") };
            texts.push(page.text());
        }
    }
    texts
}

/// 32 and 33 uses, spread over the three arrays in every way.
fn uses() -> Vec<Vec<u8>> {
    let page = Page::of(&small_action(), b"a-1", 0);
    let mut texts = Vec::new();
    for all in [USES, USES + 1] {
        for reads in 0..=all {
            for writes in 0..=all - reads {
                let mut page = page.clone();
                let starts = [0, reads, reads + writes, all];
                for array_at in 0..3 {
                    page.members[3 + array_at].value =
                        array((starts[array_at]..starts[array_at + 1]).map(|at| at as u32));
                }
                texts.push(page.text());
            }
        }
    }
    texts
}

/// Every kind, and beside it: without its last letter, with one more, in small letters.
fn kinds() -> Vec<Vec<u8>> {
    let mut texts = Vec::new();
    for kind in KINDS {
        for name in [kind.to_owned(), kind[..kind.len() - 1].to_owned(), format!("{kind}S"), kind.to_lowercase()] {
            let mut page = Page::of(&small_action(), b"a-1", 0);
            page.members[2].value = vec![quoted(name.as_bytes())];
            texts.push(page.text());
        }
    }
    texts
}

/// Long texts: blanks at both ends and within, a string without end, brackets without end.
fn large(page: &Page) -> Vec<Vec<u8>> {
    let text = page.text();
    let blanks: Vec<u8> = BLANKS.iter().copied().cycle().take(70_000).collect();
    let long = |start: &str, byte: u8| [start.as_bytes(), &vec![byte; 70_000]].concat();
    vec![
        [&blanks[..], &text, &blanks].concat(),
        [&text[..], &blanks, b"x"].concat(),
        page.tokens().join(&blanks[..700]),
        long("{\"id\":\"", b'a'),
        long("{\"id\":\"", b'"'),
        long("", b'{'),
        long("", b'['),
        long("", b' '),
    ]
}

/// A page and what is none at moments about 2^32.
fn moments(text: &[u8]) -> Vec<Call> {
    let mut calls = Vec::new();
    for now in [0, 1, MOMENT_MAX, 1 << 32, (1 << 32) + 1, (1 << 32) + 1_999, 1 << 33, 1 << 63, u64::MAX] {
        for text in [text, &text[1..], b""] {
            calls.push(Call::ReadJson { text: text.to_vec(), now });
        }
    }
    calls
}

fn writings() -> Vec<Call> {
    let action = small_action();
    let mut calls = Vec::new();
    let mut write = |action: Action, id: &[u8], kind: u32, room: usize| {
        calls.push(Call::WriteJson { action: Box::new(action), id: id.to_vec(), kind, room, fill: b'#' });
    };
    // Every buffer up to a page's length and a little more.
    let length = written_length(&action, b"a-1", 1);
    (0..=length + 2).for_each(|room| write(action, b"a-1", 1, room));
    let (most, id, kind) = longest();
    for room in [0, JSON_TEXT - 1, JSON_TEXT, JSON_TEXT + 1] {
        write(most, &id, kind as u32, room);
    }
    // 2 before 25 before 21: each of the three, with and without those after it.
    for room in [0, length - 1, JSON_TEXT] {
        for right in 0..=18 {
            for governed in [0, 1, GOVERNS, GOVERNS + 1, usize::MAX] {
                for now in [1_999, MOMENT_MAX, 1 << 32, u64::MAX] {
                    let mut action = Action { governed, now, ..action };
                    action.uses[2].right = right;
                    write(action, b"a-1", 1, room);
                }
            }
        }
        for kind in (0..=18).chain([32, 256, 65_536, u32::MAX]) {
            write(action, b"", kind, room);
        }
        for length in (0..=JSON_ID + 3).chain([70_000]) {
            write(action, &vec![b'~'; length], 0, room);
        }
        for byte in 0..=255 {
            write(action, &[b'a', byte], 0, room);
        }
        for flag in 0..32 {
            write(Action { flags: 1 << flag, ..action }, b"a", 0, room);
        }
        for used in [0, 1, USES, USES + 1, 1 << 32, usize::MAX] {
            write(Action { used, ..action }, b"a", 0, room);
        }
        for number in [0, 9, 10, ID_MAX, ID_MAX + 1, ID_MAX + 11, u32::MAX] {
            write(Action { actor: number, ..action }, b"a", 0, room);
            for at in 0..USES {
                let mut action = Action { uses: most.uses, ..action };
                action.uses[at].resource = number;
                write(action, b"a", 0, room);
            }
            let mut governing = Action { governed: 1, ..action };
            governing.governs[0] = number;
            write(governing, b"a", 0, room);
        }
    }
    calls
}
