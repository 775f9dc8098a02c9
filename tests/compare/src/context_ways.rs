//! Ways of notify, dispatch and resume, and of the flags that enter and leave keep, which the table of calls and answers does not tell apart.

use second::calls::Answer;
use second::contexts::*;
use second::geometry::*;
use second::memory::*;
use second::refusal;
use second::sound::is_lent;
use std::collections::BTreeMap;
use std::fmt;

/// Calls of whose flags the rows tell.
const SWITCHES: [(u32, &str); 4] = [(13, "notify"), (14, "dispatch"), (9, "enter"), (10, "leave")];
const THREE: [(u32, &str); 3] = [(13, "notify"), (14, "dispatch"), (15, "resume")];

/// Whose slot page a call asks for.
const ASKED: [&str; 3] =
    ["notify: the caller's slot page", "resume: a child's slot page", "resume: the parent's slot page"];
/// Why it is refused with 20.
const STATES: [&str; 8] = [
    "no tables there",
    "not mapped",
    "removed just before",
    "lent away",
    "one of a child's five pages",
    "one of a child's tables",
    "no read",
    "no write",
];
/// What it does where the page was one of a child's five, until just before.
const GIVEN_BACK: [&str; 3] = ["ok", "no 22", "the root becomes current"];
const ADDRESSES: [&str; 3] = ["on page 0", "beyond the end", "not a multiple"];
const LARGE_TARGETS: [&str; 4] = ["a child", "the parent", "the root's parent", "a bad address"];

/// How many calls a slot page counts as removed or given back just before.
const SOON: u32 = 5;

/// What happened to a partition's slot page.
#[derive(Clone, Copy, PartialEq)]
enum Event {
    Removed,
    GivenBack,
}

/// How often each way was met, by its text.
#[derive(Default)]
pub struct ContextWays {
    counts: BTreeMap<String, u64>,
    /// The last event, with the partition's descriptor and the calls since.
    last: Option<(Event, PPage, u32)>,
}

/// A call on sound memory of small pages, and its answer.
struct Look<'a> {
    mem: &'a [u32],
    line: &'a [u32],
    answer: Answer,
    caller: Partition,
    last: Option<(Event, PPage, u32)>,
}

fn parent(mem: &[u32], partition: &Partition) -> Option<Partition> {
    let descriptor = named_page(mem, partition.descriptor, PARENT);
    (descriptor != HEADER).then(|| Partition::at(mem, descriptor))
}

fn children<'a>(mem: &'a [u32], partition: &'a Partition) -> impl Iterator<Item = Partition> + 'a {
    let at = partition.mappings(mem).filter(|&(v, _)| partition.shadow1(mem, v) == IS_CHILD);
    at.map(|(_, mapping)| Partition::at(mem, mapping.page))
}

fn child_at(mem: &[u32], caller: &Partition, address: u32) -> Option<Partition> {
    let at = VPage::of(Edition::of(mem), address);
    let mapping = caller.mapping(mem, at).filter(|_| caller.shadow1(mem, at) == IS_CHILD)?;
    Some(Partition::at(mem, mapping.page))
}

/// Why the slot page of a partition is refused with 20, by its place among the states.
fn state(mem: &[u32], owner: &Partition, removed: bool) -> Option<usize> {
    let at = slots_at(mem, owner);
    if !owner.has_three(mem, at.directory_index(SMALL)) {
        return Some(0);
    }
    let Some(mapping) = owner.mapping(mem, at) else { return Some(if removed { 2 } else { 1 }) };
    if is_lent(owner.shadow1(mem, at)) {
        return Some(3);
    }
    if !mapping.accessible {
        let serves = |child: Partition| child.kernel_pairs(mem).iter().position(|pair| pair.0 == at);
        return children(mem, owner).find_map(serves).map(|place| if place < 5 { 4 } else { 5 });
    }
    match mapping.rights & (READ + WRITE) {
        WRITE => Some(6),
        READ => Some(7),
        _ => None,
    }
}

impl Look<'_> {
    fn target(&self) -> Option<Partition> {
        match *self.line {
            [10] | [13..=15, 0, ..] => parent(self.mem, &self.caller),
            [9 | 13..=15, at, ..] => child_at(self.mem, &self.caller, at),
            _ => None,
        }
    }

    fn flag(&self, partition: &Partition) -> u32 {
        word(self.mem, partition.descriptor, FLAG)
    }

    /// "to a child" or "to the parent".
    fn toward(&self) -> usize {
        usize::from(self.line == [10] || self.line.get(1) == Some(&0))
    }

    /// The words of a slot; none where the page is not in hand.
    fn slot(&self, owner: &Partition, slot: u32) -> Option<&[u32]> {
        let page = slot_page(self.mem, owner).ok()?;
        words_of(self.mem, page).get(slot_word(slot, 0)..slot_word(slot + 1, 0))
    }

    /// Who owns the slot page that is asked for, and its place in ASKED.
    fn asked(&self) -> Option<(Partition, usize)> {
        match self.line[0] {
            13 => Some((self.caller, 0)),
            15 => Some((self.target()?, 1 + self.toward())),
            _ => None,
        }
    }

    fn just(&self, event: Event, owner: &Partition) -> bool {
        self.last.is_some_and(|(last, of, calls)| (last, of) == (event, owner.descriptor) && calls <= SOON)
    }

    fn names(&self) -> Vec<String> {
        let mut names = Vec::new();
        let number = self.line[0];
        if let (Ok(_), Some((_, name)), Some(target)) =
            (self.answer, SWITCHES.iter().find(|switch| switch.0 == number), self.target())
        {
            names.push(switch_name(name, self.toward(), self.flag(&self.caller), self.flag(&target)));
        }
        match number {
            13 if self.answer.is_ok() => names.extend(self.notified()),
            15 if self.answer.is_ok() => names.extend(self.resumed()),
            15 if self.answer == Err(refusal::EMPTY_SLOT) => names.extend(self.empty()),
            15 if self.answer == Err(refusal::SLOT) => names.extend(self.no_slot()),
            13..=15 if self.answer == Err(refusal::ADDRESS) => names.extend(self.bad_address()),
            _ => (),
        }
        if let Some((owner, asked)) = self.asked() {
            if self.answer == Err(refusal::SLOT_PAGE) {
                let state = state(self.mem, &owner, self.just(Event::Removed, &owner));
                names.extend(state.map(|state| refused_name(asked, state)));
            }
            if self.just(Event::GivenBack, &owner) {
                names.extend(self.given_back(asked));
            }
        }
        names
    }

    fn notified(&self) -> Vec<String> {
        let slot = [TO_CHILD, TO_PARENT][self.toward()];
        let Some(words) = self.slot(&self.caller, slot) else { return Vec::new() };
        let older = (words[VALID] == 1).then(|| format!("notify ok: over a valid context of slot {slot}"));
        let padding = has_padding(words).then(|| format!("notify ok: padding in slot {slot}"));
        older.into_iter().chain(padding).collect()
    }

    fn resumed(&self) -> Vec<String> {
        let (Some(target), slot) = (self.target(), self.line[2]) else { return Vec::new() };
        let Some(words) = self.slot(&target, slot) else { return Vec::new() };
        let (toward, pipflags) = (self.toward(), words[PIPFLAGS]);
        let padding = has_padding(words).then(|| padding_name(toward, words[VALID] == 1));
        let way = if words[VALID] == 1 {
            vec![
                resume_name(toward, slot, pipflags & 1, pipflags > 1),
                flags_name(self.flag(&self.caller), self.flag(&target)),
            ]
        } else if target.descriptor == ROOT_PAGE {
            vec![yield_name("the root", self.flag(&target)), valid_name(toward, words[VALID])]
        } else {
            vec![yield_name("not the root", self.flag(&target)), valid_name(toward, words[VALID])]
        };
        way.into_iter().chain(padding).collect()
    }

    fn empty(&self) -> Vec<String> {
        let words = self.target().and_then(|target| self.slot(&target, self.line[2]));
        words.map(|words| valid_name(0, words[VALID])).into_iter().collect()
    }

    fn no_slot(&self) -> Vec<String> {
        let (toward, slot) = (self.toward(), self.line[2]);
        let barred = self.target().is_some_and(|target| slot_page(self.mem, &target).is_err());
        let before = barred.then(|| before_name(toward));
        [slot_name(toward, slot)].into_iter().chain(before).collect()
    }

    fn bad_address(&self) -> Vec<String> {
        let (name, address) = (row(self.line[0]), self.line[1]);
        let of = [address < 256, u64::from(address) >= SMALL.virtual_end(), address % 256 != 0];
        (0..3).filter(|&kind| of[kind]).map(|kind| address_name(name, kind)).collect()
    }

    fn given_back(&self, asked: usize) -> Option<String> {
        let met = match asked {
            0 => self.answer.is_ok(),
            1 => self.answer == Err(refusal::EMPTY_SLOT),
            _ => {
                let target = self.target()?;
                self.answer.is_ok() && self.slot(&target, self.line[2])?[VALID] != 1
            }
        };
        met.then(|| given_back_name(asked))
    }
}

fn has_padding(words: &[u32]) -> bool {
    words[VALID + 1..].iter().any(|&word| word != 0)
}

fn row(number: u32) -> &'static str {
    THREE.iter().find(|three| three.0 == number).map_or("", |three| three.1)
}

const TOWARD: [&str; 2] = ["a child", "the parent"];

fn switch_name(call: &str, toward: usize, caller: u32, target: u32) -> String {
    format!("{call} ok: to {}, whose flag is {target}, the caller's {caller}", TOWARD[toward])
}

fn flags_name(caller: u32, target: u32) -> String {
    format!("resume ok: a valid slot, the target's flag is {target}, the caller's {caller}")
}

fn resume_name(toward: usize, slot: u32, bit: u32, more: bool) -> String {
    let more = if more { ", with other bits" } else { "" };
    format!("resume ok: slot {slot} of {}, bit 0 of pipflags is {bit}{more}", TOWARD[toward])
}

fn yield_name(parent: &str, flag: u32) -> String {
    format!("resume ok: the parent's slot not valid, the parent is {parent}, its flag {flag}")
}

/// The word that should be 1: 0, 2, 3 or another.
fn valid_name(toward: usize, valid: u32) -> String {
    let valid = if valid > 3 { "above 3".to_string() } else { valid.to_string() };
    format!("resume of a slot of {}: the valid word is {valid}", TOWARD[toward])
}

fn padding_name(toward: usize, valid: bool) -> String {
    format!("resume ok: padding in a slot of {}, {}", TOWARD[toward], if valid { "valid" } else { "not valid" })
}

fn slot_name(toward: usize, slot: u32) -> String {
    let slot = if slot > 3 { "above 3".to_string() } else { slot.to_string() };
    format!("resume no 21: of {}, slot {slot}", TOWARD[toward])
}

fn before_name(toward: usize) -> String {
    format!("resume no 21: of {}, whose slot page would be refused", TOWARD[toward])
}

fn refused_name(asked: usize, state: usize) -> String {
    format!("{} no 20: {}", ASKED[asked], STATES[state])
}

fn given_back_name(asked: usize) -> String {
    format!("{} given back by delete just before, {}", ASKED[asked], GIVEN_BACK[asked])
}

fn address_name(call: &str, kind: usize) -> String {
    format!("{call} no 3: {}", ADDRESSES[kind])
}

fn large_name(call: &str, kind: usize) -> String {
    format!("{call} no 24: {}", LARGE_TARGETS[kind])
}

/// With large pages: what the target is.
fn large_target(mem: &[u32], line: &[u32]) -> Option<usize> {
    let (caller, target) = (Partition::current(mem), line[1]);
    match target {
        0 => Some(if caller.descriptor == ROOT_PAGE { 2 } else { 1 }),
        _ if target < LARGE.page_bytes() || target % LARGE.page_bytes() != 0 => Some(3),
        _ => child_at(mem, &caller, target).map(|_| 0),
    }
}

/// Every way, of small pages or of large ones.
fn all() -> Vec<String> {
    let mut names = Vec::new();
    for (caller, target) in [(0, 0), (0, 1), (1, 0), (1, 1)] {
        for call in ["notify", "dispatch"] {
            names.extend([0, 1].map(|toward| switch_name(call, toward, caller, target)));
        }
        names.push(switch_name("enter", 0, caller, target));
        names.push(switch_name("leave", 1, caller, target));
        names.push(flags_name(caller, target));
    }
    for bit in [0, 1] {
        for more in [false, true] {
            names.extend((0..SLOTS).map(|slot| resume_name(0, slot, bit, more)));
            names.push(resume_name(1, TO_CHILD, bit, more));
        }
        names.extend(["the root", "not the root"].map(|parent| yield_name(parent, bit)));
    }
    names.extend([0, 1].into_iter().flat_map(|toward| [0, 2, 3].map(|valid| valid_name(toward, valid))));
    names.extend([(0, true), (1, true), (1, false)].map(|(toward, valid)| padding_name(toward, valid)));
    for slot in [TO_CHILD, TO_PARENT] {
        names.push(format!("notify ok: over a valid context of slot {slot}"));
        names.push(format!("notify ok: padding in slot {slot}"));
    }
    names.push(slot_name(0, 4));
    names.extend([0, 1, 3, 4].map(|slot| slot_name(1, slot)));
    names.extend([0, 1].map(before_name));
    for asked in 0..ASKED.len() {
        names.extend((0..STATES.len()).map(|state| refused_name(asked, state)));
        names.push(given_back_name(asked));
    }
    for (_, call) in THREE {
        names.extend((0..ADDRESSES.len()).map(|kind| address_name(call, kind)));
        names.extend((0..LARGE_TARGETS.len()).map(|kind| large_name(call, kind)));
    }
    names
}

impl ContextWays {
    /// Counts a call with its answer, given the memory before it, which is sound.
    pub fn count(&mut self, mem: &[u32], line: &[u32], answer: Answer) {
        let last = self.last.map(|(event, owner, calls)| (event, owner, calls + 1));
        self.last = last;
        if line[0] == 0 || answer == Err(refusal::DAMAGED) {
            return;
        }
        let mut names = Vec::new();
        if Edition::of(mem) == SMALL {
            names = Look { mem, line, answer, caller: Partition::current(mem), last }.names();
            self.happened(mem, line, answer);
        } else if answer == Err(refusal::EDITION) {
            names.extend(large_target(mem, line).map(|kind| large_name(row(line[0]), kind)));
        }
        for name in names {
            *self.counts.entry(name).or_default() += 1;
        }
    }

    /// A slot page removed from a child, or given back to the caller by delete.
    fn happened(&mut self, mem: &[u32], line: &[u32], answer: Answer) {
        let caller = Partition::current(mem);
        let child = || child_at(mem, &caller, line[1]);
        match *line {
            [4, _, target] if answer.is_ok() => {
                if let Some(child) = child().filter(|child| slots_at(mem, child).address(SMALL) == target) {
                    self.last = Some((Event::Removed, child.descriptor, 0));
                }
            }
            [2, _] if answer.is_ok() => {
                let own = slots_at(mem, &caller);
                let serves = |child: &Partition| child.kernel_pairs(mem)[..5].iter().any(|pair| pair.0 == own);
                if child().is_some_and(|child| serves(&child)) {
                    self.last = Some((Event::GivenBack, caller.descriptor, 0));
                }
            }
            _ => (),
        }
    }

    pub fn add(&mut self, other: &ContextWays) {
        other.counts.iter().for_each(|(name, count)| *self.counts.entry(name.clone()).or_default() += count);
    }

    pub fn missing(&self) -> Vec<String> {
        all().into_iter().filter(|name| !self.counts.contains_key(name)).collect()
    }
}

impl fmt::Display for ContextWays {
    fn fmt(&self, f: &mut fmt::Formatter) -> fmt::Result {
        let each = |name: String| (self.counts.get(&name).copied().unwrap_or(0), name);
        all().into_iter().map(each).try_for_each(|(count, name)| writeln!(f, "{count:9}  {name}"))
    }
}
