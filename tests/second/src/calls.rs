//! Format, the twelve calls, and each of the fifteen by its number. A refusal is decided before any word changes.

use crate::contexts::{dispatch, notify, resume, Context, CONTEXT_WORDS};
use crate::geometry::*;
use crate::memory::*;
use crate::refusal::*;
use crate::sound::{is_lent, sound};

/// The answer, or the number of the first refusal.
pub type Answer = Result<u32, u32>;

/// All that a call answers: resume's answer is 0 or a refusal, with eleven words besides, zeros beside a refusal.
#[derive(Clone, Copy, PartialEq, Eq, Debug)]
pub struct Said {
    pub answer: Answer,
    pub context: Option<Context>,
}

impl From<Answer> for Said {
    fn from(answer: Answer) -> Said {
        Said { answer, context: None }
    }
}

/// How many arguments each call has, by its number from 1.
pub const ARGUMENTS: [usize; 15] = [5, 1, 4, 2, 2, 3, 2, 1, 1, 0, 1, 2, 11, 1, 2];

/// Performs a call by its number, 0 for format, whose argument is the edition; none when the number or the argument count is wrong.
pub fn perform(mem: &mut [u32], number: u32, arguments: &[u32]) -> Option<Said> {
    if let (15, &[target, slot]) = (number, arguments) {
        let resumed = resume(mem, target, slot);
        return Some(Said { answer: resumed.map(|_| 0), context: Some(resumed.unwrap_or([0; CONTEXT_WORDS])) });
    }
    call_but_resume(mem, number, arguments).map(Said::from)
}

/// The same, for its answer alone.
pub fn call(mem: &mut [u32], number: u32, arguments: &[u32]) -> Option<Answer> {
    perform(mem, number, arguments).map(|said| said.answer)
}

fn call_but_resume(mem: &mut [u32], number: u32, arguments: &[u32]) -> Option<Answer> {
    Some(match (number, arguments) {
        (0, &[edition]) => format(mem, edition),
        (1, &[a, b, c, d, e]) => create_partition(mem, [a, b, c, d, e]),
        (2, &[child]) => delete_partition(mem, child),
        (3, &[page, child, target, rights]) => add_vaddr(mem, page, child, target, rights),
        (4, &[child, target]) => remove_vaddr(mem, child, target),
        (5, &[child, target]) => page_count(mem, child, target),
        (6, &[child, target, first]) => prepare(mem, child, target, first),
        (7, &[child, target]) => collect(mem, child, target),
        (8, &[page]) => mapped_in_child(mem, page),
        (9, &[child]) => enter(mem, child),
        (10, []) => leave(mem),
        (11, &[address]) => load(mem, address),
        (12, &[address, value]) => store(mem, address, value),
        (13, &[target, eip, eflags, ref registers @ ..]) => {
            notify(mem, target, eip, eflags, registers.try_into().ok()?)
        }
        (14, &[target]) => dispatch(mem, target),
        _ => return None,
    })
}

// Checks.

pub(crate) fn require(holds: bool, refusal: u32) -> Result<(), u32> {
    holds.then_some(()).ok_or(refusal)
}

/// The current partition of sound memory.
pub(crate) fn caller_of(mem: &[u32]) -> Result<Partition, u32> {
    sound(mem).map_err(|_| DAMAGED)?;
    Ok(Partition::current(mem))
}

fn good_address(edition: Edition, address: u32, multiple: u32) -> bool {
    let good = u64::from(edition.page_bytes())..edition.virtual_end();
    good.contains(&address.into()) && address.is_multiple_of(multiple)
}

pub(crate) fn page_addresses<const K: usize>(mem: &[u32], addresses: [u32; K]) -> Result<[VPage; K], u32> {
    let edition = Edition::of(mem);
    require(addresses.iter().all(|&a| good_address(edition, a, edition.page_bytes())), ADDRESS)?;
    Ok(addresses.map(|address| VPage::of(edition, address)))
}

/// The child whose descriptor the caller has at this address.
pub(crate) fn child_at(mem: &[u32], caller: &Partition, at: VPage) -> Result<Partition, u32> {
    require(caller.shadow1(mem, at) == IS_CHILD, CHILD)?;
    let mapping = caller.mapping(mem, at).ok_or(CHILD)?;
    Ok(Partition::at(mem, mapping.page))
}

fn mapping_in_hand(mem: &[u32], partition: &Partition, v: VPage) -> Result<Mapping, u32> {
    require(partition.in_hand(mem, v), HAND)?;
    partition.mapping(mem, v).ok_or(HAND)
}

pub(crate) fn holds(mapping: Mapping, rights: u32) -> bool {
    rights & !mapping.rights == 0
}

fn depth_of(mem: &[u32], partition: &Partition) -> usize {
    let parents = std::iter::successors(Some(partition.descriptor), |&d| parent_of(mem, d));
    parents.take(MOST_DEPTH + 1).count() - 1
}

pub(crate) fn parent_of(mem: &[u32], descriptor: PPage) -> Option<PPage> {
    let address = word(mem, descriptor, PARENT);
    (address != 0).then_some(PPage::of(Edition::of(mem), address))
}

// Effects that several calls share.

fn wipe(mem: &mut [u32], page: PPage) {
    words_of_mut(mem, page).fill(0);
}

/// Sets or clears the page's accessible bit in the caller and each ancestor, following shadow 2.
fn mark(mem: &mut [u32], caller: &Partition, at: VPage, accessible: bool) {
    let (mut own, mut v, edition) = (*caller, at, Edition::of(mem));
    for _ in 0..=MOST_DEPTH {
        if let Some(mapping) = own.mapping(mem, v) {
            set_table_word(mem, own.directory, v, Mapping { accessible, ..mapping }.encode(edition));
        }
        let Some(parent) = parent_of(mem, own.descriptor) else { break };
        v = VPage::of(edition, own.shadow2(mem, v));
        own = Partition::at(mem, parent);
    }
}

/// "Take": wipe, and clear accessible.
fn take(mem: &mut [u32], caller: &Partition, at: VPage) {
    if let Some(mapping) = caller.mapping(mem, at) {
        wipe(mem, mapping.page);
    }
    mark(mem, caller, at, false);
}

/// "Return" (document 02, L3): "set it accessible as before, and wipe it if it was a kernel page or if the caller holds write",
/// both told by the memory before the call.
fn give_back(mem: &mut [u32], caller: &Partition, at: VPage, page: PPage, wiped: bool) {
    if wiped {
        wipe(mem, page);
    }
    mark(mem, caller, at, true);
}

// Format and the calls, by number.

/// The choice is an edition's number.
pub fn format(mem: &mut [u32], choice: u32) -> Answer {
    let edition = Edition::numbered(choice).ok_or(SIZE)?;
    let sizes = Sizes::of_length(edition, mem.len()).ok_or(SIZE)?;
    mem.fill(0);
    fill_formatted(mem, sizes);
    Ok(0)
}

/// Fills words that are all 0: the header first, as it says how the others are read. They may end after the root's five pages.
pub fn fill_formatted(mem: &mut [u32], sizes: Sizes) {
    let edition = sizes.edition;
    let root = ROOT_PAGE.address(edition);
    let header = [sizes.pages, sizes.threes, root, sizes.first_flat().address(edition), root, edition.number];
    mem[..header.len()].copy_from_slice(&header);
    for pair in 0..5 {
        set_word(mem, ROOT_PAGE, 2 * pair + 1, PPage(1 + pair as u32).address(edition));
    }
    let root = Partition::at(mem, ROOT_PAGE);
    set_word(mem, root.list, 0, 1 + 6 * sizes.threes);
    for k in 0..3 * sizes.threes {
        let page = PPage(FIRST_THREE + k);
        set_word(mem, root.roots()[k as usize % 3], k as usize / 3, page.address(edition) + PRESENT);
        set_word(mem, root.list, 2 + 2 * k as usize, page.address(edition));
    }
    for v in 1..=sizes.free {
        let page = PPage(sizes.first_flat().0 + v - 1);
        let mapping = Mapping { page, accessible: true, rights: ALL_RIGHTS };
        set_table_word(mem, root.directory, VPage(v), mapping.encode(edition));
    }
}

pub fn create_partition(mem: &mut [u32], five: [u32; 5]) -> Answer {
    let caller = caller_of(mem)?;
    let group = page_addresses(mem, five)?;
    require((0..5).all(|i| !group[..i].contains(&group[i])), TWICE)?;
    let mut mappings = Vec::new();
    for v in group {
        mappings.push(mapping_in_hand(mem, &caller, v)?);
    }
    require(mappings.iter().all(|&m| holds(m, WRITE)), RIGHTS)?;
    require(depth_of(mem, &caller) < MOST_DEPTH, DEPTH)?;
    found(mem, &caller, group);
    Ok(0)
}

/// The effect of create, with no check.
pub fn found(mem: &mut [u32], caller: &Partition, group: [VPage; 5]) {
    let pages = group.map(|v| caller.mapping(mem, v).map_or(HEADER, |m| m.page));
    for v in group {
        take(mem, caller, v);
    }
    let (descriptor, list, edition) = (pages[0], pages[4], Edition::of(mem));
    for (k, (v, page)) in group.iter().zip(pages).enumerate() {
        set_word(mem, descriptor, 2 * k, v.address(edition));
        set_word(mem, descriptor, 2 * k + 1, page.address(edition));
    }
    set_word(mem, descriptor, PARENT, caller.descriptor.address(edition));
    set_word(mem, list, 0, 1);
    set_table_word(mem, caller.shadow1, group[0], IS_CHILD);
}

pub fn delete_partition(mem: &mut [u32], child: u32) -> Answer {
    let caller = caller_of(mem)?;
    let [at] = page_addresses(mem, [child])?;
    // All of this is read before the first word changes: the child's kernel pages, and the caller's mapping of each page lent to
    // it. A lent page that is inaccessible is a kernel page of a partition below the child.
    let kernel = child_at(mem, &caller, at)?.kernel_pairs(mem);
    let lent: Vec<_> = caller.mappings(mem).filter(|&(v, _)| caller.shadow1(mem, v) == child).collect();
    set_table_word(mem, caller.shadow1, at, 0);
    for (v, own) in lent {
        set_table_word(mem, caller.shadow1, v, 0);
        give_back(mem, &caller, v, own.page, !own.accessible || holds(own, WRITE));
    }
    for (v, page) in kernel {
        give_back(mem, &caller, v, page, true);
    }
    Ok(0)
}

pub fn add_vaddr(mem: &mut [u32], page: u32, child: u32, target: u32, rights: u32) -> Answer {
    let caller = caller_of(mem)?;
    let [page, at, target] = page_addresses(mem, [page, child, target])?;
    // "rights 6 and 7 with 6, at the place where numbers above 7 are refused" (document 02, L7).
    require(rights < WRITE_EXECUTE, RIGHTS)?;
    let child = child_at(mem, &caller, at)?;
    let own = mapping_in_hand(mem, &caller, page)?;
    require(holds(own, rights), RIGHTS)?;
    let edition = Edition::of(mem);
    require(child.has_three(mem, target.directory_index(edition)), TABLE)?;
    require(child.mapping(mem, target).is_none(), TAKEN)?;
    set_table_word(mem, child.directory, target, Mapping { rights, ..own }.encode(edition));
    set_table_word(mem, child.shadow2, target, page.address(edition));
    set_table_word(mem, caller.shadow1, page, at.address(edition));
    Ok(0)
}

pub fn remove_vaddr(mem: &mut [u32], child: u32, target: u32) -> Answer {
    let caller = caller_of(mem)?;
    let [at, target] = page_addresses(mem, [child, target])?;
    let child = child_at(mem, &caller, at)?;
    let edition = Edition::of(mem);
    require(child.has_three(mem, target.directory_index(edition)), TABLE)?;
    require(child.mapping(mem, target).is_some(), UNMAPPED)?;
    require(child.in_hand(mem, target), HAND)?;
    let lender = child.shadow2(mem, target);
    set_table_word(mem, child.directory, target, 0);
    set_table_word(mem, child.shadow2, target, 0);
    set_table_word(mem, caller.shadow1, VPage::of(edition, lender), 0);
    Ok(lender)
}

pub fn page_count(mem: &[u32], child: u32, target: u32) -> Answer {
    let caller = caller_of(mem)?;
    let [at, target] = page_addresses(mem, [child, target])?;
    let child = child_at(mem, &caller, at)?;
    if child.has_three(mem, target.directory_index(Edition::of(mem))) {
        return Ok(0);
    }
    require(child.three_count(mem) < MOST_THREES, LIST)?;
    Ok(3)
}

pub fn prepare(mem: &mut [u32], child: u32, target: u32, first: u32) -> Answer {
    let caller = caller_of(mem)?;
    let [at, target, _] = page_addresses(mem, [child, target, first])?;
    let child = child_at(mem, &caller, at)?;
    let edition = Edition::of(mem);
    let index = target.directory_index(edition);
    require(!child.has_three(mem, index), TAKEN)?;
    require(child.three_count(mem) < MOST_THREES, LIST)?;
    let mut chain = Vec::new();
    follow_chain(mem, &caller, first, &mut chain)?;
    let used = word(mem, child.list, 0) as usize;
    for (kind, (v, page)) in chain.into_iter().enumerate() {
        take(mem, &caller, v);
        set_word(mem, child.roots()[kind], index, page.address(edition) + PRESENT);
        set_word(mem, child.list, used + 2 * kind, v.address(edition));
        set_word(mem, child.list, used + 2 * kind + 1, page.address(edition));
    }
    set_word(mem, child.list, 0, used as u32 + 6);
    Ok(0)
}

/// Collects the three chained pages. A page's own link is read only after the page itself has passed.
pub fn follow_chain(mem: &[u32], caller: &Partition, first: u32, chain: &mut Vec<(VPage, PPage)>) -> Result<(), u32> {
    let (mut link, edition) = (first, Edition::of(mem));
    for _ in 0..3 {
        let v = VPage::of(edition, link);
        let fresh = chain.iter().all(|earlier| earlier.0 != v);
        require(good_address(edition, link, edition.page_bytes()) && fresh, CHAIN)?;
        let mapping = mapping_in_hand(mem, caller, v)?;
        require(holds(mapping, READ + WRITE), RIGHTS)?;
        link = word(mem, mapping.page, 0);
        chain.push((v, mapping.page));
    }
    require(link == 0, CHAIN)
}

pub fn collect(mem: &mut [u32], child: u32, target: u32) -> Answer {
    let caller = caller_of(mem)?;
    let [at, target] = page_addresses(mem, [child, target])?;
    let child = child_at(mem, &caller, at)?;
    let edition = Edition::of(mem);
    let index = target.directory_index(edition);
    require(child.has_three(mem, index), TABLE)?;
    let empty = (0..edition.page_words()).all(|j| child.mapping(mem, VPage::at(edition, index, j)).is_none());
    require(empty, FULL_TABLE)?;
    let table = named_page(mem, child.directory, index);
    let pairs = child.list_pairs(mem);
    let place = pairs.iter().step_by(3).position(|pair| pair.1 == table).ok_or(DAMAGED)?;
    let three = [0, 1, 2].map(|kind| pairs[3 * place + kind]);
    for root in child.roots() {
        set_word(mem, root, index, 0);
    }
    // Later pairs move down over the dropped six words; the last six become 0.
    let used = 1 + 2 * pairs.len();
    let list = words_of_mut(mem, child.list);
    list.copy_within(1 + 6 * (place + 1)..used, 1 + 6 * place);
    list[used - 6..used].fill(0);
    list[0] = used as u32 - 6;
    for (v, page) in three {
        give_back(mem, &caller, v, page, true);
    }
    set_word(mem, three[0].1, 0, three[1].0.address(edition));
    set_word(mem, three[1].1, 0, three[2].0.address(edition));
    Ok(three[0].0.address(edition))
}

pub fn mapped_in_child(mem: &[u32], page: u32) -> Answer {
    let caller = caller_of(mem)?;
    let [page] = page_addresses(mem, [page])?;
    let mapping = caller.mapping(mem, page).ok_or(UNMAPPED)?;
    let lent_to = caller.shadow1(mem, page);
    // Document 02, L2: mapped, inaccessible, not lent.
    require(mapping.accessible || is_lent(lent_to), KERNEL)?;
    Ok(lent_to)
}

pub fn enter(mem: &mut [u32], child: u32) -> Answer {
    let caller = caller_of(mem)?;
    let [at] = page_addresses(mem, [child])?;
    let descriptor = child_at(mem, &caller, at)?.descriptor;
    set_word(mem, HEADER, CURRENT, descriptor.address(Edition::of(mem)));
    Ok(0)
}

pub fn leave(mem: &mut [u32]) -> Answer {
    let caller = caller_of(mem)?;
    let parent = parent_of(mem, caller.descriptor).ok_or(ROOT)?;
    set_word(mem, HEADER, CURRENT, parent.address(Edition::of(mem)));
    Ok(0)
}

/// The walk of load and store: the page and the word's index in it.
fn walk(mem: &[u32], address: u32, right: u32) -> Result<(PPage, usize), u32> {
    let (caller, edition) = (caller_of(mem)?, Edition::of(mem));
    require(good_address(edition, address, 4), ADDRESS)?;
    let mapping = caller.mapping(mem, VPage::of(edition, address)).ok_or(UNMAPPED)?;
    require(mapping.accessible, KERNEL)?;
    require(holds(mapping, right), RIGHTS)?;
    Ok((mapping.page, (address % edition.page_bytes() / 4) as usize))
}

pub fn load(mem: &[u32], address: u32) -> Answer {
    let (page, index) = walk(mem, address, READ)?;
    Ok(word(mem, page, index))
}

pub fn store(mem: &mut [u32], address: u32, value: u32) -> Answer {
    let (page, index) = walk(mem, address, WRITE)?;
    set_word(mem, page, index, value);
    Ok(0)
}
