//! How often each call gave each answer, and how often each of the ways to an answer was met that the table does not tell apart.

use super::calls::{Answer, CALLS};
use super::geometry::*;
use super::memory::*;
use super::refusal::*;
use super::sound::sound;
use std::fmt;

/// Whether a call answers 0, whether it answers other numbers, and its refusals in the order of its row.
const ROWS: [(bool, bool, &[u32]); CALLS.len()] = [
    (true, false, &[13]),
    (true, false, &[1, 3, 9]),
    (true, false, &[1, 2]),
    (true, false, &[1, 2, 3, 9]),
    (true, true, &[1, 2, 11]),
    (false, true, &[1, 2, 3, 4, 8]),
    (true, false, &[1, 2, 3, 7, 3]),
    (false, true, &[1, 3, 5, 8]),
    (false, true, &[1, 3, 6]),
    (true, true, &[1, 2, 3, 10]),
    (true, true, &[1, 2]),
    (true, true, &[1, 2]),
    (true, false, &[1, 2]),
    (true, false, &[1, 12]),
];

/// Columns: 0, other answers, then the refusals.
const COLUMNS: usize = 2 + LENGTH as usize;

fn column(answer: Answer) -> usize {
    match answer {
        Ok(0) => 0,
        Ok(_) => 1,
        Err(refusal) => 1 + refusal as usize,
    }
}

fn title(column: usize) -> String {
    match column {
        0 => "0".to_string(),
        1 => "ok".to_string(),
        _ => format!("no {}", column - 1),
    }
}

/// Whether the rules give this call such an answer.
fn possible(row: usize, column: usize) -> bool {
    let (zero, other, refusals) = ROWS[row];
    match column {
        0 => zero,
        1 => other,
        _ => refusals.contains(&(column as u32 - 1)),
    }
}

/// A call with the memory before it and its answer. All ways are asked of this.
struct Met<'a> {
    before: &'a [u32],
    line: &'a [u32],
    answer: Answer,
    here: Partition,
}

type Way = (&'static str, fn(&Met) -> bool);

/// Every way has to be met.
const WAYS: [Way; 74] = [
    ("format again", |m| m.passed(0) && sound(m.before)),
    ("format on a length not permitted", |m| m.number() == 0 && !m.permitted()),
    ("another call on a length not permitted", |m| m.number() != 0 && !m.permitted()),
    ("create where the start is no multiple of 4", |m| m.passed(1) && m.own(1).start % 4 != 0),
    ("create of an enabled block", |m| m.passed(1) && m.enabled(1)),
    ("create without room in 128 bytes or more", |m| m.refused(1, STRUCTURE) && m.own(1).bytes() >= 128),
    ("delete of a child with descendants two or more deep", |m| m.passed(2) && m.generations() >= 2),
    ("delete of a child that has lent", |m| m.passed(2) && m.child(1).blocks().any(|b| b.usage == LENT)),
    ("delete of a child that has cut", |m| m.passed(2) && m.child(1).blocks().any(|b| b.next != 0)),
    ("delete of a child that has a taken block", |m| m.passed(2) && m.child(1).blocks().any(|b| b.usage > LENT)),
    ("delete of a child without a structure", |m| m.passed(2) && m.child(1).structures.is_empty()),
    ("delete beside another child", |m| {
        m.passed(2) && m.here.blocks().filter(|b| b.usage == HAS_DESCRIPTOR).count() > 1
    }),
    ("prepare for oneself", |m| m.passed(3) && m.line[1] == 0),
    ("prepare for a child", |m| m.passed(3) && m.line[1] != 0),
    ("prepare below a gap", |m| m.passed(3) && m.free_k() < m.last_k()),
    ("prepare below a gap that is not at 1", |m| m.passed(3) && (2..m.last_k()).contains(&m.free_k())),
    ("prepare with an enabled block", |m| m.passed(3) && m.enabled(2)),
    ("a sixteenth structure", |m| m.passed(3) && m.of(1).structures.len() == STRUCTURES - 1),
    ("a seventeenth structure for oneself", |m| m.seventeenth() && m.line[1] == 0),
    ("a seventeenth structure for a child", |m| m.seventeenth() && m.line[1] != 0),
    ("prepare without room", |m| m.refused(3, STRUCTURE) && !m.own(2).has_room(STRUCTURE_WORDS)),
    ("prepare without room in 296 bytes or more", |m| {
        m.refused(3, STRUCTURE) && !m.own(2).has_room(STRUCTURE_WORDS) && m.own(2).bytes() >= 296
    }),
    ("collect of one's own, in one's own pool", |m| m.passed(4) && m.line[1] == 0 && m.collected().own == 1),
    ("collect of one's own that the parent prepared", |m| m.passed(4) && m.line[1] == 0 && m.collected().own == 0),
    ("collect of a child's, in the caller's pool", |m| m.passed(4) && m.line[1] != 0 && m.collected().own == 0),
    ("collect of a child's, in the child's own pool", |m| m.passed(4) && m.line[1] != 0 && m.collected().own == 1),
    ("collect of the last structure", |m| m.passed(4) && m.of(1).structures.len() == 1),
    ("collect of one's own last structure", |m| m.passed(4) && m.line[1] == 0 && m.of(1).structures.len() == 1),
    ("collect of a structure that is not the lowest", |m| m.passed(4) && m.collected().k != m.of(1).structures[0].k),
    ("add with all rights that the block has", |m| m.passed(5) && m.line[3] == m.own(2).rights),
    ("add with fewer rights", |m| m.passed(5) && m.line[3] != m.own(2).rights),
    ("add with no rights", |m| m.passed(5) && m.line[3] == 0),
    ("add of an enabled block", |m| m.passed(5) && m.enabled(2)),
    ("add to a slot of a second structure", |m| m.passed(5) && m.answer >= Ok(16)),
    ("add to a child without a structure", |m| m.refused(5, SLOT) && m.child(1).structures.is_empty()),
    ("add to a child whose slots are all taken", |m| m.refused(5, SLOT) && !m.child(1).structures.is_empty()),
    ("add with rights above 7", |m| m.refused(5, RIGHTS) && m.line[3] > ALL_RIGHTS),
    ("add with a right that the block has not", |m| m.refused(5, RIGHTS) && m.line[3] <= ALL_RIGHTS),
    ("remove of an enabled block", |m| m.passed(6) && m.child(1).entry_of(m.own(2).link).is_some()),
    ("remove of a block not lent", |m| m.refused(6, BLOCK) && m.own(2).usage != LENT),
    ("remove of a block lent to another child", |m| {
        m.refused(6, BLOCK) && m.own(2).usage == LENT && !m.own(2).lent_to(m.line[1])
    }),
    ("remove of a block whose first piece is lent on", |m| m.refused(6, BLOCK) && m.lent_piece().usage == LENT),
    ("remove of a block in which a descriptor stands", |m| {
        m.refused(6, BLOCK) && m.lent_piece().usage == HAS_DESCRIPTOR
    }),
    ("remove of a block in which a structure stands", |m| m.refused(6, BLOCK) && m.lent_piece().usage == HAS_STRUCTURE),
    ("remove where the first piece is in hand", |m| m.refused(6, UNMERGED) && m.lent_piece().usage == IN_HAND),
    ("remove where the first piece is not in hand", |m| m.refused(6, UNMERGED) && m.lent_piece().usage > IN_HAND),
    ("remove where a later piece is lent on", |m| {
        let later = |b: &Slot| b.source == m.line[2] && b.previous != 0 && b.usage == LENT;
        m.refused(6, UNMERGED) && m.lent_piece().usage == IN_HAND && m.child(1).blocks().any(later)
    }),
    ("cut at an odd byte", |m| m.passed(7) && m.line[2] % 2 == 1),
    ("cut of an enabled block", |m| m.passed(7) && m.enabled(1)),
    ("cut of a piece with a next", |m| m.passed(7) && m.own(1).next != 0),
    ("cut of a middle piece", |m| m.passed(7) && m.own(1).next != 0 && m.own(1).previous != 0),
    ("cut below the root", |m| m.passed(7) && m.here.level > 0),
    ("cut that leaves 32 bytes below", |m| m.passed(7) && m.line[2] - m.own(1).start == 32),
    ("cut that leaves 32 bytes above", |m| m.passed(7) && m.own(1).end - m.line[2] == 32),
    ("cut that leaves 31 bytes", |m| {
        m.refused(7, PIECE) && (m.line[2] == m.own(1).start + 31 || m.line[2] == m.own(1).end - 31)
    }),
    ("cut outside the block", |m| m.refused(7, PIECE) && !m.own(1).has_byte(m.line[2])),
    ("merge, the lower named first", |m| m.passed(8) && m.answer == Ok(m.line[1])),
    ("merge, the higher named first", |m| m.passed(8) && m.answer == Ok(m.line[2])),
    ("merge of an enabled lower", |m| m.passed(8) && m.enabled(m.lower_argument())),
    ("merge of an enabled higher", |m| m.passed(8) && m.enabled(m.higher_argument())),
    ("merge with a piece behind", |m| m.passed(8) && m.own(m.higher_argument()).next != 0),
    ("merge of blocks that adjoin but were not cut apart", |m| m.refused(8, APART) && m.adjoin()),
    ("merge of a block with itself", |m| m.refused(8, APART) && m.line[1] == m.line[2]),
    ("enable twice", |m| m.passed(9) && m.line[3] != 0 && m.of(1).entry_of(m.line[2]).is_some()),
    ("enable for a child", |m| m.passed(9) && m.line[3] != 0 && m.line[1] != 0),
    ("enable where all eight entries are taken, one by it", |m| {
        m.passed(9) && m.line[3] != 0 && m.of(1).entry_of(0).is_none() && m.of(1).entry_of(m.line[2]).is_some()
    }),
    ("disable what is enabled", |m| m.passed(9) && m.line[3] == 0 && m.of(1).entry_of(m.line[2]).is_some()),
    ("disable what is not enabled", |m| m.passed(9) && m.line[3] == 0 && m.of(1).entry_of(m.line[2]).is_none()),
    ("read enabled of entry 0", |m| m.passed(10) && m.line[2] == 0),
    ("read enabled of entry 9 or above", |m| m.passed(10) && m.line[2] > 8),
    ("find of a lent place in a child's pool", |m| m.passed(11) && m.line[1] != 0 && m.found().usage == LENT),
    ("find of a taken place in a child's pool", |m| m.passed(11) && m.line[1] != 0 && m.found().usage > LENT),
    ("find of a place that a child has not", |m| m.passed(11) && m.line[1] != 0 && m.answer == Ok(0)),
    ("enter of a partition nine or more below the root", |m| m.passed(12) && m.here.level >= 8),
];

impl Met<'_> {
    fn number(&self) -> u32 {
        self.line[0]
    }

    fn permitted(&self) -> bool {
        Geometry::of_length(self.before.len()).is_some()
    }

    fn passed(&self, number: u32) -> bool {
        self.number() == number && self.answer.is_ok()
    }

    fn refused(&self, number: u32, refusal: u32) -> bool {
        self.number() == number && self.answer == Err(refusal)
    }

    /// The caller's block that an argument names.
    fn own(&self, argument: usize) -> Slot {
        self.here.slot(self.line[argument])
    }

    /// Whether the caller's block that an argument names is enabled.
    fn enabled(&self, argument: usize) -> bool {
        self.here.entry_of(self.line[argument]).is_some()
    }

    fn child(&self, argument: usize) -> Partition {
        Partition::read(self.before, self.own(argument).place())
    }

    /// The caller for 0, else the child.
    fn of(&self, argument: usize) -> Partition {
        match self.line[argument] {
            0 => self.here.clone(),
            _ => self.child(argument),
        }
    }

    fn generations(&self) -> u32 {
        let child = self.child(1);
        let deepest = family(self.before, child.at).iter().map(|one| one.level).max();
        deepest.unwrap_or(0).saturating_sub(child.level)
    }

    fn free_k(&self) -> u32 {
        self.of(1).free_k().unwrap_or(u32::MAX)
    }

    fn last_k(&self) -> u32 {
        self.of(1).structures.last().map_or(0, |structure| structure.k)
    }

    fn seventeenth(&self) -> bool {
        self.refused(3, STRUCTURE) && self.own(2).has_room(STRUCTURE_WORDS)
    }

    /// The structure that a collect took.
    fn collected(&self) -> Structure {
        let of = self.of(1);
        of.structures[of.structures.iter().position(Structure::is_empty).unwrap_or(0)].clone()
    }

    /// For a remove of a block that is lent to that child, the first piece there; else all 0.
    fn lent_piece(&self) -> Slot {
        let block = self.own(2);
        if block.lent_to(self.line[1]) {
            self.child(1).slot(block.link)
        } else {
            Slot::default()
        }
    }

    /// Which argument of a merge names the lower block, and which the higher.
    fn lower_argument(&self) -> usize {
        if self.own(1).start < self.own(2).start {
            1
        } else {
            2
        }
    }

    fn higher_argument(&self) -> usize {
        3 - self.lower_argument()
    }

    fn adjoin(&self) -> bool {
        let (one, other) = (self.own(1), self.own(2));
        one.end == other.start || other.end == one.start
    }

    /// What a find found.
    fn found(&self) -> Slot {
        self.of(1).blocks().find(|block| block.has_byte(self.line[2])).copied().unwrap_or_default()
    }
}

/// Counts by call and answer, and by way.
#[derive(Clone)]
pub struct Cover {
    answers: [[u64; COLUMNS]; ROWS.len()],
    ways: [u64; WAYS.len()],
}

impl Default for Cover {
    fn default() -> Cover {
        Cover { answers: [[0; COLUMNS]; ROWS.len()], ways: [0; WAYS.len()] }
    }
}

impl Cover {
    /// Counts a call, given the memory before it. Format again is one of a sound memory; whether the first of a sequence is counted is left to the caller.
    pub fn count(&mut self, before: &[u32], line: &[u32], answer: Answer) {
        self.answers[line[0] as usize][column(answer)] += 1;
        let met = Met { before, line, answer, here: Partition::current(before) };
        for (count, (_, way)) in self.ways.iter_mut().zip(WAYS) {
            *count += u64::from(way(&met));
        }
    }

    pub fn add(&mut self, other: &Cover) {
        let all = |cover: &Cover| cover.answers.as_flattened().iter().chain(&cover.ways).copied().collect::<Vec<_>>();
        let own = self.answers.as_flattened_mut().iter_mut().chain(&mut self.ways);
        own.zip(all(other)).for_each(|(own, other)| *own += other);
    }

    pub fn calls(&self) -> u64 {
        self.answers.as_flattened().iter().sum()
    }

    pub fn passed(&self) -> u64 {
        self.answers.iter().map(|row| row[0] + row[1]).sum()
    }

    /// Answers that the rules give and that were not met, as "call answer", then ways.
    pub fn missing(&self) -> Vec<String> {
        let all = (0..ROWS.len()).flat_map(|row| (0..COLUMNS).map(move |column| (row, column)));
        let answers = all.filter(|&(row, column)| possible(row, column) && self.answers[row][column] == 0);
        let ways = WAYS.iter().zip(self.ways).filter(|&(_, count)| count == 0).map(|((name, _), _)| name.to_string());
        answers.map(|(row, column)| format!("{} {}", CALLS[row].0, title(column))).chain(ways).collect()
    }

    /// Answers that were met and that the rules don't give.
    pub fn impossible(&self) -> Vec<String> {
        let all = (0..ROWS.len()).flat_map(|row| (0..COLUMNS).map(move |column| (row, column)));
        let met = all.filter(|&(row, column)| !possible(row, column) && self.answers[row][column] != 0);
        met.map(|(row, column)| format!("{} {}", CALLS[row].0, title(column))).collect()
    }
}

/// The table, where a dot stands for an answer that the rules don't give, and the ways.
impl fmt::Display for Cover {
    fn fmt(&self, f: &mut fmt::Formatter) -> fmt::Result {
        write!(f, "{:12}", "")?;
        (0..COLUMNS).try_for_each(|column| write!(f, "{:>7}", title(column)))?;
        for (row, (name, _)) in CALLS.iter().enumerate() {
            write!(f, "\n{name:12}")?;
            for (column, count) in self.answers[row].iter().enumerate() {
                match count {
                    0 if !possible(row, column) => write!(f, "{:>7}", ".")?,
                    count => write!(f, "{count:>7}")?,
                }
            }
        }
        WAYS.iter().zip(self.ways).try_for_each(|((name, _), count)| write!(f, "\n{count:>7} {name}"))
    }
}
