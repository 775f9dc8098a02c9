//! The measuring program of the block kernel, in one short round: nothing is left out of its tables. The figures are not looked at, but for the stack, which
//! is of the archive and not of the machine.

use bench::blocks::call::NAMES;
use bench::blocks::report::{measure, stack::Stack, SCENARIOS};
use std::time::Duration;

#[test]
fn tables() {
    let report = measure(Duration::ZERO);
    assert_eq!(report.calls.len(), SCENARIOS.len());
    for table in &report.calls {
        // The judge, and each call where it passes and, but for format, where it is refused; children without structures are lent nothing.
        assert_eq!(table.rows.len(), 1 + NAMES.len(), "{}", table.title);
        for (number, row) in table.rows[1..].iter().enumerate() {
            let lends = [5, 6].contains(&number) && table.title.contains("bare");
            assert_eq!(row[1].is_empty(), lends, "{}: {}", table.title, row[0]);
            assert_eq!(row[5].is_empty(), number == 0, "{}: {}", table.title, row[0]);
        }
    }
    // Calls, six recipes that grow, damaged memory, stack.
    assert_eq!(report.bars.len(), 9);
    for table in report.calls.iter().chain(&report.stack).chain(&report.short) {
        assert!(table.rows.iter().all(|row| row.len() == table.head.len()), "{}", table.title);
        assert!(table.text().lines().count() > table.rows.len() && table.markdown().contains("|---|"));
    }
    let deleting = report.short.iter().find(|table| table.title.starts_with("delete")).expect("a table");
    assert!(deleting.rows.iter().all(|row| row[1].parse::<usize>().is_ok_and(|partitions| partitions > 20)));
}

/// No call takes more on a deep tree than on any other: nothing descends.
#[test]
fn stack() {
    let stack = Stack::measure();
    let bar = stack.bar();
    assert!(bar.holds(), "{} KiB: {}", bar.figure, bar.place);
    let most: Vec<usize> = (0..stack.trees()).map(|tree| stack.most(tree).0).collect();
    assert!(most.iter().all(|&bytes| bytes == most[0] && bytes > 0), "{most:?}");
}
