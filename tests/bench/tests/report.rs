//! The measuring program, in one short round: nothing is left out of its tables. The figures are not looked at.

use bench::report::Report;
use std::time::Duration;

#[test]
fn tables() {
    let report = Report::measure(Duration::ZERO);
    assert_eq!(report.calls.len(), 18);
    for table in &report.calls {
        assert_eq!(table.rows.len(), 17, "{}", table.title);
        for row in &table.rows {
            assert!(!row[1].is_empty() || !row[5].is_empty(), "{}: {}", table.title, row[0]);
        }
    }
    assert_eq!(report.stack.len(), 3);
    assert_eq!(report.bars.len(), 15);
    for table in report.calls.iter().chain(&report.stack).chain(&report.short) {
        assert!(table.rows.iter().all(|row| row.len() == table.head.len()), "{}", table.title);
        assert!(table.text().lines().count() > table.rows.len() && table.markdown().contains("|---|"));
    }
    let deleting: Vec<_> = report.short.iter().filter(|table| table.title.starts_with("deletePartition")).collect();
    assert_eq!(deleting.len(), 2);
    for row in deleting.iter().flat_map(|table| &table.rows) {
        let [title, lent, wiped] = [0, 1, 2].map(|k| row[k].as_str());
        assert_ne!(lent, "0", "{title}");
        assert_eq!(wiped, if title.ends_with("read alone") { "0" } else { lent }, "{title}");
    }
    let contexts: Vec<_> = report.short.iter().filter(|table| table.title.starts_with("notify")).collect();
    assert_eq!(contexts.len(), 1);
    // The judge, seven ways, and three calls on damaged memory; five trees.
    assert_eq!((contexts[0].rows.len(), contexts[0].head.len()), (11, 6));
    for wiping in report.short.iter().filter(|table| table.title.starts_with("Wiping")) {
        for row in &wiping.rows {
            assert!([&row[4], &row[8]].iter().all(|ratio| !ratio.starts_with('-')), "{row:?}");
        }
    }
}
