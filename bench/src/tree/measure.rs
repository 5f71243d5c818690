//! Costs of one setting over all strings.

use crate::clock::seconds;
use crate::cut::cut;
use crate::pass::call_and_pass;
use reference::settings::Settings;
use std::hint::black_box;

/// What one string cost under one setting.
pub struct Cost {
    /// Bytes of the string.
    pub length: usize,
    /// The time of one call in FNV-1a passes over the string.
    pub passes: f64,
    /// The reference's time divided by the library's, where it was measured.
    pub reference: Option<f64>,
    /// Whether question 8 refused the tree.
    pub refused: bool,
}

/// What all strings cost under one setting, by content and then by size.
pub struct Row {
    pub settings: Settings,
    pub costs: Vec<Vec<Cost>>,
}

/// Measures one setting. The reference, if it is asked for, is run once over each of the longest strings.
pub fn row(settings: &Settings, strings: &[Vec<Vec<u8>>], with_reference: bool) -> Row {
    let costs = |sizes: &Vec<Vec<u8>>| {
        let longest = sizes.len() - 1;
        let cost =
            |(k, string): (usize, &Vec<u8>)| cost(settings, string, with_reference && k == longest);
        sizes.iter().enumerate().map(cost).collect()
    };
    Row {
        settings: *settings,
        costs: strings.iter().map(costs).collect(),
    }
}

fn cost(settings: &Settings, string: &[u8], with_reference: bool) -> Cost {
    let mut nodes = vec![0; 65_536];
    let mut answer = 0;
    let repetitions = (65_536 / string.len()).max(1);
    let (call, pass) = call_and_pass(repetitions, string, || {
        answer = black_box(cut(settings, black_box(string), &mut nodes));
    });
    let reference = with_reference.then(|| {
        let mut expected = vec![0; 65_536];
        let mut expected_answer = 0;
        let slower = seconds(1, || {
            expected_answer = reference::rcds::rcds_tree(settings, string, &mut expected);
        });
        let equal = answer == expected_answer && nodes == expected;
        assert!(equal, "wrong tree: {settings:?}");
        slower / call
    });
    Cost {
        length: string.len(),
        passes: call / pass,
        reference,
        refused: answer == 8,
    }
}
