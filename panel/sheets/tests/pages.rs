//! What README.md and docs/REFUSALS.md say of sheets and numbers, held to the services and the sample sheets.

mod common;

use common::program::repository;
use common::samples;
use sheets::{number, List, Sheet};
use std::collections::BTreeMap;
use std::fs;

fn page(file: &str) -> String {
    fs::read_to_string(repository().join(file)).expect("the page")
}

/// A refusal as the page has it: its number, its word where it has one, what it says, and its example.
struct Item {
    number: u16,
    word: Option<String>,
    said: String,
    example: String,
}

/// The items of the lists of refusals: `- **NUMBER** WORD: SAID`, and below it `- Example: EXAMPLE` in one line.
fn items() -> Vec<Item> {
    let item = |text: &str| {
        let (number, rest) = text.split_once("**")?;
        let (word, rest) = rest.split_once(": ")?;
        let (said, rest) = rest.split_once('\n')?;
        let (_, rest) = rest.split_once("- Example: ")?;
        Some(Item {
            number: number.parse().ok()?,
            word: word
                .strip_prefix(" `")
                .map(|w| w.trim_end_matches('`').into()),
            said: said.into(),
            example: rest.lines().next()?.into(),
        })
    };
    let page = page("docs/REFUSALS.md");
    page.split("\n- **").filter_map(item).collect()
}

/// Every sample's print, by its name.
fn prints() -> BTreeMap<String, String> {
    let samples = samples().into_iter();
    samples.map(|(name, _, print)| (name, print)).collect()
}

#[test]
fn every_number_has_its_item_and_its_sentence() {
    let mut items = items();
    items.sort_by_key(|item| item.number);
    let told = items.iter().map(|item| (item.number, &item.said[..]));
    let due = number::ALL.iter().map(|(number, _, said)| (*number, *said));
    assert_eq!(told.collect::<Vec<_>>(), due.collect::<Vec<_>>());
}

/// The first sheet that an item links gives its number and, where it has one, its word; a print that is quoted is its.
#[test]
fn every_example_gives_its_number() {
    let prints = prints();
    let mut linked = 0;
    for item in items().iter().filter(|item| (3..32).contains(&item.number)) {
        let (number, example) = (item.number, &item.example);
        let Some(name) = example.strip_prefix('[').and_then(|e| e.split(']').next()) else {
            continue;
        };
        linked += 1;
        assert!(example.contains(&format!("(../sheets/{name}.sheet)")));
        let print = &prints[name];
        let due = match &item.word {
            Some(word) => format!(" !{number} {word}\n"),
            None => format!("refused {number} "),
        };
        assert!(print.contains(&due), "{name}: {print}");
        if let Some((_, quoted)) = example.rsplit_once("; `") {
            let line = quoted.trim_end_matches('`');
            assert!(print.lines().any(|other| other == line), "{name}: {line}");
        }
    }
    assert!(linked >= 17, "{linked}");
}

/// The items of 4, and of 32 to 35.
#[test]
fn what_calls_answer() {
    let refusal = Sheet::check(&[5, 0, 1, 0, 2]).unwrap_err();
    assert_eq!((refusal.number(), refusal.place()), (4, 0));
    let worked = samples().into_iter().find(|(n, _, _)| n == "worked-print");
    let mut sheet = Sheet::check(&worked.expect("the sample").1).expect("an accepted table");
    for (list, due) in [
        (List::EMPTY, (32, 10, 2)),
        (List::from([2]), (33, 10, 2)),
        (List::from([0, 0]), (34, 10, 0)),
    ] {
        let refusal = sheet.evaluate(&list).unwrap_err();
        assert_eq!((refusal.number(), refusal.place(), refusal.count()), due);
    }
    let mut walk = sheet.walk_from(&[1].into()).expect("a complete list");
    assert!(!walk.step());
}

/// The indented lines of a page, block by block.
fn blocks(page: &str) -> Vec<String> {
    let mut blocks = vec![String::new()];
    for line in page.lines() {
        match line.strip_prefix("    ") {
            Some(text) => *blocks.last_mut().expect("a block") += &format!("{text}\n"),
            None => blocks.push(String::new()),
        }
    }
    blocks.retain(|block| !block.is_empty());
    blocks
}

/// README shows the prints of two samples, and the second sheet itself.
#[test]
fn what_the_first_page_shows() {
    let blocks = blocks(&page("README.md"));
    let prints = prints();
    let shown = format!(
        "$ ./walk sheets/union-split.sheet\n{}",
        prints["union-split"]
    );
    assert!(blocks.contains(&shown));
    assert!(blocks.contains(&prints["worked-print"]));
    let worked = samples().into_iter().find(|(n, _, _)| n == "worked-print");
    let table = worked.expect("the sample").1;
    let is_shown = |block: &String| records::encode(block).as_ref() == Ok(&table);
    assert!(blocks.iter().any(is_shown));
}
