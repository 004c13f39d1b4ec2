//! The compiled check against the independent Rust drawing's, on lawful and damaged tables. Each failure names the seed that makes the survey again.

mod number;
mod tables;

use number::number;
use surveys::{damage, document, generate, refusals, Survey};
use tables::{independent, proved};

fn assert_same(survey: &Survey, what: &str) -> u32 {
    let number = number(clearance::check(proved(survey)));
    assert_eq!(number, drawing::check(independent(survey)), "{what}");
    number
}

#[test]
fn the_surveys_of_the_document() {
    for example in document::checked() {
        let number = assert_same(&example.survey, &example.name);
        assert_eq!(number, example.by_itself(), "{}", example.name);
    }
}

#[test]
fn lawful_surveys_pass() {
    let any_outside = generate::named("survey", 0..5_000, generate::survey);
    let dry_outside = generate::named("interior", 0..5_000, generate::interior);
    for (what, survey) in any_outside.chain(dry_outside) {
        assert_eq!(assert_same(&survey, &what), 0, "{what}");
    }
}

#[test]
fn damaged_tables_are_refused_alike() {
    let by_itself = refusals::ORDER.into_iter().filter(|&refusal| refusals::by_itself(refusal) != 0);
    for refusal in by_itself {
        for seed in 0..1_500 {
            let survey = damage::damaged_for(refusal, seed).survey;
            let what = format!("damaged for {refusal}, seed {seed}");
            assert_eq!(assert_same(&survey, &what), refusal, "{what}");
        }
    }
    for seed in 0..10_000 {
        assert_same(&damage::damaged(seed).survey, &format!("damaged, seed {seed}"));
    }
}

#[test]
fn corrupted_tables_are_judged_alike() {
    for seed in 0..40_000 {
        assert_same(&damage::corrupted(seed), &format!("corrupted, seed {seed}"));
    }
}
