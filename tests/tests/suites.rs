//! Each suite as a test. `cargo test --release --offline -p outside bytes` runs those that have the word in their name; what a suite
//! printed is shown where it disagrees, or behind `-- --nocapture`.

use outside::SUITES;

/// Tests with the names of suites, and one that no suite is left out.
macro_rules! tests {
    ($($name:ident)*) => {
        $(
            #[test]
            fn $name() {
                agrees(stringify!($name));
            }
        )*

        #[test]
        fn every_suite_is_a_test() {
            let tests: Vec<String> = [$(stringify!($name)),*].iter().map(|test| test.replace('_', "-")).collect();
            let suites: Vec<&str> = SUITES.iter().map(|suite| suite.name).collect();
            assert_eq!(tests, suites);
        }
    };
}

tests! {
    examples all_small random_small all_tables starts checker bytes fields hours programs unproved opening parts marks questions idle
    silent merging census reasons suspended desk
}

fn agrees(test: &str) {
    let suite = SUITES.iter().find(|suite| suite.name == test.replace('_', "-")).expect("a suite of this name");
    assert_eq!(suite.run(false, || panic!("the suite was stopped")), 0, "disagreements");
}
