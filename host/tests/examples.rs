//! The examples, run.

macro_rules! example {
    ($name:ident, $file:literal) => {
        mod $name {
            include!($file);

            #[test]
            fn runs() {
                main().expect("nothing is refused");
            }
        }
    };
}

example!(cores, "../examples/cores.rs");
example!(first, "../examples/first.rs");
example!(kernel, "../examples/kernel.rs");
example!(lanes, "../examples/lanes.rs");
example!(machine, "../examples/machine.rs");
example!(moves, "../examples/moves.rs");
example!(pane, "../examples/pane.rs");
example!(rows, "../examples/rows.rs");
example!(session, "../examples/session.rs");
example!(words, "../examples/words.rs");
