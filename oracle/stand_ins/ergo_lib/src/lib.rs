//! Stand-in for `ergo_lib`, as docs/RULES.md has it: a table of twelve entries, and a status of size, code and raw bytes. The
//! other structs are names only.

pub mod chain {
    pub mod parameters;

    pub mod ergo_state_context {
        #[derive(Debug)]
        pub struct ErgoStateContext;
    }

    pub mod transaction {
        #[derive(Debug)]
        pub struct Transaction;
    }
}

pub mod ergotree_ir {
    pub mod serialization;
    pub mod validation;

    pub mod chain {
        pub mod ergo_box {
            #[derive(Debug)]
            pub struct ErgoBox;
        }
    }
}
