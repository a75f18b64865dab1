//! In place of `content/args.rs` and `content/character.rs`: format arguments and `char` content are not ported.
