// Stand-in for the crate's parser/svgtree/text.rs: svgtree/mod.rs names the module,
// nothing of it is needed.
