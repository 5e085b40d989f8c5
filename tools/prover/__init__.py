"""What runs the kit: crates that are proved in a copy, edits that it has to refuse, programs without a proof."""
