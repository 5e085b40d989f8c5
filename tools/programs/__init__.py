"""What runs the built programs: words, files, pipes, sessions, failing calls, and releases of them."""
