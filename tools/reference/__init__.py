"""What needs the independent implementation, which is no part of this repository: README.md beside this."""
