"""What the tests give the program: random lines and sessions, the same for each seed, class files, and sessions at the
limits."""
