"""The parts that tests share: running the program, comparing its output, and reading the documents."""
