"""The debug adapter: what an editor asks (`adapter`), and what answers: the board, as an editor moves it (`board`), the
files that it shows (`sources`), expressions and disassembly (`values`), and registers, data and stack (`variables`)."""
