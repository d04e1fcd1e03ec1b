"""The server for gdb: who is let in (`door`), packets (`wire`), requests (`stub`), the board as gdb sees it
(`board`), conditions (`bytecode`), and what gdb is told of registers (`features`), of labels and lines (`elf`), and of callers (`cfi`,
`frames`, `flow`)."""
