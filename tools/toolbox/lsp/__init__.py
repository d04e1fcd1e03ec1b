"""The language server: what a source says (`words`, `lines`, `source`), what the program answers of it (`answers`, `refusing`), what is
told of it (each module by its request), and the protocol (`text`, `server`)."""
