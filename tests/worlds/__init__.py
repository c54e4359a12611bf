"""Random worlds: mail, mailboxes and homes that a seed draws, what people and programs do with them, and what must be
there when the companion has run. `python3 -B -m tests.worlds --help` says how many are tried by hand."""
