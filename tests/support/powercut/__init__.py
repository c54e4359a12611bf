"""Power cuts on real file systems: a disk that keeps a log, what a cut leaves of it, and what must be true then."""
