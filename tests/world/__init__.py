"""Both programs among others: the commands of the pages, mail programs, file systems, packages, shells."""
