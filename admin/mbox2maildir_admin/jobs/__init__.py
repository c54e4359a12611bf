"""Several tasks at once: how many, and the processes that do them."""
