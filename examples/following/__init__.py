"""The parts of `examples/follow`: a process that runs, how it is stopped, and its memory in a store."""
