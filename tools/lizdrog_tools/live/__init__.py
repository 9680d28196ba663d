"""The live server's surroundings: a bridge from sockets to its FIFOs, and a prompt at such a socket."""
