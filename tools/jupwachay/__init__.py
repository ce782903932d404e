"""What the tools beside the relay share: addresses, tapes, tables, identities, vouching, repositories, and how the relay is run."""
