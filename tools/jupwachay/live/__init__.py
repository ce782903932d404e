"""A live relay out of the relay's commands: hosts are followed, what they send is given to `ingest`, and consumers get what `replay` writes."""
