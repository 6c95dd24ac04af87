"""A proxy between a client of NFS version 4.1 and its server, which does faults on purpose (tools/faults, docs/CLIENTS.md)."""
