"""The parts of `tools/compare`, which judges a server of NFS 4.1 by `nfs41d replay`.

`symbols` has scripts whose identifiers are names; `making` makes them, `captures` lifts them from recordings. `playing` plays a script
to both sides, with the calls in flight of `flights`; `replies` compares their answers and `results` each result, `circumstances` and `rules`
say what a difference is, `shrinking` makes its script small, `telling` writes it down. `reference` and `server` are the two sides."""
