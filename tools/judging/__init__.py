"""The parts of `tools/judge`, which says whether a client of NFS version 4.1 keeps its side of the protocol.

`rules` is the table of what is looked for. `judge` takes records as they come; `slots` looks at the compounds of a slot, `clients` at a
client's lease, and `stateids` at its opens and locks. `reading` has the records of captures and of scripts, `live` those of a proxy.
`telling` writes down what was found, and `command` is the command line."""
