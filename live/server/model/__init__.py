"""Model what engineers do to a road, and what the road is as a result. The model has no input, no output and no clock.

A replica is a set of operations. An operation never changes, and sets merge by union. Everything else is a function of the
set. Each module has a part of this function:

    operations         what an operation is, and the operations that people make
    reading            operations as JSON, checked
    active_operations  which operations of a set are active: an undo retracts an operation, and sites can be excluded
    layers             layers, and which of them lies on top
    road               a set of operations with its layers; a road is a value
    projection         the edits that turn one road of a program into another
    visibility         where a layer is in force, what covers it elsewhere, and whose change was lost
    lines              the lines of the list of changes, and which of them an operation may change
    choices            what a seat can undo, redo, share and forget
    demands            the demands, in cars per hour, that inflow chances stand for

An operation that *counts* is an active one, in the words of live/PROTOCOL.md.
"""
