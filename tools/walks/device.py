# One command over the stores. The branches are joined to what each command comes to by the laws of crates/device/proofs/Ways.antt.
types("device", structs=["Line", "commands::Answer", "commands::Brought"], enums=["commands::Command", "commands::LockTurn"])
lent = "archive-now log-now audit-now"
forks("device::seen", said=[
    "(archive-way sound s c %s yes-1)" % lent,
    "(log-way sound s c %s no-1 yes-2)" % lent,
    "(audit-way sound s c %s no-1 no-2 yes-3)" % lent,
    "(last-way sound s c %s no-1 no-2 no-3 yes-4)" % lent,
    "(state-way sound s c %s no-1 no-2 no-3 no-4)" % lent,
])
forks("device::answer", said=[
    "(cycle-way sound s reply %s c yes-1)" % lent,
    "(turn-way sound s reply %s c no-1 yes-2)" % lent,
    "(commit-way sound s reply %s c no-1 no-2 yes-3)" % lent,
    "(rest-way sound s reply %s c no-1 no-2 no-3)" % lent,
])
