# The question that stops at the first match. That what it finds is what the rule says are laws of crates/asked/proofs/Last.antt.
types("asked", structs=["Sought", "ring::Ring", "commands::Reply"])
seeks("asked::newest_with", said=["(found-first sound kept wanted log-now k missed less hit)", "(found-none sound kept wanted log-now k missed last)"])
