# One measuring cycle, over the archive and the logbook.
types("cycle", structs=["commands::Brought", "commands::Answer", "Writes", "Plan", "state::State"])
straight("cycle::write_both")
straight("cycle::cycle_by", unfold="cyclePlanned")
straight("cycle::cycle", said="(paper s brought archive-now log-now)")
