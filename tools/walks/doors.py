# The commit, and a line of the audit trail.
types("doors", structs=["state::State", "commands::Answer", "Plan"])
straight("doors::commit_by", unfold="commitPlanned")
straight("doors::commit", said="(kept-so s door audit-now)")
straight("doors::audit_line_by", unfold="auditLineBy lineFound auditShown auditSought")
straight("doors::audit_line", said="(audit-line-so s i audit-now)")
