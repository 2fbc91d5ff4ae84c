# One command over the first lines of arrays, lent for its time.
types("trials", structs=["trials::lend::Lent"])
straight("trials::lend::put", unfold="lentBy", apart=True,
         said="(all-there s c archive log audit months events changes (archive-fine .1 .0 .1) (log-fine .1 .0 .1) (audit-fine .1 .0 .1))")
