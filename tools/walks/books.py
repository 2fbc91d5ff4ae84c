# The functions that store into the books and read them: one text with names and sizes filled in.
for book in ("log", "audit", "archive"):
    ring("books::write_" + book)
    fetch("books::fetch_" + book)
