# The lines of a block, put to a desk one after another.
types("desk", structs=["Desk", "Input", "Response", "Served"], enums=["commands::Entry"])
fetch("desk::fetch_input")
put("desk::put_response")
rounds("desk::serve", carried={6: ("s", "after d inputs k .state"), 7: ("sound", "soundAfter d inputs k"), 8: ("archive", "after d inputs k .archive"), 9: ("log", "after d inputs k .log"), 10: ("audit", "after d inputs k .audit"), 11: ("responses", "responsesUpTo d inputs k")},
       opening="after soundAfter responsesUpTo", turning="after deskAfter seenOn turnOn soundAfter responsesUpTo responseOn", said="(served-after d inputs count k last)")
