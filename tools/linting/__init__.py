"""The parts of tools/lint.

`texts` takes bytes for text, `mending` tells what isn't JSON and mends it, and `reading` reads what the text says and finds the places
of its parts. `form` and `checks` tell all that the program refuses, and `cautions` what it accepts and then fails or misleads;
`services` has the local services, `values` depths and lengths, `words` near names and the words of other systems. `findings` has what
was found and how it is said, `program` the program's word, and `document` puts all together.
"""
