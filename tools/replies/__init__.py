"""Shows replies as a person reads them. From below: `reading` (a line into what it says), `faults` (faults in words), `text`
(names and values as they are shown), `terminal`, `page` with `style` and `histogram`, `command` (the words)."""
