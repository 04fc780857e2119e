"""Turns documents of CSV files, JSON lines and JSON arrays into a script. From below: `faults`, `limits`, `lines` (a file's
lines), `json_text` (values with their places), `table` (rows of a CSV file), `documents` (those of a file in each format),
`names`, `dates`, `fields` (types and values), `requests`, `script` (what is written), `command` (the words)."""
