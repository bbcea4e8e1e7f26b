"""What `tools/show` is made of: a report of `run` (docs/FORMATS.md, "Report") told so that people can read it."""
