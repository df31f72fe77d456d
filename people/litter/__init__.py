"""From a table of litters to a report: the parts of the command `litterfit`."""
