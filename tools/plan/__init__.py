"""What ./plan is made of: numbers and texts read, questions put to domeplan,
and its answers in words, as tables and as JSON.  Whether a plan passes, what
is wrong with it and what its bytes are is domeplan's, which is proved; no rule
of it stands here."""
