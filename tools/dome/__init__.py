"""What ./dome is made of: a show file read, its plans asked for, written and
played.  The plans and the refusals are domeshow's, the bounds domeplan's, and
the links are played by domelink; all three are proved, and no rule of theirs
stands here."""
