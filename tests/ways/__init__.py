"""A stream's way over several links: when its tiles arrive (rules 22.6 to
22.10).

A way is one to five call files, one for each link that the stream goes over,
written side by side while they are simulated.  The stream asks for at most its
share in a frame of the first link, and on each later one for every tile, in
the slot in which it comes or ahead of it.  Its cells are credited as the tile
comes up at the next board, dated the slot granted there, and on the last link
as it comes up or when it was shown.  Neighbours ask until they are refused,
and slots are lent to them.

Each link is played, and its listing has to be the simulator's.  What comes of
the way is told from the call files and the listings alone: each tile has to be
granted on each link, on link number j at the latest j frames after the one in
which it was due on the first, and fewer than (j + 1) x F slots after that
slot.  The bound has to be attained on ways of every length.  In one kind tiles
come to the source in bursts, and the bound is from the slot in which they
came, with the frames of the burst; it has to be attained too.  In another the
cells are one fewer than are enough, and some of its ways have to break.  By
hand there are ways in which a reset, a lent slot, a cell too few and a tile
more than the share break it."""
