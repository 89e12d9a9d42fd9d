"""Link images (rules 12.1 to 12.6): when one is taken, told from its bytes,
and images that try it.

An image is compared with the simulator's byte by byte, and what stands in the
buffer past it has to stay.  The tests are of six sorts:

- call files: every file that goes through allcalls goes through the exports
  too, with the image compared at the end, and after each call where the file
  is short or is one that is fed in pieces, in twelve long files with lends
  over changing masks, and in five files whose numbers go round.  A burst is
  made as single requests there.  The C player plays them all and has to write
  the same listing;
- images by hand: whole ones after some calls; for each condition images that
  break it and no other, and images at its edge that are taken; images that
  are cut off, and images of earlier versions; numbers with a high byte, which
  must not be cut to the low one; quiet images with what a reset leaves of
  them, and nearly quiet ones.  On each of them 26 calls are made, of every
  sort, and on what a reset leaves too;
- images by chance, ten for each seed, with a call on each.  They are made
  field by field and not by calls, and two in three are changed then.  As many
  more are quiet or nearly so, with a reset on each; as many have a free slot,
  with a lend on each; and as many have a well-formed request on each;
- fresh, from plans of all sorts into buffers of several lengths, one byte too
  short and just long enough among them;
- small images spoilt in every place: at each length from 0 on, and with each
  byte changed, with calls and a check on all of them; plays by hand, by
  chance, and one that is spoilt so, its records and its room too;
- what is seen in images of all these sorts by the functions that look into
  one, at flows and positions that are there and at others.

The first host is in C.  Two more make the same calls by the wrappers for Rust
and for Python, on the images by hand and on some by chance.

That acceptance.py is right is tested with no library: on the images by hand,
on every image that some generated files lead to, on what calls make of taken
images by chance, which has to be taken again; and each condition has to be
broken alone among those by chance."""
