"""What ./check-log compares: the slots that a listing of domelink books, and
the streams that left.  Both are read line by line, and no more is kept than
counts, the first faults, and the bookings of two windows."""
