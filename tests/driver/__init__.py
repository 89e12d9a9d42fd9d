"""The driver: programs started on call files, their listings compared with
the simulator's, and the tests counted."""
