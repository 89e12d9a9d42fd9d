"""When a tile arrives, and how many cells keep it so.

A source with tiles waiting asks for its share of them in each frame; the
frames are counted by doing so.  A tile that is asked for in frame f comes up
on link number m in frame f + m at the latest, so at the latest in that
frame's last slot, if it came in the first slot of frame 0.
"""

FRAME, SHARE = 3, 4             # refusals
SLOTS = range(1, 65)
LINKS = range(1, 15)
BURSTS = range(1000)


def frames_behind(share, burst):
    """The frames until tiles beyond the share have all been asked for."""
    frames = 0
    while burst > 0:
        burst -= share
        frames += 1
    return frames


def is_question(links, burst):
    return links in LINKS and burst in BURSTS


def bounds(slots, links, share, burst):
    """The refusal or 0, and the slots, the cells, and those where a tile is
    shown first."""
    if slots not in SLOTS:
        return FRAME, None
    if share not in range(1, slots + 1):
        return SHARE, None
    last_frame = frames_behind(share, burst) + links
    last_slot = [slot for slot in range((last_frame + 1) * slots)][-1]
    return 0, (last_slot, share + share, share + share + share)
