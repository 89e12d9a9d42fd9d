"""Tick: rules 8.1 to 8.3."""


def change_frame(link, old_head):
    """Flows still at the old head go on with a full share.  Its slots need no
    emptying, since their numbers don't come again; holdings go on."""
    for number, flow in enumerate(link.flows):
        if flow.frame == old_head:
            flow.frame += 1
            flow.left = link.plan.share(number)
        flow.fold(link.first_slot())


def tick(link):
    old_head = link.head_frame()
    link.ticks += 1
    if link.head_frame() != old_head:
        change_frame(link, old_head)
    return "T", link.owner.get(link.ticks, "-")
