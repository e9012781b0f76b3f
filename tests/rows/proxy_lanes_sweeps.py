"""A lane that is filled, for proxy_lanes."""

from table import Row


def full_lane():
    """1,024 batches go in, the next one comes back, and the carrier takes them in order."""
    row = Row("a_lane_takes_1024_posts_and_hands_back_the_next")
    for part in range(1024):
        row.call(f"lanes post 0 0.0.{part} 0 plain GET a")
        row.call("lanes told 0", "none")
        row.call("lanes newcomer 0", "none")
        row.call("lanes node 0 3300", "none")
    row.call("lanes post 0 0.0.1024 0 plain GET a", "back 0.0.1024 0 plain GET a")
    for part in range(1024):
        row.call("lanes take 0", f"0.0.{part} 0 plain GET a")
    row.call("lanes take 0", "none")
    row.call("lanes post 0 0.0.1025 0 plain GET a")
    return row


def rows():
    return [full_lane()]
