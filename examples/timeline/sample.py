#!/usr/bin/env python3
"""Makes up some users, who follow one another and post.

    python3 sample.py [--pequod 127.0.0.1:7000] [--data timeline.sqlite]
"""

import random

from app import now, reader, site

USERS = ("ann", "bob", "cleo", "dag", "eva", "finn", "gita", "hugo")
POSTS = (
    "The lighthouse at the point is open again on Sundays.",
    "Fog until ten, then the clearest day of the year.",
    "Does anybody have a spare oar? Ours went down the river.",
    "Bread is in the oven. Come by at six.",
    "<b>Tags</b> & \"quotes\" are shown as they are written.",
    "Three whales off the north cape this morning!\nTwo large ones and a calf.",
    "Der B\u00e4cker hat wieder Zimtschnecken. \u3042\u308a\u304c\u3068\u3046!",
    "I finished the long book. It is about a ship, mostly.",
    "The 7:40 ferry runs late today.",
    "New paint on the boat: green this time. \U0001f433",
    "Looking for someone to share a garden with.",
    "Choir practice moved to Thursday.",
)


def main():
    truth, cache = site(reader(__doc__).parse_args())
    draw = random.Random(7)
    end = now()
    for user in USERS:
        for poster in draw.sample([other for other in USERS if other != user], 4):
            cache.write(truth.follow, user, poster)
        for text in draw.sample(POSTS, 5):
            cache.write(truth.post, user, end - draw.randrange(5 * 86_400_000_000), text)
    print(f"{len(USERS)} users")


if __name__ == "__main__":
    main()
