"""Pictures of the page: of 5, 12 and 64 points, on three screens, light and dark."""

import functools
import itertools

from shared import forecourts, page_day
from shared.browser import SCREEN, TELEPHONE, WIDE, open_page, start_browser

# By how many points there are: their day, and the last of them.
DAYS = {
    5: (functools.partial(forecourts.make_crowded_day, numbers=range(60, 65)), 64),
    12: (forecourts.make_busy_day, 12),
    64: (forecourts.make_crowded_day, 64),
}
SCREENS = {"wide": WIDE, "screen": SCREEN, "telephone": TELEPHONE}


def draw(program, folder, count):
    """Draws the page of so many points into the folder, as `12_screen_light.png`; gives each
    picture with its size."""
    make, last = DAYS[count]
    folder.mkdir(parents=True, exist_ok=True)
    with page_day.start_busy(program, make()) as (page, _), start_browser() as browser:
        for (name, size), how in itertools.product(SCREENS.items(), ("light", "dark")):
            open_page(browser, page, size, how == "dark", last)
            file = folder / f"{count}_{name}_{how}.png"
            file.write_bytes(browser.picture())
            yield file, size
