"""Give a copied folder a site of its own, so that nothing that is made there goes by the site of the folder from which it was copied.

    move_to_new_site(folder)
"""
from __future__ import annotations

import os
from pathlib import Path

from ..base.journal_lines import JOURNAL, CannotStart
from ..journal.entries import write_entry
from ..journal.journal import journal_lines, put_in_place, sync_folder
from ..journal.naming import new_site
from .mend import read_damaged


def move_to_new_site(folder: Path) -> str:
    """Write the journal of a folder, which no server uses, for a new site, and return that. Operations keep the site where they were made.
    Raise `CannotStart` if a line of the journal cannot be read."""
    state, left_out = read_damaged(folder)
    if left_out:
        raise CannotStart(f"{folder / JOURNAL}: {left_out[0]}. A new folder can be made from all other lines: live/road mend {folder} NEW_FOLDER")
    state.site = new_site(state.site.rpartition("-")[0])
    os.close(put_in_place(folder / JOURNAL, journal_lines(write_entry(one, state.site) for one in state.entries())))
    sync_folder(folder)
    return state.site
