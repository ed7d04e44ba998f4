"""The forms by name. A form is imported only if it is asked for."""
from __future__ import annotations

from .found import Found


def text_of_form(form: str, found: Found) -> str:
    """The text of a form."""
    if form == "page":
        from .page import page
        return page(found)
    if form == "sarif":
        from .sarif import sarif
        return sarif(found)
    if form == "junit":
        from .junit import junit
        return junit(found)
    from .as_json import json_of_run
    return json_of_run(found)
